/* Calls of the library in their order and out of it, blocking and not: library_calls PORT USER KEY OTHER_KEY KNOWN_HOSTS */
#define _POSIX_C_SOURCE 200809L
#include <sazhonthil_ssh.h>

#include <arpa/inet.h>
#include <stdio.h>
#include <stdlib.h>
#include <string.h>
#include <sys/socket.h>
#include <unistd.h>

static int wrong;
static char **words;

static void check(int holds, const char *what) {
  if (holds) return;
  wrong++;
  printf("wrong: %s\n", what);
}

static uint16_t port(void) { return (uint16_t)atoi(words[1]); }

static sazh_connection *made(const sazh_settings *settings, const char *hosts) {
  sazh_connection *it = NULL;
  check(sazh_new(&it, settings) == SAZH_OK, "new");
  if (hosts != NULL) check(sazh_hosts_file(it, hosts, true) == SAZH_OK, "a known hosts file");
  return it;
}

static sazh_key *key_of(const char *path) {
  sazh_key *key = NULL;
  check(sazh_key_read(&key, path, NULL, NULL, NULL, 0) == SAZH_OK && strcmp(sazh_key_type(key), "ssh-ed25519") == 0, "a key file");
  return key;
}

/* Over a socket of our own where `own` says so. */
static sazh_connection *logged_in_by(const sazh_settings *settings, int own) {
  sazh_connection *it = made(settings, words[5]);
  sazh_key *key = key_of(words[3]);
  struct sockaddr_in at = {.sin_family = AF_INET, .sin_port = htons(port()), .sin_addr.s_addr = htonl(INADDR_LOOPBACK)};
  int file = own ? socket(AF_INET, SOCK_STREAM, 0) : -1;
  check(!own || connect(file, (struct sockaddr *)&at, sizeof at) == 0, "a socket");
  check((own ? sazh_connect_fd(it, file, "localhost", port()) : sazh_connect(it, "localhost", port())) == SAZH_OK, "connect");
  check(sazh_login_key(it, words[2], key) == SAZH_OK, "a login by key");
  sazh_key_free(key);
  return it;
}

static sazh_connection *logged_in(void) { return logged_in_by(NULL, 0); }

/* ---- errors as values */

static void before_connecting(void) {
  sazh_settings settings;
  sazh_connection *it = NULL;
  sazh_channel *channel;
  sazh_settings_default(&settings);
  settings.ciphers = "rot13";
  check(sazh_new(&it, &settings) == SAZH_MISUSE && it == NULL, "a cipher that there isn't");
  it = made(NULL, NULL);
  check(sazh_error_of(it)->code == SAZH_OK, "no error yet");
  check(sazh_wait_connect(it) == SAZH_MISUSE && sazh_login_none(it, "me") == SAZH_MISUSE, "a login before the connection");
  check(sazh_open_session(it, &channel) == SAZH_MISUSE && channel == NULL, "a channel before the login");
  check(sazh_hosts_file(it, "/nowhere/at/all", true) == SAZH_HOSTS_FILE, "known hosts that aren't there");
  check(sazh_step(it) == SAZH_OK && sazh_poll(it, NULL, 0) == 0 && sazh_timeout(it) == -1, "nothing to be waited for");
  sazh_free(it);
  sazh_free(NULL);
  for (int code = 0; code <= SAZH_CANNOT_LISTEN; code++) check(strcmp(sazh_code_text((sazh_code)code), "an unknown error") != 0, "a text for each code");
  sazh_key *key;
  char why[200];
  check(sazh_key_read(&key, words[5], NULL, NULL, why, sizeof why) == SAZH_KEY_FILE && key == NULL && strstr(why, words[5]) != NULL, "no key file");
}

static void no_connection(void) {
  sazh_connection *it = made(NULL, NULL);
  check(sazh_connect(it, "127.0.0.1", 1) == SAZH_NO_CONNECTION && sazh_is_over(it) && sazh_error_of(it)->system != 0, "a port that nobody listens at");
  check(sazh_connect(it, "127.0.0.1", port()) == SAZH_MISUSE, "connecting twice");
  sazh_free(it);
  static const char *const NAMES[] = {"a,b", "a b", "a\nb", "", "-v", "*.example.org", "|1|x|y", "@revoked"};
  for (size_t i = 0; i < sizeof NAMES / sizeof *NAMES; i++) {
    it = made(NULL, NULL);
    check(sazh_connect(it, NAMES[i], port()) == SAZH_BAD_NAME, "a name that can't stand in the known hosts");
    sazh_free(it);
  }
  it = made(NULL, NULL);
  check(sazh_connect(it, "no-such-host.invalid", port()) == SAZH_NO_ADDRESS, "a name without an address");
  sazh_free(it);
}

static void unknown_hosts(void) {
  sazh_connection *it = made(NULL, NULL);
  sazh_channel *channel;
  check(sazh_connect(it, "LocalHost", port()) == SAZH_HOST_UNKNOWN && !sazh_is_over(it), "a host that isn't known");
  sazh_host_key key = sazh_host_key_of(it);
  char name[64];
  snprintf(name, sizeof name, "[localhost]:%u", (unsigned)port());
  check(strcmp(key.host, name) == 0 && strncmp(key.fingerprint, "SHA256:", 7) == 0 && strcmp(key.type, "ssh-ed25519") == 0 && key.blob_len == 51, "its key");
  check(strcmp(sazh_error_of(it)->fingerprint, key.fingerprint) == 0, "the error's fingerprint");
  check(sazh_login_none(it, "me") == SAZH_MISUSE && sazh_open_session(it, &channel) == SAZH_MISUSE, "nothing before it is accepted");
  check(sazh_host_accept(it, false) == SAZH_OK && sazh_login_none(it, words[2]) == SAZH_DENIED, "accepted for this time");
  check(strstr(sazh_methods(it), "publickey") != NULL && !sazh_is_partial(it), "the methods");
  sazh_free(it);
}

/* A pattern is one by default, and none where the narrow reading is asked for. */
static void narrow_hosts(void) {
  char path[] = "/tmp/sazh-narrow-XXXXXX";
  int file = mkstemp(path);
  sazh_connection *it = made(NULL, NULL);
  check(file >= 0 && sazh_connect(it, "localhost", port()) == SAZH_HOST_UNKNOWN, "a key that isn't known");
  check(sazh_hosts_narrow(it, true) == SAZH_MISUSE, "no other reading once it is connected");
  FILE *to = fdopen(file, "w"), *from = fopen(words[5], "r");
  char line[1000] = "", *key = from == NULL || fgets(line, sizeof line, from) == NULL ? NULL : strchr(line, ' ');
  check(to != NULL && key != NULL && fprintf(to, "*%s", key) > 0 && fclose(to) == 0, "a line for every host");
  if (from != NULL) fclose(from);
  sazh_free(it);
  for (int narrow = 0; narrow < 2; narrow++) {
    it = made(NULL, path);
    check(sazh_hosts_narrow(it, narrow) == SAZH_OK, "the reading");
    check(sazh_connect(it, "localhost", port()) == (narrow ? SAZH_HOST_UNKNOWN : SAZH_OK), narrow ? "no pattern" : "a pattern");
    check(!narrow || sazh_host_accept(it, false) == SAZH_OK, "a key that is accepted in the narrow reading");
    sazh_free(it);
  }
  check(sazh_hosts_narrow(NULL, true) == SAZH_MISUSE, "no connection");
  unlink(path);
}

static void logins(void) {
  sazh_connection *it = made(NULL, words[5]);
  sazh_key *other = key_of(words[4]), *key = key_of(words[3]);
  check(sazh_connect(it, "localhost", port()) == SAZH_OK, "connect");
  check(strcmp(sazh_names_of(it).kex, "curve25519-sha256") == 0 && sazh_names_of(it).is_strict, "what was agreed on");
  check(sazh_login_key(it, words[2], other) == SAZH_DENIED && !sazh_is_over(it), "a key that the server doesn't know");
  check(sazh_login_agent(it, words[2], "/nowhere/at/all") == SAZH_NO_AGENT && !sazh_is_over(it), "no agent");
  check(sazh_login_password(it, words[2], "x") == SAZH_DENIED, "a password that isn't taken");
  check(sazh_login_key(it, words[2], key) == SAZH_OK, "a key");
  check(sazh_login_key(it, words[2], key) == SAZH_MISUSE, "a second login");
  sazh_key_free(key);
  sazh_key_free(other);
  sazh_free(it);
}

/* ---- channels */

static void read_all(sazh_channel *from, sazh_stream stream, char *to, size_t room) {
  size_t at = 0, got;
  while (at + 1 < room && sazh_read(from, stream, to + at, room - 1 - at, &got) == SAZH_OK) at += got;
  to[at] = 0;
}

static void channels(void) {
  sazh_connection *it = logged_in();
  sazh_channel *one = NULL, *two = NULL, *none = NULL;
  char text[200];
  size_t taken;
  sazh_exit how;
  check(sazh_open_session(it, &one) == SAZH_OK && sazh_open_session(it, &two) == SAZH_OK, "two channels");
  check(sazh_command(one, "cat; echo done >&2; exit 3") == SAZH_OK && sazh_command(two, "echo two") == SAZH_OK, "two commands");
  check(sazh_write(one, "hello", 5, &taken) == SAZH_OK && taken == 5 && sazh_write_eof(one) == SAZH_OK && sazh_write(one, "x", 1, &taken) == SAZH_MISUSE, "bytes, and none after the end");
  read_all(two, SAZH_OUT, text, sizeof text);
  check(strcmp(text, "two\n") == 0 && sazh_wait_exit(two, &how) == SAZH_OK && how.has_status && how.status == 0, "the second command");
  read_all(one, SAZH_OUT, text, sizeof text);
  check(strcmp(text, "hello") == 0, "the first command's output");
  read_all(one, SAZH_ERR, text, sizeof text);
  check(strcmp(text, "done\n") == 0 && sazh_wait_exit(one, &how) == SAZH_OK && how.status == 3, "its errors and its status");
  while (!sazh_is_closed(two) && sazh_turn(it, 1000) == SAZH_OK) {}
  check(sazh_write(two, "x", 1, &taken) == SAZH_CHANNEL_CLOSED, "a channel that is closed");
  sazh_channel_free(one);
  sazh_channel_free(two);
  check(sazh_open_session(it, &one) == SAZH_OK && sazh_subsystem(one, "none-such") == SAZH_REQUEST_REFUSED && !sazh_is_over(it), "a subsystem that isn't there");
  sazh_channel_free(one);
  check(sazh_open_tcp(it, "127.0.0.1", 1, &none) == SAZH_CHANNEL_REFUSED && none == NULL && sazh_error_of(it)->reason == 2, "a port that nobody listens at");
  check(*sazh_error_of(it)->server_words != 0, "the server's words");
  check(sazh_open_session(it, &one) == SAZH_OK && sazh_command(one, "kill -TERM $$") == SAZH_OK, "a third command");
  read_all(one, SAZH_OUT, text, sizeof text);
  check(sazh_wait_exit(one, &how) == SAZH_OK && how.has_signal && strcmp(how.signal, "TERM") == 0, "its signal");
  sazh_disconnect(it, "bye");
  check(sazh_is_over(it) && sazh_open_session(it, &two) != SAZH_OK, "after the end");
  sazh_free(it);
}

/* A stream that isn't read stops the other, unless it is ignored. */
static void ignored_streams(void) {
  sazh_connection *it = logged_in();
  sazh_channel *one = NULL;
  char text[200];
  check(sazh_open_session(it, &one) == SAZH_OK && sazh_command(one, "head -c 9000000 /dev/zero >&2; echo done") == SAZH_OK, "many bytes of errors");
  sazh_ignore(one, SAZH_ERR);
  read_all(one, SAZH_OUT, text, sizeof text);
  check(strcmp(text, "done\n") == 0 && sazh_readable(one, SAZH_ERR) == 0, "the output after them");
  sazh_channel_free(one);
  sazh_free(it);
}

/* Over a socket of our own, with new keys after each 40 packets, of which there are some ninety. */
static void keys_by_packets(void) {
  sazh_settings settings;
  sazh_settings_default(&settings);
  settings.rekey_packets = 40;
  sazh_connection *it = logged_in_by(&settings, 1);
  sazh_channel *one = NULL;
  static char bytes[65536];
  size_t all = 0, got;
  check(sazh_open_session(it, &one) == SAZH_OK && sazh_command(one, "head -c 3000000 /dev/zero") == SAZH_OK, "many packets");
  while (sazh_read(one, SAZH_OUT, bytes, sizeof bytes, &got) == SAZH_OK) all += got;
  check(all == 3000000 && !sazh_is_over(it), "new keys after so many packets");
  sazh_channel_free(one);
  sazh_free(it);
}

/* ---- without waiting: a megabyte there and back, with new keys in the middle */

static char sent[1 << 20], came[1 << 20];

static void turn(sazh_connection *it) {
  struct pollfd all[16];
  size_t count = sazh_poll(it, all, 16);
  poll(all, count < 16 ? count : 16, sazh_timeout(it));
  sazh_step(it);
}

static void without_waiting(void) {
  sazh_connection *it = made(NULL, words[5]);
  sazh_channel *channel = NULL;
  sazh_key *key = key_of(words[3]);
  size_t there = 0, back = 0, some;
  memset(sent, 'x', sizeof sent);
  sazh_set_blocking(it, false);
  sazh_code code = sazh_connect(it, "localhost", port());
  for (; code == SAZH_AGAIN; code = sazh_wait_connect(it)) turn(it);
  check(code == SAZH_OK, "connect without waiting");
  for (code = sazh_login_key(it, words[2], key); code == SAZH_AGAIN; code = sazh_wait_login(it)) turn(it);
  check(code == SAZH_OK, "a login without waiting");
  check(sazh_open_session(it, &channel) == SAZH_AGAIN && channel != NULL, "a channel without waiting");
  check(sazh_command(channel, "cat") == SAZH_AGAIN, "a command before the channel is open");
  for (code = SAZH_AGAIN; code == SAZH_AGAIN; code = sazh_channel_wait(channel)) turn(it);
  check(code == SAZH_OK, "the channel is open, and the command was taken");
  while (code == SAZH_OK && back < sizeof came) {
    if (there == 262144) check(sazh_rekey(it) == SAZH_OK, "new keys");
    if (there < sizeof sent && sazh_write(channel, sent + there, sizeof sent - there < 65536 ? sizeof sent - there : 65536, &some) == SAZH_OK) there += some;
    code = sazh_read(channel, SAZH_OUT, came + back, sizeof came - back, &some);
    if (code == SAZH_OK) back += some;
    if (code == SAZH_AGAIN) turn(it), code = SAZH_OK;
  }
  check(back == sizeof came && memcmp(sent, came, sizeof came) == 0, "a megabyte there and back");
  sazh_key_free(key);
  sazh_free(it);
}

/* ---- forwards that end, and a connection that is told of what nobody asked for */

/* Whether somebody listens at a port of the loopback; then a line to it is left in *file. */
static int listens(uint16_t at_port, int *file) {
  struct sockaddr_in at = {.sin_family = AF_INET, .sin_port = htons(at_port), .sin_addr.s_addr = htonl(INADDR_LOOPBACK)};
  *file = socket(AF_INET, SOCK_STREAM, 0);
  if (*file >= 0 && connect(*file, (struct sockaddr *)&at, sizeof at) == 0) return 1;
  if (*file >= 0) close(*file);
  return 0;
}

static void ended_forwards(void) {
  sazh_connection *it = logged_in();
  sazh_forward *here = NULL, *there = NULL, *kept = NULL;
  sazh_end any = {"127.0.0.1", 0, NULL}, server = {"127.0.0.1", port(), NULL};
  int file;
  char text[8] = "";
  check(sazh_forward_local(it, &any, &server, &here) == SAZH_OK && sazh_forward_dynamic(it, &any, &kept) == SAZH_OK, "two forwards");
  check(sazh_forward_remote(it, &any, &server, &there) == SAZH_OK && sazh_forward_port(there) != 0, "one that the server listens for");
  uint16_t at = sazh_forward_port(here), far = sazh_forward_port(there);
  check(listens(at, &file), "the first one");
  uint64_t before = sazh_changes(it);
  for (int i = 0; i < 20 && recv(file, text, 4, MSG_DONTWAIT) != 4; i++) sazh_turn(it, 200);
  check(strcmp(text, "SSH-") == 0 && sazh_changes(it) > before, "what came through it");
  before = sazh_changes(it);
  check(sazh_step(it) == SAZH_OK && sazh_changes(it) == before, "nothing changes where nothing comes");
  sazh_forward_free(here);
  sazh_forward_free(there);
  sazh_forward_free(NULL);
  check(send(file, "x", 1, MSG_NOSIGNAL) == 1 && sazh_turn(it, 200) == SAZH_OK, "its connection goes on");
  close(file);
  check(!listens(at, &file), "nobody listens here");
  int ended = 0;
  for (int i = 0; i < 50 && !ended; i++) {
    sazh_turn(it, 50);
    ended = !listens(far, &file);
    if (!ended) close(file);
  }
  check(ended, "nobody listens there");
  sazh_free(it); /* with one that wasn't freed */
}

int main(int count, char **given) {
  if (count != 6) return 2;
  words = given;
  check(sazh_abi() == SAZH_ABI, "the number of the interface");
  before_connecting();
  no_connection();
  unknown_hosts();
  narrow_hosts();
  logins();
  channels();
  ignored_streams();
  keys_by_packets();
  without_waiting();
  ended_forwards();
  printf("library: calls in and out of order; wrong: %d\n", wrong);
  return wrong != 0;
}
