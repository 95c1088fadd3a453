/* A connection from its beginning to its end: connecting, stepping, waiting. */
#include "connection.h"

#include <errno.h>
#include <openssl/crypto.h>
#include <stdio.h>
#include <stdlib.h>
#include <string.h>
#include <sys/socket.h>
#include <unistd.h>

enum { LEAVING_MS = 3000, MOST_POLLS = 2 * MOST_JOINS + 512 };

uint32_t sazh_abi(void) { return SAZH_ABI; }

/* ---- settings */

void sazh_settings_default(sazh_settings *to) {
  *to = (sazh_settings){.size = sizeof *to, .family = AF_UNSPEC, .connect_seconds = 30, .exchange_seconds = 60, .keepalive_max = 3,
                        .rekey_bytes = 1ull << 30, .rekey_packets = 1ull << 31, .rekey_seconds = 3600, .window = 2097152};
}

static bool copy_setting(char **to, const char *from) {
  *to = from == NULL ? NULL : copy_text(text_of(from));
  return from == NULL || *to != NULL;
}

static void fill_in(sazh_settings *it) {
  sazh_settings usual;
  sazh_settings_default(&usual);
  if (it->rekey_bytes == 0) it->rekey_bytes = usual.rekey_bytes;
  if (it->rekey_packets == 0) it->rekey_packets = usual.rekey_packets;
  if (it->rekey_seconds == 0) it->rekey_seconds = usual.rekey_seconds;
  if (it->window == 0) it->window = usual.window;
}

sazh_code sazh_new(sazh_connection **made, const sazh_settings *settings) {
  *made = NULL;
  if (settings != NULL && settings->size != sizeof *settings) return SAZH_MISUSE;
  if (settings != NULL && settings->ciphers != NULL && !cipher_names_known(text_of(settings->ciphers))) return SAZH_MISUSE;
  if (settings != NULL && settings->host_key_algorithms != NULL && !host_key_names_known(text_of(settings->host_key_algorithms))) return SAZH_MISUSE;
  if (settings != NULL && settings->host_key_alias != NULL && !host_is_name(text_of(settings->host_key_alias))) return SAZH_BAD_NAME;
  sazh_connection *it = calloc(1, sizeof *it);
  if (it == NULL) return SAZH_NO_MEMORY;
  sazh_settings_default(&it->set);
  if (settings != NULL) it->set = *settings;
  fill_in(&it->set);
  it->blocking = true;
  it->socket = it->dial.file = it->login.agent.socket = -1;
  if (copy_setting(&it->ciphers, it->set.ciphers) && copy_setting(&it->algorithms, it->set.host_key_algorithms) &&
      copy_setting(&it->alias, it->set.host_key_alias)) {
    *made = it;
    return SAZH_OK;
  }
  sazh_free(it);
  return SAZH_NO_MEMORY;
}

static void free_parts(sazh_connection *it) {
  core_free(&it->core);
  transport_free(&it->line);
  hosts_free(&it->hosts);
  login_free(&it->login);
  bytes *all[] = {&it->early, &it->todo, &it->ordered, &it->name};
  for (size_t i = 0; i < 4; i++) bytes_free(all[i]);
  char *texts[] = {it->ciphers, it->algorithms, it->alias, it->host, it->look, it->agent_path};
  for (size_t i = 0; i < 6; i++) free(texts[i]);
}

void sazh_free(sazh_connection *it) {
  if (it == NULL || it->inside) return;
  if (it->phase == PHASE_OPEN && may_ask(it)) {
    size_t begun;
    bytes *to = todo_begin(it, SSHC_EVENT_DISCONNECT, &begun);
    put_u32(to, SSHC_DISCONNECT_BY_APPLICATION);
    put_text(to, "bye");
    put_text(to, "");
    todo_end(it, begun);
    run_todo(it);
    transport_write(&it->line);
  }
  it->phase = PHASE_OVER;
  joins_free(it);
  forwards_free(it);
  for (sazh_channel *at = it->channels; at != NULL; at = at->next) at->is_owned = false;
  channels_sweep(it);
  dial_end(&it->dial);
  if (it->socket >= 0) close(it->socket);
  if (it->jump_channel != NULL) sazh_channel_free(it->jump_channel);
  free_parts(it);
  free(it);
}

sazh_code sazh_hosts_file(sazh_connection *it, const char *path, bool must_exist) {
  if (it == NULL || it->inside || it->phase != PHASE_NEW || path == NULL) return SAZH_MISUSE;
  int error = hosts_add(&it->hosts, path, must_exist);
  if (error == 0) return SAZH_OK;
  if (error == ENOMEM) return note(it, SAZH_NO_MEMORY, "out of memory");
  note(it, SAZH_HOSTS_FILE, "%s can't be read: %s", path, strerror(error));
  snprintf(it->failed.file, sizeof it->failed.file, "%s", path);
  it->failed.error.system = error;
  return SAZH_HOSTS_FILE;
}

sazh_code sazh_hosts_narrow(sazh_connection *it, bool narrow) {
  if (it == NULL || it->inside || it->phase != PHASE_NEW) return SAZH_MISUSE;
  it->is_narrow = narrow;
  return SAZH_OK;
}

/* ---- connecting */

bool sazh_is_host_name(const char *text) { return text != NULL && host_is_name(text_of(text)); }

/* Names are looked up in lower case, as OpenSSH writes them; the session compares byte by byte. */
static void lower(char *text) {
  for (; *text != 0; text++)
    if (*text >= 'A' && *text <= 'Z') *text = (char)(*text - 'A' + 'a');
}

static sazh_code begin(sazh_connection *it, const char *host, uint16_t port) {
  if (it == NULL || it->inside || it->phase != PHASE_NEW || host == NULL) return SAZH_MISUSE;
  if (!host_is_name(text_of(host))) return end(it, SAZH_BAD_NAME, "%s: %s", sazh_code_text(SAZH_BAD_NAME), host);
  it->host = copy_text(text_of(host));
  it->look = copy_text(text_of(it->alias != NULL ? it->alias : host));
  if (it->host == NULL || it->look == NULL) return end_no_memory(it);
  lower(it->look);
  it->port = port;
  it->look_port = it->alias != NULL ? 22 : port;
  const char *all = it->algorithms;
  bool done = put_host_name(&it->name, text_of(it->look), it->look_port);
  put_u8(&it->name, 0);
  if (all == NULL) done = done && hosts_order(&it->hosts, it->is_narrow, text_of(it->look), it->look_port, DEFAULT_HOST_KEYS, &it->ordered);
  if (!done || it->name.bad) return end_no_memory(it);
  it->deadline = it->set.connect_seconds == 0 ? 0 : now_ms() + it->set.connect_seconds * 1000ull;
  return SAZH_OK;
}

static void start(sazh_connection *it, wire over) {
  it->phase = PHASE_EXCHANGING;
  transport_start(&it->line, over, it->ciphers != NULL ? it->ciphers : DEFAULT_CIPHERS,
                  it->algorithms != NULL ? it->algorithms : (const char *)bytes_front(&it->ordered));
}

static bool is_connected(const void *of) {
  const sazh_connection *it = of;
  return it->phase != PHASE_DIALLING && it->phase != PHASE_EXCHANGING;
}

sazh_code sazh_wait_connect(sazh_connection *it) {
  if (it == NULL || it->inside || it->phase == PHASE_NEW) return SAZH_MISUSE;
  sazh_code code = until(it, is_connected, it);
  if (code == SAZH_AGAIN) return code;
  if (it->phase == PHASE_OVER) return it->failed.error.code;
  return it->phase == PHASE_ASKING ? SAZH_HOST_UNKNOWN : SAZH_OK;
}

sazh_code sazh_connect(sazh_connection *it, const char *host, uint16_t port) {
  sazh_code code = begin(it, host, port);
  if (code != SAZH_OK) return code;
  if (!dial_begin(&it->dial, host, port, it->set.family, it->set.connect_seconds))
    return end(it, SAZH_NO_ADDRESS, "%s: %s", sazh_code_text(SAZH_NO_ADDRESS), host);
  it->phase = PHASE_DIALLING;
  return sazh_wait_connect(it);
}

sazh_code sazh_connect_fd(sazh_connection *it, int socket, const char *host, uint16_t port) {
  sazh_code code = begin(it, host, port);
  if (code != SAZH_OK) {
    close(socket);
    return code;
  }
  it->socket = socket;
  set_socket(socket);
  start(it, wire_of(&it->socket));
  return sazh_wait_connect(it);
}

sazh_code sazh_connect_through(sazh_connection *it, sazh_connection *jump, const char *host, uint16_t port) {
  if (jump == NULL || jump->phase != PHASE_OPEN || jump == it) return SAZH_MISUSE;
  sazh_code code = begin(it, host, port);
  if (code != SAZH_OK) return code;
  it->jump_channel = open_tcp(jump, host, port, "127.0.0.1", 0);
  if (it->jump_channel == NULL) return end_no_memory(it);
  it->jump = jump;
  start(it, wire_of_channel(it->jump_channel));
  return sazh_wait_connect(it);
}

sazh_host_key sazh_host_key_of(const sazh_connection *it) {
  slice blob = bytes_slice(&it->line.host_key);
  return (sazh_host_key){it->key_type, it->fingerprint, blob.at, blob.len, it->name.at == NULL ? "" : (const char *)bytes_front(&it->name),
                         it->hosts.count == 0 ? "" : it->hosts.files[0].path};
}

sazh_code sazh_host_accept(sazh_connection *it, bool learn) {
  if (it == NULL || it->inside || it->phase != PHASE_ASKING) return SAZH_MISUSE;
  slice key = bytes_slice(&it->line.host_key);
  int error = hosts_learn(&it->hosts, text_of(it->look), it->look_port, key, learn);
  if (error == ENOMEM) return end_no_memory(it);
  if (error == EINVAL) return end(it, SAZH_BAD_NAME, "%s: %s", sazh_code_text(SAZH_BAD_NAME), it->look);
  it->inside = true;
  begin_session(it);
  it->inside = false;
  if (it->phase == PHASE_OVER) return it->failed.error.code;
  if (error == 0) return SAZH_OK;
  note(it, SAZH_HOSTS_FILE, "%s can't be written: %s", it->hosts.count == 0 ? "a known hosts file" : it->hosts.files[0].path, strerror(error));
  it->failed.error.system = error;
  return SAZH_HOSTS_FILE;
}

sazh_names sazh_names_of(const sazh_connection *it) {
  const char *version = it->line.peer_version == NULL ? "" : it->line.peer_version;
  return (sazh_names){version, it->kex, it->host_algorithm, it->cipher_out, it->cipher_in, it->mac_out, it->mac_in, it->line.strict};
}

/* ---- stepping */

static void dial_on(sazh_connection *it) {
  dialled how = dial_step(&it->dial);
  if (how == DIAL_WAITS) return;
  it->changes++;
  if (how == DIAL_DONE) {
    it->socket = dial_take(&it->dial);
    start(it, wire_of(&it->socket));
    return;
  }
  int error = it->dial.error;
  dial_end(&it->dial);
  end(it, error == ETIMEDOUT ? SAZH_TIMEOUT : SAZH_NO_CONNECTION, "can't connect to %s port %u: %s", it->host, (unsigned)it->port, strerror(error));
  it->failed.error.system = error;
}

/* A server that never ends a key exchange would hold the connection for ever, since no keepalive may go meanwhile. */
static void watch_exchange(sazh_connection *it, uint64_t now) {
  bool is_first = it->phase == PHASE_DIALLING || it->phase == PHASE_EXCHANGING;
  if (is_first && it->deadline != 0 && now >= it->deadline) end(it, SAZH_TIMEOUT, "%s: %s port %u", sazh_code_text(SAZH_TIMEOUT), it->host, (unsigned)it->port);
  if (it->phase != PHASE_OPEN && it->phase != PHASE_SECURED) return;
  if (it->line.state == KEX_IDLE) it->exchange_since = 0;
  else if (it->exchange_since == 0) it->exchange_since = now;
  else if (it->set.exchange_seconds != 0 && now - it->exchange_since >= it->set.exchange_seconds * 1000ull)
    end(it, SAZH_TIMEOUT, "the server took too long to exchange keys");
}

static void timers(sazh_connection *it) {
  uint64_t now = now_ms();
  watch_exchange(it, now);
  if (it->phase != PHASE_OPEN || it->line.state != KEX_IDLE) return;
  bool is_old = now - it->begun_exchange >= it->set.rekey_seconds * 1000ull;
  if (it->rekey_asked || is_old || transport_is_worn(&it->line, it->set.rekey_bytes, it->set.rekey_packets)) {
    it->rekey_asked = false;
    core_event(&it->core, SSHC_EVENT_REKEY_LIMIT);
    deliver(it);
    return;
  }
  uint64_t pause = it->set.keepalive_seconds * 1000ull;
  if (pause == 0 || now < it->next_keepalive) return;
  if (it->next_keepalive != 0) {
    core_event(&it->core, SSHC_EVENT_KEEPALIVE_TIMER);
    deliver(it);
  }
  it->next_keepalive = now + pause;
}

static void step(sazh_connection *it) {
  if (it->phase == PHASE_NEW || it->phase == PHASE_ASKING) return;
  if (it->phase == PHASE_DIALLING) dial_on(it);
  if (it->phase == PHASE_DIALLING || it->phase == PHASE_OVER) {
    watch_exchange(it, now_ms());
    joins_move(it);
    return;
  }
  transport_read(&it->line);
  take_arrivals(it);
  timers(it);
  run_todo(it);
  forwards_accept(it);
  joins_move(it);
  run_todo(it);
  if (it->phase == PHASE_OPEN) channels_give(it);
  transport_write(&it->line);
  channels_sweep(it);
}

uint64_t sazh_changes(const sazh_connection *it) { return it->changes + it->line.written; }

sazh_code sazh_step(sazh_connection *it) {
  if (it == NULL || it->inside) return SAZH_MISUSE;
  if (it->jump != NULL) sazh_step(it->jump);
  it->inside = true;
  step(it);
  it->inside = false;
  if (it->jump != NULL) sazh_step(it->jump);
  return it->phase == PHASE_OVER ? it->failed.error.code : SAZH_OK;
}

/* ---- waiting */

size_t add_poll(struct pollfd *to, size_t room, size_t count, int file, short events) {
  if (file < 0 || events == 0) return count;
  if (count < room) to[count] = (struct pollfd){.fd = file, .events = events};
  return count + 1;
}

size_t sazh_poll(const sazh_connection *it, struct pollfd *to, size_t room) {
  size_t count = it->jump == NULL ? 0 : sazh_poll(it->jump, to, room);
  if (it->phase == PHASE_DIALLING) count = add_poll(to, room, count, it->dial.file, POLLOUT);
  bool is_live = it->phase == PHASE_EXCHANGING || it->phase == PHASE_SECURED || it->phase == PHASE_OPEN;
  if (is_live && it->jump == NULL) {
    bool waits = transport_waiting(&it->line) != 0;
    count = add_poll(to, room, count, it->socket, (short)((it->line.closed ? 0 : POLLIN) | (waits ? POLLOUT : 0)));
  }
  count = forwards_poll(it, to, room, count);
  return joins_poll(it, to, room, count);
}

static void sooner(uint64_t *at, uint64_t other) {
  if (other != 0 && (*at == 0 || other < *at)) *at = other;
}

int sazh_timeout(const sazh_connection *it) {
  uint64_t at = 0, now = now_ms();
  if (it->phase == PHASE_DIALLING || it->phase == PHASE_EXCHANGING) sooner(&at, it->deadline);
  if (it->phase == PHASE_DIALLING) sooner(&at, it->dial.until);
  if (it->phase == PHASE_OPEN && it->line.state == KEX_IDLE) {
    sooner(&at, it->begun_exchange + it->set.rekey_seconds * 1000ull);
    if (it->set.keepalive_seconds != 0) sooner(&at, it->next_keepalive == 0 ? now : it->next_keepalive);
  }
  if (it->exchange_since != 0 && it->set.exchange_seconds != 0) sooner(&at, it->exchange_since + it->set.exchange_seconds * 1000ull);
  for (const join *one = it->joins; one != NULL; one = one->next)
    if (one->state == JOIN_DIALLING) sooner(&at, one->dial.all == NULL ? now : one->dial.until);
  if (forwards_wait(it)) sooner(&at, now + 1000);
  bool is_live = it->phase == PHASE_EXCHANGING || it->phase == PHASE_SECURED || it->phase == PHASE_OPEN;
  if (is_live && it->jump_channel != NULL && bytes_count(&it->jump_channel->in[0]) != 0) sooner(&at, now); /* a step reads only some */
  int own = at == 0 ? -1 : at <= now ? 0 : at - now > 3600000 ? 3600000 : (int)(at - now);
  int outer = it->jump == NULL ? -1 : sazh_timeout(it->jump);
  return outer < 0 || (own >= 0 && own < outer) ? own : outer;
}

sazh_code sazh_turn(sazh_connection *it, int milliseconds) {
  if (it == NULL || it->inside) return SAZH_MISUSE;
  struct pollfd all[MOST_POLLS];
  size_t count = sazh_poll(it, all, MOST_POLLS);
  int own = sazh_timeout(it);
  if (milliseconds < 0 || (own >= 0 && own < milliseconds)) milliseconds = own;
  if (poll(all, count < MOST_POLLS ? count : MOST_POLLS, milliseconds) < 0 && errno != EINTR)
    return end(it, SAZH_SYSTEM, "poll: %s", strerror(errno));
  return sazh_step(it);
}

sazh_code until(sazh_connection *it, bool (*is_done)(const void *of), const void *of) {
  sazh_step(it);
  while (!is_done(of)) {
    if (!it->blocking) return SAZH_AGAIN;
    if (it->phase == PHASE_OVER) break;
    sazh_turn(it, -1);
  }
  return SAZH_OK;
}

void sazh_set_blocking(sazh_connection *it, bool blocking) { it->blocking = blocking; }

sazh_code sazh_rekey(sazh_connection *it) {
  if (it == NULL || it->inside || it->phase != PHASE_OPEN) return SAZH_MISUSE;
  it->rekey_asked = true;
  return SAZH_OK;
}

void sazh_disconnect(sazh_connection *it, const char *words) {
  if (it == NULL || it->inside || (it->phase != PHASE_OPEN && it->phase != PHASE_SECURED)) return;
  uint64_t last = now_ms() + LEAVING_MS;
  while (!may_ask(it) && it->phase != PHASE_OVER && now_ms() < last) sazh_turn(it, 100);
  if (it->phase == PHASE_OVER || !may_ask(it)) return;
  size_t begun;
  bytes *to = todo_begin(it, SSHC_EVENT_DISCONNECT, &begun);
  put_u32(to, SSHC_DISCONNECT_BY_APPLICATION);
  put_text(to, words == NULL ? "" : words);
  put_text(to, "");
  todo_end(it, begun);
  run_todo(it);
  while (transport_waiting(&it->line) != 0 && now_ms() < last) {
    transport_write(&it->line);
    struct pollfd one = {.fd = it->socket, .events = POLLOUT};
    if (it->jump != NULL) sazh_turn(it->jump, 100);
    else if (transport_waiting(&it->line) != 0) poll(&one, 1, 100);
  }
}
