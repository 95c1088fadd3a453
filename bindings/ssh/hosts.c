#include "hosts.h"

#include "crypto.h"

#include <errno.h>
#include <fcntl.h>
#include <sazhonthil.h>
#include <stdio.h>
#include <stdlib.h>
#include <string.h>
#include <unistd.h>

void hosts_free(hosts *it) {
  for (size_t i = 0; i < it->count; i++) free(it->files[i].path);
  bytes_free(&it->text);
  *it = (hosts){0};
}

static int read_whole(const char *path, bool must_exist, bytes *to) {
  int file = open(path, O_RDONLY | O_CLOEXEC);
  if (file < 0) return errno == ENOENT && !must_exist ? 0 : errno;
  int error = 0;
  for (;;) {
    uint8_t *at = bytes_room(to, 65536);
    ssize_t got = at == NULL ? -1 : read(file, at, 65536);
    if (got > 0) bytes_grew(to, (size_t)got);
    if (got > 0 || (got < 0 && at != NULL && errno == EINTR)) continue;
    if (got < 0) error = at == NULL ? ENOMEM : errno;
    break;
  }
  close(file);
  return error;
}

static uint64_t lines_of(slice text) {
  uint64_t count = 0;
  for (size_t i = 0; i < text.len; i++) count += text.at[i] == '\n';
  return count;
}

int hosts_add(hosts *it, const char *path, bool must_exist) {
  if (it->count == MOST_HOSTS_FILES) return ENOSPC;
  char *name = copy_text(text_of(path));
  if (name == NULL) return ENOMEM;
  size_t before = bytes_count(&it->text);
  int error = read_whole(path, must_exist, &it->text);
  size_t len = bytes_count(&it->text) - before;
  /* the next file begins on a line of its own */
  if (error == 0 && len != 0 && bytes_front(&it->text)[before + len - 1] != '\n') put_u8(&it->text, '\n');
  if (error == 0 && it->text.bad) error = ENOMEM;
  if (error != 0) {
    free(name);
    it->text.len -= bytes_count(&it->text) - before;
    return error;
  }
  slice added = slice_of(len == 0 ? NULL : bytes_front(&it->text) + before, bytes_count(&it->text) - before);
  it->files[it->count++] = (hosts_file){name, lines_of(added), len};
  return 0;
}

const char *hosts_where(const hosts *it, uint64_t *line) {
  for (size_t i = 0; i < it->count; i++) {
    if (*line <= it->files[i].lines) return it->files[i].path;
    *line -= it->files[i].lines;
  }
  return "";
}

/* Commas, spaces and line feeds would make a line of two hosts, and the other signs mean something there. */
bool host_is_name(slice host) {
  if (host.len == 0 || host.len > 1024 || host.at[0] == '-') return false;
  for (size_t i = 0; i < host.len; i++) {
    uint8_t byte = host.at[i];
    bool is_letter = (byte >= 'a' && byte <= 'z') || (byte >= 'A' && byte <= 'Z') || (byte >= '0' && byte <= '9') || byte >= 0x80;
    if (!is_letter && (byte == 0 || strchr("-._:%+~", byte) == NULL)) return false;
  }
  return true;
}

bool put_host_name(bytes *to, slice host, uint16_t port) {
  char number[16];
  snprintf(number, sizeof number, "]:%u", (unsigned)port);
  if (port != 22) put_u8(to, '[');
  put(to, host.at, host.len);
  if (port != 22) put(to, number, strlen(number));
  return !to->bad;
}

/* ---- judging: by the core, in one of its two readings */

sshc_status hosts_judge(slice text, bool is_narrow, slice host, uint16_t port, slice key, uint64_t *line) {
  if (is_narrow) return sshc_known_hosts_check(host.at, host.len, port, text.at, text.len, key.at, key.len, line);
  return sshc_known_hosts_check_openssh(host.at, host.len, port, text.at, text.len, key.at, key.len, line);
}

/* ---- which keys there are for a host */

static slice next_word(slice *line) {
  while (line->len != 0 && (*line->at == ' ' || *line->at == '\t')) *line = slice_of(line->at + 1, line->len - 1);
  size_t len = 0;
  while (len < line->len && line->at[len] != ' ' && line->at[len] != '\t') len++;
  slice word = slice_of(line->at, len);
  *line = len == 0 ? (slice){NULL, 0} : slice_of(line->at + len, line->len - len);
  return word;
}

/* The key that stands in a line, whosever it is; false where none can be read. */
static bool key_of_line(slice line, bytes *key) {
  if (line.len != 0 && line.at[line.len - 1] == '\r') line.len--;
  slice names = next_word(&line);
  if (names.len == 0 || names.at[0] == '#' || names.at[0] == '@') return false;
  next_word(&line);
  return put_base64_of(key, next_word(&line));
}

/* A line counts where it alone, in the reading by which the host will be judged, has its key for the name. The port is a part
 * of the name here, so that no line for the host at another port counts. */
static void note_line(slice line, bool is_narrow, slice name, bytes *types) {
  bytes key = {0};
  uint64_t at = 0;
  if (key_of_line(line, &key) && hosts_judge(line, is_narrow, name, 22, bytes_slice(&key), &at) == SSHC_OK) {
    reader blob = read_slice(bytes_slice(&key));
    slice type = get_string(&blob);
    if (!list_has(bytes_slice(types), type)) {
      if (bytes_count(types) != 0) put_u8(types, ',');
      put(types, type.at, type.len);
    }
  }
  types->bad = types->bad || key.bad;
  bytes_free(&key);
}

static void note_lines(slice rest, bool is_narrow, slice name, bytes *types) {
  while (rest.len != 0) {
    const uint8_t *end = memchr(rest.at, '\n', rest.len);
    size_t len = end == NULL ? rest.len : (size_t)(end - rest.at);
    note_line(slice_of(rest.at, len), is_narrow, name, types);
    size_t skipped = end == NULL ? len : len + 1;
    rest = slice_of(rest.at + skipped, rest.len - skipped);
  }
}

static slice type_of_algorithm(slice algorithm) {
  return slice_is(algorithm, "rsa-sha2-512") || slice_is(algorithm, "rsa-sha2-256") ? text_of("ssh-rsa") : algorithm;
}

static void put_some(slice algorithms, slice types, bool known, bytes *to) {
  while (algorithms.len != 0) {
    slice name = next_name(&algorithms);
    if (list_has(types, type_of_algorithm(name)) != known) continue;
    if (bytes_count(to) != 0) put_u8(to, ',');
    put(to, name.at, name.len);
  }
}

bool hosts_order(const hosts *it, bool is_narrow, slice host, uint16_t port, const char *algorithms, bytes *to) {
  bytes name = {0}, types = {0};
  bool done = put_host_name(&name, host, port);
  slice text = bytes_slice(&it->text);
  if (done) note_lines(text, is_narrow, bytes_slice(&name), &types);
  /* where no line has the host at this port, OpenSSH takes those for the host */
  if (done && !is_narrow && port != 22 && bytes_count(&types) == 0) note_lines(text, false, host, &types);
  put_some(text_of(algorithms), bytes_slice(&types), true, to);
  put_some(text_of(algorithms), bytes_slice(&types), false, to);
  put_u8(to, 0); /* it is handed on as a text */
  done = done && !types.bad && !to->bad;
  bytes_free(&name);
  bytes_free(&types);
  return done;
}

/* ---- learning */

/* One write to the end, so that two programs that learn at once write two whole lines. */
static int append(const char *path, slice line) {
  int file = open(path, O_WRONLY | O_APPEND | O_CREAT | O_CLOEXEC, 0600);
  if (file < 0) return errno;
  ssize_t written = write(file, line.at, line.len);
  int error = written < 0 ? errno : (size_t)written != line.len ? ENOSPC : 0;
  if (close(file) != 0 && error == 0) error = errno;
  return error;
}

sshc_status hosts_line(slice host, uint16_t port, slice key, bytes *to) {
  size_t room = host.len + 2 * key.len + 256, size = 0;
  uint8_t *line = malloc(room);
  if (line == NULL) return SSHC_NO_MEMORY;
  sshc_status made = sshc_known_hosts_learn(host.at, host.len, port, NULL, 0, key.at, key.len, line, room, &size);
  size_t skipped = made == SSHC_OK && size != 0 && line[0] == '\n' ? 1 : 0; /* nothing stands before it */
  if (made == SSHC_OK) put(to, line + skipped, size - skipped);
  if (made == SSHC_OK && to->bad) made = SSHC_NO_MEMORY;
  free(line);
  return made;
}

/* Whether the first file's last line has no end of its own. hosts_add put one into the text, which `len` leaves out. */
static bool is_unended(const hosts *it) {
  return it->count != 0 && it->files[0].len != 0 && bytes_front(&it->text)[it->files[0].len - 1] != '\n';
}

int hosts_learn(hosts *it, slice host, uint16_t port, slice key, bool write_it) {
  if (!host_is_name(host)) return EINVAL;
  bytes line = {0};
  if (is_unended(it)) put_u8(&line, '\n');
  sshc_status made = hosts_line(host, port, key, &line);
  int error = made == SSHC_OK ? 0 : made == SSHC_NO_MEMORY ? ENOMEM : EINVAL;
  if (error == 0) put(&it->text, bytes_front(&line), bytes_count(&line));
  if (error == 0 && it->text.bad) error = ENOMEM;
  if (error == 0 && write_it) error = it->count == 0 ? ENOENT : append(it->files[0].path, bytes_slice(&line));
  bytes_free(&line);
  return error;
}
