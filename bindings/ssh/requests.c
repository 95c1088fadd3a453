/* Requests of a session's channel (RFC 4254, section 6), and reading and writing for callers. */
#include "connection.h"

#include <stdlib.h>
#include <string.h>

static sazh_code may_request(sazh_channel *it) {
  if (it == NULL || it->of->inside) return SAZH_MISUSE;
  if (it->of->phase == PHASE_OVER) return it->of->failed.error.code;
  return it->is_closed || it->close_asked || it->is_refused ? note(it->of, SAZH_CHANNEL_CLOSED, "%s", sazh_code_text(SAZH_CHANNEL_CLOSED)) : SAZH_OK;
}

/* Hands in a request; where an answer is wanted it is waited for. */
static sazh_code request(sazh_channel *it, bytes *body, bool is_answered) {
  if (is_answered) it->asked++;
  channel_ask(it, body);
  return is_answered ? sazh_channel_wait(it) : SAZH_OK;
}

/* A request of a sort with a text, or none. */
static sazh_code text_request(sazh_channel *it, uint8_t sort, const char *text, bool has_text, bool is_answered) {
  sazh_code code = may_request(it);
  if (code != SAZH_OK) return code;
  if (has_text && text == NULL) return SAZH_MISUSE;
  bytes body = {0};
  put_u8(&body, sort);
  if (sort != SSHC_ASK_SIGNAL) put_u8(&body, is_answered);
  if (has_text) put_text(&body, text);
  return request(it, &body, is_answered);
}

static void put_size(bytes *to, uint32_t columns, uint32_t rows) {
  put_u32(to, columns);
  put_u32(to, rows);
  put_u32(to, 0);
  put_u32(to, 0);
}

sazh_code sazh_pty(sazh_channel *it, const char *term, uint32_t columns, uint32_t rows, const sazh_mode *modes, size_t count) {
  sazh_code code = may_request(it);
  if (code != SAZH_OK) return code;
  bytes body = {0};
  put_u8(&body, SSHC_ASK_TERMINAL);
  put_u8(&body, 1);
  put_text(&body, term == NULL ? "dumb" : term);
  put_size(&body, columns, rows);
  put_u32(&body, (uint32_t)count);
  for (size_t i = 0; i < count; i++) {
    put_u8(&body, modes[i].code);
    put_u32(&body, modes[i].value);
  }
  return request(it, &body, true);
}

sazh_code sazh_window_change(sazh_channel *it, uint32_t columns, uint32_t rows) {
  sazh_code code = may_request(it);
  if (code != SAZH_OK) return code;
  bytes body = {0};
  put_u8(&body, SSHC_ASK_TERMINAL_SIZE);
  put_size(&body, columns, rows);
  return request(it, &body, false);
}

sazh_code sazh_environment(sazh_channel *it, const char *name, const char *value) {
  sazh_code code = may_request(it);
  if (code != SAZH_OK) return code;
  if (name == NULL || value == NULL) return SAZH_MISUSE;
  bytes body = {0};
  put_u8(&body, SSHC_ASK_ENVIRONMENT);
  put_u8(&body, 0);
  put_text(&body, name);
  put_text(&body, value);
  return request(it, &body, false);
}

sazh_code sazh_shell(sazh_channel *it) { return text_request(it, SSHC_ASK_SHELL, NULL, false, true); }

sazh_code sazh_command(sazh_channel *it, const char *command) { return text_request(it, SSHC_ASK_COMMAND, command, true, true); }

sazh_code sazh_subsystem(sazh_channel *it, const char *name) { return text_request(it, SSHC_ASK_SUBSYSTEM, name, true, true); }

sazh_code sazh_signal(sazh_channel *it, const char *name) { return text_request(it, SSHC_ASK_SIGNAL, name, true, false); }

sazh_code sazh_forward_agent(sazh_channel *it, const char *socket_path) {
  sazh_code code = may_request(it);
  if (code != SAZH_OK) return code;
  char *path = socket_path == NULL ? NULL : copy_text(text_of(socket_path));
  if (path == NULL) return SAZH_MISUSE;
  free(it->of->agent_path);
  it->of->agent_path = path;
  return text_request(it, SSHC_ASK_AGENT, NULL, false, true);
}

/* ---- bytes */

typedef struct reading {
  const sazh_channel *of;
  sazh_stream from;
} reading;

static bool can_read(const void *of) {
  const reading *it = of;
  return sazh_readable(it->of, it->from) != 0 || it->of->eof_in || it->of->of->phase == PHASE_OVER;
}

sazh_code sazh_read(sazh_channel *it, sazh_stream from, void *to, size_t room, size_t *got) {
  *got = 0;
  if (it == NULL || it->of->inside) return SAZH_MISUSE;
  if (room == 0) return SAZH_OK;
  reading what = {it, from};
  if (sazh_readable(it, from) == 0 && until(it->of, can_read, &what) == SAZH_AGAIN) return SAZH_AGAIN;
  bytes *in = &it->in[from == SAZH_ERR];
  size_t count = bytes_count(in) < room ? bytes_count(in) : room;
  if (count != 0) {
    memcpy(to, bytes_front(in), count);
    bytes_take(in, count);
    *got = count;
    if (it->of->phase == PHASE_OPEN && it->owed != 0) {
      channels_give(it->of);
      transport_write(&it->of->line);
    }
    return SAZH_OK;
  }
  /* the server may close a channel without an EOF, and the connection may break: only the first is an end of the bytes */
  return it->of->phase == PHASE_OVER && !it->ended_well ? it->of->failed.error.code : SAZH_EOF;
}

static bool can_write(const void *of) {
  const sazh_channel *it = of;
  return sazh_writable(it) != 0 || sazh_is_closed(it) || it->of->phase == PHASE_OVER;
}

sazh_code sazh_write(sazh_channel *it, const void *from, size_t count, size_t *taken) {
  size_t none;
  if (taken == NULL) taken = &none;
  *taken = 0;
  sazh_code code = may_request(it);
  if (code != SAZH_OK) return code;
  if (it->eof_asked) return SAZH_MISUSE;
  const uint8_t *at = from;
  while (*taken < count) {
    *taken += channel_put(it, at + *taken, count - *taken);
    transport_write(&it->of->line);
    if (it->of->phase == PHASE_OVER) return it->of->failed.error.code;
    if (*taken == count) break;
    if (sazh_is_closed(it)) return note(it->of, SAZH_CHANNEL_CLOSED, "%s", sazh_code_text(SAZH_CHANNEL_CLOSED));
    if (!it->of->blocking) return *taken != 0 ? SAZH_OK : SAZH_AGAIN;
    code = until(it->of, can_write, it);
    if (code != SAZH_OK) return code;
  }
  return SAZH_OK;
}

static bool has_exited(const void *of) {
  const sazh_channel *it = of;
  return it->exit.has_status || it->exit.has_signal || sazh_is_closed(it) || it->of->phase == PHASE_OVER;
}

sazh_code sazh_wait_exit(sazh_channel *it, sazh_exit *to) {
  if (it == NULL || it->of->inside) return SAZH_MISUSE;
  bool waits = !has_exited(it) && until(it->of, has_exited, it) == SAZH_AGAIN;
  *to = it->exit;
  if (waits) return SAZH_AGAIN;
  return it->of->phase == PHASE_OVER && !it->ended_well && !it->exit.has_status && !it->exit.has_signal ? it->of->failed.error.code : SAZH_OK;
}

static sazh_code end_by(sazh_channel *it, uint8_t what) {
  if (it == NULL || it->of->inside) return SAZH_MISUSE;
  if (it->of->phase == PHASE_OVER) return it->of->failed.error.code;
  if (sazh_is_closed(it)) return SAZH_OK;
  channel_ask_plain(it, what);
  return it->of->blocking ? sazh_step(it->of) : SAZH_OK;
}

sazh_code sazh_write_eof(sazh_channel *it) { return end_by(it, SSHC_ASK_EOF); }

sazh_code sazh_close(sazh_channel *it) { return end_by(it, SSHC_ASK_CLOSE); }
