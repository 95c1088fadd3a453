/* Channels: what waits to be read, what may be handed in, and what was asked (RFC 4254, sections 5 and 6). */
#include "connection.h"

#include <errno.h>
#include <stdlib.h>
#include <string.h>

enum { CHANNEL_WINDOW_ADJUST = 93 };

/* ---- the list of them */

sazh_channel *channel_new(sazh_connection *it) {
  sazh_channel *made = calloc(1, sizeof *made);
  if (made == NULL) return NULL;
  made->of = it;
  made->is_owned = true;
  made->most = CHUNK;
  made->told = it->set.window;
  made->exit.signal = made->signal;
  made->exit.message = made->message;
  made->next = it->channels;
  it->channels = made;
  return made;
}

static void free_channel(sazh_channel *it) {
  bytes_free(&it->in[0]);
  bytes_free(&it->in[1]);
  bytes_free(&it->waiting);
  free(it);
}

/* Frees those that nobody holds any more and the server has closed. */
void channels_sweep(sazh_connection *it) {
  for (sazh_channel **at = &it->channels; *at != NULL;) {
    sazh_channel *one = *at;
    bool is_gone = one->is_closed || one->is_refused || it->phase == PHASE_OVER;
    if (one->is_owned || !is_gone) {
      at = &one->next;
      continue;
    }
    *at = one->next;
    free_channel(one);
  }
}

void channels_end(sazh_connection *it) {
  for (sazh_channel *at = it->channels; at != NULL; at = at->next) at->is_closed = at->eof_in = true;
}

static sazh_channel *channel_of(sazh_connection *it, uint32_t number) {
  for (sazh_channel *at = it->channels; at != NULL; at = at->next)
    if (at->is_open && !at->is_closed && at->number == number) return at;
  return NULL;
}

sazh_channel *channel_of_peer(sazh_connection *it, uint32_t peer) {
  for (sazh_channel *at = it->channels; at != NULL; at = at->next)
    if (at->is_open && !at->is_closed && at->peer == peer) return at;
  return NULL;
}

/* ---- windows: ours is given back by the core as bytes come, and passed on as they are read */

static size_t unread(const sazh_channel *it) { return bytes_count(&it->in[0]) + bytes_count(&it->in[1]); }

void channel_hold(sazh_channel *it, uint32_t window) { it->owed += window; }

static void give(sazh_channel *it) {
  if (it->owed == 0 || it->is_closed || it->close_sent || unread(it) > it->of->set.window / 2) return;
  uint8_t packet[9] = {CHANNEL_WINDOW_ADJUST};
  store_u32(packet + 1, it->peer);
  store_u32(packet + 5, it->owed);
  it->told += it->owed;
  it->owed = 0;
  transport_send(&it->of->line, slice_of(packet, sizeof packet));
}

void channels_give(sazh_connection *it) {
  for (sazh_channel *at = it->channels; at != NULL; at = at->next) give(at);
}

/* ---- asking */

static void ask_now(sazh_channel *it, slice body) {
  size_t begun;
  bytes *to = todo_begin(it->of, SSHC_EVENT_CHANNEL, &begun);
  put_u32(to, it->number);
  put(to, body.at, body.len);
  todo_end(it->of, begun);
}

void channel_ask(sazh_channel *it, bytes *body) {
  if (body->bad) end_no_memory(it->of);
  else if (it->is_open && !it->is_closed) ask_now(it, bytes_slice(body));
  else if (!it->is_closed) put_string(&it->waiting, bytes_slice(body));
  if (it->waiting.bad) end_no_memory(it->of);
  bytes_free(body);
}

void channel_ask_plain(sazh_channel *it, uint8_t what) {
  bytes body = {0};
  if (what == SSHC_ASK_EOF && (it->eof_asked || it->close_asked)) return;
  if (what == SSHC_ASK_CLOSE && it->close_asked) return;
  if (what == SSHC_ASK_EOF) it->eof_asked = true;
  if (what == SSHC_ASK_CLOSE) it->close_asked = true;
  put_u8(&body, what);
  channel_ask(it, &body);
}

void channel_opened(sazh_channel *it, uint32_t number) {
  it->ticket = 0;
  it->is_open = true;
  it->number = number;
  opening *last = &it->of->last;
  if (last->ours == number) it->peer = last->peer, it->window = last->window, it->most = last->most;
  if (it->most > CHUNK) it->most = CHUNK;
  reader all = read_slice(bytes_slice(&it->waiting));
  while (all.left != 0) ask_now(it, get_string(&all));
  bytes_free(&it->waiting);
}

void channel_open_failed(sazh_channel *it, uint32_t reason) {
  it->ticket = 0;
  it->is_refused = it->eof_in = true;
  it->reason = reason;
  it->of->refused = it;
}

/* ---- what the core reports */

/* The core's window is ahead of what the server was told, so that a server which sends more than that is found out here. */
static void put_data(sazh_channel *it, sazh_stream to, slice data) {
  if (data.len > it->told) {
    end(it->of, SAZH_BAD_PACKET, "the server sent more than a channel's window");
    return;
  }
  it->told -= data.len;
  if (!it->is_owned || it->ignored[to]) return; /* nobody reads it */
  put(&it->in[to], data.at, data.len);
  if (it->in[to].bad) end_no_memory(it->of);
}

static void exited(sazh_channel *it, uint8_t kind, reader *fields) {
  if (kind == SSHC_RECORD_CHANNEL_EXIT_STATUS) {
    it->exit.has_status = true;
    it->exit.status = get_u32(fields);
    return;
  }
  it->exit.has_signal = true;
  copy_safe(it->signal, sizeof it->signal, get_string(fields));
  it->exit.core_dumped = get_bool(fields);
  copy_safe(it->message, sizeof it->message, get_string(fields));
}

void channel_record(sazh_connection *it, uint8_t kind, reader *fields) {
  uint32_t number = get_u32(fields);
  if (kind == SSHC_RECORD_CHANNEL_OPEN_FAILURE && it->refused != NULL) {
    get_u32(fields); /* the reason was in the ticket's answer */
    copy_safe(it->refused->message, sizeof it->refused->message, get_string(fields));
    return;
  }
  sazh_channel *at = channel_of(it, number);
  if (at == NULL) return;
  switch (kind) {
  case SSHC_RECORD_CHANNEL_SUCCESS: at->answered++; break;
  case SSHC_RECORD_CHANNEL_FAILURE: at->answered++, at->refused++; break;
  case SSHC_RECORD_CHANNEL_CLOSE: at->is_closed = at->eof_in = at->ended_well = true; break;
  case SSHC_RECORD_CHANNEL_EOF: at->eof_in = at->ended_well = true; break;
  case SSHC_RECORD_CHANNEL_DATA: put_data(at, SAZH_OUT, get_string(fields)); break;
  case SSHC_RECORD_CHANNEL_EXTENDED_DATA:
    get_u32(fields);
    put_data(at, SAZH_ERR, get_string(fields));
    break;
  case SSHC_RECORD_CHANNEL_EXIT_STATUS:
  case SSHC_RECORD_CHANNEL_EXIT_SIGNAL: exited(at, kind, fields); break;
  case SSHC_RECORD_CHANNEL_WINDOW_ADJUSTED: at->window = get_u32(fields); break;
  default: break;
  }
}

/* ---- bytes */

size_t sazh_writable(const sazh_channel *it) {
  const sazh_connection *c = it->of;
  bool may = it->is_open && !it->is_closed && !it->eof_asked && !it->close_asked && c->phase == PHASE_OPEN && may_ask(c) &&
             bytes_count(&c->todo) == 0 && transport_waiting(&c->line) < MOST_UNSENT && it->most != 0;
  return may ? (size_t)it->window : 0;
}

size_t channel_put(sazh_channel *it, const uint8_t *from, size_t count) {
  size_t done = 0;
  while (done < count) {
    size_t may = sazh_writable(it), left = count - done;
    if (may == 0) break;
    size_t some = left < may ? left : may;
    if (some > it->most) some = it->most;
    bytes *to = core_event(&it->of->core, SSHC_EVENT_CHANNEL);
    put_u32(to, it->number);
    put_u8(to, SSHC_ASK_DATA);
    put_string(to, slice_of(from + done, some));
    it->window -= some;
    done += some;
    if (!deliver(it->of)) break;
  }
  return done;
}

void sazh_ignore(sazh_channel *it, sazh_stream from) {
  it->ignored[from == SAZH_ERR] = true;
  bytes_free(&it->in[from == SAZH_ERR]);
}

size_t sazh_readable(const sazh_channel *it, sazh_stream from) { return bytes_count(&it->in[from == SAZH_ERR]); }

bool sazh_is_closed(const sazh_channel *it) { return it->is_closed || it->is_refused; }

bool sazh_at_eof(const sazh_channel *it, sazh_stream from) { return it->eof_in && sazh_readable(it, from) == 0; }

sazh_exit sazh_exit_of(const sazh_channel *it) { return it->exit; }

/* ---- the wire of a connection through a channel */

static long wire_read(void *own, uint8_t *to, size_t room) {
  sazh_channel *it = own;
  size_t count = bytes_count(&it->in[0]);
  if (count == 0) return it->eof_in ? 0 : WIRE_AGAIN;
  if (count > room) count = room;
  memcpy(to, bytes_front(&it->in[0]), count);
  bytes_take(&it->in[0], count);
  give(it);
  return (long)count;
}

static long wire_write(void *own, const uint8_t *from, size_t count) {
  sazh_channel *it = own;
  if (it->is_closed || it->is_refused) {
    errno = EPIPE;
    return WIRE_FAILED;
  }
  size_t done = channel_put(it, from, count);
  transport_write(&it->of->line);
  return done == 0 ? WIRE_AGAIN : (long)done;
}

wire wire_of_channel(sazh_channel *it) { return (wire){it, wire_read, wire_write}; }

/* ---- opening */

static sazh_channel *begin_open(sazh_connection *it, uint8_t kind, bytes **to, size_t *begun) {
  sazh_channel *made = channel_new(it);
  if (made == NULL) return NULL;
  made->ticket = ++it->tickets;
  *to = todo_begin(it, kind, begun);
  put_u32(*to, made->ticket);
  return made;
}

sazh_channel *open_tcp(sazh_connection *it, const char *host, uint16_t port, const char *from, uint16_t from_port) {
  size_t begun;
  bytes *to;
  sazh_channel *made = begin_open(it, SSHC_EVENT_OPEN_DIRECT_TCPIP, &to, &begun);
  if (made == NULL) return NULL;
  put_text(to, host);
  put_u32(to, port);
  put_text(to, from);
  put_u32(to, from_port);
  todo_end(it, begun);
  return made;
}

sazh_channel *open_unix(sazh_connection *it, const char *path) {
  size_t begun;
  bytes *to;
  sazh_channel *made = begin_open(it, SSHC_EVENT_OPEN_DIRECT_STREAMLOCAL, &to, &begun);
  if (made == NULL) return NULL;
  put_text(to, path);
  todo_end(it, begun);
  return made;
}

static sazh_code opened_by(sazh_connection *it, sazh_channel *made, sazh_channel **to) {
  *to = made;
  if (made == NULL) return note(it, SAZH_NO_MEMORY, "out of memory");
  sazh_code code = sazh_channel_wait(made);
  if (code == SAZH_OK || code == SAZH_AGAIN) return code;
  *to = NULL;
  sazh_channel_free(made);
  return code;
}

static sazh_code may_open(sazh_connection *it) {
  if (it == NULL || it->inside) return SAZH_MISUSE;
  if (it->phase == PHASE_OVER) return it->failed.error.code;
  return it->phase == PHASE_OPEN ? SAZH_OK : note(it, SAZH_MISUSE, "a channel before the login");
}

sazh_code sazh_open_session(sazh_connection *it, sazh_channel **made) {
  *made = NULL;
  sazh_code code = may_open(it);
  if (code != SAZH_OK) return code;
  size_t begun;
  bytes *to;
  sazh_channel *one = begin_open(it, SSHC_EVENT_OPEN_SESSION, &to, &begun);
  if (one != NULL) todo_end(it, begun);
  return opened_by(it, one, made);
}

sazh_code sazh_open_tcp(sazh_connection *it, const char *host, uint16_t port, sazh_channel **made) {
  *made = NULL;
  sazh_code code = may_open(it);
  return code != SAZH_OK ? code : host == NULL ? SAZH_MISUSE : opened_by(it, open_tcp(it, host, port, "127.0.0.1", 0), made);
}

sazh_code sazh_open_unix(sazh_connection *it, const char *path, sazh_channel **made) {
  *made = NULL;
  sazh_code code = may_open(it);
  return code != SAZH_OK ? code : path == NULL ? SAZH_MISUSE : opened_by(it, open_unix(it, path), made);
}

static bool is_settled(const void *of) {
  const sazh_channel *it = of;
  return it->is_closed || it->is_refused || (it->is_open && it->answered >= it->asked);
}

static sazh_code note_refusal(sazh_channel *it) {
  sazh_code code = note(it->of, SAZH_CHANNEL_REFUSED, "%s: %s (reason %u)", sazh_code_text(SAZH_CHANNEL_REFUSED), it->message, (unsigned)it->reason);
  if (code != SAZH_CHANNEL_REFUSED) return code;
  it->of->failed.error.reason = it->reason;
  memcpy(it->of->failed.words, it->message, sizeof it->message);
  return code;
}

sazh_code sazh_channel_wait(sazh_channel *it) {
  if (it == NULL || it->of->inside) return SAZH_MISUSE;
  sazh_code code = until(it->of, is_settled, it);
  if (code == SAZH_AGAIN) return code;
  bool is_answered = it->is_open && it->answered >= it->asked; /* also where the connection ended right after the answer */
  if (it->of->phase == PHASE_OVER && !is_answered) return it->of->failed.error.code;
  if (it->is_refused) return note_refusal(it);
  bool was_refused = it->refused != 0;
  it->refused = 0;
  if (was_refused) return note(it->of, SAZH_REQUEST_REFUSED, "%s", sazh_code_text(SAZH_REQUEST_REFUSED));
  /* some servers close before they answer: what came tells that the request was taken */
  bool has_begun = it->exit.has_status || it->exit.has_signal || unread(it) != 0;
  if (!is_answered && !has_begun) return note(it->of, SAZH_CHANNEL_CLOSED, "%s", sazh_code_text(SAZH_CHANNEL_CLOSED));
  return SAZH_OK;
}

void sazh_channel_free(sazh_channel *it) {
  if (it == NULL) return;
  it->is_owned = false;
  bytes_free(&it->in[0]);
  bytes_free(&it->in[1]);
  if (!it->is_closed && !it->is_refused) channel_ask_plain(it, SSHC_ASK_CLOSE);
  if (!it->of->inside) channels_sweep(it->of);
}
