#include "server.h"

#include "frames.h"

#include <errno.h>
#include <poll.h>
#include <stdlib.h>
#include <sys/socket.h>
#include <unistd.h>

enum { READ_AT_LEAST = 4096, READ_AT_MOST = 65536 };

/* ---- a connection comes and goes */

connection *connection_numbered(const server *it, uint32_t number) {
  for (size_t i = 0; i < it->count; i++)
    if (it->connections[i]->number == number) return it->connections[i];
  return NULL;
}

/* After four thousand million connections numbers come again. A number that was forgotten is to the library as one that
 * it never saw. */
static uint32_t next_number(server *it) {
  do it->last_number = it->last_number == UINT32_MAX ? 1 : it->last_number + 1;
  while (connection_numbered(it, it->last_number) != NULL);
  return it->last_number;
}

bool connection_add(server *it, int socket) {
  connection *made = calloc(1, sizeof *made);
  if (made == NULL) return false;
  made->socket = socket;
  made->number = next_number(it);
  it->connections[it->count++] = made;
  return true;
}

static void end(server *it, connection *of) {
  questions_drop(it, of);
  hand_in_end(it, of);
  close(of->socket);
  bytes_free(&of->in);
  bytes_free(&of->out);
  bytes_free(&of->prompt);
  free(of);
}

void connections_sweep(server *it) {
  size_t kept = 0;
  for (size_t i = 0; i < it->count; i++) {
    if (it->connections[i]->is_over)
      end(it, it->connections[i]);
    else
      it->connections[kept++] = it->connections[i];
  }
  it->count = kept;
}

/* ---- frames */

typedef enum { NO_FRAME, WHOLE_FRAME, LONG_FRAME } frame_state;

static frame_state frame_in(const bytes *in, slice *frame) {
  reader from = read_slice(bytes_slice(in));
  uint32_t len = get_u32(&from);
  if (from.bad) return NO_FRAME;
  if (len > LONGEST_FRAME) return LONG_FRAME;
  if (from.left < len) return NO_FRAME;
  *frame = slice_of(from.at, len);
  return WHOLE_FRAME;
}

static bool has_frame(const connection *it) {
  slice frame;
  return frame_in(&it->in, &frame) != NO_FRAME;
}

static bool waits_for_others(const connection *it) { return it->unlock_turn != 0 || it->question_turn != 0; }

/* Its own answers are to be read before the next frame is looked at, so that what is kept for it is bounded. */
static bool may_go_on(const connection *it) {
  return !it->is_over && !it->is_closing && bytes_count(&it->out) == 0 && it->question_turn == 0;
}

static bool may_read(const connection *it) { return may_go_on(it) && !it->has_ended && it->unlock_turn == 0 && !has_frame(it); }

/* ---- unlocks take turns: the one that has waited longest is tried, once the delay is over */

static bool is_next_unlock(const server *it, const connection *of) {
  for (size_t i = 0; i < it->count; i++) {
    const connection *other = it->connections[i];
    if (!other->is_over && other->unlock_turn != 0 && other->unlock_turn < of->unlock_turn) return false;
  }
  return true;
}

static bool may_unlock(server *it, connection *of) {
  if (!it->is_locked) return true;
  if (of->unlock_turn == 0) of->unlock_turn = ++it->last_turn;
  return is_next_unlock(it, of) && now_ms() >= it->unlock_from;
}

uint64_t connections_unlock_moment(const server *it) {
  for (size_t i = 0; i < it->count; i++)
    if (!it->connections[i]->is_over && it->connections[i]->unlock_turn != 0) return it->unlock_from == 0 ? 1 : it->unlock_from;
  return 0;
}

/* ---- reading, handing in, sending */

bool connection_is_ready(const connection *it) { return may_go_on(it) && it->unlock_turn == 0 && has_frame(it); }

short connection_events(const connection *it) {
  return (short)((may_read(it) ? POLLIN : 0) | (bytes_count(&it->out) != 0 ? POLLOUT : 0));
}

/* How much is read at once: of a long frame what is missing, so that little more than a frame is kept. */
static size_t read_size(const bytes *in) {
  reader from = read_slice(bytes_slice(in));
  uint32_t len = get_u32(&from);
  if (from.bad || len > LONGEST_FRAME || len - from.left <= READ_AT_LEAST) return READ_AT_LEAST;
  return len - from.left < READ_AT_MOST ? len - from.left : READ_AT_MOST;
}

static void read_some(connection *it) {
  size_t size = read_size(&it->in);
  uint8_t *room = bytes_room(&it->in, size);
  ssize_t got = room == NULL ? 0 : recv(it->socket, room, size, MSG_DONTWAIT);
  if (room == NULL)
    it->is_over = true;
  else if (got > 0)
    bytes_grew(&it->in, (size_t)got);
  else if (got == 0)
    it->has_ended = true;
  else if (errno != EAGAIN && errno != EINTR)
    it->is_over = true;
}

static void send_some(connection *it) {
  slice out = bytes_slice(&it->out);
  if (out.len == 0 || it->is_over) return;
  ssize_t sent = send(it->socket, out.at, out.len, MSG_DONTWAIT | MSG_NOSIGNAL);
  if (sent > 0)
    bytes_take(&it->out, (size_t)sent);
  else if (sent < 0 && errno != EAGAIN && errno != EINTR)
    it->is_over = true;
}

static void hand_in_next(server *it, connection *of) {
  slice frame;
  frame_state state = frame_in(&of->in, &frame);
  if (state == LONG_FRAME) hand_in(it, of, INPUT_TOO_LONG, slice_of(NULL, 0));
  if (state != WHOLE_FRAME) return;
  if (frame.len != 0 && frame.at[0] == UNLOCK && !may_unlock(it, of)) return;
  of->unlock_turn = 0;
  size_t len = frame.len;
  hand_in_frame(it, of, frame);
  bytes_take(&of->in, LENGTH_BYTES + len);
}

void connection_serve(server *it, connection *of, short returned) {
  bool is_gone = (returned & (POLLHUP | POLLERR | POLLNVAL)) != 0;
  if (is_gone && waits_for_others(of)) of->is_over = true;
  if ((returned & (POLLIN | POLLHUP)) != 0 && may_read(of)) read_some(of);
  if (bytes_count(&of->out) != 0) send_some(of);
  if (may_go_on(of)) hand_in_next(it, of);
  send_some(of);
  bool is_idle = bytes_count(&of->out) == 0 && !waits_for_others(of);
  if (is_idle && (of->is_closing || (of->has_ended && !has_frame(of)))) of->is_over = true;
}
