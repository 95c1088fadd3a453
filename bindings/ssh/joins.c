/* Joins: a socket here and a channel, whose bytes are moved both ways. */
#include "connection.h"

#include <arpa/inet.h>
#include <errno.h>
#include <stdio.h>
#include <stdlib.h>
#include <string.h>
#include <sys/socket.h>
#include <unistd.h>

enum { DIAL_SECONDS = 120, MOST_HEAD = 65536, MOST_UNASKED = 1024 };

static join *join_new(sazh_connection *it, join_state state, int file) {
  join *made = calloc(1, sizeof *made);
  if (made == NULL) return NULL;
  made->state = state;
  made->file = file;
  made->dial.file = -1;
  made->next = it->joins;
  it->joins = made;
  it->join_count++;
  return made;
}

static void free_join(join *it) {
  if (it->channel != NULL) sazh_channel_free(it->channel);
  if (it->file >= 0) close(it->file);
  dial_end(&it->dial);
  bytes_free(&it->head);
  bytes_free(&it->reply);
  free(it);
}

void joins_free(sazh_connection *it) {
  while (it->joins != NULL) {
    join *one = it->joins;
    it->joins = one->next;
    free_join(one);
  }
  it->join_count = 0;
}

/* ---- a client came to one of our listeners */

/* Where the other end is, as the server is told (RFC 4254, section 7.2). */
static void peer_of(int file, char host[INET6_ADDRSTRLEN], uint16_t *port) {
  struct sockaddr_storage at;
  socklen_t len = sizeof at;
  strcpy(host, "127.0.0.1");
  *port = 0;
  if (getpeername(file, (struct sockaddr *)&at, &len) != 0) return;
  if (at.ss_family == AF_INET) {
    inet_ntop(AF_INET, &((struct sockaddr_in *)&at)->sin_addr, host, INET6_ADDRSTRLEN);
    *port = ntohs(((struct sockaddr_in *)&at)->sin_port);
  } else if (at.ss_family == AF_INET6) {
    inet_ntop(AF_INET6, &((struct sockaddr_in6 *)&at)->sin6_addr, host, INET6_ADDRSTRLEN);
    *port = ntohs(((struct sockaddr_in6 *)&at)->sin6_port);
  }
}

static sazh_channel *open_for(sazh_connection *it, int file, const char *host, uint16_t port) {
  char from[INET6_ADDRSTRLEN];
  uint16_t from_port;
  peer_of(file, from, &from_port);
  return open_tcp(it, host, port, from, from_port);
}

bool join_accepted(sazh_connection *it, const sazh_forward *from, int file) {
  bool is_socks = from->kind == FORWARD_DYNAMIC;
  sazh_channel *channel = is_socks ? NULL : from->connects.path != NULL ? open_unix(it, from->connects.path) : open_for(it, file, from->connects.host, from->connects.port);
  if (!is_socks && channel == NULL) return false;
  join *made = join_new(it, is_socks ? JOIN_SOCKS : JOIN_OPENING, file);
  if (made == NULL) {
    sazh_channel_free(channel);
    return false;
  }
  made->channel = channel;
  made->is_socks = is_socks;
  return true;
}

/* ---- a channel came from the server */

/* The core has accepted it by the time its record is read (crates/sazhonthil asks nobody), so that what comes is kept from
 * now on, and what isn't wanted is closed. */
static sazh_channel *served(sazh_connection *it, uint32_t number) {
  sazh_channel *made = channel_new(it);
  if (made == NULL) {
    end_no_memory(it);
    return NULL;
  }
  made->is_open = true;
  made->number = number;
  made->peer = it->last.peer;
  made->window = it->last.window;
  made->most = it->last.most < CHUNK ? it->last.most : CHUNK;
  return made;
}

void join_served(sazh_connection *it, uint32_t channel, int file, const end_of *to) {
  sazh_channel *with = served(it, channel);
  join *made = with == NULL ? NULL : join_new(it, to == NULL ? JOIN_MOVING : JOIN_DIALLING, file);
  if (made == NULL) {
    if (file >= 0) close(file);
    sazh_channel_free(with);
    return;
  }
  made->channel = with;
  if (to != NULL && !dial_begin(&made->dial, to->host, to->port, it->set.family, DIAL_SECONDS)) made->dial.error = EHOSTUNREACH;
}

void join_refused(sazh_connection *it, uint32_t channel) {
  size_t count = 0;
  for (const sazh_channel *at = it->channels; at != NULL; at = at->next) count += !at->is_owned;
  if (count > MOST_UNASKED) end(it, SAZH_BAD_PACKET, "the server opens too many channels that nobody asked for");
  else sazh_channel_free(served(it, channel));
}

static void broke(join *at);

static void dial_on(join *at) {
  dialled how = at->dial.all == NULL ? DIAL_FAILED : dial_step(&at->dial);
  if (how == DIAL_WAITS) return;
  at->state = JOIN_MOVING;
  if (how == DIAL_DONE) at->file = dial_take(&at->dial);
  else broke(at);
}

/* ---- SOCKS5 (RFC 1928): no authentication, and CONNECT alone */

enum { SOCKS_VERSION = 5, CONNECT = 1, TO_IPV4 = 1, TO_NAME = 3, TO_IPV6 = 4, NO_METHOD = 0xff, REFUSED = 5, BAD_COMMAND = 7, BAD_ADDRESS = 8 };

static void socks_reply(join *at, uint8_t code) {
  uint8_t reply[10] = {SOCKS_VERSION, code, 0, TO_IPV4};
  put(&at->reply, reply, sizeof reply);
}

/* The methods that the client offers; false until they are whole. */
static bool greet(join *at) {
  reader in = read_slice(bytes_slice(&at->head));
  uint8_t version = get_u8(&in), count = get_u8(&in);
  slice methods = get_bytes(&in, count);
  if (in.bad) return false;
  bool may = version == SOCKS_VERSION && memchr(methods.at, 0, methods.len) != NULL;
  uint8_t answer[2] = {SOCKS_VERSION, may ? 0 : NO_METHOD};
  put(&at->reply, answer, 2);
  bytes_take(&at->head, 2u + count);
  at->greeted = true;
  if (!may) at->in_ended = true;
  return may;
}

static bool read_target(reader *in, char *host, size_t room) {
  uint8_t kind = get_u8(in);
  slice raw = get_bytes(in, kind == TO_IPV4 ? 4 : kind == TO_IPV6 ? 16 : kind == TO_NAME ? get_u8(in) : 0);
  if (in->bad || raw.len == 0) return false;
  if (kind == TO_NAME) snprintf(host, room, "%.*s", (int)raw.len, (const char *)raw.at);
  else inet_ntop(kind == TO_IPV4 ? AF_INET : AF_INET6, raw.at, host, (socklen_t)room);
  return true;
}

/* What the client wants; bytes that follow it are kept for the channel. */
static void take_target(sazh_connection *it, join *at) {
  reader in = read_slice(bytes_slice(&at->head));
  char host[256] = "";
  get_u8(&in);
  uint8_t command = get_u8(&in);
  get_u8(&in);
  bool is_read = read_target(&in, host, sizeof host);
  slice port = get_bytes(&in, 2);
  if (in.bad && bytes_count(&at->head) < 300) return; /* not whole yet: none is longer */
  if (in.bad || !is_read || command != CONNECT) {
    socks_reply(at, command != CONNECT ? BAD_COMMAND : BAD_ADDRESS);
    at->in_ended = true;
    return;
  }
  bytes_take(&at->head, bytes_count(&at->head) - in.left);
  at->channel = open_for(it, at->file, host, (uint16_t)(port.at[0] << 8 | port.at[1]));
  if (at->channel == NULL) at->in_ended = true;
  else at->state = JOIN_OPENING;
}

/* ---- moving bytes */

static void broke(join *at) {
  at->in_ended = at->out_ended = true;
  bytes_clear(&at->reply);
  if (at->channel == NULL) return;
  bytes_clear(&at->channel->in[0]);
  channel_ask_plain(at->channel, SSHC_ASK_CLOSE);
}

/* Reads what the socket has before there is a channel. */
static void read_head(join *at) {
  if (at->in_ended || bytes_count(&at->head) >= MOST_HEAD) return;
  uint8_t *to = bytes_room(&at->head, 4096);
  long got = to == NULL ? WIRE_FAILED : file_read(at->file, to, 4096);
  if (got > 0) bytes_grew(&at->head, (size_t)got);
  else if (got == WIRE_FAILED) broke(at);
  else if (got == 0) at->in_ended = true;
}

static void socks_on(sazh_connection *it, join *at) {
  read_head(at);
  if (!at->greeted && !greet(at)) return;
  if (!at->in_ended) take_target(it, at);
}

static void write_from(join *at, bytes *from) {
  while (bytes_count(from) != 0) {
    long done = file_write(at->file, bytes_front(from), bytes_count(from));
    if (done == WIRE_AGAIN) return;
    if (done < 0) {
      broke(at);
      return;
    }
    bytes_take(from, (size_t)done);
  }
}

static void move_out(join *at) {
  if (at->out_ended) return;
  write_from(at, &at->reply);
  if (at->channel == NULL || bytes_count(&at->reply) != 0) return;
  write_from(at, &at->channel->in[0]);
  bytes_clear(&at->channel->in[1]);
  if (at->out_ended || !sazh_at_eof(at->channel, SAZH_OUT)) return;
  shutdown(at->file, SHUT_WR);
  at->out_ended = true;
}

static void move_in(join *at) {
  uint8_t chunk[CHUNK];
  sazh_channel *to = at->channel;
  size_t count = bytes_count(&at->head);
  bytes_take(&at->head, count == 0 ? 0 : channel_put(to, bytes_front(&at->head), count));
  while (!at->in_ended && bytes_count(&at->head) == 0) {
    size_t may = sazh_writable(to);
    if (may == 0) break;
    long got = file_read(at->file, chunk, may < sizeof chunk ? may : sizeof chunk);
    if (got > 0) channel_put(to, chunk, (size_t)got); /* all of it: no more was read than may go */
    if (got == WIRE_FAILED) broke(at);
    if (got == 0) at->in_ended = true;
    if (got <= 0) break;
  }
  if (at->in_ended && bytes_count(&at->head) == 0) channel_ask_plain(to, SSHC_ASK_EOF);
}

static void open_on(join *at) {
  if (at->channel->is_open) {
    if (at->is_socks) socks_reply(at, 0);
    at->state = JOIN_MOVING;
  } else if (at->channel->is_refused && at->is_socks) {
    socks_reply(at, REFUSED);
    at->is_socks = false;
  }
}

/* Whether nothing is left to be done for it. */
static bool is_finished(const join *at) {
  if (at->state == JOIN_SOCKS) return at->in_ended && bytes_count(&at->reply) == 0;
  const sazh_channel *with = at->channel;
  bool written = at->out_ended || at->file < 0 || (bytes_count(&at->reply) == 0 && bytes_count(&with->in[0]) == 0);
  return sazh_is_closed(with) && written;
}

static void move_one(sazh_connection *it, join *at) {
  bool is_over = it->phase == PHASE_OVER;
  if (at->state == JOIN_SOCKS && !is_over) socks_on(it, at);
  if (at->state == JOIN_DIALLING && !is_over) dial_on(at);
  if (at->state == JOIN_OPENING && !is_over) open_on(at);
  if (at->file >= 0 && at->state != JOIN_DIALLING) move_out(at);
  if (at->state != JOIN_MOVING || is_over) return;
  if (!at->channel->is_closed) move_in(at);
  if (at->in_ended && at->out_ended) channel_ask_plain(at->channel, SSHC_ASK_CLOSE);
}

void joins_move(sazh_connection *it) {
  for (join **at = &it->joins; *at != NULL;) {
    join *one = *at;
    move_one(it, one);
    bool is_lost = it->phase == PHASE_OVER && one->state != JOIN_MOVING;
    if (!is_lost && !is_finished(one)) {
      at = &one->next;
      continue;
    }
    *at = one->next;
    it->join_count--;
    free_join(one);
  }
}

/* ---- what they wait for */

static short wanted(const join *at) {
  short events = 0;
  bool has_channel = at->channel != NULL && at->state == JOIN_MOVING;
  if (at->state == JOIN_SOCKS && !at->in_ended) events |= POLLIN;
  if (has_channel && !at->in_ended && !at->channel->is_closed && sazh_writable(at->channel) != 0) events |= POLLIN;
  if (!at->out_ended && (bytes_count(&at->reply) != 0 || (has_channel && bytes_count(&at->channel->in[0]) != 0))) events |= POLLOUT;
  return events;
}

size_t joins_poll(const sazh_connection *it, struct pollfd *to, size_t room, size_t count) {
  for (const join *at = it->joins; at != NULL; at = at->next) {
    if (at->state == JOIN_DIALLING) count = add_poll(to, room, count, at->dial.file, POLLOUT);
    else count = add_poll(to, room, count, at->file, wanted(at));
  }
  return count;
}
