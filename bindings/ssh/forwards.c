/* Forwards: who listens where, and what a channel that the server opens is joined with (RFC 4254, section 7; OpenSSH's
 * PROTOCOL, 2.4). */
#include "connection.h"

#include <errno.h>
#include <fcntl.h>
#include <stdio.h>
#include <stdlib.h>
#include <string.h>
#include <sys/socket.h>
#include <sys/stat.h>
#include <sys/un.h>
#include <unistd.h>

enum { BACKLOG = 64, PAUSE_MS = 1000 };

/* ---- the list of them */

static bool copy_end(end_of *to, const sazh_end *from) {
  to->port = from->port;
  to->host = copy_text(text_of(from->host == NULL ? "localhost" : strcmp(from->host, "*") == 0 ? "" : from->host));
  to->path = from->path == NULL ? NULL : copy_text(text_of(from->path));
  return to->host != NULL && (to->path != NULL || from->path == NULL);
}

static void free_end(end_of *it) {
  free(it->host);
  free(it->path);
}

/* While another thread waits in poll for a listener, close alone would leave it listening. */
static void free_forward(sazh_forward *it) {
  for (size_t i = 0; i < it->count; i++) {
    shutdown(it->listeners[i], SHUT_RDWR);
    close(it->listeners[i]);
  }
  if (it->count != 0 && it->listens.path != NULL) unlink(it->listens.path);
  free_end(&it->listens);
  free_end(&it->connects);
  free(it);
}

void forwards_free(sazh_connection *it) {
  while (it->forwards != NULL) {
    sazh_forward *one = it->forwards;
    it->forwards = one->next;
    free_forward(one);
  }
}

static sazh_forward *forward_new(sazh_connection *it, forward_kind kind, const sazh_end *listens, const sazh_end *connects) {
  sazh_forward *made = calloc(1, sizeof *made);
  if (made == NULL) return NULL;
  made->of = it;
  made->kind = kind;
  if (!copy_end(&made->listens, listens) || (connects != NULL && !copy_end(&made->connects, connects))) {
    free_forward(made);
    return NULL;
  }
  made->port = listens->port;
  return made;
}

static void keep(sazh_forward *it, sazh_forward **to) {
  it->next = it->of->forwards;
  it->of->forwards = it;
  if (to != NULL) *to = it;
}

/* ---- listening here */

/* The mode is set before the name is there, so that nobody else ever finds it open. */
static int listen_unix(const char *path) {
  struct sockaddr_un at = {.sun_family = AF_UNIX};
  if (strlen(path) >= sizeof at.sun_path) {
    errno = ENAMETOOLONG;
    return -1;
  }
  strcpy(at.sun_path, path);
  int made = socket(AF_UNIX, SOCK_STREAM | SOCK_CLOEXEC | SOCK_NONBLOCK, 0);
  if (made >= 0 && fchmod(made, 0600) == 0 && bind(made, (struct sockaddr *)&at, sizeof at) == 0 && listen(made, BACKLOG) == 0) return made;
  int error = errno;
  if (made >= 0) close(made);
  errno = error;
  return -1;
}

static int listen_at(const struct addrinfo *at) {
  int one = 1;
  int made = socket(at->ai_family, SOCK_STREAM | SOCK_CLOEXEC | SOCK_NONBLOCK, 0);
  if (made < 0) return -1;
  setsockopt(made, SOL_SOCKET, SO_REUSEADDR, &one, sizeof one);
  if (at->ai_family == AF_INET6) setsockopt(made, IPPROTO_IPV6, IPV6_V6ONLY, &one, sizeof one);
  if (bind(made, at->ai_addr, at->ai_addrlen) == 0 && listen(made, BACKLOG) == 0) return made;
  int error = errno;
  close(made);
  errno = error;
  return -1;
}

static uint16_t port_of(int listener) {
  struct sockaddr_storage at;
  socklen_t len = sizeof at;
  if (getsockname(listener, (struct sockaddr *)&at, &len) != 0) return 0;
  return ntohs(at.ss_family == AF_INET6 ? ((struct sockaddr_in6 *)&at)->sin6_port : ((struct sockaddr_in *)&at)->sin_port);
}

static void set_port(struct addrinfo *at, uint16_t port) {
  if (at->ai_family == AF_INET6) ((struct sockaddr_in6 *)at->ai_addr)->sin6_port = htons(port);
  if (at->ai_family == AF_INET) ((struct sockaddr_in *)at->ai_addr)->sin_port = htons(port);
}

/* A listener for each address of the name; one that can't be had is passed over if another can. errno where none can. */
static void listen_tcp(sazh_forward *it) {
  char service[8];
  const char *host = it->listens.host;
  bool is_every = host[0] == 0, is_loopback = strcmp(host, "localhost") == 0; /* no name: both families, whatever /etc/hosts has */
  struct addrinfo hints = {.ai_family = it->of->set.family, .ai_socktype = SOCK_STREAM, .ai_flags = is_every ? AI_PASSIVE : 0}, *found = NULL;
  snprintf(service, sizeof service, "%u", (unsigned)it->port);
  errno = EADDRNOTAVAIL;
  if (getaddrinfo(is_every || is_loopback ? NULL : host, service, &hints, &found) != 0) return;
  int error = 0;
  for (struct addrinfo *at = found; at != NULL && it->count < MOST_LISTENERS; at = at->ai_next) {
    if (it->count != 0) set_port(at, it->port); /* the port that the system chose for the first */
    int made = listen_at(at);
    if (made < 0) error = errno;
    else it->listeners[it->count++] = made;
    if (it->count == 1) it->port = port_of(it->listeners[0]);
  }
  freeaddrinfo(found);
  errno = error;
}

static sazh_code listen_here(sazh_connection *it, sazh_forward *made, sazh_forward **to) {
  if (to != NULL) *to = NULL;
  if (made == NULL) return note(it, SAZH_NO_MEMORY, "out of memory");
  if (made->listens.path != NULL) {
    int one = listen_unix(made->listens.path);
    if (one >= 0) made->listeners[made->count++] = one;
  } else {
    listen_tcp(made);
  }
  if (made->count != 0) {
    keep(made, to);
    return SAZH_OK;
  }
  int error = errno;
  bool is_path = made->listens.path != NULL;
  note(it, SAZH_CANNOT_LISTEN, "can't listen at %s port %u: %s", is_path ? made->listens.path : made->listens.host, (unsigned)made->port, strerror(error));
  it->failed.error.system = error;
  free_forward(made);
  return SAZH_CANNOT_LISTEN;
}

static sazh_code may_forward(sazh_connection *it) {
  if (it == NULL || it->inside) return SAZH_MISUSE;
  return it->phase == PHASE_OVER ? it->failed.error.code : SAZH_OK;
}

sazh_code sazh_forward_local(sazh_connection *it, const sazh_end *here, const sazh_end *there, sazh_forward **made) {
  sazh_code code = may_forward(it);
  return code != SAZH_OK ? code : listen_here(it, forward_new(it, FORWARD_LOCAL, here, there), made);
}

sazh_code sazh_forward_dynamic(sazh_connection *it, const sazh_end *here, sazh_forward **made) {
  sazh_code code = may_forward(it);
  return code != SAZH_OK ? code : listen_here(it, forward_new(it, FORWARD_DYNAMIC, here, NULL), made);
}

/* Where no descriptor is free the listener rests, instead of being asked again and again. */
static void accept_all(sazh_connection *it, sazh_forward *from) {
  for (size_t i = 0; i < from->count; i++) {
    while (it->join_count < MOST_JOINS) {
      int file = accept4(from->listeners[i], NULL, NULL, SOCK_CLOEXEC | SOCK_NONBLOCK);
      if (file < 0 && (errno == EMFILE || errno == ENFILE || errno == ENOMEM || errno == ENOBUFS)) from->paused = now_ms() + PAUSE_MS;
      if (file < 0) break;
      if (from->listens.path == NULL) set_socket(file);
      if (!join_accepted(it, from, file)) close(file);
    }
  }
}

void forwards_accept(sazh_connection *it) {
  if (it->phase != PHASE_OPEN) return;
  for (sazh_forward *at = it->forwards; at != NULL; at = at->next) {
    if (at->paused > now_ms()) continue;
    at->paused = 0;
    accept_all(it, at);
  }
}

size_t forwards_poll(const sazh_connection *it, struct pollfd *to, size_t room, size_t count) {
  if (it->phase != PHASE_OPEN || it->join_count >= MOST_JOINS) return count;
  for (const sazh_forward *at = it->forwards; at != NULL; at = at->next)
    for (size_t i = 0; i < at->count && at->paused == 0; i++) count = add_poll(to, room, count, at->listeners[i], POLLIN);
  return count;
}

bool forwards_wait(const sazh_connection *it) {
  for (const sazh_forward *at = it->forwards; at != NULL; at = at->next)
    if (at->paused != 0) return true;
  return false;
}

/* ---- the server listens */

static bool is_forwarded(const void *of) {
  const sazh_forward *it = of;
  return it->ticket == 0 || it->of->phase == PHASE_OVER;
}

sazh_code sazh_forward_wait(sazh_forward *it) {
  if (it == NULL || it->of->inside) return SAZH_MISUSE;
  sazh_code code = until(it->of, is_forwarded, it);
  if (code == SAZH_AGAIN) return code;
  if (it->of->phase == PHASE_OVER) return it->of->failed.error.code;
  if (it->answer != SAZH_OK)
    note(it->of, it->answer, "%s: %s port %u", sazh_code_text(it->answer), it->listens.path != NULL ? it->listens.path : it->listens.host, (unsigned)it->port);
  return it->answer;
}

sazh_code sazh_forward_remote(sazh_connection *it, const sazh_end *there, const sazh_end *here, sazh_forward **to) {
  if (to != NULL) *to = NULL;
  sazh_code code = may_forward(it);
  if (code != SAZH_OK) return code;
  if (it->phase != PHASE_OPEN) return note(it, SAZH_MISUSE, "a remote forward before the login");
  sazh_forward *made = forward_new(it, FORWARD_REMOTE, there, here);
  if (made == NULL) return note(it, SAZH_NO_MEMORY, "out of memory");
  made->ticket = ++it->tickets;
  size_t begun;
  bytes *event = todo_begin(it, made->listens.path != NULL ? SSHC_EVENT_STREAMLOCAL_FORWARD : SSHC_EVENT_TCPIP_FORWARD, &begun);
  put_u32(event, made->ticket);
  put_text(event, made->listens.path != NULL ? made->listens.path : made->listens.host);
  if (made->listens.path == NULL) put_u32(event, made->port);
  todo_end(it, begun);
  keep(made, to);
  return sazh_forward_wait(made);
}

uint16_t sazh_forward_port(const sazh_forward *it) { return it->port; }

/* Its answer isn't awaited. */
static void ask_cancel(sazh_forward *it) {
  size_t begun;
  bytes *event = todo_begin(it->of, it->listens.path != NULL ? SSHC_EVENT_CANCEL_STREAMLOCAL_FORWARD : SSHC_EVENT_CANCEL_TCPIP_FORWARD, &begun);
  put_u32(event, ++it->of->tickets);
  put_text(event, it->listens.path != NULL ? it->listens.path : it->listens.host);
  if (it->listens.path == NULL) put_u32(event, it->port);
  todo_end(it->of, begun);
}

void sazh_forward_free(sazh_forward *it) {
  if (it == NULL || it->of->inside) return;
  bool is_heard_there = it->kind == FORWARD_REMOTE && it->ticket == 0 && it->answer == SAZH_OK && it->of->phase == PHASE_OPEN;
  if (is_heard_there) ask_cancel(it);
  sazh_forward **at = &it->of->forwards;
  while (*at != it) at = &(*at)->next;
  *at = it->next;
  free_forward(it);
}

bool forward_resolved(sazh_connection *it, uint32_t ticket, uint8_t how, reader *fields) {
  for (sazh_forward *at = it->forwards; at != NULL; at = at->next) {
    if (at->ticket == 0 || at->ticket != ticket) continue;
    at->ticket = 0;
    if (how == SSHC_RESOLVED_FORWARD_PORT) {
      uint32_t port = get_u32(fields);
      if (at->port == 0) at->port = (uint16_t)port;
    } else if (how != SSHC_RESOLVED_DONE) {
      at->answer = SAZH_FORWARD_REFUSED;
    }
    return true;
  }
  return false;
}

/* ---- channels that the server opens */

/* By port and address; by the port alone where the server names the address otherwise and one forward has it. */
static const sazh_forward *forward_of_port(const sazh_connection *it, slice address, uint32_t port) {
  const sazh_forward *found = NULL;
  size_t count = 0;
  for (const sazh_forward *at = it->forwards; at != NULL; at = at->next) {
    if (at->kind != FORWARD_REMOTE || at->listens.path != NULL || at->port != port || at->answer != SAZH_OK) continue;
    if (slice_is(address, at->listens.host)) return at;
    found = at;
    count++;
  }
  return count == 1 ? found : NULL;
}

static const sazh_forward *forward_of_path(const sazh_connection *it, slice path) {
  for (const sazh_forward *at = it->forwards; at != NULL; at = at->next)
    if (at->kind == FORWARD_REMOTE && at->listens.path != NULL && slice_is(path, at->listens.path)) return at;
  return NULL;
}

/* Only what was asked for is joined: a port, a socket, the agent. The rest is closed. */
void server_opened(sazh_connection *it, reader *fields) {
  uint32_t channel = get_u32(fields);
  uint8_t type = get_u8(fields);
  slice name = get_string(fields);
  const sazh_forward *from = type == SSHC_OPENED_FORWARDED_TCPIP ? forward_of_port(it, name, get_u32(fields)) :
                             type == SSHC_OPENED_FORWARDED_STREAMLOCAL ? forward_of_path(it, name) : NULL;
  bool is_agent = type == SSHC_OPENED_AGENT && it->agent_path != NULL;
  if ((from == NULL && !is_agent) || it->join_count >= MOST_JOINS) {
    join_refused(it, channel);
    return;
  }
  const char *path = is_agent ? it->agent_path : from->connects.path;
  int file = path == NULL ? -1 : connect_unix(path, false);
  if (path != NULL && file < 0) join_refused(it, channel);
  else join_served(it, channel, file, path == NULL ? &from->connects : NULL);
}
