#include "dial.h"

#include "core.h"

#include <errno.h>
#include <fcntl.h>
#include <netinet/in.h>
#include <netinet/tcp.h>
#include <stdio.h>
#include <sys/socket.h>
#include <unistd.h>

void set_socket(int socket) {
  int one = 1;
  setsockopt(socket, IPPROTO_TCP, TCP_NODELAY, &one, sizeof one);
  setsockopt(socket, SOL_SOCKET, SO_KEEPALIVE, &one, sizeof one);
  int flags = fcntl(socket, F_GETFL);
  if (flags >= 0) fcntl(socket, F_SETFL, flags | O_NONBLOCK);
  fcntl(socket, F_SETFD, FD_CLOEXEC);
}

static void close_one(dial *it) {
  if (it->file >= 0) close(it->file);
  it->file = -1;
}

/* Each address gets its share of the time that is left. */
static void set_share(dial *it) {
  uint64_t now = now_ms(), left = it->deadline > now ? it->deadline - now : 0, count = 0;
  for (struct addrinfo *at = it->at; at != NULL; at = at->ai_next) count++;
  it->until = it->deadline == 0 ? 0 : now + left / count;
}

/* Begins with the address at hand, or one after it; false where none is left. */
static bool try_next(dial *it) {
  for (; it->at != NULL; it->at = it->at->ai_next) {
    it->file = socket(it->at->ai_family, it->at->ai_socktype, 0);
    if (it->file < 0) {
      it->error = errno;
      continue;
    }
    set_socket(it->file);
    set_share(it);
    if (connect(it->file, it->at->ai_addr, it->at->ai_addrlen) == 0 || errno == EINPROGRESS) return true;
    it->error = errno;
    close_one(it);
  }
  return false;
}

bool dial_begin(dial *it, const char *host, uint16_t port, int family, uint32_t seconds) {
  char service[8];
  *it = (dial){.file = -1, .deadline = seconds == 0 ? 0 : now_ms() + seconds * 1000ull};
  snprintf(service, sizeof service, "%u", (unsigned)port);
  struct addrinfo hints = {.ai_family = family, .ai_socktype = SOCK_STREAM};
  if (getaddrinfo(host, service, &hints, &it->all) != 0) return false;
  it->at = it->all;
  try_next(it);
  return true;
}

static bool is_late(const dial *it) { return it->until != 0 && now_ms() >= it->until; }

dialled dial_step(dial *it) {
  while (it->at != NULL) {
    struct pollfd one = {.fd = it->file, .events = POLLOUT};
    int ready = poll(&one, 1, 0);
    if (ready <= 0 && !is_late(it)) return DIAL_WAITS;
    int error = ETIMEDOUT;
    socklen_t len = sizeof error;
    if (ready > 0 && getsockopt(it->file, SOL_SOCKET, SO_ERROR, &error, &len) != 0) error = errno;
    if (error == 0) return DIAL_DONE;
    it->error = error;
    close_one(it);
    it->at = it->at->ai_next;
    try_next(it);
  }
  return DIAL_FAILED;
}

int dial_take(dial *it) {
  int file = it->file;
  it->file = -1;
  dial_end(it);
  return file;
}

void dial_end(dial *it) {
  close_one(it);
  if (it->all != NULL) freeaddrinfo(it->all);
  it->all = it->at = NULL;
}
