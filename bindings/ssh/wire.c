#include "wire.h"

#include <errno.h>
#include <sys/socket.h>
#include <unistd.h>

long file_read(int file, uint8_t *to, size_t room) {
  ssize_t got = read(file, to, room);
  if (got >= 0) return (long)got;
  return errno == EAGAIN || errno == EWOULDBLOCK || errno == EINTR ? WIRE_AGAIN : WIRE_FAILED;
}

long file_write(int file, const uint8_t *from, size_t count) {
  ssize_t done = send(file, from, count, MSG_NOSIGNAL);
  if (done < 0 && errno == ENOTSOCK) done = write(file, from, count);
  if (done >= 0) return (long)done;
  return errno == EAGAIN || errno == EWOULDBLOCK || errno == EINTR ? WIRE_AGAIN : WIRE_FAILED;
}

static long own_read(void *own, uint8_t *to, size_t room) { return file_read(*(int *)own, to, room); }

static long own_write(void *own, const uint8_t *from, size_t count) { return file_write(*(int *)own, from, count); }

wire wire_of(int *file) { return (wire){file, own_read, own_write}; }
