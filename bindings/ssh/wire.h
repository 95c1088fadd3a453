/* What a transport reads from and writes to: a socket, or a channel of another connection. */
#ifndef SAZHONTHIL_SSH_WIRE_H
#define SAZHONTHIL_SSH_WIRE_H

#include <stddef.h>
#include <stdint.h>

/* Both return how many bytes they moved, 0 at the end (of reading), or one of these. Neither waits. */
enum { WIRE_AGAIN = -1, WIRE_FAILED = -2 /* errno says why */ };

typedef struct wire {
  void *own;
  long (*read)(void *own, uint8_t *to, size_t room);
  long (*write)(void *own, const uint8_t *from, size_t count);
} wire;

/* The wire of a descriptor that doesn't block; `file` has to outlive it. Without SIGPIPE where it is a socket. */
wire wire_of(int *file);
long file_read(int file, uint8_t *to, size_t room);
long file_write(int file, const uint8_t *from, size_t count);

#endif
