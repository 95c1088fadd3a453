/* Connecting to a host and port without waiting: its addresses are tried one after another. */
#ifndef SAZHONTHIL_SSH_DIAL_H
#define SAZHONTHIL_SSH_DIAL_H

#include <netdb.h>
#include <poll.h>
#include <stdbool.h>
#include <stddef.h>
#include <stdint.h>

typedef enum dialled { DIAL_WAITS, DIAL_DONE, DIAL_FAILED } dialled;

typedef struct dial {
  struct addrinfo *all, *at; /* at: the one that is tried now */
  int file;                  /* its socket, or -1 */
  uint64_t deadline, until;  /* for all of them, for this one; 0: none */
  int error;                 /* errno of the last one that failed */
} dial;

/* Looks the name up, which waits, and begins with its first address; false where it has none. 0 seconds: no limit. */
bool dial_begin(dial *it, const char *host, uint16_t port, int family, uint32_t seconds);
dialled dial_step(dial *it);
/* The connected socket, which is the caller's from now on. */
int dial_take(dial *it);
void dial_end(dial *it);
void set_socket(int socket);

#endif
