/* The transport of an SSH connection (RFC 4253): version lines, packets, key exchange, strict key exchange. What the
 * packets mean is the core's: this hands it each packet but those of the key exchange. */
#ifndef SAZHONTHIL_SSH_TRANSPORT_H
#define SAZHONTHIL_SSH_TRANSPORT_H

#include "bytes.h"
#include "crypto.h"
#include "wire.h"

#include <sazhonthil_ssh.h>

typedef enum kex_state {
  KEX_IDLE,      /* no exchange runs */
  KEX_SENT,      /* our KEXINIT is sent, and theirs awaited */
  KEX_ANSWERED,  /* both are there, our public value is sent, and theirs awaited */
  KEX_NEW_KEYS   /* our NEWKEYS is sent, and theirs awaited */
} kex_state;

/* What came, one at a time. */
typedef enum arrival_kind {
  ARRIVED_NOTHING,
  ARRIVED_KEXINIT,  /* the peer's KEXINIT */
  ARRIVED_EXCHANGE, /* an exchange is done; the transport's fields have it */
  ARRIVED_PACKET,   /* a packet for the core */
  ARRIVED_END       /* the peer closed the connection, or it failed */
} arrival_kind;

typedef struct arrival {
  arrival_kind kind;
  slice packet; /* until the next call */
} arrival;

typedef struct names {
  slice kex, key, cipher_out, cipher_in, mac_out, mac_in;
} names;

typedef struct transport {
  wire wire;
  bool ended;          /* it failed: nothing is read or sent any more */
  bool closed;         /* the peer closed; packets that came before may still be in `in` */
  bool cant_write;     /* nothing can be sent any more, but what came can be read */
  sazh_code code;      /* why it failed */
  char failure[256];
  int system;          /* errno where the system failed */

  bytes in, out, held;
  size_t taken; /* of `in`, by the packet that was lent last */
  uint32_t seq_in, seq_out;
  cipher open, seal, next_open;

  char *our_version, *peer_version;
  kex_state state;
  bool strict, is_first, peers_guess, is_held;
  uint32_t lines_before; /* the version line */
  bytes our_init, peer_init;
  kex_kind kind;
  EVP_PKEY *ours;
  names chosen;

  bytes session_id, secret, host_key, signature;
  uint8_t hash[32];
  uint64_t bytes_since, packets_since, written;
  const char *ciphers, *host_key_algorithms;
} transport;

/* Over a wire that doesn't block; `ciphers` and the algorithms are lists of names, best first, that outlive it. */
void transport_start(transport *it, wire over, const char *ciphers, const char *host_key_algorithms);
void transport_free(transport *it);

/* Whether there is something to write, and how much. */
size_t transport_waiting(const transport *it);
/* Reads and writes what the wire has and takes. */
void transport_read(transport *it);
void transport_write(transport *it);

/* The next thing that came. */
arrival transport_next(transport *it);
/* Sends a packet of the core, or holds it until an exchange of ours is done. */
void transport_send(transport *it, slice packet);
/* After an exchange the packets that were held wait until the core took the exchange: then they are sent. */
void transport_release(transport *it);
/* Sends our KEXINIT, unless an exchange runs. */
void transport_begin_exchange(transport *it);
/* Once it is `closed`, and all packets that came before were taken. */
void transport_end(transport *it);
/* Whether the keys have done enough (RFC 4253, section 9): so many bytes or packets. */
bool transport_is_worn(const transport *it, uint64_t most_bytes, uint64_t most_packets);
bool cipher_names_known(slice list);
bool host_key_names_known(slice list);
extern const char DEFAULT_CIPHERS[], DEFAULT_HOST_KEYS[];

#endif
