/* Moves bytes between a channel and descriptors of this program, until the channel is closed. */
#ifndef SAZH_STREAMING_H
#define SAZH_STREAMING_H

#include <sazhonthil_ssh.h>

typedef struct streaming {
  sazh_connection *of;
  sazh_channel *channel; /* NULL: only forwards */
  bool no_input;         /* standard input is at its end from the beginning */
  bool is_terminal;      /* sizes are passed on, and ~. at the beginning of a line ends it */
} streaming;

/* SAZH_OK once the channel is closed and all is written; what ended the connection otherwise. SAZH_SYSTEM: a standard
 * descriptor can't be written or read, and the message was printed. SAZH_CLOSED: the user typed ~. */
sazh_code stream_until_closed(const streaming *how);

#endif
