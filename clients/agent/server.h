/* The agent that serves: connections, what is handed in to the library, and what waits. */
#ifndef AGENT_SERVER_H
#define AGENT_SERVER_H

#include "askpass.h"
#include "bytes.h"
#include "keys.h"

#include <sazhonthil.h>

typedef struct connection {
  int socket;
  uint32_t number; /* by which the library knows it */
  bytes in;        /* what came and wasn't handed in yet: little more than a frame */
  bytes out;       /* what isn't sent yet. While there is some, nothing is read and nothing handed in */
  bool has_ended;  /* the client sends no more */
  bool is_closing; /* the library closes it: it ends once what is in `out` is sent */
  bool is_over;    /* to be removed at the end of this round */
  /* Not 0 where it waits, for an unlock to be tried or for the user to confirm; the lowest goes first. */
  uint64_t unlock_turn;
  uint64_t question_turn;
  bytes prompt; /* what the user is asked, with a 0 at its end */
} connection;

typedef struct server {
  sshc_agent agent;
  uint32_t lifetime; /* seconds, of keys that are added without one; 0: none */
  bool is_debugging;
  connection **connections;
  size_t count;
  size_t most;
  uint32_t last_number;
  uint64_t last_turn;
  known_keys keys;
  bool is_locked;
  uint32_t wrong_unlocks;
  uint64_t unlock_from; /* no unlock is tried before this moment */
  askpass asking;
  uint32_t asked_for; /* the connection for which the user is asked */
} server;

/* Milliseconds that also run while the machine sleeps. */
uint64_t now_ms(void);
/* Says what is done, where the user wants to see it. */
void note(const server *it, const char *format, ...) __attribute__((format(printf, 2, 3)));

/* ---- steps.c: what is handed in to the library */

/* Makes the agent without keys. False where memory ran out, or the library is another one than its header's. */
bool server_start(server *it);
void server_end(server *it);
/* Hands in an input of a connection, and does what the library answers. */
void hand_in(server *it, connection *of, uint32_t input, slice frame);
/* Hands in a frame that came, as README.md says: with the lifetime of -t, and without a pair that can't sign. */
void hand_in_frame(server *it, connection *of, slice frame);
/* The client went away: the library forgets the connection. */
void hand_in_end(server *it, connection *of);
/* Drops the keys whose time is over. */
void drop_due_keys(server *it);

/* ---- connections.c */

/* Takes a connection; false where memory runs out. */
bool connection_add(server *it, int socket);
connection *connection_numbered(const server *it, uint32_t number);
/* What is to be polled of it. */
short connection_events(const connection *it);
/* Whether a whole frame can be handed in now. */
bool connection_is_ready(const connection *it);
/* Reads, hands in at most one frame, and sends, by what `poll` returned of it. */
void connection_serve(server *it, connection *of, short returned);
/* Removes those that are over. */
void connections_sweep(server *it);
/* The moment at which the next unlock that waits may be tried; 0 where none waits. */
uint64_t connections_unlock_moment(const server *it);

/* ---- questions.c */

/* Asks the user for the connection whose turn it is, unless the user is being asked. */
void questions_ask(server *it);
/* A child of this process ended. */
void questions_ended(server *it, pid_t child, int status);
/* The connection is gone: it isn't asked about any longer. */
void questions_drop(server *it, connection *of);

/* ---- serve.c */

/* Serves until a signal ends it. False where it can't begin. */
bool serve(server *it, int listener, int signals);

#endif
