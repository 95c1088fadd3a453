/* A connection's parts, for the files of the library. */
#ifndef SAZHONTHIL_SSH_CONNECTION_H
#define SAZHONTHIL_SSH_CONNECTION_H

#include "agent.h"
#include "core.h"
#include "dial.h"
#include "hosts.h"
#include "keys.h"
#include "transport.h"

#include <sazhonthil_ssh.h>

enum {
  CHUNK = 32768,          /* the most data of one event */
  MOST_TODO = 1 << 20,    /* events that wait for the end of an exchange */
  MOST_UNSENT = 1 << 20,  /* bytes that wait for the socket before no more data is taken */
  MOST_JOINS = 256,       /* connections of forwards at once */
  MOST_LISTENERS = 16,    /* addresses of one forward */
  MOST_BANNERS = 64
};

typedef enum phase {
  PHASE_NEW,
  PHASE_DIALLING,
  PHASE_EXCHANGING, /* the first key exchange */
  PHASE_ASKING,     /* the host key isn't known, and the caller hasn't said what to do */
  PHASE_SECURED,    /* the user isn't in yet */
  PHASE_OPEN,
  PHASE_OVER
} phase;

/* What the last error points at. */
typedef struct failure {
  sazh_error error;
  char text[1400], words[512], file[512], key_type[64], fingerprint[64];
} failure;

typedef struct login {
  bool pending;
  sazh_code result, broken; /* broken: why a signature or answers failed */
  uint8_t method;
  uint32_t ticket;
  char *user;
  sazh_key *key;
  agent agent;
  bytes keys;  /* of the agent */
  size_t next; /* where the next one of them begins */
  sazh_answers answers;
  void *own;
  char methods[512];
  bool partial;
} login;

/* The packet that told of an open: the core's records leave out the peer's number, and of the server's channels the window
 * (RFC 4254, section 5.1). */
typedef struct opening {
  uint32_t ours, peer, window, most;
} opening;

struct sazh_channel {
  sazh_connection *of;
  sazh_channel *next;
  bool is_owned;   /* by the caller or a join; else it is freed once it is closed */
  bool is_open, is_refused, is_closed;
  bool eof_in, eof_asked, close_asked, close_sent;
  bool ended_well; /* the server said that nothing more comes */
  uint32_t ticket; /* of the open that is awaited */
  uint32_t number, peer, most;
  uint64_t window; /* how many bytes may be handed in */
  bytes in[2];
  bool ignored[2]; /* what comes is dropped */
  uint32_t owed;   /* window that the core gave back, and that the server isn't told of yet */
  uint64_t told;   /* how many bytes the server may send by what it was told */
  bytes waiting;   /* what was asked before it was open: a string each */
  uint32_t asked, answered, refused;
  sazh_exit exit;
  char signal[32], message[256];
  uint32_t reason; /* why it was refused; the words are in `message` */
};

typedef enum forward_kind { FORWARD_LOCAL, FORWARD_DYNAMIC, FORWARD_REMOTE } forward_kind;

typedef struct end_of {
  char *host, *path;
  uint16_t port;
} end_of;

struct sazh_forward {
  sazh_connection *of;
  sazh_forward *next;
  forward_kind kind;
  end_of listens, connects;
  int listeners[MOST_LISTENERS];
  size_t count;
  uint16_t port;
  uint32_t ticket; /* of the remote listener that is awaited, or 0 */
  sazh_code answer;
  uint64_t paused; /* no descriptor was free: until when nothing is accepted */
};

/* A socket here and a channel. */
typedef enum join_state { JOIN_SOCKS, JOIN_OPENING, JOIN_DIALLING, JOIN_MOVING } join_state;
typedef struct join {
  struct join *next;
  join_state state;
  sazh_channel *channel;
  int file;
  dial dial;
  bytes head;  /* came from the socket before there was a channel */
  bytes reply; /* goes to the socket before the channel's bytes */
  bool greeted, is_socks, in_ended, out_ended;
} join;

struct sazh_connection {
  sazh_settings set;
  char *ciphers, *algorithms, *alias; /* of the settings; NULL: the default */
  bool blocking, inside;
  bool is_narrow; /* known hosts are read as by sshc_known_hosts_check */
  phase phase;
  uint64_t changes;
  failure failed;

  dial dial;
  int socket;
  sazh_connection *jump;
  sazh_channel *jump_channel;
  transport line;
  core core;
  bytes early; /* what came before the first exchange was done: a string of a kind and fields each */
  bytes todo;  /* events that are to be handed in, likewise */

  hosts hosts;
  char *host, *look; /* as the caller has it; as the known hosts are searched for it */
  uint16_t port, look_port;
  bytes ordered, name;
  char key_type[64], fingerprint[64];
  char server_words[512];
  char kex[64], host_algorithm[64], cipher_out[64], cipher_in[64], mac_out[64], mac_in[64];

  uint64_t deadline, begun_exchange, exchange_since, next_keepalive;
  bool rekey_asked;
  login login;
  uint32_t banners, tickets;
  opening last;

  sazh_channel *channels;
  sazh_channel *refused; /* the channel whose open was just refused, until its words come */
  sazh_forward *forwards;
  join *joins;
  size_t join_count;
  char *agent_path;
};

/* ---- errors.c */
/* Notes an error; the connection goes on. */
sazh_code note(sazh_connection *it, sazh_code code, const char *format, ...) __attribute__((format(printf, 3, 4)));
/* Notes an error and ends the connection; the first end stays. */
sazh_code end(sazh_connection *it, sazh_code code, const char *format, ...) __attribute__((format(printf, 3, 4)));
sazh_code end_no_memory(sazh_connection *it);
/* The core's status as an error, and the end of the connection. */
sazh_code end_by_status(sazh_connection *it, sshc_status status, uint64_t detail);
/* What the known hosts say of the server's key. */
sazh_code judged(sazh_connection *it, sshc_status status, uint64_t line);

/* ---- events.c */
/* Begins an event that waits for its turn; NULL where too many wait. `begun` goes to todo_end. */
bytes *todo_begin(sazh_connection *it, uint8_t kind, size_t *begun);
void todo_end(sazh_connection *it, size_t begun);
/* Hands in the event that was begun with core_event, and does what its records say; false where the connection ended. */
bool deliver(sazh_connection *it);
void run_todo(sazh_connection *it);
void take_arrivals(sazh_connection *it);
/* Makes the session and hands in the first exchange. */
void begin_session(sazh_connection *it);
bool may_ask(const sazh_connection *it);

/* ---- connection.c */
/* Turns until `is_done`, where the connection blocks; SAZH_AGAIN where it doesn't and it isn't. */
sazh_code until(sazh_connection *it, bool (*is_done)(const void *of), const void *of);

/* ---- login.c */
void login_resolved(sazh_connection *it, uint8_t how, reader *fields);
void login_sign(sazh_connection *it, reader *fields);
void login_prompts(sazh_connection *it, reader *fields);
void login_opened(sazh_connection *it);
void login_free(login *it);

/* ---- channels.c */
sazh_channel *channel_new(sazh_connection *it);
sazh_channel *channel_of_peer(sazh_connection *it, uint32_t peer);
void channel_opened(sazh_channel *it, uint32_t number);
void channel_open_failed(sazh_channel *it, uint32_t reason);
void channel_record(sazh_connection *it, uint8_t kind, reader *fields);
/* Hands in as many bytes as may go now; how many. */
size_t channel_put(sazh_channel *it, const uint8_t *from, size_t count);
void channel_ask_plain(sazh_channel *it, uint8_t what);
/* Asks something of a channel: a sort and its fields, which are freed; it waits until the channel is open. */
void channel_ask(sazh_channel *it, bytes *body);
/* Holds a window back that the core gives; the second gives what is held where few bytes wait to be read. */
void channel_hold(sazh_channel *it, uint32_t window);
void channels_give(sazh_connection *it);
void channels_sweep(sazh_connection *it);
void channels_end(sazh_connection *it);
/* The wire of a connection through a channel. */
wire wire_of_channel(sazh_channel *it);
sazh_channel *open_tcp(sazh_connection *it, const char *host, uint16_t port, const char *from, uint16_t from_port);
sazh_channel *open_unix(sazh_connection *it, const char *path);

/* ---- forwards.c, joins.c */
bool forward_resolved(sazh_connection *it, uint32_t ticket, uint8_t how, reader *fields);
void server_opened(sazh_connection *it, reader *fields);
void joins_move(sazh_connection *it);
void forwards_accept(sazh_connection *it);
size_t forwards_poll(const sazh_connection *it, struct pollfd *to, size_t room, size_t count);
bool forwards_wait(const sazh_connection *it);
void forwards_free(sazh_connection *it);
void joins_free(sazh_connection *it);
size_t joins_poll(const sazh_connection *it, struct pollfd *to, size_t room, size_t count);
/* A join whose channel a client of ours gets: over SOCKS, or to where the forward goes. */
bool join_accepted(sazh_connection *it, const sazh_forward *from, int file);
/* A join of a channel that the server opened, with a socket that is there, or is dialled. */
void join_served(sazh_connection *it, uint32_t channel, int file, const end_of *to);
/* Closes a channel that the server opened and that nobody wants. */
void join_refused(sazh_connection *it, uint32_t channel);
size_t add_poll(struct pollfd *to, size_t room, size_t count, int file, short events);

#endif
