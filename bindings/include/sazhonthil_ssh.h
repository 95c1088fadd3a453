/* sazhonthil_ssh.h: an SSH client for C, C++, and whatever calls C, over the proved core of sazhonthil.h.
 *
 * A connection is a value: it has a socket, a transport (RFC 4253) by OpenSSL's libcrypto, and a session of the core, which
 * says whose host key is accepted, what is sent when, and what each packet of the server means. The library ends no
 * process, prints nothing, installs no signal handler, starts no thread and keeps nothing global. This header is all that a
 * program needs; what of it is proved and what isn't is in bindings/ssh/README.md.
 *
 * The order of calls: sazh_new, sazh_hosts_file, sazh_connect, one or more sazh_login_.., channels and forwards, sazh_free.
 *
 * Answers. A call returns SAZH_OK or what went wrong; sazh_error_of has the details of the last error of a connection:
 * the server's words, file and line of a key, its fingerprint. An error that ends the connection stays: every later call
 * returns it too (sazh_is_over).
 *
 * Waiting. A connection begins blocking: calls return when what they ask for is done. sazh_set_blocking(c, false) makes
 * each call return SAZH_AGAIN instead of waiting; what it asked for goes on: put the descriptors of sazh_poll into poll(),
 * with sazh_timeout as the time, call sazh_step, and ask again by sazh_wait_login, sazh_channel_wait and so on. While no
 * call of the library runs nothing is sent or received, so a program that has forwards calls sazh_step in a loop.
 *
 * Ownership. Texts and bytes that are handed in are copied, but where it is said. Texts that are handed out belong to the
 * connection (or key), and hold until the next call with it. `void *own` is the caller's, and is handed back to its
 * callbacks. A callback calls no function of this library with the same connection: such a call returns SAZH_MISUSE.
 *
 * Threads. One connection with its channels and forwards, and a key: one thread at a time. Two connections: any two
 * threads at once, unless one runs through the other (sazh_connect_through). getaddrinfo is called, and blocks.
 *
 * Signals. Sockets are written with MSG_NOSIGNAL. The one file that is written is the known hosts file, by
 * sazh_host_accept.
 *
 * Secrets. Passwords, answers, passphrases, private keys, derived keys, and the memory of events and records that held
 * them are overwritten before they are freed. What the caller owns is the caller's to wipe.
 */
#ifndef SAZHONTHIL_SSH_H
#define SAZHONTHIL_SSH_H

#include <poll.h>
#include <stdbool.h>
#include <stddef.h>
#include <stdint.h>

#ifdef __cplusplus
extern "C" {
#endif

/* The number of the interface that this header declares: it grows with each call that is added, and its high half changes
 * where a call that was there changes. */
#define SAZH_ABI 0x00010002u
uint32_t sazh_abi(void);

typedef struct sazh_connection sazh_connection;
typedef struct sazh_channel sazh_channel;
typedef struct sazh_forward sazh_forward;
typedef struct sazh_key sazh_key;

/* ---- errors */

typedef enum sazh_code {
  SAZH_OK = 0,
  SAZH_AGAIN,             /* not yet; only where the connection doesn't block */
  SAZH_EOF,               /* the stream is at its end */
  SAZH_MISUSE,            /* this call can't be made now, or not with these values */
  SAZH_NO_MEMORY,
  SAZH_CRYPTO,            /* libcrypto failed */
  SAZH_SYSTEM,            /* a call of the system failed; `system` has errno */
  SAZH_BAD_NAME,          /* the host's name can't stand in a line of known hosts */
  SAZH_NO_ADDRESS,        /* the host's name has no address */
  SAZH_NO_CONNECTION,     /* no address takes the connection */
  SAZH_TIMEOUT,           /* connecting or a key exchange took too long */
  SAZH_CLOSED,            /* the server closed the connection, or it broke */
  SAZH_BAD_PACKET,        /* the server sent what the transport can't take */
  SAZH_NO_ALGORITHM,      /* no algorithm in common with the server */
  SAZH_BAD_SIGNATURE,     /* the server doesn't have the host key that it showed */
  SAZH_HOST_UNKNOWN,      /* no line of the known hosts has the server's key; see sazh_host_accept */
  SAZH_HOST_CHANGED,      /* a line has another key, and none this one: somebody may be in between */
  SAZH_HOST_REVOKED,      /* a line revokes the server's key */
  SAZH_HOST_REKEYED,      /* a later key exchange showed another host key than the first */
  SAZH_HOSTS_FILE,        /* a known hosts file can't be read or written, or a line of it can't be read */
  SAZH_REFUSED_BY_CORE,   /* the core refuses what the server sent; `status` says why (sazhonthil.h) */
  SAZH_DISCONNECTED,      /* the server ended the session; `server_words` says why */
  SAZH_NO_ANSWER,         /* the server left too many keepalives unanswered */
  SAZH_DENIED,            /* the server doesn't let this user in so */
  SAZH_NO_METHOD,         /* the server names no method of logging in that the core knows */
  SAZH_NO_AGENT,          /* there is no agent at the socket, or it answers nothing */
  SAZH_NO_KEY,            /* the agent has no key that can be tried */
  SAZH_KEY_FILE,          /* the file isn't a private key that the library reads */
  SAZH_PASSPHRASE,        /* the passphrase is wrong, or there is none */
  SAZH_SIGNING,           /* the key didn't sign */
  SAZH_NO_ANSWERS,        /* the callback gave no answers to the server's prompts, which ends the connection */
  SAZH_CHANNEL_REFUSED,   /* the server opens no such channel; `reason` (RFC 4254, section 5.1) and its words are there */
  SAZH_REQUEST_REFUSED,   /* the server refused what was asked of the channel */
  SAZH_CHANNEL_CLOSED,    /* the channel is closed */
  SAZH_FORWARD_REFUSED,   /* the server listens at no such port or socket */
  SAZH_CANNOT_LISTEN      /* no socket here listens at this address */
} sazh_code;

/* What a code says, as a line without its end. Never NULL. */
const char *sazh_code_text(sazh_code code);

typedef struct sazh_error {
  sazh_code code;
  const char *text;         /* a line that names all that is known; never NULL */
  uint32_t status;          /* the core's status (sshc_status), or 0 */
  uint32_t reason;          /* of a disconnection or a channel that was refused, or 0 */
  const char *server_words; /* what the server said, with ? for control characters; "" where it said nothing */
  const char *file;         /* the known hosts file, or the key's; "" */
  uint64_t line;            /* its line from 1, or 0 */
  const char *key_type;     /* of the host key that the server showed; "" */
  const char *fingerprint;  /* its fingerprint, SHA256:..; "" */
  int system;               /* errno, or 0 */
} sazh_error;

/* The last error of the connection; its code is SAZH_OK where there was none. Holds until the next call. */
const sazh_error *sazh_error_of(const sazh_connection *it);
/* Whether the connection has ended. Only sazh_error_of, reading what came (sazh_read) and sazh_free are of use then. */
bool sazh_is_over(const sazh_connection *it);

/* ---- settings */

typedef struct sazh_settings {
  size_t size;                     /* sizeof(sazh_settings), for later versions */
  const char *ciphers;             /* best first, with commas; NULL: aes256-gcm, chacha20-poly1305, aes256-ctr */
  const char *host_key_algorithms; /* NULL: all, and first those of keys that the known hosts have for the host */
  const char *host_key_alias;      /* the name to look for in the known hosts, instead of the host and port; NULL: none */
  int family;                      /* AF_UNSPEC, AF_INET or AF_INET6 */
  uint32_t connect_seconds;        /* for connecting and the first key exchange (30); 0: no limit */
  uint32_t exchange_seconds;       /* for each later key exchange (60); 0: no limit */
  uint32_t keepalive_seconds;      /* how often the server is asked whether it is there; 0: never */
  uint32_t keepalive_max;          /* so many may stay unanswered (3); 0: any number */
  uint64_t rekey_bytes;            /* new keys after so many bytes (2^30), */
  uint64_t rekey_packets;          /* so many packets (2^31), */
  uint32_t rekey_seconds;          /* or so many seconds (3600); 0 in any of the three: the default */
  uint32_t window;                 /* each channel's (2097152): of one that isn't read at most one and a half wait here */
  void (*banner)(void *own, const char *text, size_t len); /* the server's words before the login, as they came; NULL */
  void *own;
} sazh_settings;

void sazh_settings_default(sazh_settings *settings);

/* ---- connecting */

/* A connection that isn't connected; settings may be NULL. SAZH_NO_MEMORY; SAZH_MISUSE for an unknown algorithm. */
sazh_code sazh_new(sazh_connection **made, const sazh_settings *settings);
/* Closes and frees all: channels, forwards, the socket. NULL is allowed. Says goodbye to the server if that needs no wait. */
void sazh_free(sazh_connection *it);

/* Adds a known hosts file, before connecting. The first one is the one that is learned to. A file that isn't there is read
 * as empty, unless must_exist. SAZH_HOSTS_FILE, SAZH_NO_MEMORY, SAZH_MISUSE. */
sazh_code sazh_hosts_file(sazh_connection *it, const char *path, bool must_exist);

/* Host keys are judged by the known hosts as OpenSSH reads them (sshc_known_hosts_check_openssh in sazhonthil.h): patterns,
 * names in any case, any blanks, any bytes; a line that can't be read is passed over. With true they are judged by the
 * narrow reading of sshc_known_hosts_check instead: no patterns, names byte by byte in lower case, fields parted by one
 * space, text in UTF-8, and a line for the host that can't be read refuses it. Before connecting. SAZH_MISUSE. */
sazh_code sazh_hosts_narrow(sazh_connection *it, bool narrow);

/* Whether a text can be a host's name or address, and be only itself in a line of known hosts: letters, digits, and - . _ : %
 * + ~, without a - in front. Hosts are refused otherwise (SAZH_BAD_NAME). */
bool sazh_is_host_name(const char *text);

/* Connects to the host, both address families tried, and exchanges keys. SAZH_OK: the server has the host key that it
 * showed, and the known hosts accept it. SAZH_HOST_UNKNOWN: it has the key, but no line has it; ask the user, and go on
 * with sazh_host_accept, or free the connection. All other errors end the connection. */
sazh_code sazh_connect(sazh_connection *it, const char *host, uint16_t port);
/* The same over a connected socket, which the connection owns from now on, whatever is returned. */
sazh_code sazh_connect_fd(sazh_connection *it, int socket, const char *host, uint16_t port);
/* The same through another connection, whose server connects to the host (a jump host). `jump` has to outlive this one,
 * is stepped by it, and may carry other channels meanwhile. */
sazh_code sazh_connect_through(sazh_connection *it, sazh_connection *jump, const char *host, uint16_t port);
/* Where the connection doesn't block: SAZH_AGAIN until the connect is done, then what it returned. */
sazh_code sazh_wait_connect(sazh_connection *it);

typedef struct sazh_host_key {
  const char *type;        /* ssh-ed25519 .. */
  const char *fingerprint; /* SHA256:.. */
  const uint8_t *blob;     /* the key (RFC 4253, section 6.6) */
  size_t blob_len;
  const char *host;        /* the name it is looked up by, as it stands in the known hosts: host, or [host]:port */
  const char *file;        /* the file that is learned to; "" where there is none */
} sazh_host_key;

/* The server's host key, once an exchange showed it; all fields are "" or NULL before. */
sazh_host_key sazh_host_key_of(const sazh_connection *it);
/* After SAZH_HOST_UNKNOWN: go on with this key. `learn` appends a line to the first known hosts file, in one write; the
 * file is made with mode 0600 where it isn't there. SAZH_HOSTS_FILE: it wasn't written, but the connection goes on. */
sazh_code sazh_host_accept(sazh_connection *it, bool learn);

/* What the two sides agreed on, for those who want to see it. All "" before. The version is the server's, as it came. */
typedef struct sazh_names {
  const char *server_version, *kex, *host_key, *cipher_out, *cipher_in, *mac_out, *mac_in;
  bool is_strict; /* strict key exchange (OpenSSH's PROTOCOL, 1.9) */
} sazh_names;
sazh_names sazh_names_of(const sazh_connection *it);

/* ---- logging in: each call tries one method. SAZH_OK: in. SAZH_DENIED: not so; sazh_methods has what may be tried next.
 * There is no limit of time for the server's answer, since some ask a person first; who wants one doesn't block. */

/* Asks which methods there are (RFC 4252, section 5.2): SAZH_DENIED and the methods, mostly. */
sazh_code sazh_login_none(sazh_connection *it, const char *user);
sazh_code sazh_login_password(sazh_connection *it, const char *user, const char *password);

typedef struct sazh_prompt {
  const char *text; /* the server's, as it came: show no control characters of it */
  bool echo;        /* whether the answer may be seen as it is typed */
} sazh_prompt;
/* Answers prompts (RFC 4256). `answers` is an array of count NULLs; set each to an answer in memory of malloc, which the
 * library wipes and frees. False: no answers (SAZH_NO_ANSWERS). It may be called several times, also with no prompt. */
typedef bool (*sazh_answers)(void *own, const char *name, const char *instruction, size_t count, const sazh_prompt *prompts, char **answers);
sazh_code sazh_login_prompts(sazh_connection *it, const char *user, sazh_answers answers, void *own);

/* Logs in by a key, which has to live until the login is done; by its certificate if it has one. SAZH_PASSPHRASE,
 * SAZH_SIGNING: the server would take the key, but it couldn't be used. */
sazh_code sazh_login_key(sazh_connection *it, const char *user, sazh_key *key);
/* Logs in by each key of the agent at the socket, one after another, until one is taken. The agent is asked in a blocking
 * way. SAZH_NO_AGENT, SAZH_NO_KEY. */
sazh_code sazh_login_agent(sazh_connection *it, const char *user, const char *socket_path);
/* Where the connection doesn't block: SAZH_AGAIN until the login that was asked for is answered, then what came of it. */
sazh_code sazh_wait_login(sazh_connection *it);

/* The methods that the server named last, with commas; "" before. */
const char *sazh_methods(const sazh_connection *it);
/* Whether the last method was right, but the server wants another one as well. */
bool sazh_is_partial(const sazh_connection *it);

/* ---- keys */

/* A passphrase for the file, in memory of malloc, which the library wipes and frees; NULL: none. */
typedef char *(*sazh_passphrase)(void *own, const char *file);
/* Reads a private key (OpenSSH's format; PEM by libcrypto): Ed25519, ECDSA, RSA. Where the public key stands in the clear
 * the passphrase is asked only once the server wants the key, three times at most. A certificate at PATH-cert.pub is read
 * too. The error, if any, has no connection: `why`, which may be NULL, gets a line of at most why_room bytes. */
sazh_code sazh_key_read(sazh_key **made, const char *path, sazh_passphrase passphrase, void *own, char *why, size_t why_room);
void sazh_key_free(sazh_key *key);
/* Its type and its fingerprint; "" of NULL. */
const char *sazh_key_type(const sazh_key *key);
const char *sazh_key_fingerprint(const sazh_key *key);
bool sazh_key_has_certificate(const sazh_key *key);

/* ---- channels */

/* Opens a session's channel (RFC 4254, section 6.1), *made is freed by sazh_channel_free, before or after it is open.
 * Where the connection doesn't block this returns SAZH_AGAIN with *made set; sazh_channel_wait tells when it is open. */
sazh_code sazh_open_session(sazh_connection *it, sazh_channel **made);
/* Opens a channel that the server connects to a host and port, or to a socket's path. */
sazh_code sazh_open_tcp(sazh_connection *it, const char *host, uint16_t port, sazh_channel **made);
sazh_code sazh_open_unix(sazh_connection *it, const char *path, sazh_channel **made);
/* SAZH_OK once the channel is open and each request is answered; SAZH_CHANNEL_REFUSED, SAZH_REQUEST_REFUSED (a request
 * since the last call was refused; the channel stays), SAZH_CHANNEL_CLOSED; SAZH_AGAIN where the connection doesn't block. */
sazh_code sazh_channel_wait(sazh_channel *it);
/* Closes the channel, if it isn't, and frees it. NULL is allowed. */
void sazh_channel_free(sazh_channel *it);

/* Requests of a session (RFC 4254, sections 6.2 to 6.9). They may be made before the channel is open. */
typedef struct sazh_mode {
  uint8_t code;
  uint32_t value;
} sazh_mode; /* a terminal's mode (RFC 4254, section 8) */
sazh_code sazh_pty(sazh_channel *it, const char *term, uint32_t columns, uint32_t rows, const sazh_mode *modes, size_t count);
sazh_code sazh_window_change(sazh_channel *it, uint32_t columns, uint32_t rows); /* never answered */
sazh_code sazh_environment(sazh_channel *it, const char *name, const char *value); /* no answer is asked for */
sazh_code sazh_shell(sazh_channel *it);
sazh_code sazh_command(sazh_channel *it, const char *command);
sazh_code sazh_subsystem(sazh_channel *it, const char *name);
sazh_code sazh_signal(sazh_channel *it, const char *name); /* TERM, INT ..; never answered */
/* Lets programs there use the agent at this socket here. Each connection of theirs is joined with it. */
sazh_code sazh_forward_agent(sazh_channel *it, const char *socket_path);

typedef enum sazh_stream { SAZH_OUT = 0, SAZH_ERR = 1 } sazh_stream;
/* Reads what came on a stream: SAZH_OK and 1 to `room` bytes; SAZH_EOF at its end. Waits where the connection blocks. Both
 * streams share the channel's window: one that isn't read stops the other once a window of it waits. */
sazh_code sazh_read(sazh_channel *it, sazh_stream from, void *to, size_t room, size_t *got);
/* Drops what came on a stream, and what still comes. */
void sazh_ignore(sazh_channel *it, sazh_stream from);
/* Hands in bytes: SAZH_OK and how many were taken, all of them where the connection blocks. SAZH_CHANNEL_CLOSED. */
sazh_code sazh_write(sazh_channel *it, const void *from, size_t count, size_t *taken);
/* No more bytes follow. */
sazh_code sazh_write_eof(sazh_channel *it);
/* Asks to close the channel; what came may still be read. */
sazh_code sazh_close(sazh_channel *it);
/* How many bytes can be read or handed in at once. */
size_t sazh_readable(const sazh_channel *it, sazh_stream from);
size_t sazh_writable(const sazh_channel *it);
/* Whether the server closed the channel (or the connection ended). Bytes may be left to read. */
bool sazh_is_closed(const sazh_channel *it);
/* Whether nothing more comes on a stream than what can be read. */
bool sazh_at_eof(const sazh_channel *it, sazh_stream from);

typedef struct sazh_exit {
  bool has_status, has_signal; /* neither: the server told nothing */
  uint32_t status;
  const char *signal;  /* TERM, KILL .. */
  const char *message; /* the server's words, with ? for control characters */
  bool core_dumped;
} sazh_exit;
/* What became of the command, as far as the server has told by now: after the end of its output, before it closes the
 * channel. */
sazh_exit sazh_exit_of(const sazh_channel *it);
/* The same once the server has told it or has closed the channel; SAZH_AGAIN where the connection doesn't block. */
sazh_code sazh_wait_exit(sazh_channel *it, sazh_exit *to);

/* ---- forwards: they last until they or the connection are freed, and work while sazh_step is called */

/* One end of a forward: a host and port, or a socket's path where path isn't NULL. */
typedef struct sazh_end {
  const char *host;
  uint16_t port;
  const char *path;
} sazh_end;
/* Listens here, and has the server connect there. Where `here` listens: host NULL is the loopback in both address
 * families, "" or "*" every address. Port 0 is one that the system chooses. `made` may be NULL. */
sazh_code sazh_forward_local(sazh_connection *it, const sazh_end *here, const sazh_end *there, sazh_forward **made);
/* Listens here for SOCKS5 (RFC 1928, without authentication), and has the server connect where each client wants. */
sazh_code sazh_forward_dynamic(sazh_connection *it, const sazh_end *here, sazh_forward **made);
/* Has the server listen there, and connects here. Port 0 is one that the server chooses. */
sazh_code sazh_forward_remote(sazh_connection *it, const sazh_end *there, const sazh_end *here, sazh_forward **made);
/* Of a remote forward: SAZH_AGAIN until the server answered, then SAZH_OK or SAZH_FORWARD_REFUSED. */
sazh_code sazh_forward_wait(sazh_forward *it);
/* The port that is listened at. */
uint16_t sazh_forward_port(const sazh_forward *it);
/* Ends the listening, here or there (the server is told so, and its answer isn't awaited), and frees the forward. The
 * connections that came through it go on. NULL is allowed. */
void sazh_forward_free(sazh_forward *it);

/* ---- driving a connection that doesn't block */

void sazh_set_blocking(sazh_connection *it, bool blocking);
/* Does what can be done at once: reads, sends, exchanges keys, moves the bytes of forwards. SAZH_OK, or the error that
 * ended the connection. */
sazh_code sazh_step(sazh_connection *it);
/* A number that grows whenever a call took something that came, sent something that waited, or ended the connection. Where
 * threads take turns with a connection, one whose call returned SAZH_AGAIN asks again once it has grown, whoever's call
 * that was. */
uint64_t sazh_changes(const sazh_connection *it);
/* Fills in what is waited for, at most `room` of it, and returns how many there are (call again with more room). */
size_t sazh_poll(const sazh_connection *it, struct pollfd *to, size_t room);
/* For how many milliseconds poll may wait; -1: for ever. */
int sazh_timeout(const sazh_connection *it);
/* Polls once, for at most so many milliseconds (-1: for ever), and steps. */
sazh_code sazh_turn(sazh_connection *it, int milliseconds);
/* Begins a key exchange at the next step. */
sazh_code sazh_rekey(sazh_connection *it);
/* Ends the session: tells the server so, and waits three seconds at most until that is sent. */
void sazh_disconnect(sazh_connection *it, const char *words);

#ifdef __cplusplus
}
#endif
#endif
