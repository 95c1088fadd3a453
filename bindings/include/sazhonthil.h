/* sazhonthil.h: a proved SSH client core for C, C++, and whatever calls C.
 *
 * The library does no I/O, starts no thread, takes no lock, keeps no global state and computes no cryptography but the
 * HMAC-SHA1 of hashed known hosts lines. Events go in as bytes, records come out as bytes; their numbers are below, and
 * docs/FORMATS.md has the fields of each. Whoever calls this is a driver: it brings the transport. sazhonthil_ssh.h has one
 * ready, and no program that uses it needs this header.
 *
 * What a driver has to do. Nothing here checks it.
 *
 * 1. IT VERIFIES THE SERVER'S SIGNATURE OVER THE EXCHANGE HASH, with the host key that EXCHANGE_DONE names, before it hands
 *    in EXCHANGE_DONE (RFC 4253, section 8). The field for the signature is read and not verified. A driver that leaves
 *    this out has no server authentication at all, whatever the known hosts say.
 * 2. It does the key exchange, the ciphers and the version lines (RFC 4253, sections 4 to 8), and hands in PEER_KEXINIT when
 *    the server's KEXINIT is there, and EXCHANGE_DONE when the new keys are used in both directions. At the start an
 *    exchange of ours runs, without a record that asks for it. The hash of the first exchange is the session's id.
 * 3. It hands in each decrypted packet, but those numbered 20 to 49, as PAYLOAD, in the order in which they came; those
 *    that came before EXCHANGE_DONE before it.
 * 4. It sends the packets of PAYLOAD records in their order, and begins a key exchange at BEGIN_EXCHANGE. While an exchange
 *    of ours runs it holds these packets back, and sends them once the new keys are used (RFC 4253, section 7.1).
 * 5. It answers SIGN_KEY and SIGN_CERTIFICATE with the very bytes that were handed out and the signature after them.
 * 6. It reads all records of a `_take` before the next one, which drops those that are left: a packet would be missing.
 * 7. It has the timers (KEEPALIVE_TIMER, INACTIVITY_TIMER, REKEY_LIMIT) and a clock that isn't set back.
 *
 * Limits. Each of these ends the session for good:
 *
 * - SSHC_BAD_EVENT: an event above SSHC_LONGEST_EVENT bytes, fields that are broken or left over, and a moment below the
 *   last one. So data is cut into pieces, and the moments are those of a monotonic clock.
 * - SSHC_OUT_OF_TURN: an event of the user while keys are exchanged (from BEGIN_EXCHANGE or PEER_KEXINIT to EXCHANGE_DONE, and
 *   from the start); a packet or a timer while an answer is awaited (after SIGN_KEY, SIGN_CERTIFICATE or PROMPTS); a
 *   second PEER_KEXINIT, or an EXCHANGE_DONE without one.
 * - SSHC_SCRIPT_TOO_LONG: more than max_events events, at most 4,294,967,295. At 3,800 packets a second that is 13 days.
 *
 * Each call below has a contract in crates/sazhonthil that is proved. What a contract can't check, the caller owes:
 *
 * - A pointer and a length fit: so many bytes may be read there, or written where the parameter isn't const. Where the
 *   length is 0 the pointer may be NULL. No other pointer may be NULL.
 * - What is written doesn't overlap anything else that is passed to the same call.
 * - A struct is zeroed before its `_new` (SSHC_SESSION_INIT, SSHC_AGENT_INIT), never written by hand, and never copied
 *   while it holds something: give its address.
 *
 * Objects. A session and an agent are small structs of the caller's. {0} holds nothing, and so does a struct after
 * `_free`. A call on a struct that holds nothing returns SSHC_MISUSE and does nothing (*size and *detail become 0, nothing
 * else is written), and so does `_new` on one that holds something; a second `_free` does nothing. So use after free and double free are answers, not undefined behaviour.
 *
 * Bytes. Pointers aren't kept after a call. Text is UTF-8 without a 0 at its end. Bytes that the library hands out are
 * copied to the front of the caller's memory: all of them, with SSHC_OK, or none, with SSHC_NO_ROOM; *size is how many
 * there are in both cases.
 *
 * Memory. The library takes memory by malloc, realloc and free, through three functions in runtime.c. No call ends the
 * process: where memory runs out the answer is SSHC_NO_MEMORY. A session whose `_take` returned it is over.
 *
 * Threads. One object: one call at a time, on whichever thread, ordered as the caller orders any memory. Two objects: any
 * two threads at once. No call from a signal handler.
 */
#ifndef SAZHONTHIL_H
#define SAZHONTHIL_H

#include <stddef.h>
#include <stdint.h>

#ifdef __cplusplus
extern "C" {
#endif

/* The number of the interface that this header declares. It grows with each call that is added; its high half changes
 * where a call that was there changes. Compare with what the library returns before the first other call. */
#define SSHC_ABI 0x00010001u
uint32_t sshc_abi(void);

/* Below 20 the statuses are this interface's own; from 20 they are those of the program `sshc` (docs/FORMATS.md, "The
 * program's last line and status"). */
typedef uint32_t sshc_status;
enum {
  SSHC_OK = 0,
  SSHC_UNKNOWN = 1,            /* no line of the known hosts has the key; also for a certificate */
  SSHC_MISUSE = 2,             /* the struct holds nothing, or `_new` on one that holds something */
  SSHC_NOT_TEXT = 3,           /* the host or the known hosts aren't UTF-8 */
  SSHC_BAD_INPUT = 4,          /* an agent's input has no such number, or its frame is too long */
  SSHC_BAD_KEY = 5,            /* the bytes aren't one whole key */
  SSHC_NOTHING = 6,            /* no record, no question, no output */
  SSHC_NO_ROOM = 7,            /* the caller's memory is too small; nothing was taken */
  SSHC_OVER = 8,               /* an earlier call ended the session, or it was refused */
  SSHC_REMOTE_DISCONNECT = 9,  /* the server ended the session */
  SSHC_DISCONNECTED = 10,      /* the user ended the session */
  SSHC_CLOSED = 11,            /* the session ended since no user is left */
  SSHC_ASKS_SIGNATURE = 12,    /* the agent wants a signature before it takes the input */
  SSHC_ASKS_REQUEST = 13,      /* the agent asks the user whether the request is allowed */
  SSHC_ASKS_KEY = 14,          /* the agent asks the user whether the key may sign */
  SSHC_CLOSED_TOO_LONG = 15,   /* the agent closes the connection: a frame is too long */
  SSHC_CLOSED_UNREADABLE = 16, /* the agent closes the connection: a sign request can't be read */
  SSHC_CLOSED_REFUSED = 17,    /* the agent closes the connection: the signature was refused */
  SSHC_NO_MEMORY = 20,
  SSHC_READ_FAULT = 21,        /* never returned: the library reads no file */
  SSHC_WRITE_FAULT = 22,       /* never returned */
  SSHC_SIGNER_FAULT = 23,      /* a pair at hand was to sign, which this interface doesn't do: use method 4 or 5 */
  SSHC_BAD_EVENT = 24,         /* the bytes aren't whole events; *detail is the place */
  SSHC_OUT_OF_TURN = 25,       /* the event may not come now; *detail is the place */
  SSHC_SCRIPT_TOO_LONG = 26,   /* more than max_events events */
  SSHC_TRANSPORT_FAILED = 27,
  SSHC_UNKNOWN_KEY = 28,       /* the known hosts don't have the server's key */
  SSHC_KEY_CHANGED = 29,       /* they have another one of its algorithm; *detail is the line */
  SSHC_DECODE = 30,            /* the key of a line for the host isn't base64 */
  SSHC_SSH_KEY = 31,           /* the key of a line for the host isn't a key */
  SSHC_INCONSISTENT = 32,      /* the server sent what it may not send */
  SSHC_PENDING = 33,
  SSHC_NO_AUTH_METHOD = 34,
  SSHC_NOT_AUTHENTICATED = 35,
  SSHC_SSH_ENCODING = 36,
  SSHC_INVALID_DISCONNECT = 37,
  SSHC_RECV_ERROR = 38,
  SSHC_KEEPALIVE_TIMEOUT = 39,
  SSHC_INACTIVITY_TIMEOUT = 40,
  SSHC_REVOKED = 42,           /* a line revokes the server's key; *detail is the line */
  SSHC_REKEY_KEY = 43          /* a later exchange has another host key than the first */
};

/* What a status says, as a line without its end; never NULL. In runtime.c, and not among the library's exports. */
const char *sshc_status_text(sshc_status status);

/* ---- the numbers of events and records (docs/FORMATS.md has the fields of each) */

/* Kinds of events. */
enum {
  SSHC_EVENT_PEER_KEXINIT = 0x01,     /* the peer's KEXINIT came */
  SSHC_EVENT_EXCHANGE_DONE = 0x02,    /* a key exchange is done, and the server's signature over its hash is verified */
  SSHC_EVENT_PAYLOAD = 0x03,          /* a decrypted packet, but those numbered 20 to 49 */
  SSHC_EVENT_TRANSPORT_FAILED = 0x04,
  SSHC_EVENT_REKEY_LIMIT = 0x05,      /* the keys have done enough (RFC 4253, section 9) */
  SSHC_EVENT_KEEPALIVE_TIMER = 0x08,
  SSHC_EVENT_INACTIVITY_TIMER = 0x09,
  SSHC_EVENT_AUTHENTICATE = 0x10,     /* by an SSHC_METHOD */
  SSHC_EVENT_AUTH_INFO_RESPONSE = 0x11,
  SSHC_EVENT_AUTH_GSSAPI_TOKEN = 0x12,
  SSHC_EVENT_AUTH_GSSAPI_MIC = 0x13,
  SSHC_EVENT_AUTH_GSSAPI_COMPLETE = 0x14,
  SSHC_EVENT_SIGNED = 0x15,           /* the answer to SSHC_RECORD_SIGN_KEY and _SIGN_CERTIFICATE */
  SSHC_EVENT_SIGN_FAILED = 0x16,
  SSHC_EVENT_OPEN_SESSION = 0x17,
  SSHC_EVENT_OPEN_X11 = 0x18,
  SSHC_EVENT_OPEN_DIRECT_TCPIP = 0x19,
  SSHC_EVENT_OPEN_DIRECT_STREAMLOCAL = 0x1a,
  SSHC_EVENT_TCPIP_FORWARD = 0x1b,
  SSHC_EVENT_CANCEL_TCPIP_FORWARD = 0x1c,
  SSHC_EVENT_STREAMLOCAL_FORWARD = 0x1d,
  SSHC_EVENT_CANCEL_STREAMLOCAL_FORWARD = 0x1e,
  SSHC_EVENT_CLOSE = 0x1f,
  SSHC_EVENT_DISCONNECT = 0x20,       /* with an SSHC_DISCONNECT reason */
  SSHC_EVENT_CHANNEL = 0x21,          /* something of a channel: an SSHC_ASK */
  SSHC_EVENT_SERVER_OPEN_REPLY = 0x22, /* of no effect here: the session accepts each open at once */
  SSHC_EVENT_REKEY = 0x24,
  SSHC_EVENT_AWAIT_EXTENSION_INFO = 0x25,
  SSHC_EVENT_GET_SERVER_SIG_ALGS = 0x26,
  SSHC_EVENT_KEEPALIVE = 0x27,
  SSHC_EVENT_PING = 0x28,
  SSHC_EVENT_NO_MORE_SESSIONS = 0x29,
  SSHC_EVENT_HOSTKEYS_PROVE = 0x2a,
  SSHC_EVENT_GLOBAL_REQUEST = 0x2b,
  SSHC_EVENT_GONE = 0x2f,
  SSHC_EVENT_AGENT_BYTES = 0x40,
  SSHC_EVENT_AGENT_REQUEST_ANSWER = 0x41,
  SSHC_EVENT_AGENT_KEY_ANSWER = 0x42,
  SSHC_EVENT_AGENT_CLOSE = 0x43
};

/* How AUTHENTICATE logs in. 2 and 3, pairs at hand, end in SSHC_SIGNER_FAULT here. */
enum {
  SSHC_METHOD_NONE = 0,
  SSHC_METHOD_PASSWORD = 1,
  SSHC_METHOD_PAIR = 2,
  SSHC_METHOD_PAIR_CERTIFICATE = 3,
  SSHC_METHOD_KEY = 4,                /* a key that an outside signer has: SSHC_RECORD_SIGN_KEY follows */
  SSHC_METHOD_CERTIFICATE = 5,
  SSHC_METHOD_PROMPTS = 6,
  SSHC_METHOD_GSSAPI = 7
};

/* Hashes of signatures by RSA. */
enum { SSHC_HASH_NONE = 0, SSHC_HASH_SHA256 = 1, SSHC_HASH_SHA512 = 2 };

/* What CHANNEL asks of a channel (RFC 4254, sections 5 and 6). */
enum {
  SSHC_ASK_DATA = 0,
  SSHC_ASK_EXTENDED_DATA = 1,
  SSHC_ASK_EOF = 2,
  SSHC_ASK_CLOSE = 3,
  SSHC_ASK_TERMINAL = 4,
  SSHC_ASK_TERMINAL_SIZE = 5,
  SSHC_ASK_X11 = 6,
  SSHC_ASK_ENVIRONMENT = 7,
  SSHC_ASK_SHELL = 8,
  SSHC_ASK_COMMAND = 9,
  SSHC_ASK_SIGNAL = 10,
  SSHC_ASK_SUBSYSTEM = 11,
  SSHC_ASK_AGENT = 12
};

/* Kinds of records. */
enum {
  SSHC_RECORD_PAYLOAD = 0x01,          /* a packet to encrypt and send; held while an exchange of ours runs */
  SSHC_RECORD_BEGIN_EXCHANGE = 0x02,   /* send KEXINIT */
  SSHC_RECORD_OPENED = 0x03,           /* the user is in */
  SSHC_RECORD_RESOLVED = 0x04,         /* a ticket's answer: an SSHC_RESOLVED */
  SSHC_RECORD_SIGN_KEY = 0x05,
  SSHC_RECORD_SIGN_CERTIFICATE = 0x06,
  SSHC_RECORD_PROMPTS = 0x07,
  SSHC_RECORD_GSSAPI_MECHANISM = 0x08,
  SSHC_RECORD_GSSAPI_TOKEN = 0x09,
  SSHC_RECORD_GSSAPI_ERROR = 0x0a,
  SSHC_RECORD_GSSAPI_ERROR_TOKEN = 0x0b,
  SSHC_RECORD_KEX_DONE = 0x20,
  SSHC_RECORD_AUTH_BANNER = 0x21,
  SSHC_RECORD_CHANNEL_OPEN = 0x22,
  SSHC_RECORD_CHANNEL_SUCCESS = 0x23,
  SSHC_RECORD_CHANNEL_FAILURE = 0x24,
  SSHC_RECORD_CHANNEL_CLOSE = 0x25,
  SSHC_RECORD_CHANNEL_EOF = 0x26,
  SSHC_RECORD_CHANNEL_OPEN_FAILURE = 0x27,
  SSHC_RECORD_SERVER_OPENED = 0x28,    /* a channel of an SSHC_OPENED type, accepted already: CLOSE ends it */
  SSHC_RECORD_CHANNEL_DATA = 0x29,
  SSHC_RECORD_CHANNEL_EXTENDED_DATA = 0x2a,
  SSHC_RECORD_CHANNEL_XON_XOFF = 0x2b,
  SSHC_RECORD_CHANNEL_EXIT_STATUS = 0x2c,
  SSHC_RECORD_CHANNEL_EXIT_SIGNAL = 0x2d,
  SSHC_RECORD_CHANNEL_WINDOW_ADJUSTED = 0x2e,
  SSHC_RECORD_HOST_KEYS_ANNOUNCED = 0x2f,
  SSHC_RECORD_AGENT_ANSWER = 0x40,
  SSHC_RECORD_AGENT_ASK_REQUEST = 0x41,
  SSHC_RECORD_AGENT_ASK_KEY = 0x42,
  SSHC_RECORD_AGENT_CLOSED = 0x43
};

/* What becomes of a ticket. */
enum {
  SSHC_RESOLVED_AUTH_SUCCESS = 0x00,
  SSHC_RESOLVED_AUTH_FAILURE = 0x01,
  SSHC_RESOLVED_EXT_INFO_SEEN = 0x02,
  SSHC_RESOLVED_SIG_ALGS = 0x03,
  SSHC_RESOLVED_CHANNEL_OPENED = 0x04,
  SSHC_RESOLVED_CHANNEL_OPEN_FAILED = 0x05,
  SSHC_RESOLVED_FORWARD_PORT = 0x06,
  SSHC_RESOLVED_DONE = 0x07,
  SSHC_RESOLVED_DENIED = 0x08,
  SSHC_RESOLVED_PONG = 0x09,
  SSHC_RESOLVED_HOST_KEYS_PROVED = 0x0a,
  SSHC_RESOLVED_HOST_KEYS_REFUSED = 0x0b,
  SSHC_RESOLVED_GLOBAL_REPLY = 0x0c,
  SSHC_RESOLVED_DROPPED = 0x0d
};

/* Types of the channels that a server opens. */
enum {
  SSHC_OPENED_SESSION = 0,
  SSHC_OPENED_DIRECT_TCPIP = 1,
  SSHC_OPENED_DIRECT_STREAMLOCAL = 2,
  SSHC_OPENED_X11 = 3,
  SSHC_OPENED_FORWARDED_TCPIP = 4,
  SSHC_OPENED_FORWARDED_STREAMLOCAL = 5,
  SSHC_OPENED_AGENT = 6,
  SSHC_OPENED_UNKNOWN = 7
};

/* Why a channel isn't opened (RFC 4254, section 5.1). */
enum {
  SSHC_OPEN_PROHIBITED = 1,
  SSHC_OPEN_CONNECT_FAILED = 2,
  SSHC_OPEN_UNKNOWN_TYPE = 3,
  SSHC_OPEN_RESOURCE_SHORTAGE = 4
};

/* Why a session is ended (RFC 4253, section 11.1). */
enum {
  SSHC_DISCONNECT_HOST_NOT_ALLOWED_TO_CONNECT = 1,
  SSHC_DISCONNECT_PROTOCOL_ERROR = 2,
  SSHC_DISCONNECT_KEY_EXCHANGE_FAILED = 3,
  SSHC_DISCONNECT_RESERVED = 4,
  SSHC_DISCONNECT_MAC_ERROR = 5,
  SSHC_DISCONNECT_COMPRESSION_ERROR = 6,
  SSHC_DISCONNECT_SERVICE_NOT_AVAILABLE = 7,
  SSHC_DISCONNECT_PROTOCOL_VERSION_NOT_SUPPORTED = 8,
  SSHC_DISCONNECT_HOST_KEY_NOT_VERIFIABLE = 9,
  SSHC_DISCONNECT_CONNECTION_LOST = 10,
  SSHC_DISCONNECT_BY_APPLICATION = 11,
  SSHC_DISCONNECT_TOO_MANY_CONNECTIONS = 12,
  SSHC_DISCONNECT_AUTH_CANCELLED_BY_USER = 13,
  SSHC_DISCONNECT_NO_MORE_AUTH_METHODS_AVAILABLE = 14,
  SSHC_DISCONNECT_ILLEGAL_USER_NAME = 15
};

/* An event is at most this long, with its length field: data for a channel is cut into pieces below it. */
#define SSHC_LONGEST_EVENT (4u + 262144u)

/* ---- known hosts
 *
 * There are two judgements. sshc_known_hosts_check_openssh reads a text as OpenSSH does, and is the one for files that
 * people have. sshc_known_hosts_check has a narrower rule, by which a session judges too (sshc_session_new): where the first
 * one accepts a key, hand the session a text of the one line that sshc_known_hosts_learn makes of it for an empty text.
 *
 * What differs from OpenSSH in the narrower one, and matters: hosts are compared byte by byte, so hand in lower case
 * (`Host` isn't `host`). Patterns (*, ?, !) aren't read: a line for *.example.org is a line for a host of that very name,
 * and a pattern marked @revoked revokes nothing. Lines marked @cert-authority aren't read. Fields are parted by one
 * space: a tab, two spaces or a blank in front hide a line. One byte that isn't UTF-8, anywhere in the text, refuses
 * every host (SSHC_NOT_TEXT). A line for the host whose key isn't base64, or is of a type that isn't known here, refuses
 * the host (SSHC_DECODE, SSHC_SSH_KEY) where OpenSSH passes over it. */

/* Whether the known hosts text accepts the key (its blob, RFC 4253, section 6.6) for the host at the port: SSHC_OK,
 * SSHC_UNKNOWN, SSHC_KEY_CHANGED or SSHC_REVOKED with the line's number from 1 in *line, SSHC_DECODE, SSHC_SSH_KEY,
 * SSHC_BAD_KEY, SSHC_NOT_TEXT, SSHC_NO_MEMORY. *line is 0 but for those two. */
sshc_status sshc_known_hosts_check(const uint8_t *host, size_t host_len, uint16_t port, const uint8_t *known, size_t known_len,
                                   const uint8_t *key, size_t key_len, uint64_t *line);

/* The same as OpenSSH reads the text: patterns, names in any case, hashed names, any blanks; a line that can't be read is
 * passed over, and @revoked refuses a key whatever other lines say. SSHC_OK, SSHC_UNKNOWN, SSHC_KEY_CHANGED or SSHC_REVOKED
 * with the line's number from 1 in *line, SSHC_BAD_KEY, SSHC_NOT_TEXT (the host alone: the known hosts may be any bytes),
 * SSHC_NO_MEMORY. A certificate is judged by the key that it certifies; authorities (@cert-authority) certify none here.
 * docs/DIFFERENCES.md has what still differs from OpenSSH. */
sshc_status sshc_known_hosts_check_openssh(const uint8_t *host, size_t host_len, uint16_t port, const uint8_t *known,
                                           size_t known_len, const uint8_t *key, size_t key_len, uint64_t *line);

/* Copies what is to be added at the end of the known hosts text so that it has the key: SSHC_OK, SSHC_NO_ROOM,
 * SSHC_BAD_KEY, SSHC_NOT_TEXT, SSHC_NO_MEMORY. Nothing is judged: check first. *size is set with the first two alone. THE
 * HOST IS WRITTEN AS IT IS: the caller sees to it that it is one name, without comma, space, line feed, or a sign of
 * patterns and markers (* ? ! | @ #) in it, since "x,github.com" would be a line for github.com too. */
sshc_status sshc_known_hosts_learn(const uint8_t *host, size_t host_len, uint16_t port, const uint8_t *known, size_t known_len,
                                   const uint8_t *key, size_t key_len, uint8_t *to, size_t to_len, size_t *size);

/* ---- a session */

typedef struct sshc_session {
  uint32_t live; /* private */
  void *at;      /* private */
} sshc_session;
#define SSHC_SESSION_INIT {0, NULL}

/* Sizes are bytes, times milliseconds. */
typedef struct sshc_settings {
  uint64_t keepalive_interval;  /* 0: none. The clock is the caller's: it hands in KEEPALIVE_TIMER */
  uint64_t keepalive_max;       /* how many keepalives may stay unanswered; 0 sets no bound */
  uint64_t inactivity_timeout;  /* 0: none. The caller hands in INACTIVITY_TIMER */
  uint32_t window_size;         /* how many bytes a channel's peer may send at first */
  uint32_t maximum_packet_size; /* the most bytes of a channel's packet */
  uint32_t max_events;          /* the most events that a session takes */
  uint32_t anonymous;           /* not 0: no user is authenticated, the first exchange opens the session */
} sshc_settings;

/* No keepalives (3 unanswered ones where there are), no inactivity limit, a window of 2097152, packets of 32768, 4294967295
 * events, not anonymous. */
void sshc_settings_default(sshc_settings *settings);

/* Makes a session, where the struct holds nothing: SSHC_OK, SSHC_MISUSE, SSHC_NOT_TEXT, SSHC_NO_MEMORY. It goes on only
 * with a server whose host key is a plain key that the known hosts text accepts for the host at the port. */
sshc_status sshc_session_new(sshc_session *session, const sshc_settings *settings, const uint8_t *host, size_t host_len,
                             uint16_t port, const uint8_t *known, size_t known_len);

/* Hands in events, mostly one, as a script has them: u32 length of what follows, u64 moment, u8 kind, fields. Records
 * that weren't read yet stay, and those of these events come after them.
 * SSHC_OK: the session took them and goes on; their records are there.
 * SSHC_REMOTE_DISCONNECT, SSHC_DISCONNECTED, SSHC_CLOSED: an event ended the session; the records up to that are there.
 * SSHC_NO_MEMORY and all above it: an event was refused, and the session is over; the records of the events before it
 * are there, and those of its own row (with SSHC_NO_MEMORY maybe fewer). *detail is the place or line that the status
 * names, and otherwise 0; a place counts all bytes that were handed in since `_new`.
 * SSHC_OVER: it was over before. Bytes behind the event that ended the session or was refused aren't read.
 * The agent of the kinds 40 to 43 is there too, but signs nothing: for one that does there is sshc_agent. */
sshc_status sshc_session_take(sshc_session *session, const uint8_t *events, size_t events_len, uint64_t *detail);

/* Copies the next record that wasn't read yet: SSHC_OK, SSHC_NO_ROOM, SSHC_NOTHING after the last one, SSHC_MISUSE. Their
 * memory is used again once all are read. */
sshc_status sshc_session_record(sshc_session *session, uint8_t *to, size_t to_len, size_t *size);

/* Frees what the struct holds and leaves {0}. */
void sshc_session_free(sshc_session *session);

/* ---- an agent (draft-miller-ssh-agent) whose caller signs
 *
 * The agent holds keys with their constraints, and a lock. For each input of a connection: first `_asks` whether a
 * signature is wanted; if so sign the part 0 by the key of the parts 1 and 2; then `_take` with the same input, moment
 * and connection and the signature, and send `_answer` where it returned SSHC_OK. If another input was taken between the
 * two, ask again: the signature would count for what the input asks then, and nothing refuses it. Inputs:
 *   0 a frame, without its length, of at most 262144 bytes      1 a frame's length was above that
 *   2, 3 the user allows the request asked about, or not        4, 5 confirms the use of the key asked about, or not
 *   6 the client went away. Of all but 0 the frame is empty. */

typedef struct sshc_agent {
  uint32_t live; /* private */
  void *at;      /* private */
} sshc_agent;
#define SSHC_AGENT_INIT {0, NULL}

/* Makes an agent without keys: SSHC_OK, SSHC_MISUSE, SSHC_NO_MEMORY. Unless asks is 0 the user is asked about each request. */
sshc_status sshc_agent_new(sshc_agent *agent, uint32_t asks);

/* What the step with this input asks to be signed: SSHC_ASKS_SIGNATURE, with *hash 0 (none), 1 (SHA-256) or 2 (SHA-512),
 * SSHC_NOTHING, SSHC_BAD_INPUT, SSHC_NO_MEMORY, SSHC_MISUSE. No key, lock, connection or last output changes. The question
 * before is gone: unless SSHC_ASKS_SIGNATURE is returned every part is empty. */
sshc_status sshc_agent_asks(sshc_agent *agent, uint64_t moment, uint32_t connection, uint32_t input, const uint8_t *frame,
                            size_t frame_len, uint32_t *hash);

/* Copies a part of that question: 0 the bytes to sign, 1 the public key's blob, 2 (and any other number) the key pair as
 * ADD_IDENTITY has it. SSHC_OK, SSHC_NO_ROOM, SSHC_MISUSE. */
sshc_status sshc_agent_asked(sshc_agent *agent, uint32_t part, uint8_t *to, size_t to_len, size_t *size);

/* Takes the input. told: 0 nothing was asked, 1 this is the signature (a signature blob of at most 65536 bytes), 2 (and any
 * other number) it is refused. With 0 where a signature was asked, and with a longer signature, memory counts as having
 * run out. SSHC_OK: `_answer` has the frame to send, with its length. SSHC_ASKS_REQUEST: the user is asked, and
 * *request is 0 REQUEST_IDENTITIES, 1 ADD, 2 REMOVE, 3 REMOVE_ALL, 4 SIGN, 5 LOCK, 6 UNLOCK. SSHC_ASKS_KEY: `_answer` has
 * the key's blob. SSHC_NOTHING. SSHC_CLOSED_TOO_LONG, _UNREADABLE, _REFUSED and SSHC_NO_MEMORY: close the connection.
 * SSHC_BAD_INPUT, SSHC_MISUSE. `_answer` has no bytes but where it is named here. */
sshc_status sshc_agent_take(sshc_agent *agent, uint64_t moment, uint32_t connection, uint32_t input, const uint8_t *frame,
                            size_t frame_len, uint32_t told, const uint8_t *signature, size_t signature_len, uint32_t *request);

/* Copies the bytes of the last output: SSHC_OK, SSHC_NO_ROOM, SSHC_MISUSE. */
sshc_status sshc_agent_answer(sshc_agent *agent, uint8_t *to, size_t to_len, size_t *size);

/* Forgets a connection that ended, whose number no later one has: SSHC_OK, SSHC_MISUSE. */
sshc_status sshc_agent_forget(sshc_agent *agent, uint32_t connection);

/* Frees what the struct holds and leaves {0}. */
void sshc_agent_free(sshc_agent *agent);

#ifdef __cplusplus
}
#endif
#endif
