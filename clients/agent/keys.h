/* What this program remembers of the keys that the library holds: comments, which the library reads and doesn't keep, and
 * deadlines, so that a key whose time is over is dropped then and not with the next request. Which keys are held and may
 * sign is the library's alone. */
#ifndef AGENT_KEYS_H
#define AGENT_KEYS_H

#include "bytes.h"
#include "sign.h"

typedef struct known_key {
  bytes blob;
  bytes comment;
  uint64_t deadline; /* 0: none */
} known_key;

/* In the order of their adding, as the library lists them. {0} is empty. */
typedef struct known_keys {
  known_key *at;
  size_t count;
  size_t room;
  uint64_t nearest; /* the nearest deadline, 0 where there is none */
} known_keys;

void keys_free(known_keys *it);
/* A key that was added at this moment, or added again. Where memory runs out it has no comment. */
void keys_add(known_keys *it, slice blob, slice comment, uint64_t deadline);
void keys_remove(known_keys *it, slice blob);
/* The comment, empty where none is known. */
slice keys_comment(const known_keys *it, slice blob);
void keys_drop_due(known_keys *it, uint64_t now);

/* ---- frames */

/* What ADD_IDENTITY and ADD_ID_CONSTRAINED ask to be held (draft-miller-ssh-agent, section 3.2). */
typedef struct addition {
  pair pair;
  slice text; /* the pair and the comment */
  slice comment;
  slice constraints;
  bool has_lifetime;
  uint32_t lifetime; /* in seconds */
} addition;

/* Reads such a frame; false where it can't be read, has a key of a kind that doesn't sign here, or a constraint that the
 * library doesn't have. */
bool addition_read(slice frame, addition *to);
/* The same addition with a lifetime. */
void addition_put(const addition *it, uint32_t lifetime, bytes *to);
/* The listing's frame (12, with its length) with the comments that are known, where it stays within the longest frame;
 * else as it is. */
void put_listing(const known_keys *it, slice listing, bytes *to);

#endif
