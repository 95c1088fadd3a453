/* Key pairs and signatures, by OpenSSL's libcrypto: nothing here computes by itself. */
#ifndef AGENT_SIGN_H
#define AGENT_SIGN_H

#include "bytes.h"

/* Which keys sign here: DSA isn't among them. */
typedef struct kind kind;

enum { MOST_PAIR_FIELDS = 6 };

/* A key pair as ADD_IDENTITY has it (draft-miller-ssh-agent, section 3.2), in the memory that it was read from. */
typedef struct pair {
  const kind *kind;
  slice fields[MOST_PAIR_FIELDS];
} pair;

/* Reads a pair from the front; false where it is short or of a kind that doesn't sign here. */
bool pair_read(reader *from, pair *to);
/* The blob of its public key (RFC 4253, section 6.6). */
void pair_put_blob(const pair *it, bytes *to);
/* The signature's blob over these bytes. Of RSA the hash is 1 (SHA-256), 2 (SHA-512), or 0, which is SHA-1: a request
 * without a flag asks for it, as `ssh-add -T` does. Other keys have one hash each. False where libcrypto refuses. */
bool pair_sign(const pair *it, uint32_t hash, slice over, bytes *signature);
/* Whether the pair makes a signature that its own public part verifies. */
bool pair_is_sound(const pair *it);

/* The SHA-256 fingerprint of a blob, as ssh-keygen writes it. */
enum { FINGERPRINT_ROOM = 64 };
bool fingerprint(slice blob, char to[FINGERPRINT_ROOM]);

#endif
