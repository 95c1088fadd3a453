/* The key derivation of OpenSSH's encrypted private keys (bcrypt_pbkdf of OpenBSD), which libcrypto doesn't have. */
#ifndef SAZHONTHIL_SSH_BCRYPT_H
#define SAZHONTHIL_SSH_BCRYPT_H

#include "bytes.h"

/* A key of so many bytes (1 to 64) from a passphrase; false where libcrypto fails or memory runs out. */
bool bcrypt_pbkdf(slice passphrase, slice salt, uint32_t rounds, uint8_t *key, size_t len);

#endif
