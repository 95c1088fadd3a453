/* Private keys in files: OpenSSH's format (its PROTOCOL.key), and PEM by libcrypto. */
#ifndef SAZHONTHIL_SSH_KEYS_H
#define SAZHONTHIL_SSH_KEYS_H

#include "bytes.h"

#include <openssl/evp.h>
#include <sazhonthil_ssh.h>

struct sazh_key {
  char *path;
  bytes blob;        /* the public key */
  bytes certificate; /* of PATH-cert.pub, or nothing */
  EVP_PKEY *pair;    /* NULL while it is sealed */
  char type[64], fingerprint[64];

  /* of an encrypted key in OpenSSH's format, until it is opened */
  bytes sealed, salt;
  uint32_t rounds;
  char cipher[32];
  sazh_passphrase passphrase;
  void *own;
};

/* Opens a sealed key by asking for its passphrase, three times at most. SAZH_OK, SAZH_PASSPHRASE, SAZH_KEY_FILE. */
sazh_code key_unlock(sazh_key *key);
/* The blob to log in by: of the certificate if there is one. */
slice key_offered(const sazh_key *key);
/* The public key's blob of a pair; false where the library has no such type. */
bool put_blob(EVP_PKEY *pair, bytes *to);
/* The private part of OpenSSH's format, decrypted: its pair, or NULL. */
EVP_PKEY *pair_of_fields(reader *fields);

#endif
