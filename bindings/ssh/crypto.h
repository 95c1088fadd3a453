/* All cryptography of the library, by OpenSSL's libcrypto: nothing here computes by itself. */
#ifndef SAZHONTHIL_SSH_CRYPTO_H
#define SAZHONTHIL_SSH_CRYPTO_H

#include "bytes.h"

#include <openssl/evp.h>

/* ---- packets (RFC 4253, section 6) */

typedef enum cipher_kind {
  CIPHER_NONE,
  CIPHER_AES256_GCM,        /* RFC 5647 as OpenSSH has it */
  CIPHER_CHACHA20_POLY1305, /* OpenSSH's PROTOCOL.chacha20poly1305 */
  CIPHER_AES256_CTR_ETM     /* RFC 4344, with hmac-sha2-256 over the encrypted packet */
} cipher_kind;

/* One direction's keys. */
typedef struct cipher {
  cipher_kind kind;
  EVP_CIPHER_CTX *body;
  EVP_CIPHER_CTX *head; /* of chacha20: the length's key */
  EVP_MAC_CTX *mac;     /* of aes256-ctr */
  uint8_t nonce[12];    /* of aes256-gcm */
} cipher;

/* What became of a packet: a fault is libcrypto's or memory's, and no word on the packet. */
typedef enum opened { OPEN_GOOD, OPEN_BAD_TAG, OPEN_FAULT } opened;

cipher_kind cipher_named(slice name);
/* The lengths of what the key derivation makes for it. */
size_t cipher_key_len(cipher_kind kind);
size_t cipher_iv_len(cipher_kind kind);
size_t cipher_mac_key_len(cipher_kind kind);
/* A packet's padded part is a multiple of this, and a tag of so many bytes follows it. */
size_t cipher_block_len(cipher_kind kind);
size_t cipher_tag_len(cipher_kind kind);

bool cipher_set(cipher *it, cipher_kind kind, const uint8_t *key, const uint8_t *iv, const uint8_t *mac_key, bool seals);
void cipher_free(cipher *it);
/* The length that a packet's first four bytes say; false where libcrypto fails. */
bool cipher_length(cipher *it, uint32_t sequence, const uint8_t *head, uint32_t *length);
/* Verifies and decrypts a packet (four bytes of length, so many bytes, the tag) in place. */
opened cipher_open(cipher *it, uint32_t sequence, uint8_t *packet, size_t len);
/* Encrypts a packet in place, and writes its tag after it. */
bool cipher_seal(cipher *it, uint32_t sequence, uint8_t *packet, size_t len);

/* ---- key exchange */

typedef enum kex_kind { KEX_NONE, KEX_CURVE25519, KEX_NISTP256 } kex_kind;

EVP_PKEY *kex_make(kex_kind kind);
/* Our public value as the packet has it. */
bool kex_public(kex_kind kind, EVP_PKEY *ours, bytes *to);
/* The shared secret, big-endian; false if the peer's value isn't one that may be used (RFC 8731, section 3). */
bool kex_secret(kex_kind kind, EVP_PKEY *ours, slice theirs, bytes *secret);
/* Both methods hash by SHA-256. */
bool sha256(slice it, uint8_t hash[32]);

/* ---- keys and signatures */

/* The key of a blob (RFC 4253, section 6.6): Ed25519, ECDSA on the curves of NIST, RSA; NULL where it isn't one. */
EVP_PKEY *key_of_blob(slice blob);
/* Whether the host key of this blob made the signature over the bytes, by this algorithm. */
bool verify_signature(slice algorithm, slice blob, slice signature, slice over);
/* A signature's blob by a private key, whose own blob says the type; hash as in the core's records, for RSA alone. */
bool make_signature(EVP_PKEY *key, slice type, uint8_t hash, slice over, bytes *signature);

bool random_bytes(uint8_t *to, size_t count);
/* `SHA256:` and base64 without padding, as OpenSSH shows a key. */
void fingerprint_of(slice blob, char to[64]);
/* Whether the base64 text was read; the bytes are put. */
bool put_base64_of(bytes *to, slice text);

#endif
