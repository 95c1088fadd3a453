/* Blowfish with bcrypt's expensive key schedule (Provos and Mazieres, "A Future-Adaptable Password Scheme", 1999), hashed
 * by SHA-512 of libcrypto. Blowfish begins with the fraction of pi, whose 33,344 bits are computed here and not written
 * down; tests compare what comes of it with keys that ssh-keygen encrypted. */
#include "bcrypt.h"

#include <openssl/bn.h>
#include <openssl/crypto.h>
#include <openssl/evp.h>
#include <stdlib.h>
#include <string.h>

enum { SUBKEYS = 18, BOXES = 1024, WORDS = SUBKEYS + BOXES, GUARD_BITS = 64, OUT_LEN = 32 };

typedef struct blowfish {
  uint32_t p[SUBKEYS];
  uint32_t s[BOXES];
} blowfish;

/* ---- pi, by Machin: 16 atan(1/5) - 4 atan(1/239) */

/* Adds or subtracts factor times atan(1/x), shifted by so many bits. */
static bool add_atan(BIGNUM *sum, BN_ULONG x, BN_ULONG factor, int bits, bool adds) {
  BIGNUM *power = BN_new(), *term = BN_new();
  bool done = power != NULL && term != NULL && BN_set_bit(power, bits) && BN_mul_word(power, factor);
  if (done) done = BN_div_word(power, x) != (BN_ULONG)-1;
  for (BN_ULONG odd = 1; done && !BN_is_zero(power); odd += 2) {
    done = BN_copy(term, power) != NULL && BN_div_word(term, odd) != (BN_ULONG)-1;
    if (done) done = (adds ? BN_add(sum, sum, term) : BN_sub(sum, sum, term)) > 0;
    if (done) done = BN_div_word(power, x * x) != (BN_ULONG)-1;
    adds = !adds;
  }
  BN_free(power);
  BN_free(term);
  return done;
}

static bool begin_pi(blowfish *it) {
  int bits = WORDS * 32 + GUARD_BITS;
  BIGNUM *pi = BN_new();
  uint8_t *all = malloc(WORDS * 4);
  bool done = pi != NULL && all != NULL && add_atan(pi, 5, 16, bits, true) && add_atan(pi, 239, 4, bits, false) &&
              BN_mask_bits(pi, bits) > 0 && BN_rshift(pi, pi, GUARD_BITS) > 0 && BN_bn2binpad(pi, all, WORDS * 4) > 0;
  for (size_t i = 0; done && i < WORDS; i++) *(i < SUBKEYS ? &it->p[i] : &it->s[i - SUBKEYS]) = load_u32(all + 4 * i);
  BN_free(pi);
  free(all);
  return done;
}

/* ---- Blowfish */

static uint32_t mixed(const blowfish *it, uint32_t x) {
  return ((it->s[x >> 24] + it->s[256 + (x >> 16 & 255)]) ^ it->s[512 + (x >> 8 & 255)]) + it->s[768 + (x & 255)];
}

static void encipher(const blowfish *it, uint32_t pair[2]) {
  uint32_t left = pair[0] ^ it->p[0], right = pair[1];
  for (int i = 1; i < 17; i += 2) {
    right ^= mixed(it, left) ^ it->p[i];
    left ^= mixed(it, right) ^ it->p[i + 1];
  }
  pair[0] = right ^ it->p[17];
  pair[1] = left;
}

/* The next word of 64 bytes that are read round and round. */
static uint32_t next_word(const uint8_t from[64], size_t *at) {
  uint32_t word = load_u32(from + *at);
  *at = (*at + 4) % 64;
  return word;
}

/* Mixes a key and, unless it is NULL, a salt into the state. */
static void expand(blowfish *it, const uint8_t *salt, const uint8_t key[64]) {
  size_t at = 0;
  for (int i = 0; i < SUBKEYS; i++) it->p[i] ^= next_word(key, &at);
  uint32_t pair[2] = {0, 0};
  at = 0;
  for (size_t i = 0; i < WORDS; i += 2) {
    uint32_t *to = i < SUBKEYS ? &it->p[i] : &it->s[i - SUBKEYS];
    if (salt != NULL) pair[0] ^= next_word(salt, &at);
    if (salt != NULL) pair[1] ^= next_word(salt, &at);
    encipher(it, pair);
    to[0] = pair[0], to[1] = pair[1];
  }
}

/* ---- the hash and the derivation */

static void hash_once(const blowfish *first, const uint8_t pass[64], const uint8_t salt[64], uint8_t to[OUT_LEN]) {
  static const uint8_t TEXT[OUT_LEN + 1] = "OxychromaticBlowfishSwatDynamite";
  blowfish state = *first;
  uint32_t words[OUT_LEN / 4];
  expand(&state, salt, pass);
  for (int i = 0; i < 64; i++) {
    expand(&state, NULL, salt);
    expand(&state, NULL, pass);
  }
  for (size_t i = 0; i < OUT_LEN / 4; i++) words[i] = load_u32(TEXT + 4 * i);
  for (int round = 0; round < 64; round++)
    for (size_t i = 0; i < OUT_LEN / 4; i += 2) encipher(&state, words + i);
  for (size_t i = 0; i < OUT_LEN; i++) to[i] = (uint8_t)(words[i / 4] >> 8 * (i % 4));
  OPENSSL_cleanse(&state, sizeof state);
  OPENSSL_cleanse(words, sizeof words);
}

static bool sha512(const void *at, size_t len, uint8_t to[64]) { return EVP_Digest(at, len, to, NULL, EVP_sha512(), NULL) > 0; }

/* One block of the derivation: `rounds` hashes, one over another. */
static bool block_of(const blowfish *first, const uint8_t pass[64], slice salt, uint32_t number, uint32_t rounds, uint8_t to[OUT_LEN]) {
  bytes counted = {0};
  uint8_t hashed[64], made[OUT_LEN];
  put(&counted, salt.at, salt.len);
  put_u32(&counted, number);
  bool done = !counted.bad && sha512(bytes_front(&counted), bytes_count(&counted), hashed);
  memset(to, 0, OUT_LEN);
  for (uint32_t i = 0; done && i < rounds; i++) {
    if (i != 0) done = sha512(made, OUT_LEN, hashed);
    hash_once(first, pass, hashed, made);
    for (size_t j = 0; j < OUT_LEN; j++) to[j] ^= made[j];
  }
  OPENSSL_cleanse(made, sizeof made);
  OPENSSL_cleanse(hashed, sizeof hashed);
  bytes_free(&counted);
  return done;
}

bool bcrypt_pbkdf(slice passphrase, slice salt, uint32_t rounds, uint8_t *key, size_t len) {
  if (passphrase.len == 0 || rounds == 0 || len == 0 || len > 64) return false;
  size_t stride = (len + OUT_LEN - 1) / OUT_LEN, each = (len + stride - 1) / stride;
  uint8_t pass[64], block[OUT_LEN];
  blowfish *first = malloc(sizeof *first);
  bool done = first != NULL && begin_pi(first) && sha512(passphrase.at, passphrase.len, pass);
  for (size_t number = 0; done && number < stride; number++) {
    done = block_of(first, pass, salt, (uint32_t)number + 1, rounds, block);
    for (size_t i = 0; done && i < each && i * stride + number < len; i++) key[i * stride + number] = block[i];
  }
  free(first);
  OPENSSL_cleanse(pass, sizeof pass);
  OPENSSL_cleanse(block, sizeof block);
  return done;
}
