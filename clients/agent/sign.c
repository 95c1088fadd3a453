#include "sign.h"

#include <openssl/bn.h>
#include <openssl/core_names.h>
#include <openssl/ecdsa.h>
#include <openssl/err.h>
#include <openssl/evp.h>
#include <openssl/param_build.h>
#include <string.h>

enum { ED25519_BYTES = 32, ED25519_PRIVATE_BYTES = 64, SHA256_BYTES = 32, P521_BYTES = 66 };
enum { LEAST_RSA_BITS = 1024, HASH_SHA256 = 1, HASH_SHA512 = 2 };

typedef enum family { ED25519, ECDSA, RSA_KEY } family;

/* The fields of a pair, after the name: Ed25519 has the public key, and the private one with the public one after it;
 * ECDSA has the curve's name, the point, d; RSA has n, e, d, the inverse of q, p, q. */
struct kind {
  const char *name;
  family family;
  size_t fields;
  const char *curve; /* of ECDSA, as SSH and as libcrypto name it */
  const char *group;
  const EVP_MD *(*digest)(void); /* of ECDSA; RSA's is told with each request */
};

enum { POINT = 1, EC_PRIVATE = 2 };
enum { RSA_N, RSA_E, RSA_D, RSA_INVERSE, RSA_P, RSA_Q };

static const kind KINDS[] = {
    {"ssh-ed25519", ED25519, 2, NULL, NULL, NULL},
    {"ecdsa-sha2-nistp256", ECDSA, 3, "nistp256", "P-256", EVP_sha256},
    {"ecdsa-sha2-nistp384", ECDSA, 3, "nistp384", "P-384", EVP_sha384},
    {"ecdsa-sha2-nistp521", ECDSA, 3, "nistp521", "P-521", EVP_sha512},
    {"ssh-rsa", RSA_KEY, 6, NULL, NULL, NULL},
};

/* ---- reading */

bool pair_read(reader *from, pair *to) {
  slice name = get_string(from);
  *to = (pair){0};
  for (size_t i = 0; i < sizeof KINDS / sizeof *KINDS; i++)
    if (slice_is(name, KINDS[i].name)) to->kind = &KINDS[i];
  if (to->kind == NULL) return false;
  for (size_t i = 0; i < to->kind->fields; i++) to->fields[i] = get_string(from);
  return !from->bad;
}

void pair_put_blob(const pair *it, bytes *to) {
  put_string(to, text_of(it->kind->name));
  if (it->kind->family == RSA_KEY) {
    put_string(to, it->fields[RSA_E]);
    put_string(to, it->fields[RSA_N]);
    return;
  }
  put_string(to, it->fields[0]);
  if (it->kind->family == ECDSA) put_string(to, it->fields[POINT]);
}

/* ---- a pair as libcrypto's key */

static EVP_PKEY *ed25519_key(const pair *it) {
  slice public = it->fields[0], private = it->fields[1];
  if (public.len != ED25519_BYTES || private.len != ED25519_PRIVATE_BYTES) return NULL;
  EVP_PKEY *made = EVP_PKEY_new_raw_private_key(EVP_PKEY_ED25519, NULL, private.at, ED25519_BYTES);
  uint8_t own[ED25519_BYTES];
  size_t len = sizeof own;
  if (made != NULL && EVP_PKEY_get_raw_public_key(made, own, &len) > 0 && slices_equal(slice_of(own, len), public)) return made;
  EVP_PKEY_free(made);
  return NULL;
}

/* A key of these parameters, which are freed. */
static EVP_PKEY *key_of(const char *type, OSSL_PARAM_BLD *building) {
  EVP_PKEY *made = NULL;
  OSSL_PARAM *parts = OSSL_PARAM_BLD_to_param(building);
  EVP_PKEY_CTX *by = EVP_PKEY_CTX_new_from_name(NULL, type, NULL);
  if (parts != NULL && by != NULL && EVP_PKEY_fromdata_init(by) > 0) EVP_PKEY_fromdata(by, &made, EVP_PKEY_KEYPAIR, parts);
  EVP_PKEY_CTX_free(by);
  OSSL_PARAM_free(parts);
  OSSL_PARAM_BLD_free(building);
  return made;
}

/* A number that isn't to be found out by how long libcrypto computes with it. */
static BIGNUM *secret_number(slice it) {
  BIGNUM *made = BN_bin2bn(it.at, (int)it.len, NULL);
  if (made != NULL) BN_set_flags(made, BN_FLG_CONSTTIME);
  return made;
}

static EVP_PKEY *ecdsa_key(const pair *it) {
  slice point = it->fields[POINT];
  BIGNUM *private = secret_number(it->fields[EC_PRIVATE]);
  OSSL_PARAM_BLD *building = OSSL_PARAM_BLD_new();
  EVP_PKEY *made = NULL;
  if (slice_is(it->fields[0], it->kind->curve) && private != NULL && building != NULL &&
      OSSL_PARAM_BLD_push_utf8_string(building, OSSL_PKEY_PARAM_GROUP_NAME, it->kind->group, 0) &&
      OSSL_PARAM_BLD_push_octet_string(building, OSSL_PKEY_PARAM_PUB_KEY, point.at, point.len) &&
      OSSL_PARAM_BLD_push_BN(building, OSSL_PKEY_PARAM_PRIV_KEY, private))
    made = key_of("EC", building);
  else
    OSSL_PARAM_BLD_free(building);
  BN_clear_free(private);
  return made;
}

/* d modulo a prime less one, which ADD_IDENTITY doesn't have and libcrypto wants. */
static BIGNUM *exponent_for(const BIGNUM *d, const BIGNUM *prime, BN_CTX *by) {
  BIGNUM *less_one = BN_dup(prime), *made = BN_new();
  if (less_one != NULL) BN_set_flags(less_one, BN_FLG_CONSTTIME);
  bool is_made = less_one != NULL && made != NULL && BN_sub_word(less_one, 1) && BN_mod(made, d, less_one, by);
  BN_clear_free(less_one);
  if (is_made) return made;
  BN_clear_free(made);
  return NULL;
}

static const char *const RSA_NAMES[] = {OSSL_PKEY_PARAM_RSA_N,       OSSL_PKEY_PARAM_RSA_E,       OSSL_PKEY_PARAM_RSA_D,
                                        OSSL_PKEY_PARAM_RSA_COEFFICIENT1, OSSL_PKEY_PARAM_RSA_FACTOR1, OSSL_PKEY_PARAM_RSA_FACTOR2,
                                        OSSL_PKEY_PARAM_RSA_EXPONENT1, OSSL_PKEY_PARAM_RSA_EXPONENT2};
enum { RSA_FIELDS = 6, RSA_EXPONENT_P = 6, RSA_EXPONENT_Q = 7, RSA_NUMBERS = 8 };

/* The eight numbers of an RSA key; false where one can't be made. */
static bool rsa_numbers(const pair *it, BIGNUM *numbers[RSA_NUMBERS]) {
  for (size_t i = 0; i < RSA_FIELDS; i++)
    if ((numbers[i] = secret_number(it->fields[i])) == NULL) return false;
  if (BN_num_bits(numbers[RSA_N]) < LEAST_RSA_BITS || BN_is_zero(numbers[RSA_P]) || BN_is_zero(numbers[RSA_Q])) return false;
  BN_CTX *by = BN_CTX_new();
  if (by != NULL) {
    numbers[RSA_EXPONENT_P] = exponent_for(numbers[RSA_D], numbers[RSA_P], by);
    numbers[RSA_EXPONENT_Q] = exponent_for(numbers[RSA_D], numbers[RSA_Q], by);
  }
  BN_CTX_free(by);
  return numbers[RSA_EXPONENT_P] != NULL && numbers[RSA_EXPONENT_Q] != NULL;
}

static EVP_PKEY *rsa_key(const pair *it) {
  BIGNUM *numbers[RSA_NUMBERS] = {NULL};
  OSSL_PARAM_BLD *building = OSSL_PARAM_BLD_new();
  bool is_whole = building != NULL && rsa_numbers(it, numbers);
  for (size_t i = 0; is_whole && i < RSA_NUMBERS; i++) is_whole = OSSL_PARAM_BLD_push_BN(building, RSA_NAMES[i], numbers[i]);
  EVP_PKEY *made = NULL;
  if (is_whole)
    made = key_of("RSA", building);
  else
    OSSL_PARAM_BLD_free(building);
  for (size_t i = 0; i < RSA_NUMBERS; i++) BN_clear_free(numbers[i]);
  return made;
}

static EVP_PKEY *key_from(const pair *it) {
  switch (it->kind->family) {
  case ED25519: return ed25519_key(it);
  case ECDSA: return ecdsa_key(it);
  case RSA_KEY: return rsa_key(it);
  }
  return NULL;
}

/* ---- signatures as libcrypto has them */

static const EVP_MD *digest_for(const pair *it, uint32_t hash) {
  if (it->kind->family == ECDSA) return it->kind->digest();
  if (it->kind->family == RSA_KEY) return hash == HASH_SHA256 ? EVP_sha256() : hash == HASH_SHA512 ? EVP_sha512() : EVP_sha1();
  return NULL; /* Ed25519 hashes by itself */
}

static bool raw_sign(EVP_PKEY *key, const EVP_MD *digest, slice over, bytes *to) {
  size_t len = (size_t)EVP_PKEY_get_size(key);
  uint8_t *room = bytes_room(to, len);
  EVP_MD_CTX *by = EVP_MD_CTX_new();
  bool is_made = room != NULL && by != NULL && EVP_DigestSignInit(by, NULL, digest, NULL, key) > 0 &&
                 EVP_DigestSign(by, room, &len, over.at, over.len) > 0;
  EVP_MD_CTX_free(by);
  if (is_made) bytes_grew(to, len);
  return is_made;
}

static bool raw_verify(EVP_PKEY *key, const EVP_MD *digest, slice over, slice signature) {
  EVP_MD_CTX *by = EVP_MD_CTX_new();
  bool is_good = by != NULL && EVP_DigestVerifyInit(by, NULL, digest, NULL, key) > 0 &&
                 EVP_DigestVerify(by, signature.at, signature.len, over.at, over.len) > 0;
  EVP_MD_CTX_free(by);
  return is_good;
}

/* ---- signatures as SSH has them (RFC 8709, section 6; RFC 5656, section 3.1.2; RFC 8332, section 3) */

static bool put_number(bytes *to, const BIGNUM *number) {
  uint8_t made[P521_BYTES]; /* the longest */
  int len = BN_num_bytes(number);
  if (len > (int)sizeof made || BN_bn2bin(number, made) != len) return false;
  put_mpint(to, slice_of(made, (size_t)len));
  return !to->failed;
}

static bool put_ecdsa(slice raw, bytes *to) {
  const uint8_t *at = raw.at;
  ECDSA_SIG *two = d2i_ECDSA_SIG(NULL, &at, (long)raw.len);
  if (two == NULL) return false;
  bytes numbers = {0};
  bool is_put = put_number(&numbers, ECDSA_SIG_get0_r(two)) && put_number(&numbers, ECDSA_SIG_get0_s(two));
  ECDSA_SIG_free(two);
  put_string(to, bytes_slice(&numbers));
  bytes_free(&numbers);
  return is_put;
}

static const char *signature_name(const pair *it, uint32_t hash) {
  if (it->kind->family != RSA_KEY) return it->kind->name;
  return hash == HASH_SHA256 ? "rsa-sha2-256" : hash == HASH_SHA512 ? "rsa-sha2-512" : "ssh-rsa";
}

static bool put_signature(const pair *it, uint32_t hash, slice raw, bytes *to) {
  put_string(to, text_of(signature_name(it, hash)));
  if (it->kind->family == ECDSA) return put_ecdsa(raw, to) && !to->failed;
  put_string(to, raw);
  return !to->failed;
}

bool pair_sign(const pair *it, uint32_t hash, slice over, bytes *signature) {
  EVP_PKEY *key = key_from(it);
  bytes raw = {0};
  bool is_made = key != NULL && raw_sign(key, digest_for(it, hash), over, &raw) && put_signature(it, hash, bytes_slice(&raw), signature);
  EVP_PKEY_free(key);
  bytes_free(&raw);
  ERR_clear_error();
  return is_made;
}

bool pair_is_sound(const pair *it) {
  const EVP_MD *digest = digest_for(it, HASH_SHA256);
  slice over = text_of("a pair whose two parts belong together");
  EVP_PKEY *key = key_from(it);
  bytes raw = {0};
  bool is_sound = key != NULL && raw_sign(key, digest, over, &raw) && raw_verify(key, digest, over, bytes_slice(&raw));
  EVP_PKEY_free(key);
  bytes_free(&raw);
  ERR_clear_error();
  return is_sound;
}

bool fingerprint(slice blob, char to[FINGERPRINT_ROOM]) {
  uint8_t hash[SHA256_BYTES];
  if (EVP_Digest(blob.at, blob.len, hash, NULL, EVP_sha256(), NULL) <= 0) return false;
  strcpy(to, "SHA256:");
  EVP_EncodeBlock((uint8_t *)to + strlen(to), hash, sizeof hash);
  to[strcspn(to, "=")] = 0;
  return true;
}
