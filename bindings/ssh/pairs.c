/* Key pairs as libcrypto has them, and as SSH writes them. */
#include "keys.h"

#include <openssl/bn.h>
#include <openssl/core_names.h>
#include <openssl/crypto.h>
#include <openssl/param_build.h>
#include <string.h>

/* ---- to the blob of the public key */

static void put_number(bytes *to, EVP_PKEY *pair, const char *name) {
  BIGNUM *number = NULL;
  if (EVP_PKEY_get_bn_param(pair, name, &number) <= 0) {
    to->bad = true;
    return;
  }
  bytes raw = {0};
  size_t len = (size_t)BN_num_bytes(number);
  uint8_t *at = bytes_room(&raw, len + 1);
  if (at != NULL) bytes_grew(&raw, (size_t)BN_bn2bin(number, at));
  put_mpint(to, bytes_slice(&raw));
  bytes_free(&raw);
  BN_free(number);
}

static bool put_curve_blob(EVP_PKEY *pair, bytes *to) {
  static const char *const NAMES[][2] = {{"prime256v1", "nistp256"}, {"secp384r1", "nistp384"}, {"secp521r1", "nistp521"}};
  char group[64];
  uint8_t point[160];
  size_t len = 0;
  if (EVP_PKEY_get_group_name(pair, group, sizeof group, NULL) <= 0) return false;
  for (size_t i = 0; i < 3; i++) {
    if (strcmp(group, NAMES[i][0]) != 0) continue;
    if (EVP_PKEY_get_octet_string_param(pair, OSSL_PKEY_PARAM_PUB_KEY, point, sizeof point, &len) <= 0) return false;
    size_t begun = begin_string(to);
    put(to, "ecdsa-sha2-", 11);
    put(to, NAMES[i][1], 8);
    end_string(to, begun);
    put_text(to, NAMES[i][1]);
    put_string(to, slice_of(point, len));
    return !to->bad;
  }
  return false;
}

bool put_blob(EVP_PKEY *pair, bytes *to) {
  uint8_t raw[32];
  size_t len = sizeof raw;
  switch (EVP_PKEY_get_base_id(pair)) {
  case EVP_PKEY_ED25519:
    if (EVP_PKEY_get_raw_public_key(pair, raw, &len) <= 0) return false;
    put_text(to, "ssh-ed25519");
    put_string(to, slice_of(raw, len));
    return !to->bad;
  case EVP_PKEY_RSA:
    put_text(to, "ssh-rsa");
    put_number(to, pair, OSSL_PKEY_PARAM_RSA_E);
    put_number(to, pair, OSSL_PKEY_PARAM_RSA_N);
    return !to->bad;
  case EVP_PKEY_EC:
    return put_curve_blob(pair, to);
  default:
    return false;
  }
}

/* ---- from the fields of OpenSSH's format */

static EVP_PKEY *pair_of(const char *type, OSSL_PARAM_BLD *building) {
  EVP_PKEY *made = NULL;
  OSSL_PARAM *parts = OSSL_PARAM_BLD_to_param(building);
  EVP_PKEY_CTX *by = EVP_PKEY_CTX_new_from_name(NULL, type, NULL);
  if (parts != NULL && by != NULL && EVP_PKEY_fromdata_init(by) > 0) EVP_PKEY_fromdata(by, &made, EVP_PKEY_KEYPAIR, parts);
  EVP_PKEY_CTX_free(by);
  OSSL_PARAM_free(parts);
  return made;
}

static EVP_PKEY *read_ed25519(reader *fields) {
  slice point = get_string(fields), both = get_string(fields);
  if (fields->bad || point.len != 32 || both.len != 64) return NULL;
  return EVP_PKEY_new_raw_private_key(EVP_PKEY_ED25519, NULL, both.at, 32);
}

static EVP_PKEY *read_ecdsa(reader *fields) {
  slice name = get_string(fields), point = get_string(fields), secret = get_string(fields);
  const char *group = slice_is(name, "nistp256") ? "P-256" : slice_is(name, "nistp384") ? "P-384" : slice_is(name, "nistp521") ? "P-521" : NULL;
  if (fields->bad || group == NULL) return NULL;
  OSSL_PARAM_BLD *building = OSSL_PARAM_BLD_new();
  BIGNUM *number = BN_secure_new();
  EVP_PKEY *made = NULL;
  if (building != NULL && number != NULL && BN_bin2bn(secret.at, (int)secret.len, number) != NULL &&
      OSSL_PARAM_BLD_push_utf8_string(building, OSSL_PKEY_PARAM_GROUP_NAME, group, 0) > 0 &&
      OSSL_PARAM_BLD_push_octet_string(building, OSSL_PKEY_PARAM_PUB_KEY, point.at, point.len) > 0 &&
      OSSL_PARAM_BLD_push_BN(building, OSSL_PKEY_PARAM_PRIV_KEY, number) > 0)
    made = pair_of("EC", building);
  OSSL_PARAM_BLD_free(building);
  BN_clear_free(number);
  return made;
}

enum { N, E, D, INVERSE, P, Q, D_P, D_Q, NUMBERS };

/* The exponents of the two primes, d mod (prime - 1), which the format leaves out. */
static bool exponents(BIGNUM *all[NUMBERS]) {
  BN_CTX *by = BN_CTX_secure_new();
  bool done = by != NULL;
  for (int i = 0; done && i < 2; i++) {
    BIGNUM *less = BN_dup(all[P + i]);
    done = less != NULL && BN_sub_word(less, 1) > 0;
    if (done) BN_set_flags(less, BN_FLG_CONSTTIME);
    done = done && BN_mod(all[D_P + i], all[D], less, by) > 0;
    BN_clear_free(less);
  }
  BN_CTX_free(by);
  return done;
}

static EVP_PKEY *pair_of_numbers(BIGNUM *all[NUMBERS]) {
  static const char *const NAMES[NUMBERS] = {OSSL_PKEY_PARAM_RSA_N, OSSL_PKEY_PARAM_RSA_E, OSSL_PKEY_PARAM_RSA_D, OSSL_PKEY_PARAM_RSA_COEFFICIENT1,
                                             OSSL_PKEY_PARAM_RSA_FACTOR1, OSSL_PKEY_PARAM_RSA_FACTOR2, OSSL_PKEY_PARAM_RSA_EXPONENT1, OSSL_PKEY_PARAM_RSA_EXPONENT2};
  OSSL_PARAM_BLD *building = OSSL_PARAM_BLD_new();
  bool done = building != NULL;
  for (int i = 0; done && i < NUMBERS; i++) done = OSSL_PARAM_BLD_push_BN(building, NAMES[i], all[i]) > 0;
  EVP_PKEY *made = done ? pair_of("RSA", building) : NULL;
  OSSL_PARAM_BLD_free(building);
  return made;
}

static EVP_PKEY *read_rsa(reader *fields) {
  BIGNUM *all[NUMBERS] = {0};
  bool done = true;
  for (int i = 0; i < NUMBERS; i++) {
    slice number = i < D_P ? get_string(fields) : (slice){NULL, 0};
    all[i] = BN_secure_new();
    done = done && all[i] != NULL && !fields->bad && number.len <= 2049 && (i >= D_P || BN_bin2bn(number.at, (int)number.len, all[i]) != NULL);
  }
  EVP_PKEY *made = done && exponents(all) ? pair_of_numbers(all) : NULL;
  for (int i = 0; i < NUMBERS; i++) BN_clear_free(all[i]);
  return made;
}

EVP_PKEY *pair_of_fields(reader *fields) {
  slice type = get_string(fields);
  if (slice_is(type, "ssh-ed25519")) return read_ed25519(fields);
  if (slice_is(type, "ssh-rsa")) return read_rsa(fields);
  return read_ecdsa(fields);
}
