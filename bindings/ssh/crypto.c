#include "crypto.h"

#include <openssl/bn.h>
#include <openssl/core_names.h>
#include <openssl/crypto.h>
#include <openssl/ecdsa.h>
#include <openssl/param_build.h>
#include <openssl/rand.h>
#include <string.h>

bool random_bytes(uint8_t *to, size_t count) { return RAND_bytes(to, (int)count) > 0; }

bool sha256(slice it, uint8_t hash[32]) { return EVP_Digest(it.at, it.len, hash, NULL, EVP_sha256(), NULL) > 0; }

/* ---- packets */

cipher_kind cipher_named(slice name) {
  if (slice_is(name, "aes256-gcm@openssh.com")) return CIPHER_AES256_GCM;
  if (slice_is(name, "chacha20-poly1305@openssh.com")) return CIPHER_CHACHA20_POLY1305;
  if (slice_is(name, "aes256-ctr")) return CIPHER_AES256_CTR_ETM;
  return CIPHER_NONE;
}

size_t cipher_key_len(cipher_kind kind) {
  return kind == CIPHER_NONE ? 0 : kind == CIPHER_CHACHA20_POLY1305 ? 64 : 32;
}

size_t cipher_iv_len(cipher_kind kind) {
  return kind == CIPHER_AES256_GCM ? 12 : kind == CIPHER_AES256_CTR_ETM ? 16 : 0;
}

size_t cipher_mac_key_len(cipher_kind kind) { return kind == CIPHER_AES256_CTR_ETM ? 32 : 0; }

size_t cipher_block_len(cipher_kind kind) {
  return kind == CIPHER_AES256_GCM || kind == CIPHER_AES256_CTR_ETM ? 16 : 8;
}

size_t cipher_tag_len(cipher_kind kind) {
  return kind == CIPHER_NONE ? 0 : kind == CIPHER_AES256_CTR_ETM ? 32 : 16;
}

/* A cipher's context, or NULL. */
static EVP_CIPHER_CTX *begun(const EVP_CIPHER *method, const uint8_t *key, const uint8_t *iv, bool seals) {
  EVP_CIPHER_CTX *made = EVP_CIPHER_CTX_new();
  if (made != NULL && EVP_CipherInit_ex(made, method, NULL, key, iv, seals) > 0) return made;
  EVP_CIPHER_CTX_free(made);
  return NULL;
}

static EVP_MAC_CTX *mac_begun(const uint8_t *key) {
  EVP_MAC *method = EVP_MAC_fetch(NULL, "HMAC", NULL);
  EVP_MAC_CTX *made = EVP_MAC_CTX_new(method);
  EVP_MAC_free(method);
  char name[] = "SHA256";
  OSSL_PARAM digest[] = {OSSL_PARAM_construct_utf8_string(OSSL_MAC_PARAM_DIGEST, name, 0), OSSL_PARAM_construct_end()};
  if (made != NULL && EVP_MAC_init(made, key, 32, digest) > 0) return made;
  EVP_MAC_CTX_free(made);
  return NULL;
}

bool cipher_set(cipher *it, cipher_kind kind, const uint8_t *key, const uint8_t *iv, const uint8_t *mac_key, bool seals) {
  cipher_free(it);
  it->kind = kind;
  switch (kind) {
  case CIPHER_NONE:
    return true;
  case CIPHER_AES256_GCM:
    memcpy(it->nonce, iv, 12);
    it->body = begun(EVP_aes_256_gcm(), key, iv, seals);
    return it->body != NULL;
  case CIPHER_CHACHA20_POLY1305: {
    uint8_t zero[16] = {0};
    it->body = begun(EVP_chacha20(), key, zero, true);
    it->head = begun(EVP_chacha20(), key + 32, zero, true);
    return it->body != NULL && it->head != NULL;
  }
  case CIPHER_AES256_CTR_ETM:
    it->body = begun(EVP_aes_256_ctr(), key, iv, seals);
    it->mac = mac_begun(mac_key);
    return it->body != NULL && it->mac != NULL;
  }
  return false;
}

void cipher_free(cipher *it) {
  EVP_CIPHER_CTX_free(it->body);
  EVP_CIPHER_CTX_free(it->head);
  EVP_MAC_CTX_free(it->mac);
  OPENSSL_cleanse(it, sizeof *it);
  *it = (cipher){0};
}

static bool run(EVP_CIPHER_CTX *by, uint8_t *to, const uint8_t *from, size_t len) {
  int done = 0;
  return EVP_CipherUpdate(by, to, &done, from, (int)len) > 0 && (size_t)done == len;
}

/* ---- chacha20-poly1305: the sequence number is the nonce, block 0 makes the MAC's key, the body begins at block 1 */

static bool chacha_at(EVP_CIPHER_CTX *by, uint32_t sequence, uint8_t block) {
  uint8_t iv[16] = {block};
  store_u32(iv + 12, sequence);
  return EVP_CipherInit_ex(by, NULL, NULL, NULL, iv, 1) > 0;
}

static bool chacha_tag(cipher *it, uint32_t sequence, const uint8_t *packet, size_t len, uint8_t tag[16]) {
  uint8_t key[32] = {0};
  size_t made = 0;
  bool done = chacha_at(it->body, sequence, 0) && run(it->body, key, key, 32) &&
              EVP_Q_mac(NULL, "POLY1305", NULL, NULL, NULL, key, 32, packet, len, tag, 16, &made) != NULL;
  OPENSSL_cleanse(key, sizeof key);
  return done;
}

static bool chacha_run(cipher *it, uint32_t sequence, uint8_t *packet, size_t len) {
  return chacha_at(it->body, sequence, 1) && run(it->body, packet + 4, packet + 4, len - 4);
}

/* ---- aes256-ctr with hmac-sha2-256-etm */

static bool etm_tag(cipher *it, uint32_t sequence, const uint8_t *packet, size_t len, uint8_t tag[32]) {
  uint8_t number[4];
  size_t made = 0;
  store_u32(number, sequence);
  return EVP_MAC_init(it->mac, NULL, 0, NULL) > 0 && EVP_MAC_update(it->mac, number, 4) > 0 && EVP_MAC_update(it->mac, packet, len) > 0 &&
         EVP_MAC_final(it->mac, tag, &made, 32) > 0;
}

/* ---- aes256-gcm: the nonce's last eight bytes count packets */

static void gcm_next(cipher *it) {
  for (int i = 11; i >= 4; i--)
    if (++it->nonce[i] != 0) break;
}

static bool gcm_begin(cipher *it, const uint8_t *packet, bool seals) {
  int done = 0;
  return EVP_CipherInit_ex(it->body, NULL, NULL, NULL, it->nonce, seals) > 0 && EVP_CipherUpdate(it->body, NULL, &done, packet, 4) > 0;
}

static opened gcm_open(cipher *it, uint8_t *packet, size_t len) {
  uint8_t rest[16];
  int done = 0;
  if (!gcm_begin(it, packet, false) || !run(it->body, packet + 4, packet + 4, len - 4)) return OPEN_FAULT;
  if (EVP_CIPHER_CTX_ctrl(it->body, EVP_CTRL_AEAD_SET_TAG, 16, packet + len) <= 0) return OPEN_FAULT;
  gcm_next(it);
  return EVP_CipherFinal_ex(it->body, rest, &done) > 0 ? OPEN_GOOD : OPEN_BAD_TAG;
}

static bool gcm_seal(cipher *it, uint8_t *packet, size_t len) {
  uint8_t rest[16];
  int done = 0;
  if (!gcm_begin(it, packet, true) || !run(it->body, packet + 4, packet + 4, len - 4)) return false;
  if (EVP_CipherFinal_ex(it->body, rest, &done) <= 0) return false;
  if (EVP_CIPHER_CTX_ctrl(it->body, EVP_CTRL_AEAD_GET_TAG, 16, packet + len) <= 0) return false;
  gcm_next(it);
  return true;
}

/* ---- a packet of any of them */

bool cipher_length(cipher *it, uint32_t sequence, const uint8_t *head, uint32_t *length) {
  uint8_t plain[4];
  memcpy(plain, head, 4);
  if (it->kind == CIPHER_CHACHA20_POLY1305)
    if (!chacha_at(it->head, sequence, 0) || !run(it->head, plain, head, 4)) return false;
  *length = load_u32(plain);
  return true;
}

opened cipher_open(cipher *it, uint32_t sequence, uint8_t *packet, size_t len) {
  uint8_t tag[32];
  switch (it->kind) {
  case CIPHER_NONE:
    return OPEN_GOOD;
  case CIPHER_AES256_GCM:
    return gcm_open(it, packet, len);
  case CIPHER_CHACHA20_POLY1305:
    if (!chacha_tag(it, sequence, packet, len, tag)) return OPEN_FAULT;
    if (CRYPTO_memcmp(tag, packet + len, 16) != 0) return OPEN_BAD_TAG;
    return chacha_run(it, sequence, packet, len) ? OPEN_GOOD : OPEN_FAULT;
  case CIPHER_AES256_CTR_ETM:
    if (!etm_tag(it, sequence, packet, len, tag)) return OPEN_FAULT;
    if (CRYPTO_memcmp(tag, packet + len, 32) != 0) return OPEN_BAD_TAG;
    return run(it->body, packet + 4, packet + 4, len - 4) ? OPEN_GOOD : OPEN_FAULT;
  }
  return OPEN_FAULT;
}

bool cipher_seal(cipher *it, uint32_t sequence, uint8_t *packet, size_t len) {
  switch (it->kind) {
  case CIPHER_NONE:
    return true;
  case CIPHER_AES256_GCM:
    return gcm_seal(it, packet, len);
  case CIPHER_CHACHA20_POLY1305:
    return chacha_at(it->head, sequence, 0) && run(it->head, packet, packet, 4) && chacha_run(it, sequence, packet, len) &&
           chacha_tag(it, sequence, packet, len, packet + len);
  case CIPHER_AES256_CTR_ETM:
    return run(it->body, packet + 4, packet + 4, len - 4) && etm_tag(it, sequence, packet, len, packet + len);
  }
  return false;
}

/* ---- key exchange */

EVP_PKEY *kex_make(kex_kind kind) {
  return kind == KEX_CURVE25519 ? EVP_PKEY_Q_keygen(NULL, NULL, "X25519") : EVP_PKEY_Q_keygen(NULL, NULL, "EC", "P-256");
}

bool kex_public(kex_kind kind, EVP_PKEY *ours, bytes *to) {
  uint8_t point[65];
  size_t len = sizeof point;
  int done = kind == KEX_CURVE25519 ? EVP_PKEY_get_raw_public_key(ours, point, &len)
                                    : EVP_PKEY_get_octet_string_param(ours, OSSL_PKEY_PARAM_PUB_KEY, point, sizeof point, &len);
  if (done <= 0) return false;
  put(to, point, len);
  return !to->bad;
}

/* A key of these parameters. */
static EVP_PKEY *key_of(const char *type, OSSL_PARAM_BLD *building) {
  EVP_PKEY *made = NULL;
  OSSL_PARAM *parts = OSSL_PARAM_BLD_to_param(building);
  EVP_PKEY_CTX *by = EVP_PKEY_CTX_new_from_name(NULL, type, NULL);
  if (parts != NULL && by != NULL && EVP_PKEY_fromdata_init(by) > 0) EVP_PKEY_fromdata(by, &made, EVP_PKEY_PUBLIC_KEY, parts);
  EVP_PKEY_CTX_free(by);
  OSSL_PARAM_free(parts);
  OSSL_PARAM_BLD_free(building);
  return made;
}

static EVP_PKEY *curve_key(const char *curve, slice point) {
  OSSL_PARAM_BLD *building = OSSL_PARAM_BLD_new();
  if (building == NULL) return NULL;
  OSSL_PARAM_BLD_push_utf8_string(building, OSSL_PKEY_PARAM_GROUP_NAME, curve, 0);
  OSSL_PARAM_BLD_push_octet_string(building, OSSL_PKEY_PARAM_PUB_KEY, point.at, point.len);
  return key_of("EC", building);
}

static bool derive(EVP_PKEY *ours, EVP_PKEY *theirs, bytes *secret) {
  size_t len = 32;
  uint8_t *to = bytes_room(secret, 32);
  EVP_PKEY_CTX *by = EVP_PKEY_CTX_new(ours, NULL);
  bool done = to != NULL && by != NULL && EVP_PKEY_derive_init(by) > 0 && EVP_PKEY_derive_set_peer(by, theirs) > 0 &&
              EVP_PKEY_derive(by, to, &len) > 0;
  if (done) bytes_grew(secret, len);
  EVP_PKEY_CTX_free(by);
  return done;
}

bool kex_secret(kex_kind kind, EVP_PKEY *ours, slice theirs, bytes *secret) {
  EVP_PKEY *peer = NULL;
  if (kind == KEX_CURVE25519 && theirs.len == 32) peer = EVP_PKEY_new_raw_public_key(EVP_PKEY_X25519, NULL, theirs.at, 32);
  if (kind == KEX_NISTP256 && theirs.len == 65 && theirs.at[0] == 4) peer = curve_key("P-256", theirs);
  bool done = peer != NULL && derive(ours, peer, secret);
  EVP_PKEY_free(peer);
  uint8_t any = 0;
  for (size_t i = 0; done && i < bytes_count(secret); i++) any |= bytes_front(secret)[i];
  return done && any != 0;
}

/* ---- keys (RFC 8709, section 4; RFC 5656, section 3.1; RFC 4253, section 6.6) */

/* Keys on a curve: the blob's name, the curve's, libcrypto's, and the digest of their signatures (RFC 5656, section 6.2.1). */
typedef struct curve {
  const char *type, *name, *group;
  const EVP_MD *(*digest)(void);
  size_t point_len; /* not compressed */
} curve;

static const curve CURVES[] = {{"ecdsa-sha2-nistp256", "nistp256", "P-256", EVP_sha256, 65},
                               {"ecdsa-sha2-nistp384", "nistp384", "P-384", EVP_sha384, 97},
                               {"ecdsa-sha2-nistp521", "nistp521", "P-521", EVP_sha512, 133}};

static const curve *curve_named(slice type) {
  for (size_t i = 0; i < sizeof CURVES / sizeof *CURVES; i++)
    if (slice_is(type, CURVES[i].type)) return &CURVES[i];
  return NULL;
}

static EVP_PKEY *ed25519_key(reader *blob) {
  slice point = get_string(blob);
  if (blob->bad || blob->left != 0 || point.len != 32) return NULL;
  return EVP_PKEY_new_raw_public_key(EVP_PKEY_ED25519, NULL, point.at, 32);
}

static EVP_PKEY *ecdsa_key(reader *blob, const curve *on) {
  slice name = get_string(blob), point = get_string(blob);
  if (blob->bad || blob->left != 0 || !slice_is(name, on->name)) return NULL;
  /* libcrypto reads other forms of the same point too, and a key has one blob */
  if (point.len != on->point_len || point.at[0] != 4) return NULL;
  return curve_key(on->group, point);
}

static EVP_PKEY *rsa_key(reader *blob) {
  slice e = get_string(blob), n = get_string(blob);
  if (blob->bad || blob->left != 0 || n.len < 128 || n.len > 2049) return NULL;
  OSSL_PARAM_BLD *building = OSSL_PARAM_BLD_new();
  BIGNUM *exponent = BN_bin2bn(e.at, (int)e.len, NULL), *modulus = BN_bin2bn(n.at, (int)n.len, NULL);
  EVP_PKEY *key = NULL;
  if (building != NULL && exponent != NULL && modulus != NULL) {
    OSSL_PARAM_BLD_push_BN(building, OSSL_PKEY_PARAM_RSA_N, modulus);
    OSSL_PARAM_BLD_push_BN(building, OSSL_PKEY_PARAM_RSA_E, exponent);
    key = key_of("RSA", building);
  } else {
    OSSL_PARAM_BLD_free(building);
  }
  BN_free(exponent);
  BN_free(modulus);
  return key;
}

EVP_PKEY *key_of_blob(slice blob) {
  reader key = read_slice(blob);
  slice type = get_string(&key);
  if (key.bad) return NULL;
  const curve *on = curve_named(type);
  if (on != NULL) return ecdsa_key(&key, on);
  if (slice_is(type, "ssh-ed25519")) return ed25519_key(&key);
  return slice_is(type, "ssh-rsa") ? rsa_key(&key) : NULL;
}

/* ---- signatures (RFC 8709, section 6; RFC 5656, section 3.1.2; RFC 8332) */

static bool verify(EVP_PKEY *key, const EVP_MD *digest, slice signature, slice over) {
  EVP_MD_CTX *by = EVP_MD_CTX_new();
  bool good = by != NULL && EVP_DigestVerifyInit(by, NULL, digest, NULL, key) > 0 &&
              EVP_DigestVerify(by, signature.at, signature.len, over.at, over.len) > 0;
  EVP_MD_CTX_free(by);
  return good;
}

static bool verify_ecdsa(EVP_PKEY *key, const EVP_MD *digest, slice signature, slice over) {
  reader parts = read_slice(signature);
  slice r = get_string(&parts), s = get_string(&parts);
  if (parts.bad || parts.left != 0) return false;
  ECDSA_SIG *pair = ECDSA_SIG_new();
  BIGNUM *first = BN_bin2bn(r.at, (int)r.len, NULL), *second = BN_bin2bn(s.at, (int)s.len, NULL);
  if (pair == NULL || ECDSA_SIG_set0(pair, first, second) <= 0) {
    BN_free(first);
    BN_free(second);
    ECDSA_SIG_free(pair);
    return false;
  }
  uint8_t *der = NULL;
  int len = i2d_ECDSA_SIG(pair, &der);
  bool good = len > 0 && verify(key, digest, slice_of(der, (size_t)len), over);
  OPENSSL_free(der);
  ECDSA_SIG_free(pair);
  return good;
}

static bool verify_by(EVP_PKEY *key, slice type, slice algorithm, slice body, slice over) {
  const curve *on = curve_named(type);
  if (on != NULL) return slices_equal(algorithm, type) && verify_ecdsa(key, on->digest(), body, over);
  if (slice_is(type, "ssh-ed25519")) return slice_is(algorithm, "ssh-ed25519") && body.len == 64 && verify(key, NULL, body, over);
  if (!slice_is(type, "ssh-rsa")) return false;
  if (slice_is(algorithm, "rsa-sha2-256")) return verify(key, EVP_sha256(), body, over);
  return slice_is(algorithm, "rsa-sha2-512") && verify(key, EVP_sha512(), body, over);
}

bool verify_signature(slice algorithm, slice blob, slice signature, slice over) {
  reader front = read_slice(blob), made = read_slice(signature);
  slice type = get_string(&front), name = get_string(&made), body = get_string(&made);
  if (front.bad || made.bad || made.left != 0 || !slices_equal(name, algorithm)) return false;
  EVP_PKEY *key = key_of_blob(blob);
  bool good = key != NULL && verify_by(key, type, algorithm, body, over);
  EVP_PKEY_free(key);
  return good;
}

/* A signature as libcrypto makes it; freed by OPENSSL_free. */
static uint8_t *signed_by(EVP_PKEY *key, const EVP_MD *digest, slice over, size_t *len) {
  EVP_MD_CTX *by = EVP_MD_CTX_new();
  uint8_t *made = NULL;
  if (by != NULL && EVP_DigestSignInit(by, NULL, digest, NULL, key) > 0 && EVP_DigestSign(by, NULL, len, over.at, over.len) > 0)
    made = OPENSSL_malloc(*len);
  if (made != NULL && EVP_DigestSign(by, made, len, over.at, over.len) <= 0) {
    OPENSSL_free(made);
    made = NULL;
  }
  EVP_MD_CTX_free(by);
  return made;
}

static bool put_pair(bytes *to, const uint8_t *der, size_t len) {
  ECDSA_SIG *pair = d2i_ECDSA_SIG(NULL, &der, (long)len);
  if (pair == NULL) return false;
  uint8_t number[66];
  size_t begun = begin_string(to);
  const BIGNUM *parts[] = {ECDSA_SIG_get0_r(pair), ECDSA_SIG_get0_s(pair)};
  for (int i = 0; i < 2; i++) {
    int count = BN_num_bytes(parts[i]) <= (int)sizeof number ? BN_bn2bin(parts[i], number) : 0;
    put_mpint(to, slice_of(number, (size_t)count));
  }
  end_string(to, begun);
  ECDSA_SIG_free(pair);
  return true;
}

bool make_signature(EVP_PKEY *key, slice type, uint8_t hash, slice over, bytes *signature) {
  const curve *on = curve_named(type);
  bool is_rsa = slice_is(type, "ssh-rsa");
  const EVP_MD *digest = on != NULL ? on->digest() : !is_rsa ? NULL : hash == 1 ? EVP_sha256() : EVP_sha512();
  if (on == NULL && !is_rsa && !slice_is(type, "ssh-ed25519")) return false;
  size_t len = 0;
  uint8_t *made = signed_by(key, digest, over, &len);
  if (made == NULL) return false;
  put_string(signature, is_rsa ? text_of(hash == 1 ? "rsa-sha2-256" : "rsa-sha2-512") : type);
  bool done = true;
  if (on != NULL) done = put_pair(signature, made, len);
  else put_string(signature, slice_of(made, len));
  OPENSSL_free(made);
  return done && !signature->bad;
}

/* ---- texts of keys */

void fingerprint_of(slice blob, char to[64]) {
  uint8_t hash[32];
  char text[48];
  strcpy(to, "SHA256:?");
  if (!sha256(blob, hash)) return;
  int len = EVP_EncodeBlock((uint8_t *)text, hash, 32);
  while (len > 0 && text[len - 1] == '=') len--;
  memcpy(to + 7, text, (size_t)len);
  to[7 + len] = 0;
}

bool put_base64_of(bytes *to, slice text) {
  if (text.len == 0 || text.len % 4 != 0 || text.len > 1 << 20) return false;
  uint8_t *at = bytes_room(to, text.len);
  int made = at == NULL ? -1 : EVP_DecodeBlock(at, text.at, (int)text.len);
  if (made < 0) return false;
  int padding = text.at[text.len - 1] != '=' ? 0 : text.at[text.len - 2] != '=' ? 1 : 2;
  bytes_grew(to, (size_t)(made - padding));
  return true;
}
