/* Signatures and keys that were changed are refused, and those that weren't are taken: mutated_signatures COUNT KEY.. */
#include "crypto.h"
#include "keys.h"

#include <sazhonthil.h>

#include <stdio.h>
#include <stdlib.h>
#include <string.h>

static long tried, wrong;

static void flip(bytes *it) { it->at[(size_t)rand() % it->len] ^= (uint8_t)(1 << rand() % 8); }

/* A copy of both, one of which is changed. */
static void change(bytes *signature, bytes *blob) {
  switch (rand() % 5) {
  case 0: flip(signature); break;
  case 1: signature->len -= 1 + (size_t)rand() % (signature->len - 1); break;
  case 2: put_u8(signature, (uint8_t)rand()); break;
  case 3: flip(blob); break;
  default: store_u32(signature->at + (size_t)rand() % (signature->len - 4), (uint32_t)rand()); break;
  }
}

static void try_one(slice algorithm, slice blob, slice signature, slice over) {
  bytes changed = {0}, key = {0};
  put(&changed, signature.at, signature.len);
  put(&key, blob.at, blob.len);
  change(&changed, &key);
  bool same = slices_equal(bytes_slice(&changed), signature) && slices_equal(bytes_slice(&key), blob);
  tried++;
  wrong += verify_signature(algorithm, bytes_slice(&key), bytes_slice(&changed), over) != same;
  bytes_free(&changed);
  bytes_free(&key);
}

static void try_key(const char *path, uint8_t hash, int count) {
  sazh_key *key = NULL;
  if (sazh_key_read(&key, path, NULL, NULL, NULL, 0) != SAZH_OK) exit(2);
  bool is_rsa = strcmp(key->type, "ssh-rsa") == 0;
  slice algorithm = text_of(!is_rsa ? key->type : hash == SSHC_HASH_SHA256 ? "rsa-sha2-256" : "rsa-sha2-512"), blob = bytes_slice(&key->blob);
  bytes signature = {0};
  wrong += !make_signature(key->pair, text_of(key->type), hash, text_of("the text"), &signature);
  wrong += !verify_signature(algorithm, blob, bytes_slice(&signature), text_of("the text"));
  wrong += verify_signature(algorithm, blob, bytes_slice(&signature), text_of("another text"));
  wrong += verify_signature(text_of("ssh-dss"), blob, bytes_slice(&signature), text_of("the text"));
  for (int i = 0; i < count; i++) try_one(algorithm, blob, bytes_slice(&signature), text_of("the text"));
  bytes_free(&signature);
  sazh_key_free(key);
}

int main(int count, char **words) {
  for (int i = 2; i < count; i++)
    for (uint8_t hash = SSHC_HASH_SHA256; hash <= SSHC_HASH_SHA512; hash++) try_key(words[i], hash, atoi(words[1]));
  printf("library: %ld mutated signatures; wrong: %ld\n", tried, wrong);
  return wrong != 0;
}
