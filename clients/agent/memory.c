/* The library calls three functions for memory and leaves them to the program (bindings/runtime/runtime.c has them over
 * plain malloc, and says what they owe). Here each block knows its length, which stands before it. */
#include "memory.h"

#include <openssl/crypto.h>
#include <stddef.h>
#include <stdint.h>
#include <stdlib.h>
#include <string.h>

/* As long as the strictest alignment, so that what follows it is aligned. */
typedef union head {
  size_t len;
  max_align_t aligned;
} head;

static void *block_new(size_t len) {
  if (len > SIZE_MAX - sizeof(head)) return NULL;
  head *made = malloc(sizeof(head) + len);
  if (made == NULL) return NULL;
  made->len = len;
  return made + 1;
}

static void block_free(void *at) {
  if (at == NULL) return;
  head *made = (head *)at - 1;
  OPENSSL_cleanse(at, made->len);
  free(made);
}

static void *block_resize(void *at, size_t len) {
  if (at == NULL) return block_new(len);
  void *made = block_new(len);
  if (made == NULL) return NULL;
  size_t had = ((head *)at - 1)->len;
  memcpy(made, at, had < len ? had : len);
  block_free(at);
  return made;
}

/* ---- for the library */

struct tried {
  bool ok;
  unsigned char *p;
};
static unsigned char nowhere; /* p isn't NULL where it failed */

static struct tried tried(unsigned char *p) { return (struct tried){p != NULL, p != NULL ? p : &nowhere}; }

struct tried rattle_alloc(size_t n, size_t a);
struct tried rattle_realloc(unsigned char *at, size_t kept, size_t n, size_t a);
void rattle_dealloc(unsigned char *at);

struct tried rattle_alloc(size_t n, size_t a) { return tried(block_new(n != 0 ? n : a)); }

struct tried rattle_realloc(unsigned char *at, size_t kept, size_t n, size_t a) {
  (void)kept;
  return tried(block_resize(at, n != 0 ? n : a));
}

void rattle_dealloc(unsigned char *at) { block_free(at); }

/* ---- for libcrypto, which names the place in its source */

static void *crypto_new(size_t len, const char *file, int line) {
  (void)file, (void)line;
  return len == 0 ? NULL : block_new(len);
}

static void crypto_free(void *at, const char *file, int line) {
  (void)file, (void)line;
  block_free(at);
}

static void *crypto_resize(void *at, size_t len, const char *file, int line) {
  if (len == 0) {
    crypto_free(at, file, line);
    return NULL;
  }
  return block_resize(at, len);
}

bool memory_for_libcrypto(void) { return CRYPTO_set_mem_functions(crypto_new, crypto_resize, crypto_free) == 1; }
