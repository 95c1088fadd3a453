/* Growing bytes that are wiped before they are freed, and the data types of SSH (RFC 4251, section 5).
 *
 * Unlike the client's, these never end the process where memory runs out: an agent would lose its keys. */
#ifndef AGENT_BYTES_H
#define AGENT_BYTES_H

#include <stdbool.h>
#include <stddef.h>
#include <stdint.h>

/* Bytes in memory of their own. {0} is empty. `from` is where the bytes begin that weren't taken yet. */
typedef struct bytes {
  uint8_t *at;
  size_t from;
  size_t len; /* the end: bytes from `from` up to `len` are there */
  size_t room;
  bool failed; /* memory ran out: from then on nothing is put */
} bytes;

/* Bytes of somebody else's. */
typedef struct slice {
  const uint8_t *at;
  size_t len;
} slice;

/* Reads a slice from its front. Once something is short, `bad` is set and all that follows is empty. */
typedef struct reader {
  const uint8_t *at;
  size_t left;
  bool bad;
} reader;

slice slice_of(const void *at, size_t len);
slice text_of(const char *text);
bool slices_equal(slice one, slice other);
bool slice_is(slice it, const char *text);

/* Wipes and frees. */
void bytes_free(bytes *it);
size_t bytes_count(const bytes *it);
slice bytes_slice(const bytes *it);
/* Wipes so many bytes of the front; once none is left the memory is freed, so that idle connections hold none. */
void bytes_take(bytes *it, size_t count);
/* Room for so many bytes after the end, or NULL; `bytes_grew` says how many were written there. */
uint8_t *bytes_room(bytes *it, size_t count);
void bytes_grew(bytes *it, size_t count);

void put(bytes *to, const void *from, size_t count);
void put_u8(bytes *to, uint8_t number);
void put_u32(bytes *to, uint32_t number);
void put_string(bytes *to, slice string);
/* A positive number, of which leading zero bytes are left out. */
void put_mpint(bytes *to, slice number);

reader read_slice(slice it);
uint8_t get_u8(reader *it);
uint32_t get_u32(reader *it);
slice get_string(reader *it);

#endif
