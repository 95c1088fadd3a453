/* Growing bytes, and reading and writing the data types of SSH (RFC 4251, section 5). */
#ifndef SAZHONTHIL_SSH_BYTES_H
#define SAZHONTHIL_SSH_BYTES_H

#include <stdbool.h>
#include <stddef.h>
#include <stdint.h>

/* Bytes in memory of their own. {0} is empty. `from` is where the bytes begin that weren't taken yet. Where memory runs
 * out `bad` is set and stays, and what is put after that is lost: whoever uses the bytes looks at it first. */
typedef struct bytes {
  uint8_t *at;
  size_t from;
  size_t len; /* the end: bytes from `from` up to `len` are there */
  size_t room;
  bool bad;
} bytes;

/* Bytes of somebody else's. */
typedef struct slice {
  const uint8_t *at;
  size_t len;
} slice;

/* Reads a slice from its front. Once something is short, `bad` is set and all that follows is empty. */
typedef struct reader {
  const uint8_t *at;
  size_t left;
  bool bad;
} reader;

slice slice_of(const void *at, size_t len);
slice text_of(const char *text);
bool slice_is(slice it, const char *text);
bool slices_equal(slice one, slice other);
/* The first name of a list with commas, which is taken from the list. */
slice next_name(slice *list);
bool list_has(slice list, slice name);

/* Wipes the bytes and frees them. */
void bytes_free(bytes *it);
void bytes_clear(bytes *it);
/* Overwrites all of the memory, and empties it. */
void bytes_wipe(bytes *it);
/* How many bytes are there, and where they begin. */
size_t bytes_count(const bytes *it);
uint8_t *bytes_front(const bytes *it);
slice bytes_slice(const bytes *it);
/* Takes bytes from the front. */
void bytes_take(bytes *it, size_t count);
/* Room for so many bytes after the end, or NULL; `bytes_grew` says how many were written there. */
uint8_t *bytes_room(bytes *it, size_t count);
void bytes_grew(bytes *it, size_t count);

void put(bytes *to, const void *from, size_t count);
void put_u8(bytes *to, uint8_t number);
void put_u32(bytes *to, uint32_t number);
void put_u64(bytes *to, uint64_t number);
void put_string(bytes *to, slice string);
void put_text(bytes *to, const char *text);
/* A positive number, of which leading zero bytes are left out (RFC 4251, mpint). */
void put_mpint(bytes *to, slice number);
/* Begins a string whose length isn't known yet; `end_string` gets what this returns. */
size_t begin_string(bytes *to);
void end_string(bytes *to, size_t begun);
void store_u32(uint8_t *to, uint32_t number);
uint32_t load_u32(const uint8_t *from);

reader read_slice(slice it);
uint8_t get_u8(reader *it);
bool get_bool(reader *it);
uint32_t get_u32(reader *it);
slice get_string(reader *it);
slice get_bytes(reader *it, size_t count);

/* A copy with a 0 at its end, or NULL. */
char *copy_text(slice text);
/* Wipes a text, which may be NULL, and frees it. */
void forget_text(char *text);
/* Copies as much as fits, with a 0 at the end, and a ? for each control character. */
void copy_safe(char *to, size_t room, slice text);

#endif
