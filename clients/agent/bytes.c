#include "bytes.h"

#include <openssl/crypto.h>
#include <stdlib.h>
#include <string.h>

enum { LEAST_ROOM = 64, MOST_BYTES = 1 << 30 };

slice slice_of(const void *at, size_t len) { return (slice){at, len}; }

slice text_of(const char *text) { return slice_of(text, strlen(text)); }

bool slices_equal(slice one, slice other) {
  return one.len == other.len && (one.len == 0 || memcmp(one.at, other.at, one.len) == 0);
}

bool slice_is(slice it, const char *text) { return slices_equal(it, text_of(text)); }

/* ---- growing bytes */

void bytes_free(bytes *it) {
  if (it->at != NULL) OPENSSL_cleanse(it->at, it->room);
  free(it->at);
  *it = (bytes){0};
}

size_t bytes_count(const bytes *it) { return it->len - it->from; }

slice bytes_slice(const bytes *it) { return slice_of(it->at == NULL ? NULL : it->at + it->from, bytes_count(it)); }

void bytes_take(bytes *it, size_t count) {
  OPENSSL_cleanse(it->at + it->from, count);
  it->from += count;
  if (it->from == it->len) bytes_free(it);
}

/* Moves the bytes to the front of their memory, and wipes where they were. */
static void close_up(bytes *it) {
  size_t count = bytes_count(it);
  memmove(it->at, it->at + it->from, count);
  OPENSSL_cleanse(it->at + count, it->len - count);
  it->from = 0;
  it->len = count;
}

/* Not by realloc, which leaves a copy of the bytes where they were. */
static bool move_to(bytes *it, size_t room) {
  uint8_t *at = malloc(room);
  if (at == NULL) return false;
  size_t count = bytes_count(it);
  if (count != 0) memcpy(at, it->at + it->from, count);
  bytes_free(it);
  *it = (bytes){.at = at, .len = count, .room = room};
  return true;
}

uint8_t *bytes_room(bytes *it, size_t count) {
  if (it->failed) return NULL;
  if (it->room - it->len < count && it->from != 0) close_up(it);
  if (it->room - it->len < count) {
    size_t len = it->len + count;
    if (len > MOST_BYTES || !move_to(it, len + len / 4 + LEAST_ROOM)) {
      it->failed = true;
      return NULL;
    }
  }
  return it->at + it->len;
}

void bytes_grew(bytes *it, size_t count) { it->len += count; }

/* ---- writing */

void put(bytes *to, const void *from, size_t count) {
  if (count == 0) return;
  uint8_t *at = bytes_room(to, count);
  if (at == NULL) return;
  memcpy(at, from, count);
  bytes_grew(to, count);
}

void put_u8(bytes *to, uint8_t number) { put(to, &number, 1); }

void put_u32(bytes *to, uint32_t number) {
  uint8_t made[4] = {(uint8_t)(number >> 24), (uint8_t)(number >> 16), (uint8_t)(number >> 8), (uint8_t)number};
  put(to, made, sizeof made);
}

void put_string(bytes *to, slice string) {
  put_u32(to, (uint32_t)string.len);
  put(to, string.at, string.len);
}

void put_mpint(bytes *to, slice number) {
  while (number.len != 0 && number.at[0] == 0) number = slice_of(number.at + 1, number.len - 1);
  bool is_high = number.len != 0 && (number.at[0] & 0x80) != 0;
  put_u32(to, (uint32_t)(number.len + is_high));
  if (is_high) put_u8(to, 0);
  put(to, number.at, number.len);
}

/* ---- reading */

reader read_slice(slice it) { return (reader){it.at, it.len, false}; }

static slice get(reader *it, size_t count) {
  if (it->bad || it->left < count) {
    it->bad = true;
    return slice_of(NULL, 0);
  }
  slice got = slice_of(it->at, count);
  if (count != 0) it->at += count;
  it->left -= count;
  return got;
}

uint8_t get_u8(reader *it) {
  slice got = get(it, 1);
  return got.len == 0 ? 0 : got.at[0];
}

uint32_t get_u32(reader *it) {
  slice got = get(it, 4);
  if (got.len == 0) return 0;
  return (uint32_t)got.at[0] << 24 | (uint32_t)got.at[1] << 16 | (uint32_t)got.at[2] << 8 | got.at[3];
}

slice get_string(reader *it) { return get(it, get_u32(it)); }
