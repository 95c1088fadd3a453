#include "bytes.h"

#include <openssl/crypto.h>
#include <stdlib.h>
#include <string.h>

slice slice_of(const void *at, size_t len) { return (slice){at, len}; }

slice text_of(const char *text) { return (slice){(const uint8_t *)text, text == NULL ? 0 : strlen(text)}; }

bool slices_equal(slice one, slice other) {
  return one.len == other.len && (one.len == 0 || memcmp(one.at, other.at, one.len) == 0);
}

bool slice_is(slice it, const char *text) { return slices_equal(it, text_of(text)); }

slice next_name(slice *list) {
  size_t len = 0;
  while (len < list->len && list->at[len] != ',') len++;
  slice name = slice_of(list->at, len);
  size_t skipped = len < list->len ? len + 1 : len;
  *list = skipped == 0 ? (slice){NULL, 0} : slice_of(list->at + skipped, list->len - skipped);
  return name;
}

bool list_has(slice list, slice name) {
  while (list.len != 0)
    if (slices_equal(next_name(&list), name)) return true;
  return false;
}

void bytes_free(bytes *it) {
  bytes_wipe(it);
  free(it->at);
  *it = (bytes){0};
}

void bytes_clear(bytes *it) { it->from = it->len = 0; }

void bytes_wipe(bytes *it) {
  if (it->at != NULL) OPENSSL_cleanse(it->at, it->room);
  bytes_clear(it);
}

size_t bytes_count(const bytes *it) { return it->len - it->from; }

uint8_t *bytes_front(const bytes *it) { return it->at + it->from; }

slice bytes_slice(const bytes *it) { return slice_of(it->at == NULL ? NULL : bytes_front(it), bytes_count(it)); }

void bytes_take(bytes *it, size_t count) {
  it->from += count;
  if (it->from == it->len) bytes_clear(it);
}

/* realloc would leave a copy of what was there, which may be a secret. */
static bool grow(bytes *it, size_t count) {
  size_t room = it->room < 64 ? 64 : it->room;
  while (room - it->len < count) {
    if (room > SIZE_MAX / 2) return false;
    room *= 2;
  }
  uint8_t *at = malloc(room);
  if (at == NULL) return false;
  if (it->len != 0) memcpy(at, it->at, it->len);
  if (it->at != NULL) OPENSSL_cleanse(it->at, it->room);
  free(it->at);
  it->at = at;
  it->room = room;
  return true;
}

uint8_t *bytes_room(bytes *it, size_t count) {
  if (it->room - it->len < count && it->from != 0) {
    memmove(it->at, bytes_front(it), bytes_count(it));
    it->len -= it->from;
    it->from = 0;
  }
  if (it->at == NULL || it->room - it->len < count)
    if (!grow(it, count)) it->bad = true;
  return it->bad ? NULL : it->at + it->len;
}

void bytes_grew(bytes *it, size_t count) { it->len += count; }

void put(bytes *to, const void *from, size_t count) {
  if (count == 0) return;
  uint8_t *at = bytes_room(to, count);
  if (at == NULL) return;
  memcpy(at, from, count);
  bytes_grew(to, count);
}

void store_u32(uint8_t *to, uint32_t number) {
  to[0] = (uint8_t)(number >> 24);
  to[1] = (uint8_t)(number >> 16);
  to[2] = (uint8_t)(number >> 8);
  to[3] = (uint8_t)number;
}

uint32_t load_u32(const uint8_t *from) {
  return (uint32_t)from[0] << 24 | (uint32_t)from[1] << 16 | (uint32_t)from[2] << 8 | from[3];
}

void put_u8(bytes *to, uint8_t number) { put(to, &number, 1); }

void put_u32(bytes *to, uint32_t number) {
  uint8_t made[4];
  store_u32(made, number);
  put(to, made, 4);
}

void put_u64(bytes *to, uint64_t number) {
  put_u32(to, (uint32_t)(number >> 32));
  put_u32(to, (uint32_t)number);
}

void put_string(bytes *to, slice string) {
  put_u32(to, (uint32_t)string.len);
  put(to, string.at, string.len);
}

void put_text(bytes *to, const char *text) { put_string(to, text_of(text)); }

void put_mpint(bytes *to, slice number) {
  while (number.len != 0 && number.at[0] == 0) {
    number.at++;
    number.len--;
  }
  bool high = number.len != 0 && (number.at[0] & 0x80) != 0;
  put_u32(to, (uint32_t)(number.len + (high ? 1 : 0)));
  if (high) put_u8(to, 0);
  put(to, number.at, number.len);
}

size_t begin_string(bytes *to) {
  put_u32(to, 0);
  return bytes_count(to);
}

void end_string(bytes *to, size_t begun) {
  if (to->bad) return;
  store_u32(bytes_front(to) + begun - 4, (uint32_t)(bytes_count(to) - begun));
}

reader read_slice(slice it) { return (reader){it.at, it.len, false}; }

slice get_bytes(reader *it, size_t count) {
  if (it->bad || it->left < count) {
    it->bad = true;
    return (slice){NULL, 0};
  }
  slice got = {it->at, count};
  if (count != 0) it->at += count;
  it->left -= count;
  return got;
}

uint8_t get_u8(reader *it) {
  slice got = get_bytes(it, 1);
  return got.len == 0 ? 0 : got.at[0];
}

bool get_bool(reader *it) { return get_u8(it) != 0; }

uint32_t get_u32(reader *it) {
  slice got = get_bytes(it, 4);
  return got.len == 0 ? 0 : load_u32(got.at);
}

slice get_string(reader *it) { return get_bytes(it, get_u32(it)); }

char *copy_text(slice text) {
  char *made = malloc(text.len + 1);
  if (made == NULL) return NULL;
  if (text.len != 0) memcpy(made, text.at, text.len);
  made[text.len] = 0;
  return made;
}

void forget_text(char *text) {
  if (text == NULL) return;
  OPENSSL_cleanse(text, strlen(text));
  free(text);
}

void copy_safe(char *to, size_t room, slice text) {
  size_t count = text.len < room - 1 ? text.len : room - 1;
  for (size_t i = 0; i < count; i++) {
    uint8_t byte = text.at[i];
    bool is_control = byte < 0x20 || byte == 0x7f;
    bool is_later_control = byte >= 0x80 && byte < 0xa0 && (i == 0 || text.at[i - 1] == 0xc2); /* U+0080 to U+009F */
    to[i] = is_control || is_later_control ? '?' : (char)byte;
  }
  to[count] = 0;
}
