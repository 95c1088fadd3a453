#include "keys.h"

#include "frames.h"

#include <stdlib.h>
#include <string.h>

enum { LEAST_KEYS = 8, LONGEST_COMMENT = 1024 };

/* ---- what is known */

static void key_free(known_key *it) {
  bytes_free(&it->blob);
  bytes_free(&it->comment);
}

void keys_free(known_keys *it) {
  for (size_t i = 0; i < it->count; i++) key_free(&it->at[i]);
  free(it->at);
  *it = (known_keys){0};
}

/* Where the key is, looked for from this place on and then from the front: a listing asks in the order of the keys. */
static size_t find_from(const known_keys *it, size_t from, slice blob) {
  for (size_t i = 0; i < it->count; i++) {
    size_t at = (from + i) % it->count;
    if (slices_equal(bytes_slice(&it->at[at].blob), blob)) return at;
  }
  return it->count;
}

static bool has_room(known_keys *it) {
  if (it->count < it->room) return true;
  size_t room = it->room == 0 ? LEAST_KEYS : 2 * it->room;
  known_key *at = realloc(it->at, room * sizeof *at); /* blobs and comments are no secrets */
  if (at == NULL) return false;
  it->at = at;
  it->room = room;
  return true;
}

static void note_nearest(known_keys *it) {
  it->nearest = 0;
  for (size_t i = 0; i < it->count; i++) {
    uint64_t deadline = it->at[i].deadline;
    if (deadline != 0 && (it->nearest == 0 || deadline < it->nearest)) it->nearest = deadline;
  }
}

/* A comment's length, cut at a character's end (in UTF-8) where it is longer than is kept. */
static size_t kept_len(slice comment) {
  if (comment.len <= LONGEST_COMMENT) return comment.len;
  size_t len = LONGEST_COMMENT;
  while (len != 0 && (comment.at[len] & 0xc0) == 0x80) len--;
  return len;
}

void keys_add(known_keys *it, slice blob, slice comment, uint64_t deadline) {
  size_t at = find_from(it, 0, blob);
  if (at == it->count) {
    known_key made = {0};
    put(&made.blob, blob.at, blob.len);
    if (made.blob.failed || !has_room(it)) {
      key_free(&made);
      return;
    }
    it->at[it->count++] = made;
  }
  known_key *key = &it->at[at];
  bytes_free(&key->comment);
  put(&key->comment, comment.at, kept_len(comment));
  key->deadline = deadline;
  note_nearest(it);
}

static void remove_at(known_keys *it, size_t at) {
  key_free(&it->at[at]);
  memmove(&it->at[at], &it->at[at + 1], (it->count - at - 1) * sizeof *it->at);
  it->count--;
}

void keys_remove(known_keys *it, slice blob) {
  size_t at = find_from(it, 0, blob);
  if (at < it->count) remove_at(it, at);
  note_nearest(it);
}

slice keys_comment(const known_keys *it, slice blob) {
  size_t at = find_from(it, 0, blob);
  return at < it->count ? bytes_slice(&it->at[at].comment) : slice_of(NULL, 0);
}

void keys_drop_due(known_keys *it, uint64_t now) {
  for (size_t i = it->count; i-- > 0;)
    if (it->at[i].deadline != 0 && it->at[i].deadline <= now) remove_at(it, i);
  note_nearest(it);
}

/* ---- additions */

static bool read_constraints(reader *from, addition *to) {
  to->constraints = slice_of(from->at, from->left);
  while (from->left != 0 && !from->bad) {
    uint8_t kind = get_u8(from);
    if (kind == CONSTRAIN_LIFETIME) {
      to->has_lifetime = true;
      to->lifetime = get_u32(from);
    } else if (kind != CONSTRAIN_CONFIRM) {
      return false;
    }
  }
  return !from->bad;
}

bool addition_read(slice frame, addition *to) {
  *to = (addition){0};
  reader all = read_slice(frame);
  uint8_t number = get_u8(&all);
  const uint8_t *begin = all.at;
  if ((number != ADD_IDENTITY && number != ADD_ID_CONSTRAINED) || !pair_read(&all, &to->pair)) return false;
  to->comment = get_string(&all);
  if (all.bad) return false;
  to->text = slice_of(begin, (size_t)(all.at - begin));
  return number == ADD_IDENTITY || read_constraints(&all, to);
}

void addition_put(const addition *it, uint32_t lifetime, bytes *to) {
  put_u8(to, ADD_ID_CONSTRAINED);
  put(to, it->text.at, it->text.len);
  put(to, it->constraints.at, it->constraints.len);
  put_u8(to, CONSTRAIN_LIFETIME);
  put_u32(to, lifetime);
}

/* ---- listings */

static void put_key(const known_keys *it, size_t *at, slice blob, bytes *to) {
  put_string(to, blob);
  size_t found = find_from(it, *at, blob);
  put_string(to, found < it->count ? bytes_slice(&it->at[found].comment) : slice_of(NULL, 0));
  if (found < it->count) *at = found + 1;
}

void put_listing(const known_keys *it, slice listing, bytes *to) {
  bytes made = {0};
  reader all = read_slice(listing);
  get_u32(&all);
  put_u8(&made, get_u8(&all));
  uint32_t count = get_u32(&all);
  put_u32(&made, count);
  size_t at = 0;
  for (uint32_t i = 0; i < count && !all.bad && bytes_count(&made) <= LONGEST_FRAME; i++) {
    put_key(it, &at, get_string(&all), &made);
    get_string(&all); /* the library's comment, which is empty */
  }
  bool is_whole = !all.bad && !made.failed && bytes_count(&made) <= LONGEST_FRAME;
  if (is_whole)
    put_string(to, bytes_slice(&made));
  else
    put(to, listing.at, listing.len);
  bytes_free(&made);
}
