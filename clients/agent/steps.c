#include "server.h"

#include "frames.h"
#include "sign.h"

#include <stdarg.h>
#include <stdio.h>
#include <string.h>
#include <time.h>

/* The number of an input that no client sent; clients have numbers from 1. */
enum { OWN_NUMBER = 0 };
enum { UNLOCK_STEP_MS = 100, LONGEST_UNLOCK_MS = 10000, MS = 1000 };

uint64_t now_ms(void) {
  struct timespec now;
  clock_gettime(CLOCK_BOOTTIME, &now);
  return (uint64_t)now.tv_sec * MS + (uint64_t)now.tv_nsec / 1000000;
}

void note(const server *it, const char *format, ...) {
  if (!it->is_debugging) return;
  va_list given;
  va_start(given, format);
  vfprintf(stderr, format, given);
  fputc('\n', stderr);
  va_end(given);
}

bool server_start(server *it) {
  it->agent = (sshc_agent)SSHC_AGENT_INIT;
  it->asking = (askpass){.output = -1};
  return sshc_abi() >> 16 == SSHC_ABI >> 16 && sshc_agent_new(&it->agent, 0) == SSHC_OK;
}

void server_end(server *it) {
  askpass_drop(&it->asking);
  for (size_t i = 0; i < it->count; i++) it->connections[i]->is_over = true;
  connections_sweep(it);
  keys_free(&it->keys);
  sshc_agent_free(&it->agent);
}

/* ---- what the library hands out */

static bool copy_part(server *it, uint32_t part, bytes *to) {
  size_t size = 0;
  if (sshc_agent_asked(&it->agent, part, NULL, 0, &size) == SSHC_OK) return true; /* it is empty */
  uint8_t *room = bytes_room(to, size);
  if (room == NULL || sshc_agent_asked(&it->agent, part, room, size, &size) != SSHC_OK) return false;
  bytes_grew(to, size);
  return true;
}

static bool copy_answer(server *it, bytes *to) {
  size_t size = 0;
  if (sshc_agent_answer(&it->agent, NULL, 0, &size) == SSHC_OK) return true;
  uint8_t *room = bytes_room(to, size);
  if (room == NULL || sshc_agent_answer(&it->agent, room, size, &size) != SSHC_OK) return false;
  bytes_grew(to, size);
  return true;
}

/* The signature that the library asks for; false where it can't be made. */
static bool sign_question(server *it, uint32_t hash, bytes *signature) {
  bytes over = {0}, text = {0};
  pair key;
  bool is_copied = copy_part(it, 0, &over) && copy_part(it, 2, &text);
  reader from = read_slice(bytes_slice(&text));
  bool is_made = is_copied && pair_read(&from, &key) && pair_sign(&key, hash, bytes_slice(&over), signature);
  bytes_free(&over);
  bytes_free(&text);
  return is_made;
}

/* ---- what an answer changes of what is remembered here */

static void note_addition(server *it, slice frame, uint64_t now) {
  addition read;
  bytes blob = {0};
  if (!addition_read(frame, &read)) return;
  pair_put_blob(&read.pair, &blob);
  uint64_t deadline = read.has_lifetime ? now + (uint64_t)read.lifetime * MS : 0;
  if (!blob.failed) keys_add(&it->keys, bytes_slice(&blob), read.comment, deadline);
  bytes_free(&blob);
}

static void note_removal(server *it, slice frame) {
  reader from = read_slice(slice_of(frame.at + 1, frame.len - 1));
  keys_remove(&it->keys, get_string(&from));
}

/* Each wrong unlock makes the next one wait longer. */
static void note_unlock(server *it, bool is_right, uint64_t now) {
  if (is_right) {
    it->is_locked = false;
    it->wrong_unlocks = 0;
  } else if (it->is_locked) {
    if (it->wrong_unlocks < LONGEST_UNLOCK_MS / UNLOCK_STEP_MS) it->wrong_unlocks++;
    it->unlock_from = now + (uint64_t)it->wrong_unlocks * UNLOCK_STEP_MS;
  }
}

/* Whether the last answer is SUCCESS. It takes no memory, so that what is remembered here stays right where that ends. */
static bool is_success_answered(server *it) {
  uint8_t answer[LENGTH_BYTES + 1];
  size_t size = 0;
  return sshc_agent_answer(&it->agent, answer, sizeof answer, &size) == SSHC_OK && size == sizeof answer && answer[LENGTH_BYTES] == SUCCESS;
}

static void note_answer(server *it, slice frame, uint64_t now) {
  if (frame.len == 0) return;
  bool is_success = is_success_answered(it);
  if (frame.at[0] == UNLOCK) note_unlock(it, is_success, now);
  if (!is_success) return;
  switch (frame.at[0]) {
  case ADD_IDENTITY:
  case ADD_ID_CONSTRAINED: note_addition(it, frame, now); break;
  case REMOVE_IDENTITY: note_removal(it, frame); break;
  case REMOVE_ALL_IDENTITIES: keys_free(&it->keys); break;
  case LOCK: it->is_locked = true; break;
  default: break;
  }
}

/* ---- a step */

static void answer_client(server *it, connection *of, slice frame, uint64_t now) {
  bytes answer = {0};
  note_answer(it, frame, now);
  if (!copy_answer(it, &answer)) of->is_over = true;
  slice made = bytes_slice(&answer);
  if (made.len > LENGTH_BYTES && made.at[LENGTH_BYTES] == IDENTITIES_ANSWER)
    put_listing(&it->keys, made, &of->out);
  else
    put(&of->out, made.at, made.len);
  if (of->out.failed) of->is_over = true;
  bytes_free(&answer);
}

/* How many bytes a control character has that begins here (U+0000 to U+001F, U+007F to U+009F), or 0. */
static size_t control_len(const uint8_t *at, size_t left) {
  if (*at < 0x20 || *at == 0x7f) return 1;
  return *at == 0xc2 && left > 1 && at[1] >= 0x80 && at[1] < 0xa0 ? 2 : 0;
}

/* A prompt is shown to a person: control characters of a comment's, which could feign other text, aren't. */
static void put_shown(bytes *to, slice text) {
  for (size_t i = 0; i < text.len;) {
    size_t control = control_len(text.at + i, text.len - i);
    put_u8(to, control == 0 ? text.at[i] : '?');
    i += control == 0 ? 1 : control;
  }
}

static void ask_user(server *it, connection *of) {
  bytes blob = {0};
  char shown[FINGERPRINT_ROOM];
  if (!copy_answer(it, &blob) || !fingerprint(bytes_slice(&blob), shown)) of->is_over = true;
  bytes_free(&of->prompt);
  put(&of->prompt, "Allow use of key ", strlen("Allow use of key "));
  put_shown(&of->prompt, keys_comment(&it->keys, bytes_slice(&blob)));
  put(&of->prompt, "?\nKey fingerprint ", strlen("?\nKey fingerprint "));
  if (!of->is_over) put(&of->prompt, shown, strlen(shown));
  put(&of->prompt, ".", strlen(".") + 1);
  if (of->prompt.failed) of->is_over = true;
  bytes_free(&blob);
  of->question_turn = ++it->last_turn;
}

static const char *words_for(sshc_status said) {
  switch (said) {
  case SSHC_OK: return "answered";
  case SSHC_NOTHING: return "nothing to answer";
  case SSHC_ASKS_KEY: return "the user is asked";
  case SSHC_CLOSED_TOO_LONG: return "closed, since the frame is too long";
  case SSHC_CLOSED_UNREADABLE: return "closed, since the request to sign can't be read";
  case SSHC_CLOSED_REFUSED: return "closed, since the key can't sign this";
  case SSHC_NO_MEMORY: return "closed, since memory ran out";
  default: return "closed";
  }
}

void hand_in(server *it, connection *of, uint32_t input, slice frame) {
  uint64_t now = now_ms();
  uint32_t hash = 0, request = 0, told = TOLD_NOTHING;
  bytes signature = {0};
  sshc_status said = sshc_agent_asks(&it->agent, now, of->number, input, frame.at, frame.len, &hash);
  if (said == SSHC_ASKS_SIGNATURE) told = sign_question(it, hash, &signature) ? TOLD_SIGNED : TOLD_REFUSED;
  if (said == SSHC_ASKS_SIGNATURE || said == SSHC_NOTHING) {
    slice made = bytes_slice(&signature);
    said = sshc_agent_take(&it->agent, now, of->number, input, frame.at, frame.len, told, made.at, made.len, &request);
  }
  bytes_free(&signature);
  note(it, "connection %u: input %u, message %u: %s", of->number, input, frame.len == 0 ? 0u : frame.at[0], words_for(said));
  switch (said) {
  case SSHC_OK: answer_client(it, of, frame, now); break;
  case SSHC_ASKS_KEY: ask_user(it, of); break;
  case SSHC_NOTHING: break;
  default: of->is_closing = true; break;
  }
}

/* A pair that can't sign is refused here, by handing in a frame without a message, which the library answers with
 * FAILURE: it wouldn't be found out before the first use. */
static void hand_in_addition(server *it, connection *of, slice frame) {
  addition read;
  if (!addition_read(frame, &read) || !pair_is_sound(&read.pair)) {
    note(it, "connection %u: a key that can't sign here", of->number);
    hand_in(it, of, INPUT_FRAME, slice_of(NULL, 0));
    return;
  }
  if (it->lifetime == 0 || read.has_lifetime) {
    hand_in(it, of, INPUT_FRAME, frame);
    return;
  }
  bytes limited = {0};
  addition_put(&read, it->lifetime, &limited);
  bool fits = !limited.failed && bytes_count(&limited) <= LONGEST_FRAME;
  hand_in(it, of, INPUT_FRAME, fits ? bytes_slice(&limited) : slice_of(NULL, 0));
  bytes_free(&limited);
}

void hand_in_frame(server *it, connection *of, slice frame) {
  bool adds = frame.len != 0 && (frame.at[0] == ADD_IDENTITY || frame.at[0] == ADD_ID_CONSTRAINED);
  if (adds && !it->is_locked)
    hand_in_addition(it, of, frame);
  else
    hand_in(it, of, INPUT_FRAME, frame);
}

void hand_in_end(server *it, connection *of) {
  uint32_t request = 0;
  sshc_agent_take(&it->agent, now_ms(), of->number, INPUT_GONE, NULL, 0, TOLD_NOTHING, NULL, 0, &request);
  sshc_agent_forget(&it->agent, of->number);
}

void drop_due_keys(server *it) {
  uint64_t now = now_ms();
  uint32_t request = 0;
  if (it->keys.nearest == 0 || now < it->keys.nearest) return;
  sshc_agent_take(&it->agent, now, OWN_NUMBER, INPUT_GONE, NULL, 0, TOLD_NOTHING, NULL, 0, &request);
  sshc_agent_forget(&it->agent, OWN_NUMBER);
  keys_drop_due(&it->keys, now);
}
