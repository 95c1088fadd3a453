#include "server.h"

#include "frames.h"

#include <stddef.h>

/* The connection that has waited longest for the user. */
static connection *next_question(const server *it) {
  connection *next = NULL;
  for (size_t i = 0; i < it->count; i++) {
    connection *one = it->connections[i];
    if (one->is_over || one->question_turn == 0) continue;
    if (next == NULL || one->question_turn < next->question_turn) next = one;
  }
  return next;
}

static void answer_question(server *it, connection *of, bool is_confirmed) {
  of->question_turn = 0;
  bytes_free(&of->prompt);
  hand_in(it, of, is_confirmed ? INPUT_CONFIRMED : INPUT_NOT_CONFIRMED, slice_of(NULL, 0));
}

void questions_ask(server *it) {
  connection *next;
  while (it->asking.child == 0 && (next = next_question(it)) != NULL) {
    it->asked_for = next->number;
    if (askpass_start(&it->asking, (const char *)bytes_slice(&next->prompt).at)) return;
    note(it, "connection %u: there is nobody to ask", next->number);
    answer_question(it, next, false);
  }
}

void questions_ended(server *it, pid_t child, int status) {
  if (child != it->asking.child) return;
  bool is_confirmed = askpass_end(&it->asking, status);
  connection *of = connection_numbered(it, it->asked_for);
  if (of != NULL && of->question_turn != 0) answer_question(it, of, is_confirmed);
}

void questions_drop(server *it, connection *of) {
  if (of->question_turn != 0 && it->asking.child != 0 && it->asked_for == of->number) askpass_drop(&it->asking);
  of->question_turn = 0;
}
