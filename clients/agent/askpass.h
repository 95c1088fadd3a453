/* Asks the user whether a key may be used, by the program that SSH_ASKPASS names: a child process at a time, whose end
 * is seen by the signal SIGCHLD, so that other connections go on. */
#ifndef AGENT_ASKPASS_H
#define AGENT_ASKPASS_H

#include "bytes.h"

#include <sys/types.h>

enum { ANSWER_ROOM = 1024 };

/* {.output = -1} where nobody is asked. */
typedef struct askpass {
  pid_t child; /* 0: none */
  int output;
  char answer[ANSWER_ROOM];
  size_t len;
} askpass;

/* Starts it; false where there is nobody to ask: no display and SSH_ASKPASS_REQUIRE isn't `force`, or it is `never`, or
 * the program can't be run. */
bool askpass_start(askpass *it, const char *prompt);
/* Takes what the program wrote. */
void askpass_read(askpass *it);
/* The program ended with this status of `waitpid`: whether it said yes. Nobody is asked then. */
bool askpass_end(askpass *it, int status);
/* Nobody wants the answer any longer. The program is ended. */
void askpass_drop(askpass *it);

#endif
