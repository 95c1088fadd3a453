/* Numbers of the agent's protocol (draft-miller-ssh-agent), and of the library's inputs and answers. */
#ifndef AGENT_FRAMES_H
#define AGENT_FRAMES_H

enum {
  FAILURE = 5,
  SUCCESS = 6,
  REQUEST_IDENTITIES = 11,
  IDENTITIES_ANSWER = 12,
  SIGN_REQUEST = 13,
  ADD_IDENTITY = 17,
  REMOVE_IDENTITY = 18,
  REMOVE_ALL_IDENTITIES = 19,
  LOCK = 22,
  UNLOCK = 23,
  ADD_ID_CONSTRAINED = 25,
  CONSTRAIN_LIFETIME = 1,
  CONSTRAIN_CONFIRM = 2
};

/* A frame's length, and the most bytes that follow it. */
enum { LENGTH_BYTES = 4, LONGEST_FRAME = 262144 };

/* What is handed in of a connection. */
enum { INPUT_FRAME = 0, INPUT_TOO_LONG = 1, INPUT_CONFIRMED = 4, INPUT_NOT_CONFIRMED = 5, INPUT_GONE = 6 };

/* What is told of a signature. */
enum { TOLD_NOTHING = 0, TOLD_SIGNED = 1, TOLD_REFUSED = 2 };

#endif
