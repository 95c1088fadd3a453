/* Where the agent listens: a socket that its user alone reaches. */
#ifndef AGENT_PLACE_H
#define AGENT_PLACE_H

#include <stdbool.h>
#include <sys/types.h>

/* {.folder = -1, .listener = -1} is none. */
typedef struct place {
  char *path;         /* as SSH_AUTH_SOCK says it */
  const char *name;   /* its last part */
  char *made_folder;  /* the folder, where it was made for this socket */
  int folder;
  int listener;
  dev_t device; /* which file the socket is, so that no other one is removed */
  ino_t inode;
} place;

/* Makes the socket at this path, or where it is NULL in a new folder. False after a line that says why not. */
bool place_make(place *it, const char *path);
/* Removes the socket, if it is still there, and the folder that was made for it. */
void place_remove(place *it);
/* Leaves both to the process that serves. */
void place_leave(place *it);

#endif
