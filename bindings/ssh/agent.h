/* A client of an agent (draft-miller-ssh-agent) at a socket of Unix. */
#ifndef SAZHONTHIL_SSH_AGENT_H
#define SAZHONTHIL_SSH_AGENT_H

#include "bytes.h"

typedef struct agent {
  int socket; /* -1: there is none */
  bytes answer;
} agent;

/* Connects to a socket of Unix, without waiting where `waits` is false; its descriptor, or -1 and errno. */
int connect_unix(const char *path, bool waits);
bool agent_connect(agent *it, const char *path);
void agent_close(agent *it);
/* The blobs of the keys, each as a string, one after another; false if there is no agent. */
bool agent_keys(agent *it, bytes *keys);
/* The signature of a key (hash 0 none, 1 SHA-256, 2 SHA-512); false if the agent refuses. */
bool agent_sign(agent *it, slice key, uint8_t hash, slice over, bytes *signature);

#endif
