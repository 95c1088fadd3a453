/* Known hosts files: their texts, one after another. What they say of a key is the core's judgement; here they are read,
 * searched for which algorithms to offer first, and written to. */
#ifndef SAZHONTHIL_SSH_HOSTS_H
#define SAZHONTHIL_SSH_HOSTS_H

#include "bytes.h"

#include <sazhonthil.h>

enum { MOST_HOSTS_FILES = 8 };

typedef struct hosts_file {
  char *path;
  uint64_t lines; /* of its text */
  size_t len;
} hosts_file;

typedef struct hosts {
  bytes text;
  hosts_file files[MOST_HOSTS_FILES];
  size_t count;
} hosts;

void hosts_free(hosts *it);
/* Adds a file; 0, or errno. */
int hosts_add(hosts *it, const char *path, bool must_exist);
/* Which file and line a line of the whole text is. */
const char *hosts_where(const hosts *it, uint64_t *line);
/* Whether a host's name can stand in a line of known hosts, and be only itself there. */
bool host_is_name(slice host);
/* The name that a line has for the host at the port: host, or [host]:port. */
bool put_host_name(bytes *to, slice host, uint16_t port);
/* What a text says of the key for the host at the port: as OpenSSH reads it, or as narrowly as sshc_known_hosts_check. The
 * line that refuses it is in *line, or 0. */
sshc_status hosts_judge(slice text, bool is_narrow, slice host, uint16_t port, slice key, uint64_t *line);
/* The algorithms, first those of the types of keys that lines have for the host in that reading. Only an order. */
bool hosts_order(const hosts *it, bool is_narrow, slice host, uint16_t port, const char *algorithms, bytes *to);
/* Puts the one line that records the key for the host at the port, as the core writes it. */
sshc_status hosts_line(slice host, uint16_t port, slice key, bytes *to);
/* Adds a line for the key to the text, and where `write` to the first file; 0, or errno. */
int hosts_learn(hosts *it, slice host, uint16_t port, slice key, bool write);

#endif
