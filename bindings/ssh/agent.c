#include "agent.h"

#include <errno.h>
#include <fcntl.h>
#include <string.h>
#include <sys/socket.h>
#include <sys/un.h>
#include <unistd.h>

enum { REQUEST_IDENTITIES = 11, IDENTITIES_ANSWER = 12, SIGN_REQUEST = 13, SIGN_RESPONSE = 14, LONGEST_ANSWER = 262144 };

int connect_unix(const char *path, bool waits) {
  struct sockaddr_un at = {.sun_family = AF_UNIX};
  if (path == NULL || *path == 0 || strlen(path) >= sizeof at.sun_path) {
    errno = ENAMETOOLONG;
    return -1;
  }
  strcpy(at.sun_path, path);
  int made = socket(AF_UNIX, SOCK_STREAM | SOCK_CLOEXEC | (waits ? 0 : SOCK_NONBLOCK), 0);
  if (made < 0 || connect(made, (struct sockaddr *)&at, sizeof at) == 0) return made;
  int error = errno;
  close(made);
  errno = error;
  return -1;
}

bool agent_connect(agent *it, const char *path) {
  *it = (agent){.socket = connect_unix(path, true)};
  return it->socket >= 0;
}

void agent_close(agent *it) {
  if (it->socket >= 0) close(it->socket);
  bytes_free(&it->answer);
  it->socket = -1;
}

static bool write_all(int to, slice it) {
  while (it.len != 0) {
    ssize_t written = send(to, it.at, it.len, MSG_NOSIGNAL);
    if (written < 0 && errno == EINTR) continue;
    if (written <= 0) return false;
    it = slice_of(it.at + written, it.len - (size_t)written);
  }
  return true;
}

static bool read_all(int from, uint8_t *to, size_t count) {
  while (count != 0) {
    ssize_t got = read(from, to, count);
    if (got < 0 && errno == EINTR) continue;
    if (got <= 0) return false;
    to += got;
    count -= (size_t)got;
  }
  return true;
}

/* Sends a request, and reads the answer's frame; false where the agent is gone. */
static bool ask(agent *it, const bytes *request) {
  bytes frame = {0};
  put_string(&frame, bytes_slice(request));
  bool sent = it->socket >= 0 && write_all(it->socket, bytes_slice(&frame));
  bytes_free(&frame);
  uint8_t head[4];
  if (!sent || !read_all(it->socket, head, 4)) return false;
  uint32_t count = load_u32(head);
  if (count == 0 || count > LONGEST_ANSWER) return false;
  bytes_clear(&it->answer);
  uint8_t *at = bytes_room(&it->answer, count);
  if (at == NULL || !read_all(it->socket, at, count)) return false;
  bytes_grew(&it->answer, count);
  return true;
}

bool agent_keys(agent *it, bytes *keys) {
  bytes request = {0};
  put_u8(&request, REQUEST_IDENTITIES);
  bool answered = ask(it, &request);
  bytes_free(&request);
  if (!answered) return false;
  reader answer = read_slice(bytes_slice(&it->answer));
  if (get_u8(&answer) != IDENTITIES_ANSWER) return false;
  for (uint32_t left = get_u32(&answer); left != 0 && !answer.bad; left--) {
    slice key = get_string(&answer);
    get_string(&answer);
    if (!answer.bad) put_string(keys, key);
  }
  return true;
}

bool agent_sign(agent *it, slice key, uint8_t hash, slice over, bytes *signature) {
  bytes request = {0};
  put_u8(&request, SIGN_REQUEST);
  put_string(&request, key);
  put_string(&request, over);
  put_u32(&request, hash == 1 ? 2 : hash == 2 ? 4 : 0);
  bool answered = ask(it, &request);
  bytes_free(&request);
  reader answer = read_slice(bytes_slice(&it->answer));
  if (!answered || get_u8(&answer) != SIGN_RESPONSE) return false;
  slice made = get_string(&answer);
  if (answer.bad) return false;
  put(signature, made.at, made.len);
  return !signature->bad;
}
