#include "server.h"

#include <errno.h>
#include <limits.h>
#include <poll.h>
#include <signal.h>
#include <stdlib.h>
#include <sys/resource.h>
#include <sys/signalfd.h>
#include <sys/socket.h>
#include <sys/wait.h>
#include <unistd.h>

/* Connections at once; fewer where the process may open fewer files. Besides, files for the program itself. */
enum { MOST_CONNECTIONS = 1024, LEAST_CONNECTIONS = 4, OWN_FILES = 16, ACCEPTED_AT_ONCE = 64 };
/* How long no connection is accepted where none could be, and how often a key's deadline is looked at: `poll` doesn't
 * count the time that the machine sleeps. */
enum { ACCEPT_PAUSE_MS = 1000, DEADLINE_MS = 30000 };
enum { LISTENER, SIGNALS, ANSWER, OWN_POLLS };

typedef struct loop {
  server *server;
  int listener;
  int signals;
  struct pollfd *polls;
  uint64_t accept_from;
  bool is_ending;
} loop;

static size_t most_connections(void) {
  struct rlimit files;
  if (getrlimit(RLIMIT_NOFILE, &files) != 0 || files.rlim_cur >= MOST_CONNECTIONS + OWN_FILES) return MOST_CONNECTIONS;
  return files.rlim_cur < OWN_FILES + LEAST_CONNECTIONS ? LEAST_CONNECTIONS : (size_t)files.rlim_cur - OWN_FILES;
}

/* ---- connections that come */

static bool is_own_user(int line) {
  struct ucred peer = {0};
  socklen_t len = sizeof peer;
  return getsockopt(line, SOL_SOCKET, SO_PEERCRED, &peer, &len) == 0 && len == sizeof peer && (peer.uid == geteuid() || peer.uid == 0);
}

static void accept_some(loop *it) {
  for (int i = 0; i < ACCEPTED_AT_ONCE && it->server->count < it->server->most; i++) {
    int line = accept4(it->listener, NULL, NULL, SOCK_NONBLOCK | SOCK_CLOEXEC);
    if (line < 0) {
      if (errno != EAGAIN && errno != EINTR && errno != ECONNABORTED) it->accept_from = now_ms() + ACCEPT_PAUSE_MS;
      return;
    }
    if (!is_own_user(line) || !connection_add(it->server, line)) close(line);
  }
}

/* ---- what is waited for */

/* The nearer of two moments, of which 0 is none. */
static uint64_t nearer(uint64_t one, uint64_t other) { return one == 0 || (other != 0 && other < one) ? other : one; }

static int patience(const loop *it, uint64_t now) {
  const server *server = it->server;
  for (size_t i = 0; i < server->count; i++)
    if (connection_is_ready(server->connections[i])) return 0;
  uint64_t moment = nearer(connections_unlock_moment(server), it->accept_from);
  if (server->keys.nearest != 0) moment = nearer(moment, nearer(server->keys.nearest, now + DEADLINE_MS));
  if (moment == 0) return -1;
  return moment <= now ? 0 : moment - now > INT_MAX ? INT_MAX : (int)(moment - now);
}

static size_t fill_polls(loop *it, uint64_t now) {
  const server *server = it->server;
  if (it->accept_from != 0 && it->accept_from <= now) it->accept_from = 0;
  bool accepts = server->count < server->most && it->accept_from == 0;
  it->polls[LISTENER] = (struct pollfd){.fd = accepts ? it->listener : -1, .events = POLLIN};
  it->polls[SIGNALS] = (struct pollfd){.fd = it->signals, .events = POLLIN};
  it->polls[ANSWER] = (struct pollfd){.fd = server->asking.output, .events = POLLIN};
  for (size_t i = 0; i < server->count; i++)
    it->polls[OWN_POLLS + i] = (struct pollfd){.fd = server->connections[i]->socket, .events = connection_events(server->connections[i])};
  return server->count;
}

static void take_signals(loop *it) {
  struct signalfd_siginfo which;
  while (read(it->signals, &which, sizeof which) == (ssize_t)sizeof which)
    if (which.ssi_signo != SIGCHLD) it->is_ending = true;
  int status;
  pid_t child;
  while ((child = waitpid(-1, &status, WNOHANG)) > 0) questions_ended(it->server, child, status);
}

/* ---- a round: each connection has a frame handed in at most, so that none keeps the others waiting */

static void serve_round(loop *it) {
  server *server = it->server;
  uint64_t now = now_ms();
  size_t polled = fill_polls(it, now);
  if (poll(it->polls, OWN_POLLS + polled, patience(it, now)) < 0) return; /* EINTR, or memory is short for a moment */
  drop_due_keys(server);
  if (it->polls[ANSWER].revents != 0) askpass_read(&server->asking);
  if (it->polls[SIGNALS].revents != 0) take_signals(it);
  for (size_t i = 0; i < polled; i++) connection_serve(server, server->connections[i], it->polls[OWN_POLLS + i].revents);
  questions_ask(server);
  connections_sweep(server);
  if (it->polls[LISTENER].revents != 0) accept_some(it);
}

bool serve(server *it, int listener, int signals) {
  it->most = most_connections();
  it->connections = calloc(it->most, sizeof(connection *));
  loop rounds = {.server = it, .listener = listener, .signals = signals, .polls = calloc(OWN_POLLS + it->most, sizeof(struct pollfd))};
  bool can_begin = it->connections != NULL && rounds.polls != NULL;
  while (can_begin && !rounds.is_ending) serve_round(&rounds);
  server_end(it);
  free(it->connections);
  free(rounds.polls);
  return can_begin;
}
