/* An SSH agent over the proved one of the C library: sockets, signatures and the questions to the user are here, which keys
 * are held and what may be signed is the library's. README.md tells which part is which. */
#include "memory.h"
#include "options.h"
#include "place.h"
#include "server.h"

#include <errno.h>
#include <fcntl.h>
#include <limits.h>
#include <signal.h>
#include <stdio.h>
#include <stdlib.h>
#include <string.h>
#include <sys/prctl.h>
#include <sys/resource.h>
#include <sys/signalfd.h>
#include <unistd.h>

enum { DONE = 0, FAILED = 1, CANT_RUN = 127 };
enum { PID_ROOM = 24 };

/* A standard descriptor that is closed would become the socket, and a line meant for a person would go to a client. */
static bool open_standard(void) {
  int made;
  do made = open("/dev/null", O_RDWR);
  while (made >= 0 && made <= STDERR_FILENO);
  if (made >= 0) close(made);
  return made >= 0;
}

/* No part of this process's memory gets into a file of a crash's, or to another process of the user's. */
static bool keep_secret(void) {
  struct rlimit none = {0, 0};
  return setrlimit(RLIMIT_CORE, &none) == 0 && prctl(PR_SET_DUMPABLE, 0) == 0;
}

/* ---- -k */

/* The process that SSH_AGENT_PID names, or 0. */
static pid_t named_agent(void) {
  const char *text = getenv("SSH_AGENT_PID");
  if (text == NULL) {
    complain("SSH_AGENT_PID isn't set, so no agent can be ended");
    return 0;
  }
  char *rest;
  errno = 0;
  long number = strtol(text, &rest, 10);
  if (errno == 0 && rest != text && *rest == 0 && number > 1 && number <= INT_MAX) return (pid_t)number;
  complain("SSH_AGENT_PID is no process: %s", text);
  return 0;
}

static int kill_agent(const options *asked) {
  pid_t agent = named_agent();
  if (agent == 0) return FAILED;
  if (kill(agent, SIGTERM) != 0) {
    complain("the process %ld: %s", (long)agent, strerror(errno));
    return FAILED;
  }
  print_unset(asked->shell, "SSH_AUTH_SOCK");
  print_unset(asked->shell, "SSH_AGENT_PID");
  printf("echo Agent pid %ld killed;\n", (long)agent);
  return DONE;
}

/* ---- the process that serves */

/* Closes what was open in whoever started it: a pipe would never end there, since this process lasts. */
static void close_others(const place *at) {
  unsigned first = (unsigned)(at->listener < at->folder ? at->listener : at->folder);
  unsigned second = (unsigned)(at->listener < at->folder ? at->folder : at->listener);
  if (first > STDERR_FILENO + 1) close_range(STDERR_FILENO + 1, first - 1, 0);
  if (second > first + 1) close_range(first + 1, second - 1, 0);
  close_range(second + 1, UINT_MAX, 0);
}

/* The signals that end it, and that of a child's end. They are read from a descriptor, between two steps. */
static sigset_t awaited_signals(void) {
  sigset_t which;
  sigemptyset(&which);
  sigaddset(&which, SIGTERM);
  sigaddset(&which, SIGHUP);
  sigaddset(&which, SIGINT);
  sigaddset(&which, SIGCHLD);
  return which;
}

static int serve_at(place *at, const options *asked, const sigset_t *awaited) {
  close_others(at);
  signal(SIGPIPE, SIG_IGN);
  signal(SIGCHLD, SIG_DFL); /* whoever started it may have it ignored, and then no child's end is told */
  server agent = {.lifetime = asked->lifetime, .is_debugging = asked->is_debugging};
  int signals = signalfd(-1, awaited, SFD_NONBLOCK | SFD_CLOEXEC);
  bool is_served = signals >= 0 && keep_secret() && server_start(&agent) && serve(&agent, at->listener, signals);
  if (!is_served) complain("the agent can't begin");
  if (signals >= 0) close(signals);
  place_remove(at);
  return is_served ? DONE : FAILED;
}

/* Lets go of the terminal, the folder and the standard descriptors of whoever started it. */
static void leave_terminal(void) {
  setsid();
  if (chdir("/") != 0) complain("the folder /: %s", strerror(errno));
  int nothing = open("/dev/null", O_RDWR | O_CLOEXEC);
  for (int i = STDIN_FILENO; i <= STDERR_FILENO && nothing >= 0; i++) dup2(nothing, i);
  if (nothing > STDERR_FILENO) close(nothing);
}

static int in_background(place *at, const options *asked, const sigset_t *awaited, pid_t parent) {
  if (asked->command != NULL) {
    prctl(PR_SET_PDEATHSIG, SIGTERM); /* COMMAND is the parent: the agent ends when it ends */
    if (getppid() != parent) raise(SIGTERM);
  }
  leave_terminal();
  return serve_at(at, asked, awaited);
}

/* ---- the process that was started */

static void print_agent(const options *asked, const place *at, pid_t agent) {
  char number[PID_ROOM];
  snprintf(number, sizeof number, "%ld", (long)agent);
  print_set(asked->shell, "SSH_AUTH_SOCK", at->path);
  print_set(asked->shell, "SSH_AGENT_PID", number);
  printf("echo Agent pid %s;\n", number);
  fflush(stdout);
}

static int run_command(const options *asked, const place *at, pid_t agent) {
  char number[PID_ROOM];
  snprintf(number, sizeof number, "%ld", (long)agent);
  if (setenv("SSH_AUTH_SOCK", at->path, 1) == 0 && setenv("SSH_AGENT_PID", number, 1) == 0) execvp(asked->command[0], asked->command);
  complain("%s: %s", asked->command[0], strerror(errno));
  return CANT_RUN;
}

static int start(const options *asked) {
  sigset_t awaited = awaited_signals(), before;
  sigprocmask(SIG_BLOCK, &awaited, &before); /* so that none ends this process and leaves the socket */
  place at;
  if (!place_make(&at, asked->socket)) return FAILED;
  if (asked->is_foreground) {
    print_agent(asked, &at, getpid());
    return serve_at(&at, asked, &awaited);
  }
  pid_t self = getpid(), agent = fork();
  if (agent == 0) return in_background(&at, asked, &awaited, self);
  if (agent < 0) {
    complain("no process can be made: %s", strerror(errno));
    place_remove(&at);
    return FAILED;
  }
  sigprocmask(SIG_SETMASK, &before, NULL);
  int status = DONE;
  if (asked->command != NULL)
    status = run_command(asked, &at, agent);
  else
    print_agent(asked, &at, agent);
  place_leave(&at);
  return status;
}

int main(int count, char **words) {
  options asked;
  if (!open_standard()) return FAILED;
  if (!memory_for_libcrypto()) {
    complain("libcrypto's memory can't be wiped");
    return FAILED;
  }
  options_read(&asked, count, words);
  return asked.kills ? kill_agent(&asked) : start(&asked);
}
