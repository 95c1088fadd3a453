#include "askpass.h"

#include <errno.h>
#include <fcntl.h>
#include <signal.h>
#include <spawn.h>
#include <stdlib.h>
#include <string.h>
#include <strings.h>
#include <sys/wait.h>
#include <unistd.h>

static const char DEFAULT_PROGRAM[] = "/usr/bin/ssh-askpass"; /* as Debian's ssh has it */

static bool is_set(const char *name) {
  const char *value = getenv(name);
  return value != NULL && *value != 0;
}

/* The program, or NULL where none may be run. `prefer` and an unset variable want a display, as in ssh(1). */
static const char *program(void) {
  const char *required = getenv("SSH_ASKPASS_REQUIRE");
  if (required != NULL && strcasecmp(required, "never") == 0) return NULL;
  bool is_forced = required != NULL && strcasecmp(required, "force") == 0;
  if (!is_forced && !is_set("DISPLAY") && !is_set("WAYLAND_DISPLAY")) return NULL;
  return is_set("SSH_ASKPASS") ? getenv("SSH_ASKPASS") : DEFAULT_PROGRAM;
}

/* Runs the program with its standard output on the pipe. It gets no signal blocked and none ignored of this process's. */
static pid_t run(const char *name, const char *prompt, int output) {
  posix_spawn_file_actions_t actions;
  posix_spawnattr_t how;
  sigset_t none, all;
  sigemptyset(&none);
  sigfillset(&all);
  if (posix_spawn_file_actions_init(&actions) != 0) return 0;
  if (posix_spawnattr_init(&how) != 0) {
    posix_spawn_file_actions_destroy(&actions);
    return 0;
  }
  posix_spawnattr_setsigmask(&how, &none);
  posix_spawnattr_setsigdefault(&how, &all);
  posix_spawnattr_setflags(&how, POSIX_SPAWN_SETSIGMASK | POSIX_SPAWN_SETSIGDEF);
  posix_spawn_file_actions_addopen(&actions, STDIN_FILENO, "/dev/null", O_RDONLY, 0);
  posix_spawn_file_actions_adddup2(&actions, output, STDOUT_FILENO);
  char *words[] = {(char *)name, (char *)prompt, NULL};
  pid_t child = 0;
  extern char **environ;
  if (posix_spawnp(&child, name, &actions, &how, words, environ) != 0) child = 0;
  posix_spawn_file_actions_destroy(&actions);
  posix_spawnattr_destroy(&how);
  return child;
}

bool askpass_start(askpass *it, const char *prompt) {
  const char *name = program();
  int ends[2];
  if (name == NULL || pipe2(ends, O_CLOEXEC) != 0) return false;
  fcntl(ends[0], F_SETFL, O_NONBLOCK);
  setenv("SSH_ASKPASS_PROMPT", "confirm", 1); /* such programs show yes and no then, and no field to type in */
  it->child = run(name, prompt, ends[1]);
  close(ends[1]);
  if (it->child == 0) {
    close(ends[0]);
    return false;
  }
  it->output = ends[0];
  it->len = 0;
  return true;
}

static void stop_reading(askpass *it) {
  if (it->output >= 0) close(it->output);
  it->output = -1;
}

void askpass_read(askpass *it) {
  char more[ANSWER_ROOM];
  ssize_t got = read(it->output, more, sizeof more);
  if (got < 0 && (errno == EINTR || errno == EAGAIN)) return;
  if (got <= 0) {
    stop_reading(it);
    return;
  }
  size_t room = sizeof it->answer - 1 - it->len, kept = (size_t)got < room ? (size_t)got : room;
  memcpy(it->answer + it->len, more, kept);
  it->len += kept;
}

bool askpass_end(askpass *it, int status) {
  if (it->output >= 0) askpass_read(it); /* what it wrote last; an answer is short, so one read has it */
  stop_reading(it);
  it->child = 0;
  it->answer[it->len] = 0;
  it->answer[strcspn(it->answer, "\r\n")] = 0;
  return WIFEXITED(status) && WEXITSTATUS(status) == 0 && (*it->answer == 0 || strcasecmp(it->answer, "yes") == 0);
}

void askpass_drop(askpass *it) {
  if (it->child != 0) kill(it->child, SIGTERM);
  it->child = 0;
  stop_reading(it);
}
