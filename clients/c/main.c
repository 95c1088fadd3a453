/* sazh: an SSH client for people, over the library sazhonthil_ssh. README.md tells what it does, and what of it is proved. */
#include "logging_in.h"
#include "streaming.h"
#include "terminal.h"

#include <fcntl.h>
#include <stdio.h>
#include <stdlib.h>
#include <string.h>
#include <strings.h>
#include <unistd.h>

enum { FAILED = 255 };

extern char **environ;

/* ---- forwards */

static const char *name_of(const sazh_end *end) { return end->path != NULL ? end->path : end->host == NULL ? "localhost" : *end->host == 0 ? "*" : end->host; }

static bool forward_one(sazh_connection *at, const options *by, const forward_wish *wish) {
  sazh_forward *made = NULL;
  sazh_code code = wish->way == WAY_REMOTE    ? sazh_forward_remote(at, &wish->listens, &wish->connects, &made)
                   : wish->way == WAY_DYNAMIC ? sazh_forward_dynamic(at, &wish->listens, &made)
                                              : sazh_forward_local(at, &wish->listens, &wish->connects, &made);
  if (code != SAZH_OK) {
    print_error(at);
    return false;
  }
  if (wish->listens.path == NULL && wish->listens.port == 0 && !by->is_quiet)
    fprintf(stderr, "Allocated port %u for %s\n", (unsigned)sazh_forward_port(made), wish->way == WAY_DYNAMIC ? "SOCKS" : name_of(&wish->connects));
  tell(by, "%s listens at %s port %u", wish->way == WAY_REMOTE ? "the server" : "this program", name_of(&wish->listens), (unsigned)sazh_forward_port(made));
  return true;
}

static bool forward_all(sazh_connection *at, const options *by) {
  for (size_t i = 0; i < by->forward_count; i++)
    if (!forward_one(at, by, &by->forwards[i]) && (by->exit_on_failure || by->no_command || sazh_is_over(at))) return false;
  return true;
}

/* ---- the session */

static bool wants_terminal(const options *by) {
  if (by->is_subsystem || by->no_command || by->terminal == TERMINAL_NONE) return false;
  if (by->terminal == TERMINAL_FORCE) return true;
  bool has = isatty(0) != 0;
  if (by->terminal == TERMINAL_YES && !has && !by->is_quiet) fprintf(stderr, "sazh: no terminal is asked for, since standard input isn't one\n");
  return has && (by->terminal == TERMINAL_YES || by->command == NULL);
}

static void send_environment(sazh_channel *to, const options *by) {
  for (char **at = environ; *at != NULL; at++) {
    char *name = copied(*at), *equals = strchr(name, '=');
    if (equals != NULL) *equals = 0;
    for (size_t i = 0; equals != NULL && i < by->sent.count; i++) {
      if (!is_pattern_for(by->sent.at[i], name)) continue;
      sazh_environment(to, name, equals + 1);
      break;
    }
    free(name);
  }
  for (size_t i = 0; i < by->environment.count; i++) {
    char *name = copied(by->environment.at[i]), *equals = strchr(name, '=');
    if (equals != NULL) *equals = 0, sazh_environment(to, name, equals + 1);
    free(name);
  }
}

/* Asks for the agent, the terminal and the environment; a session can do without each. */
static void prepare(sazh_channel *to, const options *by, bool *is_terminal) {
  const char *agent = agent_of(by);
  if (by->forward_agent && agent != NULL && sazh_forward_agent(to, agent) != SAZH_OK && !by->is_quiet)
    fprintf(stderr, "sazh: the server doesn't forward the agent\n");
  if (*is_terminal) {
    sazh_mode modes[64];
    uint32_t columns, rows;
    terminal_size(&columns, &rows);
    const char *term = getenv("TERM");
    if (sazh_pty(to, term == NULL ? "dumb" : term, columns, rows, modes, terminal_modes(modes, 64)) != SAZH_OK) {
      fprintf(stderr, "sazh: the server gives no terminal\n");
      *is_terminal = false;
    }
  }
  send_environment(to, by);
}

static int status_of(const sazh_channel *from, const options *by) {
  sazh_exit how = sazh_exit_of(from);
  if (how.has_status) return (int)(how.status & 255);
  if (how.has_signal && !by->is_quiet) fprintf(stderr, "sazh: the command was killed by the signal %s%s%s\n", how.signal, *how.message != 0 ? ": " : "", how.message);
  return FAILED;
}

static int stream(sazh_connection *at, sazh_channel *with, const options *by, bool is_terminal) {
  streaming how = {.of = at, .channel = with, .no_input = by->no_input, .is_terminal = is_terminal && isatty(0)};
  sazh_set_blocking(at, false);
  if (how.is_terminal) terminal_raw();
  sazh_code code = stream_until_closed(&how);
  terminal_restore();
  if (code != SAZH_OK && code != SAZH_SYSTEM && sazh_is_over(at)) print_error(at);
  if (code != SAZH_OK && (code == SAZH_SYSTEM || sazh_is_over(at))) return FAILED;
  if (how.is_terminal && !by->is_quiet) fprintf(stderr, "Connection to %s closed.\n", by->given);
  return with == NULL || by->stdio != NULL ? 0 : status_of(with, by);
}

static int run_session(sazh_connection *at, const options *by) {
  sazh_channel *session = NULL;
  bool is_terminal = wants_terminal(by);
  sazh_code code = sazh_open_session(at, &session);
  if (code == SAZH_OK) prepare(session, by, &is_terminal);
  if (code == SAZH_OK) code = by->is_subsystem ? sazh_subsystem(session, by->command) : by->command == NULL ? sazh_shell(session) : sazh_command(session, by->command);
  int status = FAILED;
  if (code == SAZH_OK) status = stream(at, session, by, is_terminal);
  else print_error(at);
  sazh_channel_free(session);
  return status;
}

/* -W: standard input and output are a connection that the server makes. */
static int run_stdio(sazh_connection *at, const options *by) {
  sazh_channel *with = NULL;
  char *rest = copied(by->stdio), *host = rest, *colon = strrchr(rest, ':');
  if (colon == NULL) usage_error("%s is no HOST:PORT", by->stdio);
  *colon = 0;
  size_t len = strlen(host);
  if (len > 2 && host[0] == '[' && host[len - 1] == ']') host[len - 1] = 0, host++;
  long port = strtol(colon + 1, NULL, 10);
  if (port <= 0 || port > 65535) usage_error("%s is no HOST:PORT", by->stdio);
  int status = FAILED;
  if (sazh_open_tcp(at, host, (uint16_t)port, &with) == SAZH_OK) status = stream(at, with, by, false);
  else print_error(at);
  sazh_channel_free(with);
  free(rest);
  return status;
}

/* The process goes on without its terminal once the user is logged in. */
static void go_to_background(void) {
  pid_t child = fork();
  if (child < 0) usage_error("can't go to the background");
  if (child > 0) _exit(0);
  setsid();
}

static int run(sazh_connection *at, const options *by) {
  if (!forward_all(at, by)) return FAILED;
  if (by->in_background) go_to_background();
  if (by->stdio != NULL) return run_stdio(at, by);
  return by->no_command ? stream(at, NULL, by, false) : run_session(at, by);
}

static void print_options(const options *by) {
  printf("host %s\nhostname %s\nuser %s\nport %d\n", by->given, by->hostname, by->user, by->port);
  if (by->alias != NULL) printf("hostkeyalias %s\n", by->alias);
  if (by->jump != NULL) printf("proxyjump %s\n", by->jump);
  for (size_t i = 0; i < by->identities.count; i++) printf("identityfile %s\n", by->identities.at[i]);
  printf("userknownhostsfile %s\n", by->user_hosts);
}

int main(int count, char **words) {
  static options wanted;
  static route way;
  terminal_begin();
  options_begin(&wanted);
  options_read(&wanted, count, words);
  options_complete(&wanted);
  if (wanted.prints_options) {
    print_options(&wanted);
    return 0;
  }
  int status = FAILED;
  if (route_open(&way, &wanted)) {
    sazh_connection *at = way.at[way.count - 1];
    status = run(at, &wanted);
    sazh_disconnect(at, "bye");
  }
  route_free(&way);
  return status;
}
