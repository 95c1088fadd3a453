/* What the user wants: the command line first, then ~/.ssh/config and /etc/ssh/ssh_config; of each the first word counts. */
#ifndef SAZH_OPTIONS_H
#define SAZH_OPTIONS_H

#include <sazhonthil_ssh.h>

enum { MOST_NAMES = 32, MOST_FORWARDS = 64, UNSET = -1 };

/* Up to so many texts of one keyword. */
typedef struct names {
  char *at[MOST_NAMES];
  size_t count;
} names;

typedef enum forward_way { WAY_LOCAL, WAY_REMOTE, WAY_DYNAMIC } forward_way;

typedef struct forward_wish {
  forward_way way;
  sazh_end listens, connects;
} forward_wish;

typedef enum strictness { STRICT_ASK, STRICT_YES, STRICT_NEW } strictness;
typedef enum terminal_wish { TERMINAL_AUTO, TERMINAL_NONE, TERMINAL_YES, TERMINAL_FORCE } terminal_wish;

typedef struct options {
  char *given;    /* the host as it was given */
  char *hostname, *user, *alias, *jump, *proxy_command, *agent, *ciphers, *host_keys, *command, *remote_command, *stdio, *password_file, *config;
  char *user_hosts, *global_hosts; /* known hosts files, with spaces */
  int port, connect_timeout, alive_interval, alive_max, tries, family;
  int identities_only, forward_agent, batch, pubkey, password, prompts, exit_on_failure, clear_forwards, strict, terminal;
  long long rekey_bytes, rekey_seconds;
  names identities, sent, environment;
  size_t named_identities; /* those of the command line come first; others may be missing */
  forward_wish forwards[MOST_FORWARDS];
  size_t forward_count;
  bool is_subsystem, no_command, is_quiet, no_input, in_background, prints_options;
  int verbose;
} options;

/* An error in what the user wrote: prints it, and ends the program with status 255. */
_Noreturn void usage_error(const char *format, ...) __attribute__((format(printf, 1, 2)));
void options_begin(options *to);
/* Reads the command line; ends the program where it can't be understood. */
void options_read(options *to, int count, char **words);
/* Reads the configuration for the host, and fills in what nobody said. */
void options_complete(options *to);
/* A keyword of the configuration or of -o; false where it isn't known. A value that can't be is an error that names it. */
bool option_set(options *to, const char *keyword, const char *value);
void option_forward(options *to, forward_way way, const char *text);
/* user@host:port, or ssh://user@host:port: what is there is set. */
void option_target(options *to, const char *text, bool has_port);
/* Reads a file of configuration for the host; false where it can't be read. */
bool config_read(options *to, const char *path, int depth);
/* ~, and %d %u %h %n %p %r, in memory of its own. */
char *expanded(const options *from, const char *text);
char *copied(const char *text);
bool is_pattern_for(const char *pattern, const char *name);

#endif
