/* The configuration as ssh_config(5) has it: Host with patterns, Match all and Match host, Include, and the keywords of
 * options.c. Of each keyword the first value counts. Keywords that aren't known are passed over. */
#include "options.h"

#include <glob.h>
#include <netdb.h>
#include <pwd.h>
#include <stdio.h>
#include <stdlib.h>
#include <string.h>
#include <strings.h>
#include <sys/socket.h>
#include <unistd.h>

enum { DEEPEST = 8 };

static const char *home(void) {
  const char *at = getenv("HOME");
  if (at != NULL && *at != 0) return at;
  struct passwd *me = getpwuid(getuid());
  return me == NULL ? "/" : me->pw_dir;
}

/* Without a name in the system's list there is no user to guess: the caller says so. */
static const char *own_name(void) {
  struct passwd *me = getpwuid(getuid());
  return me == NULL ? NULL : me->pw_name;
}

static void append(char **to, const char *text) {
  size_t len = *to == NULL ? 0 : strlen(*to);
  char *made = realloc(*to, len + strlen(text) + 1);
  if (made == NULL) usage_error("out of memory");
  strcpy(made + len, text);
  *to = made;
}

static const char *token(const options *from, char letter, char port[8]) {
  switch (letter) {
  case '%': return "%";
  case 'd': return home();
  case 'u': return own_name() == NULL ? "" : own_name();
  case 'h': return from->hostname != NULL ? from->hostname : from->given;
  case 'n': return from->given;
  case 'k': return from->alias != NULL ? from->alias : from->given;
  case 'r': return from->user == NULL ? "" : from->user;
  case 'p': snprintf(port, 8, "%d", from->port == UNSET ? 22 : from->port); return port;
  default: return NULL;
  }
}

char *expanded(const options *from, const char *text) {
  char *made = NULL, port[8], one[2] = {0};
  append(&made, "");
  if (text[0] == '~' && (text[1] == '/' || text[1] == 0)) append(&made, home()), text++;
  for (; *text != 0; text++) {
    const char *value = *text == '%' && text[1] != 0 ? token(from, text[1], port) : NULL;
    one[0] = *text;
    append(&made, value == NULL ? one : value);
    if (value != NULL) text++;
  }
  return made;
}

/* * is any text, ? any sign. */
bool is_pattern_for(const char *pattern, const char *name) {
  if (*pattern == 0) return *name == 0;
  if (*pattern == '*') return is_pattern_for(pattern + 1, name) || (*name != 0 && is_pattern_for(pattern, name + 1));
  return *name != 0 && (*pattern == '?' || *pattern == *name) && is_pattern_for(pattern + 1, name + 1);
}

/* Patterns with spaces or commas; one that begins with ! and fits excludes. */
static bool fits(char *patterns, const char *name) {
  bool is = false;
  for (char *at = strtok(patterns, " \t,"); at != NULL; at = strtok(NULL, " \t,")) {
    if (*at == '!' && is_pattern_for(at + 1, name)) return false;
    if (*at != '!' && is_pattern_for(at, name)) is = true;
  }
  return is;
}

static bool match_fits(const options *to, char *words) {
  while (*words == ' ' || *words == '\t') words++;
  if (strcasecmp(words, "all") == 0) return true;
  char *value = words + strcspn(words, " \t");
  if (*value == 0) return false;
  *value++ = 0;
  value += strspn(value, " \t");
  if (strcasecmp(words, "host") == 0) return fits(value, to->hostname != NULL ? to->hostname : to->given);
  if (strcasecmp(words, "originalhost") == 0) return fits(value, to->given);
  if (strcasecmp(words, "user") == 0 && to->user != NULL) return fits(value, to->user);
  return false;
}

static void include(options *to, const char *value, int depth) {
  char *all = copied(value), *rest = all;
  for (char *at = strtok_r(all, " \t", &rest); at != NULL; at = strtok_r(NULL, " \t", &rest)) {
    char *path = expanded(to, at), *whole = NULL;
    if (*path != '/') append(&whole, home()), append(&whole, "/.ssh/");
    append(&whole, path);
    glob_t found;
    if (glob(whole, 0, NULL, &found) == 0) {
      for (size_t i = 0; i < found.gl_pathc; i++) config_read(to, found.gl_pathv[i], depth + 1);
      globfree(&found);
    }
    free(path);
    free(whole);
  }
  free(all);
}

/* Quotes around the whole value, or around single words, are taken off. */
static void unquote(char *value) {
  char *to = value;
  for (char *at = value; *at != 0; at++)
    if (*at != '"') *to++ = *at;
  *to = 0;
}

static void take_line(options *to, char *line, bool *is_on, int depth) {
  line += strspn(line, " \t");
  line[strcspn(line, "\r\n")] = 0;
  for (size_t len = strlen(line); len != 0 && (line[len - 1] == ' ' || line[len - 1] == '\t'); len--) line[len - 1] = 0;
  if (*line == '#' || *line == 0) return;
  char *value = line + strcspn(line, "= \t");
  if (*value != 0) *value++ = 0;
  value += strspn(value, "= \t");
  unquote(value);
  if (strcasecmp(line, "Host") == 0) *is_on = fits(value, to->given);
  else if (strcasecmp(line, "Match") == 0) *is_on = match_fits(to, value);
  else if (!*is_on) return;
  else if (strcasecmp(line, "Include") == 0) include(to, value, depth);
  else if (!option_set(to, line, value) && to->verbose > 1) fprintf(stderr, "sazh: the keyword %s is passed over\n", line);
}

bool config_read(options *to, const char *path, int depth) {
  if (depth > DEEPEST) usage_error("%s: too many files include one another", path);
  FILE *file = fopen(path, "re");
  if (file == NULL) return false;
  char *line = NULL;
  size_t room = 0;
  bool is_on = true;
  while (getline(&line, &room, file) > 0) take_line(to, line, &is_on, depth);
  free(line);
  fclose(file);
  return true;
}

/* ---- what nobody said */

static void number(int *at, int usual) {
  if (*at == UNSET) *at = usual;
}

static void default_identities(options *to) {
  static const char *const NAMES[] = {"~/.ssh/id_rsa", "~/.ssh/id_ecdsa", "~/.ssh/id_ed25519"};
  for (size_t i = 0; i < sizeof NAMES / sizeof *NAMES; i++) {
    char *path = expanded(to, NAMES[i]);
    if (access(path, R_OK) == 0) to->identities.at[to->identities.count++] = path;
    else free(path);
  }
}

static void read_files(options *to) {
  if (to->config != NULL) {
    if (strcmp(to->config, "none") != 0 && !config_read(to, to->config, 0)) usage_error("%s can't be read", to->config);
    return;
  }
  char *own = expanded(to, "~/.ssh/config");
  config_read(to, own, 0);
  free(own);
  config_read(to, "/etc/ssh/ssh_config", 0);
}

static void replace(const options *from, char **text) {
  if (*text == NULL) return;
  char *made = expanded(from, *text);
  free(*text);
  *text = made;
}

static void leave_out_none(char **text) {
  if (*text == NULL || strcasecmp(*text, "none") != 0) return;
  free(*text);
  *text = NULL;
}

void options_complete(options *to) {
  read_files(to);
  int *const flags[] = {&to->identities_only, &to->forward_agent, &to->batch, &to->exit_on_failure, &to->clear_forwards};
  for (size_t i = 0; i < sizeof flags / sizeof *flags; i++) number(flags[i], 0);
  number(&to->pubkey, 1), number(&to->password, 1), number(&to->prompts, 1);
  number(&to->port, 22), number(&to->connect_timeout, 30), number(&to->alive_interval, 0), number(&to->alive_max, 3), number(&to->tries, 3);
  number(&to->strict, STRICT_ASK), number(&to->terminal, TERMINAL_AUTO), number(&to->family, AF_UNSPEC);
  if (to->port == 0 || to->port > 65535) usage_error("%d is no port", to->port);
  if (to->user == NULL && own_name() == NULL) usage_error("the system knows no name for this user: say one with -l");
  if (to->user == NULL) to->user = copied(own_name());
  if (to->hostname == NULL) to->hostname = copied(to->given);
  else {
    char *pattern = to->hostname;
    to->hostname = NULL; /* %h is the name that was given */
    char *made = expanded(to, pattern);
    free(pattern);
    to->hostname = made;
  }
  if (to->user_hosts == NULL) to->user_hosts = copied("~/.ssh/known_hosts ~/.ssh/known_hosts2");
  if (to->global_hosts == NULL) to->global_hosts = copied("/etc/ssh/ssh_known_hosts /etc/ssh/ssh_known_hosts2");
  for (size_t i = 0; i < to->identities.count; i++) replace(to, &to->identities.at[i]);
  if (to->identities.count == 0) default_identities(to);
  if (to->agent != NULL) replace(to, &to->agent);
  leave_out_none(&to->jump);
  leave_out_none(&to->proxy_command);
  leave_out_none(&to->remote_command);
  if (to->command == NULL && to->remote_command != NULL && !to->no_command) to->command = expanded(to, to->remote_command);
  if (to->clear_forwards == 1) to->forward_count = 0;
}
