#include "options.h"

#include <errno.h>
#include <netdb.h>
#include <pwd.h>
#include <stdarg.h>
#include <stddef.h>
#include <stdio.h>
#include <stdlib.h>
#include <string.h>
#include <strings.h>
#include <sys/socket.h>
#include <unistd.h>

static const char USAGE[] =
    "sazh [-46AafGNnqsTtVvx] [-c CIPHERS] [-D [BIND:]PORT] [-F FILE] [-i KEY] [-J [USER@]HOST[:PORT]] [-L|-R [BIND:]PORT:HOST:PORT]\n"
    "      [-l USER] [-o OPTION=VALUE] [-p PORT] [-W HOST:PORT] [-w PASSWORD_FILE] [USER@]HOST [COMMAND..]";

void usage_error(const char *format, ...) {
  va_list given;
  va_start(given, format);
  fputs("sazh: ", stderr);
  vfprintf(stderr, format, given);
  va_end(given);
  fputc('\n', stderr);
  exit(255);
}

char *copied(const char *text) {
  char *made = strdup(text);
  if (made == NULL) usage_error("out of memory");
  return made;
}

void options_begin(options *to) {
  *to = (options){.port = UNSET, .connect_timeout = UNSET, .alive_interval = UNSET, .alive_max = UNSET, .tries = UNSET, .family = UNSET,
                  .identities_only = UNSET, .forward_agent = UNSET, .batch = UNSET, .pubkey = UNSET, .password = UNSET, .prompts = UNSET,
                  .exit_on_failure = UNSET, .clear_forwards = UNSET, .strict = UNSET, .terminal = UNSET, .rekey_bytes = UNSET, .rekey_seconds = UNSET};
}

/* ---- values */

static long long number_of(const char *keyword, const char *value, long long least, long long most) {
  char *end;
  errno = 0;
  long long made = strtoll(value, &end, 10);
  if (*value == 0 || *end != 0 || errno != 0 || made < least || made > most) usage_error("%s: %s is no number from %lld to %lld", keyword, value, least, most);
  return made;
}

static int flag_of(const char *keyword, const char *value) {
  if (strcasecmp(value, "yes") == 0 || strcasecmp(value, "true") == 0) return 1;
  if (strcasecmp(value, "no") == 0 || strcasecmp(value, "false") == 0) return 0;
  usage_error("%s: %s is neither yes nor no", keyword, value);
}

typedef struct word {
  const char *text;
  int number;
} word;

static int word_of(const char *keyword, const char *value, const word *from) {
  for (; from->text != NULL; from++)
    if (strcasecmp(value, from->text) == 0) return from->number;
  usage_error("%s: %s isn't known", keyword, value);
}

/* Bytes with K, M or G, and after them a time with s, m, h or d (ssh_config(5), RekeyLimit). */
static void set_rekey(options *to, const char *value) {
  char *rest;
  long long bytes = strtoll(value, &rest, 10);
  char unit = *rest == 0 || *rest == ' ' ? ' ' : *rest++;
  int shift = unit == 'K' || unit == 'k' ? 10 : unit == 'M' || unit == 'm' ? 20 : unit == 'G' || unit == 'g' ? 30 : 0;
  if (strncasecmp(value, "default", 7) == 0) bytes = 0, rest = strchr(value, ' ') == NULL ? rest : strchr(value, ' ');
  if (to->rekey_bytes == UNSET) to->rekey_bytes = bytes << shift;
  while (*rest == ' ') rest++;
  char *end;
  long long time = strtoll(rest, &end, 10);
  long long each = *end == 'm' ? 60 : *end == 'h' ? 3600 : *end == 'd' ? 86400 : 1;
  if (end != rest && to->rekey_seconds == UNSET) to->rekey_seconds = time * each;
}

static void add_name(names *to, const char *value) {
  if (to->count < MOST_NAMES) to->at[to->count++] = copied(value);
}

/* Each word of a value, with quotes taken off. */
static void add_names(names *to, const char *value) {
  char *all = copied(value);
  for (char *at = strtok(all, " \t"); at != NULL; at = strtok(NULL, " \t")) add_name(to, at);
  free(all);
}

/* ---- keywords */

typedef enum kind { KIND_TEXT, KIND_NUMBER, KIND_FLAG } kind;

typedef struct keyword {
  const char *name;
  kind kind;
  size_t at;
} keyword;

static const keyword KEYWORDS[] = {
    {"HostName", KIND_TEXT, offsetof(options, hostname)},
    {"User", KIND_TEXT, offsetof(options, user)},
    {"HostKeyAlias", KIND_TEXT, offsetof(options, alias)},
    {"ProxyJump", KIND_TEXT, offsetof(options, jump)},
    {"ProxyCommand", KIND_TEXT, offsetof(options, proxy_command)},
    {"IdentityAgent", KIND_TEXT, offsetof(options, agent)},
    {"UserKnownHostsFile", KIND_TEXT, offsetof(options, user_hosts)},
    {"GlobalKnownHostsFile", KIND_TEXT, offsetof(options, global_hosts)},
    {"Ciphers", KIND_TEXT, offsetof(options, ciphers)},
    {"HostKeyAlgorithms", KIND_TEXT, offsetof(options, host_keys)},
    {"RemoteCommand", KIND_TEXT, offsetof(options, remote_command)},
    {"Port", KIND_NUMBER, offsetof(options, port)},
    {"ConnectTimeout", KIND_NUMBER, offsetof(options, connect_timeout)},
    {"ServerAliveInterval", KIND_NUMBER, offsetof(options, alive_interval)},
    {"ServerAliveCountMax", KIND_NUMBER, offsetof(options, alive_max)},
    {"NumberOfPasswordPrompts", KIND_NUMBER, offsetof(options, tries)},
    {"IdentitiesOnly", KIND_FLAG, offsetof(options, identities_only)},
    {"BatchMode", KIND_FLAG, offsetof(options, batch)},
    {"PubkeyAuthentication", KIND_FLAG, offsetof(options, pubkey)},
    {"PasswordAuthentication", KIND_FLAG, offsetof(options, password)},
    {"KbdInteractiveAuthentication", KIND_FLAG, offsetof(options, prompts)},
    {"ExitOnForwardFailure", KIND_FLAG, offsetof(options, exit_on_failure)},
    {"ClearAllForwardings", KIND_FLAG, offsetof(options, clear_forwards)},
};

/* Only those that are named are tried; their order here is always the same. */
static void set_methods(options *to, const char *value) {
  int *const flags[] = {&to->pubkey, &to->password, &to->prompts};
  static const char *const NAMES[] = {"publickey", "password", "keyboard-interactive"};
  for (size_t i = 0; i < 3; i++)
    if (*flags[i] == UNSET && strstr(value, NAMES[i]) == NULL) *flags[i] = 0;
}

/* Those that have values of their own; false where it is none of them. */
static bool set_special(options *to, const char *name, const char *value) {
  static const word STRICT[] = {{"ask", STRICT_ASK}, {"yes", STRICT_YES}, {"no", STRICT_NEW}, {"off", STRICT_NEW}, {"accept-new", STRICT_NEW}, {NULL, 0}};
  static const word TERMINAL[] = {{"auto", TERMINAL_AUTO}, {"no", TERMINAL_NONE}, {"yes", TERMINAL_YES}, {"force", TERMINAL_FORCE}, {NULL, 0}};
  static const word FAMILY[] = {{"any", AF_UNSPEC}, {"inet", AF_INET}, {"inet6", AF_INET6}, {NULL, 0}};
  if (strcasecmp(name, "StrictHostKeyChecking") == 0) {
    if (to->strict == UNSET) to->strict = word_of(name, value, STRICT);
  } else if (strcasecmp(name, "RequestTTY") == 0) {
    if (to->terminal == UNSET) to->terminal = word_of(name, value, TERMINAL);
  } else if (strcasecmp(name, "AddressFamily") == 0) {
    if (to->family == UNSET) to->family = word_of(name, value, FAMILY);
  } else if (strcasecmp(name, "ForwardAgent") == 0) {
    if (to->forward_agent == UNSET) to->forward_agent = strcasecmp(value, "no") != 0;
  } else if (strcasecmp(name, "LogLevel") == 0) {
    if (strcasecmp(value, "QUIET") == 0 || strcasecmp(value, "FATAL") == 0 || strcasecmp(value, "ERROR") == 0) to->is_quiet = true;
  } else if (strcasecmp(name, "PreferredAuthentications") == 0) {
    set_methods(to, value);
  } else if (strcasecmp(name, "RekeyLimit") == 0) {
    set_rekey(to, value);
  } else if (strcasecmp(name, "IdentityFile") == 0) {
    add_name(&to->identities, value);
  } else if (strcasecmp(name, "SendEnv") == 0) {
    add_names(&to->sent, value);
  } else if (strcasecmp(name, "SetEnv") == 0) {
    add_names(&to->environment, value);
  } else if (strcasecmp(name, "LocalForward") == 0 || strcasecmp(name, "RemoteForward") == 0 || strcasecmp(name, "DynamicForward") == 0) {
    option_forward(to, strcasecmp(name, "LocalForward") == 0 ? WAY_LOCAL : strcasecmp(name, "RemoteForward") == 0 ? WAY_REMOTE : WAY_DYNAMIC, value);
  } else {
    return false;
  }
  return true;
}

/* Of the two ways to another host the one that is said first counts, as with ssh. */
static bool is_late_way(const options *to, const char *name) {
  return (strcasecmp(name, "ProxyJump") == 0 && to->proxy_command != NULL) || (strcasecmp(name, "ProxyCommand") == 0 && to->jump != NULL);
}

bool option_set(options *to, const char *name, const char *value) {
  if (is_late_way(to, name)) return true;
  for (size_t i = 0; i < sizeof KEYWORDS / sizeof *KEYWORDS; i++) {
    if (strcasecmp(KEYWORDS[i].name, name) != 0) continue;
    char *at = (char *)to + KEYWORDS[i].at;
    if (KEYWORDS[i].kind == KIND_TEXT && *(char **)(void *)at == NULL) *(char **)(void *)at = copied(value);
    if (KEYWORDS[i].kind == KIND_NUMBER && *(int *)(void *)at == UNSET) *(int *)(void *)at = (int)number_of(name, value, 0, 2147483647);
    if (KEYWORDS[i].kind == KIND_FLAG && *(int *)(void *)at == UNSET) *(int *)(void *)at = flag_of(name, value);
    return true;
  }
  return set_special(to, name, value);
}

/* ---- forwards: parts with colons, in brackets where a part has colons itself; a part with a / is a socket's path */

static char *cut(char **from) {
  char *part = *from, *end;
  if (part == NULL) return NULL;
  if (*part == '[' && (end = strchr(part, ']')) != NULL) {
    *end = 0;
    *from = end[1] == ':' ? end + 2 : NULL;
    return part + 1;
  }
  end = strchr(part, ':');
  *from = end == NULL ? NULL : end + 1;
  if (end != NULL) *end = 0;
  return part;
}

static bool is_path(const char *part) { return part != NULL && strchr(part, '/') != NULL; }

static uint16_t port_of(const char *what, const char *part) { return (uint16_t)number_of(what, part == NULL ? "" : part, 0, 65535); }

/* [BIND:]PORT or PATH from the front of the parts; how many were taken. */
static size_t listens_of(const char *whole, char **parts, size_t left, sazh_end *to) {
  if (is_path(parts[0])) {
    to->path = parts[0];
    return 1;
  }
  if (left >= 2) to->host = parts[0]; /* empty or *: every address */
  to->port = port_of(whole, parts[left >= 2]);
  return left >= 2 ? 2 : 1;
}

void option_forward(options *to, forward_way way, const char *text) {
  if (to->forward_count == MOST_FORWARDS) usage_error("too many forwards");
  char *rest = copied(text), *parts[5] = {0};
  for (char *at = rest; *at != 0; at++)
    if (*at == ' ' || *at == '\t') *at = ':'; /* the configuration has a space in the middle */
  size_t count = 0, ends = 0;
  while (rest != NULL && count < 5) parts[count++] = cut(&rest);
  if (rest != NULL || count == 5) usage_error("%s is no forward", text);
  forward_wish *wish = &to->forwards[to->forward_count++];
  *wish = (forward_wish){.way = way};
  if (way != WAY_DYNAMIC) ends = is_path(parts[count - 1]) ? 1 : 2;
  if (way == WAY_REMOTE && count <= 2 && !is_path(parts[count - 1]) && !is_path(parts[0])) usage_error("%s: the server as a SOCKS proxy isn't there", text);
  if (count <= ends) usage_error("%s is no forward: [BIND:]PORT:HOST:PORT, or a socket's path on either side", text);
  if (listens_of(text, parts, count - ends, &wish->listens) + ends != count) usage_error("%s is no forward", text);
  if (ends == 1) wish->connects.path = parts[count - 1];
  if (ends == 2) wish->connects.host = parts[count - 2], wish->connects.port = port_of(text, parts[count - 1]);
}

void option_target(options *to, const char *text, bool has_port) {
  bool is_address = strncmp(text, "ssh://", 6) == 0;
  char *all = copied(is_address ? text + 6 : text), *at = strrchr(all, '@');
  char *host = at == NULL ? all : at + 1;
  if (at != NULL) *at = 0;
  if (at != NULL && to->user == NULL) to->user = copied(all);
  if (is_address) host[strcspn(host, "/")] = 0;
  if (has_port || is_address) {
    char *rest = host, *name = cut(&rest);
    if (rest != NULL && to->port == UNSET) to->port = port_of(text, rest);
    host = name;
  }
  if (*host == 0) usage_error("%s names no host", text);
  to->given = copied(host);
  free(all);
}

/* ---- the command line, with ssh's letters */

static void set_word(options *to, const char *text) {
  char *all = copied(text);
  char *value = all + strcspn(all, "= \t");
  if (*value == 0) usage_error("-o %s: OPTION=VALUE", text);
  *value++ = 0;
  value += strspn(value, "= \t");
  if (!option_set(to, all, value) && to->verbose > 0) fprintf(stderr, "sazh: the option %s is passed over\n", all);
  free(all);
}

static void set_letter(options *to, int letter, const char *value) {
  switch (letter) {
  case '4': to->family = AF_INET; break;
  case '6': to->family = AF_INET6; break;
  case 'A': to->forward_agent = 1; break;
  case 'a': to->forward_agent = 0; break;
  case 'c': option_set(to, "Ciphers", value); break;
  case 'D': option_forward(to, WAY_DYNAMIC, value); break;
  case 'F': to->config = copied(value); break;
  case 'f': to->in_background = true, to->no_input = true; break;
  case 'G': to->prints_options = true; break;
  case 'i': add_name(&to->identities, value); break;
  case 'J': option_set(to, "ProxyJump", value); break;
  case 'L': option_forward(to, WAY_LOCAL, value); break;
  case 'l': option_set(to, "User", value); break;
  case 'N': to->no_command = true; break;
  case 'n': to->no_input = true; break;
  case 'o': set_word(to, value); break;
  case 'p': if (to->port == UNSET) to->port = port_of("-p", value); break;
  case 'q': to->is_quiet = true; break;
  case 'R': option_forward(to, WAY_REMOTE, value); break;
  case 's': to->is_subsystem = true; break;
  case 'T': to->terminal = TERMINAL_NONE; break;
  case 't': to->terminal = to->terminal == TERMINAL_YES ? TERMINAL_FORCE : TERMINAL_YES; break;
  case 'V': fputs("sazh 0.1 (sazhonthil)\n", stderr); exit(0);
  case 'v': to->verbose++; break;
  case 'W': to->stdio = copied(value), to->no_command = true; break;
  case 'w': to->password_file = copied(value); break;
  case '2': case 'x': case 'X': case 'Y': case 'k': case 'K': case 'C': case 'e': break; /* nothing to be switched on or off here */
  default: usage_error("%s", USAGE);
  }
}

static char *joined(int count, char **words) {
  size_t room = 1;
  for (int i = 0; i < count; i++) room += strlen(words[i]) + 1;
  char *made = calloc(1, room);
  if (made == NULL) usage_error("out of memory");
  for (int i = 0; i < count; i++) {
    if (i != 0) strcat(made, " ");
    strcat(made, words[i]);
  }
  return made;
}

void options_read(options *to, int count, char **words) {
  static const char LETTERS[] = "+246AaCc:D:e:F:fGi:J:KkL:l:Nno:p:qR:sTtVvW:w:XxY";
  for (;;) {
    int letter;
    while ((letter = getopt(count, words, LETTERS)) != -1) set_letter(to, letter, optarg);
    bool at_end = optind > 0 && strcmp(words[optind - 1], "--") == 0;
    if (to->given != NULL || optind >= count) break;
    option_target(to, words[optind++], false);
    /* options may follow the host, as with ssh; after -- or the first word of the command they are the command's */
    if (at_end || optind >= count || words[optind][0] != '-') break;
  }
  if (to->given == NULL) usage_error("%s", USAGE);
  to->named_identities = to->identities.count;
  if (optind < count) to->command = joined(count - optind, words + optind);
  if (to->is_subsystem && to->command == NULL) usage_error("-s wants the name of a subsystem");
}
