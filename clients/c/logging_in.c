#include "logging_in.h"

#include "terminal.h"

#include <fcntl.h>
#include <stdarg.h>
#include <stdio.h>
#include <stdlib.h>
#include <string.h>
#include <strings.h>
#include <sys/socket.h>
#include <sys/stat.h>
#include <unistd.h>

void tell(const options *by, const char *format, ...) {
  if (by->verbose == 0) return;
  char line[1024];
  va_list given;
  va_start(given, format);
  vsnprintf(line, sizeof line, format, given);
  va_end(given);
  fputs("sazh: ", stderr);
  print_safe(line, strlen(line));
  fputc('\n', stderr);
}

void print_error(const sazh_connection *of) {
  const sazh_error *why = sazh_error_of(of);
  fputs("sazh: ", stderr);
  print_safe(why->text, strlen(why->text));
  fputc('\n', stderr);
  if (why->code == SAZH_HOST_CHANGED)
    fprintf(stderr, "sazh: if the host was set up anew, remove line %llu of %s and connect again; else don't log in\n", (unsigned long long)why->line, why->file);
}

/* ---- settings */

static void show_banner(void *own, const char *text, size_t len) {
  const options *by = own;
  if (!by->is_quiet) print_safe(text, len);
}

/* Of a list of the configuration, which may begin with +, - or ^, the names that this program has. */
static char *known_names(const char *list, const char *all) {
  if (list == NULL || *list == '+' || *list == '-' || *list == '^') return NULL;
  char *made = calloc(1, strlen(list) + 2), *rest = copied(list);
  if (made == NULL) usage_error("out of memory");
  for (char *at = strtok(rest, ","); at != NULL; at = strtok(NULL, ",")) {
    const char *found = strstr(all, at);
    size_t len = strlen(at);
    if (found == NULL || (found != all && found[-1] != ',') || (found[len] != ',' && found[len] != 0)) continue;
    if (*made != 0) strcat(made, ",");
    strcat(made, at);
  }
  free(rest);
  if (*made == 0) usage_error("%s: none of these is there; %s are", list, all);
  return made;
}

static sazh_settings settings_of(const options *by) {
  sazh_settings made;
  sazh_settings_default(&made);
  made.ciphers = known_names(by->ciphers, "aes256-gcm@openssh.com,chacha20-poly1305@openssh.com,aes256-ctr");
  made.host_key_algorithms = known_names(by->host_keys, "ssh-ed25519,ecdsa-sha2-nistp256,ecdsa-sha2-nistp384,ecdsa-sha2-nistp521,rsa-sha2-512,rsa-sha2-256");
  made.host_key_alias = by->alias;
  made.family = by->family;
  made.connect_seconds = (uint32_t)by->connect_timeout;
  made.keepalive_seconds = (uint32_t)by->alive_interval;
  made.keepalive_max = (uint32_t)by->alive_max;
  /* no keepalive may go while keys are exchanged, so an exchange has as long as the keepalives would have */
  if (by->alive_interval > 0 && by->alive_max > 0) made.exchange_seconds = (uint32_t)by->alive_interval * (uint32_t)by->alive_max;
  if (by->rekey_bytes > 0) made.rekey_bytes = (uint64_t)by->rekey_bytes;
  if (by->rekey_seconds > 0) made.rekey_seconds = (uint32_t)by->rekey_seconds;
  made.banner = show_banner;
  made.own = (void *)(uintptr_t)by;
  return made;
}

/* The files of a list with spaces. Only a file that the user named has to be there, unless new hosts may be learned. */
static bool add_hosts(sazh_connection *to, const options *by, const char *list) {
  char *all = copied(list), *rest = NULL;
  sazh_code code = SAZH_OK;
  for (char *at = strtok_r(all, " \t", &rest); at != NULL && code == SAZH_OK; at = strtok_r(NULL, " \t", &rest)) {
    char *path = expanded(by, at);
    if (strcasecmp(path, "none") != 0) code = sazh_hosts_file(to, path, by->strict == STRICT_YES && strncmp(at, "~/.ssh/", 7) != 0 && strncmp(at, "/etc/ssh/", 9) != 0);
    free(path);
  }
  free(all);
  return code == SAZH_OK;
}

/* ---- the host key */

static bool is_yes(const char *answer, const char *fingerprint) { return strcasecmp(answer, "yes") == 0 || strcmp(answer, fingerprint) == 0; }

static bool ask_host(const sazh_host_key *key) {
  char line[1024];
  snprintf(line, sizeof line, "The known hosts don't have the host key of %s:\n  %s %s\nGo on, and add it to %s (yes, no or the fingerprint)? ", key->host, key->type,
           key->fingerprint, key->file);
  for (;;) {
    char *answer = terminal_ask(line, true);
    bool yes = answer != NULL && is_yes(answer, key->fingerprint), no = answer == NULL || strcasecmp(answer, "no") == 0;
    free(answer);
    if (yes || no) return yes;
    snprintf(line, sizeof line, "Please say yes, no or the fingerprint: ");
  }
}

/* ~/.ssh may not be there yet. */
static void make_folder(const char *file) {
  char *path = copied(file), *slash = strrchr(path, '/');
  if (slash != NULL && slash != path) {
    *slash = 0;
    mkdir(path, 0700);
  }
  free(path);
}

static bool accept_host(sazh_connection *at, const options *by) {
  sazh_host_key key = sazh_host_key_of(at);
  bool may = by->strict == STRICT_NEW || (by->strict == STRICT_ASK && !by->batch && ask_host(&key));
  if (!may) {
    print_error(at);
    return false;
  }
  char host[1100];
  snprintf(host, sizeof host, "%s %s %s", key.host, key.type, key.fingerprint);
  make_folder(key.file);
  sazh_code code = sazh_host_accept(at, true);
  if (code == SAZH_OK && !by->is_quiet) fprintf(stderr, "sazh: added to the known hosts: %s\n", host);
  if (code != SAZH_OK) print_error(at);
  return code == SAZH_OK || code == SAZH_HOSTS_FILE;
}

/* ---- logging in */

static char *ask_passphrase(void *own, const char *file) {
  const options *by = own;
  char line[1200];
  if (by->batch) return NULL;
  snprintf(line, sizeof line, "Passphrase of %s: ", file);
  return terminal_ask(line, false);
}

typedef struct attempt {
  sazh_connection *at;
  const options *by;
  size_t next_key;
  bool tried_agent, is_alone; /* is_alone: the password of the file was given once */
  int passwords, prompts;
} attempt;

static bool answer_one(attempt *it, const sazh_prompt *prompt, size_t count, char **answer) {
  const options *by = it->by;
  if (by->password_file != NULL && count == 1 && !prompt->echo && !it->is_alone) {
    it->is_alone = true;
    *answer = first_line(by->password_file);
  } else if (!by->batch) {
    char line[1200];
    snprintf(line, sizeof line, "(%s@%s) %s", by->user, by->given, prompt->text);
    for (char *sign = line; *sign != 0; sign++)
      if ((unsigned char)*sign < 0x20 || *sign == 0x7f) *sign = '?';
    *answer = terminal_ask(line, prompt->echo);
  }
  return *answer != NULL;
}

static bool answer_all(void *own, const char *name, const char *instruction, size_t count, const sazh_prompt *prompts, char **answers) {
  attempt *it = own;
  bool shows = count != 0 && !it->by->is_quiet;
  if (shows && *name != 0) print_safe(name, strlen(name)), fputc('\n', stderr);
  if (shows && *instruction != 0) print_safe(instruction, strlen(instruction)), fputc('\n', stderr);
  for (size_t i = 0; i < count; i++)
    if (!answer_one(it, &prompts[i], count, &answers[i])) return false;
  return true;
}

static bool names_method(const sazh_connection *at, const char *name) {
  const char *found = strstr(sazh_methods(at), name);
  size_t len = strlen(name);
  return found != NULL && (found == sazh_methods(at) || found[-1] == ',') && (found[len] == ',' || found[len] == 0);
}

static sazh_code try_key(attempt *it, const char *path) {
  char why[600];
  sazh_key *key = NULL;
  sazh_code code = sazh_key_read(&key, path, ask_passphrase, (void *)(uintptr_t)it->by, why, sizeof why);
  if (code != SAZH_OK) {
    fprintf(stderr, "sazh: %s\n", why);
    return SAZH_DENIED;
  }
  tell(it->by, "trying the key %s: %s %s", path, sazh_key_type(key), sazh_key_fingerprint(key));
  code = sazh_login_key(it->at, it->by->user, key);
  if (code == SAZH_PASSPHRASE || code == SAZH_SIGNING) fprintf(stderr, "sazh: %s: %s\n", path, sazh_code_text(code));
  sazh_key_free(key);
  return code;
}

const char *agent_of(const options *by) {
  const char *path = by->agent != NULL && strcmp(by->agent, "SSH_AUTH_SOCK") != 0 ? by->agent : getenv("SSH_AUTH_SOCK");
  return path == NULL || *path == 0 || strcasecmp(path, "none") == 0 ? NULL : path;
}

/* The keys of the agent, and then those of files, one a call; SAZH_NO_KEY after the last one. */
static sazh_code try_next_key(attempt *it) {
  const options *by = it->by;
  const char *agent = agent_of(by);
  if (!it->tried_agent && !by->identities_only && agent != NULL) {
    it->tried_agent = true;
    tell(by, "trying the keys of the agent at %s", agent);
    return sazh_login_agent(it->at, by->user, agent);
  }
  while (it->next_key < by->identities.count) {
    const char *path = by->identities.at[it->next_key++];
    if (it->next_key > by->named_identities && access(path, F_OK) != 0) continue;
    return try_key(it, path);
  }
  return SAZH_NO_KEY;
}

static sazh_code try_password(attempt *it) {
  const options *by = it->by;
  char line[1200], *password = NULL;
  it->passwords++;
  if (by->password_file != NULL) {
    it->passwords = by->tries; /* the same again would be denied again */
    password = first_line(by->password_file);
    if (password == NULL) fprintf(stderr, "sazh: no password in %s\n", by->password_file);
  } else if (!by->batch) {
    snprintf(line, sizeof line, "%s@%s's password: ", by->user, by->given);
    password = terminal_ask(line, false);
  }
  if (password == NULL) {
    it->passwords = by->tries;
    return SAZH_NO_KEY;
  }
  sazh_code code = sazh_login_password(it->at, by->user, password);
  wipe_free(password);
  if (code == SAZH_DENIED && it->passwords < by->tries) fprintf(stderr, "Permission denied, please try again.\n");
  return code;
}

static bool may_prompt(const attempt *it) {
  if (it->by->password_file != NULL) return it->prompts == 0;
  return it->prompts < it->by->tries && !it->by->batch;
}

/* Each method that the server names, until one is taken: keys, a password, prompts. */
static sazh_code log_in(attempt *it) {
  const options *by = it->by;
  sazh_code code = sazh_login_none(it->at, by->user);
  for (bool has_keys = by->pubkey == 1; code != SAZH_OK && !sazh_is_over(it->at);) {
    tell(by, "%s; the server takes: %s", sazh_is_partial(it->at) ? "that was right, but not enough" : "not in yet", sazh_methods(it->at));
    if (has_keys && names_method(it->at, "publickey")) {
      code = try_next_key(it);
      if (code == SAZH_NO_KEY && it->next_key >= by->identities.count) has_keys = false;
    } else if (by->password == 1 && names_method(it->at, "password") && it->passwords < by->tries) {
      code = try_password(it);
    } else if (by->prompts == 1 && names_method(it->at, "keyboard-interactive") && may_prompt(it)) {
      it->prompts++;
      code = sazh_login_prompts(it->at, by->user, answer_all, it);
    } else {
      return SAZH_DENIED;
    }
  }
  return code;
}

/* ---- connecting */

/* Names come from URLs and scripts, and the shell reads them: none may say more to it than a name. */
static void check_names(const options *by) {
  if (!sazh_is_host_name(by->hostname) || !sazh_is_host_name(by->given)) usage_error("%s is no name that a ProxyCommand may get", by->hostname);
  if (by->user[0] == '-' || strpbrk(by->user, "'`\"\\;&<>|(){}$\n ") != NULL) usage_error("%s is no user that a ProxyCommand may get", by->user);
}

/* A program whose standard input and output are the connection (ssh_config(5), ProxyCommand). */
static int proxy_socket(const options *by) {
  int pair[2];
  check_names(by);
  char *command = expanded(by, by->proxy_command);
  if (socketpair(AF_UNIX, SOCK_STREAM | SOCK_CLOEXEC, 0, pair) != 0) usage_error("no socket for the ProxyCommand");
  pid_t child = fork();
  if (child < 0) usage_error("no process for the ProxyCommand");
  if (child == 0) {
    dup2(pair[1], 0);
    dup2(pair[1], 1);
    execl("/bin/sh", "sh", "-c", command, (char *)NULL);
    _exit(127);
  }
  close(pair[1]);
  free(command);
  return pair[0];
}

static sazh_code connect_by(sazh_connection *made, const options *by, sazh_connection *jump) {
  uint16_t port = (uint16_t)by->port;
  tell(by, "connecting to %s port %u as %s", by->hostname, (unsigned)port, by->user);
  if (jump != NULL) return sazh_connect_through(made, jump, by->hostname, port);
  if (by->proxy_command != NULL) return sazh_connect_fd(made, proxy_socket(by), by->hostname, port);
  return sazh_connect(made, by->hostname, port);
}

static sazh_connection *open_one(const options *by, sazh_connection *jump) {
  sazh_settings settings = settings_of(by);
  sazh_connection *made;
  sazh_code code = sazh_new(&made, &settings);
  free((char *)(uintptr_t)settings.ciphers);
  free((char *)(uintptr_t)settings.host_key_algorithms);
  if (code != SAZH_OK) usage_error("%s", sazh_code_text(code));
  bool done = add_hosts(made, by, by->user_hosts) && add_hosts(made, by, by->global_hosts);
  if (done) code = connect_by(made, by, jump);
  if (done && code == SAZH_HOST_UNKNOWN) {
    if (accept_host(made, by)) code = SAZH_OK;
    else {
      sazh_free(made);
      return NULL;
    }
  }
  sazh_host_key key = sazh_host_key_of(made);
  sazh_names agreed = sazh_names_of(made);
  if (done && code == SAZH_OK) tell(by, "the host key is %s %s, known as %s", key.type, key.fingerprint, key.host);
  if (done && code == SAZH_OK) tell(by, "%s, %s, %s, %s%s", agreed.server_version, agreed.kex, agreed.host_key, agreed.cipher_out, agreed.is_strict ? ", strict" : "");
  attempt login = {.at = made, .by = by};
  if (done && code == SAZH_OK) code = log_in(&login);
  if (done && code == SAZH_OK) return made;
  if (done && code == SAZH_DENIED && !sazh_is_over(made)) fprintf(stderr, "sazh: permission denied (%s)\n", sazh_methods(made));
  else print_error(made);
  sazh_free(made);
  return NULL;
}

/* The hops of ProxyJump, each with its own configuration. A hop's own ProxyJump comes before it. */
static bool open_hops(route *to, const char *jumps, const options *from) {
  char *all = copied(jumps), *rest = NULL;
  bool done = true;
  for (char *at = strtok_r(all, ",", &rest); done && at != NULL; at = strtok_r(NULL, ",", &rest)) {
    options *hop = calloc(1, sizeof *hop);
    if (hop == NULL || to->asked == MOST_HOPS) usage_error("too many hosts to jump over, or %s is reached through itself", at);
    to->hops[to->asked++] = hop;
    options_begin(hop);
    hop->config = from->config;
    hop->verbose = from->verbose;
    hop->is_quiet = from->is_quiet;
    hop->batch = from->batch;
    option_target(hop, at, true);
    options_complete(hop);
    bool is_itself = hop->jump != NULL && strcmp(hop->jump, at) == 0; /* Host * with a ProxyJump */
    if (hop->jump != NULL && !is_itself && to->count == 0) done = open_hops(to, hop->jump, hop);
    sazh_connection *made = done ? open_one(hop, to->count == 0 ? NULL : to->at[to->count - 1]) : NULL;
    if (made != NULL) to->at[to->count++] = made;
    done = made != NULL;
  }
  free(all);
  return done;
}

bool route_open(route *to, const options *wanted) {
  if (wanted->jump != NULL && !open_hops(to, wanted->jump, wanted)) return false;
  sazh_connection *made = open_one(wanted, to->count == 0 ? NULL : to->at[to->count - 1]);
  if (made != NULL) to->at[to->count++] = made;
  return made != NULL;
}

void route_free(route *it) {
  while (it->count != 0) sazh_free(it->at[--it->count]);
}
