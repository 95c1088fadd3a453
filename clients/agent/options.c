#include "options.h"

#include <ctype.h>
#include <getopt.h>
#include <stdarg.h>
#include <stdio.h>
#include <stdlib.h>
#include <string.h>
#include <unistd.h>

static const char USAGE[] =
    "usage: sazh-agent [-c | -s] [-D | -d] [-a SOCKET] [-t LIFETIME]\n"
    "       sazh-agent [-a SOCKET] [-t LIFETIME] COMMAND [WORD..]\n"
    "       sazh-agent [-c | -s] -k\n"
    "\n"
    "An SSH agent: eval $(sazh-agent), and then ssh-add, ssh and git find it.\n"
    "  -c, -s        print lines for a C shell, for a Bourne shell (by the variable SHELL, if neither is said)\n"
    "  -D, -d        stay in the foreground; say on standard error what is done\n"
    "  -a SOCKET     listen there, in a folder that nobody else may enter (else in a new folder under TMPDIR)\n"
    "  -t LIFETIME   how long a key is held that is added without a lifetime: seconds, or as 90m, 1h30m, 2d, 1w\n"
    "  -k            end the agent whose process SSH_AGENT_PID names\n"
    "  -h, --help    this text\n"
    "  COMMAND       is run with the agent, which ends when it ends\n";

void complain(const char *format, ...) {
  va_list given;
  va_start(given, format);
  fputs("sazh-agent: ", stderr);
  vfprintf(stderr, format, given);
  fputc('\n', stderr);
  va_end(given);
}

static _Noreturn void usage(FILE *to, int status) {
  fputs(USAGE, to);
  exit(status);
}

/* ---- a lifetime */

static uint64_t unit_seconds(char unit) {
  switch (unit) {
  case 0:
  case 's':
  case 'S': return 1;
  case 'm':
  case 'M': return 60;
  case 'h':
  case 'H': return 3600;
  case 'd':
  case 'D': return 86400;
  case 'w':
  case 'W': return 604800;
  default: return 0;
  }
}

/* Numbers, each with a unit or none, as sshd_config(5) has times; false where they say something else, or above 2^31. */
static bool read_lifetime(const char *text, uint32_t *to) {
  uint64_t sum = 0;
  if (*text == 0) return false;
  while (*text != 0) {
    uint64_t number = 0;
    if (!isdigit((unsigned char)*text)) return false;
    for (; isdigit((unsigned char)*text); text++) {
      number = 10 * number + (uint64_t)(*text - '0');
      if (number > INT32_MAX) return false;
    }
    uint64_t unit = unit_seconds(*text);
    if (unit == 0) return false;
    if (*text != 0) text++;
    sum += number * unit;
    if (sum > INT32_MAX) return false;
  }
  *to = (uint32_t)sum;
  return true;
}

/* ---- the words */

static shell shell_of_user(void) {
  const char *name = getenv("SHELL");
  size_t len = name == NULL ? 0 : strlen(name);
  return len > 2 && strcmp(name + len - 3, "csh") == 0 ? C_SHELL : BOURNE_SHELL;
}

static void take_option(options *to, int option) {
  switch (option) {
  case 'c': to->shell = C_SHELL; break;
  case 's': to->shell = BOURNE_SHELL; break;
  case 'k': to->kills = true; break;
  case 'd': to->is_debugging = to->is_foreground = true; break;
  case 'D': to->is_foreground = true; break;
  case 'a': to->socket = optarg; break;
  case 't':
    if (read_lifetime(optarg, &to->lifetime)) break;
    complain("no lifetime: %s", optarg);
    usage(stderr, 1);
  case 'h': usage(stdout, 0);
  default: usage(stderr, 1);
  }
}

void options_read(options *to, int count, char **words) {
  *to = (options){.shell = shell_of_user()};
  static const struct option LONG[] = {{"help", no_argument, NULL, 'h'}, {NULL, 0, NULL, 0}};
  bool has_shell = false;
  int option;
  while ((option = getopt_long(count, words, "+csdDkha:t:", LONG, NULL)) != -1) { /* +: COMMAND's options are its own */
    if (option == 'c' || option == 's') {
      if (has_shell && to->shell != (option == 'c' ? C_SHELL : BOURNE_SHELL)) usage(stderr, 1);
      has_shell = true;
    }
    take_option(to, option);
  }
  if (optind < count) to->command = words + optind;
  if (to->command != NULL && (has_shell || to->kills || to->is_foreground)) usage(stderr, 1);
  if (to->kills && (to->is_foreground || to->socket != NULL || to->lifetime != 0)) usage(stderr, 1);
}

/* ---- lines for a shell */

/* Whether the shell takes the text as it stands for one word. */
static bool is_plain(const char *text) {
  for (; *text != 0; text++)
    if (!isalnum((unsigned char)*text) && strchr("/._-+,@%:=", *text) == NULL) return false;
  return true;
}

/* In single quotes all stands for itself but the quote and, for a C shell, the mark of its history. */
static void print_quoted(shell shell, const char *text) {
  if (is_plain(text)) {
    fputs(text, stdout);
    return;
  }
  putchar('\'');
  for (; *text != 0; text++) {
    if (*text == '\'')
      fputs("'\\''", stdout);
    else if (*text == '!' && shell == C_SHELL)
      fputs("\\!", stdout);
    else
      putchar(*text);
  }
  putchar('\'');
}

void print_set(shell shell, const char *name, const char *value) {
  printf(shell == C_SHELL ? "setenv %s " : "%s=", name);
  print_quoted(shell, value);
  if (shell == C_SHELL)
    puts(";");
  else
    printf("; export %s;\n", name);
}

void print_unset(shell shell, const char *name) { printf(shell == C_SHELL ? "unsetenv %s;\n" : "unset %s;\n", name); }
