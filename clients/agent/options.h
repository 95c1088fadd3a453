/* The command line, which is ssh-agent's. */
#ifndef AGENT_OPTIONS_H
#define AGENT_OPTIONS_H

#include <stdbool.h>
#include <stdint.h>

typedef enum shell { BOURNE_SHELL, C_SHELL } shell;

typedef struct options {
  shell shell;
  bool kills;         /* -k */
  bool is_foreground; /* -D, and -d */
  bool is_debugging;  /* -d */
  const char *socket; /* -a, or NULL */
  uint32_t lifetime;  /* -t in seconds, 0: none */
  char **command;     /* what is run under the agent, or NULL */
} options;

/* Ends the program with its usage where the words are wrong or ask for it. */
void options_read(options *to, int count, char **words);

/* Prints the line that sets a variable, or the one that unsets it, for the shell to evaluate. */
void print_set(shell shell, const char *name, const char *value);
void print_unset(shell shell, const char *name);

/* Prints a line to standard error, after the program's name. */
void complain(const char *format, ...) __attribute__((format(printf, 1, 2)));

#endif
