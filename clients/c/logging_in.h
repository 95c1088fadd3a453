/* Connecting and logging in as the options say, with the questions that this needs. */
#ifndef SAZH_LOGGING_IN_H
#define SAZH_LOGGING_IN_H

#include "options.h"

enum { MOST_HOPS = 8 };

/* A connection with those that it runs through, the outermost first. */
typedef struct route {
  sazh_connection *at[MOST_HOPS + 1];
  options *hops[MOST_HOPS]; /* the callbacks of the connections have them */
  size_t asked;             /* hops that were read; more than there may be is a circle */
  size_t count;
} route;

/* Connects through all hops, and logs in at each. False: an error was printed. */
bool route_open(route *to, const options *wanted);
/* Frees it, the innermost first. */
void route_free(route *it);
/* Prints an error of a connection, and what to do about it. */
void print_error(const sazh_connection *of);
/* The agent's socket that the options name, or NULL. */
const char *agent_of(const options *by);
/* A line of -v. */
void tell(const options *by, const char *format, ...) __attribute__((format(printf, 2, 3)));

#endif
