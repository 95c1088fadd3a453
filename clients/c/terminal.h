/* The terminal: asking, raw mode, its size. It is put back as it was at every end, also by a signal. */
#ifndef SAZH_TERMINAL_H
#define SAZH_TERMINAL_H

#include <sazhonthil_ssh.h>

/* Catches the signals that end a program, and those that tell of another size. Standard descriptors that are closed are
 * opened on /dev/null, since their numbers would be those of the next sockets. First in main. */
void terminal_begin(void);
/* Puts the terminal back. It may be called from a signal handler. */
void terminal_restore(void);
/* Asks at the terminal; the answer in memory of malloc, or NULL where there is no terminal. */
char *terminal_ask(const char *prompt, bool echo);
/* The first line of a file, in memory of malloc, or NULL. */
char *first_line(const char *path);
/* Raw mode, as ssh has it. */
void terminal_raw(void);
void terminal_size(uint32_t *columns, uint32_t *rows);
/* Whether the size has changed since the last call. */
bool terminal_resized(void);
/* The modes for the server (RFC 4254, section 8), and how many. */
size_t terminal_modes(sazh_mode *to, size_t room);
/* Waits for descriptors; a signal that tells of another size ends the wait. */
int terminal_poll(struct pollfd *all, size_t count, int milliseconds);
/* Prints the server's text, with a ? for each control character but line feeds and tabs. */
void print_safe(const char *text, size_t len);
void wipe_free(char *text);

#endif
