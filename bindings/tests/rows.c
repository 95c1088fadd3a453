/* Worked runs from C: standard input has a row a line, as rows.py --dump prints them: a name, the known hosts and the
 * events in hexadecimal digits (- is none), the status, the place or line, the records. `rows` compares each; `rows N`
 * runs them all again with each of the first N requests for memory failing once, which may only end in SSHC_NO_MEMORY. */
#include <sazhonthil.h>

#include <stdio.h>
#include <stdlib.h>
#include <string.h>

enum { LONGEST = 1 << 20 };

extern long rattle_requests_left; /* of runtime.c, compiled with -DFAIL_AT */

static char line[LONGEST], *rows[1024];
static uint8_t known[LONGEST], events[LONGEST], wanted[LONGEST], record[LONGEST];

static int digit(char c) { return c <= '9' ? c - '0' : c - 'a' + 10; }

static size_t bytes_of(const char *word, uint8_t *to) {
  size_t count = word[0] == '-' ? 0 : strlen(word) / 2;
  for (size_t i = 0; i < count; i++) to[i] = (uint8_t)(16 * digit(word[2 * i]) + digit(word[2 * i + 1]));
  return count;
}

/* What a row came to: as it is to be, out of memory, or something else. */
typedef enum { RIGHT, NO_MEMORY, WRONG } verdict;

static verdict records_are(sshc_session *session) {
  for (char *word; (word = strtok(NULL, " \n")) != NULL;) {
    size_t size = 0, count = bytes_of(word, wanted);
    sshc_status status = sshc_session_record(session, record, sizeof record, &size);
    if (status != SSHC_OK || size != count || memcmp(record, wanted, count) != 0) return WRONG;
  }
  size_t size = 0;
  return sshc_session_record(session, record, sizeof record, &size) == SSHC_NOTHING ? RIGHT : WRONG;
}

static verdict run_row(char *row) {
  strcpy(line, row);
  strtok(line, " \n");
  size_t known_len = bytes_of(strtok(NULL, " \n"), known), events_len = bytes_of(strtok(NULL, " \n"), events);
  sshc_status status = (sshc_status)atol(strtok(NULL, " \n"));
  uint64_t detail = strtoull(strtok(NULL, " \n"), NULL, 10), got_detail = 0;
  sshc_settings settings;
  sshc_settings_default(&settings);
  sshc_session session = SSHC_SESSION_INIT;
  sshc_status made = sshc_session_new(&session, &settings, (const uint8_t *)"localhost", 9, 13265, known, known_len);
  if (made == SSHC_NO_MEMORY) return NO_MEMORY;
  if (made != SSHC_OK) return WRONG;
  sshc_status got = sshc_session_take(&session, events, events_len, &got_detail);
  verdict found = got == SSHC_NO_MEMORY ? NO_MEMORY : got != status || got_detail != detail ? WRONG : records_are(&session);
  sshc_session_free(&session);
  sshc_session_free(&session);
  if (sshc_session_take(&session, events, events_len, &got_detail) != SSHC_MISUSE) found = WRONG;
  return found;
}

static size_t read_rows(void) {
  size_t count = 0;
  while (count < 1024 && fgets(line, sizeof line, stdin) != NULL) rows[count++] = strdup(line);
  return count;
}

static int compare(size_t count) {
  size_t wrong = 0;
  for (size_t i = 0; i < count; i++) {
    if (run_row(rows[i]) == RIGHT) continue;
    wrong++;
    printf("wrong: %.60s\n", rows[i]);
  }
  printf("c: %zu rows, %zu of them other than they are to be\n", count, wrong);
  return wrong != 0;
}

/* Each request fails once, the rows one after another: how many requests there were, and how many rows were wrong. */
static int refuse(size_t count, long most) {
  long requests = 0, wrong = 0, in_spite = 0;
  for (size_t i = 0; i < count; i++) {
    for (long n = 0; n < most; n++) {
      rattle_requests_left = n;
      verdict found = run_row(rows[i]);
      if (rattle_requests_left >= 0) break;
      requests++;
      in_spite += found == RIGHT;
      wrong += found == WRONG;
    }
    rattle_requests_left = -1;
  }
  printf("c: %ld requests for memory, each failed once: %ld times the row came out in spite of it, %ld times wrong\n", requests, in_spite, wrong);
  return wrong != 0;
}

int main(int count, char **words) {
  size_t found = read_rows();
  int status = count == 1 ? compare(found) : refuse(found, atol(words[1]));
  for (size_t i = 0; i < found; i++) free(rows[i]);
  return status;
}
