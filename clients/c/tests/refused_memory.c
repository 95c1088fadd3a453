/* Each request for memory refused once, from the first to the last of a login, a command and a forward: the library returns
 * an error or does without, and frees all. refused_memory PORT USER KEY KNOWN_HOSTS [STEP] (-Wl,--wrap=malloc,--wrap=calloc) */
#include <sazhonthil_ssh.h>

#include <stdio.h>
#include <stdlib.h>
#include <string.h>

void *__real_malloc(size_t size);
void *__real_calloc(size_t count, size_t size);
void *__wrap_malloc(size_t size);
void *__wrap_calloc(size_t count, size_t size);

static long left = -1; /* the request after so many others is refused; below 0: none */

void *__wrap_malloc(size_t size) { return left >= 0 && left-- == 0 ? NULL : __real_malloc(size); }

void *__wrap_calloc(size_t count, size_t size) { return left >= 0 && left-- == 0 ? NULL : __real_calloc(count, size); }

/* Whether a command's output came back. */
static bool run_command(sazh_connection *connection) {
  sazh_channel *channel = NULL;
  char bytes[64];
  size_t got = 0, taken;
  sazh_exit how = {0};
  bool done = sazh_open_session(connection, &channel) == SAZH_OK && sazh_environment(channel, "SAZH_X", "1") == SAZH_OK && sazh_command(channel, "cat") == SAZH_OK &&
              sazh_write(channel, "hello", 5, &taken) == SAZH_OK && sazh_write_eof(channel) == SAZH_OK &&
              sazh_read(channel, SAZH_OUT, bytes, sizeof bytes, &got) == SAZH_OK && got == 5 && memcmp(bytes, "hello", 5) == 0 &&
              sazh_read(channel, SAZH_OUT, bytes, sizeof bytes, &got) == SAZH_EOF && sazh_wait_exit(channel, &how) == SAZH_OK && how.has_status;
  sazh_channel_free(channel);
  return done;
}

static bool run(char **words) {
  sazh_connection *connection = NULL;
  sazh_key *key = NULL;
  sazh_end here = {NULL, 0, NULL}, there = {"127.0.0.1", 1, NULL};
  bool done = sazh_new(&connection, NULL) == SAZH_OK && sazh_hosts_file(connection, words[4], true) == SAZH_OK &&
              sazh_key_read(&key, words[3], NULL, NULL, NULL, 0) == SAZH_OK && sazh_connect(connection, "localhost", (uint16_t)atoi(words[1])) == SAZH_OK &&
              sazh_login_key(connection, words[2], key) == SAZH_OK && sazh_forward_local(connection, &here, &there, NULL) == SAZH_OK && run_command(connection);
  sazh_key_free(key);
  sazh_free(connection);
  return done;
}

int main(int count, char **words) {
  if (count < 5) return 2;
  long step = count > 5 ? atol(words[5]) : 1, refused = 0, without = 0;
  if (!run(words)) return 1;
  for (long at = 0;; at += step) {
    left = at;
    bool done = run(words);
    if (left >= 0) break; /* there aren't so many requests */
    left = -1;
    refused++;
    without += done;
  }
  left = -1;
  printf("library: %ld requests for memory refused, %ld done without; and once more: %s\n", refused, without, run(words) ? "well" : "wrong");
  return 0;
}
