/* Runs a command on a host by a key file: run_by_key HOST PORT USER KEY KNOWN_HOSTS COMMAND */
#include <sazhonthil_ssh.h>
#include <stdio.h>
#include <stdlib.h>
static sazh_connection *connection;
static void check(sazh_code code) {
  if (code == SAZH_OK) return;
  fprintf(stderr, "%s\n", connection == NULL ? sazh_code_text(code) : sazh_error_of(connection)->text);
  exit(255);
}

int main(int count, char **words) {
  sazh_channel *channel;
  sazh_key *key;
  char bytes[4096];
  size_t got;
  sazh_exit how;
  if (count != 7) return 255;
  check(sazh_key_read(&key, words[4], NULL, NULL, NULL, 0));
  check(sazh_new(&connection, NULL));
  check(sazh_hosts_file(connection, words[5], true));
  check(sazh_connect(connection, words[1], (uint16_t)atoi(words[2])));
  check(sazh_login_key(connection, words[3], key));
  check(sazh_open_session(connection, &channel));
  check(sazh_command(channel, words[6]));
  sazh_ignore(channel, SAZH_ERR); /* or read it as well: both streams share a window */
  while (sazh_read(channel, SAZH_OUT, bytes, sizeof bytes, &got) == SAZH_OK) fwrite(bytes, 1, got, stdout);
  check(sazh_wait_exit(channel, &how));
  return sazh_free(connection), sazh_key_free(key), how.has_status ? (int)how.status : 255;
}
