/* Runs a command on a host by a password, which is read from standard input: run_by_password HOST PORT USER KNOWN_HOSTS COMMAND */
#include <sazhonthil_ssh.h>
#include <stdio.h>
#include <stdlib.h>
#include <string.h>
static sazh_connection *connection;
static void check(sazh_code code) {
  if (code == SAZH_OK) return;
  fprintf(stderr, "%s\n", connection == NULL ? sazh_code_text(code) : sazh_error_of(connection)->text);
  exit(255);
}

int main(int count, char **words) {
  sazh_channel *channel;
  char bytes[4096], password[256];
  size_t got;
  sazh_exit how;
  if (count != 6 || fgets(password, sizeof password, stdin) == NULL) return 255;
  password[strcspn(password, "\n")] = 0;
  check(sazh_new(&connection, NULL));
  check(sazh_hosts_file(connection, words[4], true));
  check(sazh_connect(connection, words[1], (uint16_t)atoi(words[2])));
  check(sazh_login_password(connection, words[3], password));
  check(sazh_open_session(connection, &channel));
  check(sazh_command(channel, words[5]));
  sazh_ignore(channel, SAZH_ERR); /* or read it as well: both streams share a window */
  while (sazh_read(channel, SAZH_OUT, bytes, sizeof bytes, &got) == SAZH_OK) fwrite(bytes, 1, got, stdout);
  check(sazh_wait_exit(channel, &how));
  return sazh_free(connection), how.has_status ? (int)how.status : 255;
}
