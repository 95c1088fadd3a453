/* Calls that a caller in C gets wrong: each is answered, and changes nothing. */
#include <sazhonthil.h>

#include <stdio.h>
#include <string.h>

static int failures;

static void check(int holds, const char *what) {
  if (holds) return;
  failures++;
  printf("wrong: %s\n", what);
}

static const uint8_t HOST[] = "localhost", NOT_TEXT[] = {0xff, 0xfe};
static const char KNOWN[] = "[localhost]:13265 ssh-ed25519 AAAAC3NzaC1lZDI1NTE5AAAAIJdD7y3aLq454yWBdwLWbieU1ebz9/cu7/QEXn9OIeZJ\n";
static const uint8_t KEXINIT[] = {0, 0, 0, 9, 0, 0, 0, 0, 0, 0, 0, 0, 1};

static void sessions(void) {
  sshc_settings settings;
  sshc_settings_default(&settings);
  check(settings.window_size == 2097152 && settings.maximum_packet_size == 32768 && settings.max_events == 4294967295u, "the default settings");
  sshc_session session = SSHC_SESSION_INIT;
  uint64_t detail = 7;
  size_t size = 7;
  uint8_t to[64];
  check(sshc_session_take(&session, KEXINIT, sizeof KEXINIT, &detail) == SSHC_MISUSE && detail == 0, "an event before new");
  check(sshc_session_record(&session, to, sizeof to, &size) == SSHC_MISUSE && size == 0, "a record before new");
  sshc_session_free(&session);
  check(sshc_session_new(&session, &settings, NOT_TEXT, 2, 22, NULL, 0) == SSHC_NOT_TEXT, "a host that is no text");
  check(sshc_session_new(&session, &settings, HOST, 9, 22, NOT_TEXT, 2) == SSHC_NOT_TEXT, "known hosts that are no text");
  check(sshc_session_new(&session, &settings, HOST, 9, 22, NULL, 0) == SSHC_OK, "new");
  check(sshc_session_new(&session, &settings, HOST, 9, 22, NULL, 0) == SSHC_MISUSE, "new twice");
  check(sshc_session_take(&session, NULL, 0, &detail) == SSHC_OK, "no event");
  check(sshc_session_take(&session, KEXINIT, sizeof KEXINIT, &detail) == SSHC_OK, "an event");
  check(sshc_session_record(&session, to, sizeof to, &size) == SSHC_NOTHING && size == 0, "no record");
  check(sshc_session_take(&session, KEXINIT, 5, &detail) == SSHC_BAD_EVENT && detail == 13, "an event that is cut");
  check(sshc_session_take(&session, KEXINIT, sizeof KEXINIT, &detail) == SSHC_OVER && detail == 0, "an event after the end");
  sshc_session_free(&session);
  sshc_session_free(&session);
  check(sshc_session_take(&session, KEXINIT, sizeof KEXINIT, &detail) == SSHC_MISUSE, "an event after free");
}

static void rooms(void) {
  sshc_settings settings;
  sshc_settings_default(&settings);
  sshc_session session = SSHC_SESSION_INIT;
  uint64_t detail;
  size_t size;
  uint8_t to[4] = {9, 9, 9, 9};
  static const uint8_t AGENT[] = {0, 0, 0, 18, 0, 0, 0, 0, 0, 0, 0, 0, 0x40, 0, 0, 0, 1, 0, 0, 0, 1, 11};
  check(sshc_session_new(&session, &settings, HOST, 9, 13265, (const uint8_t *)KNOWN, sizeof KNOWN - 1) == SSHC_OK, "new");
  check(sshc_session_take(&session, AGENT, sizeof AGENT, &detail) == SSHC_OK, "an agent's event");
  check(sshc_session_record(&session, to, sizeof to, &size) == SSHC_NO_ROOM && size == 18, "too little room");
  check(sshc_session_record(&session, NULL, 0, &size) == SSHC_NO_ROOM && size == 18, "no room");
  check(to[0] == 9 && to[3] == 9, "nothing is written where there is too little room");
  uint8_t enough[20] = {0};
  enough[18] = enough[19] = 8;
  check(sshc_session_record(&session, enough, sizeof enough, &size) == SSHC_OK && size == 18 && enough[0] == 0x40 && enough[17] == 0 && enough[18] == 8, "enough room");
  check(sshc_session_record(&session, enough, sizeof enough, &size) == SSHC_NOTHING, "no second record");
  sshc_session_free(&session);
}

static void agents(void) {
  sshc_agent agent = SSHC_AGENT_INIT;
  uint32_t hash = 0, request = 0;
  size_t size = 7;
  uint8_t to[64], list = 11;
  check(sshc_agent_take(&agent, 0, 1, 0, &list, 1, 0, NULL, 0, &request) == SSHC_MISUSE, "an input before new");
  check(sshc_agent_asks(&agent, 0, 1, 0, &list, 1, &hash) == SSHC_MISUSE, "a question before new");
  check(sshc_agent_answer(&agent, to, sizeof to, &size) == SSHC_MISUSE && size == 0, "an answer before new");
  check(sshc_agent_asked(&agent, 0, to, sizeof to, &size) == SSHC_MISUSE, "a part before new");
  check(sshc_agent_forget(&agent, 1) == SSHC_MISUSE, "forget before new");
  sshc_agent_free(&agent);
  check(sshc_agent_new(&agent, 1) == SSHC_OK && sshc_agent_new(&agent, 1) == SSHC_MISUSE, "new twice");
  check(sshc_agent_asks(&agent, 0, 1, 7, NULL, 0, &hash) == SSHC_BAD_INPUT, "no such input");
  check(sshc_agent_asks(&agent, 0, 1, 0, &list, 1, &hash) == SSHC_NOTHING, "nothing to be signed");
  check(sshc_agent_take(&agent, 0, 1, 0, &list, 1, 0, NULL, 0, &request) == SSHC_ASKS_REQUEST && request == 0, "the user is asked");
  check(sshc_agent_take(&agent, 0, 1, 2, NULL, 0, 0, NULL, 0, &request) == SSHC_OK, "the user allows it");
  check(sshc_agent_answer(&agent, to, 8, &size) == SSHC_NO_ROOM && size == 9, "too little room");
  check(sshc_agent_answer(&agent, to, sizeof to, &size) == SSHC_OK && size == 9 && memcmp(to, "\0\0\0\5\14\0\0\0\0", 9) == 0, "the answer");
  check(sshc_agent_take(&agent, 0, 1, 9, NULL, 0, 0, NULL, 0, &request) == SSHC_BAD_INPUT, "no such input");
  check(sshc_agent_answer(&agent, to, sizeof to, &size) == SSHC_OK && size == 0, "no answer of another input");
  for (uint32_t part = 0; part < 4; part++)
    check(sshc_agent_asked(&agent, part, to, sizeof to, &size) == SSHC_OK && size == 0, "no part where nothing was asked");
  check(sshc_agent_take(&agent, 0, 2, 1, NULL, 0, 0, NULL, 0, &request) == SSHC_CLOSED_TOO_LONG, "a frame that is too long");
  check(sshc_agent_forget(&agent, 2) == SSHC_OK, "forget");
  sshc_agent_free(&agent);
  sshc_agent_free(&agent);
}

static void hosts(void) {
  uint64_t line = 7;
  size_t size = 0;
  uint8_t to[256];
  check(sshc_known_hosts_check(NOT_TEXT, 2, 22, NULL, 0, NULL, 0, &line) == SSHC_NOT_TEXT && line == 0, "a host that is no text");
  check(sshc_known_hosts_check(HOST, 9, 22, NULL, 0, HOST, 9, &line) == SSHC_BAD_KEY && line == 0, "no key");
  check(sshc_known_hosts_check_openssh(NOT_TEXT, 2, 22, NULL, 0, HOST, 9, &line) == SSHC_NOT_TEXT && line == 0, "the same as OpenSSH reads it");
  check(sshc_known_hosts_check_openssh(HOST, 9, 22, NOT_TEXT, 2, HOST, 9, &line) == SSHC_BAD_KEY && line == 0, "no key, as OpenSSH reads it");
  check(sshc_known_hosts_learn(HOST, 9, 22, NULL, 0, HOST, 9, to, sizeof to, &size) == SSHC_BAD_KEY, "no key to learn");
}

static void texts(void) {
  for (sshc_status status = 0; status <= SSHC_REKEY_KEY; status++) {
    int is_one = status <= SSHC_CLOSED_REFUSED || (status >= SSHC_NO_MEMORY && status != 41);
    check((strcmp(sshc_status_text(status), "an unknown status") != 0) == is_one, "a text for each status, and for no other");
  }
}

int main(void) {
  check(sshc_abi() == SSHC_ABI, "the number of the interface");
  texts();
  sessions();
  rooms();
  agents();
  hosts();
  printf("c: misuse answered; wrong: %d\n", failures);
  return failures != 0;
}
