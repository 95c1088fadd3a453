/* The C library's calls alone, fed from memory: 1 GiB of channel data in packets of 32 KiB, down (packets of the server)
 * and up (bytes of the user), beside a loop that copies each packet twice. Prints seconds of processor time.
 * bench/library.sh builds and runs it. */
#include <sazhonthil.h>

#include <stdio.h>
#include <stdlib.h>
#include <string.h>
#include <time.h>

enum { PACKET = 32768, PACKETS = 32768, ROOM = 65536 };

static const char KNOWN[] = "[localhost]:13265 ssh-ed25519 "
                            "AAAAC3NzaC1lZDI1NTE5AAAAIAECAwQFBgcICQoLDA0ODxAREhMUFRYXGBkaGxwdHh8g\n";

static uint8_t event[ROOM], record[ROOM], body[PACKET];
static size_t event_len;
static uint32_t channel; /* our number of it */
static sshc_session session = SSHC_SESSION_INIT;

static void put(const void *from, size_t count) {
  memcpy(event + event_len, from, count);
  event_len += count;
}

static void put_u8(uint8_t n) { put(&n, 1); }

static void put_u32(uint32_t n) {
  uint8_t bytes[4] = {(uint8_t)(n >> 24), (uint8_t)(n >> 16), (uint8_t)(n >> 8), (uint8_t)n};
  put(bytes, 4);
}

static void put_str(const void *from, size_t count) {
  put_u32((uint32_t)count);
  put(from, count);
}

static void put_text(const char *text) { put_str(text, strlen(text)); }

/* An event at moment 0; its length is set when it is handed in. */
static void begin(uint8_t kind) {
  event_len = 0;
  put_u32(0);
  put_u32(0);
  put_u32(0);
  put_u8(kind);
}

static void take(void) {
  uint32_t count = (uint32_t)(event_len - 4);
  event[0] = (uint8_t)(count >> 24), event[1] = (uint8_t)(count >> 16), event[2] = (uint8_t)(count >> 8), event[3] = (uint8_t)count;
  uint64_t detail;
  sshc_status status = sshc_session_take(&session, event, event_len, &detail);
  if (status != SSHC_OK) {
    fprintf(stderr, "status %u at %llu, event %02x\n", (unsigned)status, (unsigned long long)detail, event[12]);
    exit(1);
  }
}

/* Reads the records of the last event: how many bytes they have. */
static size_t records(void) {
  size_t all = 0, size;
  while (sshc_session_record(&session, record, sizeof record, &size) == SSHC_OK) all += size;
  return all;
}

static void host_key(void) {
  uint8_t key[51] = {0, 0, 0, 11, 's', 's', 'h', '-', 'e', 'd', '2', '5', '5', '1', '9', 0, 0, 0, 32};
  for (int i = 0; i < 32; i++) key[19 + i] = (uint8_t)(i + 1);
  put_str(key, sizeof key);
}

/* A session without a user, with a channel of ours that the server confirmed. */
static void open_channel(void) {
  sshc_settings settings;
  sshc_settings_default(&settings);
  settings.anonymous = 1;
  settings.window_size = 1U << 30;
  if (sshc_session_new(&session, &settings, (const uint8_t *)"localhost", 9, 13265, (const uint8_t *)KNOWN, sizeof KNOWN - 1) != SSHC_OK) exit(2);
  begin(0x01);
  take();
  begin(0x02);
  put_u8(1);
  host_key();
  put_text("hash of the first exchange");
  put_text("signature");
  put_u8(0);
  put_str("", 0);
  for (int i = 0; i < 5; i++) put_text("name");
  put_u8(1);
  take();
  records();
  begin(0x17);
  put_u32(7);
  take();
  size_t size;
  /* The record of the packet: 01, 90, "session" as a str, our number. */
  if (sshc_session_record(&session, record, sizeof record, &size) != SSHC_OK || size < 17 || record[1] != 90) exit(3);
  for (int i = 13; i < 17; i++) channel = channel << 8 | record[i];
  begin(0x03);
  put_u8(91);
  put_u32(channel);
  put_u32(9);
  put_u32(UINT32_MAX);
  put_u32(PACKET);
  take();
  records();
}

static double seconds(void) {
  struct timespec now;
  clock_gettime(CLOCK_PROCESS_CPUTIME_ID, &now);
  return (double)now.tv_sec + 1e-9 * (double)now.tv_nsec;
}

static void tell(const char *what, double begun, size_t bytes) {
  printf("%-34s %5.2f s, %zu bytes of records\n", what, seconds() - begun, bytes);
}

/* One packet of the server's with this many bytes, and its records. */
static size_t down(void) {
  begin(0x03);
  put_u8(94);
  put_u32(channel);
  put_str(body, PACKET);
  take();
  return records();
}

static size_t up(void) {
  begin(0x21);
  put_u32(channel);
  put_u8(0);
  put_str(body, PACKET);
  take();
  return records();
}

static size_t copied(void) {
  event_len = 0;
  put(body, PACKET);
  memcpy(record, event, PACKET);
  return record[(size_t)rand() % PACKET] + (size_t)PACKET;
}

static void measure(const char *what, size_t (*one)(void)) {
  double begun = seconds();
  size_t all = 0;
  for (int i = 0; i < PACKETS; i++) all += one();
  tell(what, begun, all);
}

int main(void) {
  memset(body, 0xa5, sizeof body);
  open_channel();
  measure("down", down);
  measure("up", up);
  measure("two copies of each packet", copied);
  sshc_session_free(&session);
  return 0;
}
