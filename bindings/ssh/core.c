#include "core.h"

#include <openssl/crypto.h>
#include <stdlib.h>
#include <time.h>

uint64_t now_ms(void) {
  struct timespec now;
  clock_gettime(CLOCK_MONOTONIC, &now);
  return (uint64_t)now.tv_sec * 1000 + (uint64_t)now.tv_nsec / 1000000;
}

sshc_status core_start(core *it, const sshc_settings *settings, slice host, uint16_t port, slice known_hosts) {
  *it = (core){.session = SSHC_SESSION_INIT};
  if (sshc_abi() >> 16 != SSHC_ABI >> 16) return SSHC_MISUSE;
  it->room = 1 << 16;
  it->record = malloc(it->room);
  if (it->record == NULL) return SSHC_NO_MEMORY;
  sshc_status made = sshc_session_new(&it->session, settings, host.at, host.len, port, known_hosts.at, known_hosts.len);
  it->is_there = made == SSHC_OK;
  return made;
}

void core_free(core *it) {
  sshc_session_free(&it->session);
  core_wipe(it);
  bytes_free(&it->event);
  free(it->record);
  *it = (core){.session = SSHC_SESSION_INIT};
}

void core_wipe(core *it) {
  bytes_wipe(&it->event);
  if (it->record != NULL) OPENSSL_cleanse(it->record, it->room);
}

bytes *core_event(core *it, uint8_t kind) {
  bytes_clear(&it->event);
  put_u32(&it->event, 0);
  put_u64(&it->event, now_ms());
  put_u8(&it->event, kind);
  return &it->event;
}

sshc_status core_take(core *it) {
  end_string(&it->event, 4);
  slice event = bytes_slice(&it->event);
  it->detail = 0;
  it->no_memory = it->event.bad;
  it->status = it->event.bad ? SSHC_NO_MEMORY : sshc_session_take(&it->session, event.at, event.len, &it->detail);
  return it->status;
}

static bool make_room(core *it, size_t size) {
  uint8_t *more = malloc(size);
  if (more == NULL) {
    it->no_memory = true;
    return false;
  }
  OPENSSL_cleanse(it->record, it->room);
  free(it->record);
  it->record = more;
  it->room = size;
  return true;
}

bool core_record(core *it, slice *record) {
  size_t size = 0;
  if (it->no_memory) return false;
  sshc_status got = sshc_session_record(&it->session, it->record, it->room, &size);
  if (got == SSHC_NO_ROOM) {
    if (!make_room(it, size)) return false;
    got = sshc_session_record(&it->session, it->record, it->room, &size);
  }
  if (got != SSHC_OK) return false;
  *record = slice_of(it->record, size);
  return true;
}
