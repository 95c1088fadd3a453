/* The proved core: events are handed in, and its records are read one by one. */
#ifndef SAZHONTHIL_SSH_CORE_H
#define SAZHONTHIL_SSH_CORE_H

#include "bytes.h"

#include <sazhonthil.h>

typedef struct core {
  sshc_session session;
  bool is_there;
  bytes event;
  uint8_t *record; /* memory of `room` bytes for the record that was read last */
  size_t room;
  bool no_memory;  /* a record or an event found no room */
  sshc_status status; /* of the last event */
  uint64_t detail;
} core;

/* Makes the session; what the core answers. */
sshc_status core_start(core *it, const sshc_settings *settings, slice host, uint16_t port, slice known_hosts);
void core_free(core *it);
/* Begins an event; its fields are put into what this returns, and `core_take` hands it in. */
bytes *core_event(core *it, uint8_t kind);
sshc_status core_take(core *it);
/* The next record of the last event; false after the last one. */
bool core_record(core *it, slice *record);
/* Overwrites what is left of the last event and record, which held a secret. */
void core_wipe(core *it);
/* A clock that is never set back: the moments of events. */
uint64_t now_ms(void);

#endif
