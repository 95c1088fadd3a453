/* Between the transport and the core: what came becomes events, and records become packets and what the caller sees. */
#include "connection.h"

#include <openssl/crypto.h>
#include <stdio.h>
#include <string.h>

enum {
  DISCONNECT = 1, USERAUTH_REQUEST = 50, USERAUTH_INFO_RESPONSE = 61, CHANNEL_OPEN = 90, CHANNEL_OPEN_CONFIRMATION = 91,
  CHANNEL_WINDOW_ADJUST = 93, CHANNEL_CLOSE = 97, MOST_EARLY = 256
};

/* ---- events that wait */

bytes *todo_begin(sazh_connection *it, uint8_t kind, size_t *begun) {
  if (bytes_count(&it->todo) > MOST_TODO) {
    end(it, SAZH_NO_MEMORY, "too many requests wait for a key exchange");
    bytes_clear(&it->todo);
  }
  *begun = begin_string(&it->todo);
  put_u8(&it->todo, kind);
  return &it->todo;
}

void todo_end(sazh_connection *it, size_t begun) {
  end_string(&it->todo, begun);
  if (it->todo.bad) end_no_memory(it);
}

/* No event of the user's may come while keys are exchanged (docs/FORMATS.md, "What a driver has to do"). */
bool may_ask(const sazh_connection *it) {
  return (it->phase == PHASE_SECURED || it->phase == PHASE_OPEN) && it->core.is_there && it->line.state == KEX_IDLE;
}

void run_todo(sazh_connection *it) {
  while (bytes_count(&it->todo) != 0 && may_ask(it)) {
    reader all = read_slice(bytes_slice(&it->todo));
    slice event = get_string(&all);
    bool is_secret = event.at[0] == SSHC_EVENT_AUTHENTICATE || event.at[0] == SSHC_EVENT_AUTH_INFO_RESPONSE;
    bytes *to = core_event(&it->core, event.at[0]);
    put(to, event.at + 1, event.len - 1);
    if (is_secret) OPENSSL_cleanse(bytes_front(&it->todo), 4 + event.len);
    bytes_take(&it->todo, 4 + event.len);
    deliver(it);
    if (is_secret) core_wipe(&it->core);
  }
}

/* ---- records */

/* A window that the core gives back is held until the caller has read what waits, so that a channel that isn't read keeps
 * its own bound and stops no other. Nothing of a channel may follow its CLOSE. */
static void send_packet(sazh_connection *it, slice packet) {
  if (packet.len >= 9 && packet.at[0] == CHANNEL_WINDOW_ADJUST) {
    sazh_channel *at = channel_of_peer(it, load_u32(packet.at + 1));
    if (at != NULL) {
      channel_hold(at, load_u32(packet.at + 5));
      return;
    }
  }
  if (packet.len >= 5 && packet.at[0] == CHANNEL_CLOSE) {
    sazh_channel *at = channel_of_peer(it, load_u32(packet.at + 1));
    if (at != NULL) at->close_sent = true;
  }
  transport_send(&it->line, packet);
}

static void show_banner(sazh_connection *it, slice text) {
  if (++it->banners > MOST_BANNERS) {
    end(it, SAZH_BAD_PACKET, "too many banners");
    return;
  }
  if (it->set.banner != NULL) it->set.banner(it->set.own, (const char *)text.at, text.len);
}

static void resolved(sazh_connection *it, reader *fields) {
  uint32_t ticket = get_u32(fields);
  uint8_t how = get_u8(fields);
  if (ticket == it->login.ticket && it->login.pending) {
    login_resolved(it, how, fields);
    return;
  }
  if (forward_resolved(it, ticket, how, fields)) return;
  for (sazh_channel *at = it->channels; at != NULL; at = at->next) {
    if (at->ticket != ticket) continue;
    uint32_t number = get_u32(fields);
    if (how == SSHC_RESOLVED_CHANNEL_OPENED) channel_opened(at, number);
    else channel_open_failed(at, number);
    return;
  }
}

static void take_record(sazh_connection *it, slice record) {
  reader fields = read_slice(record);
  uint8_t kind = get_u8(&fields);
  switch (kind) {
  case SSHC_RECORD_PAYLOAD:
    send_packet(it, slice_of(record.at + 1, record.len - 1));
    if (record.len > 1 && (record.at[1] == USERAUTH_REQUEST || record.at[1] == USERAUTH_INFO_RESPONSE)) OPENSSL_cleanse(it->core.record, record.len);
    break;
  case SSHC_RECORD_BEGIN_EXCHANGE: transport_begin_exchange(&it->line); break;
  case SSHC_RECORD_OPENED: login_opened(it); break;
  case SSHC_RECORD_RESOLVED: resolved(it, &fields); break;
  case SSHC_RECORD_SIGN_KEY:
  case SSHC_RECORD_SIGN_CERTIFICATE: login_sign(it, &fields); break;
  case SSHC_RECORD_PROMPTS: login_prompts(it, &fields); break;
  case SSHC_RECORD_AUTH_BANNER: show_banner(it, get_string(&fields)); break;
  case SSHC_RECORD_SERVER_OPENED: server_opened(it, &fields); break;
  default: channel_record(it, kind, &fields); break;
  }
}

bool deliver(sazh_connection *it) {
  sshc_status status = core_take(&it->core);
  uint64_t detail = it->core.detail;
  slice record;
  while (core_record(&it->core, &record)) take_record(it, record);
  it->refused = NULL;
  if (it->core.no_memory) status = SSHC_NO_MEMORY;
  if (it->line.ended) end(it, it->line.code, "%s", it->line.failure);
  if (status == SSHC_OK) return it->phase != PHASE_OVER;
  transport_write(&it->line);
  end_by_status(it, status, detail);
  return false;
}

static void simple_event(sazh_connection *it, uint8_t kind) {
  core_event(&it->core, kind);
  deliver(it);
}

/* ---- the first exchange: the session is made once the known hosts, and maybe the user, accepted the key */

static void put_early(sazh_connection *it, uint8_t kind, slice packet) {
  size_t begun = begin_string(&it->early);
  put_u8(&it->early, kind);
  put(&it->early, packet.at, packet.len);
  end_string(&it->early, begun);
  if (it->early.bad) end_no_memory(it);
  if (bytes_count(&it->early) > MOST_EARLY * 1024) end(it, SAZH_BAD_PACKET, "too many packets before the first key exchange");
}

static void put_exchange(sazh_connection *it) {
  transport *line = &it->line;
  bytes *to = core_event(&it->core, SSHC_EVENT_EXCHANGE_DONE);
  put_u8(to, 1);
  put_string(to, bytes_slice(&line->host_key));
  put_string(to, slice_of(line->hash, 32));
  put_string(to, bytes_slice(&line->signature));
  put_u8(to, 0);
  put_text(to, "");
  put_string(to, line->chosen.kex);
  put_string(to, line->chosen.key);
  put_string(to, line->chosen.cipher_out);
  put_string(to, line->chosen.mac_out);
  put_string(to, line->chosen.mac_in);
  put_u8(to, line->strict);
}

static void hand_in_exchange(sazh_connection *it) {
  put_exchange(it);
  it->begun_exchange = now_ms();
  it->exchange_since = 0;
  if (deliver(it)) transport_release(&it->line);
}

/* The session judges by the narrow reading. Once the known hosts accepted the key as OpenSSH reads them, or the user did, it
 * gets the one line that has this key for this host, and so goes on with no other. */
static bool start_core(sazh_connection *it) {
  sshc_settings settings;
  sshc_settings_default(&settings);
  settings.keepalive_interval = it->set.keepalive_seconds * 1000ull;
  settings.keepalive_max = it->set.keepalive_max;
  settings.window_size = it->set.window;
  slice host = text_of(it->look);
  bytes line = {0};
  sshc_status made = it->is_narrow ? SSHC_OK : hosts_line(host, it->look_port, bytes_slice(&it->line.host_key), &line);
  if (made == SSHC_OK) made = core_start(&it->core, &settings, host, it->look_port, bytes_slice(it->is_narrow ? &it->hosts.text : &line));
  bytes_free(&line);
  if (made != SSHC_OK) end_by_status(it, made, 0);
  return made == SSHC_OK;
}

void begin_session(sazh_connection *it) {
  it->phase = PHASE_EXCHANGING;
  if (!start_core(it)) return;
  reader early = read_slice(bytes_slice(&it->early));
  while (early.left != 0 && it->phase != PHASE_OVER) {
    slice event = get_string(&early);
    bytes *to = core_event(&it->core, event.at[0]);
    put(to, event.at + 1, event.len - 1);
    deliver(it);
  }
  bytes_clear(&it->early);
  if (it->phase == PHASE_OVER) return;
  hand_in_exchange(it);
  if (it->phase == PHASE_EXCHANGING) it->phase = PHASE_SECURED;
}

static void name_to(char to[64], slice name) { copy_safe(to, 64, name); }

static void first_exchange(sazh_connection *it) {
  transport *line = &it->line;
  name_to(it->kex, line->chosen.kex);
  name_to(it->host_algorithm, line->chosen.key);
  name_to(it->cipher_out, line->chosen.cipher_out);
  name_to(it->cipher_in, line->chosen.cipher_in);
  name_to(it->mac_out, line->chosen.mac_out);
  name_to(it->mac_in, line->chosen.mac_in);
  slice key = bytes_slice(&line->host_key);
  reader blob = read_slice(key);
  name_to(it->key_type, get_string(&blob));
  fingerprint_of(key, it->fingerprint);
  uint64_t at = 0;
  sshc_status says = hosts_judge(bytes_slice(&it->hosts.text), it->is_narrow, text_of(it->look), it->look_port, key, &at);
  sazh_code code = judged(it, says, at);
  if (code == SAZH_OK) begin_session(it);
  else if (code == SAZH_HOST_UNKNOWN) it->phase = PHASE_ASKING;
}

/* ---- what comes */

/* The server's words of DISCONNECT (RFC 4253, section 11.1), which the core's status leaves out. */
static void note_disconnect(sazh_connection *it, slice packet) {
  reader fields = read_slice(packet);
  get_u8(&fields);
  uint32_t reason = get_u32(&fields);
  slice words = get_string(&fields);
  if (fields.bad) return;
  copy_safe(it->server_words, sizeof it->server_words, words);
  it->failed.error.reason = reason;
}

static void note_opening(sazh_connection *it, slice packet) {
  reader fields = read_slice(packet);
  bool is_theirs = get_u8(&fields) == CHANNEL_OPEN;
  if (is_theirs) get_string(&fields);
  uint32_t ours = is_theirs ? 0 : get_u32(&fields);
  uint32_t peer = get_u32(&fields), window = get_u32(&fields), most = get_u32(&fields);
  it->last = (opening){ours, peer, window, most};
}

static void take_packet(sazh_connection *it, slice packet) {
  if (packet.at[0] == CHANNEL_OPEN || packet.at[0] == CHANNEL_OPEN_CONFIRMATION) note_opening(it, packet);
  if (packet.at[0] == DISCONNECT) note_disconnect(it, packet);
  uint32_t reason = it->failed.error.reason;
  if (!it->core.is_there) {
    put_early(it, SSHC_EVENT_PAYLOAD, packet);
    if (packet.at[0] == DISCONNECT) end_by_status(it, SSHC_REMOTE_DISCONNECT, 0);
  } else {
    bytes *to = core_event(&it->core, SSHC_EVENT_PAYLOAD);
    put(to, packet.at, packet.len);
    deliver(it);
  }
  if (packet.at[0] == DISCONNECT) it->failed.error.reason = reason;
}

static void take_end(sazh_connection *it) {
  if (it->core.is_there) {
    core_event(&it->core, SSHC_EVENT_TRANSPORT_FAILED);
    core_take(&it->core);
  }
  if (it->jump_channel != NULL && it->jump_channel->is_refused)
    end(it, SAZH_NO_CONNECTION, "the jump host can't connect to %s port %u: %s", it->host, (unsigned)it->port, it->jump_channel->message);
  end(it, it->line.code, "%s", it->line.failure);
  it->failed.error.system = it->line.system;
}

void take_arrivals(sazh_connection *it) {
  while (it->phase != PHASE_OVER && it->phase != PHASE_ASKING) {
    arrival came = transport_next(&it->line);
    if (came.kind != ARRIVED_NOTHING) it->changes++;
    switch (came.kind) {
    case ARRIVED_NOTHING:
      if (!it->line.closed) return;
      transport_end(&it->line); /* all that came before the end is taken */
      break;
    case ARRIVED_KEXINIT:
      if (it->core.is_there) simple_event(it, SSHC_EVENT_PEER_KEXINIT);
      else put_early(it, SSHC_EVENT_PEER_KEXINIT, (slice){NULL, 0});
      break;
    case ARRIVED_EXCHANGE:
      if (it->core.is_there) hand_in_exchange(it);
      else first_exchange(it);
      break;
    case ARRIVED_PACKET: take_packet(it, came.packet); break;
    case ARRIVED_END: take_end(it); break;
    }
    run_todo(it);
  }
}
