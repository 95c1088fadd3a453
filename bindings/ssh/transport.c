#include "transport.h"

#include <errno.h>
#include <openssl/crypto.h>
#include <stdarg.h>
#include <stdio.h>
#include <stdlib.h>
#include <string.h>

enum {
  DISCONNECT = 1, IGNORE = 2, DEBUG = 4, KEXINIT = 20, NEWKEYS = 21, KEX_ECDH_INIT = 30, KEX_ECDH_REPLY = 31,
  LONGEST_PACKET = 262144, /* of the padded part; the core takes packets of at most 32768 bytes of data */
  LONGEST_VERSION = 255,
  MOST_LINES = 64, /* before the version line */
  MOST_WAITS = 64 << 20
};

static const char OUR_VERSION[] = "SSH-2.0-Sazhonthil_0.1";
static const char OUR_KEX[] = "curve25519-sha256,curve25519-sha256@libssh.org,ecdh-sha2-nistp256";
const char DEFAULT_CIPHERS[] = "aes256-gcm@openssh.com,chacha20-poly1305@openssh.com,aes256-ctr";
const char DEFAULT_HOST_KEYS[] = "ssh-ed25519,ecdsa-sha2-nistp256,ecdsa-sha2-nistp384,ecdsa-sha2-nistp521,rsa-sha2-512,rsa-sha2-256";

static const arrival NOTHING = {ARRIVED_NOTHING, {NULL, 0}}, END = {ARRIVED_END, {NULL, 0}};

/* The first failure counts. */
static arrival failed(transport *it, sazh_code code, const char *format, ...) __attribute__((format(printf, 3, 4)));

static arrival failed(transport *it, sazh_code code, const char *format, ...) {
  if (it->ended) return END;
  char line[sizeof it->failure];
  va_list given;
  va_start(given, format);
  vsnprintf(line, sizeof line, format, given);
  va_end(given);
  copy_safe(it->failure, sizeof it->failure, text_of(line));
  it->code = code;
  it->ended = true;
  return END;
}

static arrival no_memory(transport *it) { return failed(it, SAZH_NO_MEMORY, "out of memory"); }

static arrival no_crypto(transport *it) { return failed(it, SAZH_CRYPTO, "libcrypto failed"); }

static arrival bad_packet(transport *it, const char *what) { return failed(it, SAZH_BAD_PACKET, "%s", what); }

/* ---- packets out */

static void send_now(transport *it, slice packet) {
  size_t block = cipher_block_len(it->seal.kind), tag = cipher_tag_len(it->seal.kind);
  size_t counted = packet.len + 1 + (it->seal.kind == CIPHER_NONE ? 4 : 0);
  size_t padding = block - counted % block;
  if (padding < 4) padding += block;
  size_t len = 1 + packet.len + padding;
  uint8_t *at = it->ended ? NULL : bytes_room(&it->out, 4 + len + tag);
  if (at == NULL) {
    no_memory(it);
    return;
  }
  store_u32(at, (uint32_t)len);
  at[4] = (uint8_t)padding;
  memcpy(at + 5, packet.at, packet.len);
  if (!random_bytes(at + 5 + packet.len, padding) || !cipher_seal(&it->seal, it->seq_out++, at, 4 + len)) {
    OPENSSL_cleanse(at, 4 + len + tag);
    no_crypto(it);
    return;
  }
  bytes_grew(&it->out, 4 + len + tag);
  it->bytes_since += len;
  it->packets_since++;
}

static void flush_held(transport *it) {
  while (bytes_count(&it->held) != 0) {
    reader held = read_slice(bytes_slice(&it->held));
    slice packet = get_string(&held);
    send_now(it, packet);
    bytes_take(&it->held, 4 + packet.len);
  }
  bytes_wipe(&it->held); /* a password may have been among them */
}

void transport_send(transport *it, slice packet) {
  if (packet.len == 0 || it->cant_write) return;
  if (bytes_count(&it->out) + bytes_count(&it->held) > MOST_WAITS) {
    bad_packet(it, "too much waits to be sent");
    return;
  }
  if ((it->state == KEX_IDLE && !it->is_held) || packet.at[0] == DISCONNECT)
    send_now(it, packet);
  else
    put_string(&it->held, packet);
  if (it->held.bad) no_memory(it);
}

void transport_release(transport *it) {
  it->is_held = false;
  flush_held(it);
}

/* ---- KEXINIT (RFC 4253, section 7.1) */

static void put_kexinit(transport *it, bytes *to) {
  uint8_t cookie[16];
  if (!random_bytes(cookie, sizeof cookie)) no_crypto(it);
  put_u8(to, KEXINIT);
  put(to, cookie, sizeof cookie);
  size_t at = begin_string(to);
  put(to, OUR_KEX, sizeof OUR_KEX - 1);
  if (it->is_first) {
    static const char EXTENSIONS[] = ",ext-info-c,kex-strict-c-v00@openssh.com";
    put(to, EXTENSIONS, sizeof EXTENSIONS - 1);
  }
  end_string(to, at);
  put_text(to, it->host_key_algorithms);
  for (int i = 0; i < 2; i++) put_text(to, it->ciphers);
  for (int i = 0; i < 2; i++) put_text(to, "hmac-sha2-256-etm@openssh.com");
  for (int i = 0; i < 2; i++) put_text(to, "none");
  for (int i = 0; i < 2; i++) put_text(to, "");
  put_u8(to, 0);
  put_u32(to, 0);
}

void transport_begin_exchange(transport *it) {
  if (it->state != KEX_IDLE) return;
  bytes_clear(&it->our_init);
  put_kexinit(it, &it->our_init);
  if (it->our_init.bad) no_memory(it);
  if (it->ended) return;
  send_now(it, bytes_slice(&it->our_init));
  it->state = KEX_SENT;
}

/* The first of our names that the peer has too; nothing where there is none. */
static slice choose(const char *ours, slice theirs) {
  slice list = text_of(ours);
  while (list.len != 0) {
    slice name = next_name(&list);
    if (list_has(theirs, name)) return name;
  }
  return (slice){NULL, 0};
}

static const char *mac_of(slice name) {
  return cipher_named(name) == CIPHER_AES256_CTR_ETM ? "hmac-sha2-256-etm@openssh.com" : "";
}

static kex_kind kex_named(slice name) {
  if (slice_is(name, "ecdh-sha2-nistp256")) return KEX_NISTP256;
  return name.len == 0 ? KEX_NONE : KEX_CURVE25519;
}

/* Chooses the names by both KEXINITs; false where a list has none in common. */
static bool negotiate(transport *it) {
  reader init = read_slice(bytes_slice(&it->peer_init));
  get_u8(&init);
  for (int i = 0; i < 16; i++) get_u8(&init);
  slice lists_of[10];
  for (int i = 0; i < 10; i++) lists_of[i] = get_string(&init);
  bool follows = get_bool(&init);
  get_u32(&init);
  if (init.bad) return false;
  names *c = &it->chosen;
  c->kex = choose(OUR_KEX, lists_of[0]);
  c->key = choose(it->host_key_algorithms, lists_of[1]);
  c->cipher_out = choose(it->ciphers, lists_of[2]);
  c->cipher_in = choose(it->ciphers, lists_of[3]);
  c->mac_out = text_of(mac_of(c->cipher_out));
  c->mac_in = text_of(mac_of(c->cipher_in));
  bool macs = (c->mac_out.len == 0 || list_has(lists_of[4], c->mac_out)) && (c->mac_in.len == 0 || list_has(lists_of[5], c->mac_in));
  bool plain = list_has(lists_of[6], text_of("none")) && list_has(lists_of[7], text_of("none"));
  slice first_kex = next_name(&lists_of[0]), first_key = next_name(&lists_of[1]);
  it->peers_guess = follows && !(slices_equal(first_kex, c->kex) && slices_equal(first_key, c->key));
  if (it->is_first) {
    reader again = read_slice(bytes_slice(&it->peer_init));
    for (int i = 0; i < 17; i++) get_u8(&again);
    it->strict = list_has(get_string(&again), text_of("kex-strict-s-v00@openssh.com"));
  }
  bool sealed = cipher_named(c->cipher_out) != CIPHER_NONE && cipher_named(c->cipher_in) != CIPHER_NONE;
  return c->kex.len != 0 && c->key.len != 0 && sealed && macs && plain;
}

static void answer_kexinit(transport *it) {
  it->kind = kex_named(it->chosen.kex);
  EVP_PKEY_free(it->ours);
  it->ours = kex_make(it->kind);
  bytes packet = {0};
  put_u8(&packet, KEX_ECDH_INIT);
  size_t begun = begin_string(&packet);
  bool made = it->ours != NULL && kex_public(it->kind, it->ours, &packet);
  end_string(&packet, begun);
  if (packet.bad) no_memory(it);
  else if (!made) no_crypto(it);
  else send_now(it, bytes_slice(&packet));
  bytes_free(&packet);
  it->state = KEX_ANSWERED;
}

/* The peer's KEXINIT: it answers ours, or we answer it. */
static arrival take_kexinit(transport *it, slice packet) {
  if (it->state != KEX_IDLE && it->state != KEX_SENT) return bad_packet(it, "a KEXINIT within an exchange");
  transport_begin_exchange(it);
  bytes_clear(&it->peer_init);
  put(&it->peer_init, packet.at, packet.len);
  if (it->peer_init.bad) return no_memory(it);
  if (!negotiate(it)) return failed(it, SAZH_NO_ALGORITHM, "no algorithm in common with the server");
  if (it->is_first && it->strict && it->seq_in != 1) return bad_packet(it, "a packet before the server's KEXINIT");
  answer_kexinit(it);
  return it->ended ? END : (arrival){ARRIVED_KEXINIT, {NULL, 0}};
}

/* ---- the exchange (RFC 8731; RFC 5656, section 4) */

static bool hash_exchange(transport *it, slice ours, slice theirs) {
  bytes all = {0};
  put_text(&all, it->our_version);
  put_text(&all, it->peer_version);
  put_string(&all, bytes_slice(&it->our_init));
  put_string(&all, bytes_slice(&it->peer_init));
  put_string(&all, bytes_slice(&it->host_key));
  put_string(&all, ours);
  put_string(&all, theirs);
  put_mpint(&all, bytes_slice(&it->secret));
  bool done = !all.bad && sha256(bytes_slice(&all), it->hash);
  bytes_free(&all);
  return done;
}

/* A key of so many bytes (RFC 4253, section 7.2). */
static bool derive_key(transport *it, char letter, uint8_t *to, size_t len) {
  bytes all = {0};
  uint8_t block[32];
  bool done = true;
  for (size_t made = 0; done && made < len; made += 32) {
    bytes_clear(&all);
    put_mpint(&all, bytes_slice(&it->secret));
    put(&all, it->hash, 32);
    if (made == 0) {
      put_u8(&all, (uint8_t)letter);
      put(&all, bytes_front(&it->session_id), 32);
    } else {
      put(&all, to, made);
    }
    done = !all.bad && sha256(bytes_slice(&all), block);
    if (done) memcpy(to + made, block, len - made < 32 ? len - made : 32);
  }
  OPENSSL_cleanse(block, sizeof block);
  bytes_free(&all);
  return done;
}

static bool set_keys(transport *it, cipher *to, cipher_kind kind, const char letters[3], bool seals) {
  uint8_t iv[64], key[64], mac[64];
  bool done = derive_key(it, letters[0], iv, cipher_iv_len(kind)) && derive_key(it, letters[1], key, cipher_key_len(kind)) &&
              derive_key(it, letters[2], mac, cipher_mac_key_len(kind)) && cipher_set(to, kind, key, iv, mac, seals);
  OPENSSL_cleanse(iv, sizeof iv);
  OPENSSL_cleanse(key, sizeof key);
  OPENSSL_cleanse(mac, sizeof mac);
  return done;
}

static void send_new_keys(transport *it) {
  uint8_t packet = NEWKEYS;
  send_now(it, slice_of(&packet, 1));
  if (it->strict) it->seq_out = 0;
  if (!set_keys(it, &it->seal, cipher_named(it->chosen.cipher_out), "ACE", true) ||
      !set_keys(it, &it->next_open, cipher_named(it->chosen.cipher_in), "BDF", false))
    no_crypto(it);
  it->state = KEX_NEW_KEYS;
}

/* The secret and the hash of the exchange; nothing is trusted before the server's signature over the hash is verified. */
static arrival take_secret(transport *it, slice theirs) {
  bytes_wipe(&it->secret);
  if (!kex_secret(it->kind, it->ours, theirs, &it->secret)) return bad_packet(it, "a bad public value in the key exchange");
  bytes public = {0};
  bool done = kex_public(it->kind, it->ours, &public) && hash_exchange(it, bytes_slice(&public), theirs);
  bytes_free(&public);
  EVP_PKEY_free(it->ours);
  it->ours = NULL;
  return done ? NOTHING : no_crypto(it);
}

static arrival take_reply(transport *it, slice packet) {
  if (it->state != KEX_ANSWERED || it->ours == NULL) return bad_packet(it, "a reply without an exchange");
  reader reply = read_slice(packet);
  get_u8(&reply);
  slice key = get_string(&reply), theirs = get_string(&reply), signature = get_string(&reply);
  if (reply.bad || reply.left != 0) return bad_packet(it, "a broken reply to the key exchange");
  bytes_clear(&it->host_key);
  put(&it->host_key, key.at, key.len);
  bytes_clear(&it->signature);
  put(&it->signature, signature.at, signature.len);
  if (it->host_key.bad || it->signature.bad) return no_memory(it);
  if (take_secret(it, theirs).kind == ARRIVED_END) return END;
  if (!verify_signature(it->chosen.key, key, signature, slice_of(it->hash, 32)))
    return failed(it, SAZH_BAD_SIGNATURE, "the server's signature over the key exchange is wrong");
  if (it->is_first) put(&it->session_id, it->hash, 32);
  if (it->session_id.bad) return no_memory(it);
  send_new_keys(it);
  return it->ended ? END : NOTHING;
}

static arrival take_new_keys(transport *it) {
  if (it->state != KEX_NEW_KEYS) return bad_packet(it, "NEWKEYS without an exchange");
  cipher_free(&it->open);
  it->open = it->next_open;
  it->next_open = (cipher){0};
  if (it->strict) it->seq_in = 0;
  it->state = KEX_IDLE;
  it->is_first = false;
  it->bytes_since = it->packets_since = 0;
  bytes_wipe(&it->secret);
  it->is_held = true;
  return (arrival){ARRIVED_EXCHANGE, {NULL, 0}};
}

/* ---- packets in */

static bool is_exchanges(uint8_t number) { return number >= 20 && number <= 49; }

static arrival take_packet(transport *it, slice packet) {
  if (packet.len == 0) return bad_packet(it, "an empty packet");
  uint8_t number = packet.at[0];
  bool running = it->state == KEX_ANSWERED || it->state == KEX_NEW_KEYS;
  if (it->peers_guess && is_exchanges(number) && number != KEXINIT) {
    it->peers_guess = false;
    return NOTHING;
  }
  if (number == KEXINIT) return take_kexinit(it, packet);
  if (number == NEWKEYS) return take_new_keys(it);
  if (number == KEX_ECDH_REPLY) return take_reply(it, packet);
  if (is_exchanges(number)) return failed(it, SAZH_BAD_PACKET, "a packet %d out of turn", number);
  bool first = it->is_first && (running || it->state == KEX_SENT);
  if (first && it->strict && number != DISCONNECT) return failed(it, SAZH_BAD_PACKET, "a packet %d within the strict exchange", number);
  return (arrival){ARRIVED_PACKET, packet};
}

static bool take_version_line(transport *it, slice line) {
  it->peer_version = copy_text(line);
  if (it->peer_version == NULL) no_memory(it);
  else if (strncmp(it->peer_version, "SSH-2.0-", 8) != 0 && strncmp(it->peer_version, "SSH-1.99-", 9) != 0)
    failed(it, SAZH_BAD_PACKET, "the server speaks another SSH: %.60s", it->peer_version);
  return !it->ended;
}

/* The server's version line; lines before it are passed over (RFC 4253, section 4.2). */
static bool take_version(transport *it) {
  for (;;) {
    slice in = bytes_slice(&it->in);
    const uint8_t *end = in.len == 0 ? NULL : memchr(in.at, '\n', in.len);
    if (end == NULL && in.len <= LONGEST_VERSION * 8) return false;
    if (end == NULL || it->lines_before++ == MOST_LINES) {
      bad_packet(it, "no version line of SSH");
      return false;
    }
    size_t len = (size_t)(end - in.at), line = len != 0 && in.at[len - 1] == '\r' ? len - 1 : len;
    bool is_version = line >= 4 && memcmp(in.at, "SSH-", 4) == 0;
    bool taken = is_version && take_version_line(it, slice_of(in.at, line));
    bytes_take(&it->in, len + 1);
    if (is_version) return taken;
  }
}

/* The next packet that is there whole, opened; ARRIVED_NOTHING with no bytes where there is none. */
static arrival open_packet(transport *it, size_t *used) {
  size_t count = bytes_count(&it->in), tag = cipher_tag_len(it->open.kind);
  if (count < 4) return NOTHING;
  uint8_t *at = bytes_front(&it->in);
  uint32_t len;
  if (!cipher_length(&it->open, it->seq_in, at, &len)) return no_crypto(it);
  size_t block = cipher_block_len(it->open.kind), whole = it->open.kind == CIPHER_NONE ? (size_t)len + 4 : len;
  if (len < 5 || len > LONGEST_PACKET || whole % block != 0) return bad_packet(it, "a packet of a bad length");
  if (count < 4 + len + tag) return NOTHING;
  opened how = cipher_open(&it->open, it->seq_in, at, 4 + len);
  if (how == OPEN_FAULT) return no_crypto(it);
  if (how == OPEN_BAD_TAG) return bad_packet(it, "a packet with a bad tag");
  it->seq_in++;
  uint8_t padding = at[4];
  if (padding < 4 || padding + 1u > len) return bad_packet(it, "a packet with bad padding");
  it->bytes_since += len;
  it->packets_since++;
  *used = 4 + len + tag;
  return (arrival){ARRIVED_PACKET, slice_of(at + 5, len - padding - 1)};
}

arrival transport_next(transport *it) {
  bytes_take(&it->in, it->taken);
  it->taken = 0;
  while (!it->ended) {
    if (it->peer_version == NULL && !take_version(it)) break;
    size_t used = 0;
    arrival came = open_packet(it, &used);
    if (came.kind != ARRIVED_PACKET) break;
    came = take_packet(it, came.packet);
    if (came.kind == ARRIVED_PACKET) {
      it->taken = used;
      return came;
    }
    bytes_take(&it->in, used);
    if (came.kind != ARRIVED_NOTHING) return came;
  }
  return it->ended ? END : NOTHING;
}

/* ---- the wire */

/* An end or an error is noted: the packets that came before it are taken first. */
static void note_end(transport *it, int error) {
  it->closed = true;
  if (it->system == 0) it->system = error;
}

void transport_read(transport *it) {
  for (int i = 0; i < 4 && !it->ended && !it->closed; i++) {
    size_t room = 65536;
    uint8_t *at = bytes_room(&it->in, room);
    if (at == NULL) {
      no_memory(it);
      return;
    }
    long got = it->wire.read(it->wire.own, at, room);
    if (got > 0) bytes_grew(&it->in, (size_t)got);
    else if (got == 0) note_end(it, 0);
    else if (got == WIRE_FAILED) note_end(it, errno);
    else if (it->cant_write) note_end(it, 0); /* all that came is read */
    if (got < (long)room) return;
  }
}

void transport_write(transport *it) {
  while (bytes_count(&it->out) != 0 && !it->cant_write) {
    long written = it->wire.write(it->wire.own, bytes_front(&it->out), bytes_count(&it->out));
    if (written == WIRE_AGAIN) return;
    if (written < 0) {
      it->system = errno;
      it->cant_write = true;
      bytes_clear(&it->out);
      return;
    }
    bytes_take(&it->out, (size_t)written);
    it->written += (uint64_t)written;
  }
}

void transport_end(transport *it) {
  if (it->system == 0) failed(it, SAZH_CLOSED, "the server closed the connection");
  else failed(it, SAZH_CLOSED, "the connection failed: %s", strerror(it->system));
}

size_t transport_waiting(const transport *it) { return it->cant_write ? 0 : bytes_count(&it->out); }

bool transport_is_worn(const transport *it, uint64_t most_bytes, uint64_t most_packets) {
  return it->state == KEX_IDLE && (it->bytes_since >= most_bytes || it->packets_since >= most_packets);
}

static bool names_known(slice list, bool (*is_known)(slice)) {
  if (list.len == 0) return false;
  while (list.len != 0)
    if (!is_known(next_name(&list))) return false;
  return true;
}

static bool is_cipher(slice name) { return cipher_named(name) != CIPHER_NONE; }

static bool is_host_key(slice name) { return name.len != 0 && list_has(text_of(DEFAULT_HOST_KEYS), name); }

bool cipher_names_known(slice list) { return names_known(list, is_cipher); }

bool host_key_names_known(slice list) { return names_known(list, is_host_key); }

void transport_start(transport *it, wire over, const char *ciphers, const char *host_key_algorithms) {
  *it = (transport){.wire = over, .is_first = true, .ciphers = ciphers, .host_key_algorithms = host_key_algorithms};
  it->our_version = copy_text(text_of(OUR_VERSION));
  put(&it->out, OUR_VERSION, sizeof OUR_VERSION - 1);
  put(&it->out, "\r\n", 2);
  if (it->our_version == NULL || it->out.bad) no_memory(it);
  transport_begin_exchange(it);
}

void transport_free(transport *it) {
  bytes *all[] = {&it->in, &it->out, &it->held, &it->our_init, &it->peer_init, &it->session_id, &it->secret, &it->host_key, &it->signature};
  for (size_t i = 0; i < sizeof all / sizeof *all; i++) bytes_free(all[i]);
  cipher_free(&it->open);
  cipher_free(&it->seal);
  cipher_free(&it->next_open);
  EVP_PKEY_free(it->ours);
  free(it->our_version);
  free(it->peer_version);
  *it = (transport){0};
}
