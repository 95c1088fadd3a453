/* Errors as values: what each code says, and how the core's statuses become errors of a connection. */
#include "connection.h"

#include <errno.h>
#include <stdarg.h>
#include <stdio.h>
#include <string.h>

static const char *const TEXTS[] = {
    [SAZH_OK] = "all is well",
    [SAZH_AGAIN] = "not yet",
    [SAZH_EOF] = "the end of the stream",
    [SAZH_MISUSE] = "this call can't be made now, or not with these values",
    [SAZH_NO_MEMORY] = "out of memory",
    [SAZH_CRYPTO] = "libcrypto failed",
    [SAZH_SYSTEM] = "a call of the system failed",
    [SAZH_BAD_NAME] = "the host's name has a sign that no name has",
    [SAZH_NO_ADDRESS] = "the host's name has no address",
    [SAZH_NO_CONNECTION] = "the host takes no connection",
    [SAZH_TIMEOUT] = "the server took too long",
    [SAZH_CLOSED] = "the server closed the connection",
    [SAZH_BAD_PACKET] = "the server sent what the transport can't take",
    [SAZH_NO_ALGORITHM] = "no algorithm in common with the server",
    [SAZH_BAD_SIGNATURE] = "the server doesn't have the host key that it showed",
    [SAZH_HOST_UNKNOWN] = "the server's host key isn't in the known hosts",
    [SAZH_HOST_CHANGED] = "the known hosts have another host key",
    [SAZH_HOST_REVOKED] = "the server's host key is revoked",
    [SAZH_HOST_REKEYED] = "the server showed another host key later",
    [SAZH_HOSTS_FILE] = "the known hosts can't be read or written",
    [SAZH_REFUSED_BY_CORE] = "the server sent what it may not send",
    [SAZH_DISCONNECTED] = "the server ended the session",
    [SAZH_NO_ANSWER] = "the server doesn't answer any more",
    [SAZH_DENIED] = "permission denied",
    [SAZH_NO_METHOD] = "the server names no method of logging in that is known",
    [SAZH_NO_AGENT] = "there is no agent",
    [SAZH_NO_KEY] = "the agent has no key that can be tried",
    [SAZH_KEY_FILE] = "the file isn't a private key that can be read",
    [SAZH_PASSPHRASE] = "the passphrase is wrong, or there is none",
    [SAZH_SIGNING] = "the key didn't sign",
    [SAZH_NO_ANSWERS] = "there were no answers to the server's prompts",
    [SAZH_CHANNEL_REFUSED] = "the server opens no such channel",
    [SAZH_REQUEST_REFUSED] = "the server refused the request",
    [SAZH_CHANNEL_CLOSED] = "the channel is closed",
    [SAZH_FORWARD_REFUSED] = "the server forwards no port",
    [SAZH_CANNOT_LISTEN] = "can't listen there",
};

const char *sazh_code_text(sazh_code code) {
  size_t at = (size_t)code;
  return at < sizeof TEXTS / sizeof *TEXTS ? TEXTS[at] : "an unknown error";
}

static void fill(sazh_connection *it, sazh_code code, const char *format, va_list given) {
  failure *to = &it->failed;
  memset(to, 0, sizeof *to);
  to->error = (sazh_error){.code = code, .text = to->text, .server_words = to->words, .file = to->file, .key_type = to->key_type, .fingerprint = to->fingerprint};
  char line[sizeof to->text];
  vsnprintf(line, sizeof line, format, given);
  copy_safe(to->text, sizeof to->text, text_of(line));
}

sazh_code note(sazh_connection *it, sazh_code code, const char *format, ...) {
  if (it->phase == PHASE_OVER) return it->failed.error.code;
  va_list given;
  va_start(given, format);
  fill(it, code, format, given);
  va_end(given);
  return code;
}

sazh_code end(sazh_connection *it, sazh_code code, const char *format, ...) {
  if (it->phase == PHASE_OVER) return it->failed.error.code;
  va_list given;
  va_start(given, format);
  fill(it, code, format, given);
  va_end(given);
  it->phase = PHASE_OVER;
  it->changes++;
  if (it->login.pending) it->login.pending = false, it->login.result = code;
  channels_end(it);
  return code;
}

sazh_code end_no_memory(sazh_connection *it) { return end(it, SAZH_NO_MEMORY, "out of memory"); }

static void show_key(sazh_connection *it) {
  memcpy(it->failed.key_type, it->key_type, sizeof it->key_type);
  memcpy(it->failed.fingerprint, it->fingerprint, sizeof it->fingerprint);
}

/* An error about the server's key, with the line that says so. */
static sazh_code end_at_line(sazh_connection *it, sazh_code code, sshc_status status, uint64_t line, const char *what) {
  const char *file = hosts_where(&it->hosts, &line);
  end(it, code, "%s: %s %s of %s; %s line %llu %s", sazh_code_text(code), it->key_type, it->fingerprint, (const char *)bytes_front(&it->name), file,
      (unsigned long long)line, what);
  if (it->failed.error.code != code) return it->failed.error.code;
  snprintf(it->failed.file, sizeof it->failed.file, "%s", file);
  it->failed.error.line = line;
  it->failed.error.status = status;
  show_key(it);
  return code;
}

sazh_code judged(sazh_connection *it, sshc_status status, uint64_t line) {
  sazh_code code = SAZH_OK;
  switch (status) {
  case SSHC_OK:
    return SAZH_OK;
  case SSHC_UNKNOWN:
  case SSHC_UNKNOWN_KEY:
    code = note(it, SAZH_HOST_UNKNOWN, "%s: %s %s of %s", sazh_code_text(SAZH_HOST_UNKNOWN), it->key_type, it->fingerprint, (const char *)bytes_front(&it->name));
    show_key(it);
    return code;
  case SSHC_KEY_CHANGED:
    return end_at_line(it, SAZH_HOST_CHANGED, status, line, "has another key: the host was set up anew, or somebody is in between");
  case SSHC_REVOKED:
    return end_at_line(it, SAZH_HOST_REVOKED, status, line, "revokes it");
  case SSHC_NO_MEMORY:
    return end_no_memory(it);
  case SSHC_BAD_KEY:
    return end(it, SAZH_BAD_PACKET, "the server's host key can't be read");
  default:
    end(it, SAZH_HOSTS_FILE, "%s: %s", sazh_code_text(SAZH_HOSTS_FILE), sshc_status_text(status));
    it->failed.error.status = status;
    return SAZH_HOSTS_FILE;
  }
}

static sazh_code disconnected(sazh_connection *it) {
  bool said = it->server_words[0] != 0;
  end(it, SAZH_DISCONNECTED, "%s%s%s", sazh_code_text(SAZH_DISCONNECTED), said ? ": " : "", it->server_words);
  memcpy(it->failed.words, it->server_words, sizeof it->failed.words);
  return SAZH_DISCONNECTED;
}

sazh_code end_by_status(sazh_connection *it, sshc_status status, uint64_t detail) {
  sazh_code code;
  switch (status) {
  case SSHC_REMOTE_DISCONNECT: code = disconnected(it); break;
  case SSHC_DISCONNECTED:
  case SSHC_CLOSED: code = end(it, SAZH_CLOSED, "the session was ended here"); break;
  case SSHC_NO_MEMORY: code = end_no_memory(it); break;
  case SSHC_KEEPALIVE_TIMEOUT: code = end(it, SAZH_NO_ANSWER, "%s", sazh_code_text(SAZH_NO_ANSWER)); break;
  case SSHC_NO_AUTH_METHOD: code = end(it, SAZH_NO_METHOD, "%s", sazh_code_text(SAZH_NO_METHOD)); break;
  case SSHC_REKEY_KEY:
    code = end(it, SAZH_HOST_REKEYED, "%s: %s %s", sazh_code_text(SAZH_HOST_REKEYED), it->key_type, it->fingerprint);
    if (code == SAZH_HOST_REKEYED) show_key(it);
    break;
  case SSHC_UNKNOWN_KEY:
  case SSHC_KEY_CHANGED:
  case SSHC_REVOKED:
  case SSHC_DECODE:
  case SSHC_SSH_KEY:
    judged(it, status, detail);
    code = end(it, SAZH_HOST_UNKNOWN, "%s: %s %s", sazh_code_text(SAZH_HOST_UNKNOWN), it->key_type, it->fingerprint);
    break;
  default: code = end(it, SAZH_REFUSED_BY_CORE, "%s", sshc_status_text(status)); break;
  }
  it->failed.error.status = status;
  return code;
}

const sazh_error *sazh_error_of(const sazh_connection *it) {
  static const sazh_error NONE = {.code = SAZH_OK, .text = "all is well", .server_words = "", .file = "", .key_type = "", .fingerprint = ""};
  return it == NULL || it->failed.error.text == NULL ? &NONE : &it->failed.error;
}

bool sazh_is_over(const sazh_connection *it) { return it->phase == PHASE_OVER; }
