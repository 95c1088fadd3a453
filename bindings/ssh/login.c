/* Logins (RFC 4252, 4256): each call asks for one method, and the core's records say what came of it. */
#include "connection.h"

#include <openssl/crypto.h>
#include <stdlib.h>
#include <string.h>

static bool is_answered(const void *of) {
  const sazh_connection *it = of;
  return !it->login.pending || it->phase == PHASE_OVER;
}

static void forget_agent(login *it) {
  agent_close(&it->agent);
  bytes_free(&it->keys);
  it->next = 0;
}

void login_free(login *it) {
  if (it->agent.socket >= 0) forget_agent(it);
  free(it->user);
  *it = (login){.agent = {.socket = -1}};
}

static void finish(sazh_connection *it, sazh_code code) {
  it->login.pending = false;
  it->login.result = code;
  it->login.key = NULL;
  if (it->login.agent.socket >= 0) forget_agent(&it->login);
  if (code == SAZH_DENIED) note(it, code, "%s (%s)", sazh_code_text(code), it->login.methods);
  else if (code != SAZH_OK) note(it, code, "%s", sazh_code_text(code));
}

/* ---- requests */

static bytes *begin_request(sazh_connection *it, uint8_t method, size_t *begun) {
  bytes *to = todo_begin(it, SSHC_EVENT_AUTHENTICATE, begun);
  it->login.ticket = ++it->tickets;
  it->login.method = method;
  put_u32(to, it->login.ticket);
  put_text(to, it->login.user);
  put_u8(to, method);
  return to;
}

static void ask_key(sazh_connection *it, slice key, bool is_certificate) {
  reader blob = read_slice(key);
  slice type = get_string(&blob);
  bool is_rsa = slice_is(type, "ssh-rsa") || slice_is(type, "ssh-rsa-cert-v01@openssh.com");
  size_t begun;
  bytes *to = begin_request(it, is_certificate ? SSHC_METHOD_CERTIFICATE : SSHC_METHOD_KEY, &begun);
  put_string(to, key);
  put_u8(to, is_rsa ? SSHC_HASH_SHA512 : SSHC_HASH_NONE);
  todo_end(it, begun);
}

static const char CERTIFICATE[] = "-cert-v01@openssh.com";

static bool ends_so(slice type, const char *end_text) {
  size_t len = strlen(end_text);
  return type.len > len && memcmp(type.at + type.len - len, end_text, len) == 0;
}

/* A blob that the core would refuse to read ends the session, so that others are passed over. */
static bool is_known_type(slice type) {
  static const char *const STEMS[] = {"ssh-ed25519", "ssh-rsa", "ecdsa-sha2-nistp256", "ecdsa-sha2-nistp384", "ecdsa-sha2-nistp521"};
  slice stem = ends_so(type, CERTIFICATE) ? slice_of(type.at, type.len - (sizeof CERTIFICATE - 1)) : type;
  for (size_t i = 0; i < sizeof STEMS / sizeof *STEMS; i++)
    if (slice_is(stem, STEMS[i])) return true;
  return slice_is(type, "sk-ssh-ed25519@openssh.com") || slice_is(type, "sk-ecdsa-sha2-nistp256@openssh.com");
}

/* Whether a key of the agent was left to try. */
static bool try_next_key(sazh_connection *it) {
  login *at = &it->login;
  while (at->next < bytes_count(&at->keys)) {
    slice all = bytes_slice(&at->keys);
    reader left = read_slice(slice_of(all.at + at->next, all.len - at->next));
    slice key = get_string(&left);
    if (left.bad) return false;
    at->next += 4 + key.len;
    reader blob = read_slice(key);
    slice type = get_string(&blob);
    if (blob.bad || !is_known_type(type)) continue;
    ask_key(it, key, ends_so(type, CERTIFICATE));
    return true;
  }
  return false;
}

/* ---- the calls */

static sazh_code begin_login(sazh_connection *it, const char *user) {
  if (it == NULL || it->inside) return SAZH_MISUSE;
  if (it->phase == PHASE_OVER) return it->failed.error.code;
  if (it->phase != PHASE_SECURED || it->login.pending || user == NULL) return note(it, SAZH_MISUSE, "a login out of turn");
  char *name = copy_text(text_of(user));
  if (name == NULL) return note(it, SAZH_NO_MEMORY, "out of memory");
  free(it->login.user);
  it->login.user = name;
  it->login.pending = true;
  it->login.result = SAZH_AGAIN;
  it->login.broken = SAZH_DENIED;
  it->login.partial = false;
  return SAZH_OK;
}

sazh_code sazh_wait_login(sazh_connection *it) {
  if (it == NULL || it->inside) return SAZH_MISUSE;
  sazh_code code = until(it, is_answered, it);
  if (code == SAZH_AGAIN) return code;
  return it->phase == PHASE_OVER ? it->failed.error.code : it->login.result;
}

sazh_code sazh_login_none(sazh_connection *it, const char *user) {
  sazh_code code = begin_login(it, user);
  if (code != SAZH_OK) return code;
  size_t begun;
  begin_request(it, SSHC_METHOD_NONE, &begun);
  todo_end(it, begun);
  return sazh_wait_login(it);
}

sazh_code sazh_login_password(sazh_connection *it, const char *user, const char *password) {
  if (password == NULL) return SAZH_MISUSE;
  sazh_code code = begin_login(it, user);
  if (code != SAZH_OK) return code;
  size_t begun;
  put_text(begin_request(it, SSHC_METHOD_PASSWORD, &begun), password);
  todo_end(it, begun);
  return sazh_wait_login(it);
}

sazh_code sazh_login_prompts(sazh_connection *it, const char *user, sazh_answers answers, void *own) {
  if (answers == NULL) return SAZH_MISUSE;
  sazh_code code = begin_login(it, user);
  if (code != SAZH_OK) return code;
  it->login.answers = answers;
  it->login.own = own;
  size_t begun;
  put_text(begin_request(it, SSHC_METHOD_PROMPTS, &begun), "");
  todo_end(it, begun);
  return sazh_wait_login(it);
}

sazh_code sazh_login_key(sazh_connection *it, const char *user, sazh_key *key) {
  if (key == NULL) return SAZH_MISUSE;
  sazh_code code = begin_login(it, user);
  if (code != SAZH_OK) return code;
  it->login.key = key;
  ask_key(it, key_offered(key), sazh_key_has_certificate(key));
  return sazh_wait_login(it);
}

sazh_code sazh_login_agent(sazh_connection *it, const char *user, const char *socket_path) {
  sazh_code code = begin_login(it, user);
  if (code != SAZH_OK) return code;
  login *at = &it->login;
  if (!agent_connect(&at->agent, socket_path) || !agent_keys(&at->agent, &at->keys)) finish(it, SAZH_NO_AGENT);
  else if (!try_next_key(it)) finish(it, SAZH_NO_KEY);
  return sazh_wait_login(it);
}

const char *sazh_methods(const sazh_connection *it) { return it->login.methods; }

bool sazh_is_partial(const sazh_connection *it) { return it->login.partial; }

/* ---- what the core reports */

void login_opened(sazh_connection *it) {
  it->phase = PHASE_OPEN;
  finish(it, SAZH_OK);
}

void login_resolved(sazh_connection *it, uint8_t how, reader *fields) {
  if (how == SSHC_RESOLVED_AUTH_SUCCESS) return; /* the session is open with the next record */
  if (how == SSHC_RESOLVED_AUTH_FAILURE) {
    copy_safe(it->login.methods, sizeof it->login.methods, get_string(fields));
    it->login.partial = get_bool(fields);
    it->login.broken = SAZH_DENIED;
  }
  bool has_agent = it->login.agent.socket >= 0; /* a key that it doesn't sign with (Dropped) leaves the others */
  bool may_go_on = how != SSHC_RESOLVED_AUTH_FAILURE || list_has(text_of(it->login.methods), text_of("publickey"));
  if (has_agent && !it->login.partial && may_go_on && try_next_key(it)) return;
  finish(it, it->login.broken);
}

static bool sign(sazh_connection *it, slice key, uint8_t hash, slice over, bytes *signature) {
  login *at = &it->login;
  at->broken = SAZH_SIGNING;
  if (at->agent.socket >= 0) return agent_sign(&at->agent, key, hash, over, signature);
  if (at->key == NULL) return false;
  sazh_code code = key_unlock(at->key);
  if (code != SAZH_OK) {
    at->broken = code;
    return false;
  }
  return make_signature(at->key->pair, text_of(at->key->type), hash, over, signature);
}

/* The core hands out bytes to be signed: they go back as they came, with the signature after them. */
void login_sign(sazh_connection *it, reader *fields) {
  get_u32(fields);
  slice key = get_string(fields);
  uint8_t hash = get_u8(fields);
  slice over = get_string(fields);
  bytes signature = {0};
  size_t begun;
  if (!sign(it, key, hash, over, &signature)) {
    todo_begin(it, SSHC_EVENT_SIGN_FAILED, &begun);
  } else {
    bytes *to = todo_begin(it, SSHC_EVENT_SIGNED, &begun);
    size_t at = begin_string(to);
    put(to, over.at, over.len);
    put_string(to, bytes_slice(&signature));
    end_string(to, at);
  }
  todo_end(it, begun);
  bytes_free(&signature);
}

enum { MOST_PROMPTS = 64 };

static void put_answers(sazh_connection *it, char **answers, size_t count) {
  size_t begun;
  bytes *to = todo_begin(it, SSHC_EVENT_AUTH_INFO_RESPONSE, &begun);
  put_u32(to, (uint32_t)count);
  for (size_t i = 0; i < count; i++) put_text(to, answers[i] == NULL ? "" : answers[i]);
  todo_end(it, begun);
}

/* The prompts as texts of their own; false where there are too many, or memory runs out. */
static bool ask_caller(sazh_connection *it, const char *name, const char *instruction, size_t count, reader *fields) {
  sazh_prompt prompts[MOST_PROMPTS] = {{0}};
  char *answers[MOST_PROMPTS] = {0}, *texts[MOST_PROMPTS] = {0};
  bool done = name != NULL && instruction != NULL && it->login.answers != NULL && count <= MOST_PROMPTS;
  for (size_t i = 0; done && i < count; i++) {
    texts[i] = copy_text(get_string(fields));
    prompts[i] = (sazh_prompt){texts[i], get_bool(fields)};
    done = texts[i] != NULL && !fields->bad;
  }
  done = done && it->login.answers(it->login.own, name, instruction, count, prompts, answers);
  if (done) put_answers(it, answers, count);
  for (size_t i = 0; i < count && i < MOST_PROMPTS; i++) {
    forget_text(answers[i]);
    free(texts[i]);
  }
  return done;
}

void login_prompts(sazh_connection *it, reader *fields) {
  get_u32(fields);
  char *name = copy_text(get_string(fields)), *instruction = copy_text(get_string(fields));
  size_t count = get_u32(fields);
  if (!ask_caller(it, name, instruction, count, fields)) end(it, SAZH_NO_ANSWERS, "%s", sazh_code_text(SAZH_NO_ANSWERS));
  free(name);
  free(instruction);
}
