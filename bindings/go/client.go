package sazhonthil

/*
#cgo LDFLAGS: -L${SRCDIR}/../out/shared -Wl,-rpath,${SRCDIR}/../out/shared -lsazhonthil_ssh
#include <stdint.h>
#include <stdlib.h>
#include <sys/socket.h>
#include "sazhonthil_ssh.h"
extern char *goPassphrase(void *own, char *file);
extern bool goAnswers(void *own, char *name, char *instruction, size_t count, sazh_prompt *prompts, char **answers);
extern void goBanner(void *own, char *text, size_t len);
static void *own_of(uintptr_t number) { return (void *)number; }
static char *passphrase_of(void *own, const char *file) { return goPassphrase(own, (char *)file); }
static bool answers_of(void *own, const char *name, const char *instruction, size_t count, const sazh_prompt *prompts, char **answers) {
  return goAnswers(own, (char *)name, (char *)instruction, count, (sazh_prompt *)prompts, answers);
}
static void banner_of(void *own, const char *text, size_t len) { goBanner(own, (char *)text, len); }
static sazh_code read_key(sazh_key **made, const char *path, uintptr_t own, char *why, size_t room) {
  return sazh_key_read(made, path, passphrase_of, own_of(own), why, room);
}
static sazh_code login_prompts(sazh_connection *it, const char *user, uintptr_t own) { return sazh_login_prompts(it, user, answers_of, own_of(own)); }
static void set_banner(sazh_settings *settings, uintptr_t own) { settings->banner = banner_of, settings->own = own_of(own); }
*/
import "C"

import (
	"context"
	"fmt"
	"net"
	"os"
	"os/user"
	"path/filepath"
	"runtime"
	"runtime/cgo"
	"strconv"
	"strings"
	"time"
	"unsafe"
)

// Accept says what to do with the key of a host that isn't known.
type Accept int

// Refuse ends the connection, Once goes on, Learn also appends a line to the first known hosts file.
const (
	Refuse Accept = iota
	Once
	Learn
)

// HostKey is a server's host key.
type HostKey struct {
	Host        string // as it stands in the known hosts: host, or [host]:port
	Type        string
	Fingerprint string // SHA256:..
	Blob        []byte // RFC 4253, section 6.6
}

// Prompt is a question of the server's, and whether the answer may be seen as it is typed.
type Prompt struct {
	Text string
	Echo bool
}

// Config says how to connect. The zero value logs in as the user of this process, by the agent of SSH_AUTH_SOCK and the key
// files of ~/.ssh, to hosts that ~/.ssh/known_hosts and /etc/ssh/ssh_known_hosts have. The functions are called while Dial
// runs, and may not use the connection.
type Config struct {
	User     string
	KeyFiles []string
	// Passphrase gives the passphrase of a key file; it is asked three times at most.
	Passphrase func(file string) (string, error)
	// Agent is the path of an agent's socket.
	Agent    string
	Password string
	// Answers answers what the server asks, one text for each prompt.
	Answers func(name, instruction string, prompts []Prompt) ([]string, error)
	// KnownHosts are files; nil: the two above, empty: none.
	KnownHosts []string
	// NewHost decides on a host that isn't known; nil: it is refused. A changed or revoked key is always refused.
	NewHost   func(key HostKey) (Accept, error)
	HostAlias string
	// Timeout is for connecting and the first key exchange; 0: 30 seconds.
	Timeout      time.Duration
	Keepalive    time.Duration // how often the server is asked whether it is there; 0: never
	KeepaliveMax int           // so many may stay unanswered; 0: 3
	RekeyBytes   uint64        // 0: the library's own
	Ciphers      string
	Banner       func(text string)
}

// Client is a connection whose user is in. Any number of goroutines may use it at once.
type Client struct {
	engine *engine
	host   string
}

// text is a C string for one call.
func text(given string) *C.char { return C.CString(given) }

func noZero(texts ...string) error {
	for _, one := range texts {
		if strings.IndexByte(one, 0) >= 0 {
			return &Error{Code: Misuse, Text: "a text with a zero byte"}
		}
	}
	return nil
}

// Dial connects to a host and port and logs in. The network is "tcp", "tcp4" or "tcp6". The context is for Dial alone.
func Dial(ctx context.Context, network, addr string, config *Config) (*Client, error) {
	if config == nil {
		config = &Config{}
	}
	host, port, err := splitAddr(addr)
	if err != nil {
		return nil, err
	}
	family, is := map[string]C.int{"tcp": C.AF_UNSPEC, "tcp4": C.AF_INET, "tcp6": C.AF_INET6}[network]
	if !is {
		return nil, net.UnknownNetworkError(network)
	}
	asked := &callbacks{config: config}
	own := cgo.NewHandle(asked)
	defer own.Delete()
	keys, err := readKeys(config, own)
	defer func() {
		for _, key := range keys {
			C.sazh_key_free(key)
		}
	}()
	if err != nil {
		return nil, asked.or(err)
	}
	e, err := connected(ctx, host, port, family, config, own)
	if err == nil {
		if err = (&login{e, config, keys, own}).run(ctx); err == nil {
			client := &Client{e, addr}
			runtime.SetFinalizer(client, (*Client).finalize)
			return client, nil
		}
	}
	if e != nil {
		e.close()
	}
	return nil, asked.or(err)
}

func (it *callbacks) or(err error) error {
	if it.err != nil {
		return it.err
	}
	return err
}

func splitAddr(addr string) (string, uint16, error) {
	host, service, err := net.SplitHostPort(addr)
	if err != nil {
		return "", 0, err
	}
	port, err := strconv.ParseUint(service, 10, 16)
	if err != nil {
		return "", 0, fmt.Errorf("sazhonthil: %q has no port: %w", addr, err)
	}
	return host, uint16(port), noZero(host)
}

func home(path string) string {
	if folder, err := os.UserHomeDir(); err == nil && strings.HasPrefix(path, "~/") {
		return filepath.Join(folder, path[2:])
	}
	return path
}

func readKey(path string, own cgo.Handle) (*C.sazh_key, error) {
	name, why := text(path), (*C.char)(C.calloc(1, 1024))
	defer C.free(unsafe.Pointer(name))
	defer C.free(unsafe.Pointer(why))
	var key *C.sazh_key
	if code := C.read_key(&key, name, C.uintptr_t(own), why, 1024); code != C.SAZH_OK {
		return nil, &Error{Code: Code(code), Text: C.GoString(why), File: path}
	}
	return key, nil
}

func readKeys(config *Config, own cgo.Handle) ([]*C.sazh_key, error) {
	var keys []*C.sazh_key
	for _, path := range config.KeyFiles {
		key, err := readKey(home(path), own)
		if err != nil {
			return keys, err
		}
		keys = append(keys, key)
	}
	if config.isBare() {
		for _, path := range []string{"~/.ssh/id_ed25519", "~/.ssh/id_ecdsa", "~/.ssh/id_rsa"} {
			if key, err := readKey(home(path), own); err == nil {
				keys = append(keys, key)
			}
		}
	}
	return keys, nil
}

// isBare says that no way of logging in is named.
func (config *Config) isBare() bool {
	return config.KeyFiles == nil && config.Agent == "" && config.Password == "" && config.Answers == nil
}

func connected(ctx context.Context, host string, port uint16, family C.int, config *Config, own cgo.Handle) (*engine, error) {
	settings := (*C.sazh_settings)(C.calloc(1, C.sizeof_sazh_settings))
	defer C.free(unsafe.Pointer(settings))
	C.sazh_settings_default(settings)
	settings.family = family
	if config.Timeout != 0 {
		settings.connect_seconds = C.uint32_t((config.Timeout + time.Second - 1) / time.Second)
	}
	if config.Keepalive != 0 {
		settings.keepalive_seconds = C.uint32_t((config.Keepalive + time.Second - 1) / time.Second)
	}
	if config.KeepaliveMax != 0 {
		settings.keepalive_max = C.uint32_t(config.KeepaliveMax)
	}
	settings.rekey_bytes = C.uint64_t(config.RekeyBytes)
	for to, given := range map[**C.char]string{&settings.ciphers: config.Ciphers, &settings.host_key_alias: config.HostAlias} {
		if given != "" {
			*to = text(given)
			defer C.free(unsafe.Pointer(*to))
		}
	}
	if config.Banner != nil {
		C.set_banner(settings, C.uintptr_t(own))
	}
	e, err := newEngine(settings)
	if err != nil {
		return nil, err
	}
	files := config.KnownHosts
	if files == nil {
		files = []string{"~/.ssh/known_hosts", "/etc/ssh/ssh_known_hosts"}
	}
	for _, path := range files {
		name := text(home(path))
		_, err := e.once(func() C.sazh_code { return C.sazh_hosts_file(e.handle, name, false) })
		C.free(unsafe.Pointer(name))
		if err != nil {
			return e, err
		}
	}
	return e, e.secure(ctx, host, port, config)
}

// secure connects, and returns once the server has shown to be the host.
func (e *engine) secure(ctx context.Context, host string, port uint16, config *Config) error {
	name := text(host)
	defer C.free(unsafe.Pointer(name))
	begin := func() C.sazh_code { return C.sazh_connect(e.handle, name, C.uint16_t(port)) }
	then := func() C.sazh_code { return C.sazh_wait_connect(e.handle) }
	code, err := e.started(ctx, begin, then, HostUnknown)
	if err != nil || code != HostUnknown {
		return err
	}
	e.mu.Lock()
	refusal, it := e.failure(HostUnknown), C.sazh_host_key_of(e.handle)
	key := HostKey{C.GoString(it.host), C.GoString(it._type), C.GoString(it.fingerprint), C.GoBytes(unsafe.Pointer(it.blob), C.int(it.blob_len))}
	e.mu.Unlock()
	if config.NewHost == nil {
		return refusal
	}
	accept, err := config.NewHost(key)
	if err != nil {
		return err
	}
	if accept == Refuse {
		return refusal
	}
	_, err = e.once(func() C.sazh_code { return C.sazh_host_accept(e.handle, accept == Learn) })
	return err
}

// login tries one way after another: the agent, key files, the password, answers.
type login struct {
	e      *engine
	config *Config
	keys   []*C.sazh_key
	own    cgo.Handle
}

type way struct {
	method string
	begin  func() C.sazh_code
}

func (l *login) run(ctx context.Context) error {
	name := l.config.User
	if name == "" {
		me, err := user.Current()
		if err != nil {
			return err
		}
		name = me.Username
	}
	if err := noZero(name, l.config.Password, l.config.Agent); err != nil {
		return err
	}
	as := text(name)
	defer C.free(unsafe.Pointer(as))
	methods, other, err := l.try(ctx, func() C.sazh_code { return C.sazh_login_none(l.e.handle, as) })
	ways := l.ways(as)
	tried := 0
	for err != nil && methods != nil {
		at := -1
		for i, one := range ways {
			if contains(methods, one.method) {
				at = i
				break
			}
		}
		if at < 0 {
			break
		}
		begin := ways[at].begin
		ways = append(ways[:at:at], ways[at+1:]...)
		tried++
		var another error
		if methods, another, err = l.try(ctx, begin); other == nil {
			other = another
		}
	}
	if err != nil && other != nil && tried == 1 {
		return other
	}
	return err
}

func contains(all []string, one string) bool {
	for _, it := range all {
		if it == one {
			return true
		}
	}
	return false
}

func (l *login) ways(as *C.char) []way {
	var all []way
	agent := l.config.Agent
	if agent == "" && l.config.isBare() {
		agent = os.Getenv("SSH_AUTH_SOCK")
	}
	if agent != "" {
		all = append(all, way{"publickey", func() C.sazh_code {
			path := text(agent)
			defer C.free(unsafe.Pointer(path))
			return C.sazh_login_agent(l.e.handle, as, path)
		}})
	}
	for _, key := range l.keys {
		key := key
		all = append(all, way{"publickey", func() C.sazh_code { return C.sazh_login_key(l.e.handle, as, key) }})
	}
	if l.config.Password != "" {
		all = append(all, way{"password", func() C.sazh_code {
			given := text(l.config.Password)
			defer C.free(unsafe.Pointer(given))
			return C.sazh_login_password(l.e.handle, as, given)
		}})
	}
	if l.config.Answers != nil {
		all = append(all, way{"keyboard-interactive", func() C.sazh_code { return C.login_prompts(l.e.handle, as, C.uintptr_t(l.own)) }})
	}
	return all
}

// try tries one way. Where the user isn't in, but another way may be tried: the methods that the server takes, why it wasn't
// the server that refused, if so, and the error.
func (l *login) try(ctx context.Context, begin func() C.sazh_code) ([]string, error, error) {
	others := []Code{AuthenticationFailed, NoAgent, NoKey, BadPassphrase, SigningFailed}
	code, err := l.e.started(ctx, begin, func() C.sazh_code { return C.sazh_wait_login(l.e.handle) }, others...)
	if err != nil || code == codeOK {
		return nil, nil, err
	}
	l.e.mu.Lock()
	defer l.e.mu.Unlock()
	if l.e.handle == nil {
		return nil, nil, ErrClosed
	}
	failure, methods := l.e.failure(code), l.e.methods()
	if code == AuthenticationFailed {
		return methods, nil, failure
	}
	return methods, failure, &Error{Code: AuthenticationFailed, Text: AuthenticationFailed.Error() + ": " + failure.Error(), Methods: methods}
}

// Close ends the session, with its channels and forwards, any number of times.
func (c *Client) Close() error {
	runtime.SetFinalizer(c, nil)
	c.engine.close()
	return nil
}

func (c *Client) finalize() { c.engine.close() }

// Rekey begins a key exchange.
func (c *Client) Rekey() error {
	_, err := c.engine.once(func() C.sazh_code {
		code := C.sazh_rekey(c.engine.handle)
		C.sazh_step(c.engine.handle)
		return code
	})
	return err
}
