// Package core is the proved SSH client core: known hosts, a session, an agent whose caller signs. Events go in and records
// come out as bytes (docs/FORMATS.md). It is linked from libsazhonthil_ssh, which has the core in it.
//
// A session or an agent may be used by several goroutines, one at a time. Close may be called any number of times; what is used
// later returns Misuse. What is dropped is freed.
package core

/*
#cgo CFLAGS: -I${SRCDIR}/../../include
#cgo LDFLAGS: -L${SRCDIR}/../../out/shared -Wl,-rpath,${SRCDIR}/../../out/shared -lsazhonthil_ssh
#include <stdlib.h>
#include "sazhonthil.h"
*/
import "C"

import (
	"encoding/binary"
	"runtime"
	"sync"
	"unsafe"
)

// Status is a status of include/sazhonthil.h. It is an error to compare with: errors.Is(err, core.KeyChanged).
type Status uint32

// The statuses.
const (
	OK                Status = 0
	Unknown           Status = 1
	Misuse            Status = 2
	NotText           Status = 3
	BadInput          Status = 4
	BadKey            Status = 5
	Nothing           Status = 6
	noRoom            Status = 7
	Over              Status = 8
	RemoteDisconnect  Status = 9
	Disconnected      Status = 10
	Closed            Status = 11
	AsksSignature     Status = 12
	AsksRequest       Status = 13
	AsksKey           Status = 14
	ClosedTooLong     Status = 15
	ClosedUnreadable  Status = 16
	ClosedRefused     Status = 17
	NoMemory          Status = 20
	ReadFault         Status = 21
	WriteFault        Status = 22
	SignerFault       Status = 23
	BadEvent          Status = 24
	OutOfTurn         Status = 25
	ScriptTooLong     Status = 26
	TransportFailed   Status = 27
	UnknownKey        Status = 28
	KeyChanged        Status = 29
	Decode            Status = 30
	SSHKey            Status = 31
	Inconsistent      Status = 32
	Pending           Status = 33
	NoAuthMethod      Status = 34
	NotAuthenticated  Status = 35
	SSHEncoding       Status = 36
	InvalidDisconnect Status = 37
	RecvError         Status = 38
	KeepaliveTimeout  Status = 39
	InactivityTimeout Status = 40
	Revoked           Status = 42
	RekeyKey          Status = 43
)

func (s Status) Error() string { return C.GoString(C.sshc_status_text(C.sshc_status(s))) }

// LongestEvent is how many bytes an event may have behind its length: data is cut into pieces.
const LongestEvent = 262144

func went(status C.sshc_status) error {
	if status == 0 {
		return nil
	}
	return Status(status)
}

func at(bytes []byte) (*C.uint8_t, C.size_t) {
	if len(bytes) == 0 {
		return nil, 0
	}
	return (*C.uint8_t)(&bytes[0]), C.size_t(len(bytes))
}

// copied returns what a call copies out; the memory grows to what it wants.
func copied(call func(to *C.uint8_t, room C.size_t, size *C.size_t) C.sshc_status) ([]byte, error) {
	to := make([]byte, 256)
	for {
		var size C.size_t
		status := call((*C.uint8_t)(&to[0]), C.size_t(len(to)), &size)
		if Status(status) == noRoom {
			to = make([]byte, size)
			continue
		}
		if status != 0 {
			return nil, Status(status)
		}
		return to[:size], nil
	}
}

// CheckHost says whether the known hosts accept the key's blob, and the line that refuses it.
func CheckHost(host string, port uint16, known string, key []byte) (Status, uint64) {
	h, hl := at([]byte(host))
	k, kl := at([]byte(known))
	b, bl := at(key)
	var line C.uint64_t
	status := C.sshc_known_hosts_check(h, hl, C.uint16_t(port), k, kl, b, bl, &line)
	return Status(status), uint64(line)
}

// CheckKnownHostsOpenSSH does the same as OpenSSH reads the known hosts, which may be any bytes: patterns, names in any
// case, any blanks; a line that can't be read is passed over.
func CheckKnownHostsOpenSSH(host string, port uint16, known, key []byte) (Status, uint64) {
	h, hl := at([]byte(host))
	k, kl := at(known)
	b, bl := at(key)
	var line C.uint64_t
	status := C.sshc_known_hosts_check_openssh(h, hl, C.uint16_t(port), k, kl, b, bl, &line)
	return Status(status), uint64(line)
}

// LearnHost returns what is to be added to the known hosts so that they have the key.
func LearnHost(host string, port uint16, known string, key []byte) ([]byte, error) {
	h, hl := at([]byte(host))
	k, kl := at([]byte(known))
	b, bl := at(key)
	return copied(func(to *C.uint8_t, room C.size_t, size *C.size_t) C.sshc_status {
		return C.sshc_known_hosts_learn(h, hl, C.uint16_t(port), k, kl, b, bl, to, room, size)
	})
}

// Settings are those of a session; sizes are bytes, times milliseconds.
type Settings struct {
	KeepaliveInterval, KeepaliveMax, InactivityTimeout uint64
	WindowSize, MaximumPacketSize, MaxEvents           uint32
	Anonymous                                          bool
}

// DefaultSettings are the library's.
func DefaultSettings() Settings {
	var it C.sshc_settings
	C.sshc_settings_default(&it)
	return Settings{uint64(it.keepalive_interval), uint64(it.keepalive_max), uint64(it.inactivity_timeout), uint32(it.window_size), uint32(it.maximum_packet_size), uint32(it.max_events), it.anonymous != 0}
}

// Session is a session. Its struct lies in C's memory, since the library keeps a pointer in it.
type Session struct {
	mu     sync.Mutex
	handle *C.sshc_session // nil once it is closed
}

// NewSession makes a session that goes on only with a server whose host key the known hosts accept.
func NewSession(host string, port uint16, known string) (*Session, error) {
	return NewSessionWith(DefaultSettings(), host, port, known)
}

// NewSessionWith is NewSession with other settings.
func NewSessionWith(with Settings, host string, port uint16, known string) (*Session, error) {
	s := &Session{handle: (*C.sshc_session)(C.calloc(1, C.sizeof_sshc_session))}
	settings := C.sshc_settings{
		keepalive_interval: C.uint64_t(with.KeepaliveInterval), keepalive_max: C.uint64_t(with.KeepaliveMax), inactivity_timeout: C.uint64_t(with.InactivityTimeout),
		window_size: C.uint32_t(with.WindowSize), maximum_packet_size: C.uint32_t(with.MaximumPacketSize), max_events: C.uint32_t(with.MaxEvents),
	}
	if with.Anonymous {
		settings.anonymous = 1
	}
	h, hl := at([]byte(host))
	k, kl := at([]byte(known))
	if err := went(C.sshc_session_new(s.handle, &settings, h, hl, C.uint16_t(port), k, kl)); err != nil {
		C.free(unsafe.Pointer(s.handle))
		return nil, err
	}
	runtime.SetFinalizer(s, (*Session).free)
	return s, nil
}

// Take hands in events as a script has them, and returns their records, the status, and the place or line that it names. What
// isn't an event ends the session.
func (s *Session) Take(events []byte) ([][]byte, Status, uint64) {
	s.mu.Lock()
	defer s.mu.Unlock()
	if s.handle == nil {
		return nil, Misuse, 0
	}
	e, el := at(events)
	var detail C.uint64_t
	status := C.sshc_session_take(s.handle, e, el, &detail)
	var records [][]byte
	for {
		record, err := copied(func(to *C.uint8_t, room C.size_t, size *C.size_t) C.sshc_status {
			return C.sshc_session_record(s.handle, to, room, size)
		})
		if err != nil {
			return records, Status(status), uint64(detail)
		}
		records = append(records, record)
	}
}

// Event hands in one event. One that is longer than LongestEvent isn't handed in: BadInput, and the session goes on.
func (s *Session) Event(moment uint64, kind byte, fields []byte) ([][]byte, Status, uint64) {
	if len(fields)+9 > LongestEvent {
		return nil, BadInput, 0
	}
	event := binary.BigEndian.AppendUint32(nil, uint32(len(fields)+9))
	event = append(binary.BigEndian.AppendUint64(event, moment), kind)
	return s.Take(append(event, fields...))
}

// Close frees the session.
func (s *Session) Close() error {
	runtime.SetFinalizer(s, nil)
	s.free()
	return nil
}

func (s *Session) free() {
	s.mu.Lock()
	defer s.mu.Unlock()
	if s.handle != nil {
		C.sshc_session_free(s.handle)
		C.free(unsafe.Pointer(s.handle))
		s.handle = nil
	}
}

// Agent is an agent whose caller signs. A goroutine that asks and then takes has to do both before another asks.
type Agent struct {
	mu     sync.Mutex
	handle *C.sshc_agent // nil once it is closed
}

// NewAgent makes an agent without keys.
func NewAgent(asks bool) (*Agent, error) {
	a := &Agent{handle: (*C.sshc_agent)(C.calloc(1, C.sizeof_sshc_agent))}
	var ask C.uint32_t
	if asks {
		ask = 1
	}
	if err := went(C.sshc_agent_new(a.handle, ask)); err != nil {
		C.free(unsafe.Pointer(a.handle))
		return nil, err
	}
	runtime.SetFinalizer(a, (*Agent).free)
	return a, nil
}

// Question is what a step asks to be signed: a hash (0 none, 1 SHA-256, 2 SHA-512), the bytes, the public key's blob, and the
// key pair as ADD_IDENTITY has it.
type Question struct {
	Hash             uint32
	Bytes, Key, Pair []byte
}

// Asks returns what a step with this input asks, or nil.
func (a *Agent) Asks(moment uint64, connection, input uint32, frame []byte) (*Question, error) {
	a.mu.Lock()
	defer a.mu.Unlock()
	if a.handle == nil {
		return nil, Misuse
	}
	f, fl := at(frame)
	var hash C.uint32_t
	status := C.sshc_agent_asks(a.handle, C.uint64_t(moment), C.uint32_t(connection), C.uint32_t(input), f, fl, &hash)
	if Status(status) == Nothing {
		return nil, nil
	}
	if Status(status) != AsksSignature {
		return nil, Status(status)
	}
	var parts [3][]byte
	for i := range parts {
		part, err := copied(func(to *C.uint8_t, room C.size_t, size *C.size_t) C.sshc_status {
			return C.sshc_agent_asked(a.handle, C.uint32_t(i), to, room, size)
		})
		if err != nil {
			return nil, err
		}
		parts[i] = part
	}
	return &Question{uint32(hash), parts[0], parts[1], parts[2]}, nil
}

// Take takes an input with the answer to what it asks (0 nothing, 1 the signature, 2 refused), and returns the output's status,
// its bytes, and the number of a request that the user is asked about.
func (a *Agent) Take(moment uint64, connection, input uint32, frame []byte, told uint32, signature []byte) (Status, []byte, uint32) {
	a.mu.Lock()
	defer a.mu.Unlock()
	if a.handle == nil {
		return Misuse, nil, 0
	}
	f, fl := at(frame)
	s, sl := at(signature)
	var request C.uint32_t
	status := C.sshc_agent_take(a.handle, C.uint64_t(moment), C.uint32_t(connection), C.uint32_t(input), f, fl, C.uint32_t(told), s, sl, &request)
	answer, _ := copied(func(to *C.uint8_t, room C.size_t, size *C.size_t) C.sshc_status {
		return C.sshc_agent_answer(a.handle, to, room, size)
	})
	return Status(status), answer, uint32(request)
}

// Forget drops what the agent keeps of a connection that is closed.
func (a *Agent) Forget(connection uint32) error {
	a.mu.Lock()
	defer a.mu.Unlock()
	if a.handle == nil {
		return Misuse
	}
	return went(C.sshc_agent_forget(a.handle, C.uint32_t(connection)))
}

// Close frees the agent.
func (a *Agent) Close() error {
	runtime.SetFinalizer(a, nil)
	a.free()
	return nil
}

func (a *Agent) free() {
	a.mu.Lock()
	defer a.mu.Unlock()
	if a.handle != nil {
		C.sshc_agent_free(a.handle)
		C.free(unsafe.Pointer(a.handle))
		a.handle = nil
	}
}
