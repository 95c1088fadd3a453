package sazhonthil

/*
#include <poll.h>
#include <stdint.h>
#include <stdlib.h>
#include "sazhonthil_ssh.h"
static struct pollfd *poll_room(size_t count) { return calloc(count, sizeof(struct pollfd)); }
*/
import "C"

import (
	"context"
	"strings"
	"sync"
	"syscall"
	"unsafe"

	"sazhonthil/core"
)

// engine is a connection of the library. One goroutine at a time calls it, and a goroutine of its own drives it: it waits for
// the connection's descriptors and steps. Callers wait until something has changed.
type engine struct {
	mu      sync.Mutex
	handle  *C.sazh_connection // nil once it is closed
	changed chan struct{}      // closed and made anew with each change
	stamp   uint64
	pokes   uint64
	waits   []C.struct_pollfd // what the driver waits for, the pipe first; nil where it doesn't wait
	reads   int               // the pipe that wakes the driver
	writes  int
}

func newEngine(settings *C.sazh_settings) (*engine, error) {
	e := &engine{changed: make(chan struct{})}
	var pipe [2]int
	if err := syscall.Pipe2(pipe[:], syscall.O_CLOEXEC|syscall.O_NONBLOCK); err != nil {
		return nil, err
	}
	e.reads, e.writes = pipe[0], pipe[1]
	if code := C.sazh_new(&e.handle, settings); code != C.SAZH_OK {
		syscall.Close(e.reads)
		syscall.Close(e.writes)
		return nil, &Error{Code: Code(code), Text: Code(code).Error()}
	}
	C.sazh_set_blocking(e.handle, false)
	go e.drive()
	return e, nil
}

// interest is what is waited for, without the pipe. Under the lock.
func (e *engine) interest() []C.struct_pollfd {
	room := C.size_t(16)
	for {
		at := C.poll_room(room)
		count := C.sazh_poll(e.handle, at, room)
		if count <= room {
			found := append([]C.struct_pollfd{}, unsafe.Slice(at, int(count))...)
			C.free(unsafe.Pointer(at))
			return found
		}
		C.free(unsafe.Pointer(at))
		room = 2 * count
	}
}

func same(one, other []C.struct_pollfd) bool {
	if len(one) != len(other) {
		return false
	}
	for i := range one {
		if one[i].fd != other[i].fd || one[i].events != other[i].events {
			return false
		}
	}
	return true
}

func (e *engine) drive() {
	for {
		e.mu.Lock()
		if e.handle == nil {
			break
		}
		e.waits = append([]C.struct_pollfd{{fd: C.int(e.reads), events: C.POLLIN}}, e.interest()...)
		all := append([]C.struct_pollfd{}, e.waits...)
		milliseconds := C.sazh_timeout(e.handle)
		e.mu.Unlock()
		C.poll(&all[0], C.nfds_t(len(all)), milliseconds)
		if all[0].revents != 0 {
			var drained [256]byte
			syscall.Read(e.reads, drained[:])
		}
		e.mu.Lock()
		e.waits = nil
		if e.handle == nil {
			break
		}
		C.sazh_step(e.handle)
		e.note()
		e.mu.Unlock()
	}
	syscall.Close(e.reads)
	syscall.Close(e.writes)
	e.writes = -1
	e.mu.Unlock()
}

func (e *engine) now() uint64 { return uint64(C.sazh_changes(e.handle)) + e.pokes }

// note tells those who wait of a change, and the driver of other descriptors. Under the lock, after each call.
func (e *engine) note() uint64 {
	now := e.now()
	if now != e.stamp {
		e.stamp = now
		close(e.changed)
		e.changed = make(chan struct{})
	}
	if e.waits != nil && !same(e.waits[1:], e.interest()) {
		e.wake()
	}
	return now
}

func (e *engine) wake() {
	if e.writes >= 0 {
		syscall.Write(e.writes, []byte{0})
	}
}

// failure is the library's last error. Under the lock.
func (e *engine) failure(code Code) error {
	last := C.sazh_error_of(e.handle)
	if Code(last.code) != code {
		return &Error{Code: code, Text: code.Error()}
	}
	return &Error{
		Code: code, Text: C.GoString(last.text), Status: core.Status(last.status), Reason: uint32(last.reason), ServerWords: C.GoString(last.server_words),
		File: C.GoString(last.file), Line: uint64(last.line), KeyType: C.GoString(last.key_type), Fingerprint: C.GoString(last.fingerprint),
		Methods: e.methods(),
	}
}

func (e *engine) methods() []string {
	if names := C.GoString(C.sazh_methods(e.handle)); names != "" {
		return strings.Split(names, ",")
	}
	return nil
}

func isIn(code Code, codes []Code) bool {
	for _, one := range codes {
		if one == code {
			return true
		}
	}
	return false
}

// once makes a call that waits for nothing. The codes of `also` are no errors.
func (e *engine) once(call func() C.sazh_code, also ...Code) (Code, error) {
	e.mu.Lock()
	defer e.mu.Unlock()
	if e.handle == nil {
		return Misuse, ErrClosed
	}
	code := Code(call())
	defer e.note()
	if code > codeEOF && !isIn(code, also) {
		return code, e.failure(code)
	}
	return code, nil
}

// until makes a call again and again, until it is done.
func (e *engine) until(ctx context.Context, call func() C.sazh_code, also ...Code) (Code, error) {
	for {
		e.mu.Lock()
		if e.handle == nil {
			e.mu.Unlock()
			return Misuse, ErrClosed
		}
		before := e.now()
		code := Code(call())
		var err error
		if code > codeEOF && !isIn(code, also) {
			err = e.failure(code)
		}
		after := e.note()
		changed := e.changed
		e.mu.Unlock()
		if code != codeAgain {
			return code, err
		}
		if err := ctx.Err(); err != nil {
			return code, err
		}
		if after != before {
			continue // the call itself moved something, and may be done by now
		}
		select {
		case <-changed:
		case <-ctx.Done():
			return code, ctx.Err()
		}
	}
}

// started makes a call, and another one that tells what came of it.
func (e *engine) started(ctx context.Context, begin, then func() C.sazh_code, also ...Code) (Code, error) {
	code, err := e.once(begin, also...)
	if err != nil || code != codeAgain {
		return code, err
	}
	return e.until(ctx, then, also...)
}

// close frees the connection with its channels and forwards; whoever waits is told.
func (e *engine) close() {
	e.mu.Lock()
	defer e.mu.Unlock()
	if e.handle == nil {
		return
	}
	C.sazh_free(e.handle)
	e.handle = nil
	close(e.changed)
	e.changed = make(chan struct{})
	e.wake()
}

// freed runs what frees something of the connection, unless that went with it.
func (e *engine) freed(free func()) {
	e.mu.Lock()
	defer e.mu.Unlock()
	if e.handle == nil {
		return
	}
	free()
	e.pokes++
	C.sazh_step(e.handle)
	e.note()
}
