package sazhonthil

/*
#include <stdlib.h>
#include "sazhonthil_ssh.h"
*/
import "C"

import (
	"bytes"
	"context"
	"errors"
	"fmt"
	"io"
	"net"
	"os"
	"runtime"
	"sync"
	"time"
	"unsafe"
)

// Exit is what became of a command: a status, or the signal that ended it; neither where the server told nothing.
type Exit struct {
	HasStatus bool
	Status    int
	Signal    string
	Message   string // the server's words to a signal
}

func (e Exit) String() string {
	switch {
	case e.Signal != "":
		return "the signal " + e.Signal
	case e.HasStatus:
		return fmt.Sprintf("the status %d", e.Status)
	}
	return "no status"
}

// channel is a channel of the library.
type channel struct {
	e    *engine
	at   *C.sazh_channel // nil once it is freed
	keep *Client
}

func (c *Client) open(ctx context.Context, begin func(made **C.sazh_channel) C.sazh_code) (*channel, error) {
	made := (**C.sazh_channel)(C.calloc(1, C.size_t(unsafe.Sizeof(uintptr(0)))))
	defer C.free(unsafe.Pointer(made))
	code, err := c.engine.once(func() C.sazh_code { return begin(made) })
	if err != nil {
		return nil, err
	}
	it := &channel{c.engine, *made, c}
	runtime.SetFinalizer(it, (*channel).free)
	if code == codeAgain {
		if err = it.settle(ctx); err != nil {
			it.free()
			return nil, err
		}
	}
	return it, nil
}

// call runs a call of the library on the channel, unless it is freed; under the engine's lock.
func (c *channel) call(with func(at *C.sazh_channel) C.sazh_code) func() C.sazh_code {
	return func() C.sazh_code {
		if c.at == nil {
			return C.SAZH_CHANNEL_CLOSED
		}
		return with(c.at)
	}
}

// closed makes the error of a channel that was closed here ErrClosed.
func (c *channel) closed(err error) error {
	if errors.Is(err, ChannelClosed) && c.isFreed() {
		return ErrClosed
	}
	return err
}

func (c *channel) isFreed() bool {
	c.e.mu.Lock()
	defer c.e.mu.Unlock()
	return c.at == nil
}

func (c *channel) settle(ctx context.Context) error {
	_, err := c.e.until(ctx, c.call(func(at *C.sazh_channel) C.sazh_code { return C.sazh_channel_wait(at) }))
	return c.closed(err)
}

func (c *channel) ask(ctx context.Context, begin func(at *C.sazh_channel) C.sazh_code) error {
	_, err := c.e.started(ctx, c.call(begin), c.call(func(at *C.sazh_channel) C.sazh_code { return C.sazh_channel_wait(at) }))
	return c.closed(err)
}

func (c *channel) read(ctx context.Context, stream C.sazh_stream, to []byte) (int, error) {
	if len(to) == 0 {
		return 0, nil
	}
	var got C.size_t
	code, err := c.e.until(ctx, c.call(func(at *C.sazh_channel) C.sazh_code {
		return C.sazh_read(at, stream, unsafe.Pointer(&to[0]), C.size_t(len(to)), &got)
	}))
	if err != nil {
		return 0, c.closed(err)
	}
	if code == codeEOF {
		return 0, io.EOF
	}
	return int(got), nil
}

func (c *channel) write(ctx context.Context, from []byte) (int, error) {
	done := 0
	if len(from) == 0 {
		return 0, nil
	}
	_, err := c.e.until(ctx, c.call(func(at *C.sazh_channel) C.sazh_code {
		for done < len(from) {
			var taken C.size_t
			code := C.sazh_write(at, unsafe.Pointer(&from[done]), C.size_t(len(from)-done), &taken)
			done += int(taken)
			if code != C.SAZH_OK {
				return code
			}
		}
		return C.SAZH_OK
	}))
	return done, c.closed(err)
}

func (c *channel) eof() error {
	_, err := c.e.once(c.call(func(at *C.sazh_channel) C.sazh_code {
		code := C.sazh_write_eof(at)
		C.sazh_step(c.e.handle)
		return code
	}))
	return c.closed(err)
}

func (c *channel) wait(ctx context.Context) (Exit, error) {
	var told C.sazh_exit
	var exit Exit
	_, err := c.e.until(ctx, c.call(func(at *C.sazh_channel) C.sazh_code {
		code := C.sazh_wait_exit(at, &told)
		if code == C.SAZH_OK {
			exit = Exit{bool(told.has_status), int(told.status), "", C.GoString(told.message)}
			if told.has_signal {
				exit.Signal = C.GoString(told.signal)
			}
		}
		return code
	}))
	return exit, c.closed(err)
}

func (c *channel) free() {
	runtime.SetFinalizer(c, nil)
	c.e.freed(func() {
		if c.at != nil {
			C.sazh_channel_free(c.at)
			c.at = nil
		}
	})
}

// Session is a command, a shell or a subsystem that runs: Read is its standard output, Write its standard input. Both outputs
// share a window, so that one of which a window (2 MiB) isn't read stops the other too.
type Session struct {
	channel *channel
	Stderr  io.Reader
}

type stderr struct{ *channel }

func (s stderr) Read(to []byte) (int, error) { return s.read(context.Background(), C.SAZH_ERR, to) }

// Start starts a command.
func (c *Client) Start(ctx context.Context, command string) (*Session, error) {
	return c.start(ctx, command, func(at *C.sazh_channel, words *C.char) C.sazh_code { return C.sazh_command(at, words) })
}

// StartSubsystem starts a subsystem, such as sftp.
func (c *Client) StartSubsystem(ctx context.Context, name string) (*Session, error) {
	return c.start(ctx, name, func(at *C.sazh_channel, words *C.char) C.sazh_code { return C.sazh_subsystem(at, words) })
}

func (c *Client) start(ctx context.Context, words string, begin func(*C.sazh_channel, *C.char) C.sazh_code) (*Session, error) {
	if err := noZero(words); err != nil {
		return nil, err
	}
	it, err := c.open(ctx, func(made **C.sazh_channel) C.sazh_code { return C.sazh_open_session(c.engine.handle, made) })
	if err != nil {
		return nil, err
	}
	given := text(words)
	defer C.free(unsafe.Pointer(given))
	if err = it.ask(ctx, func(at *C.sazh_channel) C.sazh_code { return begin(at, given) }); err != nil {
		it.free()
		return nil, err
	}
	return &Session{it, stderr{it}}, nil
}

// Read reads from the standard output.
func (s *Session) Read(to []byte) (int, error) {
	return s.channel.read(context.Background(), C.SAZH_OUT, to)
}

// Write writes all of it to the standard input.
func (s *Session) Write(from []byte) (int, error) {
	return s.channel.write(context.Background(), from)
}

// CloseWrite says that no more bytes follow.
func (s *Session) CloseWrite() error { return s.channel.eof() }

// Wait returns what became of the command, once the server told it. Output that isn't read may hold it up.
func (s *Session) Wait(ctx context.Context) (Exit, error) { return s.channel.wait(ctx) }

// Signal sends TERM, INT ..; not every server passes it on, and none answers.
func (s *Session) Signal(name string) error {
	if err := noZero(name); err != nil {
		return err
	}
	given := text(name)
	defer C.free(unsafe.Pointer(given))
	_, err := s.channel.e.once(s.channel.call(func(at *C.sazh_channel) C.sazh_code {
		code := C.sazh_signal(at, given)
		C.sazh_step(s.channel.e.handle)
		return code
	}))
	return s.channel.closed(err)
}

// Close closes the channel, any number of times. What came and wasn't read is gone.
func (s *Session) Close() error {
	s.channel.free()
	return nil
}

// Completed is what a command left.
type Completed struct {
	Stdout, Stderr []byte
	Exit           Exit
}

// Run runs a command to its end, with no input. Where it ends otherwise than with the status 0 the error is an *ExitError, and
// what it left is returned too.
func (c *Client) Run(ctx context.Context, command string) (*Completed, error) {
	return c.RunInput(ctx, command, nil)
}

// RunInput runs a command with these bytes as its input.
func (c *Client) RunInput(ctx context.Context, command string, input io.Reader) (*Completed, error) {
	s, err := c.Start(ctx, command)
	if err != nil {
		return nil, err
	}
	defer s.Close()
	stop := make(chan struct{})
	defer close(stop)
	go func() { // closing the session ends what waits
		select {
		case <-ctx.Done():
			s.Close()
		case <-stop:
		}
	}()
	var out, err2 bytes.Buffer
	var reading, writing sync.WaitGroup
	var failed [2]error
	reading.Add(1)
	go func() {
		defer reading.Done()
		_, failed[1] = io.Copy(&err2, s.Stderr)
	}()
	writing.Add(1)
	go func() {
		defer writing.Done()
		if input != nil {
			io.Copy(s, input) // a command that takes no more may still say something
		}
		s.CloseWrite()
	}()
	_, failed[0] = io.Copy(&out, s)
	reading.Wait()
	exit, err := s.Wait(ctx)
	s.Close() // ends what is still written
	writing.Wait()
	done := &Completed{out.Bytes(), err2.Bytes(), exit}
	if ctx.Err() != nil {
		return done, ctx.Err()
	}
	for _, one := range append(failed[:], err) {
		if one != nil && !errors.Is(one, net.ErrClosed) {
			return done, one
		}
	}
	if !exit.HasStatus || exit.Status != 0 {
		return done, &ExitError{command, exit}
	}
	return done, nil
}

// ---- connections through the server

// conn is a channel as a net.Conn.
type conn struct {
	channel      *channel
	local, there net.Addr
	mu           sync.Mutex
	reads        time.Time
	writes       time.Time
}

type addr struct{ network, name string }

func (a addr) Network() string { return a.network }
func (a addr) String() string  { return a.name }

// Dial connects through the server: to "tcp" with host and port, or to "unix" with the path of a socket there.
func (c *Client) Dial(network, address string) (net.Conn, error) {
	return c.DialContext(context.Background(), network, address)
}

// DialContext is Dial with a context for the connecting.
func (c *Client) DialContext(ctx context.Context, network, address string) (net.Conn, error) {
	var begin func(name *C.char, made **C.sazh_channel) C.sazh_code
	name := address
	switch network {
	case "tcp", "tcp4", "tcp6":
		host, port, err := splitAddr(address)
		if err != nil {
			return nil, err
		}
		name = host
		begin = func(name *C.char, made **C.sazh_channel) C.sazh_code {
			return C.sazh_open_tcp(c.engine.handle, name, C.uint16_t(port), made)
		}
	case "unix":
		begin = func(name *C.char, made **C.sazh_channel) C.sazh_code {
			return C.sazh_open_unix(c.engine.handle, name, made)
		}
	default:
		return nil, net.UnknownNetworkError(network)
	}
	if err := noZero(name); err != nil {
		return nil, err
	}
	given := text(name)
	defer C.free(unsafe.Pointer(given))
	it, err := c.open(ctx, func(made **C.sazh_channel) C.sazh_code { return begin(given, made) })
	if err != nil {
		return nil, err
	}
	return &conn{channel: it, local: addr{"ssh", c.host}, there: addr{network, address}}, nil
}

func (c *conn) deadline(of *time.Time) (context.Context, context.CancelFunc) {
	c.mu.Lock()
	at := *of
	c.mu.Unlock()
	if at.IsZero() {
		return context.Background(), func() {}
	}
	return context.WithDeadline(context.Background(), at)
}

func late(err error) error {
	if errors.Is(err, context.DeadlineExceeded) {
		return os.ErrDeadlineExceeded
	}
	return err
}

func (c *conn) Read(to []byte) (int, error) {
	ctx, cancel := c.deadline(&c.reads)
	defer cancel()
	got, err := c.channel.read(ctx, C.SAZH_OUT, to)
	return got, late(err)
}

func (c *conn) Write(from []byte) (int, error) {
	ctx, cancel := c.deadline(&c.writes)
	defer cancel()
	done, err := c.channel.write(ctx, from)
	return done, late(err)
}

func (c *conn) CloseWrite() error { return c.channel.eof() }

func (c *conn) Close() error {
	c.channel.free()
	return nil
}

func (c *conn) LocalAddr() net.Addr  { return c.local }
func (c *conn) RemoteAddr() net.Addr { return c.there }

// SetDeadline and the two below count for the reads and writes that begin after them.
func (c *conn) SetDeadline(at time.Time) error {
	c.mu.Lock()
	defer c.mu.Unlock()
	c.reads, c.writes = at, at
	return nil
}

func (c *conn) SetReadDeadline(at time.Time) error {
	c.mu.Lock()
	defer c.mu.Unlock()
	c.reads = at
	return nil
}

func (c *conn) SetWriteDeadline(at time.Time) error {
	c.mu.Lock()
	defer c.mu.Unlock()
	c.writes = at
	return nil
}

// ---- forwards

// Forward listens until it is closed; the connections that came through it go on.
type Forward struct {
	e    *engine
	at   *C.sazh_forward
	keep *Client
}

// end is a host and port, or, where it begins with /, the path of a socket of Unix; in memory of C.
func end(address string) (C.sazh_end, error) {
	if err := noZero(address); err != nil {
		return C.sazh_end{}, err
	}
	if len(address) != 0 && address[0] == '/' {
		return C.sazh_end{path: text(address)}, nil
	}
	host, port, err := splitAddr(address)
	if err != nil {
		return C.sazh_end{}, err
	}
	return C.sazh_end{host: text(host), port: C.uint16_t(port)}, nil
}

func (c *Client) forward(ctx context.Context, addresses []string, begin func(ends *C.sazh_end, made **C.sazh_forward) C.sazh_code) (*Forward, error) {
	ends := (*C.sazh_end)(C.calloc(2, C.sizeof_sazh_end))
	made := (**C.sazh_forward)(C.calloc(1, C.size_t(unsafe.Sizeof(uintptr(0)))))
	all := unsafe.Slice(ends, 2)
	defer func() {
		for _, one := range all {
			C.free(unsafe.Pointer(one.host))
			C.free(unsafe.Pointer(one.path))
		}
		C.free(unsafe.Pointer(ends))
		C.free(unsafe.Pointer(made))
	}()
	for i, address := range addresses {
		var err error
		if all[i], err = end(address); err != nil {
			return nil, err
		}
	}
	code, err := c.engine.once(func() C.sazh_code { return begin(ends, made) })
	if err != nil {
		return nil, err
	}
	it := &Forward{c.engine, *made, c}
	runtime.SetFinalizer(it, (*Forward).finalize)
	if code == codeAgain {
		if _, err = c.engine.until(ctx, func() C.sazh_code { return C.sazh_forward_wait(it.at) }); err != nil {
			it.Close()
			return nil, err
		}
	}
	return it, nil
}

func second(ends *C.sazh_end) *C.sazh_end { return &unsafe.Slice(ends, 2)[1] }

// ForwardLocal listens here, and has the server connect there. An address is host:port, with the port 0 here one that the
// system chooses, or the path of a socket of Unix.
func (c *Client) ForwardLocal(here, there string) (*Forward, error) {
	return c.forward(context.Background(), []string{here, there}, func(ends *C.sazh_end, made **C.sazh_forward) C.sazh_code {
		return C.sazh_forward_local(c.engine.handle, ends, second(ends), made)
	})
}

// ForwardRemote has the server listen there, and connects here. Port 0 is one that the server chooses.
func (c *Client) ForwardRemote(ctx context.Context, there, here string) (*Forward, error) {
	return c.forward(ctx, []string{there, here}, func(ends *C.sazh_end, made **C.sazh_forward) C.sazh_code {
		return C.sazh_forward_remote(c.engine.handle, ends, second(ends), made)
	})
}

// ForwardSOCKS listens here for SOCKS5, and has the server connect where each client wants.
func (c *Client) ForwardSOCKS(here string) (*Forward, error) {
	return c.forward(context.Background(), []string{here}, func(ends *C.sazh_end, made **C.sazh_forward) C.sazh_code {
		return C.sazh_forward_dynamic(c.engine.handle, ends, made)
	})
}

// Port is the port that is listened at; 0 once the forward is closed.
func (f *Forward) Port() int {
	f.e.mu.Lock()
	defer f.e.mu.Unlock()
	if f.e.handle == nil || f.at == nil {
		return 0
	}
	return int(C.sazh_forward_port(f.at))
}

// Close ends the listening, any number of times.
func (f *Forward) Close() error {
	runtime.SetFinalizer(f, nil)
	f.finalize()
	return nil
}

func (f *Forward) finalize() {
	f.e.freed(func() {
		if f.at != nil {
			C.sazh_forward_free(f.at)
			f.at = nil
		}
	})
}
