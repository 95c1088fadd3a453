// Package sazhonthil connects to SSH servers over a client core that is proved: commands, forwards, connections through the
// server. It is linked from libsazhonthil_ssh (bindings/build.sh makes it).
//
// A Client may be used by any number of goroutines at once. Close may be called any number of times, and whoever waits, or
// calls later, gets ErrClosed. What is dropped is freed. Errors are told apart by errors.Is and a Code.
package sazhonthil

/*
#cgo CFLAGS: -I${SRCDIR}/../include
#include <stdlib.h>
#include "sazhonthil_ssh.h"
*/
import "C"

import (
	"fmt"
	"net"

	"sazhonthil/core"
)

// Code is what goes wrong with a connection. It is an error to compare with: errors.Is(err, sazhonthil.HostChanged).
type Code int

// The codes of include/sazhonthil_ssh.h.
const (
	codeOK Code = iota
	codeAgain
	codeEOF
	Misuse
	OutOfMemory
	CryptoFailed
	SystemFailed
	BadName
	NoAddress
	NoConnection
	TimedOut
	ConnectionLost
	BadPacket
	NoAlgorithm
	BadSignature
	HostUnknown
	HostChanged
	HostRevoked
	HostReplaced
	KnownHostsFailed
	RefusedByCore
	Disconnected
	NoAnswer
	AuthenticationFailed
	NoMethod
	NoAgent
	NoKey
	BadKeyFile
	BadPassphrase
	SigningFailed
	NoAnswers
	ChannelRefused
	RequestRefused
	ChannelClosed
	ForwardRefused
	CannotListen
)

func (c Code) Error() string { return C.GoString(C.sazh_code_text(C.sazh_code(c))) }

// Error is an error of a connection, with what the library knows of it. Fields that it doesn't know are "" or 0.
type Error struct {
	Code        Code
	Text        string
	Status      core.Status // of the core, where that refused
	Reason      uint32      // of a disconnection, or of a channel that was refused
	ServerWords string
	File        string // the known hosts file, or the key's
	Line        uint64 // of the known hosts file, from 1
	KeyType     string
	Fingerprint string
	Methods     []string // of logging in, that the server would take
}

func (e *Error) Error() string { return e.Text }

// Is says whether the error is of this code. A lost connection, a disconnection and a server that doesn't answer are all
// ConnectionLost.
func (e *Error) Is(target error) bool {
	code, is := target.(Code)
	if !is {
		return false
	}
	return e.Code == code || code == ConnectionLost && (e.Code == Disconnected || e.Code == NoAnswer)
}

// Timeout makes it a net.Error.
func (e *Error) Timeout() bool { return e.Code == TimedOut }

// Temporary makes it a net.Error.
func (e *Error) Temporary() bool { return false }

// ErrClosed is returned by what was closed here; errors.Is(err, net.ErrClosed) too.
var ErrClosed = fmt.Errorf("sazhonthil: closed: %w", net.ErrClosed)

// ExitError says that a command ended otherwise than with the status 0.
type ExitError struct {
	Command string
	Exit
}

func (e *ExitError) Error() string { return fmt.Sprintf("%q ended with %v", e.Command, e.Exit) }
