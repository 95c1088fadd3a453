//! Why a run stops: its last line and its status.

use std::fmt;

#[derive(Clone, Copy, Debug, PartialEq)]
pub enum Stop {
    Ended(&'static str),
    /// With the place of an event or the number of a line where the name has one.
    Error(u8, &'static str, Option<u64>),
}

const fn error(status: u8, name: &'static str) -> Stop {
    Stop::Error(status, name, None)
}

pub const REMOTE_DISCONNECT: Stop = Stop::Ended("remote-disconnect");
pub const DISCONNECTED: Stop = Stop::Ended("disconnected");
pub const CLOSED: Stop = Stop::Ended("closed");
pub const SCRIPT_END: Stop = Stop::Ended("script-end");
pub const READ_FAULT: Stop = error(21, "read-fault");
pub const WRITE_FAULT: Stop = error(22, "write-fault");
pub const BAD_EVENT: Stop = error(24, "bad-event");
pub const OUT_OF_TURN: Stop = error(25, "out-of-turn");
pub const SCRIPT_TOO_LONG: Stop = error(26, "script-too-long");
pub const TRANSPORT_FAILED: Stop = error(27, "transport-failed");
pub const UNKNOWN_KEY: Stop = error(28, "unknown-key");
pub const DECODE: Stop = error(30, "decode");
pub const SSH_KEY: Stop = error(31, "ssh-key");
pub const INCONSISTENT: Stop = error(32, "inconsistent");
pub const PENDING: Stop = error(33, "pending");
pub const NO_AUTH_METHOD: Stop = error(34, "no-auth-method");
pub const NOT_AUTHENTICATED: Stop = error(35, "not-authenticated");
pub const SSH_ENCODING: Stop = error(36, "ssh-encoding");
pub const INVALID_DISCONNECT: Stop = error(37, "invalid-disconnect");
pub const RECV_ERROR: Stop = error(38, "recv-error");
pub const REKEY_KEY: Stop = error(43, "rekey-key");

pub const fn key_changed(line: u64) -> Stop {
    Stop::Error(29, "key-changed", Some(line))
}

pub const fn revoked(line: u64) -> Stop {
    Stop::Error(42, "revoked", Some(line))
}

impl Stop {
    pub fn status(self) -> u8 {
        match self {
            Stop::Ended(_) => 0,
            Stop::Error(status, ..) => status,
        }
    }

    /// With the place of the event, where the name has one.
    pub fn at(self, place: u64) -> Stop {
        match self {
            BAD_EVENT | OUT_OF_TURN => Stop::Error(self.status(), self.name(), Some(place)),
            other => other,
        }
    }

    fn name(self) -> &'static str {
        match self {
            Stop::Ended(name) | Stop::Error(_, name, _) => name,
        }
    }
}

impl fmt::Display for Stop {
    fn fmt(&self, f: &mut fmt::Formatter) -> fmt::Result {
        match self {
            Stop::Ended(name) => write!(f, "ended {name}"),
            Stop::Error(_, name, None) => write!(f, "error {name}"),
            Stop::Error(_, name, Some(at)) => write!(f, "error {name} {at}"),
        }
    }
}
