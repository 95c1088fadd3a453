use crate::sys;
use std::ffi::{c_int, CStr};
use std::fmt;
use std::io;
use std::ops::Deref;

macro_rules! kinds {
    ($($(#[$doc:meta])* $name:ident = $code:literal,)*) => {
        /// What goes wrong with a connection.
        #[derive(Clone, Copy, Debug, PartialEq, Eq, Hash)]
        #[non_exhaustive]
        pub enum ErrorKind {
            $($(#[$doc])* $name,)*
            /// The object was closed here.
            Closed,
            /// The time of the call ran out.
            TookTooLong,
            /// The library is another one.
            OtherLibrary,
        }

        pub(crate) fn kind_of(code: c_int) -> ErrorKind {
            match code {
                $($code => ErrorKind::$name,)*
                _ => ErrorKind::OtherLibrary,
            }
        }
    };
}

kinds! {
    /// This call can't be made now, or not with these values.
    Misuse = 3,
    /// Memory ran out.
    NoMemory = 4,
    /// libcrypto failed.
    Crypto = 5,
    /// A call of the system failed.
    System = 6,
    /// The host's name can't stand in a line of known hosts.
    BadName = 7,
    /// The host's name has no address.
    NoAddress = 8,
    /// No address takes the connection.
    NoConnection = 9,
    /// Connecting or a key exchange took too long.
    Timeout = 10,
    /// The server closed the connection, or it broke.
    ConnectionLost = 11,
    /// The server sent what the transport can't take.
    BadPacket = 12,
    /// There is no algorithm in common with the server.
    NoAlgorithm = 13,
    /// The server doesn't have the host key that it showed.
    BadSignature = 14,
    /// No line of the known hosts has the server's key.
    HostUnknown = 15,
    /// A line has another key, and none this one: somebody may be in between.
    HostChanged = 16,
    /// A line revokes the server's key.
    HostRevoked = 17,
    /// A later key exchange showed another host key than the first.
    HostReplaced = 18,
    /// A known hosts file can't be read or written, or a line of it can't be read.
    KnownHosts = 19,
    /// The core refuses what the server sent.
    RefusedByCore = 20,
    /// The server ended the session.
    Disconnected = 21,
    /// The server left too many keepalives unanswered.
    NoAnswer = 22,
    /// The server doesn't let this user in so.
    AuthenticationFailed = 23,
    /// The server names no method of logging in that is known.
    NoMethod = 24,
    /// There is no agent at the socket, or it answers nothing.
    NoAgent = 25,
    /// The agent has no key that can be tried.
    NoKey = 26,
    /// The file isn't a private key that can be read.
    KeyFile = 27,
    /// The passphrase is wrong, or there is none.
    Passphrase = 28,
    /// The key didn't sign.
    Signing = 29,
    /// There were no answers to the server's prompts.
    NoAnswers = 30,
    /// The server opens no such channel.
    ChannelRefused = 31,
    /// The server refused what was asked of the channel.
    RequestRefused = 32,
    /// The channel is closed.
    ChannelClosed = 33,
    /// The server listens at no such port or socket.
    ForwardRefused = 34,
    /// No socket here listens at this address.
    CannotListen = 35,
}

/// An error; its fields are those of [`Details`].
#[derive(Clone)]
pub struct Error(pub(crate) Box<Details>);

/// What the library knows of an error; what it doesn't know is empty or 0.
#[derive(Clone, Debug)]
pub struct Details {
    /// What went wrong.
    pub kind: ErrorKind,
    /// A line that names all that is known.
    pub text: String,
    /// The reason of a disconnection, or of a channel that was refused.
    pub reason: u32,
    /// What the server said.
    pub server_words: String,
    /// The known hosts file, or the key's.
    pub file: String,
    /// The line of the known hosts file, from 1.
    pub line: u64,
    /// The fingerprint of the host key that the server showed.
    pub fingerprint: String,
    /// The methods of logging in that the server would take, with commas.
    pub methods: String,
}

impl Error {
    pub(crate) fn new(kind: ErrorKind, text: impl Into<String>) -> Error {
        let none = String::new;
        let details = Details { kind, text: text.into(), reason: 0, server_words: none(), file: none(), line: 0, fingerprint: none(), methods: none() };
        Error(Box::new(details))
    }

    pub(crate) fn closed() -> Error {
        Error::new(ErrorKind::Closed, "it was closed before")
    }

    pub(crate) fn of_code(code: c_int) -> Error {
        Error::new(kind_of(code), text_of(unsafe { sys::sazh_code_text(code) }))
    }
}

pub(crate) fn text_of(text: *const std::ffi::c_char) -> String {
    if text.is_null() {
        return String::new();
    }
    unsafe { CStr::from_ptr(text) }.to_string_lossy().into_owned()
}

impl Deref for Error {
    type Target = Details;

    fn deref(&self) -> &Details {
        &self.0
    }
}

impl fmt::Debug for Error {
    fn fmt(&self, to: &mut fmt::Formatter<'_>) -> fmt::Result {
        self.0.fmt(to)
    }
}

impl fmt::Display for Error {
    fn fmt(&self, to: &mut fmt::Formatter<'_>) -> fmt::Result {
        to.write_str(&self.text)
    }
}

impl std::error::Error for Error {}

impl From<Error> for io::Error {
    fn from(error: Error) -> io::Error {
        let kind = match error.kind {
            ErrorKind::Timeout | ErrorKind::TookTooLong => io::ErrorKind::TimedOut,
            ErrorKind::ConnectionLost | ErrorKind::Disconnected | ErrorKind::NoAnswer => io::ErrorKind::ConnectionReset,
            ErrorKind::ChannelClosed => io::ErrorKind::BrokenPipe,
            ErrorKind::Closed => io::ErrorKind::NotConnected,
            ErrorKind::NoConnection => io::ErrorKind::ConnectionRefused,
            ErrorKind::AuthenticationFailed => io::ErrorKind::PermissionDenied,
            _ => io::ErrorKind::Other,
        };
        io::Error::new(kind, error)
    }
}
