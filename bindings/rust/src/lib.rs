//! The proved SSH client core: known hosts, a session, and an agent whose caller signs. Events go in, records come out as
//! bytes (docs/FORMATS.md); the key exchange and the ciphers are the caller's.
//!
//! What a proof can't see and this crate answers for: that `sys` fits the header, that a handle isn't copied while it holds
//! something, and that it is given to one call at a time (`&mut`).

mod event;
mod sys;

pub use event::{Event, Exchange};

/// Why a call refuses.
#[derive(Clone, Copy, Debug, PartialEq, Eq)]
pub enum Error {
    NoMemory,
    /// The library's interface is another one.
    OtherInterface,
    /// The bytes aren't one whole key.
    BadKey,
    /// A status of the header.
    Status(u32),
}

impl std::fmt::Display for Error {
    fn fmt(&self, to: &mut std::fmt::Formatter<'_>) -> std::fmt::Result {
        write!(to, "{self:?}")
    }
}

impl std::error::Error for Error {}

fn went(status: u32) -> Result<(), Error> {
    match status {
        0 => Ok(()),
        5 => Err(Error::BadKey),
        20 => Err(Error::NoMemory),
        status => Err(Error::Status(status)),
    }
}

/// What a call copies out; the memory grows to what it wants. `None` where it has nothing.
fn copied(mut call: impl FnMut(*mut u8, usize, *mut usize) -> u32) -> Result<Option<Vec<u8>>, Error> {
    let (mut to, mut size) = (vec![0; 256], 0);
    loop {
        match call(to.as_mut_ptr(), to.len(), &mut size) {
            6 => return Ok(None),
            7 => to.resize(size, 0),
            status => {
                went(status)?;
                to.truncate(size);
                return Ok(Some(to));
            }
        }
    }
}

fn check_interface() -> Result<(), Error> {
    if unsafe { sys::sshc_abi() } >> 16 == 1 { Ok(()) } else { Err(Error::OtherInterface) }
}

// ---- known hosts

/// What a known hosts text says of a host's key.
#[derive(Clone, Copy, Debug, PartialEq, Eq)]
pub enum HostKey {
    Known,
    Unknown,
    Changed { line: u64 },
    Revoked { line: u64 },
    /// The key of a line for the host can't be read.
    Unreadable,
}

/// Judges a key's blob by a known hosts text.
pub fn check_host(host: &str, port: u16, known_hosts: &str, key: &[u8]) -> Result<HostKey, Error> {
    let mut line = 0;
    let status = unsafe {
        sys::sshc_known_hosts_check(
            host.as_ptr(), host.len(), port, known_hosts.as_ptr(), known_hosts.len(), key.as_ptr(), key.len(), &mut line,
        )
    };
    verdict(status, line)
}

/// The same as OpenSSH reads the text, which may be any bytes: patterns, names in any case, any blanks; a line that can't
/// be read is passed over.
pub fn check_known_hosts_openssh(host: &str, port: u16, known_hosts: &[u8], key: &[u8]) -> Result<HostKey, Error> {
    let mut line = 0;
    let status = unsafe {
        sys::sshc_known_hosts_check_openssh(
            host.as_ptr(), host.len(), port, known_hosts.as_ptr(), known_hosts.len(), key.as_ptr(), key.len(), &mut line,
        )
    };
    verdict(status, line)
}

fn verdict(status: u32, line: u64) -> Result<HostKey, Error> {
    match status {
        1 => Ok(HostKey::Unknown),
        29 => Ok(HostKey::Changed { line }),
        42 => Ok(HostKey::Revoked { line }),
        30 | 31 => Ok(HostKey::Unreadable),
        status => went(status).map(|()| HostKey::Known),
    }
}

/// What is to be added to the known hosts text so that it has the key.
pub fn learn_host(host: &str, port: u16, known_hosts: &str, key: &[u8]) -> Result<Vec<u8>, Error> {
    let added = copied(|to, to_len, size| unsafe {
        sys::sshc_known_hosts_learn(
            host.as_ptr(), host.len(), port, known_hosts.as_ptr(), known_hosts.len(), key.as_ptr(), key.len(), to, to_len, size,
        )
    })?;
    Ok(added.unwrap_or_default())
}

// ---- a session

/// Sizes are bytes, times milliseconds; 0 is no interval and no limit.
#[repr(C)]
#[derive(Clone, Copy, Debug, PartialEq, Eq)]
pub struct Settings {
    pub keepalive_interval: u64,
    pub keepalive_max: u64,
    pub inactivity_timeout: u64,
    pub window_size: u32,
    pub maximum_packet_size: u32,
    pub max_events: u32,
    /// Not 0: no user is authenticated.
    pub anonymous: u32,
}

impl Default for Settings {
    fn default() -> Settings {
        let mut settings = Settings {
            keepalive_interval: 0, keepalive_max: 0, inactivity_timeout: 0, window_size: 0, maximum_packet_size: 0, max_events: 0, anonymous: 0,
        };
        unsafe { sys::sshc_settings_default(&mut settings) };
        settings
    }
}

/// What became of events.
#[derive(Clone, Copy, Debug, PartialEq, Eq)]
pub enum Step {
    Went,
    RemoteDisconnect,
    Disconnected,
    Closed,
    /// An event was refused: a status of the header, and the place or line that it names.
    Refused { status: u32, detail: u64 },
    /// The session was over before.
    Over,
}

/// A session. Dropping it frees it.
pub struct Session {
    handle: sys::Handle,
    events: Vec<u8>,
}

// The library has no state of its own, and a handle's memory is malloc's: it may be used and freed on another thread. It
// isn't `Sync`, and every call takes `&mut self`.
unsafe impl Send for Session {}

impl Session {
    /// A session that goes on only with a server whose host key the known hosts text accepts for the host at the port.
    pub fn new(settings: &Settings, host: &str, port: u16, known_hosts: &str) -> Result<Session, Error> {
        check_interface()?;
        let mut handle = sys::Handle::NOTHING;
        went(unsafe {
            sys::sshc_session_new(&mut handle, settings, host.as_ptr(), host.len(), port, known_hosts.as_ptr(), known_hosts.len())
        })?;
        Ok(Session { handle, events: Vec::new() })
    }

    /// Hands in an event. Records that aren't read come before those of the next one.
    pub fn event(&mut self, moment: u64, event: Event<'_>) -> (Step, Records<'_>) {
        let mut events = std::mem::take(&mut self.events);
        events.clear();
        event.put(moment, &mut events);
        let step = self.step(&events);
        self.events = events;
        (step, Records { session: self })
    }

    /// Hands in events as a script has them.
    pub fn take(&mut self, events: &[u8]) -> (Step, Records<'_>) {
        let step = self.step(events);
        (step, Records { session: self })
    }

    fn step(&mut self, events: &[u8]) -> Step {
        let mut detail = 0;
        match unsafe { sys::sshc_session_take(&mut self.handle, events.as_ptr(), events.len(), &mut detail) } {
            0 => Step::Went,
            8 => Step::Over,
            9 => Step::RemoteDisconnect,
            10 => Step::Disconnected,
            11 => Step::Closed,
            status => Step::Refused { status, detail },
        }
    }
}

impl Drop for Session {
    fn drop(&mut self) {
        unsafe { sys::sshc_session_free(&mut self.handle) }
    }
}

/// The records that events left, each as bytes: a number and its fields.
pub struct Records<'a> {
    session: &'a mut Session,
}

impl Iterator for Records<'_> {
    type Item = Vec<u8>;

    fn next(&mut self) -> Option<Vec<u8>> {
        let handle: *mut sys::Handle = &mut self.session.handle;
        copied(|to, to_len, size| unsafe { sys::sshc_session_record(handle, to, to_len, size) }).ok().flatten()
    }
}

// ---- an agent

/// What an agent's connection brings.
#[derive(Clone, Copy, Debug, PartialEq, Eq)]
pub enum Input<'a> {
    /// A frame without its length.
    Frame(&'a [u8]),
    /// A frame's length was above 262144.
    Oversize,
    RequestAnswer(bool),
    KeyAnswer(bool),
    Close,
}

impl<'a> Input<'a> {
    fn parts(self) -> (u32, &'a [u8]) {
        match self {
            Input::Frame(frame) => (0, frame),
            Input::Oversize => (1, b""),
            Input::RequestAnswer(true) => (2, b""),
            Input::RequestAnswer(false) => (3, b""),
            Input::KeyAnswer(true) => (4, b""),
            Input::KeyAnswer(false) => (5, b""),
            Input::Close => (6, b""),
        }
    }
}

/// What a step asks to be signed.
#[derive(Clone, Debug, PartialEq, Eq)]
pub struct Question {
    /// 0 none, 1 SHA-256, 2 SHA-512.
    pub hash: u32,
    pub bytes: Vec<u8>,
    /// The public key's blob.
    pub key: Vec<u8>,
    /// The key pair as ADD_IDENTITY has it.
    pub pair: Vec<u8>,
}

/// The answer to what a step asks.
#[derive(Clone, Copy, Debug, PartialEq, Eq)]
pub enum Told<'a> {
    Nothing,
    Signed(&'a [u8]),
    Refused,
}

/// What an agent returns for an input.
#[derive(Clone, Debug, PartialEq, Eq)]
pub enum Output {
    /// A whole frame with its length, to be sent.
    Answer(Vec<u8>),
    /// The user is asked about a request: 0 REQUEST_IDENTITIES, 1 ADD, 2 REMOVE, 3 REMOVE_ALL, 4 SIGN, 5 LOCK, 6 UNLOCK.
    AskRequest(u32),
    /// The user is asked whether the key of this blob may sign.
    AskKey(Vec<u8>),
    Nothing,
    /// The connection is to be closed: a status of the header.
    Close(u32),
}

/// An agent whose caller signs. Dropping it frees it.
pub struct Agent {
    handle: sys::Handle,
}

unsafe impl Send for Agent {} // as a session

impl Agent {
    pub fn new(asks: bool) -> Result<Agent, Error> {
        check_interface()?;
        let mut handle = sys::Handle::NOTHING;
        went(unsafe { sys::sshc_agent_new(&mut handle, asks.into()) })?;
        Ok(Agent { handle })
    }

    fn part(&mut self, part: u32) -> Result<Vec<u8>, Error> {
        Ok(copied(|to, to_len, size| unsafe { sys::sshc_agent_asked(&mut self.handle, part, to, to_len, size) })?.unwrap_or_default())
    }

    /// What a step with this input asks to be signed.
    pub fn asks(&mut self, moment: u64, connection: u32, input: Input<'_>) -> Result<Option<Question>, Error> {
        let ((number, frame), mut hash) = (input.parts(), 0);
        let status = unsafe { sys::sshc_agent_asks(&mut self.handle, moment, connection, number, frame.as_ptr(), frame.len(), &mut hash) };
        match status {
            6 => Ok(None),
            12 => Ok(Some(Question { hash, bytes: self.part(0)?, key: self.part(1)?, pair: self.part(2)? })),
            status => went(status).map(|()| None),
        }
    }

    /// Takes an input, with the answer to what it asks.
    pub fn take(&mut self, moment: u64, connection: u32, input: Input<'_>, told: Told<'_>) -> Result<Output, Error> {
        let ((number, frame), mut request) = (input.parts(), 0);
        let (how, signature): (u32, &[u8]) = match told {
            Told::Nothing => (0, b""),
            Told::Signed(signature) => (1, signature),
            Told::Refused => (2, b""),
        };
        let status = unsafe {
            sys::sshc_agent_take(
                &mut self.handle, moment, connection, number, frame.as_ptr(), frame.len(), how, signature.as_ptr(), signature.len(), &mut request,
            )
        };
        match status {
            0 => Ok(Output::Answer(self.answer()?)),
            6 => Ok(Output::Nothing),
            13 => Ok(Output::AskRequest(request)),
            14 => Ok(Output::AskKey(self.answer()?)),
            15..=17 => Ok(Output::Close(status)),
            status => went(status).map(|()| Output::Nothing),
        }
    }

    fn answer(&mut self) -> Result<Vec<u8>, Error> {
        Ok(copied(|to, to_len, size| unsafe { sys::sshc_agent_answer(&mut self.handle, to, to_len, size) })?.unwrap_or_default())
    }

    /// Forgets a connection that ended.
    pub fn forget(&mut self, connection: u32) -> Result<(), Error> {
        went(unsafe { sys::sshc_agent_forget(&mut self.handle, connection) })
    }
}

impl Drop for Agent {
    fn drop(&mut self) {
        unsafe { sys::sshc_agent_free(&mut self.handle) }
    }
}
