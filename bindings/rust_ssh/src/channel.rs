use crate::engine::{AGAIN, EOF, OK};
use crate::error::{text_of, Error, ErrorKind};
use crate::{plain, sys, Client, Kept};
use std::ffi::{c_int, CString};
use std::fmt;
use std::io::{self, Read, Write};
use std::path::PathBuf;
use std::sync::{Arc, Mutex, MutexGuard};
use std::time::{Duration, Instant};

const CHANNEL_CLOSED: c_int = 33;
const OUT: c_int = 0;
const ERR: c_int = 1;

/// What became of a command; neither where the server told nothing.
#[derive(Clone, Debug, Default, PartialEq, Eq)]
pub struct Exit {
    /// Its status.
    pub status: Option<u32>,
    /// The signal that ended it: TERM, KILL ..
    pub signal: Option<String>,
}

impl fmt::Display for Exit {
    fn fmt(&self, to: &mut fmt::Formatter<'_>) -> fmt::Result {
        match (self.status, &self.signal) {
            (_, Some(signal)) => write!(to, "the signal {signal}"),
            (Some(status), None) => write!(to, "the status {status}"),
            (None, None) => to.write_str("no status"),
        }
    }
}

/// What a command left.
#[derive(Clone, Debug, Default, PartialEq, Eq)]
pub struct Output {
    /// Its standard output.
    pub stdout: Vec<u8>,
    /// Its standard error.
    pub stderr: Vec<u8>,
    /// How it ended.
    pub exit: Exit,
}

/// A channel of the library, which the last who has it frees.
struct Held {
    kept: Arc<Kept>,
    at: Mutex<*mut sys::Channel>, // null once it is freed; locked within the engine's lock
}

unsafe impl Send for Held {}
unsafe impl Sync for Held {}

impl Held {
    /// A call of the library on the channel, unless it is freed.
    fn on<'a>(&'a self, mut call: impl FnMut(*mut sys::Channel) -> c_int + 'a) -> impl FnMut(*mut sys::Connection) -> c_int + 'a {
        move |_| {
            let at = *self.lock();
            if at.is_null() { CHANNEL_CLOSED } else { call(at) }
        }
    }

    fn lock(&self) -> MutexGuard<'_, *mut sys::Channel> {
        self.at.lock().unwrap_or_else(|poisoned| poisoned.into_inner())
    }

    /// The error of a channel that was closed here is `Closed`.
    fn told<T>(&self, result: Result<T, Error>) -> Result<T, Error> {
        match result {
            Err(error) if error.kind == ErrorKind::ChannelClosed && self.lock().is_null() => Err(Error::closed()),
            other => other,
        }
    }

    fn settle(&self, begin: impl FnMut(*mut sys::Channel) -> c_int) -> Result<(), Error> {
        let done = self.kept.0.started(self.on(begin), self.on(|at| unsafe { sys::sazh_channel_wait(at) }), &[], None);
        self.told(done).map(|_| ())
    }

    fn read(&self, stream: c_int, to: &mut [u8], deadline: Option<Instant>) -> Result<usize, Error> {
        if to.is_empty() {
            return Ok(0);
        }
        let mut got = 0;
        let (start, room) = (to.as_mut_ptr(), to.len());
        let done = self.kept.0.until(self.on(|at| unsafe { sys::sazh_read(at, stream, start, room, &mut got) }), &[], deadline);
        let code = self.told(done)?;
        Ok(if code == EOF { 0 } else { got })
    }

    /// At least one byte of them, so that `write_all` goes on with the rest.
    fn write(&self, from: &[u8]) -> Result<usize, Error> {
        if from.is_empty() {
            return Ok(0);
        }
        let mut taken = 0;
        let done = self.kept.0.until(self.on(|at| unsafe { sys::sazh_write(at, from.as_ptr(), from.len(), &mut taken) }), &[], None);
        self.told(done)?;
        Ok(taken)
    }

    fn free(&self) {
        self.kept.0.freed(|| {
            let mut at = self.lock();
            if !at.is_null() {
                unsafe { sys::sazh_channel_free(*at) };
                *at = std::ptr::null_mut();
            }
        });
    }
}

impl Drop for Held {
    fn drop(&mut self) {
        self.free();
    }
}

/// A channel: a command, a shell or a subsystem that runs, or a connection through the server. Reading is its standard output,
/// writing its standard input. Both outputs share a window, so that one of which a window (2 MiB) isn't read stops the other too.
/// `&Channel` reads and writes too, so that two threads can have a direction each.
#[derive(Clone)]
pub struct Channel {
    held: Arc<Held>,
}

/// A channel's standard error.
#[derive(Clone)]
pub struct Stderr {
    held: Arc<Held>,
}

impl Client {
    fn open(&self, begin: impl Fn(*mut sys::Connection, *mut *mut sys::Channel) -> c_int) -> Result<Channel, Error> {
        let mut made = std::ptr::null_mut();
        let code = self.engine().once(|it| begin(it, &mut made), &[])?;
        let channel = Channel { held: Arc::new(Held { kept: self.kept.clone(), at: Mutex::new(made) }) };
        if code == AGAIN {
            channel.held.settle(|at| unsafe { sys::sazh_channel_wait(at) })?;
        }
        Ok(channel)
    }

    fn start(&self, words: &CString, begin: unsafe extern "C" fn(*mut sys::Channel, *const std::ffi::c_char) -> c_int) -> Result<Channel, Error> {
        let channel = self.open(|it, made| unsafe { sys::sazh_open_session(it, made) })?;
        channel.held.settle(|at| unsafe { begin(at, words.as_ptr()) })?;
        Ok(channel)
    }

    /// Starts a command.
    pub fn exec(&self, command: &str) -> Result<Channel, Error> {
        self.start(&plain(command)?, sys::sazh_command)
    }

    /// Starts a subsystem, such as sftp.
    pub fn subsystem(&self, name: &str) -> Result<Channel, Error> {
        self.start(&plain(name)?, sys::sazh_subsystem)
    }

    /// A channel that the server connects to a host and port.
    pub fn open_tcp(&self, host: &str, port: u16) -> Result<Channel, Error> {
        let host = plain(host)?;
        self.open(|it, made| unsafe { sys::sazh_open_tcp(it, host.as_ptr(), port, made) })
    }

    /// Runs a command to its end, with no input.
    pub fn run(&self, command: &str) -> Result<Output, Error> {
        self.run_with(command, b"")
    }

    /// Runs a command to its end, with these bytes as its input.
    pub fn run_with(&self, command: &str, input: &[u8]) -> Result<Output, Error> {
        let channel = self.exec(command)?;
        std::thread::scope(|scope| {
            let held = &channel.held;
            let errors = scope.spawn(move || read_all(held, ERR));
            scope.spawn(move || {
                let mut left = input;
                while let Ok(taken @ 1..) = held.write(left) {
                    left = &left[taken..];
                }
                let _ = Channel { held: held.clone() }.close_write(); // one that takes no more may still say something
            });
            let out = read_all(held, OUT);
            let err = errors.join().unwrap_or_else(|_| Err(Error::new(ErrorKind::System, "a thread panicked")));
            let exit = channel.wait();
            held.free(); // ends what is still written
            Ok(Output { stdout: out?, stderr: err?, exit: exit? })
        })
    }
}

fn read_all(from: &Held, stream: c_int) -> Result<Vec<u8>, Error> {
    let (mut all, mut some) = (Vec::new(), vec![0; 1 << 16]);
    loop {
        match from.read(stream, &mut some, None)? {
            0 => return Ok(all),
            got => all.extend_from_slice(&some[..got]),
        }
    }
}

impl Channel {
    /// The standard error.
    pub fn stderr(&self) -> Stderr {
        Stderr { held: self.held.clone() }
    }

    /// No more bytes follow.
    pub fn close_write(&self) -> Result<(), Error> {
        let engine = &self.held.kept.0;
        let done = engine.once(self.held.on(|at| unsafe { sys::sazh_write_eof(at) }), &[]);
        self.held.told(done)?;
        engine.once(|it| unsafe { sys::sazh_step(it) }, &[]).map(|_| ())
    }

    /// Reads at least one byte, for at most so long; 0 at the end.
    pub fn read_for(&self, to: &mut [u8], limit: Duration) -> Result<usize, Error> {
        self.held.read(OUT, to, Some(Instant::now() + limit))
    }

    /// What became of the command, once the server told it. Output that isn't read may hold it up.
    pub fn wait(&self) -> Result<Exit, Error> {
        let mut exit = Exit::default();
        let done = self.held.kept.0.until(
            self.held.on(|at| {
                let mut told = std::mem::MaybeUninit::<sys::Exit>::zeroed();
                let code = unsafe { sys::sazh_wait_exit(at, told.as_mut_ptr()) };
                if code == OK {
                    let told = unsafe { told.assume_init() };
                    exit = Exit { status: told.has_status.then_some(told.status), signal: told.has_signal.then(|| text_of(told.signal)) };
                }
                code
            }),
            &[],
            None,
        );
        self.held.told(done)?;
        Ok(exit)
    }

    /// Sends a signal: TERM, INT .. Not every server passes it on, and none answers.
    pub fn signal(&self, name: &str) -> Result<(), Error> {
        let name = plain(name)?;
        let engine = &self.held.kept.0;
        let done = engine.once(self.held.on(|at| unsafe { sys::sazh_signal(at, name.as_ptr()) }), &[]);
        self.held.told(done)?;
        engine.once(|it| unsafe { sys::sazh_step(it) }, &[]).map(|_| ())
    }

    /// Closes the channel, any number of times. What came and wasn't read is gone.
    pub fn close(&self) {
        self.held.free();
    }
}

impl Read for &Channel {
    fn read(&mut self, to: &mut [u8]) -> io::Result<usize> {
        Ok(self.held.read(OUT, to, None)?)
    }
}

impl Read for Channel {
    fn read(&mut self, to: &mut [u8]) -> io::Result<usize> {
        (&*self).read(to)
    }
}

impl Write for &Channel {
    fn write(&mut self, from: &[u8]) -> io::Result<usize> {
        Ok(self.held.write(from)?)
    }

    fn flush(&mut self) -> io::Result<()> {
        Ok(())
    }
}

impl Write for Channel {
    fn write(&mut self, from: &[u8]) -> io::Result<usize> {
        (&*self).write(from)
    }

    fn flush(&mut self) -> io::Result<()> {
        Ok(())
    }
}

impl Read for Stderr {
    fn read(&mut self, to: &mut [u8]) -> io::Result<usize> {
        Ok(self.held.read(ERR, to, None)?)
    }
}

// ---- forwards

/// One end of a forward.
#[derive(Clone, Debug, PartialEq, Eq)]
pub enum Address {
    /// A host and a port. Where it is listened at, the port 0 is one that the system, or the server, chooses.
    Tcp(String, u16),
    /// The path of a socket of Unix.
    Unix(PathBuf),
}

impl Address {
    fn texts(&self) -> Result<(Option<CString>, u16, Option<CString>), Error> {
        match self {
            Address::Tcp(host, port) => Ok((Some(plain(host)?), *port, None)),
            Address::Unix(path) => Ok((None, 0, Some(plain(path.to_str().unwrap_or("\0"))?))),
        }
    }
}

fn end_of((host, port, path): &(Option<CString>, u16, Option<CString>)) -> sys::End {
    let at = |text: &Option<CString>| text.as_ref().map_or(std::ptr::null(), |it| it.as_ptr());
    sys::End { host: at(host), port: *port, path: at(path) }
}

/// Listens until it is dropped or closed; the connections that came through it go on.
pub struct Forward {
    kept: Arc<Kept>,
    at: Mutex<*mut sys::Forward>, // null once it is freed
}

unsafe impl Send for Forward {}
unsafe impl Sync for Forward {}

impl Client {
    fn forward(&self, begin: impl Fn(*mut sys::Connection, *mut *mut sys::Forward) -> c_int) -> Result<Forward, Error> {
        let mut made = std::ptr::null_mut();
        let code = self.engine().once(|it| begin(it, &mut made), &[])?;
        let forward = Forward { kept: self.kept.clone(), at: Mutex::new(made) };
        if code == AGAIN {
            self.engine().until(|_| unsafe { sys::sazh_forward_wait(made) }, &[], None)?;
        }
        Ok(forward)
    }

    /// Listens here, and has the server connect there.
    pub fn forward_local(&self, here: &Address, there: &Address) -> Result<Forward, Error> {
        let (here, there) = (here.texts()?, there.texts()?);
        self.forward(|it, made| unsafe { sys::sazh_forward_local(it, &end_of(&here), &end_of(&there), made) })
    }

    /// Has the server listen there, and connects here.
    pub fn forward_remote(&self, there: &Address, here: &Address) -> Result<Forward, Error> {
        let (there, here) = (there.texts()?, here.texts()?);
        self.forward(|it, made| unsafe { sys::sazh_forward_remote(it, &end_of(&there), &end_of(&here), made) })
    }

    /// Listens here for SOCKS5, and has the server connect where each client wants.
    pub fn forward_socks(&self, here: &Address) -> Result<Forward, Error> {
        let here = here.texts()?;
        self.forward(|it, made| unsafe { sys::sazh_forward_dynamic(it, &end_of(&here), made) })
    }
}

impl Forward {
    fn lock(&self) -> MutexGuard<'_, *mut sys::Forward> {
        self.at.lock().unwrap_or_else(|poisoned| poisoned.into_inner())
    }

    /// The port that is listened at; `None` once it is closed.
    pub fn port(&self) -> Option<u16> {
        let state = self.kept.0.lock();
        let at = *self.lock();
        if state.handle.is_null() || at.is_null() { None } else { Some(unsafe { sys::sazh_forward_port(at) }) }
    }

    /// Ends the listening, any number of times.
    pub fn close(&self) {
        self.kept.0.freed(|| {
            let mut at = self.lock();
            if !at.is_null() {
                unsafe { sys::sazh_forward_free(*at) };
                *at = std::ptr::null_mut();
            }
        });
    }
}

impl Drop for Forward {
    fn drop(&mut self) {
        self.close();
    }
}
