//! A connection of the library. One thread at a time calls it, and a thread of its own drives it: it waits for the connection's
//! descriptors and steps. Callers wait until something has changed.

use crate::error::{text_of, Error, ErrorKind};
use crate::sys;
use std::ffi::{c_int, c_ulong};
use std::io::{Read, Write};
use std::os::fd::AsRawFd;
use std::os::unix::net::UnixStream;
use std::sync::{Arc, Condvar, Mutex, MutexGuard};
use std::time::Instant;

pub const OK: c_int = 0;
pub const AGAIN: c_int = 1;
pub const EOF: c_int = 2;

pub struct State {
    pub handle: *mut sys::Connection, // null once it is closed
    stamp: u64,
    pokes: u64,
    waits: Option<Vec<sys::PollFd>>, // what the driver waits for
}

// The library may be called from any thread, one at a time: the lock sees to that.
unsafe impl Send for State {}

pub struct Engine {
    state: Mutex<State>,
    changed: Condvar,
    wakes: UnixStream,
}

impl Engine {
    pub fn new(settings: &sys::Settings) -> Result<Arc<Engine>, Error> {
        let (mut reads, wakes) = UnixStream::pair().map_err(|why| Error::new(ErrorKind::System, why.to_string()))?;
        for one in [&reads, &wakes] {
            one.set_nonblocking(true).map_err(|why| Error::new(ErrorKind::System, why.to_string()))?;
        }
        let mut handle = std::ptr::null_mut();
        let code = unsafe { sys::sazh_new(&mut handle, settings) };
        if code != OK {
            return Err(Error::of_code(code));
        }
        unsafe { sys::sazh_set_blocking(handle, false) };
        let state = Mutex::new(State { handle, stamp: 0, pokes: 0, waits: None });
        let engine = Arc::new(Engine { state, changed: Condvar::new(), wakes });
        let driven = engine.clone();
        std::thread::Builder::new()
            .name("sazhonthil".into())
            .spawn(move || while driven.turn(&mut reads) {})
            .map_err(|why| {
                engine.close();
                Error::new(ErrorKind::System, why.to_string())
            })?;
        Ok(engine)
    }

    pub fn lock(&self) -> MutexGuard<'_, State> {
        self.state.lock().unwrap_or_else(|poisoned| poisoned.into_inner())
    }

    /// Waits once for the descriptors, and steps; whether the connection is there.
    fn turn(&self, reads: &mut UnixStream) -> bool {
        let mut state = self.lock();
        if state.handle.is_null() {
            return false;
        }
        let wanted = state.interest();
        let milliseconds = unsafe { sys::sazh_timeout(state.handle) };
        let mut all = wanted.clone();
        all.push(sys::PollFd { fd: reads.as_raw_fd(), events: 1, revents: 0 });
        state.waits = Some(wanted);
        drop(state);
        unsafe { sys::poll(all.as_mut_ptr(), all.len() as c_ulong, milliseconds) };
        while matches!(reads.read(&mut [0; 256]), Ok(1..)) {}
        let mut state = self.lock();
        state.waits = None;
        if state.handle.is_null() {
            return false;
        }
        unsafe { sys::sazh_step(state.handle) };
        self.note(&mut state);
        true
    }

    /// Tells those who wait of a change, and the driver of other descriptors. After each call.
    pub fn note(&self, state: &mut State) -> u64 {
        let now = state.now();
        if now != state.stamp {
            state.stamp = now;
            self.changed.notify_all();
        }
        if state.waits.is_some() && state.waits.as_ref() != Some(&state.interest()) {
            let _ = (&self.wakes).write(&[0]);
        }
        now
    }

    /// A call that waits for nothing. The codes of `also` are no errors.
    pub fn once(&self, mut call: impl FnMut(*mut sys::Connection) -> c_int, also: &[c_int]) -> Result<c_int, Error> {
        let mut state = self.lock();
        if state.handle.is_null() {
            return Err(Error::closed());
        }
        let code = call(state.handle);
        let told = state.told(code, also);
        self.note(&mut state);
        told
    }

    /// Makes a call again and again, until it is done.
    pub fn until(&self, mut call: impl FnMut(*mut sys::Connection) -> c_int, also: &[c_int], deadline: Option<Instant>) -> Result<c_int, Error> {
        let mut state = self.lock();
        loop {
            if state.handle.is_null() {
                return Err(Error::closed());
            }
            let before = state.now();
            let code = call(state.handle);
            let told = state.told(code, also);
            let after = self.note(&mut state);
            if code != AGAIN {
                return told;
            }
            if after != before {
                continue; // the call itself moved something, and may be done by now
            }
            while !state.handle.is_null() && state.stamp == after {
                state = match deadline {
                    None => self.changed.wait(state).unwrap_or_else(|poisoned| poisoned.into_inner()),
                    Some(at) => {
                        let left = at.saturating_duration_since(Instant::now());
                        if left.is_zero() {
                            return Err(Error::new(ErrorKind::TookTooLong, "it took too long"));
                        }
                        self.changed.wait_timeout(state, left).unwrap_or_else(|poisoned| poisoned.into_inner()).0
                    }
                };
            }
        }
    }

    /// A call, and another one that tells what came of it.
    pub fn started(
        &self,
        begin: impl FnMut(*mut sys::Connection) -> c_int,
        then: impl FnMut(*mut sys::Connection) -> c_int,
        also: &[c_int],
        deadline: Option<Instant>,
    ) -> Result<c_int, Error> {
        match self.once(begin, also)? {
            AGAIN => self.until(then, also, deadline),
            code => Ok(code),
        }
    }

    /// Frees something of the connection, unless that went with it.
    pub fn freed(&self, free: impl FnOnce()) {
        let mut state = self.lock();
        if !state.handle.is_null() {
            free();
            state.pokes += 1;
            unsafe { sys::sazh_step(state.handle) };
            self.note(&mut state);
        }
    }

    /// Frees the connection with its channels and forwards; whoever waits is told.
    pub fn close(&self) {
        let mut state = self.lock();
        if !state.handle.is_null() {
            unsafe { sys::sazh_free(state.handle) };
            state.handle = std::ptr::null_mut();
            self.changed.notify_all();
            let _ = (&self.wakes).write(&[0]);
        }
    }
}

impl State {
    fn now(&self) -> u64 {
        unsafe { sys::sazh_changes(self.handle) }.wrapping_add(self.pokes)
    }

    fn interest(&self) -> Vec<sys::PollFd> {
        let mut all = vec![sys::PollFd { fd: -1, events: 0, revents: 0 }; 16];
        loop {
            let count = unsafe { sys::sazh_poll(self.handle, all.as_mut_ptr(), all.len()) };
            if count <= all.len() {
                all.truncate(count);
                return all;
            }
            all.resize(2 * count, all[0]);
        }
    }

    fn told(&self, code: c_int, also: &[c_int]) -> Result<c_int, Error> {
        if code <= EOF || also.contains(&code) { Ok(code) } else { Err(self.failure(code)) }
    }

    /// The library's last error.
    pub fn failure(&self, code: c_int) -> Error {
        let last = unsafe { &*sys::sazh_error_of(self.handle) };
        let mut error = Error::of_code(code);
        if last.code == code {
            error.0.text = text_of(last.text);
            error.0.reason = last.reason;
            error.0.server_words = text_of(last.server_words);
            error.0.file = text_of(last.file);
            error.0.line = last.line;
            error.0.fingerprint = text_of(last.fingerprint);
        }
        error.0.methods = self.methods();
        error
    }

    pub fn methods(&self) -> String {
        text_of(unsafe { sys::sazh_methods(self.handle) })
    }
}
