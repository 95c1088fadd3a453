//! SSH over a client core that is proved: log in, run commands, forward ports.
//!
//! ```no_run
//! let client = sazhonthil_ssh::Client::connect("example.org", 22, &sazhonthil_ssh::Config::default())?;
//! let output = client.run("uname -a")?;
//! println!("{}", String::from_utf8_lossy(&output.stdout));
//! # Ok::<(), sazhonthil_ssh::Error>(())
//! ```
//!
//! A [`Client`] and a [`Channel`] may be used from several threads at once; each call waits for its own. What is dropped is
//! freed, and what is used after [`Client::close`] returns [`ErrorKind::Closed`]. It is linked from `libsazhonthil_ssh`.
//!
//! What this crate answers for, beside the library: that `sys` fits the header, that one thread at a time calls the library,
//! and that nothing is used after it was freed.
#![deny(missing_docs)]

mod channel;
mod engine;
mod error;
mod login;
mod sys;

pub use channel::{Address, Channel, Exit, Forward, Output, Stderr};
pub use error::{Details, Error, ErrorKind};
pub use login::{Accept, Config, HostKey, Prompt};

use engine::Engine;
use std::ffi::{c_int, CString};
use std::sync::Arc;

pub(crate) fn plain(text: &str) -> Result<CString, Error> {
    CString::new(text).map_err(|_| Error::new(ErrorKind::Misuse, "a text with a zero byte"))
}

/// Closes the connection once neither the client nor a channel of it is there.
pub(crate) struct Kept(pub Arc<Engine>);

impl Drop for Kept {
    fn drop(&mut self) {
        self.0.close();
    }
}

/// A connection whose user is in. A clone is the same connection.
#[derive(Clone)]
pub struct Client {
    pub(crate) kept: Arc<Kept>,
}

impl Client {
    /// Connects to the host and logs in.
    pub fn connect(host: &str, port: u16, config: &Config<'_>) -> Result<Client, Error> {
        login::connect(host, port, config).map(|engine| Client { kept: Arc::new(Kept(engine)) })
    }

    pub(crate) fn engine(&self) -> &Engine {
        &self.kept.0
    }

    /// Ends the session, with its channels and forwards, any number of times.
    pub fn close(&self) {
        self.engine().close();
    }

    /// Whether it was closed here, or is lost.
    pub fn is_over(&self) -> bool {
        let state = self.engine().lock();
        state.handle.is_null() || unsafe { sys::sazh_is_over(state.handle) }
    }

    /// Begins a key exchange.
    pub fn rekey(&self) -> Result<(), Error> {
        self.engine().once(
            |it| unsafe {
                let code: c_int = sys::sazh_rekey(it);
                sys::sazh_step(it);
                code
            },
            &[],
        )?;
        Ok(())
    }
}

impl std::fmt::Debug for Client {
    fn fmt(&self, to: &mut std::fmt::Formatter<'_>) -> std::fmt::Result {
        to.debug_struct("Client").field("is_over", &self.is_over()).finish()
    }
}
