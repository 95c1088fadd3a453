//! What `sshc script` does, in ordinary Rust with no contracts: the same events from standard input, the same lines, the same
//! last line and status. It is written from docs/FORMATS.md, docs/TABLES.md and docs/DEFINITIONS.md, and from the crates'
//! definitions where these leave a question, so that a difference from the program shows an error of one of them.
//!
//! Words: script HOST PORT KNOWN, and `buffered` to hold lines back in a buffer of 64 KiB; or `many`, to run the cases of
//! standard input as `sshc_bench cases` does (many.rs).
//! Build it by `rustc --edition 2021 -O -o plain bench/plain/main.rs`.

mod agent;
mod channels;
mod event;
mod hmac;
mod hosts;
mod hosts_words;
mod key;
mod many;
mod open;
mod opening;
mod proxy;
mod session;
mod stop;
mod wire;

use agent::Agent;
use event::Event;
use hosts::Hosts;
use session::Session;
use std::fs::File;
use std::io::{self, BufReader, BufWriter, ErrorKind, Read, Write};
use std::os::fd::FromRawFd;
use std::process::ExitCode;
use stop::*;
use wire::Lines;

const MOST_EVENTS: u64 = 8192;

/// The events of a script, one at a time.
struct Script<R> {
    input: R,
    /// As long as the longest event so far, of which so many bytes are this one's.
    buffer: Vec<u8>,
    length: usize,
    place: u64,
    moment: u64,
}

impl<R: Read> Script<R> {
    /// As many of the bytes as there are.
    fn fill(&mut self, count: usize) -> Result<usize, Stop> {
        if self.buffer.len() < count {
            self.buffer.resize(count, 0);
        }
        let mut held = 0;
        while held < count {
            match self.input.read(&mut self.buffer[held..count]) {
                Ok(0) => break,
                Ok(more) => held += more,
                Err(error) if error.kind() == ErrorKind::Interrupted => {}
                Err(_) => return Err(READ_FAULT),
            }
        }
        Ok(held)
    }

    /// Takes the next event: its moment is behind it then, and its kind and fields are the bytes behind the moment.
    fn next(&mut self) -> Result<(), Stop> {
        match self.fill(4)? {
            0 => return Err(SCRIPT_END),
            4 => {}
            _ => return Err(BAD_EVENT),
        }
        self.length = u32::from_be_bytes(*self.buffer.first_chunk().ok_or(BAD_EVENT)?) as usize;
        if !(9..=262_144).contains(&self.length) || self.fill(self.length)? < self.length {
            return Err(BAD_EVENT);
        }
        let moment = u64::from_be_bytes(*self.buffer.first_chunk().ok_or(BAD_EVENT)?);
        if moment < self.moment {
            return Err(BAD_EVENT);
        }
        self.moment = moment;
        Ok(())
    }
}

fn run(script: &mut Script<impl Read>, mut session: Session) -> Stop {
    let mut agent = Agent::default();
    for _ in 0..MOST_EVENTS {
        if let Err(stop) = turn(script, &mut session, &mut agent) {
            return stop.at(script.place);
        }
        script.place += 4 + script.length as u64;
    }
    match script.fill(1) {
        Ok(0) => SCRIPT_END,
        Ok(_) => SCRIPT_TOO_LONG,
        Err(stop) => stop,
    }
}

fn turn(script: &mut Script<impl Read>, session: &mut Session, agent: &mut Agent) -> Result<(), Stop> {
    script.next()?;
    match event::read(script.buffer[8], &script.buffer[9..script.length]).ok_or(BAD_EVENT)? {
        Event::Agent { connection, event } => agent.step(script.moment, connection, event, &mut session.lines),
        event => session.step(event),
    }
}

/// A port of one to five decimal digits.
fn port(word: &str) -> Option<u16> {
    let is_decimal = (1..=5).contains(&word.len()) && word.bytes().all(|byte| byte.is_ascii_digit());
    if is_decimal {
        word.parse().ok()
    } else {
        None
    }
}

/// A file that can't be opened counts as empty.
fn known_text(path: &str) -> Option<String> {
    let mut text = String::new();
    match File::open(path) {
        Ok(mut file) => file.read_to_string(&mut text).ok().map(|_| text),
        Err(_) => Some(text),
    }
}

/// The name of the host at the port in a known hosts text.
fn host_text(host: &str, port: u16) -> String {
    if port == 22 {
        host.to_string()
    } else {
        format!("[{host}]:{port}")
    }
}

fn answer(out: &mut dyn Write, line: &str, status: u8) -> u8 {
    match writeln!(out, "{line}").and_then(|()| out.flush()) {
        Ok(()) => status,
        Err(_) => WRITE_FAULT.status(),
    }
}

/// Runs `script HOST PORT KNOWN`, where a path's text is found so.
fn work(words: &[String], found: impl Fn(&str) -> Option<String>, input: impl Read, out: &mut dyn Write) -> u8 {
    let [script, host, port_word, known] = words else { return answer(out, "error words", 2) };
    let (Some(port), "script") = (port(port_word), script.as_str()) else { return answer(out, "error words", 2) };
    let Some(known) = found(known) else { return answer(out, "error known-file", 3) };
    let hosts = Hosts { known, host: host_text(host, port) };
    let mut script = Script { input, buffer: Vec::new(), length: 0, place: 0, moment: 0 };
    let stop = run(&mut script, Session::new(Lines::new(out), hosts));
    match stop {
        WRITE_FAULT => stop.status(),
        stop => answer(out, &stop.to_string(), stop.status()),
    }
}

fn main() -> ExitCode {
    let mut words: Vec<String> = std::env::args().skip(1).collect();
    // Rust's own standard output has a buffer for lines; the bare descriptor has none.
    let mut bare = unsafe { File::from_raw_fd(1) };
    let input = BufReader::new(io::stdin().lock());
    let status = if words == ["many"] {
        many::run(input, bare)
    } else if words.len() == 5 && words[4] == "buffered" {
        words.pop();
        work(&words, known_text, input, &mut BufWriter::with_capacity(65_536, bare))
    } else {
        work(&words, known_text, input, &mut bare)
    };
    ExitCode::from(status)
}
