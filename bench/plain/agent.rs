//! The agent of a script (docs/TABLES.md, "Agent table"; draft-miller-ssh-agent).

use crate::event::AgentEvent;
use crate::key::{put_toy_signature, Pair};
use crate::session::Went;
use crate::wire::{Fields, Lines, Put};
use std::collections::HashMap;

/// The longest message, and the longest listing.
const MOST: usize = 262_144;

struct Held {
    blob: Vec<u8>,
    name: Vec<u8>,
    is_rsa: bool,
    deadline: Option<u64>,
    confirm: bool,
}

enum Standing {
    Open,
    /// The sign request whose key the user is asked about.
    KeyAsked(Vec<u8>),
    Closed,
}

struct Connection {
    stands: Standing,
    /// Bytes that are in no whole frame yet.
    bytes: Vec<u8>,
    is_over: bool,
}

/// What a message comes to.
enum Answer {
    Failure,
    Success,
    Message(Vec<u8>),
    AskKey(Vec<u8>),
    Unreadable,
}

#[derive(Default)]
pub struct Agent {
    keys: Vec<Held>,
    passphrase: Option<Vec<u8>>,
    connections: HashMap<u32, Connection>,
}

impl Agent {
    pub fn step(&mut self, now: u64, number: u32, event: AgentEvent, lines: &mut Lines) -> Went {
        let mut connection = self.connections.remove(&number).unwrap_or(Connection {
            stands: Standing::Open,
            bytes: Vec::new(),
            is_over: false,
        });
        let went = match event {
            AgentEvent::Bytes(bytes) => self.bytes(now, number, &mut connection, bytes, lines),
            AgentEvent::RequestAnswer => {
                self.expire(now);
                Ok(())
            }
            AgentEvent::KeyAnswer(is_confirmed) => self.key_answer(now, number, &mut connection, is_confirmed, lines),
            AgentEvent::Close => {
                self.expire(now);
                connection.stands = Standing::Closed;
                Ok(())
            }
        };
        self.connections.insert(number, connection);
        went
    }

    fn expire(&mut self, now: u64) {
        self.keys.retain(|key| key.deadline.is_none_or(|deadline| deadline > now));
    }

    fn bytes(&mut self, now: u64, number: u32, connection: &mut Connection, bytes: &[u8], lines: &mut Lines) -> Went {
        if connection.is_over {
            return Ok(());
        }
        connection.bytes.extend_from_slice(bytes);
        let held = std::mem::take(&mut connection.bytes);
        let mut f = Fields(&held);
        loop {
            let before = f;
            let Some(length) = f.number() else { break f = before };
            if length as usize > MOST {
                self.expire(now);
                connection.is_over = true;
                if !matches!(connection.stands, Standing::Closed) {
                    connection.stands = Standing::Closed;
                    closed(number, 1, lines)?;
                }
                return Ok(());
            }
            let Some(message) = f.bytes(length as usize) else { break f = before };
            self.expire(now);
            if let Standing::Open = connection.stands {
                let answer = self.message(now, message);
                self.answer(number, connection, answer, message, lines)?;
            }
        }
        connection.bytes = f.0.to_vec();
        Ok(())
    }

    fn key_answer(
        &mut self,
        now: u64,
        number: u32,
        connection: &mut Connection,
        is_confirmed: bool,
        lines: &mut Lines,
    ) -> Went {
        self.expire(now);
        if !matches!(connection.stands, Standing::KeyAsked(_)) {
            return Ok(());
        }
        let Standing::KeyAsked(message) = std::mem::replace(&mut connection.stands, Standing::Open) else {
            return Ok(());
        };
        let answer =
            if is_confirmed && self.passphrase.is_none() { self.confirmed(&message[1..]) } else { Answer::Failure };
        self.answer(number, connection, answer, &message, lines)
    }

    fn answer(
        &mut self,
        number: u32,
        connection: &mut Connection,
        answer: Answer,
        message: &[u8],
        lines: &mut Lines,
    ) -> Went {
        match answer {
            Answer::Failure => framed(number, &[5], lines),
            Answer::Success => framed(number, &[6], lines),
            Answer::Message(answer) => framed(number, &answer, lines),
            Answer::AskKey(blob) => {
                connection.stands = Standing::KeyAsked(message.to_vec());
                lines.record(0x42, |record| {
                    record.number(number);
                    record.string(&blob);
                })
            }
            Answer::Unreadable => {
                connection.stands = Standing::Closed;
                closed(number, 2, lines)
            }
        }
    }

    /// The lock is tested first; bytes behind the fields are ignored.
    fn message(&mut self, now: u64, message: &[u8]) -> Answer {
        let [kind, body @ ..] = message else { return Answer::Failure };
        if self.passphrase.is_some() != (*kind == 23) {
            return Answer::Failure;
        }
        let mut f = Fields(body);
        match kind {
            11 => Answer::Message(self.listing()),
            13 => self.sign_request(f),
            17 | 25 => self.add(now, *kind == 25, f),
            18 => self.remove(f),
            19 => {
                self.keys.clear();
                Answer::Success
            }
            22 => match f.string() {
                Some(passphrase) => {
                    self.passphrase = Some(passphrase.to_vec());
                    Answer::Success
                }
                None => Answer::Failure,
            },
            23 if f.string().is_some() && Fields(body).string() == self.passphrase.as_deref() => {
                self.passphrase = None;
                Answer::Success
            }
            _ => Answer::Failure,
        }
    }

    fn listing(&self) -> Vec<u8> {
        let mut answer = vec![12];
        answer.number(self.keys.len() as u32);
        for key in &self.keys {
            answer.string(&key.blob);
            answer.string(b"");
        }
        answer
    }

    fn held(&self, blob: &[u8]) -> Option<&Held> {
        self.keys.iter().find(|key| key.blob == blob)
    }

    fn sign_request(&self, mut f: Fields) -> Answer {
        let Some(blob) = f.string() else { return Answer::Unreadable };
        match self.held(blob) {
            None => Answer::Failure,
            Some(key) if key.confirm => Answer::AskKey(blob.to_vec()),
            Some(key) => sign(key, f),
        }
    }

    /// The sign request again, once the user has confirmed it.
    fn confirmed(&self, body: &[u8]) -> Answer {
        let mut f = Fields(body);
        match f.string().and_then(|blob| self.held(blob)) {
            None => Answer::Failure,
            Some(key) => sign(key, f),
        }
    }

    fn add(&mut self, now: u64, is_constrained: bool, mut f: Fields) -> Answer {
        let Some(pair) = Pair::front(&mut f) else { return Answer::Failure };
        let Some((lifetime, confirm)) =
            f.text().and_then(|_| if is_constrained { constraints(f) } else { Some((None, false)) })
        else {
            return Answer::Failure;
        };
        let place = self.keys.iter().position(|key| key.blob == pair.blob);
        let listed: usize = self.keys.iter().map(|key| key.blob.len() + 8).sum();
        if 5 + listed + if place.is_some() { 0 } else { pair.blob.len() + 8 } > MOST {
            return Answer::Failure;
        }
        let deadline = lifetime.map(|seconds| now.saturating_add(1000 * u64::from(seconds)));
        let key = Held { blob: pair.blob, name: pair.name.to_vec(), is_rsa: pair.is_rsa, deadline, confirm };
        match place {
            Some(at) => self.keys[at] = key,
            None => self.keys.push(key),
        }
        Answer::Success
    }

    fn remove(&mut self, mut f: Fields) -> Answer {
        match f.string().and_then(|blob| self.keys.iter().position(|key| key.blob == blob)) {
            Some(at) => {
                self.keys.remove(at);
                Answer::Success
            }
            None => Answer::Failure,
        }
    }
}

/// The constraints to the end: a lifetime at most once, and whether each use is confirmed.
fn constraints(mut f: Fields) -> Option<(Option<u32>, bool)> {
    let (mut lifetime, mut confirm) = (None, false);
    while !f.0.is_empty() {
        match f.byte()? {
            1 if lifetime.is_none() => lifetime = Some(f.number()?),
            2 => confirm = true,
            _ => return None,
        }
    }
    Some((lifetime, confirm))
}

fn sign(key: &Held, mut f: Fields) -> Answer {
    let (Some(bytes), Some(flags)) = (f.string(), f.number()) else { return Answer::Unreadable };
    let name: &[u8] = match flags {
        flags if key.is_rsa && flags & 2 != 0 => b"rsa-sha2-256",
        flags if key.is_rsa && flags & 4 != 0 => b"rsa-sha2-512",
        _ => &key.name,
    };
    let mut answer = vec![14];
    answer.number(name.len() as u32 + 28);
    put_toy_signature(&mut answer, &key.blob, name, &[bytes]);
    Answer::Message(answer)
}

fn framed(number: u32, message: &[u8], lines: &mut Lines) -> Went {
    lines.record(0x40, |record| {
        record.number(number);
        record.number(message.len() as u32 + 4);
        record.string(message);
    })
}

fn closed(number: u32, cause: u8, lines: &mut Lines) -> Went {
    lines.record(0x43, |record| {
        record.number(number);
        record.push(cause);
    })
}
