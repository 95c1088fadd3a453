//! A session: what is remembered between two events, and the tests and packets that hold before and behind its opening.

use crate::channels::{Channels, WINDOW};
use crate::event::{Asked, Event, Exchange};
use crate::hosts::Hosts;
use crate::stop::*;
use crate::wire::{Fields, Lines, Put};
use std::collections::VecDeque;

#[derive(Clone, Copy, PartialEq)]
pub enum Phase {
    Exchanging,
    Service,
    Auth,
    AwaitResponses,
    AwaitSignature,
    Open,
}

/// Whose key exchange runs.
#[derive(Clone, Copy, PartialEq)]
pub enum Flag {
    Idle,
    Ours,
    Peer,
}

#[derive(Clone, Copy, PartialEq)]
pub enum Class {
    Plain,
    Key,
    Prompts,
    Gssapi,
}

/// Who signs a request by a key.
pub enum Signer {
    /// The toy pair: the public key's blob, and the name of its signatures.
    Toy {
        blob: Vec<u8>,
        name: Vec<u8>,
    },
    Outside {
        is_certificate: bool,
        hash: u8,
    },
}

/// The key of a request that isn't signed yet.
pub struct Signing {
    pub algorithm: Vec<u8>,
    pub blob: Vec<u8>,
    pub by: Signer,
}

/// The user's last request to authenticate.
pub struct Login {
    pub ticket: u32,
    pub user: Vec<u8>,
    pub class: Class,
    pub signing: Option<Signing>,
    /// Its packet without the number, as long as the service isn't accepted.
    pub request: Vec<u8>,
    pub is_service_asked: bool,
    /// The bytes that an outside signer was handed.
    pub handed: Vec<u8>,
}

/// What EXT_INFO said (RFC 8308).
#[derive(Default)]
pub struct Extensions {
    pub packets: u32,
    /// The known names of the last `server-sig-algs`, joined by commas.
    pub signature_names: Option<Vec<u8>>,
    pub seen: Vec<Vec<u8>>,
    pub waiters: Vec<(u32, Vec<u8>)>,
}

pub struct Session<'a> {
    pub lines: Lines<'a>,
    hosts: Hosts,
    pub phase: Phase,
    pub flag: Flag,
    /// Bytes of packets from 50 on while an exchange of ours runs.
    counted: u64,
    pub session_id: Vec<u8>,
    /// The blob of the first exchange's host key, which is a plain key.
    host_key: Vec<u8>,
    pub login: Login,
    pub extensions: Extensions,
    pub channels: Channels,
    /// Our global requests that wait for an answer, with their tickets.
    pub replies: VecDeque<(u32, Asked)>,
}

pub type Went = Result<(), Stop>;

impl<'a> Session<'a> {
    pub fn new(lines: Lines<'a>, hosts: Hosts) -> Self {
        Session {
            lines,
            hosts,
            phase: Phase::Exchanging,
            flag: Flag::Ours,
            counted: 0,
            session_id: Vec::new(),
            host_key: Vec::new(),
            login: Login {
                ticket: 0,
                user: Vec::new(),
                class: Class::Plain,
                signing: None,
                request: Vec::new(),
                is_service_asked: false,
                handed: Vec::new(),
            },
            extensions: Extensions::default(),
            channels: Channels::default(),
            replies: VecDeque::new(),
        }
    }

    pub fn step(&mut self, event: Event) -> Went {
        if self.is_out_of_turn(&event) {
            return Err(OUT_OF_TURN);
        }
        match event {
            Event::PeerKexinit => self.peer_kexinit(),
            Event::ExchangeDone(exchange) => self.exchange_done(exchange),
            Event::Payload(packet) => self.payload(packet),
            Event::TransportFailed => Err(TRANSPORT_FAILED),
            Event::RekeyLimit if self.phase == Phase::Open && self.flag == Flag::Idle => self.begin_exchange(),
            // the program sets no interval of keepalives and no limit of inactivity
            Event::RekeyLimit | Event::KeepaliveTimer | Event::InactivityTimer => Ok(()),
            event => self.user(event),
        }
    }

    fn is_awaiting(&self) -> bool {
        matches!(self.phase, Phase::AwaitResponses | Phase::AwaitSignature)
    }

    fn is_out_of_turn(&self, event: &Event) -> bool {
        if self.is_awaiting() {
            return event.is_transport();
        }
        match event {
            Event::PeerKexinit => self.flag == Flag::Peer,
            Event::ExchangeDone(_) => self.flag != Flag::Peer,
            event => !event.is_transport() && self.flag != Flag::Idle,
        }
    }

    fn user(&mut self, event: Event) -> Went {
        match event {
            Event::Disconnect(fields) => {
                self.lines.packet(1, |packet| packet.extend_from_slice(fields))?;
                Err(DISCONNECTED)
            }
            Event::Gone if self.is_awaiting() => Err(RECV_ERROR),
            Event::Gone => Err(CLOSED),
            event if self.is_awaiting() => self.awaited(event),
            Event::Rekey => self.begin_exchange(),
            event if self.phase == Phase::Open => self.open_user(event),
            event => self.opening_user(event),
        }
    }

    // ---- exchanges (RFC 4253, section 7)

    fn begin_exchange(&mut self) -> Went {
        (self.flag, self.counted) = (Flag::Ours, 0);
        self.lines.record(0x02, |_| {})
    }

    fn peer_kexinit(&mut self) -> Went {
        if self.flag == Flag::Idle {
            self.counted = 0;
            self.lines.record(0x02, |_| {})?;
        }
        self.flag = Flag::Peer;
        Ok(())
    }

    fn exchange_done(&mut self, exchange: Exchange) -> Went {
        let is_first = self.phase == Phase::Exchanging;
        if is_first {
            match exchange.key {
                Some((key, blob)) if !key.is_certificate => {
                    self.hosts.judge(key, blob)?;
                    self.host_key.extend_from_slice(blob);
                }
                _ => return Err(UNKNOWN_KEY),
            }
            self.session_id.extend_from_slice(exchange.hash);
            self.phase = Phase::Service;
        } else if !self.has_kept_key(&exchange) {
            return Err(REKEY_KEY);
        }
        (self.flag, self.counted) = (Flag::Idle, 0);
        self.lines.record(0x20, |record| record.string(exchange.kex))?;
        if self.phase == Phase::Open {
            self.channels.flush(&mut self.lines)
        } else {
            Ok(())
        }
    }

    /// A later exchange has the first one's host key. Its blob is a plain key's, so a certificate's is another.
    fn has_kept_key(&self, exchange: &Exchange) -> bool {
        exchange.key.as_ref().is_some_and(|(_, blob)| **blob == *self.host_key)
    }

    // ---- packets

    fn payload(&mut self, packet: &[u8]) -> Went {
        let [number, body @ ..] = packet else { return Ok(()) };
        match number {
            1 => return disconnected(Fields(body)),
            2..=4 => return Ok(()),
            _ if self.phase == Phase::Exchanging => return Ok(()),
            50.. => self.hold(packet.len())?,
            _ => {}
        }
        match self.phase {
            Phase::Open => self.open_packet(*number, body),
            Phase::Service => self.service_packet(*number, body),
            _ => self.auth_packet(*number, body),
        }
    }

    /// A packet from 50 on may not come in the peer's exchange, and is counted in ours.
    fn hold(&mut self, length: usize) -> Went {
        match self.flag {
            Flag::Idle => Ok(()),
            Flag::Peer => Err(INCONSISTENT),
            Flag::Ours => {
                self.counted += length as u64;
                if self.counted > 2 * u64::from(WINDOW) {
                    Err(PENDING)
                } else {
                    Ok(())
                }
            }
        }
    }

    /// An answer that no packet of the peer's brings.
    pub fn answer(&mut self, ticket: u32, resolution: u8) -> Went {
        self.lines.resolved(ticket, resolution, |_| {})
    }

    pub fn is_seen(&self, name: &[u8]) -> bool {
        self.extensions.seen.iter().any(|seen| seen == name)
    }

    pub fn signature_names(&mut self, ticket: u32) -> Went {
        let names = self.extensions.signature_names.as_deref();
        self.lines.resolved(ticket, SIGNATURE_NAMES, |record| {
            record.push(u8::from(names.is_some()));
            record.string(names.unwrap_or_default());
        })
    }
}

/// DISCONNECT (RFC 4253, section 11.1); later bytes pass.
fn disconnected(mut f: Fields) -> Went {
    let reason = f.number().ok_or(SSH_ENCODING)?;
    if !(1..=15).contains(&reason) {
        return Err(INVALID_DISCONNECT);
    }
    f.text().and_then(|_| f.text()).ok_or(SSH_ENCODING)?;
    Err(REMOTE_DISCONNECT)
}

// Resolutions (docs/FORMATS.md, "Records").
pub const AUTH_SUCCESS: u8 = 0x00;
pub const AUTH_FAILURE: u8 = 0x01;
pub const EXT_INFO_SEEN: u8 = 0x02;
pub const SIGNATURE_NAMES: u8 = 0x03;
pub const CHANNEL_OPENED: u8 = 0x04;
pub const CHANNEL_OPEN_FAILED: u8 = 0x05;
pub const FORWARD_PORT: u8 = 0x06;
pub const DONE: u8 = 0x07;
pub const DENIED: u8 = 0x08;
pub const PONG: u8 = 0x09;
pub const HOST_KEYS_PROVED: u8 = 0x0a;
pub const HOST_KEYS_REFUSED: u8 = 0x0b;
pub const GLOBAL_REPLY: u8 = 0x0c;
pub const DROPPED: u8 = 0x0d;
