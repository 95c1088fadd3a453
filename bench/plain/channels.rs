//! The channels of a session and their windows (RFC 4254, section 5).

use crate::stop::Stop;
use crate::wire::{Lines, Put};
use std::collections::VecDeque;

/// Our window of a channel, and the most bytes of a packet that we take.
pub const WINDOW: u32 = 2_097_152;
pub const PACKET: u32 = 32_768;

pub enum Opener {
    /// With the ticket of the open.
    User(u32),
    Server,
}

#[derive(Clone, Copy, PartialEq)]
enum Stage {
    Unasked,
    Asked,
    Sent,
}

/// Bytes of one call that wait, from a place on.
struct Waiting {
    code: Option<u32>,
    bytes: Vec<u8>,
    at: usize,
}

pub struct Channel {
    pub opener: Opener,
    pub is_established: bool,
    pub recipient: u32,
    pub packet_size: u32,
    pub window: u32,
    own_window: u32,
    pending: VecDeque<Waiting>,
    eof: Stage,
    close: Stage,
}

/// Channel n is in place n - 1: a run takes too few events for numbers to come round.
#[derive(Default)]
pub struct Channels(Vec<Option<Channel>>);

impl Channels {
    /// The next number, and the new channel under it.
    pub fn add(&mut self, opener: Opener) -> (u32, &mut Channel) {
        let number = self.0.len() as u32 + 1;
        let channel = Channel {
            opener,
            is_established: false,
            recipient: 0,
            packet_size: PACKET,
            window: 0,
            own_window: WINDOW,
            pending: VecDeque::new(),
            eof: Stage::Unasked,
            close: Stage::Unasked,
        };
        self.0.push(None);
        (number, self.0.last_mut().expect("just pushed").insert(channel))
    }

    fn slot(&mut self, number: u32) -> Option<&mut Option<Channel>> {
        self.0.get_mut((number as usize).checked_sub(1)?)
    }

    pub fn get(&mut self, number: u32) -> Option<&mut Channel> {
        self.slot(number)?.as_mut()
    }

    pub fn established(&mut self, number: u32) -> Option<&mut Channel> {
        self.get(number).filter(|channel| channel.is_established)
    }

    /// An open of ours that waits for its answer.
    pub fn awaited(&mut self, number: u32) -> Option<&mut Channel> {
        self.get(number).filter(|channel| !channel.is_established && matches!(channel.opener, Opener::User(_)))
    }

    /// An open of the peer's that waits for ours.
    pub fn unsettled(&mut self, number: u32) -> Option<&mut Channel> {
        self.get(number).filter(|channel| !channel.is_established && matches!(channel.opener, Opener::Server))
    }

    pub fn remove(&mut self, number: u32) -> Option<Channel> {
        self.slot(number)?.take()
    }

    /// What waits on all channels goes out.
    pub fn flush(&mut self, lines: &mut Lines) -> Result<(), Stop> {
        self.0.iter_mut().flatten().try_for_each(|channel| channel.flush(false, lines))
    }
}

impl Channel {
    /// How many bytes may go out now.
    fn room(&self, is_exchanging: bool) -> usize {
        if self.is_established && !is_exchanging && self.packet_size > 0 {
            self.window as usize
        } else {
            0
        }
    }

    /// Bytes of the user's: what may goes out in pieces, the rest waits.
    pub fn data(&mut self, code: Option<u32>, bytes: &[u8], lines: &mut Lines) -> Result<(), Stop> {
        if bytes.is_empty() || self.eof != Stage::Unasked || self.close != Stage::Unasked {
            return Ok(());
        }
        let mut at = 0;
        if self.pending.is_empty() {
            at = bytes.len().min(self.room(false));
            self.send(code, &bytes[..at], lines)?;
        }
        if at < bytes.len() {
            self.pending.push_back(Waiting { code, bytes: bytes[at..].to_vec(), at: 0 });
        }
        Ok(())
    }

    fn send(&mut self, code: Option<u32>, bytes: &[u8], lines: &mut Lines) -> Result<(), Stop> {
        self.window -= bytes.len() as u32;
        let number = if code.is_some() { 95 } else { 94 };
        for piece in bytes.chunks(self.packet_size.max(1) as usize) {
            lines.packet(number, |packet| {
                packet.number(self.recipient);
                if let Some(code) = code {
                    packet.number(code);
                }
                packet.string(piece);
            })?;
        }
        Ok(())
    }

    /// What waits and may go out, and the ends behind it.
    pub fn flush(&mut self, is_exchanging: bool, lines: &mut Lines) -> Result<(), Stop> {
        while let Some(mut front) = self.pending.pop_front() {
            let count = (front.bytes.len() - front.at).min(self.room(is_exchanging));
            self.send(front.code, &front.bytes[front.at..front.at + count], lines)?;
            front.at += count;
            if front.at < front.bytes.len() {
                self.pending.push_front(front);
                break;
            }
        }
        self.ends(lines)
    }

    /// EOF and then our close, once no bytes wait, whatever exchange runs.
    fn ends(&mut self, lines: &mut Lines) -> Result<(), Stop> {
        if !self.is_established || !self.pending.is_empty() {
            return Ok(());
        }
        for (number, stage) in [(96, &mut self.eof), (97, &mut self.close)] {
            if *stage == Stage::Asked {
                *stage = Stage::Sent;
                lines.packet(number, |packet| packet.number(self.recipient))?;
            }
        }
        Ok(())
    }

    pub fn ask_eof(&mut self, lines: &mut Lines) -> Result<(), Stop> {
        if self.close != Stage::Sent && self.eof == Stage::Unasked {
            self.eof = Stage::Asked;
        }
        self.ends(lines)
    }

    pub fn ask_close(&mut self, lines: &mut Lines) -> Result<(), Stop> {
        if self.close == Stage::Unasked {
            self.close = Stage::Asked;
        }
        self.ends(lines)
    }

    pub fn is_close_sent(&self) -> bool {
        self.close == Stage::Sent
    }

    /// The peer grants bytes, held at the last u32.
    pub fn grant(&mut self, amount: u32, is_exchanging: bool, lines: &mut Lines) -> Result<(), Stop> {
        self.window = self.window.saturating_add(amount);
        self.flush(is_exchanging, lines)
    }

    /// Bytes of the peer's use up our window, and a low one is brought back.
    pub fn received(&mut self, count: usize, lines: &mut Lines) -> Result<(), Stop> {
        self.own_window = self.own_window.saturating_sub(count as u32);
        if self.own_window >= WINDOW / 2 {
            return Ok(());
        }
        let amount = WINDOW - self.own_window;
        self.own_window = WINDOW;
        lines.packet(93, |packet| {
            packet.number(self.recipient);
            packet.number(amount);
        })
    }
}
