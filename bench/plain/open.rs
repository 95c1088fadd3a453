//! The open session (docs/TABLES.md, "Open session"): packets of the connection protocol (RFC 4254), and what the user asks.

use crate::channels::{Channel, Opener, PACKET, WINDOW};
use crate::event::{Asked, Event, Global, Request};
use crate::key::{Key, Signature};
use crate::session::*;
use crate::stop::*;
use crate::wire::{Fields, Put};

const REASONS: [&[u8]; 4] =
    [b"administratively prohibited", b"connect failed", b"unknown channel type", b"resource shortage"];
const UNKNOWN_TYPE: u32 = 3;

impl Session<'_> {
    pub fn open_packet(&mut self, number: u8, body: &[u8]) -> Went {
        match number {
            80 => self.global_request(body),
            81 => self.request_success(body),
            82 => self.request_failure(body),
            90 => self.channel_open(body),
            91 => self.open_confirmation(body),
            92 => self.open_failure(body),
            93 => self.window_adjust(body),
            94 | 95 => self.channel_data(number == 95, body),
            96 => self.channel_report(0x26, body),
            97 => self.channel_close(body),
            98 => self.channel_request(body),
            99 => self.channel_report(0x23, body),
            100 => self.channel_report(0x24, body),
            _ => Ok(()),
        }
    }

    fn is_exchanging(&self) -> bool {
        self.flag != Flag::Idle
    }

    // ---- global requests (RFC 4254, section 4)

    fn global_request(&mut self, body: &[u8]) -> Went {
        let mut f = Fields(body);
        let name = f.text().ok_or(SSH_ENCODING)?;
        let want_reply = f.flag().ok_or(SSH_ENCODING)?;
        let is_keepalive = name.starts_with(b"keepalive");
        if is_keepalive {
            f.end().ok_or(SSH_ENCODING)?;
        } else if name == b"hostkeys-00@openssh.com" {
            return self.host_keys(f);
        }
        if want_reply {
            self.lines.packet(if is_keepalive { 81 } else { 82 }, |_| {})
        } else {
            Ok(())
        }
    }

    /// The server's host keys, of which those that can be read are reported.
    fn host_keys(&mut self, mut f: Fields) -> Went {
        let mut blobs = Vec::new();
        while !f.0.is_empty() {
            let blob = f.string().ok_or(SSH_ENCODING)?;
            if let Some((_, length)) = Key::front(blob) {
                blobs.push(&blob[..length]);
            }
        }
        self.lines.record(0x2f, |record| {
            record.number(blobs.len() as u32);
            blobs.iter().for_each(|blob| record.string(blob));
        })
    }

    fn request_success(&mut self, body: &[u8]) -> Went {
        let Some((ticket, asked)) = self.replies.pop_front() else { return Ok(()) };
        if matches!(asked, Asked::Simple | Asked::Ping | Asked::Nothing) {
            Fields(body).end().ok_or(SSH_ENCODING)?;
        }
        match asked {
            Asked::Forward => self.forward_port(ticket, body),
            Asked::Simple => self.answer(ticket, DONE),
            Asked::Ping => self.answer(ticket, PONG),
            Asked::Nothing => Ok(()),
            Asked::HostKeys(blobs) => match self.proof_fault(&blobs, Fields(body)) {
                None => self.answer(ticket, HOST_KEYS_PROVED),
                Some(fault) => self.lines.resolved(ticket, HOST_KEYS_REFUSED, |record| record.push(fault)),
            },
            Asked::Own => self.lines.resolved(ticket, GLOBAL_REPLY, |record| record.string(body)),
        }
    }

    /// The port on which the server listens, 0 where it is the one that was asked for.
    fn forward_port(&mut self, ticket: u32, body: &[u8]) -> Went {
        match body.len() {
            0 => self.lines.resolved(ticket, FORWARD_PORT, |record| record.number(0)),
            4 => self.lines.resolved(ticket, FORWARD_PORT, |record| record.extend_from_slice(body)),
            _ => self.answer(ticket, DENIED),
        }
    }

    /// What is wrong with the proof of these keys (OpenSSH's PROTOCOL, section 2.5): a part that can't be read, or a
    /// signature that isn't the key's.
    fn proof_fault(&self, blobs: &[u8], mut reply: Fields) -> Option<u8> {
        let mut blobs = Fields(blobs);
        while let Some(blob) = blobs.string() {
            let Some(signature) = reply.string().and_then(Signature::whole) else { return Some(0) };
            let mut signed = Vec::new();
            signed.string(b"hostkeys-prove-00@openssh.com");
            signed.string(&self.session_id);
            signed.string(blob);
            if !signature.is_toy(blob, &[&signed]) {
                return Some(1);
            }
        }
        if reply.0.is_empty() {
            None
        } else {
            Some(0)
        }
    }

    fn request_failure(&mut self, body: &[u8]) -> Went {
        Fields(body).end().ok_or(SSH_ENCODING)?;
        match self.replies.pop_front() {
            None | Some((_, Asked::Nothing)) => Ok(()),
            Some((ticket, Asked::Ping)) => self.answer(ticket, PONG),
            Some((ticket, _)) => self.answer(ticket, DENIED),
        }
    }

    // ---- opens (RFC 4254, section 5.1)

    fn channel_open(&mut self, body: &[u8]) -> Went {
        let mut f = Fields(body);
        let kind = f.text().ok_or(SSH_ENCODING)?;
        let mut sender = || f.number().ok_or(SSH_ENCODING);
        let (recipient, window, packet_size) = (sender()?, sender()?, sender()?);
        let (sort, fields) = opened(kind, &mut f).ok_or(SSH_ENCODING)?;
        let (number, channel) = self.channels.add(Opener::Server);
        (channel.recipient, channel.window, channel.packet_size) = (recipient, window, packet_size);
        if sort == 7 {
            return self.settle(number, Some(UNKNOWN_TYPE));
        }
        self.lines.record(0x28, |record| {
            record.number(number);
            record.push(sort);
            record.extend_from_slice(fields);
        })?;
        self.settle(number, None)
    }

    /// An open of the peer's that waits is accepted, or refused for a reason.
    fn settle(&mut self, number: u32, refusal: Option<u32>) -> Went {
        let is_exchanging = self.is_exchanging();
        let Some(channel) = self.channels.unsettled(number) else { return Ok(()) };
        let recipient = channel.recipient;
        if let Some(reason) = refusal {
            self.channels.remove(number);
            return self.lines.packet(92, |packet| {
                packet.number(recipient);
                packet.number(reason);
                packet.string(REASONS[reason as usize - 1]);
                packet.string(b"en");
            });
        }
        channel.is_established = true;
        self.lines.packet(91, |packet| {
            packet.number(recipient);
            put_our_side(packet, number);
        })?;
        channel.flush(is_exchanging, &mut self.lines)
    }

    fn open_confirmation(&mut self, body: &[u8]) -> Went {
        let mut f = Fields(body);
        let mut part = || f.number().ok_or(SSH_ENCODING);
        let (number, recipient, window, packet_size) = (part()?, part()?, part()?, part()?);
        f.end().ok_or(SSH_ENCODING)?;
        let is_exchanging = self.is_exchanging();
        let channel = self.channels.awaited(number).ok_or(INCONSISTENT)?;
        (channel.recipient, channel.window, channel.packet_size) = (recipient, window, packet_size);
        channel.is_established = true;
        if let Opener::User(ticket) = channel.opener {
            self.lines.resolved(ticket, CHANNEL_OPENED, |record| record.number(number))?;
        }
        self.lines.record(0x22, |record| {
            record.number(number);
            record.number(packet_size);
            record.number(window);
        })?;
        channel.flush(is_exchanging, &mut self.lines)
    }

    fn open_failure(&mut self, body: &[u8]) -> Went {
        let mut f = Fields(body);
        let number = f.number().ok_or(SSH_ENCODING)?;
        let reason = f.number().ok_or(SSH_ENCODING)?;
        let texts = f.taken(|f| f.text().and_then(|_| f.text()).map(drop)).ok_or(SSH_ENCODING)?;
        f.end().ok_or(SSH_ENCODING)?;
        // a reason that isn't known counts as the first
        let reason = if (1..=4).contains(&reason) { reason } else { 1 };
        let Some(channel) = self.channels.awaited(number) else { return Ok(()) };
        if let Opener::User(ticket) = channel.opener {
            self.lines.resolved(ticket, CHANNEL_OPEN_FAILED, |record| record.number(reason))?;
        }
        self.channels.remove(number);
        self.lines.record(0x27, |record| {
            record.number(number);
            record.number(reason);
            record.extend_from_slice(texts);
        })
    }

    // ---- bytes, windows and ends (RFC 4254, sections 5.2 and 5.3); on a channel that isn't established they are passed over

    fn window_adjust(&mut self, body: &[u8]) -> Went {
        let mut f = Fields(body);
        let number = f.number().ok_or(SSH_ENCODING)?;
        let amount = f.number().ok_or(SSH_ENCODING)?;
        f.end().ok_or(SSH_ENCODING)?;
        let is_exchanging = self.is_exchanging();
        let Some(channel) = self.channels.established(number) else { return Ok(()) };
        channel.grant(amount, is_exchanging, &mut self.lines)?;
        let left = channel.window;
        self.lines.record(0x2e, |record| {
            record.number(number);
            record.number(left);
        })
    }

    fn channel_data(&mut self, is_extended: bool, body: &[u8]) -> Went {
        let mut f = Fields(body);
        let number = f.number().ok_or(SSH_ENCODING)?;
        if is_extended {
            f.number().ok_or(SSH_ENCODING)?;
        }
        let bytes = f.string().ok_or(SSH_ENCODING)?;
        f.end().ok_or(SSH_ENCODING)?;
        let Some(channel) = self.channels.established(number) else { return Ok(()) };
        channel.received(bytes.len(), &mut self.lines)?;
        // number, code and bytes stand in the record as in the packet
        self.lines.record(if is_extended { 0x2a } else { 0x29 }, |record| record.extend_from_slice(body))
    }

    fn channel_number(body: &[u8]) -> Result<u32, Stop> {
        let mut f = Fields(body);
        let number = f.number().ok_or(SSH_ENCODING)?;
        f.end().ok_or(SSH_ENCODING)?;
        Ok(number)
    }

    fn channel_report(&mut self, kind: u8, body: &[u8]) -> Went {
        let number = Self::channel_number(body)?;
        if self.channels.established(number).is_none() {
            return Ok(());
        }
        self.lines.record(kind, |record| record.number(number))
    }

    fn channel_close(&mut self, body: &[u8]) -> Went {
        let number = Self::channel_number(body)?;
        let Some(channel) = self.channels.established(number) else { return Ok(()) };
        if !channel.is_close_sent() {
            self.lines.packet(97, |packet| packet.number(channel.recipient))?;
        }
        self.channels.remove(number);
        self.lines.record(0x25, |record| record.number(number))
    }

    /// CHANNEL_REQUEST (RFC 4254, section 5.4): the channel and the name are read first, the rest by the name.
    fn channel_request(&mut self, body: &[u8]) -> Went {
        let mut f = Fields(body);
        let number = f.number().ok_or(SSH_ENCODING)?;
        let name = f.text().ok_or(SSH_ENCODING)?;
        let Some(channel) = self.channels.established(number) else { return Ok(()) };
        let recipient = channel.recipient;
        match name {
            b"xon-xoff" => {
                let can_do = xon_xoff(f).ok_or(SSH_ENCODING)?;
                self.report(0x2b, number, &[u8::from(can_do)])
            }
            b"exit-status" => {
                let status = exit_status(f).ok_or(SSH_ENCODING)?;
                self.report(0x2c, number, status)
            }
            b"exit-signal" => {
                let (name, is_dumped, texts) = exit_signal(f).ok_or(SSH_ENCODING)?;
                self.lines.record(0x2d, |record| {
                    record.number(number);
                    record.string(name);
                    record.push(u8::from(is_dumped));
                    record.extend_from_slice(texts);
                })
            }
            name => {
                let want_reply = f.flag().ok_or(SSH_ENCODING)?;
                let is_keepalive = name == b"keepalive@openssh.com";
                if is_keepalive {
                    f.end().ok_or(SSH_ENCODING)?;
                }
                if !want_reply {
                    return Ok(());
                }
                self.lines.packet(if is_keepalive { 99 } else { 100 }, |packet| packet.number(recipient))
            }
        }
    }

    fn report(&mut self, kind: u8, number: u32, fields: &[u8]) -> Went {
        self.lines.record(kind, |record| {
            record.number(number);
            record.extend_from_slice(fields);
        })
    }

    // ---- the user

    pub fn open_user(&mut self, event: Event) -> Went {
        match event {
            Event::Authenticate { ticket, .. } => self.answer(ticket, DROPPED),
            Event::Open { ticket, kind, fields } => self.open(ticket, kind, fields),
            Event::Global(asked) => self.ask(asked),
            Event::HostKeysProve { ticket, blobs: [] } => self.answer(ticket, HOST_KEYS_PROVED),
            Event::HostKeysProve { ticket, blobs } => self.ask(Global {
                ticket,
                name: b"hostkeys-prove-00@openssh.com",
                fields: blobs,
                asked: Asked::HostKeys(blobs.to_vec()),
                want_reply: true,
            }),
            Event::Close(number) => self.on_channel(number, |channel, lines| channel.ask_close(lines)),
            Event::Eof(number) => self.on_channel(number, |channel, lines| channel.ask_eof(lines)),
            Event::Data { channel, code, body } => {
                self.on_channel(channel, |channel, lines| channel.data(code, body, lines))
            }
            Event::Request { channel, request } => self.request(channel, &request),
            Event::OpenReply { channel, refusal } => self.settle(channel, refusal),
            Event::AwaitExtension { ticket, name } => {
                let resolution = if self.is_seen(name) { EXT_INFO_SEEN } else { DROPPED };
                self.answer(ticket, resolution)
            }
            Event::SignatureNames { ticket } => self.signature_names(ticket),
            _ => Ok(()),
        }
    }

    fn on_channel(&mut self, number: u32, act: impl FnOnce(&mut Channel, &mut crate::wire::Lines) -> Went) -> Went {
        match self.channels.get(number) {
            Some(channel) => act(channel, &mut self.lines),
            None => Ok(()),
        }
    }

    fn open(&mut self, ticket: u32, kind: &str, fields: &[u8]) -> Went {
        let (number, _) = self.channels.add(Opener::User(ticket));
        self.lines.packet(90, |packet| {
            packet.string(kind.as_bytes());
            put_our_side(packet, number);
            packet.extend_from_slice(fields);
            if kind == "direct-streamlocal@openssh.com" {
                // a string and a number, which are reserved
                packet.extend_from_slice(&[0; 8]);
            }
        })
    }

    fn ask(&mut self, asked: Global) -> Went {
        self.lines.packet(80, |packet| {
            packet.string(asked.name);
            packet.push(u8::from(asked.want_reply));
            packet.extend_from_slice(asked.fields);
        })?;
        if asked.want_reply {
            self.replies.push_back((asked.ticket, asked.asked));
        }
        Ok(())
    }

    /// Nothing is asked on a channel that isn't established, and nothing after our close.
    fn request(&mut self, number: u32, request: &Request) -> Went {
        let Some(channel) = self.channels.established(number) else { return Ok(()) };
        if channel.is_close_sent() {
            return Ok(());
        }
        let recipient = channel.recipient;
        self.lines.packet(98, |packet| {
            packet.number(recipient);
            packet.string(request.name.as_bytes());
            packet.push(u8::from(request.want_reply));
            packet.extend(request.single.map(u8::from));
            packet.extend_from_slice(request.fields);
            if let Some(modes) = request.modes {
                put_modes(packet, modes);
            }
        })
    }
}

fn put_our_side(packet: &mut Vec<u8>, number: u32) {
    packet.number(number);
    packet.number(WINDOW);
    packet.number(PACKET);
}

/// The modes but those of number 0, which ends them (RFC 4254, section 8).
fn put_modes(packet: &mut Vec<u8>, modes: &[u8]) {
    let mut encoded: Vec<u8> = modes.chunks_exact(5).filter(|mode| mode[0] != 0).flatten().copied().collect();
    encoded.push(0);
    packet.string(&encoded);
}

/// The number of the type of an open of the peer's, and its fields; later bytes pass.
fn opened<'a>(kind: &[u8], f: &mut Fields<'a>) -> Option<(u8, &'a [u8])> {
    fn address(f: &mut Fields) -> Option<()> {
        f.text()?;
        f.number().map(drop)
    }
    let addresses = |f: &mut Fields| address(f).and_then(|()| address(f));
    let path = |f: &mut Fields| f.text().map(drop);
    Some(match kind {
        b"session" => (0, &[]),
        b"direct-tcpip" => (1, f.taken(addresses)?),
        b"direct-streamlocal@openssh.com" => (2, f.taken(path)?),
        b"x11" => (3, f.taken(address)?),
        b"forwarded-tcpip" => (4, f.taken(addresses)?),
        b"forwarded-streamlocal@openssh.com" => (5, f.taken(path)?),
        b"auth-agent@openssh.com" => (6, &[]),
        _ => (7, &[]),
    })
}

fn xon_xoff(mut f: Fields) -> Option<bool> {
    f.byte()?;
    let can_do = f.flag()?;
    f.end()?;
    Some(can_do)
}

fn exit_status(mut f: Fields<'_>) -> Option<&[u8]> {
    f.byte()?;
    let status = f.bytes(4)?;
    f.end()?;
    Some(status)
}

/// The signal's name, whether memory was dumped, the text and its language.
fn exit_signal(mut f: Fields<'_>) -> Option<(&[u8], bool, &[u8])> {
    f.byte()?;
    let (name, is_dumped) = (f.text()?, f.flag()?);
    let texts = f.taken(|f| f.text().and_then(|_| f.text()).map(drop))?;
    f.end()?;
    Some((name, is_dumped, texts))
}
