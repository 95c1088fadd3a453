//! The opening, from the accepted exchange to the open session (docs/TABLES.md, "The opening").

use crate::event::{By, Event, KeyMethod, Method};
use crate::key::{is_signature_name, put_toy_signature};
use crate::session::*;
use crate::stop::*;
use crate::wire::{names, Fields, Put};

const METHODS: [&[u8]; 6] =
    [b"none", b"password", b"publickey", b"hostbased", b"keyboard-interactive", b"gssapi-with-mic"];

impl Session<'_> {
    // ---- phase Service

    pub fn service_packet(&mut self, number: u8, body: &[u8]) -> Went {
        match number {
            6 => self.service_accept(body),
            7 => self.ext_info(body),
            _ => Err(INCONSISTENT),
        }
    }

    fn service_accept(&mut self, body: &[u8]) -> Went {
        if !self.login.is_service_asked {
            return Err(INCONSISTENT);
        }
        let mut f = Fields(body);
        if f.string().ok_or(SSH_ENCODING)? != b"ssh-userauth" {
            return Ok(());
        }
        f.end().ok_or(SSH_ENCODING)?;
        self.phase = Phase::Auth;
        let login = &self.login;
        self.lines.packet(50, |packet| packet.extend_from_slice(&login.request))
    }

    // ---- phase Auth

    pub fn auth_packet(&mut self, number: u8, body: &[u8]) -> Went {
        let class = self.login.class;
        match number {
            7 => self.ext_info(body),
            51 => self.userauth_failure(body),
            52 => self.userauth_success(body),
            53 => self.userauth_banner(body),
            60 => match class {
                Class::Plain => Ok(()),
                Class::Key => self.pk_ok(body),
                Class::Prompts => self.info_request(body),
                Class::Gssapi => self.gssapi_string(0x08, body),
            },
            61 if class == Class::Gssapi => self.gssapi_string(0x09, body),
            64 if class == Class::Gssapi => self.gssapi_error(body),
            65 if class == Class::Gssapi => self.gssapi_string(0x0b, body),
            _ => Err(INCONSISTENT),
        }
    }

    /// USERAUTH_FAILURE (RFC 4252, section 5.1).
    fn userauth_failure(&mut self, body: &[u8]) -> Went {
        let mut f = Fields(body);
        let list = f.text().ok_or(SSH_ENCODING)?;
        let is_partial = f.flag().ok_or(SSH_ENCODING)?;
        f.end().ok_or(SSH_ENCODING)?;
        let mut known: Vec<&[u8]> = Vec::new();
        for name in names(list) {
            if METHODS.contains(&name) && !known.contains(&name) {
                known.push(name);
            }
        }
        let ticket = self.login.ticket;
        self.lines.resolved(ticket, AUTH_FAILURE, |record| {
            record.string(&known.join(&b','));
            record.push(u8::from(is_partial));
        })?;
        (self.login.ticket, self.login.signing) = (0, None);
        if known.is_empty() {
            Err(NO_AUTH_METHOD)
        } else {
            Ok(())
        }
    }

    fn userauth_success(&mut self, body: &[u8]) -> Went {
        Fields(body).end().ok_or(SSH_ENCODING)?;
        self.answer(self.login.ticket, AUTH_SUCCESS)?;
        self.phase = Phase::Open;
        self.lines.record(0x03, |_| {})
    }

    fn userauth_banner(&mut self, body: &[u8]) -> Went {
        let mut f = Fields(body);
        let banner = f.text().ok_or(SSH_ENCODING)?;
        f.text().and_then(|_| f.end()).ok_or(SSH_ENCODING)?;
        self.lines.record(0x21, |record| record.string(banner))
    }

    // ---- extensions (RFC 8308)

    fn ext_info(&mut self, body: &[u8]) -> Went {
        if self.extensions.packets == 2 {
            return Err(INCONSISTENT);
        }
        let mut announced = Vec::new();
        extensions(Fields(body), &mut announced).ok_or(SSH_ENCODING)?;
        self.extensions.packets += 1;
        for (name, value) in announced {
            self.announce(name, value)?;
        }
        Ok(())
    }

    fn announce(&mut self, name: &[u8], value: &[u8]) -> Went {
        if name == b"server-sig-algs" {
            let kept: Vec<&[u8]> = names(value).filter(|name| is_signature_name(name)).collect();
            self.extensions.signature_names = Some(kept.join(&b','));
        }
        if !self.is_seen(name) {
            self.extensions.seen.push(name.to_vec());
        }
        for (ticket, _) in self.extensions.waiters.extract_if(.., |(_, awaited)| awaited == name) {
            self.lines.resolved(ticket, EXT_INFO_SEEN, |_| {})?;
        }
        Ok(())
    }

    // ---- keys (RFC 4252, section 7)

    fn pk_ok(&mut self, body: &[u8]) -> Went {
        let mut f = Fields(body);
        f.text().and_then(|_| f.string()).and_then(|_| f.end()).ok_or(SSH_ENCODING)?;
        let Some(signing) = self.login.signing.take() else { return Ok(()) };
        let mut request = Vec::new();
        put_key_request(&mut request, &self.login.user, 1, &signing.algorithm, &signing.blob);
        match signing.by {
            Signer::Toy { blob, name } => self.lines.packet(50, |packet| {
                let id = &self.session_id;
                packet.extend_from_slice(&request);
                packet.number(name.len() as u32 + 28);
                let length = (id.len() as u32).to_be_bytes();
                put_toy_signature(packet, &blob, &name, &[&length, id, &[50], &request]);
            }),
            Signer::Outside { is_certificate, hash } => {
                self.phase = Phase::AwaitSignature;
                self.login.handed.clear();
                self.login.handed.string(&self.session_id);
                self.login.handed.push(50);
                self.login.handed.extend_from_slice(&request);
                self.lines.record(if is_certificate { 0x06 } else { 0x05 }, |record| {
                    record.number(self.login.ticket);
                    record.string(&signing.blob);
                    record.push(hash);
                    record.string(&self.login.handed);
                })
            }
        }
    }

    // ---- prompts (RFC 4256)

    fn info_request(&mut self, body: &[u8]) -> Went {
        let mut f = Fields(body);
        let head = f.taken(|f| f.text().and_then(|_| f.text()).map(drop)).ok_or(SSH_ENCODING)?;
        f.text().ok_or(SSH_ENCODING)?;
        let mut prompts = f;
        f.number().ok_or(SSH_ENCODING)?;
        let count = prompts.count(5).ok_or(INCONSISTENT)?;
        let mut echoes = Vec::with_capacity(count);
        for _ in 0..count {
            echoes.push(prompt(&mut f).ok_or(SSH_ENCODING)?);
        }
        f.end().ok_or(SSH_ENCODING)?;
        self.phase = Phase::AwaitResponses;
        self.lines.record(0x07, |record| {
            record.number(self.login.ticket);
            record.extend_from_slice(head);
            record.number(count as u32);
            for (text, is_shown) in echoes {
                record.string(text);
                record.push(u8::from(is_shown));
            }
        })
    }

    // ---- GSSAPI (RFC 4462, section 3)

    /// A mechanism or a token, with the bytes of a MIC, or the token of an error.
    fn gssapi_string(&mut self, kind: u8, body: &[u8]) -> Went {
        let mut f = Fields(body);
        let string = f.string().ok_or(SSH_ENCODING)?;
        f.end().ok_or(SSH_ENCODING)?;
        self.lines.record(kind, |record| {
            record.number(self.login.ticket);
            record.string(string);
            if kind != 0x0b {
                let mut mic = Vec::new();
                mic.string(&self.session_id);
                mic.push(50);
                put_head(&mut mic, &self.login.user, b"gssapi-with-mic");
                record.string(&mic);
            }
        })
    }

    fn gssapi_error(&mut self, body: &[u8]) -> Went {
        let mut f = Fields(body);
        let said = f.taken(|f| f.bytes(8).and_then(|_| f.text()).map(drop)).ok_or(SSH_ENCODING)?;
        f.text().and_then(|_| f.end()).ok_or(SSH_ENCODING)?;
        self.lines.record(0x0a, |record| {
            record.number(self.login.ticket);
            record.extend_from_slice(said);
        })
    }

    fn gssapi_last(&mut self, token: &[u8], mic: Option<&[u8]>) -> Went {
        if !token.is_empty() {
            self.lines.packet(61, |packet| packet.string(token))?;
        }
        match mic {
            Some(mic) => self.lines.packet(66, |packet| packet.string(mic)),
            None => self.lines.packet(63, |_| {}),
        }
    }

    // ---- the user

    pub fn opening_user(&mut self, event: Event) -> Went {
        let is_gssapi = self.phase == Phase::Auth && self.login.class == Class::Gssapi;
        match event {
            Event::Open { .. } => Err(NOT_AUTHENTICATED),
            Event::Authenticate { ticket, user, method } => self.authenticate(ticket, user, method),
            Event::GssapiToken(token) if is_gssapi => self.lines.packet(61, |packet| packet.string(token)),
            Event::GssapiLast { token, mic } if is_gssapi => self.gssapi_last(token, mic),
            Event::Global(asked) => self.answer(asked.ticket, DENIED),
            Event::HostKeysProve { ticket, blobs: [] } => self.answer(ticket, HOST_KEYS_PROVED),
            Event::HostKeysProve { ticket, .. } => self.answer(ticket, DENIED),
            Event::AwaitExtension { ticket, name } if self.is_seen(name) => self.answer(ticket, EXT_INFO_SEEN),
            Event::AwaitExtension { ticket, name } => {
                self.extensions.waiters.push((ticket, name.to_vec()));
                Ok(())
            }
            Event::SignatureNames { ticket } => self.signature_names(ticket),
            _ => Ok(()),
        }
    }

    fn authenticate(&mut self, ticket: u32, user: &[u8], method: Method) -> Went {
        self.answer(self.login.ticket, DROPPED)?;
        let login = &mut self.login;
        login.ticket = ticket;
        login.user.clear();
        login.user.extend_from_slice(user);
        login.class = match method {
            Method::Nothing | Method::Password(_) => Class::Plain,
            Method::Key(_) => Class::Key,
            Method::Prompts(_) => Class::Prompts,
            Method::Gssapi(_) => Class::Gssapi,
        };
        if self.phase == Phase::Auth {
            self.lines.packet(50, |packet| put_request(packet, user, &method))?;
        } else {
            login.request.clear();
            put_request(&mut login.request, user, &method);
            if !login.is_service_asked {
                login.is_service_asked = true;
                self.lines.packet(5, |packet| packet.string(b"ssh-userauth"))?;
            }
        }
        self.login.signing = match method {
            Method::Key(key) => Some(signing(key)),
            _ => None,
        };
        Ok(())
    }

    /// What the user says while an answer of theirs is awaited.
    pub fn awaited(&mut self, event: Event) -> Went {
        match (self.phase, event) {
            (Phase::AwaitResponses, Event::InfoResponse(responses)) => {
                self.phase = Phase::Auth;
                self.lines.packet(61, |packet| packet.extend_from_slice(responses))
            }
            (Phase::AwaitSignature, Event::Signed(signed)) => self.signed(signed),
            (Phase::AwaitSignature, Event::SignFailed) => self.unsigned(),
            (_, event) => self.answer(event.ticket(), DROPPED),
        }
    }

    /// The bytes that were handed out, and more behind them.
    fn signed(&mut self, signed: &[u8]) -> Went {
        if signed.len() <= self.login.handed.len() || !signed.starts_with(&self.login.handed) {
            return self.unsigned();
        }
        self.phase = Phase::Auth;
        let request = &signed[4 + self.session_id.len()..];
        self.lines.packet(request[0], |packet| packet.extend_from_slice(&request[1..]))
    }

    fn unsigned(&mut self) -> Went {
        self.phase = Phase::Auth;
        let ticket = std::mem::take(&mut self.login.ticket);
        self.answer(ticket, DROPPED)
    }
}

/// All extensions of the packet, before anything changes.
fn extensions<'a>(mut f: Fields<'a>, announced: &mut Vec<(&'a [u8], &'a [u8])>) -> Option<()> {
    for _ in 0..f.count(8)? {
        let name = f.text()?;
        let value = if name == b"server-sig-algs" { f.text()? } else { f.string()? };
        announced.push((name, value));
    }
    f.end()
}

fn prompt<'a>(f: &mut Fields<'a>) -> Option<(&'a [u8], bool)> {
    Some((f.text()?, f.flag()?))
}

fn signing(key: KeyMethod) -> Signing {
    let algorithm = key.algorithm.to_vec();
    match key.by {
        By::Pair(pair, name) => Signing {
            algorithm,
            blob: key.blob.map_or_else(|| pair.blob.clone(), <[u8]>::to_vec),
            by: Signer::Toy { blob: pair.blob, name: name.to_vec() },
        },
        By::Outside { is_certificate, hash } => Signing {
            algorithm,
            blob: key.blob.unwrap_or_default().to_vec(),
            by: Signer::Outside { is_certificate, hash },
        },
    }
}

// ---- USERAUTH_REQUEST without its number

fn put_head(out: &mut Vec<u8>, user: &[u8], method: &[u8]) {
    out.string(user);
    out.string(b"ssh-connection");
    out.string(method);
}

fn put_key_request(out: &mut Vec<u8>, user: &[u8], is_signed: u8, algorithm: &[u8], blob: &[u8]) {
    put_head(out, user, b"publickey");
    out.push(is_signed);
    out.string(algorithm);
    out.string(blob);
}

fn put_request(out: &mut Vec<u8>, user: &[u8], method: &Method) {
    match method {
        Method::Nothing => put_head(out, user, b"none"),
        Method::Password(password) => {
            put_head(out, user, b"password");
            out.push(0);
            out.string(password);
        }
        Method::Key(key) => {
            let own = match &key.by {
                By::Pair(pair, _) => &pair.blob[..],
                By::Outside { .. } => &[],
            };
            put_key_request(out, user, 0, key.algorithm, key.blob.unwrap_or(own));
        }
        Method::Prompts(submethods) => {
            put_head(out, user, b"keyboard-interactive");
            out.string(b"");
            out.string(submethods);
        }
        Method::Gssapi(mechanisms) => {
            put_head(out, user, b"gssapi-with-mic");
            out.extend_from_slice(mechanisms);
        }
    }
}
