//! What `sshc_proxy_main` does between a client's bytes and an agent's (docs/FORMATS.md, "The proxy's policy"; the tables of
//! crates/sshc_proxy/README.md; draft-miller-ssh-agent; OpenSSH's PROTOCOL.agent, section 1), with the toy verifier.

use crate::hosts::base64_exact;
use crate::key::{Key, Signature};
use crate::many::Outcome;
use crate::wire::{Fields, Put};

/// The longest message.
const MOST: usize = 262_144;

/// As many hosts are bound on a connection; one more is out of memory.
const MOST_BOUND: usize = 256;

/// Why a run ends, as a status.
enum End {
    NoMemory = 20,
    TooLong = 24,
    UnexpectedEnd = 25,
}

/// A key, and a host key towards which it may be used.
type Rule = (Vec<u8>, Vec<u8>);

fn is_plain(blob: &[u8]) -> bool {
    Key::whole(blob).is_some_and(|key| !key.is_certificate)
}

fn key_blob(word: &str) -> Option<Vec<u8>> {
    base64_exact(word.as_bytes()).filter(|blob| is_plain(blob))
}

fn rule(line: &str) -> Option<Rule> {
    let words: Vec<&str> = line.split(' ').collect();
    let ["allow", key, host] = words.as_slice() else { return None };
    Some((key_blob(key)?, key_blob(host)?))
}

/// The rules, or the number of the first bad line.
fn rules(text: &str) -> Result<Vec<Rule>, usize> {
    let lines = text.split('\n').enumerate().filter(|(_, line)| !line.is_empty() && !line.starts_with('#'));
    lines.map(|(number, line)| rule(line).ok_or(number + 1)).collect()
}

/// The next message of a stream: none at its end.
fn message<'a>(stream: &mut Fields<'a>) -> Result<Option<&'a [u8]>, End> {
    if stream.0.is_empty() {
        return Ok(None);
    }
    let length = stream.number().ok_or(End::UnexpectedEnd)? as usize;
    if length > MOST {
        return Err(End::TooLong);
    }
    stream.bytes(length).map(Some).ok_or(End::UnexpectedEnd)
}

struct Proxy<'a> {
    rules: Vec<Rule>,
    bound: Vec<Vec<u8>>,
    answers: Fields<'a>,
    to_client: Vec<u8>,
    to_agent: Vec<u8>,
}

impl<'a> Proxy<'a> {
    fn is_allowed(&self, key: &[u8]) -> bool {
        let is_for = |host: &Vec<u8>| self.rules.iter().any(|rule| rule.0 == key && rule.1 == *host);
        !self.bound.is_empty() && self.bound.iter().all(is_for)
    }

    fn step(&mut self, request: &[u8]) -> Result<(), End> {
        let answer = match request {
            [11, ..] => {
                let answer = self.forwarded(request)?;
                self.listing(answer)
            }
            [13, body @ ..] if Fields(body).string().is_some_and(|key| self.is_allowed(key)) => {
                Some(self.forwarded(request)?.to_vec()).filter(|answer| answer.first() == Some(&14))
            }
            [27, body @ ..] => self.binding(body)?,
            _ => None,
        };
        self.to_client.string(answer.as_deref().unwrap_or(&[5]));
        Ok(())
    }

    /// The agent's answer to a message that it is sent.
    fn forwarded(&mut self, request: &[u8]) -> Result<&'a [u8], End> {
        self.to_agent.string(request);
        message(&mut self.answers)?.ok_or(End::UnexpectedEnd)
    }

    /// The keys of the agent's listing that are allowed, as a listing.
    fn listing(&self, answer: &[u8]) -> Option<Vec<u8>> {
        let [12, body @ ..] = answer else { return None };
        let mut f = Fields(body);
        let (mut count, mut kept) = (0, Vec::new());
        for _ in 0..f.number()? {
            let (blob, comment) = (f.string()?, f.text()?);
            Key::front(blob)?;
            if self.is_allowed(blob) {
                count += 1;
                kept.string(blob);
                kept.string(comment);
            }
        }
        let mut listing = vec![12];
        listing.number(count);
        listing.extend_from_slice(&kept);
        Some(listing)
    }

    fn binding(&mut self, body: &[u8]) -> Result<Option<Vec<u8>>, End> {
        let Some(host) = bound_host(body) else { return Ok(None) };
        if self.bound.len() == MOST_BOUND {
            return Err(End::NoMemory);
        }
        self.bound.push(host.to_vec());
        Ok(Some(vec![6]))
    }
}

/// The host key of a binding that it signed.
fn bound_host(body: &[u8]) -> Option<&[u8]> {
    let mut f = Fields(body);
    let is_named = f.string()? == b"session-bind@openssh.com";
    let (host, session, signature) = (f.string()?, f.string()?, f.string()?);
    f.flag()?;
    f.end()?;
    let is_signed = is_named && is_plain(host) && Signature::whole(signature)?.is_toy(host, &[session]);
    is_signed.then_some(host)
}

fn serve(proxy: &mut Proxy, mut client: Fields) -> Result<(), End> {
    while let Some(request) = message(&mut client)? {
        proxy.step(request)?;
    }
    Ok(())
}

/// Serves the client by the policy in the file.
pub fn run(file: &[u8], input: &[u8], answers: &[u8]) -> Outcome {
    let ended = |status, written: Vec<u8>, left| Outcome { status, written, left };
    let Ok(text) = std::str::from_utf8(file) else { return ended(3, Vec::new(), Vec::new()) };
    let rules = match rules(text) {
        Ok(rules) => rules,
        Err(line) => return ended(5, format!("error policy {line}\n").into_bytes(), Vec::new()),
    };
    let mut proxy =
        Proxy { rules, bound: Vec::new(), answers: Fields(answers), to_client: Vec::new(), to_agent: Vec::new() };
    let status = serve(&mut proxy, Fields(input)).map_or_else(|end| end as u8, |()| 0);
    ended(status, proxy.to_client, proxy.to_agent)
}
