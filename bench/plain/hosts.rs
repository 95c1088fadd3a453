//! Known hosts: what a text says of a host key (docs/DEFINITIONS.md, "Matching lines" and "Known hosts judgement").

use crate::hmac::hmac;
use crate::key::Key;
use crate::stop::{key_changed, revoked, Stop, DECODE, SSH_KEY, UNKNOWN_KEY};

/// The known hosts text, and the text that names the host.
pub struct Hosts {
    pub known: String,
    pub host: String,
}

/// Padded base64, after carriage returns and line feeds are dropped.
pub fn base64(text: &[u8]) -> Option<Vec<u8>> {
    let text: Vec<u8> = text.iter().copied().filter(|byte| !b"\r\n".contains(byte)).collect();
    base64_exact(&text)
}

/// Padded base64 (RFC 4648, section 4).
pub fn base64_exact(text: &[u8]) -> Option<Vec<u8>> {
    if text.len() % 4 != 0 {
        return None;
    }
    let pads = text.iter().rev().take_while(|byte| **byte == b'=').count();
    if pads > 2 {
        return None;
    }
    let mut bytes = Vec::with_capacity(text.len() / 4 * 3);
    for part in text[..text.len() - pads].chunks(4) {
        let mut number = 0_u32;
        for digit in part {
            number = number << 6 | digit_value(*digit)?;
        }
        let count = part.len() - 1;
        number <<= 6 * (4 - part.len());
        bytes.extend_from_slice(&number.to_be_bytes()[1..1 + count]);
        // bits that are left over have to be 0
        if number.to_be_bytes()[1 + count..].iter().any(|byte| *byte != 0) {
            return None;
        }
    }
    Some(bytes)
}

fn digit_value(digit: u8) -> Option<u32> {
    let value = match digit {
        b'A'..=b'Z' => digit - b'A',
        b'a'..=b'z' => digit - b'a' + 26,
        b'0'..=b'9' => digit - b'0' + 52,
        b'+' => 62,
        b'/' => 63,
        _ => return None,
    };
    Some(u32::from(value))
}

/// The bytes as padded base64.
pub fn base64_text(bytes: &[u8]) -> String {
    const DIGITS: &[u8; 64] = b"ABCDEFGHIJKLMNOPQRSTUVWXYZabcdefghijklmnopqrstuvwxyz0123456789+/";
    let mut text = String::with_capacity(bytes.len().div_ceil(3) * 4);
    for part in bytes.chunks(3) {
        let number = (0..3).fold(0_u32, |number, at| number << 8 | u32::from(*part.get(at).unwrap_or(&0)));
        for at in 0..4 {
            let digit = DIGITS[(number >> (18 - 6 * at) & 63) as usize];
            text.push(if at <= part.len() { char::from(digit) } else { '=' });
        }
    }
    text
}

fn hashed_matches(entry: &[u8], host: &[u8]) -> bool {
    let mut parts = entry.split(|byte| *byte == b'|').skip(2);
    let (Some(salt), Some(hash)) = (parts.next(), parts.next()) else { return false };
    let (Some(salt), Some(hash)) = (base64(salt), base64(hash)) else { return false };
    hash == hmac(&salt, &[host])
}

fn entry_matches(entry: &[u8], host: &[u8]) -> bool {
    if entry.starts_with(b"|1|") {
        hashed_matches(entry, host)
    } else {
        entry == host
    }
}

/// Whether a line that matches is marked `@revoked`, and the third of its fields behind the mark.
fn matching<'a>(line: &'a [u8], host: &[u8]) -> Option<(bool, &'a [u8])> {
    let mut fields = line.split(|byte| *byte == b' ');
    let first = fields.next().filter(|field| !field.starts_with(b"#"))?;
    let is_revoked = first == b"@revoked";
    let entries = if is_revoked { fields.next()? } else { first };
    let (_, third) = (fields.next()?, fields.next()?);
    entries.split(|byte| *byte == b',').any(|entry| entry_matches(entry, host)).then_some((is_revoked, third))
}

impl Hosts {
    /// The blobs that matching lines record, with the lines' numbers. Each matching line has to be readable.
    pub fn keys(&self) -> Result<Vec<(u64, Vec<u8>)>, Stop> {
        let mut keys = Vec::new();
        for (line, number) in self.known.as_bytes().split(|byte| *byte == b'\n').zip(1..) {
            let Some((is_revoked, third)) = matching(line, self.host.as_bytes()) else { continue };
            let mut bytes = base64(third).ok_or(DECODE)?;
            let (_, length) = Key::front(&bytes).ok_or(SSH_KEY)?;
            bytes.truncate(length);
            if !is_revoked {
                keys.push((number, bytes));
            }
        }
        Ok(keys)
    }

    /// Whether the plain key with this blob is accepted. Each matching line has to be readable, whatever another says.
    pub fn judge(&self, key: Key, blob: &[u8]) -> Result<(), Stop> {
        let mut revoking = None;
        let mut changed = None;
        let mut has_key = false;
        for (line, number) in self.known.as_bytes().split(|byte| *byte == b'\n').zip(1..) {
            let Some((is_revoked, third)) = matching(line, self.host.as_bytes()) else { continue };
            let bytes = base64(third).ok_or(DECODE)?;
            let (other, length) = Key::front(&bytes).ok_or(SSH_KEY)?;
            let is_same = bytes[..length] == *blob;
            if is_revoked {
                revoking = revoking.or(is_same.then_some(number));
                continue;
            }
            has_key |= is_same;
            if !other.is_certificate && other.name == key.name && !is_same {
                changed = changed.or(Some(number));
            }
        }
        match (revoking, changed) {
            (Some(line), _) => Err(revoked(line)),
            (None, Some(line)) => Err(key_changed(line)),
            (None, None) if has_key => Ok(()),
            (None, None) => Err(UNKNOWN_KEY),
        }
    }
}
