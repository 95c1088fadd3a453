//! The key grammar (docs/DEFINITIONS.md, "Key grammar"): keys, certificates, signatures and key pairs. Keys stay the bytes of
//! their blobs.

use crate::hmac::hmac;
use crate::wire::{Fields, Put};

/// A blob that is in the grammar.
#[derive(Clone, Copy)]
pub struct Key<'a> {
    /// With which the blob begins.
    pub name: &'a [u8],
    pub is_certificate: bool,
    /// An RSA key, or a certificate for one.
    pub is_rsa: bool,
}

/// A pair at hand: the blob of its public key.
pub struct Pair<'a> {
    pub name: &'a [u8],
    pub blob: Vec<u8>,
    pub is_rsa: bool,
}

#[derive(Clone, Copy, PartialEq)]
enum Known {
    Dsa,
    Ecdsa(&'static [u8], usize),
    Ed25519,
    Rsa,
    SkEcdsa,
    SkEd25519,
}

/// The name before its domain, and whether OpenSSH's domain belongs to it.
const KNOWN: [(&[u8], bool, Known); 8] = [
    (b"ssh-dss", false, Known::Dsa),
    (b"ecdsa-sha2-nistp256", false, Known::Ecdsa(b"nistp256", 65)),
    (b"ecdsa-sha2-nistp384", false, Known::Ecdsa(b"nistp384", 97)),
    (b"ecdsa-sha2-nistp521", false, Known::Ecdsa(b"nistp521", 133)),
    (b"ssh-ed25519", false, Known::Ed25519),
    (b"ssh-rsa", false, Known::Rsa),
    (b"sk-ecdsa-sha2-nistp256", true, Known::SkEcdsa),
    (b"sk-ssh-ed25519", true, Known::SkEd25519),
];

const OPENSSH: &[u8] = b"@openssh.com";
const MARK: &[u8] = b"-cert-v01";

/// Certificates in one another, with the key of the last signer.
const MOST_NESTED: usize = 9;
const MOST_MARKERS: usize = 8;

fn known_named(name: &[u8]) -> Option<Known> {
    let stem = name.strip_suffix(OPENSSH);
    KNOWN.iter().find(|known| if known.1 { stem == Some(known.0) } else { name == known.0 }).map(|known| known.2)
}

fn known_certified(name: &[u8]) -> Option<Known> {
    let stem = name.strip_suffix(OPENSSH)?.strip_suffix(MARK)?;
    KNOWN.iter().find(|known| known.0 == stem).map(|known| known.2)
}

fn is_side(bytes: &[u8]) -> bool {
    !bytes.is_empty() && bytes.iter().all(|byte| (33..=126).contains(byte) && *byte != b',' && *byte != b'@')
}

/// The two sides of a name's first `@`.
fn parted(name: &[u8]) -> Option<(&[u8], &[u8])> {
    let at = name.iter().position(|byte| *byte == b'@')?;
    Some((&name[..at], &name[at + 1..]))
}

fn is_opaque(front: &[u8], domain: &[u8]) -> bool {
    let is_taken = domain == &OPENSSH[1..] && KNOWN.iter().any(|known| known.0 == front);
    is_side(front) && is_side(domain) && front.len() + 1 + domain.len() <= 64 && !is_taken && !front.ends_with(MARK)
}

/// Of the names of a server's list of signatures the one is kept.
pub fn is_signature_name(name: &[u8]) -> bool {
    known_named(name).is_some()
        || [&b"rsa-sha2-256"[..], b"rsa-sha2-512"].contains(&name)
        || parted(name).is_some_and(|(front, domain)| is_opaque(front, domain))
}

fn mpint(f: &mut Fields) -> Option<()> {
    let is_fine = match f.string()? {
        [] => false,
        [byte] => (1..128).contains(byte),
        [0, next, ..] => *next > 127,
        [byte, ..] => *byte < 128,
    };
    is_fine.then_some(())
}

fn mpints(f: &mut Fields, count: usize) -> Option<()> {
    (0..count).try_for_each(|_| mpint(f))
}

fn point(f: &mut Fields, curve: &[u8], length: usize) -> Option<()> {
    let is_curve = f.string()? == curve;
    let point = f.string()?;
    (is_curve && point.len() == length && point[0] == 4).then_some(())
}

fn sized(f: &mut Fields, length: usize) -> Option<()> {
    (f.string()?.len() == length).then_some(())
}

/// The fields of a plain key behind its name; a name that isn't known has one string.
fn plain_fields(f: &mut Fields, known: Option<Known>) -> Option<()> {
    match known {
        Some(Known::Dsa) => mpints(f, 4),
        Some(Known::Ecdsa(curve, length)) => point(f, curve, length),
        Some(Known::Ed25519) => sized(f, 32),
        Some(Known::Rsa) => mpints(f, 2),
        Some(Known::SkEcdsa) => point(f, b"nistp256", 65).and_then(|()| f.text().map(drop)),
        Some(Known::SkEd25519) => sized(f, 32).and_then(|()| f.text().map(drop)),
        None => f.string().map(drop),
    }
}

fn all(bytes: &[u8], mut read: impl FnMut(&mut Fields) -> Option<()>) -> Option<()> {
    let mut f = Fields(bytes);
    while !f.0.is_empty() {
        read(&mut f)?;
    }
    Some(())
}

fn option(f: &mut Fields) -> Option<()> {
    f.text()?;
    f.string().map(drop)
}

/// What a certificate says of its key, who signed it, and the signature.
fn statement(f: &mut Fields, nested: usize) -> Option<()> {
    f.long()?;
    if !(1..=2).contains(&f.number()?) {
        return None;
    }
    f.text()?;
    all(f.string()?, |f| f.text().map(drop))?;
    f.long()?;
    f.long()?;
    all(f.string()?, option)?;
    all(f.string()?, option)?;
    f.string()?;
    let mut signer = Fields(f.string()?);
    key(&mut signer, nested - 1)?;
    signer.end()?;
    Signature::whole(f.string()?).map(drop)
}

fn certificate(f: &mut Fields, known: Option<Known>, nested: usize) -> Option<()> {
    f.string()?;
    plain_fields(f, known)?;
    statement(f, nested)
}

fn key<'a>(f: &mut Fields<'a>, nested: usize) -> Option<Key<'a>> {
    if nested == 0 {
        return None;
    }
    let name = f.text()?;
    let (known, is_certificate) = if let Some(known) = known_named(name) {
        (Some(known), false)
    } else if let Some(known) = known_certified(name) {
        (Some(known), true)
    } else {
        let (front, domain) = parted(name)?;
        let own = front.strip_suffix(MARK);
        if !is_opaque(own.unwrap_or(front), domain) || name.len() > 64 {
            return None;
        }
        (None, own.is_some())
    };
    if is_certificate {
        certificate(f, known, nested)?
    } else {
        plain_fields(f, known)?
    }
    Some(Key { name, is_certificate, is_rsa: known == Some(Known::Rsa) })
}

fn has_few_markers(blob: &[u8]) -> bool {
    // a short blob holds no more of them
    blob.len() < 90 || blob.windows(10).filter(|part| part[0] == b'-' && *part == b"-cert-v01@").count() <= MOST_MARKERS
}

impl<'a> Key<'a> {
    /// The key of which this is the whole blob.
    pub fn whole(blob: &'a [u8]) -> Option<Key<'a>> {
        let (key, length) = Key::front(blob)?;
        (length == blob.len()).then_some(key)
    }

    /// The key at the front of a blob, and how many bytes it has.
    pub fn front(blob: &'a [u8]) -> Option<(Key<'a>, usize)> {
        if !has_few_markers(blob) {
            return None;
        }
        let mut f = Fields(blob);
        let key = key(&mut f, MOST_NESTED)?;
        Some((key, blob.len() - f.0.len()))
    }

    /// The algorithm that a request names (RFC 8332, section 3): of RSA by the hash, of every other the blob's.
    pub fn algorithm(&self, hash: u8) -> &'a [u8] {
        match (self.is_rsa, self.is_certificate, hash) {
            (true, false, 1) => b"rsa-sha2-256",
            (true, false, 2) => b"rsa-sha2-512",
            (true, true, 1) => b"rsa-sha2-256-cert-v01@openssh.com",
            (true, true, 2) => b"rsa-sha2-512-cert-v01@openssh.com",
            _ => self.name,
        }
    }
}

/// A signature; `is_plain` where it has no counter of a security key.
pub struct Signature<'a> {
    name: &'a [u8],
    body: &'a [u8],
    is_plain: bool,
}

impl<'a> Signature<'a> {
    pub fn whole(bytes: &'a [u8]) -> Option<Signature<'a>> {
        let mut f = Fields(bytes);
        let (name, body) = (f.text()?, f.string()?);
        let is_plain = !name.starts_with(b"sk-");
        if !is_plain {
            f.bytes(5)?;
        }
        f.end()?;
        Some(Signature { name, body, is_plain })
    }

    /// Whether it is the toy pair's, of the plain key with this blob, over the bytes.
    pub fn is_toy(&self, blob: &[u8], parts: &[&[u8]]) -> bool {
        let Some((key, _)) = Key::front(blob) else { return false };
        let is_own = (0..=2).any(|hash| key.algorithm(hash) == self.name);
        self.is_plain && is_own && self.body == hmac(blob, parts)
    }
}

/// Appends the toy pair's signature: the HMAC of the bytes under the public key's blob.
pub fn put_toy_signature(out: &mut Vec<u8>, blob: &[u8], name: &[u8], parts: &[&[u8]]) {
    out.string(name);
    out.string(&hmac(blob, parts));
}

impl<'a> Pair<'a> {
    pub fn whole(bytes: &'a [u8]) -> Option<Pair<'a>> {
        let mut f = Fields(bytes);
        let pair = Pair::front(&mut f)?;
        f.end()?;
        Some(pair)
    }

    /// The pair at the front (docs/DEFINITIONS.md: the numbers in the agent's order).
    pub fn front(f: &mut Fields<'a>) -> Option<Pair<'a>> {
        let name = f.string()?;
        let known = known_named(name)?;
        let mut blob = Vec::new();
        blob.string(name);
        match known {
            Known::Dsa => {
                blob.extend_from_slice(f.taken(|f| mpints(f, 4))?);
                mpint(f)?;
            }
            Known::Ecdsa(curve, length) => {
                blob.extend_from_slice(f.taken(|f| point(f, curve, length))?);
                mpint(f)?;
            }
            Known::Ed25519 => {
                let (public, private) = (f.string()?, f.string()?);
                if public.len() != 32 || private.len() != 64 || private[32..] != *public {
                    return None;
                }
                blob.string(public);
            }
            Known::Rsa => {
                let n = f.taken(mpint)?;
                blob.extend_from_slice(f.taken(mpint)?);
                blob.extend_from_slice(n);
                mpints(f, 4)?;
            }
            Known::SkEcdsa | Known::SkEd25519 => return None,
        }
        Some(Pair { name, blob, is_rsa: known == Known::Rsa })
    }

    pub fn algorithm(&self, hash: u8) -> &'a [u8] {
        Key { name: self.name, is_certificate: false, is_rsa: self.is_rsa }.algorithm(hash)
    }
}
