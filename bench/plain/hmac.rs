//! HMAC with SHA-1 (RFC 2104, RFC 3174): hashed names of known hosts, and the toy pair's signatures.

struct Sha1 {
    state: [u32; 5],
    block: [u8; 64],
    length: usize,
}

impl Sha1 {
    fn new() -> Self {
        Sha1 { state: [0x6745_2301, 0xefcd_ab89, 0x98ba_dcfe, 0x1032_5476, 0xc3d2_e1f0], block: [0; 64], length: 0 }
    }

    fn update(&mut self, mut bytes: &[u8]) {
        while !bytes.is_empty() {
            let at = self.length % 64;
            let count = bytes.len().min(64 - at);
            self.block[at..at + count].copy_from_slice(&bytes[..count]);
            self.length += count;
            bytes = &bytes[count..];
            if self.length % 64 == 0 {
                compress(&mut self.state, &self.block);
            }
        }
    }

    fn finish(mut self) -> [u8; 20] {
        let bits = 8 * self.length as u64;
        self.update(&[0x80]);
        while self.length % 64 != 56 {
            self.update(&[0]);
        }
        self.update(&bits.to_be_bytes());
        let mut digest = [0; 20];
        for (part, word) in digest.chunks_exact_mut(4).zip(self.state) {
            part.copy_from_slice(&word.to_be_bytes());
        }
        digest
    }
}

fn compress(state: &mut [u32; 5], block: &[u8; 64]) {
    let mut words = [0_u32; 80];
    for (word, part) in words.iter_mut().zip(block.chunks_exact(4)) {
        *word = u32::from_be_bytes([part[0], part[1], part[2], part[3]]);
    }
    for at in 16..80 {
        words[at] = (words[at - 3] ^ words[at - 8] ^ words[at - 14] ^ words[at - 16]).rotate_left(1);
    }
    let mut now = *state;
    rounds(&mut now, &words[..20], 0x5a82_7999, |b, c, d| (b & c) | (!b & d));
    rounds(&mut now, &words[20..40], 0x6ed9_eba1, |b, c, d| b ^ c ^ d);
    rounds(&mut now, &words[40..60], 0x8f1b_bcdc, |b, c, d| (b & c) | (b & d) | (c & d));
    rounds(&mut now, &words[60..], 0xca62_c1d6, |b, c, d| b ^ c ^ d);
    for (word, more) in state.iter_mut().zip(now) {
        *word = word.wrapping_add(more);
    }
}

fn rounds(state: &mut [u32; 5], words: &[u32], constant: u32, mix: impl Fn(u32, u32, u32) -> u32) {
    let [mut a, mut b, mut c, mut d, mut e] = *state;
    for word in words {
        let next =
            a.rotate_left(5).wrapping_add(mix(b, c, d)).wrapping_add(e).wrapping_add(constant).wrapping_add(*word);
        (e, d, c, b, a) = (d, c, b.rotate_left(30), a, next);
    }
    *state = [a, b, c, d, e];
}

pub fn hmac(key: &[u8], parts: &[&[u8]]) -> [u8; 20] {
    let mut padded = [0; 64];
    if key.len() > 64 {
        let mut sha = Sha1::new();
        sha.update(key);
        padded[..20].copy_from_slice(&sha.finish());
    } else {
        padded[..key.len()].copy_from_slice(key);
    }
    let mut inner = Sha1::new();
    inner.update(&padded.map(|byte| byte ^ 0x36));
    for part in parts {
        inner.update(part);
    }
    let mut outer = Sha1::new();
    outer.update(&padded.map(|byte| byte ^ 0x5c));
    outer.update(&inner.finish());
    outer.finish()
}
