//! What `sshc hosts` does with one file (docs/FORMATS.md, "The lines of `sshc hosts`").

use crate::hosts::{base64, base64_text, Hosts};
use crate::key::Key;
use crate::stop::{Stop, UNKNOWN_KEY};
use crate::{host_text, port};

pub enum Wanted<'a> {
    Check(&'a str),
    Keys,
    Learn(&'a str),
}

pub struct Asked<'a> {
    wanted: Wanted<'a>,
    host: String,
    path: &'a str,
}

/// What the words ask of known hosts, if anything.
pub fn asked(words: &[String]) -> Option<Asked<'_>> {
    let words: Vec<&str> = words.iter().map(String::as_str).collect();
    let [hosts, verb, host, port_word, path, rest @ ..] = words.as_slice() else { return None };
    let wanted = match (*verb, rest) {
        ("check", [key]) => Wanted::Check(key),
        ("keys", []) => Wanted::Keys,
        ("learn", [key]) => Wanted::Learn(key),
        _ => return None,
    };
    let port = port(port_word).filter(|_| *hosts == "hosts")?;
    Some(Asked { wanted, host: host_text(host, port), path })
}

/// The blob of the key at the front of what the word encodes.
fn blob_of(word: &str) -> Option<Vec<u8>> {
    let mut bytes = base64(word.as_bytes())?;
    let (_, length) = Key::front(&bytes)?;
    bytes.truncate(length);
    Some(bytes)
}

/// The name of a blob that is a key, and its base64.
fn key_text(blob: &[u8]) -> String {
    let name = Key::front(blob).map_or(&b""[..], |(key, _)| key.name);
    format!("{} {}", String::from_utf8_lossy(name), base64_text(blob))
}

fn refused(stop: Stop, out: &mut Vec<u8>) -> u8 {
    out.extend_from_slice(format!("{stop}\n").as_bytes());
    stop.status()
}

fn check(hosts: &Hosts, blob: &[u8], out: &mut Vec<u8>) -> u8 {
    let verdict = match Key::front(blob) {
        Some((key, _)) if !key.is_certificate => hosts.judge(key, blob),
        _ => Err(UNKNOWN_KEY),
    };
    match verdict {
        Ok(()) => {
            out.extend_from_slice(b"known\n");
            0
        }
        Err(UNKNOWN_KEY) => {
            out.extend_from_slice(b"unknown\n");
            1
        }
        Err(stop) => refused(stop, out),
    }
}

fn keys(hosts: &Hosts, out: &mut Vec<u8>) -> u8 {
    match hosts.keys() {
        Ok(keys) => {
            for (line, blob) in keys {
                out.extend_from_slice(format!("{line} {}\n", key_text(&blob)).as_bytes());
            }
            0
        }
        Err(stop) => refused(stop, out),
    }
}

fn learn(hosts: &Hosts, blob: &[u8], files: &mut Vec<u8>, out: &mut Vec<u8>) -> u8 {
    if !hosts.known.ends_with('\n') {
        files.push(b'\n');
    }
    files.extend_from_slice(format!("{} {}\n", hosts.host, key_text(blob)).as_bytes());
    out.extend_from_slice(b"learned\n");
    0
}

/// The key is read before the file. Learning adds to the bytes of all files: at the end of the one file, or a new one behind it.
pub fn run(asked: &Asked, found: impl Fn(&str) -> Option<String>, out: &mut Vec<u8>, files: &mut Vec<u8>) -> u8 {
    let blob = match asked.wanted {
        Wanted::Check(word) | Wanted::Learn(word) => match blob_of(word) {
            Some(blob) => blob,
            None => {
                out.extend_from_slice(b"error key\n");
                return 5;
            }
        },
        Wanted::Keys => Vec::new(),
    };
    let Some(known) = found(asked.path) else {
        out.extend_from_slice(b"error known-file\n");
        return 3;
    };
    let hosts = Hosts { known, host: asked.host.clone() };
    match asked.wanted {
        Wanted::Check(_) => check(&hosts, &blob, out),
        Wanted::Keys => keys(&hosts, out),
        Wanted::Learn(_) => learn(&hosts, &blob, files, out),
    }
}
