//! A plain agent for measurements: a thread for each connection, one lock, no journal. It holds Ed25519 keys and answers
//! ADD_IDENTITY, REQUEST_IDENTITIES and REMOVE_ALL_IDENTITIES; anything else is answered by FAILURE.
//! rustc --edition 2021 -O -o agent plain/lasting_agent.rs; agent SOCKET
use std::io::{Read, Write};
use std::os::unix::net::{UnixListener, UnixStream};
use std::sync::{Arc, Mutex};

const MOST: usize = 262_144;

/// The string at the front, and what follows it.
fn string(bytes: &[u8]) -> Option<(&[u8], &[u8])> {
    let length = u32::from_be_bytes(bytes.get(..4)?.try_into().ok()?) as usize;
    let rest = &bytes[4..];
    if rest.len() < length {
        return None;
    }
    Some(rest.split_at(length))
}

fn put(to: &mut Vec<u8>, bytes: &[u8]) {
    to.extend_from_slice(&(bytes.len() as u32).to_be_bytes());
    to.extend_from_slice(bytes);
}

/// The blob of the key in a request that adds it.
fn added(body: &[u8]) -> Option<Vec<u8>> {
    let (name, rest) = string(body)?;
    let (public, _) = string(rest)?;
    let mut blob = Vec::new();
    put(&mut blob, name);
    put(&mut blob, public);
    Some(blob)
}

fn answer(keys: &mut Vec<Vec<u8>>, frame: &[u8]) -> Vec<u8> {
    let mut out = vec![0; 4];
    match frame.first() {
        Some(11) => {
            out.push(12);
            out.extend_from_slice(&(keys.len() as u32).to_be_bytes());
            for blob in keys.iter() {
                put(&mut out, blob);
                put(&mut out, b"");
            }
        }
        Some(17) => match added(&frame[1..]) {
            Some(blob) => {
                if !keys.contains(&blob) {
                    keys.push(blob);
                }
                out.push(6);
            }
            None => out.push(5),
        },
        Some(19) => {
            keys.clear();
            out.push(6);
        }
        _ => out.push(5),
    }
    let length = out.len() as u32 - 4;
    out[..4].copy_from_slice(&length.to_be_bytes());
    out
}

fn serve(mut stream: UnixStream, keys: &Mutex<Vec<Vec<u8>>>) {
    let mut bytes: Vec<u8> = Vec::new();
    let mut piece = [0; 4096];
    loop {
        while let Some((frame, rest)) = string(&bytes) {
            let out = answer(&mut keys.lock().unwrap(), frame);
            let left = rest.to_vec();
            if stream.write_all(&out).is_err() {
                return;
            }
            bytes = left;
        }
        if bytes.len() > MOST + 4 {
            return;
        }
        match stream.read(&mut piece) {
            Ok(count) if count > 0 => bytes.extend_from_slice(&piece[..count]),
            _ => return,
        }
    }
}

fn main() {
    let path = std::env::args().nth(1).expect("SOCKET");
    let listener = UnixListener::bind(path).expect("a socket");
    let keys = Arc::new(Mutex::new(Vec::new()));
    for stream in listener.incoming().flatten() {
        let keys = keys.clone();
        std::thread::Builder::new()
            .stack_size(256 << 10)
            .spawn(move || serve(stream, &keys))
            .expect("a thread");
    }
}
