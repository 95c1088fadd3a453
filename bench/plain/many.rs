//! Many cases in one process (crates/sshc_bench/README.md has their bytes): scripts, known hosts texts, a proxy between
//! two byte strings, and events of forwards.

use crate::hosts_words;
use crate::proxy;
use crate::wire::{Fields, Put};
use std::io::{Read, Write};

#[allow(dead_code)]
#[path = "../forward.rs"]
mod forward;

/// The name of the one file.
const FILE: &str = "file";

pub struct Outcome {
    pub status: u8,
    pub written: Vec<u8>,
    /// The bytes of the files afterwards, or those that the agent was sent.
    pub left: Vec<u8>,
}

struct Case<'a> {
    kind: u8,
    words: &'a str,
    file: &'a [u8],
    input: &'a [u8],
    answers: &'a [u8],
}

impl<'a> Case<'a> {
    fn whole(bytes: &'a [u8]) -> Option<Self> {
        let mut f = Fields(bytes);
        let kind = f.byte()?;
        let words = std::str::from_utf8(f.string()?).ok()?;
        let (file, input, answers) = (f.string()?, f.string()?, f.string()?);
        f.end()?;
        Some(Case { kind, words, file, input, answers })
    }

    fn run(&self) -> Option<Outcome> {
        match self.kind {
            0 => Some(self.run_words()),
            1 => Some(proxy::run(self.file, self.input, self.answers)),
            2 => Some(self.run_forwards()),
            _ => None,
        }
    }

    fn run_words(&self) -> Outcome {
        let words: Vec<String> = self.words.split('\n').map(String::from).collect();
        // what isn't the file can't be opened
        let found = |path: &str| match path {
            FILE => String::from_utf8(self.file.to_vec()).ok(),
            _ => Some(String::new()),
        };
        let mut outcome = Outcome { status: 0, written: Vec::new(), left: self.file.to_vec() };
        outcome.status = match hosts_words::asked(&words) {
            Some(asked) => hosts_words::run(&asked, found, &mut outcome.written, &mut outcome.left),
            None => crate::work(&words, found, self.input, &mut outcome.written),
        };
        outcome
    }

    fn run_forwards(&self) -> Outcome {
        let mut written = Vec::new();
        let status = forward::run_over(&mut &self.input[..], &mut written);
        Outcome { status, written, left: Vec::new() }
    }
}

/// The next case's bytes; none at the end.
fn next(input: &mut impl Read, bytes: &mut Vec<u8>) -> Option<()> {
    let mut length = [0; 4];
    input.read_exact(&mut length).ok()?;
    bytes.resize(u32::from_be_bytes(length) as usize, 0);
    input.read_exact(bytes).ok()
}

/// Runs the cases, and writes each outcome before the next case is read.
pub fn run(mut input: impl Read, mut out: impl Write) -> u8 {
    let (mut bytes, mut told) = (Vec::new(), Vec::new());
    while next(&mut input, &mut bytes).is_some() {
        let Some(outcome) = Case::whole(&bytes).and_then(|case| case.run()) else { return 2 };
        told.clear();
        told.push(outcome.status);
        told.string(&outcome.written);
        told.string(&outcome.left);
        if out.write_all(&told).is_err() {
            return 22;
        }
    }
    0
}
