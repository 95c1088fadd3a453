//! Events of forwards run by a plain loop, without proofs: reads events from standard input and writes the lines of what
//! is to be done, as `sshc_forward_main` does. With the argument `buffered` lines are gathered before they are written.

use std::collections::{HashMap, VecDeque};
use std::io::{self, Read, Write};

#[derive(Clone, Copy, PartialEq)]
enum Reading {
    Going,
    Ended,
    Failed,
}

struct Pair {
    channel: Option<u32>,
    held: VecDeque<Vec<u8>>,
    reading: Reading,
    channel_ended: bool,
}

#[derive(Default)]
struct Core {
    pairs: HashMap<u32, Pair>,
    joined: HashMap<u32, u32>,
}

/// Why a run stops.
enum Stop {
    Bad,
    Taken,
}

struct Fields<'a>(&'a [u8]);

impl<'a> Fields<'a> {
    fn bytes(&mut self, count: usize) -> Result<&'a [u8], Stop> {
        if self.0.len() < count {
            return Err(Stop::Bad);
        }
        let (first, rest) = self.0.split_at(count);
        self.0 = rest;
        Ok(first)
    }

    fn number(&mut self) -> Result<u32, Stop> {
        let bytes = self.bytes(4)?;
        Ok(u32::from_be_bytes([bytes[0], bytes[1], bytes[2], bytes[3]]))
    }

    fn string(&mut self) -> Result<&'a [u8], Stop> {
        let count = self.number()? as usize;
        self.bytes(count)
    }

    fn text(&mut self) -> Result<&'a [u8], Stop> {
        let bytes = self.string()?;
        std::str::from_utf8(bytes).map_err(|_| Stop::Bad)?;
        Ok(bytes)
    }

    fn end(&self) -> Result<(), Stop> {
        if self.0.is_empty() { Ok(()) } else { Err(Stop::Bad) }
    }
}

/// Writes lines, one by one or gathered.
struct Lines<W: Write> {
    out: W,
    line: Vec<u8>,
    most: usize,
}

impl<W: Write> Lines<W> {
    fn digits(&mut self, bytes: &[u8]) {
        const DIGITS: &[u8; 16] = b"0123456789abcdef";
        let from = self.line.len();
        self.line.resize(from + 2 * bytes.len(), 0);
        for (pair, byte) in self.line[from..].chunks_exact_mut(2).zip(bytes) {
            pair[0] = DIGITS[(byte >> 4) as usize];
            pair[1] = DIGITS[(byte & 15) as usize];
        }
    }

    fn end(&mut self) -> io::Result<()> {
        self.line.push(b'\n');
        if self.line.len() > self.most {
            self.flush()?;
        }
        Ok(())
    }

    fn flush(&mut self) -> io::Result<()> {
        self.out.write_all(&self.line)?;
        self.line.clear();
        Ok(())
    }

    fn number(&mut self, kind: u8, number: u32) -> io::Result<()> {
        self.digits(&[kind]);
        self.digits(&number.to_be_bytes());
        self.end()
    }

    fn bytes(&mut self, kind: u8, number: u32, bytes: &[u8]) -> io::Result<()> {
        self.digits(&[kind]);
        self.digits(&number.to_be_bytes());
        self.digits(&(bytes.len() as u32).to_be_bytes());
        self.digits(bytes);
        self.end()
    }
}

impl Core {
    fn accepted<W: Write>(&mut self, body: &[u8], lines: &mut Lines<W>) -> io::Result<Result<(), Stop>> {
        let mut f = Fields(body);
        let read = (|| {
            let stream = f.number()?;
            f.text()?;
            f.number()?;
            f.text()?;
            f.number()?;
            f.end()?;
            Ok(stream)
        })();
        let stream = match read {
            Ok(stream) => stream,
            Err(stop) => return Ok(Err(stop)),
        };
        if self.pairs.contains_key(&stream) {
            return Ok(Err(Stop::Taken));
        }
        self.pairs.insert(stream, Pair { channel: None, held: VecDeque::new(), reading: Reading::Going, channel_ended: false });
        lines.digits(&[0x81]);
        lines.digits(body);
        lines.end()?;
        Ok(Ok(()))
    }

    fn opened<W: Write>(&mut self, stream: u32, channel: u32, lines: &mut Lines<W>) -> io::Result<Result<(), Stop>> {
        if self.joined.contains_key(&channel) {
            return Ok(Err(Stop::Taken));
        }
        let Some(pair) = self.pairs.get_mut(&stream) else { return Ok(Ok(())) };
        if pair.channel.is_some() {
            return Ok(Err(Stop::Taken));
        }
        pair.channel = Some(channel);
        self.joined.insert(channel, stream);
        if pair.reading == Reading::Failed {
            lines.number(0x87, channel)?;
        } else {
            while let Some(bytes) = pair.held.pop_front() {
                lines.bytes(0x82, channel, &bytes)?;
            }
            if pair.reading == Reading::Ended {
                lines.number(0x83, channel)?;
            }
        }
        Ok(Ok(()))
    }

    fn bytes<W: Write>(&mut self, stream: u32, bytes: &[u8], lines: &mut Lines<W>) -> io::Result<()> {
        let Some(pair) = self.pairs.get_mut(&stream) else { return Ok(()) };
        if pair.reading != Reading::Going || bytes.is_empty() {
            return Ok(());
        }
        match pair.channel {
            Some(channel) => lines.bytes(0x82, channel, bytes),
            None => {
                pair.held.push_back(bytes.to_vec());
                Ok(())
            }
        }
    }

    fn stream_end<W: Write>(&mut self, stream: u32, lines: &mut Lines<W>) -> io::Result<()> {
        let Some(pair) = self.pairs.get_mut(&stream) else { return Ok(()) };
        if pair.reading != Reading::Going {
            return Ok(());
        }
        pair.reading = Reading::Ended;
        if let Some(channel) = pair.channel {
            lines.number(0x83, channel)?;
            if pair.channel_ended {
                lines.number(0x87, channel)?;
            }
        }
        Ok(())
    }

    fn stream_failed<W: Write>(&mut self, stream: u32, lines: &mut Lines<W>) -> io::Result<()> {
        let Some(pair) = self.pairs.get_mut(&stream) else { return Ok(()) };
        let is_written = pair.channel_ended || pair.reading == Reading::Failed;
        if pair.reading != Reading::Going && is_written {
            return Ok(());
        }
        pair.reading = Reading::Failed;
        pair.held.clear();
        if let Some(channel) = pair.channel {
            lines.number(0x87, channel)?;
        }
        Ok(())
    }

    fn on_channel(&mut self, channel: u32) -> Option<(u32, &mut Pair)> {
        let stream = *self.joined.get(&channel)?;
        Some((stream, self.pairs.get_mut(&stream)?))
    }

    fn data<W: Write>(&mut self, channel: u32, bytes: &[u8], lines: &mut Lines<W>) -> io::Result<()> {
        let Some((stream, pair)) = self.on_channel(channel) else { return Ok(()) };
        if pair.channel_ended || pair.reading == Reading::Failed || bytes.is_empty() {
            return Ok(());
        }
        lines.bytes(0x84, stream, bytes)
    }

    fn channel_eof<W: Write>(&mut self, channel: u32, lines: &mut Lines<W>) -> io::Result<()> {
        let Some((stream, pair)) = self.on_channel(channel) else { return Ok(()) };
        if pair.channel_ended || pair.reading == Reading::Failed {
            return Ok(());
        }
        pair.channel_ended = true;
        let ended = pair.reading != Reading::Going;
        lines.number(0x85, stream)?;
        if ended {
            lines.number(0x87, channel)?;
        }
        Ok(())
    }

    fn step<W: Write>(&mut self, body: &[u8], lines: &mut Lines<W>) -> io::Result<Result<(), Stop>> {
        let mut f = Fields(&body[1..]);
        macro_rules! part {
            ($e:expr) => {
                match $e {
                    Ok(x) => x,
                    Err(stop) => return Ok(Err(stop)),
                }
            };
        }
        match body[0] {
            1 => return self.accepted(&body[1..], lines),
            2 | 4 => {
                let first = part!(f.number());
                let second = part!(f.number());
                part!(f.end());
                if body[0] == 2 {
                    return self.opened(first, second, lines);
                }
                if self.pairs.contains_key(&second) || self.joined.contains_key(&first) {
                    return Ok(Err(Stop::Taken));
                }
                self.joined.insert(first, second);
                self.pairs.insert(second, Pair { channel: Some(first), held: VecDeque::new(), reading: Reading::Going, channel_ended: false });
            }
            5 | 7 => {
                let number = part!(f.number());
                let bytes = part!(f.string());
                part!(f.end());
                if body[0] == 5 {
                    self.bytes(number, bytes, lines)?;
                } else {
                    self.data(number, bytes, lines)?;
                }
            }
            kind @ (3 | 6 | 8 | 9 | 10) => {
                let number = part!(f.number());
                part!(f.end());
                match kind {
                    3 => {
                        if self.pairs.get(&number).is_some_and(|pair| pair.channel.is_none()) {
                            self.pairs.remove(&number);
                            lines.number(0x86, number)?;
                        }
                    }
                    6 => self.stream_end(number, lines)?,
                    8 => self.channel_eof(number, lines)?,
                    9 => {
                        if let Some(stream) = self.joined.remove(&number) {
                            self.pairs.remove(&stream);
                            lines.number(0x86, stream)?;
                        }
                    }
                    _ => self.stream_failed(number, lines)?,
                }
            }
            _ => return Ok(Err(Stop::Bad)),
        }
        Ok(Ok(()))
    }
}

/// As many bytes as the buffer has, or all before the end.
fn fill(source: &mut impl Read, buffer: &mut [u8]) -> io::Result<usize> {
    let mut filled = 0;
    while filled < buffer.len() {
        match source.read(&mut buffer[filled..])? {
            0 => break,
            count => filled += count,
        }
    }
    Ok(filled)
}

fn run(source: &mut impl Read, lines: &mut Lines<impl Write>) -> io::Result<i32> {
    let mut core = Core::default();
    let mut buffer = Vec::new();
    let mut at = 0u64;
    loop {
        let mut head = [0; 4];
        let filled = fill(source, &mut head)?;
        if filled == 0 {
            lines.line.extend_from_slice(format!("left {}\n", core.pairs.len()).as_bytes());
            return Ok(0);
        }
        let length = u32::from_be_bytes(head) as usize;
        let stop = if filled < 4 || !(5..=262_144).contains(&length) {
            Err(Stop::Bad)
        } else {
            buffer.resize(length, 0);
            if fill(source, &mut buffer)? < length {
                Err(Stop::Bad)
            } else {
                core.step(&buffer, lines)?
            }
        };
        let (name, status) = match stop {
            Ok(()) => {
                at += length as u64 + 4;
                continue;
            }
            Err(Stop::Bad) => ("bad-event", 24),
            Err(Stop::Taken) => ("taken", 44),
        };
        lines.line.extend_from_slice(format!("error {name} {at}\n").as_bytes());
        return Ok(status);
    }
}

/// Runs events over memory, and returns the status.
pub fn run_over(source: &mut impl Read, written: &mut Vec<u8>) -> u8 {
    let mut lines = Lines { out: written, line: Vec::new(), most: 65_536 };
    let status = run(source, &mut lines).and_then(|status| lines.flush().map(|()| status));
    status.map_or(22, |status| status as u8)
}

fn main() -> io::Result<()> {
    let most = if std::env::args().nth(1).as_deref() == Some("buffered") { 65_536 } else { 0 };
    let out = std::fs::OpenOptions::new().write(true).open("/dev/stdout")?;
    let mut lines = Lines { out, line: Vec::new(), most };
    let mut source = io::stdin().lock();
    let status = run(&mut source, &mut lines)?;
    lines.flush()?;
    std::process::exit(status)
}
