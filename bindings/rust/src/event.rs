//! Events of a session (docs/FORMATS.md): the ones that most drivers write, and any other by its kind and fields.

/// What happened, or what the user asks.
#[derive(Clone, Copy, Debug)]
pub enum Event<'a> {
    /// The peer's KEXINIT came.
    PeerKexinit,
    /// A key exchange is done, and the new keys are used in both directions. The caller has verified the signature.
    ExchangeDone(Exchange<'a>),
    /// A packet of the peer's, other than those numbered 20 to 49.
    Payload(&'a [u8]),
    TransportFailed,
    RekeyLimit,
    /// The user asks to authenticate by a password; the ticket names the answer.
    Password { ticket: u32, user: &'a str, password: &'a str },
    /// By a key that an outside signer has; the hash is 0 (none), 1 (SHA-256) or 2 (SHA-512).
    OutsideKey { ticket: u32, user: &'a str, key: &'a [u8], hash: u8 },
    /// The bytes that were handed out to be signed, and the signature's blob.
    Signed { bytes: &'a [u8], signature: &'a [u8] },
    SignFailed,
    OpenSession { ticket: u32 },
    /// A command on a channel.
    Exec { channel: u32, command: &'a [u8] },
    Data { channel: u32, bytes: &'a [u8] },
    Eof { channel: u32 },
    Close { channel: u32 },
    Disconnect { reason: u32, description: &'a str },
    /// Any event.
    Other { kind: u8, fields: &'a [u8] },
}

/// What a key exchange came to.
#[derive(Clone, Copy, Debug)]
pub struct Exchange<'a> {
    /// The blob of the plain host key.
    pub host_key: &'a [u8],
    /// The exchange hash.
    pub hash: &'a [u8],
    pub kex: &'a str,
    pub is_strict: bool,
}

fn string(to: &mut Vec<u8>, bytes: &[u8]) {
    number(to, bytes.len() as u32);
    to.extend_from_slice(bytes);
}

fn number(to: &mut Vec<u8>, number: u32) {
    to.extend_from_slice(&number.to_be_bytes());
}

fn ask(to: &mut Vec<u8>, channel: u32, what: u8) {
    number(to, channel);
    to.push(what);
}

impl Exchange<'_> {
    fn put(&self, to: &mut Vec<u8>) {
        to.push(1);
        string(to, self.host_key);
        string(to, self.hash);
        string(to, b"");
        to.push(0);
        string(to, b"");
        string(to, self.kex.as_bytes());
        for _ in 0..4 {
            string(to, b"");
        }
        to.push(self.is_strict.into());
    }
}

impl Event<'_> {
    fn kind(&self) -> u8 {
        match self {
            Event::PeerKexinit => 0x01,
            Event::ExchangeDone(_) => 0x02,
            Event::Payload(_) => 0x03,
            Event::TransportFailed => 0x04,
            Event::RekeyLimit => 0x05,
            Event::Password { .. } | Event::OutsideKey { .. } => 0x10,
            Event::Signed { .. } => 0x15,
            Event::SignFailed => 0x16,
            Event::OpenSession { .. } => 0x17,
            Event::Disconnect { .. } => 0x20,
            Event::Exec { .. } | Event::Data { .. } | Event::Eof { .. } | Event::Close { .. } => 0x21,
            Event::Other { kind, .. } => *kind,
        }
    }

    fn put_fields(&self, to: &mut Vec<u8>) {
        match *self {
            Event::PeerKexinit | Event::TransportFailed | Event::RekeyLimit | Event::SignFailed => {}
            Event::ExchangeDone(exchange) => exchange.put(to),
            Event::Payload(packet) => to.extend_from_slice(packet),
            Event::Password { ticket, user, password } => {
                number(to, ticket);
                string(to, user.as_bytes());
                to.push(1);
                string(to, password.as_bytes());
            }
            Event::OutsideKey { ticket, user, key, hash } => {
                number(to, ticket);
                string(to, user.as_bytes());
                to.push(4);
                string(to, key);
                to.push(hash);
            }
            Event::Signed { bytes, signature } => {
                number(to, (bytes.len() + 4 + signature.len()) as u32);
                to.extend_from_slice(bytes);
                string(to, signature);
            }
            Event::OpenSession { ticket } => number(to, ticket),
            Event::Exec { channel, command } => {
                ask(to, channel, 9);
                to.push(1);
                string(to, command);
            }
            Event::Data { channel, bytes } => {
                ask(to, channel, 0);
                string(to, bytes);
            }
            Event::Eof { channel } => ask(to, channel, 2),
            Event::Close { channel } => ask(to, channel, 3),
            Event::Disconnect { reason, description } => {
                number(to, reason);
                string(to, description.as_bytes());
                string(to, b"");
            }
            Event::Other { fields, .. } => to.extend_from_slice(fields),
        }
    }

    /// Puts the event as a script has it: a length, the moment, the kind, the fields.
    pub fn put(&self, moment: u64, to: &mut Vec<u8>) {
        let begun = to.len();
        number(to, 0);
        to.extend_from_slice(&moment.to_be_bytes());
        to.push(self.kind());
        self.put_fields(to);
        let length = (to.len() - begun - 4) as u32;
        to[begun..begun + 4].copy_from_slice(&length.to_be_bytes());
    }
}
