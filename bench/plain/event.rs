//! The events of a script (docs/FORMATS.md, "Kinds of events"). Fields are lent from the event's bytes, and stay as they
//! stand there where a packet has them so too.

use crate::key::{Key, Pair};
use crate::wire::Fields;

pub enum Event<'a> {
    PeerKexinit,
    ExchangeDone(Exchange<'a>),
    Payload(&'a [u8]),
    TransportFailed,
    RekeyLimit,
    KeepaliveTimer,
    InactivityTimer,
    Authenticate {
        ticket: u32,
        user: &'a [u8],
        method: Method<'a>,
    },
    /// The number of texts, and these.
    InfoResponse(&'a [u8]),
    GssapiToken(&'a [u8]),
    /// What closes GSSAPI: a MIC, or none.
    GssapiLast {
        token: &'a [u8],
        mic: Option<&'a [u8]>,
    },
    Signed(&'a [u8]),
    SignFailed,
    Open {
        ticket: u32,
        kind: &'static str,
        fields: &'a [u8],
    },
    Global(Global<'a>),
    HostKeysProve {
        ticket: u32,
        blobs: &'a [u8],
    },
    Close(u32),
    Disconnect(&'a [u8]),
    Data {
        channel: u32,
        code: Option<u32>,
        body: &'a [u8],
    },
    Eof(u32),
    Request {
        channel: u32,
        request: Request<'a>,
    },
    OpenReply {
        channel: u32,
        refusal: Option<u32>,
    },
    Rekey,
    AwaitExtension {
        ticket: u32,
        name: &'a [u8],
    },
    SignatureNames {
        ticket: u32,
    },
    Gone,
    Agent {
        connection: u32,
        event: AgentEvent<'a>,
    },
}

pub struct Exchange<'a> {
    pub key: Option<(Key<'a>, &'a [u8])>,
    pub hash: &'a [u8],
    pub kex: &'a [u8],
}

pub enum Method<'a> {
    Nothing,
    Password(&'a [u8]),
    Key(KeyMethod<'a>),
    Prompts(&'a [u8]),
    /// The number of mechanisms, and these.
    Gssapi(&'a [u8]),
}

/// What a request by a key shows the server, and who signs it.
pub struct KeyMethod<'a> {
    pub algorithm: &'a [u8],
    /// The certificate, where it isn't the pair's own key.
    pub blob: Option<&'a [u8]>,
    pub by: By<'a>,
}

pub enum By<'a> {
    /// With the name of its signatures.
    Pair(Pair<'a>, &'a [u8]),
    Outside {
        is_certificate: bool,
        hash: u8,
    },
}

/// A global request of the user's, with what its answer is for.
pub struct Global<'a> {
    pub ticket: u32,
    pub name: &'a [u8],
    pub fields: &'a [u8],
    pub asked: Asked,
    pub want_reply: bool,
}

#[derive(Clone, PartialEq)]
pub enum Asked {
    Forward,
    Simple,
    Ping,
    /// A keepalive, or that no more sessions come.
    Nothing,
    /// The strings of the keys' blobs.
    HostKeys(Vec<u8>),
    Own,
}

/// A request on a channel: its fields, in two parts where the first is a flag or the last are modes.
pub struct Request<'a> {
    pub name: &'static str,
    pub want_reply: bool,
    pub single: Option<bool>,
    pub fields: &'a [u8],
    pub modes: Option<&'a [u8]>,
}

pub enum AgentEvent<'a> {
    Bytes(&'a [u8]),
    RequestAnswer,
    KeyAnswer(bool),
    Close,
}

impl Event<'_> {
    /// Whether the transport or a timer says it, and not the user.
    pub fn is_transport(&self) -> bool {
        use Event::*;
        matches!(
            self,
            PeerKexinit
                | ExchangeDone(_)
                | Payload(_)
                | TransportFailed
                | RekeyLimit
                | KeepaliveTimer
                | InactivityTimer
        )
    }

    /// 0 where it asks for no answer.
    pub fn ticket(&self) -> u32 {
        match self {
            Event::Authenticate { ticket, .. }
            | Event::Open { ticket, .. }
            | Event::Global(Global { ticket, .. })
            | Event::HostKeysProve { ticket, .. }
            | Event::AwaitExtension { ticket, .. }
            | Event::SignatureNames { ticket } => *ticket,
            _ => 0,
        }
    }
}

/// The event of this kind with these fields, to their exact end.
pub fn read(kind: u8, fields: &[u8]) -> Option<Event<'_>> {
    let mut f = Fields(fields);
    let event = match kind {
        0x01 => Event::PeerKexinit,
        0x02 => Event::ExchangeDone(exchange(&mut f)?),
        0x03 => Event::Payload(f.rest()),
        0x04 => Event::TransportFailed,
        0x05 => Event::RekeyLimit,
        0x08 => Event::KeepaliveTimer,
        0x09 => Event::InactivityTimer,
        0x10 => Event::Authenticate { ticket: f.number()?, user: f.text()?, method: method(&mut f)? },
        0x11 => Event::InfoResponse(f.taken(|f| counted(f, |f| f.text().map(drop)))?),
        0x12 => Event::GssapiToken(f.string()?),
        0x13 => Event::GssapiLast { token: f.string()?, mic: Some(f.string()?) },
        0x14 => Event::GssapiLast { token: f.string()?, mic: None },
        0x15 => Event::Signed(f.string()?),
        0x16 => Event::SignFailed,
        0x17 => Event::Open { ticket: f.number()?, kind: "session", fields: &[] },
        0x18 => Event::Open { ticket: f.number()?, kind: "x11", fields: f.taken(address)? },
        0x19 => Event::Open {
            ticket: f.number()?,
            kind: "direct-tcpip",
            fields: f.taken(|f| address(f).and_then(|()| address(f)))?,
        },
        0x1a => Event::Open {
            ticket: f.number()?,
            kind: "direct-streamlocal@openssh.com",
            fields: f.taken(|f| f.text().map(drop))?,
        },
        0x1b..=0x1e | 0x27..=0x29 | 0x2b => Event::Global(global(kind, &mut f)?),
        0x1f => Event::Close(f.number()?),
        0x20 => Event::Disconnect(f.taken(disconnect)?),
        0x21 => channel(&mut f)?,
        0x22 => open_reply(&mut f)?,
        0x24 => Event::Rekey,
        0x25 => Event::AwaitExtension { ticket: f.number()?, name: f.text()? },
        0x26 => Event::SignatureNames { ticket: f.number()? },
        0x2a => {
            let ticket = f.number()?;
            let count = f.count(4)?;
            Event::HostKeysProve { ticket, blobs: f.taken(|f| (0..count).try_for_each(|_| plain_key(f).map(drop)))? }
        }
        0x2f => Event::Gone,
        0x40 => agent(&mut f, |f| Some(AgentEvent::Bytes(f.rest())))?,
        0x41 => agent(&mut f, |f| f.flag().map(|_| AgentEvent::RequestAnswer))?,
        0x42 => agent(&mut f, |f| f.flag().map(AgentEvent::KeyAnswer))?,
        0x43 => agent(&mut f, |_| Some(AgentEvent::Close))?,
        _ => return None,
    };
    f.end()?;
    match event {
        // these packets are the transport's
        Event::Payload([20..=49, ..]) => None,
        event => Some(event),
    }
}

/// A number, and so many parts of at least four bytes each.
fn counted(f: &mut Fields, part: impl Fn(&mut Fields) -> Option<()>) -> Option<()> {
    let count = f.count(4)?;
    (0..count).try_for_each(|_| part(f))
}

/// A text and a port.
fn address(f: &mut Fields) -> Option<()> {
    f.text()?;
    f.number().map(drop)
}

fn disconnect(f: &mut Fields) -> Option<()> {
    let reason = f.number()?;
    f.text()?;
    f.text()?;
    (1..=15).contains(&reason).then_some(())
}

fn agent<'a>(f: &mut Fields<'a>, event: impl Fn(&mut Fields<'a>) -> Option<AgentEvent<'a>>) -> Option<Event<'a>> {
    Some(Event::Agent { connection: f.number()?, event: event(f)? })
}

fn exchange<'a>(f: &mut Fields<'a>) -> Option<Exchange<'a>> {
    let (sort, blob) = (f.byte()?, f.string()?);
    let key = match sort {
        0 if blob.is_empty() => None,
        1 | 2 => Some((Key::whole(blob).filter(|key| key.is_certificate == (sort == 2))?, blob)),
        _ => return None,
    };
    let hash = f.string()?;
    f.string()?;
    let (has_secret, secret) = (f.flag()?, f.string()?);
    let kex = f.text()?;
    for _ in 0..4 {
        f.text()?;
    }
    f.flag()?;
    (has_secret || secret.is_empty()).then_some(Exchange { key, hash, kex })
}

fn hash(f: &mut Fields) -> Option<u8> {
    f.byte().filter(|hash| *hash <= 2)
}

fn plain_key<'a>(f: &mut Fields<'a>) -> Option<(Key<'a>, &'a [u8])> {
    let blob = f.string()?;
    Some((Key::whole(blob).filter(|key| !key.is_certificate)?, blob))
}

fn certificate<'a>(f: &mut Fields<'a>) -> Option<(Key<'a>, &'a [u8])> {
    let blob = f.string()?;
    Some((Key::whole(blob).filter(|key| key.is_certificate)?, blob))
}

fn method<'a>(f: &mut Fields<'a>) -> Option<Method<'a>> {
    Some(match f.byte()? {
        0 => Method::Nothing,
        1 => Method::Password(f.text()?),
        2 => {
            let pair = Pair::whole(f.string()?)?;
            let algorithm = pair.algorithm(hash(f)?);
            Method::Key(KeyMethod { algorithm, blob: None, by: By::Pair(pair, algorithm) })
        }
        3 => {
            let pair = Pair::whole(f.string()?)?;
            let (key, blob) = certificate(f)?;
            let name = pair.algorithm(0);
            Method::Key(KeyMethod { algorithm: key.algorithm(0), blob: Some(blob), by: By::Pair(pair, name) })
        }
        sort @ (4 | 5) => {
            let (key, blob) = if sort == 4 { plain_key(f)? } else { certificate(f)? };
            let hash = hash(f)?;
            let by = By::Outside { is_certificate: sort == 5, hash };
            Method::Key(KeyMethod { algorithm: key.algorithm(hash), blob: Some(blob), by })
        }
        6 => Method::Prompts(f.text()?),
        7 => Method::Gssapi(f.taken(|f| counted(f, |f| f.string().map(drop)))?),
        _ => return None,
    })
}

fn global<'a>(kind: u8, f: &mut Fields<'a>) -> Option<Global<'a>> {
    if kind == 0x27 || kind == 0x29 {
        let name: &[u8] = if kind == 0x27 { b"keepalive@openssh.com" } else { b"no-more-sessions@openssh.com" };
        return Some(Global { ticket: 0, name, fields: &[], asked: Asked::Nothing, want_reply: f.flag()? });
    }
    let ticket = f.number()?;
    let (name, fields, asked): (&[u8], &[u8], Asked) = match kind {
        0x1b => (b"tcpip-forward", f.taken(address)?, Asked::Forward),
        0x1c => (b"cancel-tcpip-forward", f.taken(address)?, Asked::Simple),
        0x1d => (b"streamlocal-forward@openssh.com", f.taken(|f| f.text().map(drop))?, Asked::Simple),
        0x1e => (b"cancel-streamlocal-forward@openssh.com", f.taken(|f| f.text().map(drop))?, Asked::Simple),
        0x28 => (b"keepalive@openssh.com", &[], Asked::Ping),
        _ => (f.text()?, f.string()?, Asked::Own),
    };
    // a ping always waits for its answer
    Some(Global { ticket, name, fields, want_reply: ticket != 0 || kind == 0x28, asked })
}

fn open_reply<'a>(f: &mut Fields<'a>) -> Option<Event<'a>> {
    let (channel, is_accepted, reason) = (f.number()?, f.flag()?, f.number()?);
    (1..=4).contains(&reason).then_some(Event::OpenReply { channel, refusal: (!is_accepted).then_some(reason) })
}

fn modes(f: &mut Fields) -> Option<()> {
    let count = f.count(5)?;
    f.bytes(5 * count).map(drop)
}

fn size(f: &mut Fields) -> Option<()> {
    f.bytes(16).map(drop)
}

fn channel<'a>(f: &mut Fields<'a>) -> Option<Event<'a>> {
    let (channel, sort) = (f.number()?, f.byte()?);
    match sort {
        0 => return Some(Event::Data { channel, code: None, body: f.string()? }),
        1 => return Some(Event::Data { channel, code: Some(f.number()?), body: f.string()? }),
        2 => return Some(Event::Eof(channel)),
        3 => return Some(Event::Close(channel)),
        _ => {}
    }
    // a new size and a signal are never answered
    let want_reply = if sort == 5 || sort == 10 { false } else { f.flag()? };
    let (mut single, mut listed) = (None, None);
    let (name, fields) = match sort {
        4 => {
            let fields = f.taken(|f| f.text().and_then(|_| size(f)))?;
            listed = Some(&f.taken(modes)?[4..]);
            ("pty-req", fields)
        }
        5 => ("window-change", f.taken(size)?),
        6 => {
            single = Some(f.flag()?);
            ("x11-req", f.taken(|f| f.text().and_then(|_| address(f)))?)
        }
        7 => ("env", f.taken(|f| f.text().and_then(|_| f.text()).map(drop))?),
        8 => ("shell", &[][..]),
        9 => ("exec", f.taken(|f| f.string().map(drop))?),
        10 => ("signal", f.taken(|f| f.text().map(drop))?),
        11 => ("subsystem", f.taken(|f| f.text().map(drop))?),
        12 => ("auth-agent-req@openssh.com", &[][..]),
        _ => return None,
    };
    Some(Event::Request { channel, request: Request { name, want_reply, single, fields, modes: listed } })
}
