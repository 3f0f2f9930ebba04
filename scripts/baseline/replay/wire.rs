//! The forms of packets, chunks, addresses and certificates.
use crate::flow::{self, put_vlu, Ack};
use crate::flows::Data;

#[derive(Clone, Copy, PartialEq, Eq, Hash, Debug)]
pub enum Host {
    V4([u8; 4]),
    V6([u8; 16]),
}

/// A place. Where it is from doesn't count for anything here, so it isn't kept.
#[derive(Clone, Copy, PartialEq, Eq, Hash, Debug)]
pub struct Address {
    pub host: Host,
    pub port: u16,
}

impl Address {
    pub fn write(&self, origin: u8, out: &mut Vec<u8>) {
        match &self.host {
            Host::V4(host) => {
                out.push(origin);
                out.extend_from_slice(host);
            }
            Host::V6(host) => {
                out.push(0x80 | origin);
                out.extend_from_slice(host);
            }
        }
        out.extend_from_slice(&self.port.to_be_bytes());
    }
}

/// Reads fields from the left. A refusal is the offset of the field that isn't there whole.
pub struct Reader<'a> {
    bytes: &'a [u8],
    at: usize,
}

impl<'a> Reader<'a> {
    pub fn new(bytes: &'a [u8]) -> Self {
        Reader { bytes, at: 0 }
    }

    pub fn take(&mut self, n: usize) -> Result<&'a [u8], usize> {
        let end = self.at.checked_add(n).ok_or(self.at)?;
        let field = self.bytes.get(self.at..end).ok_or(self.at)?;
        self.at = end;
        Ok(field)
    }

    pub fn array<const N: usize>(&mut self) -> Result<[u8; N], usize> {
        Ok(self.take(N)?.try_into().unwrap())
    }

    pub fn vlu(&mut self) -> Result<u64, usize> {
        let mut value: u128 = 0;
        for (i, x) in self.bytes[self.at..].iter().take(10).enumerate() {
            value = value << 7 | u128::from(x & 0x7f);
            if *x < 0x80 {
                let value = u64::try_from(value).map_err(|_| self.at)?;
                self.at += i + 1;
                return Ok(value);
            }
        }
        Err(self.at)
    }

    pub fn counted(&mut self) -> Result<&'a [u8], usize> {
        let n = self.vlu()?;
        self.take(usize::try_from(n).map_err(|_| self.at)?)
    }

    pub fn address(&mut self) -> Result<Address, usize> {
        let start = self.at;
        self.address_fields().map_err(|_| start)
    }

    fn address_fields(&mut self) -> Result<Address, usize> {
        let v6 = self.take(1)?[0] & 0x80 != 0;
        let host = if v6 { Host::V6(self.array()?) } else { Host::V4(self.array()?) };
        Ok(Address { host, port: u16::from_be_bytes(self.array()?) })
    }

    pub fn rest(&mut self) -> &'a [u8] {
        let rest = &self.bytes[self.at..];
        self.at = self.bytes.len();
        rest
    }
}

pub fn put_counted(bytes: &[u8], out: &mut Vec<u8>) {
    put_vlu(bytes.len() as u64, out);
    out.extend_from_slice(bytes);
}

pub const STARTUP_MODE: u8 = 3;

/// A packet's head and its chunks.
pub struct Packet<'a> {
    pub mode: u8,
    pub stamp: Option<u16>,
    pub echo: Option<u16>,
    pub chunks: Vec<RawChunk<'a>>,
}

pub struct RawChunk<'a> {
    pub at: usize,
    pub kind: u8,
    pub payload: &'a [u8],
}

impl<'a> Packet<'a> {
    /// A refusal is the number of what is wrong.
    pub fn read(bytes: &'a [u8]) -> Result<Self, u8> {
        let mut reader = Reader::new(bytes);
        let flags = reader.take(1).map_err(|_| 1u8)?[0];
        if flags & 3 == 0 {
            return Err(2);
        }
        let mut stamp = |flag: u8| match flags & flag {
            0 => Ok(None),
            _ => reader.array().map(|b| Some(u16::from_be_bytes(b))).map_err(|_| 3u8),
        };
        let (stamp, echo) = (stamp(0x08)?, stamp(0x04)?);
        let mut chunks = Vec::new();
        loop {
            // A rest that isn't a whole chunk is padding.
            let at = reader.at;
            let (Ok([kind]), Ok(length)) = (reader.array(), reader.array()) else { break };
            let Ok(payload) = reader.take(usize::from(u16::from_be_bytes(length))) else { break };
            if kind != 0x00 && kind != 0xff {
                chunks.push(RawChunk { at, kind, payload });
            }
        }
        Ok(Packet { mode: flags & 3, stamp, echo, chunks })
    }
}

/// The most bytes of a plain packet.
pub const PACKET: usize = 1_164;

/// A plain packet without chunks, and room for so many bytes more.
pub fn head(mode: u8, stamp: Option<u16>, echo: Option<u16>, room: usize) -> Vec<u8> {
    let mut out = Vec::with_capacity(5 + room);
    out.push(mode | if stamp.is_some() { 0x08 } else { 0 } | if echo.is_some() { 0x04 } else { 0 });
    for x in stamp.iter().chain(&echo) {
        out.extend_from_slice(&x.to_be_bytes());
    }
    out
}

/// A plain packet with one chunk.
pub fn packet(mode: u8, stamp: Option<u16>, echo: Option<u16>, kind: u8, payload: &[u8]) -> Vec<u8> {
    let mut out = head(mode, stamp, echo, 3 + payload.len());
    out.push(kind);
    out.extend_from_slice(&(payload.len() as u16).to_be_bytes());
    out.extend_from_slice(payload);
    out
}

pub const IHELLO: u8 = 0x30;
pub const FIHELLO: u8 = 0x0f;
pub const RHELLO: u8 = 0x70;
pub const REDIRECT: u8 = 0x71;
pub const COOKIECHANGE: u8 = 0x79;
pub const IIKEYING: u8 = 0x38;
pub const RIKEYING: u8 = 0x78;
pub const PING: u8 = 0x01;
pub const PINGREPLY: u8 = 0x41;
pub const CLOSE: u8 = 0x0c;
pub const CLOSEACK: u8 = 0x4c;
pub const FRAGMENT: u8 = 0x7f;
pub const DATA: u8 = 0x10;
pub const NEXT: u8 = 0x11;
pub const ACKRANGES: u8 = 0x51;

/// The chunks that an end takes, of those of flows the three that ends of scripts send.
pub enum Chunk<'a> {
    IHello { epd: &'a [u8], tag: &'a [u8] },
    FIHello { epd: &'a [u8], reply: Address, tag: &'a [u8] },
    RHello { tag: &'a [u8], cookie: &'a [u8], cert: &'a [u8] },
    Redirect { tag: &'a [u8], list: Vec<Address> },
    CookieChange { old: &'a [u8], new: &'a [u8] },
    IIKeying(IIKeying<'a>),
    RIKeying(RIKeying<'a>),
    Ping(&'a [u8]),
    PingReply(&'a [u8]),
    Close,
    CloseAck,
    Fragment(Piece<'a>),
    Data(Data<'a>),
    Ack { flow: u64, ack: Ack<'a> },
}

/// A piece of a packet.
pub struct Piece<'a> {
    pub more: bool,
    pub id: u64,
    pub number: u64,
    pub bytes: &'a [u8],
}

impl Piece<'_> {
    /// A fragment chunk's payload.
    pub fn payload(&self) -> Vec<u8> {
        let mut out = vec![if self.more { 0x80 } else { 0 }];
        put_vlu(self.id, &mut out);
        put_vlu(self.number, &mut out);
        out.extend_from_slice(self.bytes);
        out
    }
}

/// Of the data or next chunk directly before a chunk its flow, number and forward number.
pub type Before = Option<(u64, u64, u64)>;

pub struct IIKeying<'a> {
    pub near: u32,
    pub cookie: &'a [u8],
    pub cert: &'a [u8],
    pub ni: [u8; 16],
    pub n: u64,
    pub responder: [u8; 32],
    pub signed: &'a [u8],
    pub sign: &'a [u8],
}

pub struct RIKeying<'a> {
    pub near: u32,
    pub nr: [u8; 16],
    pub k: u64,
    pub responder: [u8; 32],
    pub ni: [u8; 16],
    pub signed: &'a [u8],
    pub sign: &'a [u8],
}

pub enum ChunkFault {
    Unknown,
    Malformed(usize),
}

impl From<usize> for ChunkFault {
    fn from(at: usize) -> Self {
        ChunkFault::Malformed(at)
    }
}

pub fn is_certificate(bytes: &[u8]) -> bool {
    (17..=80).contains(&bytes.len()) && bytes[16..].is_ascii()
}

impl<'a> Chunk<'a> {
    pub fn read(kind: u8, payload: &'a [u8], before: Before) -> Result<Self, ChunkFault> {
        let mut r = Reader::new(payload);
        Ok(match kind {
            DATA | NEXT => Chunk::Data(Data::read(kind, &mut r, before)?),
            ACKRANGES => {
                let (flow, blocks, upto) = (r.vlu()?, r.vlu()?, r.vlu()?);
                let pairs = r.rest();
                Reader::new(pairs).pairs(upto).map_err(|at| at + payload.len() - pairs.len())?;
                Chunk::Ack { flow, ack: Ack { blocks, upto, pairs } }
            }
            IHELLO => Chunk::IHello { epd: r.counted()?, tag: r.rest() },
            FIHELLO => Chunk::FIHello { epd: r.counted()?, reply: r.address()?, tag: r.rest() },
            RHELLO => {
                let (tag, cookie) = (r.counted()?, r.counted()?);
                let at = r.at;
                let cert = r.rest();
                if !is_certificate(cert) {
                    return Err(ChunkFault::Malformed(at));
                }
                Chunk::RHello { tag, cookie, cert }
            }
            REDIRECT => {
                let (tag, mut list) = (r.counted()?, Vec::new());
                while r.at < payload.len() {
                    list.push(r.address()?);
                }
                Chunk::Redirect { tag, list }
            }
            COOKIECHANGE => Chunk::CookieChange { old: r.counted()?, new: r.rest() },
            IIKEYING => Chunk::IIKeying(IIKeying::read(payload)?),
            RIKEYING => Chunk::RIKeying(RIKeying::read(payload)?),
            PING => Chunk::Ping(payload),
            PINGREPLY => Chunk::PingReply(payload),
            CLOSE => Chunk::Close,
            CLOSEACK => Chunk::CloseAck,
            FRAGMENT => {
                let more = r.take(1)?[0] & 0x80 != 0;
                Chunk::Fragment(Piece { more, id: r.vlu()?, number: r.vlu()?, bytes: r.rest() })
            }
            _ => return Err(ChunkFault::Unknown),
        })
    }
}

impl Reader<'_> {
    /// Goes through the pairs of an ack, none of which may speak of a number that is too large.
    fn pairs(&mut self, mut last: u64) -> Result<(), usize> {
        while self.at < self.bytes.len() {
            let at = self.at;
            let (holes, received) = (self.vlu()?, self.vlu()?);
            last = last.checked_add(holes).and_then(|n| n.checked_add(received)?.checked_add(2)).ok_or(at)?;
        }
        Ok(())
    }

    /// Goes through an option list and its marker.
    fn options(&mut self) -> Result<(), usize> {
        let at = self.at;
        loop {
            let option = self.counted().map_err(|_| at)?;
            if option.is_empty() {
                return Ok(());
            }
            Reader::new(option).vlu().map_err(|_| at)?;
        }
    }
}

impl<'a> Data<'a> {
    fn read(kind: u8, r: &mut Reader<'a>, before: Before) -> Result<Self, usize> {
        let next = before.and_then(|(flow, seq, forward)| Some((flow, seq.checked_add(1)?, forward)));
        if kind == NEXT && next.is_none() {
            return Err(0);
        }
        let flags = r.take(1)?[0];
        let (flow, seq, forward) = match next.filter(|_| kind == NEXT) {
            Some(next) => next,
            None => {
                let (flow, seq, at) = (r.vlu()?, r.vlu()?, r.at);
                let forward = seq.checked_sub(r.vlu()?).ok_or(at)?;
                if forward == seq && flags & 0x02 == 0 {
                    return Err(at);
                }
                (flow, seq, forward)
            }
        };
        let start = r.at;
        if flags & 0x80 != 0 {
            r.options()?;
        }
        let options = &r.bytes[start..r.at];
        let (begins, ends) = (flags & 0x20 == 0, matches!(flags & 0x30, 0x00 | 0x20));
        let (abandon, last) = (flags & 0x02 != 0, flags & 0x01 != 0);
        let chunk = flow::Chunk { begins, ends, abandon, last, seq, forward, bytes: r.rest() };
        Ok(Data { flow, options, chunk })
    }
}

impl<'a> IIKeying<'a> {
    fn read(payload: &'a [u8]) -> Result<Self, usize> {
        let mut r = Reader::new(payload);
        let near = u32::from_be_bytes(r.array()?);
        let cookie = r.counted()?;
        let cert = r.counted()?;
        let cert_at = r.at - cert.len();
        let part = r.counted()?;
        let part_at = r.at - part.len();
        let (signed, sign) = payload.split_at(r.at);
        if near == 0 {
            return Err(0);
        }
        if !is_certificate(cert) {
            return Err(cert_at);
        }
        if part.len() != 56 {
            return Err(part_at);
        }
        let mut p = Reader::new(part);
        let (ni, n, responder) = (p.array()?, u64::from_be_bytes(p.array()?), p.array()?);
        Ok(IIKeying { near, cookie, cert, ni, n, responder, signed, sign })
    }
}

impl<'a> RIKeying<'a> {
    fn read(payload: &'a [u8]) -> Result<Self, usize> {
        let mut r = Reader::new(payload);
        let near = u32::from_be_bytes(r.array()?);
        let part = r.counted()?;
        let part_at = r.at - part.len();
        let (signed, sign) = payload.split_at(r.at);
        if near == 0 {
            return Err(0);
        }
        if part.len() != 72 {
            return Err(part_at);
        }
        let mut p = Reader::new(part);
        let (nr, k, responder, ni) = (p.array()?, u64::from_be_bytes(p.array()?), p.array()?, p.array()?);
        Ok(RIKeying { near, nr, k, responder, ni, signed, sign })
    }
}
