//! The texts of a run: its script and its report, as `rtmfp replay` reads and writes them.
use crate::crypto::Kinds;
use crate::end::{Cause, Entry, Fact, Joined, Refusal, Why};
use crate::flow::{QueueRefusal, Refusal as FlowRefusal};
use crate::places::{Lost, Rule};
use crate::wire::{Address, Host};
use crate::{JournalLine, Step, World};
use std::io::{self, BufWriter, Write};

pub struct At(pub Address);

impl std::fmt::Display for At {
    fn fmt(&self, f: &mut std::fmt::Formatter) -> std::fmt::Result {
        match self.0.host {
            Host::V4([a, b, c, d]) => write!(f, "{a}.{b}.{c}.{d}:{}", self.0.port),
            Host::V6(host) => write!(f, "[{:032x}]:{}", u128::from_be_bytes(host), self.0.port),
        }
    }
}

pub fn print_script(world: &World) {
    let mut out = BufWriter::new(io::stdout().lock());
    let name = |end: &usize| &world.ends[*end].name;
    for line in &world.journal {
        let written = match &line.step {
            Step::End { name, max_peers, max_sessions, cert } => writeln!(out, "end {name} {max_peers} {max_sessions} {cert}"),
            Step::At { moment } => writeln!(out, "at {moment}"),
            Step::Open { end, peer, list } => {
                writeln!(out, "open {} {}{}", name(end), name(peer), places(list))
            }
            Step::Seek { end, name: service, list } => write!(out, "seek {} ", name(end))
                .and_then(|()| write_hex(&mut out, service))
                .and_then(|()| writeln!(out, "{}", places(list))),
            Step::Unseek { end, near } => writeln!(out, "unseek {} {near}", name(end)),
            Step::Cancel { end, n } => writeln!(out, "cancel {} {n}", name(end)),
            Step::Close { end, near } => writeln!(out, "close {} {near}", name(end)),
            Step::Deliver { number, end, from } => writeln!(out, "deliver {number} {} {}", name(end), At(*from)),
            Step::Bent { number, place, end, from } => writeln!(out, "bent {number} {place} {} {}", name(end), At(*from)),
            Step::Inject { end, from, bytes } => write!(out, "inject {} {} ", name(end), At(*from))
                .and_then(|()| write_hex(&mut out, bytes))
                .and_then(|()| writeln!(out)),
            Step::Forge { end, from, plain } => write!(out, "forge {} {} ", name(end), At(*from))
                .and_then(|()| write_hex(&mut out, plain))
                .and_then(|()| writeln!(out)),
            Step::Tick { end } => writeln!(out, "tick {}", name(end)),
            Step::Introduce { end } => writeln!(out, "introduce {}", name(end)),
            Step::Narrow { end, limit } => writeln!(out, "narrow {} {limit}", name(end)),
            Step::Learn { end } => writeln!(out, "learn {}", name(end)),
            Step::Advance { end } => writeln!(out, "advance {}", name(end)),
            Step::Redirect { end, peer, list } => writeln!(out, "redirect {} {}{}", name(end), name(peer), places(list)),
            Step::Translator { name, mapping, filter, host: [a, b, c, d], first } => {
                writeln!(out, "translator {name} {} {} {a}.{b}.{c}.{d} {first}", rule(*mapping), rule(*filter))
            }
            Step::Place { end, at, behind } => {
                let behind = behind.map_or(String::new(), |place| format!(" {}", world.places.translators[place].name));
                writeln!(out, "place {} {}{behind}", name(end), At(*at))
            }
            Step::Carry { number } => writeln!(out, "carry {number}"),
            Step::Flow { end, near, priority, metadata, answers } => {
                let answers = answers.map_or(String::new(), |flow| format!(" {flow}"));
                write!(out, "flow {} {near} {priority} ", name(end))
                    .and_then(|()| write_hex(&mut out, metadata))
                    .and_then(|()| writeln!(out, "{answers}"))
            }
            Step::Queue { end, near, flow, options, message } => {
                let limits = (limit(options.deadline), limit(options.resends));
                writeln!(out, "queue {} {near} {flow} {} {} *{}", name(end), limits.0, limits.1, message.len())
            }
            Step::Abandon { end, near, flow, seq } => writeln!(out, "abandon {} {near} {flow} {seq}", name(end)),
            Step::Finish { end, near, flow } => writeln!(out, "finish {} {near} {flow}", name(end)),
        };
        written.expect("a script is written");
    }
}

pub fn print_report(world: &World) {
    let mut out = BufWriter::new(io::stdout().lock());
    let mut sent = 0;
    for line in &world.journal {
        write_line(&mut out, world, line, &mut sent).expect("a report is written");
    }
}

/// The report of one line, before which so many datagrams were sent.
pub fn write_line(out: &mut impl Write, world: &World, line: &JournalLine, sent: &mut u64) -> io::Result<()> {
    let Some(end) = line.end else { return Ok(()) };
    let name = &world.ends[end].name;
    if let Some(refused) = &line.refused {
        writeln!(out, "{} {name} refused {}", line.line, refusal(refused))?;
    }
    if let (Some(why), Step::Carry { number }) = (line.lost, &line.step) {
        writeln!(out, "{} {name} lost {number} {}", line.line, lost(why))?;
    }
    for entry in &line.entries {
        write!(out, "{} {name} ", line.line)?;
        match entry {
            Entry::Fact(fact) => write_fact(out, world, fact)?,
            Entry::Closed { near } => writeln!(out, "closed near={near}")?,
            Entry::Sought { near, name } => {
                write!(out, "sought near={near} name=")?;
                write_hex(out, name)?;
                writeln!(out)?;
            }
            Entry::Unsought { near, why } => writeln!(out, "unsought near={near} {}", why_text(*why))?,
            Entry::Moved { near, to } => writeln!(out, "moved near={near} {}", At(*to))?,
            Entry::Learnt { generation } => writeln!(out, "learnt {generation}")?,
            Entry::Advanced { generation } => writeln!(out, "advanced {generation}")?,
            Entry::Discard { place, cause } => writeln!(out, "drop {place} {}", cause_text(cause))?,
            Entry::FlowOpened { near, flow } => writeln!(out, "flow near={near} id={flow}")?,
            Entry::Queued { near, flow, seq, length } => {
                writeln!(out, "queued near={near} flow={flow} seq={seq} length={length}")?
            }
            Entry::Finished { near, flow, seq } => writeln!(out, "finished near={near} flow={flow} seq={seq}")?,
            Entry::Abandoned { near, flow, seq } => writeln!(out, "abandoned near={near} flow={flow} seq={seq}")?,
            Entry::Handed { near, flow, seq, message } => {
                write!(out, "handed near={near} flow={flow} seq={seq} ")?;
                write_hex(out, message)?;
                writeln!(out)?;
            }
            Entry::Out(o) => {
                *sent += 1;
                write!(out, "sent {sent} {} ", At(o.to))?;
                write_kinds(out, &o.kinds)?;
            }
        }
    }
    Ok(())
}

fn places(list: &[Address]) -> String {
    list.iter().map(|place| format!(" {}", At(*place))).collect()
}

fn rule(rule: Rule) -> &'static str {
    match rule {
        Rule::Independent => "independent",
        Rule::Dependent => "dependent",
    }
}

fn lost(lost: Lost) -> &'static str {
    match lost {
        Lost::Family => "family",
        Lost::PortsFull => "ports-full",
        Lost::Unmapped => "unmapped",
        Lost::Filtered => "filtered",
        Lost::Nobody => "nobody",
    }
}

fn limit(value: Option<impl std::fmt::Display>) -> String {
    value.map_or("-".into(), |value| value.to_string())
}

/// The digits of some bytes, or a hyphen for none.
pub fn write_hex(out: &mut impl Write, bytes: &[u8]) -> io::Result<()> {
    const DIGITS: &[u8; 16] = b"0123456789abcdef";
    if bytes.is_empty() {
        return write!(out, "-");
    }
    for piece in bytes.chunks(512) {
        let mut digits = [0; 1024];
        for (pair, byte) in digits.chunks_exact_mut(2).zip(piece) {
            pair[0] = DIGITS[usize::from(byte >> 4)];
            pair[1] = DIGITS[usize::from(byte & 15)];
        }
        out.write_all(&digits[..2 * piece.len()])?;
    }
    Ok(())
}

fn write_kinds(out: &mut impl Write, kinds: &Kinds) -> io::Result<()> {
    match kinds {
        Kinds::One(kind) => writeln!(out, "{}", kind_name(*kind)),
        Kinds::Many(kinds) => {
            for (index, kind) in kinds.iter().enumerate() {
                write!(out, "{}{}", if index > 0 { "+" } else { "" }, kind_name(*kind))?;
            }
            writeln!(out)
        }
    }
}

fn number(bytes: &[u8; 16]) -> u128 {
    u128::from_be_bytes(*bytes)
}

fn write_joined(out: &mut impl Write, world: &World, word: &str, j: &Joined) -> io::Result<()> {
    let (peer, ni, nr) = (world.name_of(&j.peer), number(&j.ni), number(&j.nr));
    writeln!(out, "{word} peer={peer} n={} near={} far={} ni={ni:x} nr={nr:x} k={}", j.n, j.near, j.far, j.k)
}

fn write_fact(out: &mut impl Write, world: &World, fact: &Fact) -> io::Result<()> {
    match fact {
        Fact::Started { peer, n, near, ni } => {
            writeln!(out, "started peer={} n={n} near={near} ni={:x}", world.name_of(peer), number(ni))
        }
        Fact::Born(j) => write_joined(out, world, "born", j),
        Fact::Opened(j) => write_joined(out, world, "opened", j),
        Fact::Confirmed { near, .. } => writeln!(out, "confirmed near={near}"),
        Fact::Ended { near, why, .. } => writeln!(out, "ended near={near} {}", why_text(*why)),
    }
}

pub fn why_text(why: Why) -> &'static str {
    match why {
        Why::Cancelled => "cancelled",
        Why::Expired => "expired",
        Why::Glare => "glare",
        Why::Override => "override",
        Why::Unconfirmed => "unconfirmed",
        Why::Near => "near",
        Why::Far => "far",
        Why::Idle => "idle",
    }
}

fn kind_name(kind: u8) -> &'static str {
    match kind {
        0x30 => "ihello",
        0x0f => "fihello",
        0x70 => "rhello",
        0x71 => "redirect",
        0x79 => "cookiechange",
        0x38 => "iikeying",
        0x78 => "rikeying",
        0x01 => "ping",
        0x41 => "pingreply",
        0x0c => "close",
        0x10 => "data",
        0x11 => "next",
        0x51 => "ackranges",
        0x7f => "fragment",
        _ => "closeack",
    }
}

fn refusal(refusal: &Refusal) -> String {
    match refusal {
        Refusal::Candidates(n) => format!("candidates {n}"),
        Refusal::OwnPrint => "own-print".into(),
        Refusal::Opening(n) => format!("opening {n}"),
        Refusal::Open(near) => format!("open {near}"),
        Refusal::AttemptsSpent => "attempts-spent".into(),
        Refusal::PeersFull(n) => format!("peers-full {n}"),
        Refusal::SessionsFull(n) => format!("sessions-full {n}"),
        Refusal::NoAttempt => "no-attempt".into(),
        Refusal::NoSession => "no-session".into(),
        Refusal::NoFlow => "no-flow".into(),
        Refusal::FlowsFull(n) => format!("flows-full {n}"),
        Refusal::WideMetadata(n) => format!("wide-metadata {n}"),
        Refusal::Queue(QueueRefusal::TooLong) => "too-long 1048576".into(),
        Refusal::Queue(QueueRefusal::Backlog(n)) => format!("backlog {n}"),
        Refusal::Queue(QueueRefusal::SequenceSpent) => "sequence-spent".into(),
        Refusal::Queue(QueueRefusal::Finished) | Refusal::Finished => "finished".into(),
        Refusal::NotQueued => "not-queued".into(),
        Refusal::NextKnown(generation) => format!("next-known {generation}"),
        Refusal::GenerationsSpent => "generations-spent".into(),
        Refusal::SameSecret => "same-secret".into(),
        Refusal::NoNext => "no-next".into(),
    }
}

fn cause_text(cause: &Cause) -> String {
    match cause {
        Cause::Short => "short".into(),
        Cause::UnknownSession => "unknown-session".into(),
        Cause::BadTag => "bad-tag".into(),
        Cause::Repeated => "repeated".into(),
        Cause::BadPacket(fault) => format!("bad-packet {fault}"),
        Cause::UnknownChunk(kind) => format!("unknown-chunk {kind:02x}"),
        Cause::Malformed(at) => format!("malformed {at}"),
        Cause::WrongPlace => "wrong-place".into(),
        Cause::NotSelected => "not-selected".into(),
        Cause::NoAttempt => "no-attempt".into(),
        Cause::WrongPeer => "wrong-peer".into(),
        Cause::WrongState => "wrong-state".into(),
        Cause::BadCookie => "bad-cookie".into(),
        Cause::BadSignature => "bad-signature".into(),
        Cause::WrongResponder => "wrong-responder".into(),
        Cause::OwnCertificate => "own-certificate".into(),
        Cause::Stale(floor) => format!("stale {floor}"),
        Cause::Glare(n) => format!("glare {n}"),
        Cause::PeersFull(n) => format!("peers-full {n}"),
        Cause::SessionsFull(n) => format!("sessions-full {n}"),
        Cause::SecondKeying => "second-keying".into(),
        Cause::Fragment => "fragment".into(),
        Cause::Piece(refusal, told) => format!("piece {refusal} {told}"),
        Cause::BadWhole(fault) => format!("bad-whole {fault}"),
        Cause::Wide(n) => format!("wide {n}"),
        Cause::UnknownFlow => "unknown-flow".into(),
        Cause::FlowsFull(n) => format!("flows-full {n}"),
        Cause::Flow(FlowRefusal::AfterFinal(n)) => format!("after-final {n}"),
        Cause::Flow(FlowRefusal::BeyondBuffer(n)) => format!("beyond-buffer {n}"),
        Cause::AckBeyond(n) => format!("ack-beyond {n}"),
        Cause::CandidatesFull(n) => format!("candidates-full {n}"),
        Cause::AlreadyHeld(near) => format!("already-held {near}"),
        Cause::AttemptsSpent => "attempts-spent".into(),
    }
}
