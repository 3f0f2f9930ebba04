//! The text of the logs of a run's ends: one line of each end, then each event with its entries.
use crate::crypto::Context;
use crate::end::{Entry, Fact, Joined};
use crate::report::{why_text, write_hex, At};
use crate::wire::Address;
use crate::{group_secret, numbers, JournalLine, Step, World};
use std::io::{self, BufWriter, Write};

/// What the lines so far told of the ends.
pub struct Logs {
    is_begun: bool,
    /// The moment of all ends.
    now: u64,
    /// Of each end the largest moment that one of its calls was given, and its generation.
    given: Vec<u64>,
    generations: Vec<u64>,
}

pub fn print(world: &World) {
    let mut out = BufWriter::new(io::stdout().lock());
    let mut logs = Logs::new();
    for line in &world.journal {
        logs.write_line(&mut out, world, line).expect("logs are written");
    }
    logs.begin(&mut out, world).expect("logs are written");
}

impl Logs {
    pub fn new() -> Self {
        Logs { is_begun: false, now: 0, given: Vec::new(), generations: Vec::new() }
    }

    /// Whether there was an event, so that no end can come any more.
    pub fn are_begun(&self) -> bool {
        self.is_begun
    }

    /// Writes the lines of the ends, once.
    pub fn begin(&mut self, out: &mut impl Write, world: &World) -> io::Result<()> {
        if self.is_begun {
            return Ok(());
        }
        self.is_begun = true;
        self.given = vec![0; world.ends.len()];
        self.generations = vec![0; world.ends.len()];
        for end in &world.ends {
            write!(out, "log {} {} {} 0 ", end.name, end.max_peers, end.max_sessions)?;
            write_hex(out, &group_secret(0))?;
            write!(out, " ")?;
            write_hex(out, &end.print)?;
            write!(out, " ")?;
            write_hex(out, &end.cert)?;
            writeln!(out)?;
        }
        Ok(())
    }

    /// Writes the event of a line with its entries. What was lost on its way is none.
    pub fn write_line(&mut self, out: &mut impl Write, world: &World, line: &JournalLine) -> io::Result<()> {
        if let Step::At { moment } = line.step {
            self.now = moment;
        }
        let Some(end) = line.end.filter(|_| line.lost.is_none()) else { return Ok(()) };
        self.begin(out, world)?;
        if is_given_a_moment(line) {
            self.given[end] = self.given[end].max(self.now);
        }
        write!(out, "event {} {} ", world.ends[end].name, self.given[end])?;
        write_hex(out, &numbers(0, if has_draws(line) { line.line } else { 0 }))?;
        self.write_call(out, world, line, end)?;
        for entry in &line.entries {
            if let Entry::Advanced { generation } = entry {
                self.generations[end] = *generation;
            }
            write_entry(out, entry)?;
        }
        Ok(())
    }

    fn write_call(&self, out: &mut impl Write, world: &World, line: &JournalLine, end: usize) -> io::Result<()> {
        let tag = numbers(2, line.line);
        match (&line.datagram, &line.step) {
            (Some(datagram), _) => {
                write!(out, " receive {} ", At(source(world, line)))?;
                write_hex(out, datagram)?;
            }
            (_, Step::Open { peer, .. }) => {
                write!(out, " open ")?;
                write_hex(out, &world.ends[*peer].print)?;
                write!(out, " ")?;
                write_hex(out, &tag)?;
            }
            (_, Step::Seek { name, .. }) => {
                write!(out, " seek ")?;
                write_hex(out, name)?;
                write!(out, " ")?;
                write_hex(out, &tag)?;
            }
            (_, Step::Cancel { n, .. }) => write!(out, " cancel {n}")?,
            (_, Step::Unseek { near, .. }) => write!(out, " unseek {near}")?,
            (_, Step::Close { near, .. }) => write!(out, " close {near}")?,
            (_, Step::Learn { .. }) => {
                write!(out, " learn ")?;
                write_hex(out, &group_secret(self.generations[end] + 1))?;
            }
            (_, Step::Advance { .. }) => write!(out, " advance")?,
            (_, Step::Tick { .. }) => write!(out, " tick")?,
            _ => write!(out, " other")?,
        }
        writeln!(out)
    }
}

/// From where a datagram was brought.
fn source(world: &World, line: &JournalLine) -> Address {
    match &line.step {
        Step::Deliver { from, .. } | Step::Bent { from, .. } | Step::Inject { from, .. } | Step::Forge { from, .. } => *from,
        _ => world.arrivals[&line.line],
    }
}

/// Whether the call takes a moment, whatever came of it.
fn is_given_a_moment(line: &JournalLine) -> bool {
    has_draws(line) || matches!(line.step, Step::Close { .. })
}

/// Whether the call takes random values.
fn has_draws(line: &JournalLine) -> bool {
    line.datagram.is_some() || matches!(line.step, Step::Open { .. } | Step::Seek { .. } | Step::Tick { .. })
}

fn write_entry(out: &mut impl Write, entry: &Entry) -> io::Result<()> {
    match entry {
        Entry::Fact(Fact::Started { peer, n, near, ni }) => {
            write_peer(out, "started", peer)?;
            write!(out, " {n} {near} ")?;
            write_hex(out, ni)?;
        }
        Entry::Fact(Fact::Born(joined)) => write_joined(out, "born", joined)?,
        Entry::Fact(Fact::Opened(joined)) => write_joined(out, "opened", joined)?,
        Entry::Fact(Fact::Confirmed { peer, near }) => {
            write_peer(out, "confirmed", peer)?;
            write!(out, " {near}")?;
        }
        Entry::Fact(Fact::Ended { peer, near, why }) => {
            write_peer(out, "ended", peer)?;
            write!(out, " {near} {}", why_text(*why))?;
        }
        Entry::Closed { near } => write!(out, "+ closed {near}")?,
        Entry::Sought { near, name } => {
            write!(out, "+ sought {near} ")?;
            write_hex(out, name)?;
        }
        Entry::Unsought { near, why } => write!(out, "+ unsought {near} {}", why_text(*why))?,
        Entry::Learnt { generation } => write!(out, "+ learnt {generation}")?,
        Entry::Advanced { generation } => write!(out, "+ advanced {generation}")?,
        Entry::Out(sent) => {
            write!(out, "+ out {} ", At(sent.to))?;
            write_context(out, &sent.context)?;
            write_hex(out, &sent.datagram)?;
        }
        _ => return Ok(()),
    }
    writeln!(out)
}

fn write_peer(out: &mut impl Write, word: &str, peer: &[u8]) -> io::Result<()> {
    write!(out, "+ {word} ")?;
    write_hex(out, peer)
}

fn write_joined(out: &mut impl Write, word: &str, joined: &Joined) -> io::Result<()> {
    write_peer(out, word, &joined.peer)?;
    write!(out, " {} {} {} ", joined.n, joined.near, joined.far)?;
    write_hex(out, &joined.ni)?;
    write!(out, " ")?;
    write_hex(out, &joined.nr)?;
    write!(out, " {}", joined.k)
}

fn write_context(out: &mut impl Write, context: &Context) -> io::Result<()> {
    match context {
        Context::Startup { generation } => write!(out, "startup {generation} "),
        Context::Session { generation, ni, nr, initiator, responder, sid_i, sid_r, to_responder } => {
            write!(out, "session {generation} ")?;
            for value in [&ni[..], nr, initiator, responder] {
                write_hex(out, value)?;
                write!(out, " ")?;
            }
            write!(out, "{sid_i} {sid_r} {} ", if *to_responder { "i" } else { "r" })
        }
    }
}
