//! A plain Rust program that prints what `rtmfp replay --generate N --steps K` prints: the bar for its speed.
//! With `--flows` it makes another run instead, of two ends that call on flows, with `--calls` one of six ends that also
//! call each other, hang up and move, with `--meetings` one of three that begin and end sessions in short time, with `--names`
//! one of six ends that also search for each other by three names, with `--successions` one of six ends whose group also
//! changes its secret, with `--places` one of six ends that meet through address translators, with `--narrowed` one of two ends
//! that call on flows and are narrowed, with `--pieces` one of a message of K KiB that goes over between ends with the limit N, of
//! whose datagrams each tenth is lost and others come late, and with `--transfer` one of K megabytes that go over, of whose
//! datagrams each N-th is lost. With `--script` it prints the script of the run, with
//! `--report` the report of it, and with `--journal` the text of its ends' logs. Without a seed it reads a script from its
//! input, and prints the report of each line; with `--datagrams` alone it prints the bytes of each datagram that was sent
//! instead, one a line, in hexadecimal, and with `--journal` alone the text of the logs.
#[path = "replay/crypto.rs"]
mod crypto;
#[path = "replay/end.rs"]
mod end;
#[path = "replay/flow.rs"]
mod flow;
#[path = "replay/flows.rs"]
mod flows;
#[path = "replay/journal.rs"]
mod journal;
#[path = "replay/pieces.rs"]
mod pieces;
#[path = "replay/places.rs"]
mod places;
#[path = "replay/random.rs"]
mod random;
#[path = "replay/report.rs"]
mod report;
#[path = "replay/script.rs"]
mod script;
#[path = "replay/wire.rs"]
mod wire;

use crypto::{Context, Print};
use end::{Draws, End, Entry, Fact, Group, Refusal};
use flow::Options;
use journal::Logs;
use places::{Arrival, Lost, Places, Rule};
use std::cell::RefCell;
use std::collections::{HashMap, HashSet};
use std::io::{self, BufRead, BufWriter, Write};
use std::process::ExitCode;
use std::rc::Rc;
use wire::{Address, Host};

const ENDS: usize = 8;
/// The most bytes of a datagram that is injected.
const INJECTED: usize = 2_048;

pub enum Step {
    End { name: String, max_peers: usize, max_sessions: usize, cert: String },
    At { moment: u64 },
    Open { end: usize, peer: usize, list: Vec<Address> },
    Seek { end: usize, name: Vec<u8>, list: Vec<Address> },
    Unseek { end: usize, near: u32 },
    Cancel { end: usize, n: u64 },
    Close { end: usize, near: u32 },
    Deliver { number: usize, end: usize, from: Address },
    Bent { number: usize, place: usize, end: usize, from: Address },
    Inject { end: usize, from: Address, bytes: Vec<u8> },
    Forge { end: usize, from: Address, plain: Vec<u8> },
    Tick { end: usize },
    Flow { end: usize, near: u32, priority: u8, metadata: Vec<u8>, answers: Option<u64> },
    Queue { end: usize, near: u32, flow: u64, options: Options, message: Vec<u8> },
    Abandon { end: usize, near: u32, flow: u64, seq: u64 },
    Finish { end: usize, near: u32, flow: u64 },
    Introduce { end: usize },
    Narrow { end: usize, limit: usize },
    Learn { end: usize },
    Advance { end: usize },
    Redirect { end: usize, peer: usize, list: Vec<Address> },
    Translator { name: String, mapping: Rule, filter: Rule, host: [u8; 4], first: u16 },
    Place { end: usize, at: Address, behind: Option<usize> },
    Carry { number: usize },
}

pub struct JournalLine {
    pub line: u64,
    pub step: Step,
    /// The end that was called, or that sent what was lost, where there is one.
    pub end: Option<usize>,
    pub lost: Option<Lost>,
    pub datagram: Option<Rc<[u8]>>,
    pub refused: Option<Refusal>,
    pub entries: Vec<Entry>,
}

struct Sent {
    by: usize,
    to: Address,
    datagram: Rc<[u8]>,
}

pub struct World {
    /// The generations of the group's secret of which an end knows, from 0.
    groups: Vec<Rc<Group>>,
    pub ends: Vec<End>,
    by_name: HashMap<String, usize>,
    by_print: HashMap<Print, usize>,
    moment: u64,
    pub places: Places,
    /// From where what is carried in a line seems to come.
    pub arrivals: HashMap<u64, Address>,
    pub journal: Vec<JournalLine>,
    sent: Vec<Sent>,
    /// In which contexts these bytes were sent.
    contexts: HashMap<Rc<[u8]>, Vec<Rc<Context>>>,
}

enum StepFault {
    BadStep,
    Forged,
}

impl World {
    fn new() -> Self {
        World {
            groups: vec![group(0)],
            ends: Vec::new(),
            by_name: HashMap::new(),
            by_print: HashMap::new(),
            moment: 0,
            places: Places::default(),
            arrivals: HashMap::new(),
            journal: Vec::new(),
            sent: Vec::new(),
            contexts: HashMap::new(),
        }
    }

    pub fn end_named(&self, name: &str) -> Option<usize> {
        self.by_name.get(name).copied()
    }

    pub fn name_of(&self, print: &Print) -> &str {
        self.by_print.get(print).map_or("-", |end| &self.ends[*end].name)
    }

    /// Whether a datagram has this number; they are counted from 1.
    pub fn was_numbered(&self, number: usize) -> bool {
        (1..=self.sent.len()).contains(&number)
    }

    fn step(&mut self, line: u64, step: Step) -> Result<(), StepFault> {
        let draws = Draws { nonce: numbers(0, line), tag: numbers(2, line), token: numbers(1, line), word: line as u32 };
        let (mut datagram, mut lost, mut refused, mut entries) = (None, None, None, Vec::new());
        let end = match &step {
            Step::End { name, max_peers, max_sessions, cert } => {
                let end = End::new(name.clone(), *max_peers, *max_sessions, cert.clone().into_bytes(), self.groups[0].clone());
                if self.by_name.contains_key(name) || self.by_print.contains_key(&end.print) {
                    return Err(StepFault::BadStep);
                }
                self.by_name.insert(name.clone(), self.ends.len());
                self.by_print.insert(end.print, self.ends.len());
                self.ends.push(end);
                None
            }
            Step::At { moment } => {
                if *moment < self.moment {
                    return Err(StepFault::BadStep);
                }
                self.moment = *moment;
                None
            }
            Step::Open { end, peer, list } => {
                let peer = self.ends[*peer].print;
                refused = self.ends[*end].open(peer, list, self.moment, &draws, &mut entries).err();
                Some(*end)
            }
            Step::Seek { end, name, list } => {
                refused = self.ends[*end].seek(name, list, self.moment, &draws, &mut entries).err();
                Some(*end)
            }
            Step::Unseek { end, near } => {
                refused = self.ends[*end].unseek(*near, &mut entries).err();
                Some(*end)
            }
            Step::Cancel { end, n } => {
                refused = self.ends[*end].cancel(*n, &mut entries).err();
                Some(*end)
            }
            Step::Close { end, near } => {
                refused = self.ends[*end].close(*near, self.moment, &mut entries).err();
                Some(*end)
            }
            Step::Tick { end } => {
                self.ends[*end].tick(self.moment, &mut entries);
                Some(*end)
            }
            Step::Flow { end, near, priority, metadata, answers } => {
                refused = self.ends[*end].open_flow(*near, *priority, metadata, *answers, &mut entries).err();
                Some(*end)
            }
            Step::Queue { end, near, flow, options, message } => {
                refused = self.ends[*end].queue(*near, *flow, message, *options, &mut entries).err();
                Some(*end)
            }
            Step::Abandon { end, near, flow, seq } => {
                refused = self.ends[*end].abandon(*near, *flow, *seq, &mut entries).err();
                Some(*end)
            }
            Step::Finish { end, near, flow } => {
                refused = self.ends[*end].finish(*near, *flow, &mut entries).err();
                Some(*end)
            }
            Step::Introduce { end } => {
                self.ends[*end].introduce();
                Some(*end)
            }
            Step::Narrow { end, limit } => {
                if !(end::LEAST_LIMIT..=wire::PACKET).contains(limit) {
                    return Err(StepFault::BadStep);
                }
                self.ends[*end].narrow(*limit);
                Some(*end)
            }
            Step::Redirect { end, peer, list } => {
                let peer = self.ends[*peer].print;
                self.ends[*end].redirect(peer, list);
                Some(*end)
            }
            Step::Learn { end } => {
                let next = self.ends[*end].following().map(|generation| self.group_of(generation));
                refused = self.ends[*end].learn(next, &mut entries).err();
                Some(*end)
            }
            Step::Advance { end } => {
                refused = self.ends[*end].advance(&mut entries).err();
                Some(*end)
            }
            Step::Translator { name, mapping, filter, host, first } => {
                self.places.add(name, *mapping, *filter, *host, *first).ok_or(StepFault::BadStep)?;
                None
            }
            Step::Place { end, at, behind } => {
                self.places.place(*end, *at, *behind).ok_or(StepFault::BadStep)?;
                None
            }
            Step::Carry { number } => {
                let Sent { by, to, .. } = self.sent[*number - 1];
                match self.places.carry(by, to).ok_or(StepFault::BadStep)? {
                    Ok(Arrival { end, from }) => {
                        let bytes = self.sent[*number - 1].datagram.clone();
                        datagram = Some(self.bring(bytes, end, from, &draws, &mut entries)?);
                        self.arrivals.insert(line, from);
                        Some(end)
                    }
                    Err(why) => {
                        lost = Some(why);
                        Some(by)
                    }
                }
            }
            Step::Deliver { number, end, from } => {
                let bytes = self.sent[*number - 1].datagram.clone();
                datagram = Some(self.bring(bytes, *end, *from, &draws, &mut entries)?);
                Some(*end)
            }
            Step::Bent { number, place, end, from } => {
                let mut bytes = self.sent[*number - 1].datagram.to_vec();
                *bytes.get_mut(*place).ok_or(StepFault::BadStep)? ^= 1;
                datagram = Some(self.bring(bytes.into(), *end, *from, &draws, &mut entries)?);
                Some(*end)
            }
            Step::Inject { end, from, bytes } => {
                if bytes.len() > INJECTED {
                    return Err(StepFault::BadStep);
                }
                datagram = Some(self.bring(bytes.clone().into(), *end, *from, &draws, &mut entries)?);
                Some(*end)
            }
            Step::Forge { end, from, plain } => {
                if plain.len() > wire::PACKET {
                    return Err(StepFault::BadStep);
                }
                let bytes = self.ends[*end].forged(plain).into();
                datagram = Some(self.bring(bytes, *end, *from, &draws, &mut entries)?);
                Some(*end)
            }
        };
        if let Some(by) = end {
            for entry in &entries {
                if let Entry::Out(out) = entry {
                    self.sent.push(Sent { by, to: out.to, datagram: out.datagram.clone() });
                    self.contexts.entry(out.datagram.clone()).or_default().push(out.context.clone());
                }
            }
        }
        self.journal.push(JournalLine { line, step, end, lost, datagram, refused, entries });
        Ok(())
    }

    /// A generation that is known, or the one after the last.
    fn group_of(&mut self, generation: u64) -> Rc<Group> {
        if generation == self.groups.len() as u64 {
            self.groups.push(group(generation));
        }
        self.groups[generation as usize].clone()
    }

    /// Brings a datagram to an end, and gives its bytes.
    fn bring(
        &mut self, bytes: Rc<[u8]>, end: usize, from: Address, draws: &Draws, out: &mut Vec<Entry>,
    ) -> Result<Rc<[u8]>, StepFault> {
        let unsealed = self.ends[end].unseal(&bytes);
        // What opens in a context in which it wasn't sent is forged.
        if unsealed.as_ref().is_ok_and(|unsealed| !self.was_sent(&bytes, &unsealed.context)) {
            return Err(StepFault::Forged);
        }
        self.ends[end].receive(from, self.moment, unsealed, draws, out);
        Ok(bytes)
    }

    fn was_sent(&self, datagram: &[u8], context: &Rc<Context>) -> bool {
        self.contexts.get(datagram).is_some_and(|contexts| contexts.contains(context))
    }

    /// The step that a number picks.
    fn generated(&self, x: u64) -> Step {
        let r = x >> 33;
        let (operation, end, other, back) = (r % 16, (r / 16 % 8) as usize, (r / 128 % 8) as usize, r / 1024 % 16);
        match operation {
            0 | 1 => Step::Open { end, peer: other, list: vec![address_of(other)] },
            2 => Step::Tick { end },
            3 => Step::At { moment: self.moment + 500 },
            4 => Step::Cancel { end, n: back },
            _ if self.sent.is_empty() => Step::Tick { end },
            _ => {
                let number = self.sent.len() - back as usize % self.sent.len();
                let sent = &self.sent[number - 1];
                let Host::V4([.., last]) = sent.to.host else { unreachable!("all ends have short addresses") };
                Step::Deliver { number, end: usize::from(last) - 1, from: address_of(sent.by) }
            }
        }
    }

    fn summary(&self, steps: u64) -> String {
        let (mut sent, mut started, mut born, mut opened, mut confirmed, mut ended, mut dropped) = (0, 0, 0, 0, 0, 0, 0);
        for entry in self.journal.iter().flat_map(|line| &line.entries) {
            *match entry {
                Entry::Closed { .. } | Entry::Moved { .. } => continue,
                Entry::Sought { .. } | Entry::Unsought { .. } => continue,
                Entry::Learnt { .. } | Entry::Advanced { .. } => continue,
                Entry::FlowOpened { .. } | Entry::Queued { .. } | Entry::Finished { .. } => continue,
                Entry::Abandoned { .. } | Entry::Handed { .. } => continue,
                Entry::Out(_) => &mut sent,
                Entry::Discard { .. } => &mut dropped,
                Entry::Fact(Fact::Started { .. }) => &mut started,
                Entry::Fact(Fact::Born(_)) => &mut born,
                Entry::Fact(Fact::Opened(_)) => &mut opened,
                Entry::Fact(Fact::Confirmed { .. }) => &mut confirmed,
                Entry::Fact(Fact::Ended { .. }) => &mut ended,
            } += 1;
        }
        let (ends, kept) = (self.ends.len(), self.ends.iter().map(End::kept).sum::<usize>());
        format!(
            "ends={ends} steps={steps} sent={sent} started={started} born={born} opened={opened} \
             confirmed={confirmed} ended={ended} dropped={dropped} kept={kept}"
        )
    }
}

/// The group's secret in a generation: the generation's number.
pub fn group_secret(generation: u64) -> [u8; 32] {
    let mut secret = [0; 32];
    secret[24..].copy_from_slice(&generation.to_be_bytes());
    secret
}

fn group(generation: u64) -> Rc<Group> {
    Rc::new(Group::new(generation, group_secret(generation)))
}

/// Where an end of the generated run is.
fn address_of(end: usize) -> Address {
    Address { host: Host::V4([10, 0, 0, end as u8 + 1]), port: 1935 }
}

/// A random value of a line, by which one it is and the line's number.
pub fn numbers(first: u64, second: u64) -> [u8; 16] {
    (u128::from(first) << 64 | u128::from(second)).to_be_bytes()
}

fn run(seed: u64, steps: u64) -> Result<World, (StepFault, u64)> {
    let mut world = World::new();
    for end in 0..ENDS {
        let name = format!("e{end}");
        let cert = format!("generated-end-0{end}{name}");
        let line = end as u64 + 1;
        world.step(line, Step::End { name, max_peers: 65_536, max_sessions: 4_096, cert }).map_err(|fault| (fault, line))?;
    }
    let mut x = seed;
    for line in (1..=steps).map(|step| step + ENDS as u64) {
        x = x.wrapping_mul(6_364_136_223_846_793_005).wrapping_add(1_442_695_040_888_963_407);
        let step = world.generated(x);
        world.step(line, step).map_err(|fault| (fault, line))?;
    }
    Ok(world)
}

/// The run of a seed; with `--flows` one that calls on flows; with `--calls` one of ends that also call each other, hang
/// up and move; with `--meetings` one of ends that begin and end sessions; with `--names` one of ends that also search for
/// each other; with `--successions` one of ends that also change the group's secret; with `--places` one of ends that meet
/// through translators; with `--narrowed` one of ends that are narrowed; with `--pieces` one message of so many KiB between
/// ends whose limit the seed is; with `--transfer` so many megabytes that go over, of whose datagrams each so many-th is lost, as the
/// seed says.
fn generated(seed: u64, steps: u64, flags: &HashSet<String>) -> Result<World, (StepFault, u64)> {
    if flags.contains("--flows") {
        return random::run(seed, steps);
    }
    if flags.contains("--calls") {
        return random::calls(seed, steps);
    }
    if flags.contains("--meetings") {
        return random::meetings(seed, steps);
    }
    if flags.contains("--names") {
        return random::names(seed, steps);
    }
    if flags.contains("--successions") {
        return random::successions(seed, steps);
    }
    if flags.contains("--places") {
        return random::places(seed, steps);
    }
    if flags.contains("--narrowed") {
        return random::narrowed(seed, steps);
    }
    if flags.contains("--pieces") {
        return random::in_pieces(seed, steps);
    }
    if flags.contains("--transfer") {
        return random::transfer(seed, steps);
    }
    run(seed, steps)
}

/// Prints the bytes of each datagram that was sent.
fn print_datagrams(world: &World) -> io::Result<()> {
    let mut out = BufWriter::with_capacity(1 << 16, io::stdout().lock());
    for sent in &world.sent {
        for byte in sent.datagram.iter() {
            write!(out, "{byte:02x}")?;
        }
        writeln!(out)?;
    }
    out.flush()
}

/// Does a script line by line, and prints what each did.
fn run_script() -> io::Result<Result<(), (StepFault, u64)>> {
    let mut out = BufWriter::with_capacity(1 << 16, io::stdout().lock());
    let mut sent = 0;
    let (_, done) = each_line(|world, done| report::write_line(&mut out, world, done, &mut sent), |_| true)?;
    out.flush().map(|()| done)
}

/// Does a script line by line, and prints what was sent where none was refused.
fn run_datagrams() -> io::Result<Result<(), (StepFault, u64)>> {
    let (world, done) = each_line(|_, _| Ok(()), |_| true)?;
    if done.is_ok() {
        print_datagrams(&world)?;
    }
    Ok(done)
}

/// Does a script line by line, and prints its ends' logs: the lines of ends at the first event, or at the end of a script
/// that has none. An end that comes after an event is refused.
fn run_journal() -> io::Result<Result<(), (StepFault, u64)>> {
    let mut out = BufWriter::with_capacity(1 << 16, io::stdout().lock());
    let logs = RefCell::new(Logs::new());
    let write = |world: &World, done: &JournalLine| logs.borrow_mut().write_line(&mut out, world, done);
    let (world, done) = each_line(write, |step| !logs.borrow().are_begun() || !matches!(step, Step::End { .. }))?;
    if done.is_ok() {
        logs.borrow_mut().begin(&mut out, &world)?;
    }
    out.flush().map(|()| done)
}

/// Does a script line by line: where a step may be, it is made, and what it did is told.
fn each_line(
    mut tell: impl FnMut(&World, &JournalLine) -> io::Result<()>, may_be: impl Fn(&Step) -> bool,
) -> io::Result<(World, Result<(), (StepFault, u64)>)> {
    let mut input = io::stdin().lock();
    let (mut world, mut line, mut number) = (World::new(), String::new(), 0);
    while input.read_line(&mut line)? > 0 {
        number += 1;
        match script::read_line(&world, line.strip_suffix('\n').unwrap_or(&line)) {
            Ok(None) => {}
            Ok(Some(step)) if may_be(&step) => {
                if let Err(fault) = world.step(number, step) {
                    return Ok((world, Err((fault, number))));
                }
                if let Some(done) = world.journal.last() {
                    tell(&world, done)?;
                }
            }
            _ => return Ok((world, Err((StepFault::BadStep, number)))),
        }
        line.clear();
    }
    Ok((world, Ok(())))
}

enum Task {
    Script,
    Datagrams,
    Journal,
    Generate { seed: u64, steps: u64, flags: HashSet<String> },
}

fn task() -> Option<Task> {
    let (mut seed, mut steps, mut flags) = (None, None, HashSet::new());
    let mut words = std::env::args().skip(1).peekable();
    if words.peek().is_none() {
        return Some(Task::Script);
    }
    while let Some(word) = words.next() {
        match word.as_str() {
            "--generate" => seed = Some(words.next()?.parse().ok()?),
            "--steps" => steps = Some(words.next()?.parse().ok().filter(|n| *n <= 100_000)?),
            "--journal" if seed.is_none() && steps.is_none() && flags.is_empty() && words.peek().is_none() => return Some(Task::Journal),
            "--script" | "--report" | "--journal" | "--flows" | "--calls" | "--meetings" | "--names" | "--successions" | "--places" | "--narrowed" | "--pieces" | "--transfer" => _ = flags.insert(word),
            "--datagrams" if seed.is_none() && steps.is_none() => return words.next().is_none().then_some(Task::Datagrams),
            _ => return None,
        }
    }
    Some(Task::Generate { seed: seed?, steps: steps?, flags })
}

fn main() -> ExitCode {
    let done = match task() {
        None => {
            eprintln!("replay: bad command line");
            return ExitCode::from(2);
        }
        Some(Task::Datagrams) => run_datagrams().expect("a script is read, and what was sent is written"),
        Some(Task::Journal) => run_journal().expect("a script is read, and its logs are written"),
        Some(Task::Script) => run_script().expect("a script is read, and its report written"),
        Some(Task::Generate { seed, steps, flags }) => generated(seed, steps, &flags).map(|world| {
            if flags.contains("--script") {
                report::print_script(&world);
            } else if flags.contains("--report") {
                report::print_report(&world);
            } else if flags.contains("--journal") {
                journal::print(&world);
            } else {
                println!("{}", world.summary(steps));
            }
        }),
    };
    match done {
        Ok(()) => ExitCode::SUCCESS,
        Err((StepFault::BadStep, line)) => {
            eprintln!("replay: bad line {line}");
            ExitCode::from(3)
        }
        Err((StepFault::Forged, line)) => {
            eprintln!("replay: forged datagram at line {line}");
            ExitCode::from(4)
        }
    }
}
