//! One end: its attempts, its sessions, and what a call or a datagram does.
use crate::crypto::{session_id, sha256, Context, Hmac, Keys, Kinds, Nonce, Print, Window};
use crate::flow::{Options, QueueRefusal, Refusal as FlowRefusal};
use crate::flows::Flows;
use crate::pieces::{cut, Gathering, PieceRefusal};
use crate::wire::{self, packet, put_counted, Address, Chunk, ChunkFault, IIKeying, Packet, RIKeying, Reader, STARTUP_MODE};
use std::collections::{BTreeMap, HashMap};
use std::rc::Rc;

const GAPS: [u64; 5] = [1000, 1500, 2250, 3375, 5062];
const ATTEMPT_TIME: u64 = 95_000;
const COOKIE_TIME: u64 = 95_000;
const ECHO_TIME: u64 = 128_000;
const CONFIRM_TIME: u64 = 20_000;
const IDLE_TIME: u64 = 120_000;
const KEEPALIVE_TIME: u64 = 10_000;
const CLOSE_GAP: u64 = 5_000;
const CLOSE_TIME: u64 = 90_000;
const LINGER_TIME: u64 = 19_000;
const TEST_TIME: u64 = 1_000;
/// The least limit that an end is narrowed to.
pub const LEAST_LIMIT: usize = 96;
const INITIATOR: u8 = 1;
const RESPONDER: u8 = 2;

/// What the ends of a group know that are in one generation of its secret.
pub struct Group {
    pub generation: u64,
    secret: Hmac,
    startup: (Rc<Context>, Keys),
    sign: Hmac,
}

impl Group {
    pub fn new(generation: u64, secret: [u8; 32]) -> Self {
        let secret = Hmac::new(&secret);
        let sign = Hmac::new(&secret.of(&[b"rtmfp sign"]));
        let startup = Context::Startup { generation };
        let startup = (Rc::new(startup.clone()), Keys::new(&secret, &startup));
        Group { generation, secret, startup, sign }
    }
}

/// The random values of a call.
pub struct Draws {
    pub nonce: Nonce,
    pub tag: [u8; 16],
    pub token: [u8; 16],
    pub word: u32,
}

#[derive(Clone, Copy, Debug)]
pub enum Why {
    Cancelled,
    Expired,
    Glare,
    Override,
    Unconfirmed,
    Near,
    Far,
    Idle,
}

#[derive(Clone, Debug)]
pub struct Joined {
    pub peer: Print,
    pub n: u64,
    pub near: u32,
    pub far: u32,
    pub ni: Nonce,
    pub nr: Nonce,
    pub k: u64,
}

#[derive(Clone, Debug)]
pub enum Fact {
    Started { peer: Print, n: u64, near: u32, ni: Nonce },
    Born(Joined),
    Opened(Joined),
    Confirmed { peer: Print, near: u32 },
    Ended { peer: Print, near: u32, why: Why },
}

pub enum Cause {
    Short,
    UnknownSession,
    BadTag,
    Repeated,
    BadPacket(u8),
    UnknownChunk(u8),
    Malformed(usize),
    WrongPlace,
    NotSelected,
    NoAttempt,
    WrongPeer,
    WrongState,
    BadCookie,
    BadSignature,
    WrongResponder,
    OwnCertificate,
    Stale(u64),
    Glare(u64),
    PeersFull(usize),
    SessionsFull(usize),
    SecondKeying,
    Fragment,
    /// The number of the refusal, and what it tells.
    Piece(u8, u64),
    BadWhole(u8),
    Wide(usize),
    UnknownFlow,
    FlowsFull(usize),
    Flow(FlowRefusal),
    AckBeyond(u64),
    CandidatesFull(usize),
    AlreadyHeld(u32),
    AttemptsSpent,
}

#[derive(Clone, Copy, Debug)]
pub enum Refusal {
    Candidates(usize),
    OwnPrint,
    Opening(u64),
    Open(u32),
    AttemptsSpent,
    PeersFull(usize),
    SessionsFull(usize),
    NoAttempt,
    NoSession,
    NoFlow,
    FlowsFull(usize),
    WideMetadata(usize),
    Queue(QueueRefusal),
    Finished,
    NotQueued,
    NextKnown(u64),
    GenerationsSpent,
    SameSecret,
    NoNext,
}

pub struct Out {
    pub to: Address,
    pub datagram: Rc<[u8]>,
    pub context: Rc<Context>,
    pub kinds: Kinds,
}

pub enum Entry {
    Fact(Fact),
    Closed { near: u32 },
    Sought { near: u32, name: Vec<u8> },
    Unsought { near: u32, why: Why },
    Moved { near: u32, to: Address },
    Learnt { generation: u64 },
    Advanced { generation: u64 },
    FlowOpened { near: u32, flow: u64 },
    Queued { near: u32, flow: u64, seq: u64, length: usize },
    Finished { near: u32, flow: u64, seq: u64 },
    Abandoned { near: u32, flow: u64, seq: u64 },
    Handed { near: u32, flow: u64, seq: u64, message: Vec<u8> },
    Discard { place: usize, cause: Cause },
    Out(Out),
}

enum Stage {
    Hello,
    Keying { address: Address, cookie: Vec<u8>, group: Rc<Group> },
}

/// Whom an attempt is towards, and its number; or the name of the ends that are searched for.
enum Aim {
    AtPeer { peer: Print, n: u64 },
    ByName(Vec<u8>),
}

/// An attempt, or a search.
struct Attempt {
    aim: Aim,
    ni: Nonce,
    tag: [u8; 16],
    candidates: Vec<Address>,
    stage: Stage,
    start: u64,
    sent: u64,
    gap: usize,
}

/// Where a session stands: it is held, half-open at first, or it is closing. With the moment of its birth, of the close
/// and of the last close sent, or from which it lingers.
#[derive(Clone, Copy)]
enum State {
    HalfOpen { birth: u64 },
    Open,
    NearClosing { since: u64, sent: u64 },
    Lingering { since: u64 },
}

struct Session {
    joined: Joined,
    mode: u8,
    state: State,
    address: Address,
    /// The moments of the last datagram taken and of the last keepalive.
    taken: u64,
    kept_alive: Option<u64>,
    /// The address that is tested, the token, and since when.
    test: Option<(Address, [u8; 16], u64)>,
    inward: (Rc<Context>, Keys),
    outward: (Rc<Context>, Keys),
    window: Window,
    sealed: u64,
    stamp: Option<(u16, u64)>,
    trip: Option<(u64, u64)>,
    flows: Flows,
    /// What is held of the other end's packets, and how many own ones went out in pieces.
    gathering: Gathering,
    packets: u64,
    /// The keying of a responder, which is sent again for a repeat, in this generation.
    rikeying: Vec<u8>,
    group: Rc<Group>,
}

impl Attempt {
    /// Its number, where it is no search.
    fn number(&self) -> Option<u64> {
        match self.aim {
            Aim::AtPeer { n, .. } => Some(n),
            Aim::ByName(_) => None,
        }
    }

    /// The generation that it takes datagrams in.
    fn group<'a>(&'a self, current: &'a Rc<Group>) -> &'a Rc<Group> {
        match &self.stage {
            Stage::Hello => current,
            Stage::Keying { group, .. } => group,
        }
    }
}

/// The candidates, each once, in their order.
fn each_once(list: &[Address]) -> Vec<Address> {
    let mut candidates: Vec<Address> = Vec::new();
    for place in list {
        if !candidates.contains(place) {
            candidates.push(*place);
        }
    }
    candidates
}

#[derive(Clone, Copy, PartialEq)]
enum Held {
    Nothing,
    Attempt(u32),
    Session(u32),
}

struct Peer {
    floor: u64,
    held: Held,
}

#[derive(Clone, Copy)]
enum Place {
    Startup,
    Attempt(u32),
    Session(u32),
}

/// A datagram that was opened.
pub struct Unsealed {
    place: Place,
    /// Outside of sessions, the generation in which it opened; else the current one.
    group: Rc<Group>,
    pub context: Rc<Context>,
    number: u64,
    plain: Vec<u8>,
}

impl Session {
    fn new(joined: Joined, own: Print, mode: u8, group: &Rc<Group>, address: Address, moment: u64) -> Self {
        let (initiator, responder, sid_i, sid_r) = match mode {
            INITIATOR => (own, joined.peer, joined.near, joined.far),
            _ => (joined.peer, own, joined.far, joined.near),
        };
        let context = |to_responder| {
            let (generation, ni, nr) = (group.generation, joined.ni, joined.nr);
            let context = Context::Session { generation, ni, nr, initiator, responder, sid_i, sid_r, to_responder };
            let keys = Keys::new(&group.secret, &context);
            (Rc::new(context), keys)
        };
        let (inward, outward) = (context(mode == RESPONDER), context(mode == INITIATOR));
        let state = if mode == INITIATOR { State::Open } else { State::HalfOpen { birth: moment } };
        Session {
            joined,
            mode,
            state,
            address,
            taken: moment,
            kept_alive: None,
            test: None,
            inward,
            outward,
            window: Window::new(),
            sealed: 0,
            stamp: None,
            trip: None,
            flows: Flows::new(),
            gathering: Gathering::default(),
            packets: 0,
            rikeying: Vec::new(),
            group: group.clone(),
        }
    }

    fn is_held(&self) -> bool {
        matches!(self.state, State::HalfOpen { .. } | State::Open)
    }

    /// Takes the stamps of a packet, and the round trip that an echo tells.
    fn take_stamps(&mut self, packet: &Packet, moment: u64) {
        if let Some(stamp) = packet.stamp {
            self.stamp = Some((stamp, moment));
        }
        let Some(echo) = packet.echo else { return };
        let ticks = ((moment / 4) as u16).wrapping_sub(echo);
        if ticks < 0x8000 {
            let sample = 4 * u64::from(ticks);
            self.trip = Some(match self.trip {
                None => (sample, sample / 2),
                Some((trip, var)) => ((7 * trip + sample) / 8, (3 * var + trip.abs_diff(sample)) / 4),
            });
        }
    }

    fn resend_after(&self) -> u64 {
        self.trip.map_or(1_000, |(trip, var)| (trip + 4 * var + 200).clamp(250, 10_000))
    }

    /// The stamp and the echo of a packet.
    fn stamps(&self, moment: u64) -> (Option<u16>, Option<u16>) {
        let fresh = self.stamp.filter(|(_, taken)| moment - taken < ECHO_TIME);
        let echo = fresh.map(|(stamp, taken)| stamp.wrapping_add(((moment - taken) / 4) as u16));
        (Some((moment / 4) as u16), echo)
    }

    /// A plain packet without chunks, and with room for as many as may be.
    fn head(&self, moment: u64) -> Vec<u8> {
        let (stamp, echo) = self.stamps(moment);
        wire::head(self.mode, stamp, echo, wire::PACKET)
    }

    fn seal(&mut self, plain: &[u8]) -> Vec<u8> {
        self.sealed += 1;
        let mut number = [0; 16];
        number[8..].copy_from_slice(&self.sealed.to_be_bytes());
        self.outward.1.seal(self.joined.far, number, plain)
    }

    /// Sends a packet, in pieces where it has more bytes than the limit.
    fn send(&mut self, limit: usize, moment: u64, to: Address, plain: &[u8], kinds: Kinds, out: &mut Vec<Entry>) {
        if plain.len() <= limit {
            let datagram = self.seal(plain).into();
            out.push(Entry::Out(Out { to, datagram, context: self.outward.0.clone(), kinds }));
            return;
        }
        self.packets += 1;
        let (stamp, echo) = self.stamps(moment);
        for piece in cut(plain, self.packets, limit - 32) {
            let datagram = self.seal(&packet(self.mode, stamp, echo, wire::FRAGMENT, &piece.payload())).into();
            let kinds = Kinds::One(wire::FRAGMENT);
            out.push(Entry::Out(Out { to, datagram, context: self.outward.0.clone(), kinds }));
        }
    }
}

/// What stood in a datagram before a chunk: a keying, a data or next chunk directly before it, and the flows that are
/// owed an ack, which rise.
#[derive(Default)]
struct Walk {
    keyed: bool,
    /// The chunks are those of a packet that was put together.
    gathered: bool,
    before: wire::Before,
    owed: Vec<u64>,
}

enum Test {
    Bad,
    Moved,
    Expired,
    Current,
}

pub struct End {
    pub name: String,
    pub print: Print,
    pub cert: Vec<u8>,
    pub max_peers: usize,
    pub max_sessions: usize,
    /// The current generation, and the next one where it is known.
    group: Rc<Group>,
    next: Option<Rc<Group>>,
    cookie_key: Hmac,
    started: u64,
    sealed: u64,
    peers: HashMap<Print, Peer>,
    attempts: BTreeMap<u32, Attempt>,
    sessions: BTreeMap<u32, Session>,
    introduces: bool,
    /// Longer packets of sessions go out in pieces.
    limit: usize,
    /// The addresses of other ends with which their hellos are answered.
    rows: HashMap<Print, Vec<Address>>,
}

impl End {
    pub fn new(name: String, max_peers: usize, max_sessions: usize, cert: Vec<u8>, group: Rc<Group>) -> Self {
        let print = sha256(&cert);
        End {
            name,
            print,
            cert,
            max_peers,
            max_sessions,
            group,
            next: None,
            cookie_key: Hmac::new(&print),
            started: 0,
            sealed: 0,
            peers: HashMap::new(),
            attempts: BTreeMap::new(),
            sessions: BTreeMap::new(),
            introduces: false,
            limit: wire::PACKET,
            rows: HashMap::new(),
        }
    }

    pub fn kept(&self) -> usize {
        self.sessions.values().filter(|s| matches!(s.state, State::Open)).count()
    }

    /// The session IDs of its attempts and searches.
    pub fn begun(&self) -> Vec<u32> {
        self.attempts.keys().copied().collect()
    }

    /// The session IDs of its sessions, those that are closing among them.
    pub fn nears(&self) -> Vec<u32> {
        self.sessions.keys().copied().collect()
    }

    /// The datagram of a packet that nobody sent, sealed for the startup.
    pub fn forged(&self, plain: &[u8]) -> Vec<u8> {
        self.group.startup.1.seal(0, [0xff; 16], plain)
    }

    // ---- calls

    pub fn generation(&self) -> u64 {
        self.group.generation
    }

    /// The number of the generation after the current one, of which the secret may be learnt.
    pub fn following(&self) -> Option<u64> {
        self.group.generation.checked_add(1)
    }

    /// Learns the secret of the generation after the current one.
    pub fn learn(&mut self, next: Option<Rc<Group>>, out: &mut Vec<Entry>) -> Result<(), Refusal> {
        if let Some(next) = &self.next {
            return Err(Refusal::NextKnown(next.generation));
        }
        let next = next.ok_or(Refusal::GenerationsSpent)?;
        out.push(Entry::Learnt { generation: next.generation });
        self.next = Some(next);
        Ok(())
    }

    pub fn advance(&mut self, out: &mut Vec<Entry>) -> Result<(), Refusal> {
        self.group = self.next.take().ok_or(Refusal::NoNext)?;
        out.push(Entry::Advanced { generation: self.group.generation });
        Ok(())
    }

    pub fn open(&mut self, peer: Print, list: &[Address], moment: u64, draws: &Draws, out: &mut Vec<Entry>) -> Result<(), Refusal> {
        if list.is_empty() || list.len() > 16 {
            return Err(Refusal::Candidates(list.len()));
        }
        if peer == self.print {
            return Err(Refusal::OwnPrint);
        }
        match self.held(&peer) {
            Held::Attempt(near) => return Err(Refusal::Opening(self.number_of(near))),
            Held::Session(near) => return Err(Refusal::Open(near)),
            Held::Nothing => {}
        }
        if self.started == u64::MAX {
            return Err(Refusal::AttemptsSpent);
        }
        if self.no_row_for(&peer) {
            return Err(Refusal::PeersFull(self.max_peers));
        }
        if self.full() {
            return Err(Refusal::SessionsFull(self.max_sessions));
        }
        let near = self.free_id(draws.word);
        self.started += 1;
        let (n, ni) = (self.started, draws.nonce);
        self.hold(peer, Held::Attempt(near));
        out.push(Entry::Fact(Fact::Started { peer, n, near, ni }));
        self.begin(near, Aim::AtPeer { peer, n }, list, moment, draws, out);
        Ok(())
    }

    /// Searches for an end with this name.
    pub fn seek(&mut self, name: &[u8], list: &[Address], moment: u64, draws: &Draws, out: &mut Vec<Entry>) -> Result<(), Refusal> {
        if list.is_empty() || list.len() > 16 {
            return Err(Refusal::Candidates(list.len()));
        }
        if self.full() {
            return Err(Refusal::SessionsFull(self.max_sessions));
        }
        let near = self.free_id(draws.word);
        out.push(Entry::Sought { near, name: name.to_vec() });
        self.begin(near, Aim::ByName(name.to_vec()), list, moment, draws, out);
        Ok(())
    }

    fn begin(&mut self, near: u32, aim: Aim, list: &[Address], moment: u64, draws: &Draws, out: &mut Vec<Entry>) {
        let (ni, tag, candidates) = (draws.nonce, draws.tag, each_once(list));
        let attempt = Attempt { aim, ni, tag, candidates, stage: Stage::Hello, start: moment, sent: moment, gap: 0 };
        self.attempts.insert(near, attempt);
        self.send_attempt(near, out);
    }

    /// Gives a search up.
    pub fn unseek(&mut self, near: u32, out: &mut Vec<Entry>) -> Result<(), Refusal> {
        self.attempts.get(&near).filter(|a| a.number().is_none()).ok_or(Refusal::NoAttempt)?;
        self.end_attempt(near, Why::Cancelled, out);
        Ok(())
    }

    pub fn cancel(&mut self, n: u64, out: &mut Vec<Entry>) -> Result<(), Refusal> {
        let near = self.attempts.iter().find(|(_, a)| a.number() == Some(n)).map(|(near, _)| *near).ok_or(Refusal::NoAttempt)?;
        self.end_attempt(near, Why::Cancelled, out);
        Ok(())
    }

    pub fn close(&mut self, near: u32, moment: u64, out: &mut Vec<Entry>) -> Result<(), Refusal> {
        let session = self.sessions.get_mut(&near).filter(|s| s.is_held()).ok_or(Refusal::NoSession)?;
        session.state = State::NearClosing { since: moment, sent: moment };
        self.end_session(near, Why::Near, out);
        self.send_home(near, wire::CLOSE, moment, out);
        Ok(())
    }

    pub fn introduce(&mut self) {
        self.introduces = true;
    }

    /// Has a row of 1 to 16 addresses for another end.
    pub fn narrow(&mut self, limit: usize) {
        self.limit = limit;
    }

    pub fn redirect(&mut self, peer: Print, list: &[Address]) {
        self.rows.insert(peer, list.to_vec());
    }

    pub fn open_flow(
        &mut self, near: u32, priority: u8, metadata: &[u8], answers: Option<u64>, out: &mut Vec<Entry>,
    ) -> Result<(), Refusal> {
        let flow = self.flows(near)?.open(priority, metadata, answers)?;
        out.push(Entry::FlowOpened { near, flow });
        Ok(())
    }

    pub fn queue(
        &mut self, near: u32, flow: u64, message: &[u8], options: Options, out: &mut Vec<Entry>,
    ) -> Result<(), Refusal> {
        let seq = self.flows(near)?.queue(flow, message, options)?;
        out.push(Entry::Queued { near, flow, seq, length: message.len() });
        Ok(())
    }

    pub fn abandon(&mut self, near: u32, flow: u64, seq: u64, out: &mut Vec<Entry>) -> Result<(), Refusal> {
        self.flows(near)?.abandon(flow, seq)?;
        out.push(Entry::Abandoned { near, flow, seq });
        Ok(())
    }

    pub fn finish(&mut self, near: u32, flow: u64, out: &mut Vec<Entry>) -> Result<(), Refusal> {
        let seq = self.flows(near)?.finish(flow)?;
        out.push(Entry::Finished { near, flow, seq });
        Ok(())
    }

    /// The flows of a session that is held.
    fn flows(&mut self, near: u32) -> Result<&mut Flows, Refusal> {
        let session = self.sessions.get_mut(&near).filter(|s| s.is_held());
        session.map(|session| &mut session.flows).ok_or(Refusal::NoSession)
    }

    /// Numbers that were sent too long ago are lost. Attempts that are too old end; hellos and keyings that weren't
    /// answered go out again. Then each session does what is due.
    pub fn tick(&mut self, moment: u64, out: &mut Vec<Entry>) {
        for session in self.sessions.values_mut().filter(|s| s.is_held()) {
            let resend_after = session.resend_after();
            session.flows.find_lost(moment, resend_after);
        }
        let nears: Vec<u32> = self.attempts.keys().copied().collect();
        for near in nears {
            let attempt = self.attempts.get_mut(&near).unwrap();
            if moment >= attempt.start + ATTEMPT_TIME {
                self.end_attempt(near, Why::Expired, out);
            } else if moment >= attempt.sent + GAPS[attempt.gap] {
                attempt.sent = moment;
                attempt.gap = (attempt.gap + 1).min(GAPS.len() - 1);
                self.send_attempt(near, out);
            }
        }
        let nears: Vec<u32> = self.sessions.keys().copied().collect();
        for near in nears {
            self.tick_session(near, moment, out);
        }
    }

    /// A session ends, its closing is over, its close goes out again, or it is kept alive.
    fn tick_session(&mut self, near: u32, moment: u64, out: &mut Vec<Entry>) {
        let session = self.sessions.get_mut(&near).unwrap();
        match session.state {
            State::HalfOpen { birth } if moment >= birth + CONFIRM_TIME => {
                self.end_session(near, Why::Unconfirmed, out);
                self.sessions.remove(&near);
            }
            State::HalfOpen { .. } => session.flows.abandon_overdue(near, moment, out),
            State::Open if moment >= session.taken + IDLE_TIME => {
                self.end_session(near, Why::Idle, out);
                self.sessions.remove(&near);
            }
            State::Open => {
                session.flows.abandon_overdue(near, moment, out);
                let resend_after = session.resend_after();
                let mut plain = session.head(moment);
                let head = plain.len();
                while let Some(kinds) = session.flows.fill(&mut plain, moment, resend_after) {
                    session.send(self.limit, moment, session.address, &plain, kinds, out);
                    plain.truncate(head);
                }
                let quiet = moment >= session.taken + KEEPALIVE_TIME;
                if quiet && session.kept_alive.is_none_or(|last| moment >= last + KEEPALIVE_TIME) {
                    session.kept_alive = Some(moment);
                    self.send_home(near, wire::PING, moment, out);
                }
            }
            State::NearClosing { since, .. } if moment >= since + CLOSE_TIME => self.forget(near, out),
            State::NearClosing { since, sent } if moment >= sent + CLOSE_GAP => {
                session.state = State::NearClosing { since, sent: moment };
                self.send_home(near, wire::CLOSE, moment, out);
            }
            State::NearClosing { .. } => {}
            State::Lingering { since } if moment >= since + LINGER_TIME => self.forget(near, out),
            State::Lingering { .. } => {}
        }
    }

    /// Opens a datagram, and changes nothing yet.
    pub fn unseal(&self, datagram: &[u8]) -> Result<Unsealed, Cause> {
        if datagram.len() < 36 {
            return Err(Cause::Short);
        }
        let sid = session_id(datagram);
        let place = self.place_of(sid).ok_or(Cause::UnknownSession)?;
        let mut group = match place {
            Place::Attempt(near) => self.attempts[&near].group(&self.group),
            _ => &self.group,
        };
        let (context, keys) = match place {
            Place::Session(near) => &self.sessions[&near].inward,
            _ => &group.startup,
        };
        let mut context = context.clone();
        // A number that no packet of a session has needs no tag.
        if matches!(place, Place::Session(_)) && datagram[20..28] != [0; 8] {
            return Err(Cause::BadTag);
        }
        let mut opened = keys.open(sid, datagram);
        if let (None, Place::Startup, Some(next)) = (&opened, place, &self.next) {
            (group, context) = (next, next.startup.0.clone());
            opened = next.startup.1.open(sid, datagram);
        }
        let (number, plain) = opened.ok_or(Cause::BadTag)?;
        let number = u64::from_be_bytes(number[8..].try_into().unwrap());
        Ok(Unsealed { place, group: group.clone(), context, number, plain })
    }

    pub fn receive(&mut self, from: Address, moment: u64, unsealed: Result<Unsealed, Cause>, draws: &Draws, out: &mut Vec<Entry>) {
        if let Err(cause) = unsealed.and_then(|unsealed| self.take_datagram(from, moment, &unsealed, draws, out)) {
            out.push(Entry::Discard { place: 0, cause });
        }
    }

    // ---- a datagram

    fn take_datagram(
        &mut self, from: Address, moment: u64, unsealed: &Unsealed, draws: &Draws, out: &mut Vec<Entry>,
    ) -> Result<(), Cause> {
        let place = unsealed.place;
        let mut mode = STARTUP_MODE;
        if let Place::Session(near) = place {
            let session = self.sessions.get_mut(&near).unwrap();
            if !session.window.take(unsealed.number) {
                return Err(Cause::Repeated);
            }
            mode = INITIATOR + RESPONDER - session.mode;
        }
        let packet = Packet::read(&unsealed.plain).map_err(Cause::BadPacket)?;
        if packet.mode != mode {
            return Err(Cause::WrongPlace);
        }
        if let Place::Session(near) = place {
            let session = self.sessions.get_mut(&near).unwrap();
            session.take_stamps(&packet, moment);
            session.taken = moment;
            if matches!(session.state, State::HalfOpen { .. }) {
                session.state = State::Open;
                out.push(Entry::Fact(Fact::Confirmed { peer: session.joined.peer, near }));
            }
        }
        let mut walk = Walk::default();
        for chunk in &packet.chunks {
            if let Err(cause) = self.take_chunk(place, &unsealed.group, chunk, &mut walk, from, moment, draws, out) {
                out.push(Entry::Discard { place: chunk.at, cause });
            }
            walk.keyed |= chunk.kind == wire::IIKEYING;
        }
        if let Place::Session(near) = place {
            self.send_acks(near, walk.owed, moment, out);
            self.test_address(near, from, moment, draws.token, out);
        }
        Ok(())
    }

    /// An address from which a held session had a datagram, and that isn't its own, is pinged.
    fn test_address(&mut self, near: u32, from: Address, moment: u64, token: [u8; 16], out: &mut Vec<Entry>) {
        let Some(session) = self.sessions.get_mut(&near).filter(|s| s.is_held() && s.address != from) else { return };
        if session.test.is_some_and(|(place, _, since)| place == from && moment < since + TEST_TIME) {
            return;
        }
        session.test = Some((from, token, moment));
        self.send_in_session(near, from, wire::PING, &token, moment, out);
    }

    fn take_close(&mut self, near: u32, moment: u64, out: &mut Vec<Entry>) {
        let Some(session) = self.sessions.get_mut(&near) else { return };
        let held = session.is_held();
        if !matches!(session.state, State::Lingering { .. }) {
            session.state = State::Lingering { since: moment };
        }
        if held {
            self.end_session(near, Why::Far, out);
        }
        self.send_home(near, wire::CLOSEACK, moment, out);
    }

    fn take_ping_reply(&mut self, near: u32, from: Address, bytes: &[u8], out: &mut Vec<Entry>) {
        let Some(session) = self.sessions.get_mut(&near) else { return };
        if session.test.is_some_and(|(place, token, _)| place == from && token == bytes) {
            session.address = from;
            session.test = None;
            out.push(Entry::Moved { near, to: from });
        }
    }

    #[allow(clippy::too_many_arguments)]
    fn take_chunk(
        &mut self, place: Place, group: &Rc<Group>, raw: &wire::RawChunk, walk: &mut Walk, from: Address, moment: u64,
        draws: &Draws, out: &mut Vec<Entry>,
    ) -> Result<(), Cause> {
        let chunk = Chunk::read(raw.kind, raw.payload, walk.before.take()).map_err(|fault| match fault {
            ChunkFault::Unknown => Cause::UnknownChunk(raw.kind),
            ChunkFault::Malformed(at) => Cause::Malformed(at),
        })?;
        if let Chunk::Data(data) = &chunk {
            walk.before = Some((data.flow, data.chunk.seq, data.chunk.forward));
        }
        if matches!(chunk, Chunk::Fragment(_)) && (walk.gathered || !matches!(place, Place::Session(_))) {
            return Err(Cause::Fragment);
        }
        if walk.gathered && !matches!(chunk, Chunk::Ping(_) | Chunk::PingReply(_) | Chunk::Data(_) | Chunk::Ack { .. }) {
            return Err(Cause::WrongPlace);
        }
        if let Place::Session(near) = place {
            let session = self.sessions.get(&near);
            let is_late = match chunk {
                Chunk::Close => session.is_none(),
                Chunk::CloseAck => !session.is_some_and(|s| matches!(s.state, State::NearClosing { .. })),
                Chunk::FIHello { .. } | Chunk::Ping(_) | Chunk::PingReply(_) | Chunk::Fragment(_) | Chunk::Data(_) | Chunk::Ack { .. } => {
                    !session.is_some_and(Session::is_held)
                }
                _ => false,
            };
            if is_late {
                return Err(Cause::WrongState);
            }
        }
        match (place, chunk) {
            (Place::Startup, Chunk::IHello { epd, tag }) => self.take_open_hello(epd, tag, from, moment, group, out),
            (Place::Startup, Chunk::Redirect { tag, list }) => self.take_redirect(tag, &list, from, moment, out),
            (Place::Session(_), Chunk::FIHello { epd, reply, tag }) => self.take_hello(epd, tag, reply, moment, &self.group.clone(), out),
            (Place::Startup, Chunk::RHello { tag, cookie, cert }) => self.take_rhello(tag, cookie, cert, from, moment, group, out),
            (Place::Startup, Chunk::CookieChange { old, new }) => self.take_cookie_change(None, old, new, moment, group, out),
            (Place::Attempt(near), Chunk::CookieChange { old, new }) => self.take_cookie_change(Some(near), old, new, moment, group, out),
            (Place::Startup, Chunk::IIKeying(_)) if walk.keyed => Err(Cause::SecondKeying),
            (Place::Startup, Chunk::IIKeying(keying)) => self.take_iikeying(&keying, from, moment, draws, group, out),
            (Place::Attempt(near), Chunk::RIKeying(keying)) => self.take_rikeying(near, &keying, from, moment, out),
            (Place::Session(near), Chunk::Ping(bytes)) => {
                if bytes.len() > 1024 {
                    return Err(Cause::Wide(bytes.len()));
                }
                self.send_in_session(near, from, wire::PINGREPLY, bytes, moment, out);
                Ok(())
            }
            (Place::Session(near), Chunk::PingReply(bytes)) => {
                self.take_ping_reply(near, from, bytes, out);
                Ok(())
            }
            (Place::Session(near), Chunk::Close) => {
                self.take_close(near, moment, out);
                Ok(())
            }
            (Place::Session(near), Chunk::CloseAck) => {
                self.forget(near, out);
                Ok(())
            }
            (Place::Session(near), Chunk::Fragment(piece)) => {
                let session = self.sessions.get_mut(&near).ok_or(Cause::WrongState)?;
                let mode = INITIATOR + RESPONDER - session.mode;
                let whole = session.gathering.take(&piece, moment).map_err(|refusal| match refusal {
                    PieceRefusal::TooMany(number) => Cause::Piece(1, number),
                    PieceRefusal::Conflict(number) => Cause::Piece(2, number),
                    PieceRefusal::TooLong(bytes) => Cause::Piece(3, bytes as u64),
                    PieceRefusal::PacketsFull(packets) => Cause::Piece(4, packets as u64),
                })?;
                let Some(plain) = whole else { return Ok(()) };
                let packet = Packet::read(&plain).map_err(Cause::BadWhole)?;
                if packet.mode != mode {
                    return Err(Cause::BadWhole(4));
                }
                walk.gathered = true;
                for chunk in &packet.chunks {
                    if let Err(cause) = self.take_chunk(place, group, chunk, walk, from, moment, draws, out) {
                        out.push(Entry::Discard { place: chunk.at, cause });
                    }
                }
                (walk.gathered, walk.before) = (false, None);
                Ok(())
            }
            (Place::Session(near), Chunk::Data(data)) => {
                let session = self.sessions.get_mut(&near).ok_or(Cause::WrongState)?;
                session.flows.take_data(near, &data, out)?;
                if let Err(place) = walk.owed.binary_search(&data.flow) {
                    walk.owed.insert(place, data.flow);
                }
                Ok(())
            }
            (Place::Session(near), Chunk::Ack { flow, ack }) => {
                let session = self.sessions.get_mut(&near).ok_or(Cause::WrongState)?;
                session.flows.take_ack(flow, &ack)
            }
            _ => Err(Cause::WrongPlace),
        }
    }

    fn take_hello(
        &mut self, epd: &[u8], tag: &[u8], to: Address, moment: u64, group: &Rc<Group>, out: &mut Vec<Entry>,
    ) -> Result<(), Cause> {
        not_wide(tag)?;
        let selects = match epd {
            [1, print @ ..] => print == self.print,
            [2, name @ ..] => name == &self.cert[16..],
            _ => false,
        };
        if !selects {
            return Err(Cause::NotSelected);
        }
        let mut payload = Vec::with_capacity(128);
        put_counted(tag, &mut payload);
        put_counted(&self.cookie(to, moment), &mut payload);
        payload.extend_from_slice(&self.cert);
        self.send_startup(group, 0, to, wire::RHELLO, &payload, out);
        Ok(())
    }

    /// Answers a hello for this end; of one for another end it tells that one, or tells of it, or both.
    fn take_open_hello(
        &mut self, epd: &[u8], tag: &[u8], from: Address, moment: u64, group: &Rc<Group>, out: &mut Vec<Entry>,
    ) -> Result<(), Cause> {
        let selected = epd.split_first().filter(|(kind, _)| **kind == 1).and_then(|(_, print)| Print::try_from(print).ok());
        let Some(peer) = selected.filter(|print| *print != self.print) else {
            return self.take_hello(epd, tag, from, moment, group, out);
        };
        not_wide(tag)?;
        let before = out.len();
        if let Held::Session(near) = self.held(&peer) {
            if self.introduces && matches!(self.sessions[&near].state, State::Open) {
                let mut payload = Vec::with_capacity(128);
                put_counted(epd, &mut payload);
                from.write(2, &mut payload);
                payload.extend_from_slice(tag);
                let to = self.sessions[&near].address;
                self.send_in_session(near, to, wire::FIHELLO, &payload, moment, out);
            }
        }
        if let Some(row) = self.rows.get(&peer) {
            let mut payload = Vec::with_capacity(256);
            put_counted(tag, &mut payload);
            row.iter().for_each(|place| place.write(0, &mut payload));
            self.send_startup(group, 0, from, wire::REDIRECT, &payload, out);
        }
        if out.len() == before { Err(Cause::NotSelected) } else { Ok(()) }
    }

    fn take_redirect(&mut self, tag: &[u8], list: &[Address], from: Address, moment: u64, out: &mut Vec<Entry>) -> Result<(), Cause> {
        not_wide(tag)?;
        let (near, attempt) = self.attempts.iter_mut().find(|(_, a)| a.tag == tag).ok_or(Cause::NoAttempt)?;
        if !matches!(attempt.stage, Stage::Hello) {
            return Err(Cause::WrongState);
        }
        let (own, mut news) = ([from], Vec::new());
        for place in if list.is_empty() { &own } else { list } {
            if !attempt.candidates.contains(place) && !news.contains(place) {
                news.push(*place);
            }
        }
        if attempt.candidates.len() + news.len() > 16 {
            return Err(Cause::CandidatesFull(attempt.candidates.len()));
        }
        if !news.is_empty() {
            attempt.candidates.extend_from_slice(&news);
            attempt.sent = moment;
            let near = *near;
            self.send_hellos(near, &news, out);
        }
        Ok(())
    }

    fn take_rhello(
        &mut self, tag: &[u8], cookie: &[u8], cert: &[u8], from: Address, moment: u64, group: &Rc<Group>,
        out: &mut Vec<Entry>,
    ) -> Result<(), Cause> {
        not_wide(tag)?;
        not_wide(cookie)?;
        let (near, attempt) = self.attempts.iter_mut().find(|(_, a)| a.tag == tag).ok_or(Cause::NoAttempt)?;
        if !matches!(attempt.stage, Stage::Hello) {
            return Err(Cause::WrongState);
        }
        let (near, print) = (*near, sha256(cert));
        match &attempt.aim {
            Aim::AtPeer { peer, .. } if *peer != print => return Err(Cause::WrongPeer),
            Aim::AtPeer { .. } => {}
            Aim::ByName(name) if cert[16..] != name[..] => return Err(Cause::WrongPeer),
            Aim::ByName(_) => self.find(near, print, moment, out)?,
        }
        let attempt = self.attempts.get_mut(&near).unwrap();
        attempt.stage = Stage::Keying { address: from, cookie: cookie.to_vec(), group: group.clone() };
        (attempt.sent, attempt.gap) = (moment, 0);
        self.send_attempt(near, out);
        Ok(())
    }

    /// A search has found an end, and becomes an attempt towards it.
    fn find(&mut self, near: u32, peer: Print, moment: u64, out: &mut Vec<Entry>) -> Result<(), Cause> {
        if peer == self.print {
            return Err(Cause::OwnCertificate);
        }
        if let Held::Attempt(near) | Held::Session(near) = self.held(&peer) {
            return Err(Cause::AlreadyHeld(near));
        }
        if self.started == u64::MAX {
            return Err(Cause::AttemptsSpent);
        }
        if self.no_row_for(&peer) {
            return Err(Cause::PeersFull(self.max_peers));
        }
        self.started += 1;
        let n = self.started;
        self.hold(peer, Held::Attempt(near));
        let attempt = self.attempts.get_mut(&near).unwrap();
        (attempt.aim, attempt.start) = (Aim::AtPeer { peer, n }, moment);
        out.push(Entry::Fact(Fact::Started { peer, n, near, ni: attempt.ni }));
        Ok(())
    }

    fn take_cookie_change(
        &mut self, near: Option<u32>, old: &[u8], new: &[u8], moment: u64, group: &Rc<Group>, out: &mut Vec<Entry>,
    ) -> Result<(), Cause> {
        not_wide(old)?;
        not_wide(new)?;
        let mut attempts = self.attempts.iter_mut().filter(|(id, _)| near.is_none_or(|near| near == **id));
        let (near, attempt) = attempts
            .find(|(_, a)| matches!(&a.stage, Stage::Keying { cookie, .. } if cookie == old))
            .ok_or(Cause::NoAttempt)?;
        if let Stage::Keying { cookie, group: own, .. } = &mut attempt.stage {
            if own.generation != group.generation {
                return Err(Cause::NoAttempt);
            }
            *cookie = new.to_vec();
        }
        attempt.sent = moment;
        let near = *near;
        self.send_attempt(near, out);
        Ok(())
    }

    fn take_iikeying(
        &mut self, keying: &IIKeying, from: Address, moment: u64, draws: &Draws, group: &Rc<Group>, out: &mut Vec<Entry>,
    ) -> Result<(), Cause> {
        if group.sign.of(&[keying.signed]) != keying.sign {
            return Err(Cause::BadSignature);
        }
        not_wide(keying.cookie)?;
        match self.test_cookie(keying.cookie, from, moment) {
            Test::Bad => return Err(Cause::BadCookie),
            Test::Moved | Test::Expired => {
                let mut payload = Vec::with_capacity(96);
                put_counted(keying.cookie, &mut payload);
                payload.extend_from_slice(&self.cookie(from, moment));
                self.send_startup(group, keying.near, from, wire::COOKIECHANGE, &payload, out);
                return Ok(());
            }
            Test::Current => {}
        }
        if keying.responder != self.print {
            return Err(Cause::WrongResponder);
        }
        let peer = sha256(keying.cert);
        if peer == self.print {
            return Err(Cause::OwnCertificate);
        }
        let held = self.held(&peer);
        if let Held::Session(near) = held {
            let session = &self.sessions[&near];
            let joined = &session.joined;
            if session.mode == RESPONDER && (joined.n, joined.ni, joined.far) == (keying.n, keying.ni, keying.near) {
                let (rikeying, group) = (session.rikeying.clone(), session.group.clone());
                self.send_startup(&group, keying.near, from, wire::RIKEYING, &rikeying, out);
                return Ok(());
            }
        }
        let floor = self.peers.get(&peer).map_or(0, |row| row.floor);
        if keying.n <= floor {
            return Err(Cause::Stale(floor));
        }
        if let Held::Attempt(near) = held {
            if self.print > peer {
                return Err(Cause::Glare(self.number_of(near)));
            }
        }
        if self.no_row_for(&peer) {
            return Err(Cause::PeersFull(self.max_peers));
        }
        if held == Held::Nothing && self.full() {
            return Err(Cause::SessionsFull(self.max_sessions));
        }
        // What ends here still has its ID while a new one is looked for.
        let near = self.free_id(draws.word);
        match held {
            Held::Nothing => {}
            Held::Attempt(old) => self.end_attempt(old, Why::Glare, out),
            Held::Session(old) => {
                self.sessions.remove(&old);
                out.push(Entry::Fact(Fact::Ended { peer, near: old, why: Why::Override }));
            }
        }
        let joined = Joined { peer, n: keying.n, near, far: keying.near, ni: keying.ni, nr: draws.nonce, k: self.started };
        self.hold(peer, Held::Session(near)).floor = keying.n;
        out.push(Entry::Fact(Fact::Born(joined.clone())));
        let mut session = Session::new(joined, self.print, RESPONDER, group, from, moment);
        session.rikeying = self.rikeying(&session.joined, group);
        self.send_startup(group, keying.near, from, wire::RIKEYING, &session.rikeying, out);
        self.sessions.insert(near, session);
        Ok(())
    }

    fn take_rikeying(&mut self, near: u32, keying: &RIKeying, from: Address, moment: u64, out: &mut Vec<Entry>) -> Result<(), Cause> {
        let attempt = self.attempts.get(&near).ok_or(Cause::NoAttempt)?;
        let group = attempt.group(&self.group).clone();
        if group.sign.of(&[keying.signed]) != keying.sign {
            return Err(Cause::BadSignature);
        }
        let Aim::AtPeer { peer, n } = attempt.aim else { return Err(Cause::NoAttempt) };
        if matches!(attempt.stage, Stage::Hello) {
            return Err(Cause::WrongState);
        }
        if keying.responder != peer {
            return Err(Cause::WrongPeer);
        }
        if keying.ni != attempt.ni {
            return Err(Cause::NoAttempt);
        }
        let ni = attempt.ni;
        let joined = Joined { peer, n, near, far: keying.near, ni, nr: keying.nr, k: keying.k };
        self.attempts.remove(&near);
        let row = self.hold(peer, Held::Session(near));
        row.floor = row.floor.max(keying.k);
        out.push(Entry::Fact(Fact::Opened(joined.clone())));
        self.sessions.insert(near, Session::new(joined, self.print, INITIATOR, &group, from, moment));
        self.send_in_session(near, from, wire::PING, &[], moment, out);
        Ok(())
    }

    // ---- what is held

    fn held(&self, peer: &Print) -> Held {
        self.peers.get(peer).map_or(Held::Nothing, |row| row.held)
    }

    fn hold(&mut self, peer: Print, held: Held) -> &mut Peer {
        let row = self.peers.entry(peer).or_insert(Peer { floor: 0, held });
        row.held = held;
        row
    }

    fn no_row_for(&self, peer: &Print) -> bool {
        self.peers.len() >= self.max_peers && !self.peers.contains_key(peer)
    }

    fn full(&self) -> bool {
        self.attempts.len() + self.sessions.len() >= self.max_sessions
    }

    fn free_id(&self, word: u32) -> u32 {
        let mut id = word;
        while id == 0 || self.attempts.contains_key(&id) || self.sessions.contains_key(&id) {
            id = id.wrapping_add(1);
        }
        id
    }

    fn place_of(&self, sid: u32) -> Option<Place> {
        if sid == 0 {
            Some(Place::Startup)
        } else if self.attempts.contains_key(&sid) {
            Some(Place::Attempt(sid))
        } else {
            self.sessions.contains_key(&sid).then_some(Place::Session(sid))
        }
    }

    fn end_attempt(&mut self, near: u32, why: Why, out: &mut Vec<Entry>) {
        match self.attempts.remove(&near).map(|attempt| attempt.aim) {
            Some(Aim::AtPeer { peer, .. }) => {
                self.hold(peer, Held::Nothing);
                out.push(Entry::Fact(Fact::Ended { peer, near, why }));
            }
            Some(Aim::ByName(_)) => out.push(Entry::Unsought { near, why }),
            None => {}
        }
    }

    /// The number of an attempt that is held.
    fn number_of(&self, near: u32) -> u64 {
        self.attempts[&near].number().expect("nothing of a search is held")
    }

    /// A held session isn't any more; it may be closing.
    fn end_session(&mut self, near: u32, why: Why, out: &mut Vec<Entry>) {
        let peer = self.sessions[&near].joined.peer;
        self.hold(peer, Held::Nothing);
        out.push(Entry::Fact(Fact::Ended { peer, near, why }));
    }

    /// A closing is over.
    fn forget(&mut self, near: u32, out: &mut Vec<Entry>) {
        self.sessions.remove(&near);
        out.push(Entry::Closed { near });
    }

    // ---- cookies

    fn cookie(&self, to: Address, issued: u64) -> Vec<u8> {
        let mut cookie = Vec::with_capacity(43);
        cookie.extend_from_slice(&issued.to_be_bytes());
        to.write(2, &mut cookie);
        let mac = self.cookie_key.of(&[&cookie]);
        cookie.extend_from_slice(&mac[..16]);
        cookie
    }

    fn test_cookie(&self, cookie: &[u8], from: Address, moment: u64) -> Test {
        let mut r = Reader::new(cookie);
        let (Ok(issued), Ok(to)) = (r.array().map(u64::from_be_bytes), r.address()) else { return Test::Bad };
        // It is made again, so that all its bytes count.
        if self.cookie(to, issued) != cookie {
            Test::Bad
        } else if to != from {
            Test::Moved
        } else if moment > issued.saturating_add(COOKIE_TIME) {
            Test::Expired
        } else {
            Test::Current
        }
    }

    // ---- sending

    fn send_startup(&mut self, group: &Group, sid: u32, to: Address, kind: u8, payload: &[u8], out: &mut Vec<Entry>) {
        self.sealed += 1;
        let mut number = [0; 16];
        number[..8].copy_from_slice(&self.print[..8]);
        number[8..].copy_from_slice(&self.sealed.to_be_bytes());
        let (context, keys) = &group.startup;
        let datagram = keys.seal(sid, number, &packet(STARTUP_MODE, None, None, kind, payload)).into();
        out.push(Entry::Out(Out { to, datagram, context: context.clone(), kinds: Kinds::One(kind) }));
    }

    fn send_in_session(&mut self, near: u32, to: Address, kind: u8, payload: &[u8], moment: u64, out: &mut Vec<Entry>) {
        let Some(session) = self.sessions.get_mut(&near) else { return };
        let (stamp, echo) = session.stamps(moment);
        let plain = packet(session.mode, stamp, echo, kind, payload);
        session.send(self.limit, moment, to, &plain, Kinds::One(kind), out);
    }

    /// Sends the acks that a datagram's chunks owe, to the session's address.
    fn send_acks(&mut self, near: u32, owed: Vec<u64>, moment: u64, out: &mut Vec<Entry>) {
        let Some(session) = self.sessions.get_mut(&near) else { return };
        let mut left = owed.as_slice();
        while !left.is_empty() {
            let (mut plain, mut kinds) = (session.head(moment), None);
            left = session.flows.put_acks(left, &mut plain, &mut kinds);
            let Some(kinds) = kinds else { return };
            session.send(self.limit, moment, session.address, &plain, kinds, out);
        }
    }

    /// A chunk without bytes, to the session's address.
    fn send_home(&mut self, near: u32, kind: u8, moment: u64, out: &mut Vec<Entry>) {
        let to = self.sessions[&near].address;
        self.send_in_session(near, to, kind, &[], moment, out);
    }

    /// Sends the hellos of an attempt, or its keying.
    fn send_attempt(&mut self, near: u32, out: &mut Vec<Entry>) {
        let attempt = &self.attempts[&near];
        let mut payload = Vec::with_capacity(256);
        match &attempt.stage {
            Stage::Hello => {
                let list = attempt.candidates.clone();
                self.send_hellos(near, &list, out);
            }
            Stage::Keying { address, cookie, group } => {
                let (to, group) = (*address, group.clone());
                payload.extend_from_slice(&near.to_be_bytes());
                put_counted(cookie, &mut payload);
                put_counted(&self.cert, &mut payload);
                let Aim::AtPeer { peer, n } = &attempt.aim else { unreachable!("a search sends no keying") };
                put_counted(&[&attempt.ni[..], &n.to_be_bytes(), peer].concat(), &mut payload);
                payload.extend_from_slice(&group.sign.of(&[&payload]));
                self.send_startup(&group, 0, to, wire::IIKEYING, &payload, out);
            }
        }
    }

    /// Sends the hello of an attempt to some addresses.
    fn send_hellos(&mut self, near: u32, list: &[Address], out: &mut Vec<Entry>) {
        let attempt = &self.attempts[&near];
        let epd = match &attempt.aim {
            Aim::AtPeer { peer, .. } => [&[1], &peer[..]].concat(),
            Aim::ByName(name) => [&[2], &name[..]].concat(),
        };
        let mut payload = Vec::with_capacity(128);
        put_counted(&epd, &mut payload);
        payload.extend_from_slice(&attempt.tag);
        let group = self.group.clone();
        for to in list {
            self.send_startup(&group, 0, *to, wire::IHELLO, &payload, out);
        }
    }

    fn rikeying(&self, joined: &Joined, group: &Group) -> Vec<u8> {
        let mut payload = Vec::with_capacity(128);
        payload.extend_from_slice(&joined.near.to_be_bytes());
        put_counted(&[&joined.nr[..], &joined.k.to_be_bytes(), &self.print, &joined.ni].concat(), &mut payload);
        let sign = group.sign.of(&[&payload]);
        payload.extend_from_slice(&sign);
        payload
    }
}

fn not_wide(bytes: &[u8]) -> Result<(), Cause> {
    if bytes.len() > 128 {
        return Err(Cause::Wide(bytes.len()));
    }
    Ok(())
}
