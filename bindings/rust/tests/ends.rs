//! Ends in memory, between which each datagram goes over: what the safe types make of the library.

use rtmfp::*;
use std::net::IpAddr;

/// How many milliseconds a turn takes.
const TURN: u64 = 100;

/// What an end told, without its bytes' borrow.
#[derive(Clone, Debug, PartialEq)]
enum Told {
    Out(Address, Vec<u8>),
    Handed(SessionId, FlowId, Vec<u8>),
    Queued(MessageId, Vec<u8>),
    Started(SessionId, Fingerprint),
    Born(Joined),
    Opened(Joined),
    Confirmed(SessionId, Fingerprint),
    Ended(SessionId, Why),
    Closed(SessionId),
    Sought(SessionId, Vec<u8>),
    Unsought(SessionId, Why),
    Learnt(Generation),
    Advanced(Generation),
    Discard(u64, Cause),
    Abandoned(MessageId),
    Finished(FlowId, u64),
    FlowOpened(FlowId),
    Other,
}

fn told(entry: Entry<'_>) -> Told {
    match entry {
        Entry::Out { to, datagram } => Told::Out(to, datagram.to_vec()),
        Entry::Handed(it) => Told::Handed(it.session, it.flow, it.bytes.to_vec()),
        Entry::Queued(it) => Told::Queued(it.message, it.bytes.to_vec()),
        Entry::Started { session, peer, .. } => Told::Started(session, peer),
        Entry::Born(joined) => Told::Born(joined),
        Entry::Opened(joined) => Told::Opened(joined),
        Entry::Confirmed { session, peer } => Told::Confirmed(session, peer),
        Entry::Ended { session, why, .. } => Told::Ended(session, why),
        Entry::Closed { session } => Told::Closed(session),
        Entry::Sought { session, name } => Told::Sought(session, name.to_vec()),
        Entry::Unsought { session, why } => Told::Unsought(session, why),
        Entry::Learnt { generation } => Told::Learnt(generation),
        Entry::Advanced { generation } => Told::Advanced(generation),
        Entry::Discard { place, cause, .. } => Told::Discard(place, cause),
        Entry::Abandoned { message, .. } => Told::Abandoned(message),
        Entry::Finished { flow, last, .. } => Told::Finished(flow, last),
        Entry::FlowOpened { flow, .. } => Told::FlowOpened(flow),
        _ => Told::Other,
    }
}

/// An end, where it is, and what it told.
struct Side {
    end: Endpoint,
    place: Address,
    print: Fingerprint,
    seen: Vec<Told>,
}

/// Ends that reach each other.
struct World {
    sides: Vec<Side>,
    moment: Moment,
}

fn certificate(name: &str) -> Certificate {
    Certificate::new([name.len() as u8; 16], name).unwrap()
}

fn group() -> Group {
    Group::new(Secret::new([7; 32]))
}

fn context(moment: u64) -> Context {
    Context::new(Moment(moment), Draws::fresh().unwrap())
}

fn end(name: &str, config: Config) -> Endpoint {
    Endpoint::new(&config, &certificate(name), &group(), &Secret::fresh().unwrap()).unwrap()
}

fn place(number: u8) -> Address {
    Address::new(IpAddr::from([10, 0, 0, number]), 1935)
}

impl World {
    fn new(names: &[&str]) -> World {
        let side = |(index, name): (usize, &&str)| Side {
            end: end(name, Config::default()),
            place: place(index as u8 + 1),
            print: certificate(name).fingerprint(),
            seen: Vec::new(),
        };
        World { sides: names.iter().enumerate().map(side).collect(), moment: Moment(0) }
    }

    fn context(&self) -> Context {
        context(self.moment.0)
    }

    /// Brings what an end sends, and remembers what it tells.
    fn bring(&mut self, index: usize) {
        let side = &mut self.sides[index];
        let entries: Vec<Told> = side.end.entries().map(told).collect();
        side.end.clear();
        let from = side.place;
        side.seen.extend_from_slice(&entries);
        for entry in entries {
            let Told::Out(to, mut datagram) = entry else { continue };
            assert!(datagram.len() <= MAX_SENT);
            let context = self.context();
            if let Some(other) = self.sides.iter_mut().find(|it| it.place == to) {
                other.end.receive(from, &mut datagram, context).unwrap();
            }
        }
    }

    fn turn(&mut self, count: usize) {
        for _ in 0..count {
            self.moment.0 += TURN;
            for index in 0..self.sides.len() {
                let context = self.context();
                self.sides[index].end.tick(context).unwrap();
                self.bring(index);
            }
        }
    }

    /// What an end told, as far as a function takes it.
    fn of<T>(&self, index: usize, take: impl Fn(&Told) -> Option<T>) -> Vec<T> {
        self.sides[index].seen.iter().filter_map(take).collect()
    }

    fn handed(&self, index: usize) -> Vec<Vec<u8>> {
        self.of(index, |it| if let Told::Handed(_, _, it) = it { Some(it.clone()) } else { None })
    }

    fn joined(&self, index: usize) -> Vec<Joined> {
        self.of(index, |it| match it {
            Told::Opened(it) | Told::Born(it) => Some(*it),
            _ => None,
        })
    }

    fn ended(&self, index: usize) -> Vec<Why> {
        self.of(index, |it| if let Told::Ended(_, why) = it { Some(*why) } else { None })
    }

    /// The first end opens an attempt towards the second, at a place; the IDs of the session at
    /// both.
    fn join(&mut self) -> (SessionId, SessionId) {
        let (peer, at, context) = (self.sides[1].print, self.sides[1].place, self.context());
        assert_eq!(self.sides[0].end.open(&peer, &[at], context), Ok(AttemptId(1)));
        self.turn(10);
        (self.joined(0)[0].session, self.joined(1)[0].session)
    }

    fn send(&mut self, index: usize, session: SessionId, messages: &[Vec<u8>]) -> FlowId {
        let end = &mut self.sides[index].end;
        let flow = end.open_flow(session, &FlowOptions::default()).unwrap();
        for it in messages {
            end.queue(session, flow, it, MessageOptions::default()).unwrap();
        }
        flow
    }
}

fn pattern(lengths: &[usize]) -> Vec<Vec<u8>> {
    lengths.iter().map(|&len| (0..len).map(|it| (it % 251 + len % 7) as u8).collect()).collect()
}

#[test]
fn messages_go_both_ways_whole_and_in_order() {
    let mut world = World::new(&["alice", "bob"]);
    let (here, there) = world.join();
    let (one, other) = (world.joined(0)[0], world.joined(1)[0]);
    assert_eq!((one.session.0, one.far), (other.far, other.session.0));
    assert_eq!((one.peer, other.peer), (world.sides[1].print, world.sides[0].print));
    assert_eq!(one.initiator_nonce, other.initiator_nonce);
    assert_eq!(one.responder_nonce, other.responder_nonce);
    assert!(world.sides[1].seen.contains(&Told::Confirmed(there, world.sides[0].print)));
    let (out, back) = (pattern(&[0, 1, 1000, 5000, 100_000]), pattern(&[3, 0, 70_000]));
    let flow = world.send(0, here, &out);
    world.send(1, there, &back);
    world.turn(200);
    assert_eq!((world.handed(1), world.handed(0)), (out.clone(), back));
    let told = |it: &Told| if let Told::Queued(_, it) = it { Some(it.clone()) } else { None };
    assert_eq!(world.of(0, told), out);
    assert!(world.sides[0].seen.contains(&Told::FlowOpened(flow)));
    let no_discard = |it: &Told| if let Told::Discard(..) = it { Some(()) } else { None };
    assert!(world.of(0, no_discard).is_empty() && world.of(1, no_discard).is_empty());
}

#[test]
fn a_closed_session_is_over_at_both_ends() {
    let mut world = World::new(&["alice", "bob"]);
    let (here, there) = world.join();
    let moment = world.moment;
    world.sides[0].end.close(here, moment).unwrap();
    world.turn(1000);
    assert_eq!((world.ended(0), world.ended(1)), (vec![Why::Near], vec![Why::Far]));
    assert!(world.sides[0].seen.contains(&Told::Closed(here)));
    assert!(world.sides[1].seen.contains(&Told::Closed(there)));
    assert!(!world.sides[0].end.keeps(&world.sides[1].print));
    assert_eq!(world.sides[0].end.close(here, Moment(0)), Err(Refusal::NoSession));
}

#[test]
fn of_two_attempts_at_once_one_becomes_a_session() {
    let mut world = World::new(&["alice", "bob"]);
    for (index, other) in [(0, 1), (1, 0)] {
        let (peer, at) = (world.sides[other].print, world.sides[other].place);
        world.sides[index].end.open(&peer, &[at], context(0)).unwrap();
    }
    world.turn(100);
    let (one, other) = (world.joined(0), world.joined(1));
    assert_eq!((one.len(), other.len()), (1, 1));
    assert_eq!((one[0].session.0, one[0].far), (other[0].far, other[0].session.0));
    let mut ended = [world.ended(0), world.ended(1)].concat();
    assert_eq!(ended.pop(), Some(Why::Glare));
    assert!(ended.is_empty());
    for (index, other) in [(0, 1), (1, 0)] {
        assert!(world.sides[index].end.keeps(&world.sides[other].print));
    }
    world.send(1, other[0].session, &pattern(&[2000]));
    world.turn(20);
    assert_eq!(world.handed(0), pattern(&[2000]));
}

#[test]
fn a_search_finds_an_end_by_its_name() {
    let mut world = World::new(&["alice", "bob"]);
    let at = world.sides[1].place;
    let search = world.sides[0].end.seek("bob", &[at], context(0)).unwrap();
    world.turn(10);
    assert!(world.sides[0].seen.contains(&Told::Sought(search, b"bob".to_vec())));
    assert!(world.sides[0].seen.contains(&Told::Started(search, world.sides[1].print)));
    assert_eq!(world.joined(0)[0].session, search);
    let context = world.context();
    let vain = world.sides[0].end.seek("nobody", &[at], context).unwrap();
    world.sides[0].end.unseek(vain).unwrap();
    assert_eq!(world.sides[0].end.unseek(vain), Err(Refusal::NoAttempt));
    world.turn(1);
    assert!(world.sides[0].seen.contains(&Told::Unsought(vain, Why::Cancelled)));
}

#[test]
fn an_end_introduces_two_others() {
    let mut world = World::new(&["alice", "bob", "carol"]);
    let (bob, at, carol) = (world.sides[1].print, world.sides[1].place, world.sides[2].place);
    world.sides[2].end.add_row(&bob, &[at]).unwrap();
    world.sides[2].end.introduce().unwrap();
    world.sides[0].end.open(&bob, &[carol], context(0)).unwrap();
    world.turn(20);
    assert_eq!((world.joined(0).len(), world.joined(1).len(), world.joined(2).len()), (1, 1, 0));
}

#[test]
fn a_narrowed_end_sends_in_pieces() {
    let mut world = World::new(&["alice", "bob"]);
    let (here, _) = world.join();
    for limit in [95, 1165, u16::MAX] {
        assert_eq!(world.sides[0].end.narrow(limit), Err(Refusal::Config));
    }
    world.sides[0].end.narrow(1164).unwrap();
    world.sides[0].end.narrow(96).unwrap();
    world.send(0, here, &pattern(&[3000]));
    world.turn(20);
    assert_eq!(world.handed(1), pattern(&[3000]));
}

#[test]
fn a_group_goes_over_to_another_secret() {
    let mut world = World::new(&["alice", "bob"]);
    let (here, _) = world.join();
    let next = Secret::fresh().unwrap();
    for side in &mut world.sides {
        assert_eq!(side.end.advance(), Err(Refusal::NoNext));
        assert_eq!(side.end.learn(&Secret::new([7; 32])), Err(Refusal::SameSecret));
        assert_eq!(side.end.learn(&next), Ok(Generation(1)));
        assert_eq!(side.end.learn(&next), Err(Refusal::NextKnown));
    }
    for side in &mut world.sides {
        assert_eq!(side.end.advance(), Ok(Generation(1)));
    }
    world.send(0, here, &pattern(&[3000]));
    world.turn(20);
    assert_eq!(world.handed(1), pattern(&[3000]));
    for it in [Told::Learnt(Generation(1)), Told::Advanced(Generation(1))] {
        assert!(world.sides[0].seen.contains(&it));
    }
    let last = Group { secret: Secret::new([7; 32]), generation: Generation(u64::MAX) };
    let cookies = Secret::fresh().unwrap();
    let mut end = Endpoint::new(&Config::default(), &certificate("dan"), &last, &cookies).unwrap();
    assert_eq!(end.learn(&next), Err(Refusal::GenerationsSpent));
}

#[test]
fn ends_of_two_groups_dont_meet() {
    let mut world = World::new(&["alice", "bob"]);
    let other = Group::new(Secret::new([8; 32]));
    let cookies = Secret::fresh().unwrap();
    world.sides[1].end =
        Endpoint::new(&Config::default(), &certificate("bob"), &other, &cookies).unwrap();
    let (peer, at) = (world.sides[1].print, world.sides[1].place);
    let attempt = world.sides[0].end.open(&peer, &[at], context(0)).unwrap();
    world.turn(20);
    assert!(world.joined(0).is_empty());
    assert!(world.sides[1].seen.contains(&Told::Discard(0, Cause::BadTag)));
    world.sides[0].end.cancel(attempt).unwrap();
    assert_eq!(world.sides[0].end.cancel(attempt), Err(Refusal::NoAttempt));
    world.turn(1);
    assert_eq!(world.ended(0), [Why::Cancelled]);
}

#[test]
fn a_wrong_datagram_is_discarded() {
    let mut world = World::new(&["alice", "bob"]);
    world.join();
    let at = place(9);
    let end = &mut world.sides[0].end;
    for (len, cause) in [(0, Cause::Short), (35, Cause::Short), (MAX_DATAGRAM, Cause::BadTag)] {
        end.receive(at, &mut vec![0; len], context(1000)).unwrap();
        let entries: Vec<Told> = end.entries().map(told).collect();
        assert_eq!(entries, [Told::Discard(0, cause)]);
        end.clear();
    }
    let mut long = vec![5; MAX_DATAGRAM + 1];
    assert_eq!(end.receive(at, &mut long, context(1000)), Err(Refusal::TooLong));
    assert!(long.iter().all(|it| *it == 5) && end.entries().next().is_none());
}

#[test]
fn a_repeated_datagram_is_discarded() {
    let mut world = World::new(&["alice", "bob"]);
    let (here, _) = world.join();
    world.send(0, here, &pattern(&[100]));
    let context = context(world.moment.0 + TURN);
    world.sides[0].end.tick(context).unwrap();
    let sent: Vec<Told> = world.sides[0].end.entries().map(told).collect();
    let find = |it: &Told| if let Told::Out(_, it) = it { Some(it.clone()) } else { None };
    let datagram = sent.iter().find_map(find).unwrap();
    for it in [datagram.clone(), datagram] {
        let context = world.context();
        world.sides[1].end.receive(place(1), &mut it.clone(), context).unwrap();
    }
    world.turn(1);
    assert_eq!(world.handed(1), pattern(&[100]));
    assert!(world.sides[1].seen.contains(&Told::Discard(0, Cause::Repeated)));
}

#[test]
fn what_isnt_within_the_limits_makes_no_end() {
    let make = |max_peers, max_sessions| {
        let config = Config { max_peers, max_sessions, introduces: true };
        Endpoint::new(&config, &certificate("alice"), &group(), &Secret::new([1; 32])).map(drop)
    };
    for (peers, sessions) in [(0, 1), (1_048_577, 1), (1, 0), (1, 65_537), (u32::MAX, u32::MAX)] {
        assert_eq!(make(peers, sessions), Err(Refusal::Config));
    }
    assert_eq!(make(1_048_576, 65_536), Ok(()));
    for name in ["", "ä", &"x".repeat(65)] {
        assert_eq!(Certificate::new([0; 16], name), Err(Refusal::Certificate));
    }
    assert!(Certificate::new([0; 16], &"x".repeat(64)).is_ok());
    assert_eq!(Certificate::read(&[0; MIN_CERTIFICATE - 1]), Err(Refusal::Certificate));
}

#[test]
fn attempts_and_searches_are_refused() {
    let mut end = end("alice", Config { max_peers: 2, max_sessions: 2, introduces: false });
    let print = |name| certificate(name).fingerprint();
    let (here, none) = ([place(2)], []);
    let mut open = |name, at: &[Address]| end.open(&print(name), at, context(0)).map(drop);
    assert_eq!(open("bob", &none), Err(Refusal::Candidates));
    assert_eq!(open("bob", &[place(2); MAX_CANDIDATES + 1]), Err(Refusal::Candidates));
    assert_eq!(open("bob", &[place(2); 1000]), Err(Refusal::Candidates));
    assert_eq!(open("bob", &[place(2); MAX_CANDIDATES]), Ok(()));
    assert_eq!(open("bob", &here), Err(Refusal::Opening));
    assert_eq!(open("alice", &here), Err(Refusal::OwnPrint));
    assert_eq!(open("carol", &here), Ok(()));
    assert_eq!(open("dan", &here), Err(Refusal::PeersFull));
    let mut seek = |name, at: &[Address]| end.seek(name, at, context(0)).map(drop);
    assert_eq!(seek("", &here), Err(Refusal::Name));
    assert_eq!(seek("ö", &here), Err(Refusal::Name));
    assert_eq!(seek("dan", &none), Err(Refusal::Candidates));
    assert_eq!(seek("dan", &here), Err(Refusal::SessionsFull));
    assert_eq!(end.add_row(&print("bob"), &none), Err(Refusal::Candidates));
    assert_eq!(end.add_row(&print("bob"), &[place(2); 17]), Err(Refusal::Candidates));
}

#[test]
fn calls_on_flows_are_refused() {
    let mut world = World::new(&["alice", "bob"]);
    let (session, _) = world.join();
    let end = &mut world.sides[0].end;
    let options = MessageOptions::default();
    let mut open = |options: FlowOptions<'_>| end.open_flow(session, &options);
    assert_eq!(open(FlowOptions { priority: 8, ..Default::default() }), Err(Refusal::Wide));
    let wide = [0; MAX_METADATA + 1];
    assert_eq!(open(FlowOptions { metadata: &wide, ..Default::default() }), Err(Refusal::Wide));
    let flow = open(FlowOptions { metadata: &[UNORDERED], ..Default::default() }).unwrap();
    let (no_session, no_flow) = (SessionId(session.0 ^ 1), FlowId(flow.0 + 1));
    assert_eq!(end.queue(no_session, flow, b"x", options), Err(Refusal::NoSession));
    assert_eq!(end.queue(session, no_flow, b"x", options), Err(Refusal::NoFlow));
    let long = vec![0; MAX_MESSAGE + 1];
    assert_eq!(end.queue(session, flow, &long, options), Err(Refusal::Message));
    assert_eq!(end.abandon(session, flow, MessageId(9)), Err(Refusal::NotQueued));
    let message = end.queue(session, flow, b"x", options).unwrap();
    assert_eq!(end.abandon(session, flow, message), Ok(()));
    end.finish(session, flow).unwrap();
    assert_eq!(end.finish(session, flow), Err(Refusal::Finished));
    assert_eq!(end.queue(session, flow, b"x", options), Err(Refusal::Finished));
    let peer = certificate("bob").fingerprint();
    assert_eq!(end.open(&peer, &[place(2)], context(1)), Err(Refusal::Open));
    let full = end.open_flow(session, &FlowOptions::default()).unwrap();
    let most = vec![0; MAX_MESSAGE];
    let refused = (0..1000).find_map(|_| end.queue(session, full, &most, options).err());
    assert_eq!(refused, Some(Refusal::Backlog));
    let refused = (0..400).find_map(|_| end.open_flow(session, &FlowOptions::default()).err());
    assert_eq!(refused, Some(Refusal::FlowsFull));
    assert!(end.entries().map(told).any(|it| it == Told::Abandoned(message)));
    assert!(end.entries().map(told).any(|it| matches!(it, Told::Finished(it, _) if it == flow)));
}

#[test]
fn a_late_message_isnt_sent() {
    let mut world = World::new(&["alice", "bob"]);
    let (session, _) = world.join();
    let past = MessageOptions { deadline: Some(Moment(1)), resends: Some(0) };
    let end = &mut world.sides[0].end;
    let flow = end.open_flow(session, &FlowOptions::default()).unwrap();
    let late = end.queue(session, flow, b"late", past).unwrap();
    end.queue(session, flow, b"now", MessageOptions::default()).unwrap();
    world.turn(50);
    assert_eq!(world.handed(1), [b"now"]);
    assert!(world.sides[0].seen.contains(&Told::Abandoned(late)));
}

#[test]
fn entries_are_counted_and_stay_until_cleared() {
    let mut end = end("alice", Config::default());
    let peer = certificate("bob").fingerprint();
    end.open(&peer, &[place(2)], context(0)).unwrap();
    assert!(!end.keeps(&peer));
    let (one, other): (Vec<_>, Vec<_>) = (end.entries().collect(), end.entries().collect());
    assert_eq!(one, other);
    assert_eq!((one.len(), end.entries().len()), (2, 2));
    assert_eq!(format!("{end:?}"), "Endpoint { entries: 2 }");
    end = Vec::from([end]).remove(0); // (it may be moved)
    end.clear();
    assert_eq!(end.entries().next(), None);
}
