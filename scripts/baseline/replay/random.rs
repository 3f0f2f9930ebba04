//! Scripts of ends with sessions: random ones of two ends, which call on the flows of a session while datagrams are lost,
//! repeated and reordered; random ones of several, which also call each other, hang up, call again and move in between;
//! random ones of several that stand behind address translators or without one, and meet by an introducer; and transfers,
//! of which each so many-th datagram is lost.
use crate::flow::Options;
use crate::end::Entry;
use crate::places::Rule;
use crate::wire::{Address, Host};
use crate::{address_of, Step, StepFault, World};
use std::collections::VecDeque;

const MESSAGES: [u64; 8] = [0, 1, 3, 999, 1_000, 1_001, 2_500, 20_000];
const PARTS: u64 = 100;
/// What ends that are searched for are called: one of the names is the beginning of another.
const NAMES: [&str; 3] = ["lamp", "lamps", "printer"];
const RULES: [(Rule, Rule); 4] = [
    (Rule::Independent, Rule::Independent),
    (Rule::Independent, Rule::Dependent),
    (Rule::Dependent, Rule::Independent),
    (Rule::Dependent, Rule::Dependent),
];
/// How many ends call each other: they can keep twelve sessions and more.
const CALLERS: usize = 6;
const MEETING: usize = 3;
/// Times after which something ends, and shorter ones.
const LONG: [u64; 8] = [20, 1_000, 5_000, 18_999, 19_000, 20_000, 95_000, 120_000];

struct Script {
    world: World,
    ends: usize,
    x: u64,
    line: u64,
    /// How many of a hundred datagrams don't arrive in their order.
    disorder: u64,
    /// In a transfer each third one comes behind the one after it.
    swaps: bool,
    /// What was sent and not brought yet.
    pending: VecDeque<usize>,
    sent: usize,
}

/// A world after a script of so many lines behind the handshake.
pub fn run(seed: u64, steps: u64) -> Result<World, (StepFault, u64)> {
    let mut script = Script::new(seed, 2);
    script.disorder = script.draw(40);
    let done = script.handshake().and_then(|()| script.flow()).and_then(|()| (0..steps).try_for_each(|_| script.go_on()));
    done.map_err(|fault| (fault, script.line))?;
    Ok(script.world)
}

/// The same of ends that are narrowed now and then.
pub fn narrowed(seed: u64, steps: u64) -> Result<World, (StepFault, u64)> {
    let mut script = Script::new(seed, 2);
    script.disorder = script.draw(40);
    let begun = script.handshake().and_then(|()| script.narrow()).and_then(|()| script.flow());
    let done = begun.and_then(|()| {
        (0..steps).try_for_each(|_| if script.draw(60) == 0 { script.narrow() } else { script.go_on() })
    });
    done.map_err(|fault| (fault, script.line))?;
    Ok(script.world)
}

/// A world after a message of so many KiB went over between two ends of this limit: each tenth datagram is lost, and each
/// third one comes behind the one after it.
pub fn in_pieces(limit: u64, kibibytes: u64) -> Result<World, (StepFault, u64)> {
    let mut script = Script::new(0, 2);
    script.swaps = true;
    let flow = Step::Flow { end: 0, near: 3, priority: 4, metadata: vec![0x6d], answers: None };
    let narrow = |end| Step::Narrow { end, limit: limit as usize };
    let done = script.handshake().and_then(|()| script.step(narrow(0))).and_then(|()| script.step(narrow(1)));
    let done = done.and_then(|()| script.step(flow)).and_then(|()| script.carry(10, 1_024 * kibibytes as u32));
    done.map_err(|fault| (fault, script.line))?;
    Ok(script.world)
}

/// A world of several ends after a script of so many lines behind those of the ends.
pub fn calls(seed: u64, steps: u64) -> Result<World, (StepFault, u64)> {
    let mut script = Script::new(seed, CALLERS);
    script.disorder = script.draw(40);
    let done = script.meet().and_then(|()| (0..steps).try_for_each(|_| script.call()));
    done.map_err(|fault| (fault, script.line))?;
    Ok(script.world)
}

/// A world of several ends that also search for each other by name, after a script of so many lines behind those of the
/// ends. An end introduces, and all have few places for peers and sessions.
pub fn names(seed: u64, steps: u64) -> Result<World, (StepFault, u64)> {
    let mut script = Script::new(seed, CALLERS);
    script.disorder = script.draw(30);
    let done = script.meet_by_name().and_then(|()| (0..steps).try_for_each(|_| script.search()));
    done.map_err(|fault| (fault, script.line))?;
    Ok(script.world)
}

/// A world of several ends that change the group's secret while they search for and call each other, after a script of so
/// many lines behind those of the ends. Each learns and goes over by itself.
pub fn successions(seed: u64, steps: u64) -> Result<World, (StepFault, u64)> {
    let mut script = Script::new(seed, CALLERS);
    script.disorder = script.draw(30);
    let done = script.meet_by_name().and_then(|()| (0..steps).try_for_each(|_| script.succeed()));
    done.map_err(|fault| (fault, script.line))?;
    Ok(script.world)
}

/// A world of three ends that do little else than begin and end sessions, after a script of so many lines behind those of
/// the ends: they call and search for each other, hang up, change the group's secret, and time goes on in long steps.
pub fn meetings(seed: u64, steps: u64) -> Result<World, (StepFault, u64)> {
    let mut script = Script::new(seed, MEETING);
    script.disorder = script.draw(30);
    let done = script.meet_by_name().and_then(|()| (0..steps).try_for_each(|_| script.go_by()));
    done.map_err(|fault| (fault, script.line))?;
    Ok(script.world)
}

/// A world of several ends at places, of which the first introduces the others, after a script of so many lines behind
/// those that place them.
pub fn places(seed: u64, steps: u64) -> Result<World, (StepFault, u64)> {
    let mut script = Script::new(seed, CALLERS);
    script.disorder = script.draw(20);
    let done = script.meet().and_then(|()| script.settle()).and_then(|()| (0..steps).try_for_each(|_| script.go_between()));
    done.map_err(|fault| (fault, script.line))?;
    Ok(script.world)
}

/// A world after a transfer of so many megabytes, in messages of a million bytes.
pub fn transfer(lost: u64, megabytes: u64) -> Result<World, (StepFault, u64)> {
    let mut script = Script::new(0, 2);
    let flow = Step::Flow { end: 0, near: 3, priority: 4, metadata: vec![0x6d], answers: None };
    let done = script.handshake().and_then(|()| script.step(flow));
    let done = done.and_then(|()| (0..megabytes).try_for_each(|_| script.carry(lost, 1_000_000)));
    done.map_err(|fault| (fault, script.line))?;
    Ok(script.world)
}

impl Script {
    fn new(seed: u64, ends: usize) -> Self {
        Script { world: World::new(), ends, x: seed, line: 0, disorder: 0, swaps: false, pending: VecDeque::new(), sent: 0 }
    }

    /// A message goes over: each 50 ms a tick, and then all datagrams but each so many-th.
    fn carry(&mut self, lost: u64, length: u32) -> Result<(), StepFault> {
        let (options, message) = (Options::default(), (0..length).map(|i| (i % 251) as u8).collect());
        self.step(Step::Queue { end: 0, near: 3, flow: 0, options, message })?;
        let mut is_handed = false;
        while !is_handed {
            self.step(Step::At { moment: self.world.moment + 50 })?;
            self.step(Step::Tick { end: 0 })?;
            while let Some(number) = self.pending.pop_front() {
                if number as u64 % lost.max(1) == 0 && lost > 0 {
                    continue;
                }
                let behind = if self.swaps && number % 3 == 0 { self.pending.pop_front() } else { None };
                for number in behind.into_iter().chain([number]) {
                    self.bring(number)?;
                    let entries = self.world.journal.last().map_or(&[][..], |line| &line.entries);
                    is_handed |= entries.iter().any(|entry| matches!(entry, Entry::Handed { .. }));
                }
            }
        }
        Ok(())
    }

    /// A number below a bound.
    fn draw(&mut self, bound: u64) -> u64 {
        self.x = self.x.wrapping_mul(6_364_136_223_846_793_005).wrapping_add(1_442_695_040_888_963_407);
        (self.x >> 33) % bound
    }

    fn step(&mut self, step: Step) -> Result<(), StepFault> {
        self.line += 1;
        self.world.step(self.line, step)?;
        self.pending.extend(self.sent + 1..=self.world.sent.len());
        self.sent = self.world.sent.len();
        Ok(())
    }

    /// Brings a datagram to the end whose address it was sent to. Where ends move, one of forty comes from another place.
    fn bring(&mut self, number: usize) -> Result<(), StepFault> {
        let sent = &self.world.sent[number - 1];
        let (by, to) = (sent.by, sent.to);
        let Host::V4([.., last]) = to.host else { unreachable!("all ends have short addresses") };
        let mut from = address_of(by);
        if self.ends > 2 && self.draw(40) == 0 {
            from.port += 1 + self.draw(3) as u16;
        }
        self.step(Step::Deliver { number, end: usize::from(last) - 1, from })
    }

    fn end(&mut self) -> usize {
        self.draw(self.ends as u64) as usize
    }

    fn meet(&mut self) -> Result<(), StepFault> {
        (0..self.ends).try_for_each(|end| {
            let cert = format!("a certificate of e{end}");
            self.step(Step::End { name: format!("e{end}"), max_peers: 16, max_sessions: 16, cert })
        })
    }

    fn meet_by_name(&mut self) -> Result<(), StepFault> {
        for end in 0..self.ends {
            let cert = format!("instance no. {end:03}{}", NAMES[end % NAMES.len()]);
            let (max_peers, max_sessions) = (2 + self.draw(6) as usize, 3 + self.draw(6) as usize);
            self.step(Step::End { name: format!("e{end}"), max_peers, max_sessions, cert })?;
        }
        self.step(Step::Introduce { end: 0 })
    }

    fn handshake(&mut self) -> Result<(), StepFault> {
        for name in ["a", "b"] {
            let cert = format!("a certificate of {name}");
            self.step(Step::End { name: name.into(), max_peers: 16, max_sessions: 16, cert })?;
        }
        self.step(Step::Open { end: 0, peer: 1, list: vec![address_of(1)] })?;
        while let Some(number) = self.pending.pop_front() {
            self.bring(number)?;
        }
        Ok(())
    }

    /// The session ID of one of the sessions at an end, or one that isn't there.
    fn near(&mut self, end: usize) -> u32 {
        let nears = self.world.ends[end].nears();
        let place = self.draw(nears.len() as u64 + u64::from(nears.is_empty())) as usize;
        nears.get(place).copied().unwrap_or(1)
    }

    fn flow(&mut self) -> Result<(), StepFault> {
        let (end, priority) = (self.end(), self.draw(8) as u8);
        let metadata = if self.draw(3) == 0 { vec![0x61, 0x62] } else { vec![0x6d] };
        let answers = (self.draw(5) == 0).then(|| self.draw(2));
        let near = self.near(end);
        self.step(Step::Flow { end, near, priority, metadata, answers })
    }

    fn queue(&mut self) -> Result<(), StepFault> {
        let (end, flow) = (self.end(), self.draw(3));
        let size = MESSAGES[self.draw(8) as usize];
        let now = self.world.moment;
        let deadline = (self.draw(4) == 0).then(|| now + self.draw(2_000));
        let resends = (self.draw(4) == 0).then(|| self.draw(3) as u32);
        let message = (0..size).map(|i| (i % 251) as u8).collect();
        let options = Options { deadline, resends };
        let near = self.near(end);
        self.step(Step::Queue { end, near, flow, options, message })
    }

    /// Brings the next datagram, or carries it from where its sender stands, or loses it, or brings another one, also one
    /// that was brought before.
    fn bring_some(&mut self) -> Result<(), StepFault> {
        let Some(next) = self.pending.pop_front() else {
            let end = self.end();
            return self.step(Step::Tick { end });
        };
        if self.draw(PARTS) >= self.disorder {
            return self.bring_or_carry(next);
        }
        match self.draw(4) {
            0 | 1 => Ok(()),
            2 => {
                let place = self.draw(self.pending.len() as u64 + 1) as usize;
                self.pending.insert(place, next);
                Ok(())
            }
            _ => {
                let number = 1 + self.draw(self.sent as u64) as usize;
                self.bring_or_carry(number)
            }
        }
    }

    fn bring_or_carry(&mut self, number: usize) -> Result<(), StepFault> {
        if self.world.places.translators.is_empty() {
            return self.bring(number);
        }
        self.step(Step::Carry { number })
    }

    /// Makes translators of all kinds, of which some have few ports, and places all ends.
    fn settle(&mut self) -> Result<(), StepFault> {
        for (index, (mapping, filter)) in RULES.into_iter().enumerate() {
            let first = if self.draw(3) == 0 { u16::MAX - self.draw(4) as u16 } else { 40_000 };
            let (name, host) = (format!("t{index}"), [10, 1, 0, index as u8]);
            self.step(Step::Translator { name, mapping, filter, host, first })?;
        }
        self.step(Step::Introduce { end: 0 })?;
        self.step(Step::Place { end: 0, at: address_of(0), behind: None })?;
        (1..self.ends).try_for_each(|end| self.place(end))
    }

    /// Places an end: mostly behind a translator, mostly at an IPv4 place, always at one of its own.
    fn place(&mut self, end: usize) -> Result<(), StepFault> {
        let behind = (self.draw(4) > 0).then(|| self.draw(4) as usize);
        let own = if behind.is_some() { [192, 168, 0, end as u8 + 1] } else { [10, 0, 0, end as u8 + 1] };
        let host = if self.draw(40) == 0 { Host::V6([end as u8; 16]) } else { Host::V4(own) };
        let at = Address { host, port: 1935 + self.draw(2) as u16 };
        self.step(Step::Place { end, at, behind })
    }

    /// An address where somebody may be: the introducer's, one that something went to, that of an end, or a port of a
    /// translator.
    fn address(&mut self) -> Address {
        match self.draw(8) {
            0..=3 => address_of(0),
            4..=5 if self.sent > 0 => {
                let index = self.draw(self.sent as u64) as usize;
                self.world.sent[index].to
            }
            6 => address_of(self.end()),
            _ => Address { host: Host::V4([10, 1, 0, self.draw(4) as u8]), port: 40_000 + self.draw(6) as u16 },
        }
    }

    /// A step of ends that meet through translators, or one that goes on with their messages.
    fn go_between(&mut self) -> Result<(), StepFault> {
        let (end, peer) = (self.end(), self.end());
        match self.draw(PARTS) {
            0..=4 => {
                let list = (0..1 + self.draw(3)).map(|_| self.address()).collect();
                self.step(Step::Open { end, peer, list })
            }
            5 if self.draw(8) == 0 => self.place(end.max(1)),
            5 => {
                let list = (0..1 + self.draw(2)).map(|_| self.address()).collect();
                self.step(Step::Redirect { end: 0, peer, list })
            }
            6 if self.draw(4) == 0 => {
                let near = self.near(end);
                self.step(Step::Close { end, near })
            }
            7 => {
                let n = 1 + self.draw(12);
                self.step(Step::Cancel { end, n })
            }
            8 => self.flow(),
            9 if self.draw(3) == 0 => {
                let moment = self.world.moment + 20_000;
                self.step(Step::At { moment })
            }
            9..=40 => self.bring_some(),
            _ => self.go_on(),
        }
    }

    /// A step of ends that search for each other, or one of ends that call each other.
    fn search(&mut self) -> Result<(), StepFault> {
        let (end, peer) = (self.end(), self.end());
        match self.draw(PARTS) {
            0..=4 => {
                let name = NAMES[self.draw(NAMES.len() as u64) as usize].as_bytes();
                let name = if self.draw(12) == 0 { &name[1..] } else { name }.to_vec();
                let list = (0..self.draw(4)).map(|_| address_of(self.end())).collect();
                self.step(Step::Seek { end, name, list })
            }
            5 => {
                let begun = self.world.ends[end].begun();
                let place = self.draw(begun.len() as u64 + 1) as usize;
                self.step(Step::Unseek { end, near: begun.get(place).copied().unwrap_or(7) })
            }
            6 if self.draw(3) == 0 => {
                let list = (0..1 + self.draw(2)).map(|_| address_of(self.end())).collect();
                self.step(Step::Redirect { end: 0, peer, list })
            }
            7 => {
                let moment = self.world.moment + [20, 5_000, 20_000, 94_999][self.draw(4) as usize];
                self.step(Step::At { moment })
            }
            8..=40 => self.bring_some(),
            41..=46 => self.step(Step::Tick { end }),
            _ => self.call(),
        }
    }

    /// A step of ends that begin and end sessions, of which half bring a datagram: some to an end that it wasn't sent to, or
    /// with a bit turned.
    fn go_by(&mut self) -> Result<(), StepFault> {
        let (end, peer) = (self.end(), self.end());
        match self.draw(PARTS) {
            0..=12 => self.step(Step::Open { end, peer, list: vec![address_of(peer)] }),
            13..=16 => {
                let name = NAMES[self.draw(MEETING as u64) as usize].as_bytes().to_vec();
                self.step(Step::Seek { end, name, list: vec![address_of(peer)] })
            }
            17..=18 => {
                let begun = self.world.ends[end].begun();
                let place = self.draw(begun.len() as u64 + 1) as usize;
                self.step(Step::Unseek { end, near: begun.get(place).copied().unwrap_or(7) })
            }
            19..=20 => {
                let n = 1 + self.draw(8);
                self.step(Step::Cancel { end, n })
            }
            21..=24 => {
                let near = self.near(end);
                self.step(Step::Close { end, near })
            }
            25..=28 => {
                let moment = self.world.moment + LONG[self.draw(LONG.len() as u64) as usize];
                self.step(Step::At { moment })
            }
            29..=40 => self.step(Step::Tick { end }),
            41 => self.step(Step::Learn { end }),
            42 => self.step(Step::Advance { end }),
            43 => self.flow(),
            44 => self.queue(),
            45..=48 if self.sent > 0 => {
                let (number, from) = (1 + self.draw(self.sent as u64) as usize, address_of(peer));
                if self.draw(4) > 0 {
                    return self.step(Step::Deliver { number, end, from });
                }
                let place = self.draw(self.world.sent[number - 1].datagram.len() as u64) as usize;
                self.step(Step::Bent { number, place, end, from })
            }
            _ => self.bring_some(),
        }
    }

    /// A step of ends that change the group's secret, or one of ends that search for each other.
    fn succeed(&mut self) -> Result<(), StepFault> {
        let (end, peer) = (self.end(), self.end());
        // Mostly one that is behind the others.
        let ends = &self.world.ends;
        let last = (0..self.ends).min_by_key(|end| ends[*end].generation()).unwrap_or(0);
        let next = if self.draw(8) == 0 { end } else { last };
        match self.draw(2 * PARTS) {
            0 => self.step(Step::Learn { end: next }),
            1 => self.step(Step::Learn { end }),
            2 => self.step(Step::Advance { end: next }),
            3..=20 => self.step(Step::Open { end, peer, list: vec![address_of(peer)] }),
            21..=80 => self.bring_some(),
            _ => self.search(),
        }
    }

    /// A step of ends that call each other, or one that goes on with their messages.
    fn call(&mut self) -> Result<(), StepFault> {
        let (end, peer) = (self.end(), self.end());
        match self.draw(PARTS) {
            0..=2 => self.step(Step::Open { end, peer, list: vec![address_of(peer)] }),
            3 if self.draw(4) == 0 => {
                let near = self.near(end);
                self.step(Step::Close { end, near })
            }
            3 => {
                let n = 1 + self.draw(6);
                self.step(Step::Cancel { end, n })
            }
            4..=6 => self.flow(),
            _ => self.go_on(),
        }
    }

    /// An end is narrowed, or gets another limit.
    fn narrow(&mut self) -> Result<(), StepFault> {
        let (end, limit) = (self.end(), [96, 97, 128, 300, 532, 1_000, 1_163, 1_164][self.draw(8) as usize]);
        self.step(Step::Narrow { end, limit })
    }

    fn go_on(&mut self) -> Result<(), StepFault> {
        let end = self.end();
        match self.draw(PARTS) {
            0 => self.flow(),
            1..=6 => self.queue(),
            7 => {
                let (flow, seq) = (self.draw(3), 1 + self.draw(30));
                let near = self.near(end);
                self.step(Step::Abandon { end, near, flow, seq })
            }
            8 if self.draw(20) == 0 => {
                let flow = self.draw(3);
                let near = self.near(end);
                self.step(Step::Finish { end, near, flow })
            }
            8..=20 => self.step(Step::Tick { end }),
            21..=26 => {
                let moment = self.world.moment + [1, 20, 150, 400][self.draw(4) as usize];
                self.step(Step::At { moment })
            }
            _ => self.bring_some(),
        }
    }
}
