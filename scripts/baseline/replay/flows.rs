//! The flows of one session: those that it sends in, numbered from 0, and those of the other end.
use crate::crypto::Kinds;
use crate::end::{Cause, Entry, Refusal};
use crate::flow::{put_vlu, read_vlu, vlu_len, Ack, Chunk, Options, Receiver, Sender};
use crate::wire;
use std::collections::BTreeMap;

const FLOWS: usize = 256;
const METADATA: usize = 64;
const HIGHEST_PRIORITY: u8 = 7;
const ARRIVING: u8 = 0x61;
const LEAST_WINDOW: u64 = 4_380;
const GREATEST_WINDOW: u64 = 1_048_576;
const FRAGMENT: u64 = 1_000;

struct Sending {
    priority: u8,
    /// The options of a first chunk, as they are spelled.
    options: Vec<u8>,
    sender: Sender,
}

pub struct Flows {
    sending: Vec<Sending>,
    receiving: BTreeMap<u64, Receiver>,
    window: u64,
    threshold: u64,
}

/// A data or next chunk of a flow.
pub struct Data<'a> {
    pub flow: u64,
    pub options: &'a [u8],
    pub chunk: Chunk<'a>,
}

/// The options of a list, each with its kind and its value.
fn options<'a>(mut list: &'a [u8]) -> impl Iterator<Item = (u64, &'a [u8])> {
    std::iter::from_fn(move || {
        let (length, rest) = read_vlu(list)?;
        let option = rest.get(..usize::try_from(length).ok()?)?;
        list = &rest[option.len()..];
        read_vlu(option)
    })
}

fn put_option(kind: u8, value: &[u8], out: &mut Vec<u8>) {
    put_vlu(1 + value.len() as u64, out);
    out.push(kind);
    out.extend_from_slice(value);
}

impl Flows {
    pub fn new() -> Self {
        Flows { sending: Vec::new(), receiving: BTreeMap::new(), window: LEAST_WINDOW, threshold: GREATEST_WINDOW }
    }

    // ---- calls

    pub fn open(&mut self, priority: u8, metadata: &[u8], answers: Option<u64>) -> Result<u64, Refusal> {
        if self.sending.len() >= FLOWS {
            return Err(Refusal::FlowsFull(FLOWS));
        }
        if metadata.len() > METADATA || priority > HIGHEST_PRIORITY {
            return Err(Refusal::WideMetadata(metadata.len()));
        }
        let mut options = Vec::new();
        put_option(0x00, metadata, &mut options);
        if let Some(flow) = answers {
            let mut value = Vec::new();
            put_vlu(flow, &mut value);
            put_option(0x0a, &value, &mut options);
        }
        options.push(0);
        self.sending.push(Sending { priority, options, sender: Sender::new() });
        Ok(self.sending.len() as u64 - 1)
    }

    fn sender(&mut self, flow: u64) -> Option<&mut Sender> {
        self.sending.get_mut(usize::try_from(flow).ok()?).map(|sending| &mut sending.sender)
    }

    pub fn queue(&mut self, flow: u64, message: &[u8], options: Options) -> Result<u64, Refusal> {
        self.sender(flow).ok_or(Refusal::NoFlow)?.queue(message, options).map_err(Refusal::Queue)
    }

    pub fn abandon(&mut self, flow: u64, seq: u64) -> Result<(), Refusal> {
        let sender = self.sender(flow).ok_or(Refusal::NoFlow)?;
        sender.abandon(seq).then_some(()).ok_or(Refusal::NotQueued)
    }

    pub fn finish(&mut self, flow: u64) -> Result<u64, Refusal> {
        self.sender(flow).ok_or(Refusal::NoFlow)?.finish().ok_or(Refusal::Finished)
    }

    // ---- what time does

    /// Numbers whose resend time has passed are lost, and that is one loss of the session.
    pub fn find_lost(&mut self, moment: u64, resend_after: u64) {
        let mut is_loss = false;
        for sending in &mut self.sending {
            is_loss |= sending.sender.find_lost(moment, resend_after);
        }
        if is_loss {
            self.threshold = (self.window / 2).max(LEAST_WINDOW);
            self.window = LEAST_WINDOW;
        }
    }

    /// Abandons what is overdue, by rising flow and number.
    pub fn abandon_overdue(&mut self, near: u32, moment: u64, out: &mut Vec<Entry>) {
        for (flow, sending) in self.sending.iter_mut().enumerate() {
            while let Some(seq) = sending.sender.overdue(moment) {
                out.push(Entry::Abandoned { near, flow: flow as u64, seq });
            }
        }
    }

    /// Packs chunks into a packet until none goes any more.
    pub fn fill(&mut self, packet: &mut Vec<u8>, moment: u64, resend_after: u64) -> Option<Kinds> {
        let mut kinds: Option<Kinds> = None;
        let mut before = None;
        let mut in_packet: Vec<usize> = Vec::new();
        let mut flight: u64 = self.sending.iter().map(|sending| sending.sender.flight).sum();
        loop {
            let mut best = None;
            for (id, sending) in self.sending.iter().enumerate() {
                if best.is_none_or(|(_, priority, _)| priority < sending.priority) {
                    best = sending.sender.offers(moment, resend_after).map(|pick| (id, sending.priority, pick)).or(best);
                }
            }
            let Some((id, _, pick)) = best else { return kinds };
            let Sending { options, sender, .. } = &mut self.sending[id];
            let chunk = sender.chunk(pick);
            let tells = !sender.was_heard() && !in_packet.contains(&id);
            let options = if tells { options.as_slice() } else { &[] };
            let flow = id as u64;
            let length = chunk.bytes.len() as u64;
            let head = 4 + vlu_len(flow) + vlu_len(chunk.seq) + vlu_len(chunk.seq - chunk.forward);
            let size = head + options.len() + chunk.bytes.len();
            if flight + length > self.window || packet.len() + size > wire::PACKET {
                return kinds;
            }
            let follows = before == Some((flow, chunk.forward, chunk.seq.wrapping_sub(1)));
            before = Some((flow, chunk.forward, chunk.seq));
            put_chunk(flow, &chunk, options, follows, packet);
            Kinds::push(&mut kinds, if follows { wire::NEXT } else { wire::DATA });
            flight += length;
            sender.send(pick, moment);
            in_packet.push(id);
        }
    }

    // ---- chunks of the other end

    /// Takes a chunk, and hands over what is ready then.
    pub fn take_data(&mut self, near: u32, data: &Data<'_>, out: &mut Vec<Entry>) -> Result<(), Cause> {
        let metadata = options(data.options).find(|(kind, _)| *kind == 0).map(|(_, value)| value);
        let knows = |value: &[u8]| {
            read_vlu(value).is_some_and(|(flow, rest)| rest.is_empty() && flow < self.sending.len() as u64)
        };
        let is_known = self.receiving.contains_key(&data.flow);
        if !is_known && metadata.is_none() || options(data.options).any(|(kind, value)| kind == 0x0a && !knows(value)) {
            return Err(Cause::UnknownFlow);
        }
        if !is_known {
            if self.receiving.len() >= FLOWS {
                return Err(Cause::FlowsFull(FLOWS));
            }
            let mut receiver = Receiver::new(metadata.is_some_and(|bytes| bytes.first() == Some(&ARRIVING)));
            receiver.take(&data.chunk).map_err(Cause::Flow)?;
            self.receiving.insert(data.flow, receiver);
        } else if let Some(receiver) = self.receiving.get_mut(&data.flow) {
            receiver.take(&data.chunk).map_err(Cause::Flow)?;
        }
        if let Some(receiver) = self.receiving.get_mut(&data.flow) {
            while let Some((seq, message)) = receiver.next_message() {
                out.push(Entry::Handed { near, flow: data.flow, seq, message });
            }
        }
        Ok(())
    }

    /// Takes an ack, which opens the window and closes it where it makes a number lost.
    pub fn take_ack(&mut self, flow: u64, ack: &Ack<'_>) -> Result<(), Cause> {
        let sender = self.sender(flow).ok_or(Cause::UnknownFlow)?;
        let (bytes, is_loss) = sender.take_ack(ack).map_err(Cause::AckBeyond)?;
        let more = if self.window < self.threshold { bytes } else { FRAGMENT * bytes / self.window };
        self.window = (self.window + more).min(GREATEST_WINDOW);
        if is_loss {
            self.threshold = (self.window / 2).max(LEAST_WINDOW);
            self.window = self.threshold;
        }
        Ok(())
    }

    /// Adds the acks of these flows, up to the first whose head doesn't fit, and gives those that are left.
    pub fn put_acks<'a>(&self, mut owed: &'a [u64], packet: &mut Vec<u8>, kinds: &mut Option<Kinds>) -> &'a [u64] {
        while let Some((flow, rest)) = owed.split_first() {
            let place = packet.len();
            packet.extend_from_slice(&[wire::ACKRANGES, 0, 0]);
            let room = wire::PACKET.saturating_sub(packet.len());
            if !self.receiving.get(flow).is_some_and(|receiver| receiver.ack(*flow, room, packet)) {
                packet.truncate(place);
                break;
            }
            let length = (packet.len() - place - 3) as u16;
            packet[place + 1..place + 3].copy_from_slice(&length.to_be_bytes());
            Kinds::push(kinds, wire::ACKRANGES);
            owed = rest;
        }
        owed
    }
}

/// Writes a data chunk, or a next chunk where one follows the chunk before it.
fn put_chunk(flow: u64, chunk: &Chunk<'_>, options: &[u8], follows: bool, packet: &mut Vec<u8>) {
    let place = packet.len();
    let part = match (chunk.begins, chunk.ends) {
        (true, true) => 0x00,
        (true, false) => 0x10,
        (false, true) => 0x20,
        (false, false) => 0x30,
    };
    let mut flags = part | if chunk.abandon { 0x02 } else { 0 } | if chunk.last { 0x01 } else { 0 };
    if !options.is_empty() {
        flags |= 0x80;
    }
    packet.extend_from_slice(&[if follows { wire::NEXT } else { wire::DATA }, 0, 0, flags]);
    if !follows {
        put_vlu(flow, packet);
        put_vlu(chunk.seq, packet);
        put_vlu(chunk.seq - chunk.forward, packet);
    }
    packet.extend_from_slice(options);
    packet.extend_from_slice(chunk.bytes);
    let length = (packet.len() - place - 3) as u16;
    packet[place + 1..place + 3].copy_from_slice(&length.to_be_bytes());
}
