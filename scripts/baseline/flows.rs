//! A plain Rust program of usual style that moves messages from a sender to a receiver in memory, for
//! comparison with `bench_parts`: the same lines `move SIZE COUNT WAITING LOST WINDOW`, the same limits and
//! refusals, deadlines, abandoned numbers and notices, no proofs. It scans where that serves: what is lost, what is
//! overdue, and what an ack counts against.
#[path = "replay/flow.rs"]
#[allow(dead_code)]
mod flow;

use flow::{read_vlu, vlu_len, Ack, Options, Receiver, Sender};
use std::collections::VecDeque;
use std::io::{self, BufRead};

const FLOW: u64 = 2;
const RESEND_AFTER: u64 = 250;
const ROOM: usize = 1_164;

/// An ack that can be read.
fn read_ack(bytes: &[u8]) -> Option<Ack<'_>> {
    let (_flow, rest) = read_vlu(bytes)?;
    let (blocks, rest) = read_vlu(rest)?;
    let (upto, pairs) = read_vlu(rest)?;
    let (mut last, mut left) = (upto, pairs);
    while !left.is_empty() {
        let (holes, after) = read_vlu(left)?;
        let (received, after) = read_vlu(after)?;
        last = last.checked_add(holes)?.checked_add(2)?.checked_add(received)?;
        left = after;
    }
    Some(Ack { blocks, upto, pairs })
}

/// What is sent next, where the window and the room of a packet allow it.
fn send_next(from: &mut Sender, window: u64, moment: u64) -> Option<flow::Pick> {
    let pick = from.offers(moment, RESEND_AFTER)?;
    let chunk = from.chunk(pick);
    let head = vlu_len(FLOW) + vlu_len(chunk.seq) + vlu_len(chunk.seq - chunk.forward);
    if from.flight + chunk.bytes.len() as u64 > window || 4 + head + chunk.bytes.len() > ROOM {
        return None;
    }
    from.send(pick, moment);
    Some(pick)
}

fn move_all(bytes: &[u8], size: usize, count: u64, waiting: usize, lost: u64, window: u64) -> (u64, u64) {
    let mut from = Sender::new();
    let mut to = Receiver::new(false);
    let mut acks: VecDeque<Vec<u8>> = VecDeque::new();
    let (mut queued, mut chunks, mut handed) = (0u64, 0u64, 0u64);
    let put_ack = |to: &Receiver, acks: &mut VecDeque<Vec<u8>>| {
        let mut ack = Vec::with_capacity(1_164);
        if to.ack(FLOW, 1_160, &mut ack) {
            acks.push_back(ack);
        }
    };
    for moment in 0.. {
        while let Some(ack) = acks.pop_front() {
            if let Some(ack) = read_ack(&ack) {
                let _ = from.take_ack(&ack);
            }
        }
        while queued < count && from.waiting() < waiting && from.queue(&bytes[..size], Options::default()).is_ok() {
            queued += 1;
        }
        from.find_lost(moment, RESEND_AFTER);
        from.overdue(moment);
        while let Some(pick) = send_next(&mut from, window, moment) {
            chunks += 1;
            if lost == 0 || chunks % lost != 0 {
                let _ = to.take(&from.chunk(pick));
                while to.next_message().is_some() {
                    handed += 1;
                }
            }
            if chunks % 2 == 0 {
                put_ack(&to, &mut acks);
            }
        }
        put_ack(&to, &mut acks);
        if handed >= count {
            break;
        }
    }
    (chunks, handed)
}

fn main() {
    let bytes = vec![0x55; 1_048_576];
    for line in io::stdin().lock().lines().map_while(Result::ok) {
        let words: Vec<&str> = line.split_whitespace().collect();
        let numbers: Vec<u64> = words.iter().skip(1).filter_map(|word| word.parse().ok()).collect();
        if let [size, count, waiting, lost, window] = numbers[..] {
            let (chunks, handed) = move_all(&bytes, size as usize, count, waiting as usize, lost, window);
            println!("{} {chunks} {handed}", words[0]);
        }
    }
}
