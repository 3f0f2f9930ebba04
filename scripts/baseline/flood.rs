//! Sends hostile datagrams to a node on this machine, until its input ends, and tells how many of each kind it sent.
//!
//! Use: flood PORT SEED RECORDED FOREIGN. RECORDED has datagrams that an honest end sent, FOREIGN datagrams that are sealed
//! under another group's secret, each behind its length as two bytes. In turns it sends random bytes, a front part of a
//! recorded datagram, a recorded one, one with a bit turned, and a foreign one. It sends no faster than the node reads,
//! so that the system drops none.
use std::io::Read;
use std::net::UdpSocket;
use std::sync::atomic::{AtomicBool, Ordering};
use std::sync::Arc;
use std::time::Duration;

const LONGEST: u64 = 2100;
const MOST_QUEUED: u64 = 40_000;

struct Draw(u64);

impl Draw {
    fn below(&mut self, most: u64) -> u64 {
        self.0 ^= self.0 << 13;
        self.0 ^= self.0 >> 7;
        self.0 ^= self.0 << 17;
        (self.0 >> 11) % most.max(1)
    }

    fn one_of<'a>(&mut self, all: &'a [Vec<u8>]) -> &'a [u8] {
        &all[self.below(all.len() as u64) as usize]
    }
}

fn datagrams(path: &str) -> Vec<Vec<u8>> {
    let bytes = std::fs::read(path).expect("a file of datagrams");
    let (mut all, mut rest) = (Vec::new(), &bytes[..]);
    while rest.len() >= 2 {
        let length = usize::from(u16::from_be_bytes([rest[0], rest[1]]));
        all.push(rest[2..2 + length].to_vec());
        rest = &rest[2 + length..];
    }
    all
}

/// How many bytes wait to be read at a port.
fn queued(port: u16) -> u64 {
    let table = std::fs::read_to_string("/proc/net/udp").unwrap_or_default();
    let place = format!(":{port:04X}");
    for row in table.lines() {
        let fields: Vec<&str> = row.split_whitespace().collect();
        if fields.len() > 4 && fields[1].ends_with(&place) {
            let (_, waiting) = fields[4].split_once(':').unwrap_or(("", "0"));
            return u64::from_str_radix(waiting, 16).unwrap_or(0);
        }
    }
    0
}

fn made(kind: usize, draw: &mut Draw, recorded: &[Vec<u8>], foreign: &[Vec<u8>]) -> Vec<u8> {
    match kind {
        0 => (0..draw.below(LONGEST + 1)).map(|_| draw.below(256) as u8).collect(),
        1 => {
            let whole = draw.one_of(recorded).to_vec();
            let length = draw.below(whole.len() as u64) as usize;
            whole[..length].to_vec()
        }
        2 => draw.one_of(recorded).to_vec(),
        3 => {
            let mut bent = draw.one_of(recorded).to_vec();
            let at = draw.below(bent.len() as u64) as usize;
            bent[at] ^= 1 << draw.below(8);
            bent
        }
        _ => draw.one_of(foreign).to_vec(),
    }
}

fn main() {
    let words: Vec<String> = std::env::args().collect();
    let port: u16 = words[1].parse().expect("a port");
    let mut draw = Draw(words[2].parse::<u64>().expect("a seed").max(1));
    let (recorded, foreign) = (datagrams(&words[3]), datagrams(&words[4]));
    let socket = UdpSocket::bind("127.0.0.1:0").expect("a socket");
    let is_over = Arc::new(AtomicBool::new(false));
    let ends = is_over.clone();
    std::thread::spawn(move || {
        let _ = std::io::stdin().read_to_end(&mut Vec::new());
        ends.store(true, Ordering::SeqCst);
    });
    let mut sent = [0u64; 5];
    let mut at = 0usize;
    while !is_over.load(Ordering::SeqCst) {
        let kind = at % 5;
        if socket.send_to(&made(kind, &mut draw, &recorded, &foreign), ("127.0.0.1", port)).is_ok() {
            sent[kind] += 1;
        }
        at += 1;
        while at % 16 == 0 && queued(port) > MOST_QUEUED && !is_over.load(Ordering::SeqCst) {
            std::thread::sleep(Duration::from_micros(200));
        }
    }
    println!("random={} cut={} replayed={} bent={} foreign={}", sent[0], sent[1], sent[2], sent[3], sent[4]);
}
