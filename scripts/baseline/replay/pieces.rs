//! The pieces of packets: how a packet is cut, and how pieces that come in any order are put together.
use crate::wire::Piece;

const MOST_PIECES: u64 = 64;
const MOST_BYTES: usize = 4_096;
const MOST_PACKETS: usize = 4;
const HELD_FOR: u64 = 5_000;

/// The pieces of a packet, each with so many bytes but the last one.
pub fn cut(packet: &[u8], id: u64, size: usize) -> Vec<Piece<'_>> {
    let last = packet.len().div_ceil(size) - 1;
    let stretches = packet.chunks(size).enumerate();
    stretches.map(|(at, bytes)| Piece { more: at < last, id, number: at as u64, bytes }).collect()
}

pub enum PieceRefusal {
    TooMany(u64),
    Conflict(u64),
    TooLong(usize),
    PacketsFull(usize),
}

struct Held {
    number: u64,
    more: bool,
    bytes: Vec<u8>,
}

struct Parts {
    id: u64,
    since: u64,
    pieces: Vec<Held>,
}

/// What a session holds of packets that aren't whole.
#[derive(Default)]
pub struct Gathering {
    packets: Vec<Parts>,
}

impl Gathering {
    /// Takes a piece, and gives the packet that it completes.
    pub fn take(&mut self, piece: &Piece<'_>, moment: u64) -> Result<Option<Vec<u8>>, PieceRefusal> {
        self.packets.retain(|parts| moment < parts.since + HELD_FOR);
        let at = self.packets.iter().position(|parts| parts.id == piece.id);
        let held = at.map_or(&[][..], |at| &self.packets[at].pieces);
        if held.iter().any(|x| x.number == piece.number && x.more == piece.more && x.bytes == piece.bytes) {
            return Ok(None);
        }
        if piece.number >= MOST_PIECES {
            return Err(PieceRefusal::TooMany(piece.number));
        }
        let conflicts = |x: &Held| {
            x.number == piece.number || !x.more && x.number < piece.number || !piece.more && piece.number < x.number
        };
        if held.iter().any(conflicts) {
            return Err(PieceRefusal::Conflict(piece.number));
        }
        let bytes: usize = held.iter().map(|x| x.bytes.len()).sum();
        if bytes + piece.bytes.len() > MOST_BYTES {
            return Err(PieceRefusal::TooLong(bytes));
        }
        if at.is_none() && self.packets.len() >= MOST_PACKETS {
            return Err(PieceRefusal::PacketsFull(self.packets.len()));
        }
        let at = at.unwrap_or_else(|| {
            self.packets.push(Parts { id: piece.id, since: moment, pieces: Vec::new() });
            self.packets.len() - 1
        });
        let pieces = &mut self.packets[at].pieces;
        pieces.push(Held { number: piece.number, more: piece.more, bytes: piece.bytes.to_vec() });
        let last = pieces.iter().find(|x| !x.more).map(|x| x.number);
        if last.is_none_or(|last| pieces.len() as u64 != last + 1) {
            return Ok(None);
        }
        let mut parts = self.packets.remove(at);
        parts.pieces.sort_by_key(|x| x.number);
        Ok(Some(parts.pieces.into_iter().flat_map(|x| x.bytes).collect()))
    }
}
