//! SHA-256, HMAC, keys, sealed packets and the window against repeats.

pub type Print = [u8; 32];
pub type Nonce = [u8; 16];

const ROUND: [u32; 64] = [
    0x428a2f98, 0x71374491, 0xb5c0fbcf, 0xe9b5dba5, 0x3956c25b, 0x59f111f1, 0x923f82a4, 0xab1c5ed5, 0xd807aa98, 0x12835b01, 0x243185be,
    0x550c7dc3, 0x72be5d74, 0x80deb1fe, 0x9bdc06a7, 0xc19bf174, 0xe49b69c1, 0xefbe4786, 0x0fc19dc6, 0x240ca1cc, 0x2de92c6f, 0x4a7484aa,
    0x5cb0a9dc, 0x76f988da, 0x983e5152, 0xa831c66d, 0xb00327c8, 0xbf597fc7, 0xc6e00bf3, 0xd5a79147, 0x06ca6351, 0x14292967, 0x27b70a85,
    0x2e1b2138, 0x4d2c6dfc, 0x53380d13, 0x650a7354, 0x766a0abb, 0x81c2c92e, 0x92722c85, 0xa2bfe8a1, 0xa81a664b, 0xc24b8b70, 0xc76c51a3,
    0xd192e819, 0xd6990624, 0xf40e3585, 0x106aa070, 0x19a4c116, 0x1e376c08, 0x2748774c, 0x34b0bcb5, 0x391c0cb3, 0x4ed8aa4a, 0x5b9cca4f,
    0x682e6ff3, 0x748f82ee, 0x78a5636f, 0x84c87814, 0x8cc70208, 0x90befffa, 0xa4506ceb, 0xbef9a3f7, 0xc67178f2,
];

/// One round; the places of the eight words turn by one from a round to the next, so nothing is moved.
macro_rules! round {
    ($a:ident $b:ident $c:ident $d:ident $e:ident $f:ident $g:ident $h:ident, $k:expr) => {
        let s1 = $e.rotate_right(6) ^ $e.rotate_right(11) ^ $e.rotate_right(25);
        let t = $h.wrapping_add(s1).wrapping_add($g ^ $e & ($f ^ $g)).wrapping_add($k);
        let s0 = $a.rotate_right(2) ^ $a.rotate_right(13) ^ $a.rotate_right(22);
        $d = $d.wrapping_add(t);
        $h = t.wrapping_add(s0).wrapping_add($a & $b | $c & ($a | $b));
    };
}

fn compress(state: &mut [u32; 8], block: &[u8; 64]) {
    let mut w = [0u32; 64];
    for (word, bytes) in w.iter_mut().zip(block.chunks_exact(4)) {
        *word = u32::from_be_bytes(bytes.try_into().unwrap());
    }
    for i in 16..64 {
        let s0 = w[i - 15].rotate_right(7) ^ w[i - 15].rotate_right(18) ^ w[i - 15] >> 3;
        let s1 = w[i - 2].rotate_right(17) ^ w[i - 2].rotate_right(19) ^ w[i - 2] >> 10;
        w[i] = w[i - 16].wrapping_add(s0).wrapping_add(w[i - 7]).wrapping_add(s1);
    }
    let [mut a, mut b, mut c, mut d, mut e, mut f, mut g, mut h] = *state;
    for (k, w) in ROUND.chunks_exact(8).zip(w.chunks_exact(8)) {
        round!(a b c d e f g h, k[0].wrapping_add(w[0]));
        round!(h a b c d e f g, k[1].wrapping_add(w[1]));
        round!(g h a b c d e f, k[2].wrapping_add(w[2]));
        round!(f g h a b c d e, k[3].wrapping_add(w[3]));
        round!(e f g h a b c d, k[4].wrapping_add(w[4]));
        round!(d e f g h a b c, k[5].wrapping_add(w[5]));
        round!(c d e f g h a b, k[6].wrapping_add(w[6]));
        round!(b c d e f g h a, k[7].wrapping_add(w[7]));
    }
    for (x, y) in state.iter_mut().zip([a, b, c, d, e, f, g, h]) {
        *x = x.wrapping_add(y);
    }
}

#[derive(Clone)]
pub struct Sha256 {
    state: [u32; 8],
    block: [u8; 64],
    filled: usize,
    length: u64,
}

impl Sha256 {
    pub fn new() -> Self {
        let state = [0x6a09e667, 0xbb67ae85, 0x3c6ef372, 0xa54ff53a, 0x510e527f, 0x9b05688c, 0x1f83d9ab, 0x5be0cd19];
        Sha256 { state, block: [0; 64], filled: 0, length: 0 }
    }

    pub fn update(&mut self, mut bytes: &[u8]) {
        self.length += bytes.len() as u64;
        while !bytes.is_empty() {
            let n = bytes.len().min(64 - self.filled);
            self.block[self.filled..self.filled + n].copy_from_slice(&bytes[..n]);
            self.filled += n;
            bytes = &bytes[n..];
            if self.filled == 64 {
                compress(&mut self.state, &self.block);
                self.filled = 0;
            }
        }
    }

    pub fn finish(mut self) -> [u8; 32] {
        let bits = self.length * 8;
        self.block[self.filled] = 0x80;
        self.block[self.filled + 1..].fill(0);
        if self.filled >= 56 {
            compress(&mut self.state, &self.block);
            self.block.fill(0);
        }
        self.block[56..].copy_from_slice(&bits.to_be_bytes());
        compress(&mut self.state, &self.block);
        let mut out = [0; 32];
        for (bytes, word) in out.chunks_exact_mut(4).zip(self.state) {
            bytes.copy_from_slice(&word.to_be_bytes());
        }
        out
    }
}

pub fn sha256(bytes: &[u8]) -> [u8; 32] {
    let mut hash = Sha256::new();
    hash.update(bytes);
    hash.finish()
}

/// A key of HMAC, with its two pads hashed already.
#[derive(Clone)]
pub struct Hmac {
    inner: Sha256,
    outer: Sha256,
}

impl Hmac {
    pub fn new(key: &[u8]) -> Self {
        let mut pad = [0u8; 64];
        if key.len() > 64 {
            pad[..32].copy_from_slice(&sha256(key));
        } else {
            pad[..key.len()].copy_from_slice(key);
        }
        let (mut inner, mut outer) = (Sha256::new(), Sha256::new());
        inner.update(&pad.map(|x| x ^ 0x36));
        outer.update(&pad.map(|x| x ^ 0x5c));
        Hmac { inner, outer }
    }

    /// The code of these pieces, one after another.
    pub fn of(&self, pieces: &[&[u8]]) -> [u8; 32] {
        let mut inner = self.inner.clone();
        for piece in pieces {
            inner.update(piece);
        }
        let mut outer = self.outer.clone();
        outer.update(&inner.finish());
        outer.finish()
    }
}

/// The types of a packet's chunks, of which most have one.
pub enum Kinds {
    One(u8),
    Many(Vec<u8>),
}

impl Kinds {
    pub fn push(kinds: &mut Option<Kinds>, kind: u8) {
        match kinds {
            None => *kinds = Some(Kinds::One(kind)),
            Some(Kinds::One(first)) => *kinds = Some(Kinds::Many(vec![*first, kind])),
            Some(Kinds::Many(all)) => all.push(kind),
        }
    }
}

/// What a datagram is sealed for.
#[derive(Clone, PartialEq, Eq, Debug)]
pub enum Context {
    Startup { generation: u64 },
    Session { generation: u64, ni: Nonce, nr: Nonce, initiator: Print, responder: Print, sid_i: u32, sid_r: u32, to_responder: bool },
}

pub struct Keys {
    enc: Hmac,
    mac: Hmac,
}

impl Keys {
    /// The keys of a context under the group's secret.
    pub fn new(group: &Hmac, context: &Context) -> Self {
        match context {
            Context::Startup { .. } => {
                Keys { enc: Hmac::new(&group.of(&[b"rtmfp startup enc"])), mac: Hmac::new(&group.of(&[b"rtmfp startup mac"])) }
            }
            Context::Session { ni, nr, initiator, responder, sid_i, sid_r, to_responder, .. } => {
                let side = if *to_responder { b"i" } else { b"r" };
                let key = |label: &[u8]| {
                    let ids = (sid_i.to_be_bytes(), sid_r.to_be_bytes());
                    Hmac::new(&group.of(&[label, side, ni, nr, initiator, responder, &ids.0, &ids.1]))
                };
                Keys { enc: key(b"rtmfp session enc "), mac: key(b"rtmfp session mac ") }
            }
        }
    }

    fn tag(&self, sid: u32, number_and_text: &[u8]) -> [u8; 16] {
        self.mac.of(&[&sid.to_be_bytes(), number_and_text])[..16].try_into().unwrap()
    }

    fn mask(&self, number: &[u8; 16], text: &mut [u8]) {
        for (i, block) in text.chunks_mut(32).enumerate() {
            let stream = self.enc.of(&[number, &(i as u64).to_be_bytes()]);
            for (x, y) in block.iter_mut().zip(stream) {
                *x ^= y;
            }
        }
    }

    /// The whole datagram: the scrambled session ID and the sealed part.
    pub fn seal(&self, sid: u32, number: [u8; 16], plain: &[u8]) -> Vec<u8> {
        let mut out = Vec::with_capacity(36 + plain.len());
        out.extend_from_slice(&[0; 20]);
        out.extend_from_slice(&number);
        out.extend_from_slice(plain);
        self.mask(&number, &mut out[36..]);
        let tag = self.tag(sid, &out[20..]);
        out[4..20].copy_from_slice(&tag);
        let scrambled = sid ^ masks(&out);
        out[..4].copy_from_slice(&scrambled.to_be_bytes());
        out
    }

    /// The number and the plain packet of a datagram of at least 36 bytes, where its tag is right.
    pub fn open(&self, sid: u32, datagram: &[u8]) -> Option<([u8; 16], Vec<u8>)> {
        if self.tag(sid, &datagram[20..]) != datagram[4..20] {
            return None;
        }
        let number: [u8; 16] = datagram[20..36].try_into().unwrap();
        let mut plain = datagram[36..].to_vec();
        self.mask(&number, &mut plain);
        Some((number, plain))
    }
}

fn word(bytes: &[u8], at: usize) -> u32 {
    u32::from_be_bytes(bytes[at..at + 4].try_into().unwrap())
}

fn masks(datagram: &[u8]) -> u32 {
    word(datagram, 4) ^ word(datagram, 8)
}

/// The session ID of a datagram of at least 36 bytes.
pub fn session_id(datagram: &[u8]) -> u32 {
    word(datagram, 0) ^ masks(datagram)
}

/// The numbers of packets that were taken: the highest one, and a bit for each of the last 1,024.
pub struct Window {
    highest: u64,
    taken: [u64; 16],
}

impl Window {
    pub fn new() -> Self {
        let mut taken = [0; 16];
        taken[0] = 1;
        Window { highest: 0, taken }
    }

    /// Takes a number; false where it was taken before or is too old to tell.
    pub fn take(&mut self, n: u64) -> bool {
        let (place, bit) = ((n / 64 % 16) as usize, 1 << (n % 64));
        if n > self.highest {
            if n - self.highest >= 1024 {
                self.taken = [0; 16];
            } else {
                for gone in self.highest + 1..n {
                    self.taken[(gone / 64 % 16) as usize] &= !(1 << (gone % 64));
                }
            }
            self.highest = n;
        } else if self.highest - n >= 1024 || self.taken[place] & bit != 0 {
            return false;
        }
        self.taken[place] |= bit;
        true
    }
}
