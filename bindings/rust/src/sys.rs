//! The calls, structs and numbers of `rtmfp.h`, as C has them. `rtmfp.h` tells what each does, and
//! the rules for its callers, which the safe types of this crate keep.
//!
//! Every function here is unsafe to call: the pointers have to be as the header's rules say.
#![allow(non_camel_case_types)]

use std::ffi::c_void;

/// The constants of a table, each with a text that says what it is.
macro_rules! numbers {
    ($kind:ty: $($name:ident = $number:expr, $text:literal;)*) => {
        $(#[doc = $text] pub const $name: $kind = $number;)*
    };
}

numbers! { u32:
    RTMFP_VERSION = 0x000400, "the version of the header: 0x00MMmmpp";
    RTMFP_ALWAYS = u32::MAX, "no limit to how often a message is sent again";
}

numbers! { u64:
    RTMFP_NEVER = u64::MAX, "no deadline";
}

numbers! { u16:
    RTMFP_MIN_LIMIT = 96, "the least limit of rtmfp_narrow ..";
    RTMFP_MAX_LIMIT = 1164, ".. and the greatest";
}

numbers! { usize:
    RTMFP_MAX_DATAGRAM = 2048, "the most bytes that rtmfp_receive takes";
    RTMFP_MAX_SENT = 1200, "the most bytes of a datagram that goes out";
    RTMFP_MAX_MESSAGE = 1_048_576, "the most bytes of a message";
    RTMFP_MAX_METADATA = 64, "the most bytes of a flow's metadata";
    RTMFP_MAX_CANDIDATES = 16, "the most addresses of an attempt or a row";
    RTMFP_MAX_ROWS = 1024, "the most rows of addresses";
    RTMFP_MIN_CERTIFICATE = 17, "16 instance bytes and a name ..";
    RTMFP_MAX_CERTIFICATE = 80, ".. of 1 to 64 ASCII bytes";
}

// What a call answers.
numbers! { i32:
    RTMFP_OK = 0, "done";
    RTMFP_E_MEMORY = -1, "out of memory";
    RTMFP_E_EMPTY = -2, "the handle holds no end";
    RTMFP_E_FULL = -3, "the handle holds an end already";
    RTMFP_E_CONFIG = -4, "a limit of the end is out of its range";
    RTMFP_E_CERTIFICATE = -5, "the bytes are no certificate";
    RTMFP_E_TOO_LONG = -6, "the datagram has more than 2,048 bytes";
    RTMFP_E_INDEX = -7, "there is no such entry";
    RTMFP_E_PARTLY = -8, "out of memory for a part of what the datagram does";
    RTMFP_E_ADDRESS = -9, "an address has an unknown family or origin";
    RTMFP_E_CANDIDATES = -10, "there are no addresses, or more than 16";
    RTMFP_E_OPENING = -11, "an attempt towards the peer is held";
    RTMFP_E_OPEN = -12, "a session with the peer is held";
    RTMFP_E_PEERS_FULL = -13, "as many peers are known as may be";
    RTMFP_E_ATTEMPTS_SPENT = -14, "no number of an attempt is left";
    RTMFP_E_OWN_PRINT = -15, "the peer is this end";
    RTMFP_E_SESSIONS_FULL = -16, "there are as many attempts, searches and sessions as may be";
    RTMFP_E_ROWS_FULL = -17, "there are as many rows of addresses as may be";
    RTMFP_E_SIZE = -18, "the room has another length than the entry's bytes";
    RTMFP_E_NAME = -19, "the bytes are no service name";
    RTMFP_E_NO_ATTEMPT = -20, "no attempt has this number, or no search this ID";
    RTMFP_E_NO_SESSION = -21, "no session has this ID";
    RTMFP_E_NO_FLOW = -22, "the session opened no such flow";
    RTMFP_E_FLOWS_FULL = -23, "the session has as many flows as may be";
    RTMFP_E_WIDE = -24, "the metadata or the priority passes its limit";
    RTMFP_E_NOT_QUEUED = -25, "no message that waits begins at the number";
    RTMFP_E_FINISHED = -26, "the flow is finished";
    RTMFP_E_MESSAGE = -27, "the message has more than 1,048,576 bytes";
    RTMFP_E_BACKLOG = -28, "the flow has no room until acknowledgements come";
    RTMFP_E_SEQUENCE_SPENT = -29, "the flow has no numbers left";
    RTMFP_E_NEXT_KNOWN = -30, "the next generation is known already";
    RTMFP_E_GENERATIONS_SPENT = -31, "no generation follows the last number";
    RTMFP_E_SAME_SECRET = -32, "the secret is the current one";
    RTMFP_E_NO_NEXT = -33, "the next generation isn't known";
}

// What an entry is. The fields that each has are those of the safe `Entry`; the others are 0.
numbers! { u32:
    RTMFP_OUT = 1, "a datagram to send";
    RTMFP_HANDED = 2, "a message of the peer";
    RTMFP_STARTED = 3, "an attempt began";
    RTMFP_BORN = 4, "a session of the peer's attempt";
    RTMFP_OPENED = 5, "the session of an own attempt";
    RTMFP_CONFIRMED = 6, "a session of the peer's attempt is no longer half-open";
    RTMFP_ENDED = 7, "an attempt or a session is over";
    RTMFP_CLOSED = 8, "a session that was closing is over";
    RTMFP_MOVED = 9, "a session's datagrams go to another address";
    RTMFP_FLOW_OPENED = 10, "an own flow was opened";
    RTMFP_QUEUED = 11, "an own message was queued";
    RTMFP_FINISHED = 12, "an own flow was finished";
    RTMFP_ABANDONED = 13, "an own message is sent no longer";
    RTMFP_DISCARD = 14, "a datagram or a part of one was discarded";
    RTMFP_SOUGHT = 15, "a search began";
    RTMFP_UNSOUGHT = 16, "a search is over, and no attempt came of it";
    RTMFP_LEARNT = 17, "the secret of a generation was learnt";
    RTMFP_ADVANCED = 18, "a generation became the current one";
}

// Why an attempt, a search or a session ended.
numbers! { u32:
    RTMFP_WHY_CANCELLED = 1, "it was given up here";
    RTMFP_WHY_EXPIRED = 2, "no answer came in time";
    RTMFP_WHY_GLARE = 3, "the peer's attempt, at the same time, won";
    RTMFP_WHY_OVERRIDE = 4, "a later session with the peer took its place";
    RTMFP_WHY_UNCONFIRMED = 5, "a half-open session wasn't confirmed in time";
    RTMFP_WHY_NEAR = 6, "this end closed it";
    RTMFP_WHY_FAR = 7, "the peer closed it";
    RTMFP_WHY_IDLE = 8, "the peer was silent for too long";
}

/// An end, or nothing: all zero bytes, or what the last call left there. Its fields are the
/// library's own.
#[repr(C)]
#[derive(Debug)]
pub struct rtmfp_end {
    /// The library's own.
    pub live_: u64,
    /// The library's own.
    pub held_: *mut c_void,
}

/// The limits of an end.
#[repr(C)]
#[derive(Debug)]
pub struct rtmfp_config {
    /// 1 to 1,048,576: the most peers that are ever known.
    pub max_peers: u32,
    /// 1 to 65,536: the most attempts and sessions at a time.
    pub max_sessions: u32,
    /// Not 0: it passes hellos on between those with whom it has sessions.
    pub introduces: u32,
}

/// The random values of one call.
#[repr(C)]
pub struct rtmfp_draws {
    /// A fresh nonce.
    pub nonce: [u8; 16],
    /// A fresh tag.
    pub tag: [u8; 16],
    /// A fresh token.
    pub token: [u8; 16],
    /// A fresh word.
    pub word: u32,
}

/// A transport address.
#[repr(C)]
#[derive(Clone, Copy, Debug)]
pub struct rtmfp_address {
    /// 4 or 6; 0 in an entry without an address.
    pub family: u8,
    /// 0 unknown, 1 local, 2 observed, 3 relay.
    pub origin: u8,
    /// In the machine's byte order.
    pub port: u16,
    /// Most significant byte first; of IPv4 the first four bytes count.
    pub host: [u8; 16],
}

/// An entry, tagged by its kind.
#[repr(C)]
#[derive(Debug)]
pub struct rtmfp_entry {
    /// `RTMFP_OUT` and so on.
    pub kind: u32,
    /// A session's ID here.
    pub near: u32,
    /// .. and at the peer.
    pub far: u32,
    /// `RTMFP_WHY_CANCELLED` and so on, or the number of a cause.
    pub code: u32,
    /// A flow's number.
    pub flow: u64,
    /// The number of a message's first fragment.
    pub seq: u64,
    /// The number of an attempt or of a generation, or a cause's value.
    pub number: u64,
    /// How many attempts the responder had started.
    pub k: u64,
    /// Where the bytes stand until the next call; null where there are none.
    pub data: *const u8,
    /// How many there are.
    pub len: usize,
    /// Where a datagram is to be sent.
    pub to: rtmfp_address,
    /// A fingerprint.
    pub peer: [u8; 32],
    /// The initiator's nonce.
    pub ni: [u8; 16],
    /// The responder's nonce.
    pub nr: [u8; 16],
}

unsafe extern "C" {
    /// The version of the library: 0x00MMmmpp.
    pub fn rtmfp_version() -> u32;
    /// Writes the fingerprint of a certificate.
    pub fn rtmfp_fingerprint(certificate: *const u8, len: usize, print: *mut [u8; 32]) -> i32;
    /// Makes an end in a handle that holds none.
    pub fn rtmfp_new(
        end: *mut rtmfp_end,
        config: *const rtmfp_config,
        certificate: *const u8,
        len: usize,
        generation: u64,
        group: *const [u8; 32],
        cookies: *const [u8; 32],
    ) -> i32;
    /// Frees the end, if the handle holds one.
    pub fn rtmfp_free(end: *mut rtmfp_end);
    /// Opens an attempt.
    pub fn rtmfp_open(
        end: *mut rtmfp_end,
        print: *const [u8; 32],
        candidates: *const rtmfp_address,
        count: usize,
        moment: u64,
        draws: *const rtmfp_draws,
        number: *mut u64,
    ) -> i32;
    /// Begins a search.
    pub fn rtmfp_seek(
        end: *mut rtmfp_end,
        name: *const u8,
        len: usize,
        candidates: *const rtmfp_address,
        count: usize,
        moment: u64,
        draws: *const rtmfp_draws,
        near: *mut u32,
    ) -> i32;
    /// Gives a search up.
    pub fn rtmfp_unseek(end: *mut rtmfp_end, near: u32) -> i32;
    /// Gives an attempt up.
    pub fn rtmfp_cancel(end: *mut rtmfp_end, number: u64) -> i32;
    /// Closes a session.
    pub fn rtmfp_close(end: *mut rtmfp_end, near: u32, moment: u64) -> i32;
    /// Opens a flow.
    pub fn rtmfp_open_flow(
        end: *mut rtmfp_end,
        near: u32,
        priority: u8,
        metadata: *const u8,
        len: usize,
        answers: u32,
        answered: u64,
        flow: *mut u64,
    ) -> i32;
    /// Queues a message.
    pub fn rtmfp_queue(
        end: *mut rtmfp_end,
        near: u32,
        flow: u64,
        message: *const u8,
        len: usize,
        deadline: u64,
        resends: u32,
        seq: *mut u64,
    ) -> i32;
    /// Abandons a message that waits.
    pub fn rtmfp_abandon(end: *mut rtmfp_end, near: u32, flow: u64, seq: u64) -> i32;
    /// Finishes a flow.
    pub fn rtmfp_finish(end: *mut rtmfp_end, near: u32, flow: u64) -> i32;
    /// Adds a row of addresses.
    pub fn rtmfp_add_row(
        end: *mut rtmfp_end,
        print: *const [u8; 32],
        addresses: *const rtmfp_address,
        count: usize,
    ) -> i32;
    /// Has the end introduce others.
    pub fn rtmfp_introduce(end: *mut rtmfp_end) -> i32;
    /// Has long packets of its sessions go out in pieces.
    pub fn rtmfp_narrow(end: *mut rtmfp_end, limit: u16) -> i32;
    /// Learns the secret of the next generation.
    pub fn rtmfp_learn(end: *mut rtmfp_end, secret: *const [u8; 32], generation: *mut u64) -> i32;
    /// Goes over to the generation that was learnt.
    pub fn rtmfp_advance(end: *mut rtmfp_end, generation: *mut u64) -> i32;
    /// Whether the end keeps a session with a peer: 1 or 0.
    pub fn rtmfp_keeps(end: *mut rtmfp_end, print: *const [u8; 32]) -> i32;
    /// Takes a datagram, which it deciphers in place.
    pub fn rtmfp_receive(
        end: *mut rtmfp_end,
        from: *const rtmfp_address,
        moment: u64,
        datagram: *mut u8,
        len: usize,
        draws: *const rtmfp_draws,
    ) -> i32;
    /// Does all that is due.
    pub fn rtmfp_tick(end: *mut rtmfp_end, moment: u64, draws: *const rtmfp_draws) -> i32;
    /// How many entries calls added.
    pub fn rtmfp_entries(end: *mut rtmfp_end) -> usize;
    /// Writes one of them.
    pub fn rtmfp_entry_at(end: *mut rtmfp_end, index: usize, entry: *mut rtmfp_entry) -> i32;
    /// Copies the bytes of one of them.
    pub fn rtmfp_entry_bytes(end: *mut rtmfp_end, index: usize, room: *mut u8, len: usize) -> i32;
    /// Drops the entries.
    pub fn rtmfp_clear(end: *mut rtmfp_end) -> i32;
}
