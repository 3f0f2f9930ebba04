//! What an end tells.

use crate::address::Address;
use crate::shapes::{AttemptId, Fingerprint, FlowId, Generation, MessageId, SessionId};
use crate::sys;
use std::{fmt, ptr, slice};

/// A session, as one of its ends has it.
#[derive(Clone, Copy, Debug, PartialEq, Eq)]
pub struct Joined {
    /// Its ID at this end.
    pub session: SessionId,
    /// Its ID at the peer.
    pub far: u32,
    /// The peer.
    pub peer: Fingerprint,
    /// The number of the initiator's attempt.
    pub attempt: AttemptId,
    /// How many attempts the responder had started before.
    pub responder_attempts: u64,
    /// The initiator's nonce.
    pub initiator_nonce: [u8; 16],
    /// The responder's nonce.
    pub responder_nonce: [u8; 16],
}

/// What happened, or is to be done. Its bytes are the end's own: they can be read until the next
/// call that changes the end, and `to_vec` keeps them for longer.
#[derive(Clone, Copy, Debug, PartialEq, Eq)]
#[non_exhaustive]
pub enum Entry<'a> {
    /// Send this datagram there.
    Out {
        /// The place.
        to: Address,
        /// At most [`MAX_SENT`](crate::MAX_SENT) bytes.
        datagram: &'a [u8],
    },
    /// A message of the peer, whole, at most once.
    Handed(Sent<'a>),
    /// An attempt began.
    Started {
        /// The ID that its session will have.
        session: SessionId,
        /// The end towards which it goes.
        peer: Fingerprint,
        /// Its number.
        attempt: AttemptId,
        /// Its nonce.
        initiator_nonce: [u8; 16],
    },
    /// A session of the peer's attempt, which is half-open until it is confirmed.
    Born(Joined),
    /// The session of an own attempt.
    Opened(Joined),
    /// A session of the peer's attempt is no longer half-open.
    Confirmed {
        /// The session.
        session: SessionId,
        /// Its peer.
        peer: Fingerprint,
    },
    /// An attempt or a session is over.
    Ended {
        /// The session.
        session: SessionId,
        /// Its peer.
        peer: Fingerprint,
        /// Why it is over.
        why: Why,
    },
    /// A session that was closing is over, and its ID is free.
    Closed {
        /// The session.
        session: SessionId,
    },
    /// A search began. Once an end answers, [`Entry::Started`] tells the attempt towards it.
    Sought {
        /// The ID that its session will have.
        session: SessionId,
        /// The name for which it looks: ASCII bytes.
        name: &'a [u8],
    },
    /// A search is over, and no attempt came of it.
    Unsought {
        /// The ID of the search.
        session: SessionId,
        /// Why it is over.
        why: Why,
    },
    /// The session's datagrams go to another place from now on.
    Moved {
        /// The session.
        session: SessionId,
        /// The place.
        to: Address,
    },
    /// The secret of a generation of the group was learnt.
    Learnt {
        /// That generation.
        generation: Generation,
    },
    /// A generation became the current one.
    Advanced {
        /// That generation.
        generation: Generation,
    },
    /// An own flow was opened.
    FlowOpened {
        /// The session.
        session: SessionId,
        /// The flow.
        flow: FlowId,
    },
    /// An own message was queued.
    Queued(Sent<'a>),
    /// An own flow was finished.
    Finished {
        /// The session.
        session: SessionId,
        /// The flow.
        flow: FlowId,
        /// The flow's last number: that of the last fragment of its last message.
        last: u64,
    },
    /// An own message is sent no longer.
    Abandoned {
        /// The session.
        session: SessionId,
        /// The flow.
        flow: FlowId,
        /// The message.
        message: MessageId,
    },
    /// A datagram or a part of one was discarded.
    Discard {
        /// Where the part stands in the plain packet, in bytes; 0 for the whole datagram.
        place: u64,
        /// What was wrong with it.
        cause: Cause,
        /// The cause's value, if it has one, and else 0.
        value: u64,
        /// The number of a piece's refusal ([`Cause::Piece`]), and else 0.
        refusal: u64,
    },
    /// An entry that this crate doesn't know.
    Other {
        /// Its number.
        kind: u32,
    },
}

/// A message of a flow.
#[derive(Clone, Copy, Debug, PartialEq, Eq)]
pub struct Sent<'a> {
    /// The session.
    pub session: SessionId,
    /// The flow.
    pub flow: FlowId,
    /// Its number in the flow.
    pub message: MessageId,
    /// The message itself.
    pub bytes: &'a [u8],
}

impl<'a> Entry<'a> {
    /// What the library wrote.
    ///
    /// # Safety
    /// `data` is null, or it leads to `len` bytes that stay for `'a` and that nothing writes
    /// meanwhile.
    pub(crate) unsafe fn of(it: &sys::rtmfp_entry) -> Entry<'a> {
        // SAFETY: the caller's promise.
        let bytes =
            if it.data.is_null() { &[] } else { unsafe { slice::from_raw_parts(it.data, it.len) } };
        let (session, flow, message) = (SessionId(it.near), FlowId(it.flow), MessageId(it.seq));
        match it.kind {
            sys::RTMFP_OUT => Entry::Out { to: Address::of_c(&it.to), datagram: bytes },
            sys::RTMFP_HANDED => Entry::Handed(Sent { session, flow, message, bytes }),
            sys::RTMFP_QUEUED => Entry::Queued(Sent { session, flow, message, bytes }),
            sys::RTMFP_FLOW_OPENED => Entry::FlowOpened { session, flow },
            sys::RTMFP_FINISHED => Entry::Finished { session, flow, last: it.seq },
            sys::RTMFP_ABANDONED => Entry::Abandoned { session, flow, message },
            sys::RTMFP_SOUGHT => Entry::Sought { session, name: bytes },
            _ => Entry::of_numbers(it),
        }
    }

    /// An entry without bytes.
    fn of_numbers(it: &sys::rtmfp_entry) -> Entry<'a> {
        let (session, peer, why) = (SessionId(it.near), Fingerprint(it.peer), Why::of(it.code));
        let (attempt, generation) = (AttemptId(it.number), Generation(it.number));
        match it.kind {
            sys::RTMFP_STARTED => Entry::Started { session, peer, attempt, initiator_nonce: it.ni },
            sys::RTMFP_BORN => Entry::Born(joined(it)),
            sys::RTMFP_OPENED => Entry::Opened(joined(it)),
            sys::RTMFP_CONFIRMED => Entry::Confirmed { session, peer },
            sys::RTMFP_ENDED => Entry::Ended { session, peer, why },
            sys::RTMFP_CLOSED => Entry::Closed { session },
            sys::RTMFP_UNSOUGHT => Entry::Unsought { session, why },
            sys::RTMFP_MOVED => Entry::Moved { session, to: Address::of_c(&it.to) },
            sys::RTMFP_LEARNT => Entry::Learnt { generation },
            sys::RTMFP_ADVANCED => Entry::Advanced { generation },
            sys::RTMFP_DISCARD => Entry::Discard {
                place: it.seq,
                cause: Cause::of(it.code),
                value: it.number,
                refusal: it.k,
            },
            kind => Entry::Other { kind },
        }
    }
}

fn joined(it: &sys::rtmfp_entry) -> Joined {
    Joined {
        session: SessionId(it.near),
        far: it.far,
        peer: Fingerprint(it.peer),
        attempt: AttemptId(it.number),
        responder_attempts: it.k,
        initiator_nonce: it.ni,
        responder_nonce: it.nr,
    }
}

/// A struct for the library to write an entry to.
pub(crate) fn room() -> sys::rtmfp_entry {
    sys::rtmfp_entry {
        kind: 0,
        near: 0,
        far: 0,
        code: 0,
        flow: 0,
        seq: 0,
        number: 0,
        k: 0,
        data: ptr::null(),
        len: 0,
        to: sys::rtmfp_address { family: 0, origin: 0, port: 0, host: [0; 16] },
        peer: [0; 32],
        ni: [0; 16],
        nr: [0; 16],
    }
}

/// An enum of numbers, and of those that this crate doesn't know.
macro_rules! numbered {
    ($(#[$said:meta])* $kind:ident:
     $($(#[$of:meta])* $name:ident = $number:pat, $text:literal;)*) => {
        $(#[$said])*
        #[derive(Clone, Copy, Debug, PartialEq, Eq, Hash)]
        #[non_exhaustive]
        pub enum $kind {
            $($(#[$of])* $name,)*
            /// A number that this crate doesn't know.
            Other(u32),
        }

        impl $kind {
            fn of(number: u32) -> $kind {
                match number {
                    $($number => $kind::$name,)*
                    _ => $kind::Other(number),
                }
            }
        }

        impl fmt::Display for $kind {
            fn fmt(&self, f: &mut fmt::Formatter<'_>) -> fmt::Result {
                match self {
                    $($kind::$name => f.write_str($text),)*
                    $kind::Other(number) => write!(f, "{number}"),
                }
            }
        }
    };
}

numbered! {
    /// Why an attempt, a search or a session ended.
    Why:
    /// It was given up here.
    Cancelled = sys::RTMFP_WHY_CANCELLED, "cancelled";
    /// No answer came in time.
    Expired = sys::RTMFP_WHY_EXPIRED, "expired";
    /// The attempt made way for a session of the peer's attempt, since the peer prevails.
    Glare = sys::RTMFP_WHY_GLARE, "glare";
    /// The session made way for a session of a newer attempt of the peer.
    Override = sys::RTMFP_WHY_OVERRIDE, "override";
    /// The half-open session wasn't confirmed in time.
    Unconfirmed = sys::RTMFP_WHY_UNCONFIRMED, "unconfirmed";
    /// This end closed it.
    Near = sys::RTMFP_WHY_NEAR, "near";
    /// The peer closed it.
    Far = sys::RTMFP_WHY_FAR, "far";
    /// Nothing came in it for too long.
    Idle = sys::RTMFP_WHY_IDLE, "idle";
}

numbered! {
    /// Why a datagram or a part of one was discarded. Some have a value, which [`Entry::Discard`]
    /// tells beside it.
    Cause:
    /// The datagram has fewer than 36 bytes.
    Short = 1, "short";
    /// Its session ID is neither 0 nor in use here.
    UnknownSession = 2, "unknown-session";
    /// It doesn't open in the context of that ID.
    BadTag = 3, "bad-tag";
    /// Its number is too old or was taken before.
    Repeated = 4, "repeated";
    /// The plain packet has no head; the value is the number of its fault.
    BadPacket = 5, "bad-packet";
    /// No chunk has the type that the value is.
    UnknownChunk = 6, "unknown-chunk";
    /// The field at the offset of the payload that the value is can't be read, a certificate or
    /// component there hasn't its form, or a session ID there is 0.
    Malformed = 7, "malformed";
    /// The chunk doesn't belong under the datagram's session ID, or the packet's mode doesn't.
    WrongPlace = 8, "wrong-place";
    /// A hello whose discriminator selects nothing that is answered or forwarded.
    NotSelected = 9, "not-selected";
    /// There is no attempt or search that the chunk could speak of.
    NoAttempt = 10, "no-attempt";
    /// The chunk is of another end than the attempt's peer, or of one without the search's name.
    WrongPeer = 11, "wrong-peer";
    /// The attempt or the session is in a state that doesn't take the chunk.
    WrongState = 12, "wrong-state";
    /// The cookie is none of this end's.
    BadCookie = 13, "bad-cookie";
    /// The signature isn't that of the payload.
    BadSignature = 14, "bad-signature";
    /// The component names another responder.
    WrongResponder = 15, "wrong-responder";
    /// The certificate of an initiator, or of what answers a search, is this end's own.
    OwnCertificate = 16, "own-certificate";
    /// The attempt's number isn't above the greatest one seen of the peer, which is the value.
    Stale = 17, "stale";
    /// An own attempt, whose number is the value, is held towards the peer, and this end prevails.
    Glare = 18, "glare";
    /// The peer has no row, and there are as many rows as may be; the value is how many.
    PeersFull = 19, "peers-full";
    /// Nothing is held with the peer, and there are as many sessions as may be; the value is how
    /// many.
    SessionsFull = 20, "sessions-full";
    /// An earlier chunk of the datagram is an initiator's keying.
    SecondKeying = 21, "second-keying";
    /// The flow isn't there, and the chunk doesn't make it, or it is associated with a flow that
    /// isn't there.
    UnknownFlow = 22, "unknown-flow";
    /// The bytes would pass the flow's buffer; the value is how many are held.
    BeyondBuffer = 23, "beyond-buffer";
    /// The number is above the flow's last number, or an end is told below the highest number
    /// taken; the value is that number.
    AfterFinal = 24, "after-final";
    /// A number above the highest one sent was acknowledged; it is the value.
    AckBeyond = 25, "ack-beyond";
    /// The new addresses would pass 16 beside the attempt's candidates; the value is how many it
    /// has.
    CandidatesFull = 26, "candidates-full";
    /// The chunk is a fragment outside of sessions, or in a packet that was gathered.
    Fragment = 27, "fragment";
    /// The chunk would make one receiving flow too many; the value is how many there are.
    FlowsFull = 28, "flows-full";
    /// A tag, a cookie or a ping has more bytes than may be; the value is how many.
    Wide = 29, "wide";
    /// Something is held with the end that answers a search; the value is that session's ID here.
    AlreadyHeld = 30, "already-held";
    /// 2^64-1 attempts were started, and a search is answered.
    AttemptsSpent = 31, "attempts-spent";
    /// The piece of a packet isn't held. The refusal is 1 where its number, the value, is above 63;
    /// 2 where what is held conflicts with its number; 3 where its packet would be too long, of
    /// which the value are the bytes held; and 4 where pieces of as many packets are held as may
    /// be, which is the value.
    Piece = 32, "piece";
    /// The piece completes a packet that can't be read; the value is the number of its fault, or 4
    /// where the packet is none of the peer's.
    BadWhole = 33, "bad-whole";
}
