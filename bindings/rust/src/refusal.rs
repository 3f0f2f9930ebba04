//! What calls are refused with.

use crate::sys;
use std::error::Error;
use std::fmt;

macro_rules! refusals {
    ($($name:ident = $number:ident, $text:literal;)*) => {
        /// Why a call was refused. All is then as before, but for the moment that was told; where
        /// [`receive`](crate::Endpoint::receive) and [`tick`](crate::Endpoint::tick) find no
        /// memory, a part may have been done.
        #[derive(Clone, Copy, Debug, PartialEq, Eq, Hash)]
        #[non_exhaustive]
        pub enum Refusal {
            $(#[doc = concat!($text, ".")] $name,)*
            /// The linked library has another version than this crate was written for: its
            /// `0x00MMmmpp`.
            Version(u32),
            /// A number that this crate doesn't know.
            Other(i32),
        }

        impl Refusal {
            /// The refusal that has this number.
            pub(crate) fn of(number: i32) -> Refusal {
                match number {
                    $(sys::$number => Refusal::$name,)*
                    _ => Refusal::Other(number),
                }
            }

            /// The number that `rtmfp.h` has for it; of a wrong version there is none.
            pub fn number(self) -> Option<i32> {
                match self {
                    $(Refusal::$name => Some(sys::$number),)*
                    Refusal::Version(_) => None,
                    Refusal::Other(number) => Some(number),
                }
            }
        }

        impl fmt::Display for Refusal {
            fn fmt(&self, f: &mut fmt::Formatter<'_>) -> fmt::Result {
                match self {
                    $(Refusal::$name => f.write_str($text),)*
                    Refusal::Version(it) => write!(f, "the library has the version {it:#08x}"),
                    Refusal::Other(number) => write!(f, "no answer of this library: {number}"),
                }
            }
        }
    };
}

refusals! {
    Memory = RTMFP_E_MEMORY, "out of memory";
    Empty = RTMFP_E_EMPTY, "the handle holds no end";
    Full = RTMFP_E_FULL, "the handle holds an end already";
    Config = RTMFP_E_CONFIG, "a limit of the end is out of its range";
    Certificate = RTMFP_E_CERTIFICATE, "the bytes are no certificate";
    TooLong = RTMFP_E_TOO_LONG, "the datagram has more than 2,048 bytes";
    Index = RTMFP_E_INDEX, "there is no such entry";
    Partly = RTMFP_E_PARTLY, "out of memory for a part of what the datagram does";
    Address = RTMFP_E_ADDRESS, "an address has an unknown family or origin";
    Candidates = RTMFP_E_CANDIDATES, "there are no addresses, or more than 16";
    Opening = RTMFP_E_OPENING, "an attempt towards the peer is held";
    Open = RTMFP_E_OPEN, "a session with the peer is held";
    PeersFull = RTMFP_E_PEERS_FULL, "as many peers are known as may be";
    AttemptsSpent = RTMFP_E_ATTEMPTS_SPENT, "no number of an attempt is left";
    OwnPrint = RTMFP_E_OWN_PRINT, "the peer is this end";
    SessionsFull = RTMFP_E_SESSIONS_FULL, "there are as many attempts, searches and sessions as may be";
    RowsFull = RTMFP_E_ROWS_FULL, "there are as many rows of addresses as may be";
    Size = RTMFP_E_SIZE, "the room has another length than the entry's bytes";
    Name = RTMFP_E_NAME, "the bytes are no service name";
    NoAttempt = RTMFP_E_NO_ATTEMPT, "no attempt has this number, or no search this ID";
    NoSession = RTMFP_E_NO_SESSION, "no session has this ID";
    NoFlow = RTMFP_E_NO_FLOW, "the session opened no such flow";
    FlowsFull = RTMFP_E_FLOWS_FULL, "the session has as many flows as may be";
    Wide = RTMFP_E_WIDE, "the metadata or the priority passes its limit";
    NotQueued = RTMFP_E_NOT_QUEUED, "no message that waits begins at the number";
    Finished = RTMFP_E_FINISHED, "the flow is finished";
    Message = RTMFP_E_MESSAGE, "the message has more than 1,048,576 bytes";
    Backlog = RTMFP_E_BACKLOG, "the flow has no room until acknowledgements come";
    SequenceSpent = RTMFP_E_SEQUENCE_SPENT, "the flow has no numbers left";
    NextKnown = RTMFP_E_NEXT_KNOWN, "the next generation is known already";
    GenerationsSpent = RTMFP_E_GENERATIONS_SPENT, "no generation follows the last number";
    SameSecret = RTMFP_E_SAME_SECRET, "the secret is the current one";
    NoNext = RTMFP_E_NO_NEXT, "the next generation isn't known";
}

impl Error for Refusal {}

/// What a number says of a call.
pub(crate) fn done(number: i32) -> Result<(), Refusal> {
    if number >= sys::RTMFP_OK { Ok(()) } else { Err(Refusal::of(number)) }
}

#[cfg(test)]
mod tests {
    use super::*;

    #[test]
    fn each_number_has_a_refusal_and_a_text() {
        for number in -33..0 {
            let refusal = Refusal::of(number);
            assert_ne!(refusal, Refusal::Other(number));
            assert_eq!(refusal.number(), Some(number));
            assert!(!refusal.to_string().is_empty());
        }
        assert_eq!(Refusal::of(-34), Refusal::Other(-34));
        assert_eq!(done(0), Ok(()));
        assert_eq!(done(-1), Err(Refusal::Memory));
    }
}
