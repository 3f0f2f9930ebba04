//! One end of the Secure Real-Time Media Flow Protocol (RFC 7016, with a cryptography profile of
//! its own), over `librtmfp.a`, whose code is proved. There are no sockets and no threads in it: a
//! program gives an end datagrams, moments and random values, and does what the end's entries say.
//!
//! ```
//! use rtmfp::{Address, Certificate, Clock, Config, Endpoint, Entry, Group, Secret};
//! use std::net::UdpSocket;
//!
//! # fn main() -> Result<(), Box<dyn std::error::Error>> {
//! let certificate = Certificate::new([1; 16], "alice")?;
//! let group = Group::new(Secret::new([7; 32])); // which all ends of the group have
//! let mut end = Endpoint::new(&Config::default(), &certificate, &group, &Secret::fresh()?)?;
//! let (socket, clock) = (UdpSocket::bind("127.0.0.1:0")?, Clock::start());
//! end.seek("bob", &[Address::from(socket.local_addr()?)], clock.context()?)?;
//!
//! // What a program does again and again, some times a second at least:
//! socket.set_nonblocking(true)?;
//! let mut room = [0; rtmfp::MAX_DATAGRAM + 1];
//! while let Ok((len, from)) = socket.recv_from(&mut room) {
//!     end.receive(from.into(), &mut room[..len], clock.context()?).ok(); // (it may be too long)
//! }
//! end.tick(clock.context()?)?;
//! for entry in end.entries() {
//!     match entry {
//!         Entry::Out { to, datagram } => drop(socket.send_to(datagram, to.socket_address())),
//!         Entry::Handed(message) => println!("{:?}", message.bytes),
//!         _ => {}
//!     }
//! }
//! end.clear();
//! # Ok(())
//! # }
//! ```
//!
//! # What the types keep
//!
//! `rtmfp.h` has rules that no call can test. Programs without `unsafe` keep most of them:
//!
//! - Handles and pointers: an [`Endpoint`] owns its handle, can't be copied, and frees it when it
//!   is dropped.
//! - Entries: an [`Entry`] borrows the end, so no call that changes the end is made while one is
//!   looked at.
//! - Threads: an [`Endpoint`] is neither [`Send`] nor [`Sync`].
//! - Draws: a call takes [`Draws`] by value, and they can't be copied. That those of
//!   [`Draws::from_bytes`] are fresh and from a cryptographic source is left to the program;
//!   [`Draws::fresh`] has them from the system.
//! - The library's version is looked at before the first call.
//!
//! It remains that a thread with an end has 64 KiB of stack left, that `malloc`, `realloc` and
//! `free` come from one allocator, and that no call is made by a signal handler or in a forked
//! child of a process with threads.
//!
//! `rtmfp_entry_bytes` has no safe form: `to_vec` of an entry's bytes does the same.
#![deny(missing_docs, unsafe_op_in_unsafe_fn)]

mod address;
mod endpoint;
mod entry;
mod random;
mod refusal;
mod shapes;
pub mod sys;

pub use address::{Address, Origin};
pub use endpoint::{Endpoint, Entries};
pub use entry::{Cause, Entry, Joined, Sent, Why};
pub use random::bytes as random_bytes;
pub use refusal::Refusal;
pub use shapes::{
    AttemptId, Certificate, Clock, Config, Context, Draws, Fingerprint, FlowId, FlowOptions,
    Generation, Group, MessageId, MessageOptions, Moment, Secret, SessionId,
};

/// The most bytes of a datagram that [`Endpoint::receive`] takes.
pub const MAX_DATAGRAM: usize = sys::RTMFP_MAX_DATAGRAM;
/// The most bytes of a datagram that goes out.
pub const MAX_SENT: usize = sys::RTMFP_MAX_SENT;
/// The least limit of [`Endpoint::narrow`] ..
pub const MIN_LIMIT: u16 = sys::RTMFP_MIN_LIMIT;
/// .. and the greatest, with which an end begins.
pub const MAX_LIMIT: u16 = sys::RTMFP_MAX_LIMIT;
/// The most bytes of a message.
pub const MAX_MESSAGE: usize = sys::RTMFP_MAX_MESSAGE;
/// The most bytes of a flow's metadata.
pub const MAX_METADATA: usize = sys::RTMFP_MAX_METADATA;
/// The most addresses of an attempt, a search or a row.
pub const MAX_CANDIDATES: usize = sys::RTMFP_MAX_CANDIDATES;
/// The most rows of addresses.
pub const MAX_ROWS: usize = sys::RTMFP_MAX_ROWS;
/// The least bytes of a certificate: 16 instance bytes and a name ..
pub const MIN_CERTIFICATE: usize = sys::RTMFP_MIN_CERTIFICATE;
/// .. and the most.
pub const MAX_CERTIFICATE: usize = sys::RTMFP_MAX_CERTIFICATE;
/// The first byte of a flow's metadata that asks for messages as they arrive.
pub const UNORDERED: u8 = 0x61;
