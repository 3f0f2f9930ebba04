//! What calls are given and what they give: numbers, names and secrets.

use crate::refusal::{Refusal, done};
use crate::{random, sys};
use std::fmt;
use std::io;
use std::time::Instant;

/// Numbers of a kind, so that one isn't passed in the place of another. An end refuses those that
/// it doesn't have.
macro_rules! kinds_of_numbers {
    ($($(#[$said:meta])* $name:ident($kind:ty);)*) => {$(
        $(#[$said])*
        #[derive(Clone, Copy, Debug, PartialEq, Eq, PartialOrd, Ord, Hash)]
        pub struct $name(pub $kind);
    )*};
}

kinds_of_numbers! {
    /// A session's ID at this end; also that of an attempt or a search.
    SessionId(u32);
    /// A flow's number in its session. Each side numbers its own flows.
    FlowId(u64);
    /// A message's number in its flow: that of its first fragment.
    MessageId(u64);
    /// The number of an attempt: its end counts them.
    AttemptId(u64);
    /// The number of a secret in a group's succession of secrets.
    Generation(u64);
    /// A moment: milliseconds of a clock of the program's choice. One that goes back counts as the
    /// last one.
    Moment(u64);
}

/// An end's fingerprint: the SHA-256 of its certificate.
#[derive(Clone, Copy, PartialEq, Eq, PartialOrd, Ord, Hash)]
pub struct Fingerprint(pub [u8; 32]);

/// In hexadecimal digits.
impl fmt::Display for Fingerprint {
    fn fmt(&self, f: &mut fmt::Formatter<'_>) -> fmt::Result {
        self.0.iter().try_for_each(|it| write!(f, "{it:02x}"))
    }
}

impl fmt::Debug for Fingerprint {
    fn fmt(&self, f: &mut fmt::Formatter<'_>) -> fmt::Result {
        write!(f, "Fingerprint({self})")
    }
}

/// An end's certificate: 16 instance bytes, and a name of 1 to 64 ASCII bytes.
#[derive(Clone, Debug, PartialEq, Eq)]
pub struct Certificate {
    bytes: Vec<u8>,
    print: Fingerprint,
}

impl Certificate {
    /// The certificate of an end with this name. The instance bytes tell ends of one name apart.
    ///
    /// # Errors
    /// [`Refusal::Certificate`] if the name hasn't 1 to 64 bytes, all of them ASCII;
    /// [`Refusal::Version`].
    pub fn new(instance: [u8; 16], name: &str) -> Result<Certificate, Refusal> {
        Certificate::read(&[&instance, name.as_bytes()].concat())
    }

    /// The certificate that has these bytes.
    ///
    /// # Errors
    /// [`Refusal::Certificate`] if they are none; [`Refusal::Version`].
    pub fn read(bytes: &[u8]) -> Result<Certificate, Refusal> {
        check_version()?;
        let mut print = [0; 32];
        // SAFETY: the pointers are those of a slice with its length, and of initialised room that
        // nothing else reaches.
        done(unsafe { sys::rtmfp_fingerprint(bytes.as_ptr(), bytes.len(), &mut print) })?;
        Ok(Certificate { bytes: bytes.to_vec(), print: Fingerprint(print) })
    }

    /// Its bytes.
    pub fn bytes(&self) -> &[u8] {
        &self.bytes
    }

    /// Its fingerprint, by which others open attempts towards the end.
    pub fn fingerprint(&self) -> Fingerprint {
        self.print
    }
}

/// That the linked library has a version that fits this crate.
pub(crate) fn check_version() -> Result<(), Refusal> {
    // SAFETY: it has no arguments.
    let found = unsafe { sys::rtmfp_version() };
    if fits(found) { Ok(()) } else { Err(Refusal::Version(found)) }
}

/// Whether a library of this version fits: one of the same major number, and while that is 0, of
/// the same minor number.
fn fits(found: u32) -> bool {
    let part = if sys::RTMFP_VERSION >> 16 == 0 { 8 } else { 16 };
    found >> part == sys::RTMFP_VERSION >> part
}

/// A secret. It isn't shown by `Debug`; it isn't wiped from the memory.
#[derive(Clone)]
pub struct Secret(pub(crate) [u8; 32]);

impl Secret {
    /// The secret that has these bytes, which are to be from a cryptographic source.
    pub fn new(bytes: [u8; 32]) -> Secret {
        Secret(bytes)
    }

    /// A fresh one, from the system's source of random numbers.
    ///
    /// # Errors
    /// The system's, where it has none.
    pub fn fresh() -> io::Result<Secret> {
        random::bytes().map(Secret)
    }
}

impl fmt::Debug for Secret {
    fn fmt(&self, f: &mut fmt::Formatter<'_>) -> fmt::Result {
        f.write_str("Secret(..)")
    }
}

/// What all ends of a group have: its current secret, and that secret's number in the group's
/// succession of secrets.
#[derive(Clone, Debug)]
pub struct Group {
    /// The current secret.
    pub secret: Secret,
    /// Its number: 0 in a group that never had another secret.
    pub generation: Generation,
}

impl Group {
    /// A group that never had another secret.
    pub fn new(secret: Secret) -> Group {
        Group { secret, generation: Generation(0) }
    }
}

/// The limits of an end.
#[derive(Clone, Copy, Debug, PartialEq, Eq)]
pub struct Config {
    /// 1 to 1,048,576: the most peers that are ever known.
    pub max_peers: u32,
    /// 1 to 65,536: the most attempts, searches and sessions at a time.
    pub max_sessions: u32,
    /// Whether it passes hellos on between those with whom it has sessions.
    pub introduces: bool,
}

/// 64 peers, 64 sessions, and it introduces nobody.
impl Default for Config {
    fn default() -> Config {
        Config { max_peers: 64, max_sessions: 64, introduces: false }
    }
}

/// The random values of one call. Who foresees them can forge. A call takes them by value, and they
/// can't be copied, so none gets those of another.
///
/// ```compile_fail,E0382
/// # fn go(end: &mut rtmfp::Endpoint, draws: rtmfp::Draws) {
/// let (one, other) = (rtmfp::Moment(1), rtmfp::Moment(2));
/// end.tick(rtmfp::Context::new(one, draws)).ok();
/// end.tick(rtmfp::Context::new(other, draws)).ok();
/// # }
/// ```
pub struct Draws(pub(crate) sys::rtmfp_draws);

impl Draws {
    /// Fresh ones, from the system's source of random numbers.
    ///
    /// # Errors
    /// The system's, where it has none.
    pub fn fresh() -> io::Result<Draws> {
        random::bytes().map(Draws::from_bytes)
    }

    /// Those of bytes that the program drew afresh for this call, from a cryptographic source.
    pub fn from_bytes(bytes: [u8; 52]) -> Draws {
        let part = |begin: usize| std::array::from_fn(|it| bytes[begin + it]);
        let word = u32::from_le_bytes(std::array::from_fn(|it| bytes[48 + it]));
        Draws(sys::rtmfp_draws { nonce: part(0), tag: part(16), token: part(32), word })
    }
}

impl fmt::Debug for Draws {
    fn fmt(&self, f: &mut fmt::Formatter<'_>) -> fmt::Result {
        f.write_str("Draws(..)")
    }
}

/// When a call is made, and its random values.
#[derive(Debug)]
pub struct Context {
    /// The moment.
    pub moment: Moment,
    /// The random values.
    pub draws: Draws,
}

impl Context {
    /// A moment and random values.
    pub fn new(moment: Moment, draws: Draws) -> Context {
        Context { moment, draws }
    }
}

/// A clock that never goes back, and the system's source of random numbers.
#[derive(Clone, Copy, Debug)]
pub struct Clock {
    start: Instant,
}

impl Clock {
    /// A clock that begins now, at 0.
    pub fn start() -> Clock {
        Clock { start: Instant::now() }
    }

    /// How late it is.
    pub fn now(&self) -> Moment {
        Moment(u64::try_from(self.start.elapsed().as_millis()).unwrap_or(u64::MAX))
    }

    /// What a call that is made now is to be given: how late it is, and fresh random values.
    ///
    /// # Errors
    /// The system's, where it has no random numbers.
    pub fn context(&self) -> io::Result<Context> {
        Ok(Context::new(self.now(), Draws::fresh()?))
    }
}

/// How a flow is opened.
#[derive(Clone, Copy, Debug, PartialEq, Eq)]
pub struct FlowOptions<'a> {
    /// 0 to 7, the highest.
    pub priority: u8,
    /// At most [`MAX_METADATA`](crate::MAX_METADATA) bytes. If the first is
    /// [`UNORDERED`](crate::UNORDERED), messages are handed over as they arrive; else they come in
    /// order.
    pub metadata: &'a [u8],
    /// The peer's flow that it answers.
    pub answers: Option<FlowId>,
}

/// Of priority 3, in order, without metadata, and it answers none.
impl Default for FlowOptions<'_> {
    fn default() -> Self {
        FlowOptions { priority: 3, metadata: &[], answers: None }
    }
}

/// How long a message is sent. By default that is until it is acknowledged.
#[derive(Clone, Copy, Debug, Default, PartialEq, Eq)]
pub struct MessageOptions {
    /// The moment after which it is sent no longer.
    pub deadline: Option<Moment>,
    /// How often a lost fragment of it is sent again at most.
    pub resends: Option<u32>,
}

#[cfg(test)]
mod tests {
    use super::*;

    #[test]
    fn draws_have_their_bytes() {
        let Draws(it) = Draws::from_bytes(std::array::from_fn(|it| it as u8));
        assert_eq!((it.nonce[0], it.nonce[15], it.tag[0], it.tag[15]), (0, 15, 16, 31));
        assert_eq!((it.token[0], it.token[15], it.word), (32, 47, 0x33323130));
    }

    #[test]
    fn a_library_of_another_minor_number_doesnt_fit() {
        let ours = sys::RTMFP_VERSION;
        assert_eq!(
            [ours, ours + 1, ours + 0x100, ours + 0x10000].map(fits),
            [true, true, false, false]
        );
        assert_eq!(check_version(), Ok(()));
    }

    #[test]
    fn nothing_secret_is_shown() {
        assert_eq!(format!("{:?}", Secret::new([7; 32])), "Secret(..)");
        let shown = format!("{:?}", Context::new(Moment(1), Draws::from_bytes([7; 52])));
        assert_eq!(shown, "Context { moment: Moment(1), draws: Draws(..) }");
    }

    #[test]
    fn random_values_differ() {
        assert_ne!(Secret::fresh().unwrap().0, Secret::fresh().unwrap().0);
        let (one, other) = (Draws::fresh().unwrap().0, Draws::fresh().unwrap().0);
        assert_ne!((one.nonce, one.tag), (other.nonce, other.tag));
    }
}
