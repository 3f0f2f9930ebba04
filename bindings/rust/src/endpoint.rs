//! One end, and the calls on it.

use crate::address::Address;
use crate::entry::{self, Entry};
use crate::refusal::{Refusal, done};
use crate::shapes::*;
use crate::sys;
use std::cell::UnsafeCell;
use std::fmt;
use std::iter::FusedIterator;
use std::marker::PhantomData;
use std::ptr;

/// One end of the protocol. What calls do, its [entries](Endpoint::entries) tell.
///
/// A call that is refused leaves all as it was, but for the moment that it was told;
/// [`receive`](Endpoint::receive) and [`tick`](Endpoint::tick) say where a part may have been done.
/// Each call that needs memory can be refused with [`Refusal::Memory`].
///
/// An end stays in the thread that made it:
///
/// ```compile_fail,E0277
/// fn is_send<T: Send>() {}
/// is_send::<rtmfp::Endpoint>();
/// ```
///
/// ```compile_fail,E0277
/// fn is_sync<T: Sync>() {}
/// is_sync::<rtmfp::Endpoint>();
/// ```
pub struct Endpoint {
    // The calls that read entries are given a pointer through which they may write.
    handle: UnsafeCell<sys::rtmfp_end>,
    stays: PhantomData<*mut ()>,
}

// SAFETY of the calls below. The handle is all zero bytes or what the last call left in it, and
// can't be copied. `&mut self` keeps other calls out. By `&self` there are only the four calls that
// leave an entry's bytes where they are, and none can be made while another runs, since the end is
// in one thread and the library calls nothing back. Each other pointer is that of a reference, or
// of a slice with its length, to initialised memory that nothing else reaches where it isn't const.
impl Endpoint {
    /// An end with this certificate. `cookies` is a secret that this end alone has.
    ///
    /// # Errors
    /// [`Refusal::Config`] if a limit is out of its range; [`Refusal::Memory`].
    pub fn new(
        config: &Config,
        certificate: &Certificate,
        group: &Group,
        cookies: &Secret,
    ) -> Result<Endpoint, Refusal> {
        // (a certificate is made only where the library's version was looked at)
        let handle = sys::rtmfp_end { live_: 0, held_: ptr::null_mut() };
        let mut end = Endpoint { handle: UnsafeCell::new(handle), stays: PhantomData };
        let config = sys::rtmfp_config {
            max_peers: config.max_peers,
            max_sessions: config.max_sessions,
            introduces: u32::from(config.introduces),
        };
        let (bytes, number) = (certificate.bytes(), group.generation.0);
        let (secret, cookies) = (&group.secret.0, &cookies.0);
        done(unsafe {
            sys::rtmfp_new(end.raw(), &config, bytes.as_ptr(), bytes.len(), number, secret, cookies)
        })?;
        Ok(end)
    }

    fn raw(&mut self) -> *mut sys::rtmfp_end {
        self.handle.get_mut()
    }

    /// Opens an attempt towards the end with this fingerprint, at 1 to 16 addresses, its own or
    /// those of an introducer. [`Entry::Opened`] or [`Entry::Ended`] follows.
    ///
    /// # Errors
    /// The first that stands of [`Refusal::Candidates`], [`Refusal::Opening`], [`Refusal::Open`],
    /// [`Refusal::PeersFull`], [`Refusal::AttemptsSpent`], [`Refusal::OwnPrint`] and
    /// [`Refusal::SessionsFull`].
    pub fn open(
        &mut self,
        peer: &Fingerprint,
        candidates: &[Address],
        context: Context,
    ) -> Result<AttemptId, Refusal> {
        let (places, draws, mut number) = (Places::of(candidates), context.draws.0, 0);
        let (at, count, moment) = (places.at.as_ptr(), places.count, context.moment.0);
        done(unsafe {
            sys::rtmfp_open(self.raw(), &peer.0, at, count, moment, &draws, &mut number)
        })?;
        Ok(AttemptId(number))
    }

    /// Begins a search for an end of this name, 1 to 64 ASCII bytes, at 1 to 16 addresses, its own
    /// or those of an introducer, and gives its ID. [`Entry::Started`] or [`Entry::Unsought`]
    /// follows.
    ///
    /// # Errors
    /// [`Refusal::Name`], [`Refusal::Candidates`], [`Refusal::SessionsFull`].
    pub fn seek(
        &mut self,
        name: &str,
        candidates: &[Address],
        context: Context,
    ) -> Result<SessionId, Refusal> {
        let (places, draws, mut near) = (Places::of(candidates), context.draws.0, 0);
        let (at, count, moment) = (places.at.as_ptr(), places.count, context.moment.0);
        let (name, len) = (name.as_ptr(), name.len());
        done(unsafe {
            sys::rtmfp_seek(self.raw(), name, len, at, count, moment, &draws, &mut near)
        })?;
        Ok(SessionId(near))
    }

    /// Gives a search up: [`Entry::Unsought`] comes at once.
    ///
    /// # Errors
    /// [`Refusal::NoAttempt`] if no search has this ID.
    pub fn unseek(&mut self, search: SessionId) -> Result<(), Refusal> {
        done(unsafe { sys::rtmfp_unseek(self.raw(), search.0) })
    }

    /// Gives an attempt up: [`Entry::Ended`] comes at once.
    ///
    /// # Errors
    /// [`Refusal::NoAttempt`] if none is held that has this number.
    pub fn cancel(&mut self, attempt: AttemptId) -> Result<(), Refusal> {
        done(unsafe { sys::rtmfp_cancel(self.raw(), attempt.0) })
    }

    /// Closes a session: [`Entry::Ended`] comes at once, and [`Entry::Closed`] when its ID is free.
    /// What is queued goes out no longer.
    ///
    /// # Errors
    /// [`Refusal::NoSession`] if none has this ID.
    pub fn close(&mut self, session: SessionId, moment: Moment) -> Result<(), Refusal> {
        done(unsafe { sys::rtmfp_close(self.raw(), session.0, moment.0) })
    }

    /// Opens a flow.
    ///
    /// # Errors
    /// [`Refusal::NoSession`], [`Refusal::FlowsFull`], [`Refusal::Wide`].
    pub fn open_flow(
        &mut self,
        session: SessionId,
        options: &FlowOptions<'_>,
    ) -> Result<FlowId, Refusal> {
        let (metadata, len) = (options.metadata.as_ptr(), options.metadata.len());
        let (answers, answered) =
            (u32::from(options.answers.is_some()), options.answers.map_or(0, |it| it.0));
        let (near, priority, mut flow) = (session.0, options.priority, 0);
        done(unsafe {
            sys::rtmfp_open_flow(
                self.raw(),
                near,
                priority,
                metadata,
                len,
                answers,
                answered,
                &mut flow,
            )
        })?;
        Ok(FlowId(flow))
    }

    /// Queues a message, which is copied. It goes out at ticks, and is sent again until it is
    /// acknowledged, or as the options say.
    ///
    /// # Errors
    /// [`Refusal::NoSession`], [`Refusal::NoFlow`], [`Refusal::Finished`], [`Refusal::Message`] if
    /// it has more than [`MAX_MESSAGE`](crate::MAX_MESSAGE) bytes, [`Refusal::Backlog`],
    /// [`Refusal::SequenceSpent`].
    pub fn queue(
        &mut self,
        session: SessionId,
        flow: FlowId,
        message: &[u8],
        options: MessageOptions,
    ) -> Result<MessageId, Refusal> {
        let deadline = options.deadline.map_or(sys::RTMFP_NEVER, |it| it.0);
        let resends = options.resends.unwrap_or(sys::RTMFP_ALWAYS);
        let (bytes, len, mut seq) = (message.as_ptr(), message.len(), 0);
        done(unsafe {
            sys::rtmfp_queue(self.raw(), session.0, flow.0, bytes, len, deadline, resends, &mut seq)
        })?;
        Ok(MessageId(seq))
    }

    /// Abandons a message that waits: it is sent no longer.
    ///
    /// # Errors
    /// [`Refusal::NoSession`], [`Refusal::NoFlow`], [`Refusal::NotQueued`].
    pub fn abandon(
        &mut self,
        session: SessionId,
        flow: FlowId,
        message: MessageId,
    ) -> Result<(), Refusal> {
        done(unsafe { sys::rtmfp_abandon(self.raw(), session.0, flow.0, message.0) })
    }

    /// Finishes a flow: nothing is queued in it any more.
    ///
    /// # Errors
    /// [`Refusal::NoSession`], [`Refusal::NoFlow`], [`Refusal::Finished`].
    pub fn finish(&mut self, session: SessionId, flow: FlowId) -> Result<(), Refusal> {
        done(unsafe { sys::rtmfp_finish(self.raw(), session.0, flow.0) })
    }

    /// Adds a row of 1 to 16 addresses for the end with this fingerprint, in the place of one that
    /// is there: hellos for that end are answered with them.
    ///
    /// # Errors
    /// [`Refusal::Candidates`]; [`Refusal::RowsFull`] if there are [`MAX_ROWS`](crate::MAX_ROWS).
    pub fn add_row(&mut self, peer: &Fingerprint, addresses: &[Address]) -> Result<(), Refusal> {
        let places = Places::of(addresses);
        done(unsafe { sys::rtmfp_add_row(self.raw(), &peer.0, places.at.as_ptr(), places.count) })
    }

    /// Has the end introduce others from now on, as `introduces` of [`Config`] does.
    ///
    /// # Errors
    /// None but [`Refusal::Memory`].
    pub fn introduce(&mut self) -> Result<(), Refusal> {
        done(unsafe { sys::rtmfp_introduce(self.raw()) })
    }

    /// From now on a packet of a session that has more than so many bytes before it is sealed goes
    /// out in pieces, each in a datagram of its own, of `limit` and 36 bytes at most: for paths on
    /// which long datagrams get lost. A new end has [`MAX_LIMIT`](crate::MAX_LIMIT) and sends none in
    /// pieces; packets that open sessions never go out so.
    ///
    /// # Errors
    /// [`Refusal::Config`] if it is below [`MIN_LIMIT`](crate::MIN_LIMIT) or above the other.
    pub fn narrow(&mut self, limit: u16) -> Result<(), Refusal> {
        done(unsafe { sys::rtmfp_narrow(self.raw(), limit) })
    }

    /// Learns the secret of the generation after the current one, and gives its number. Packets of
    /// it are understood from now on, and the end goes on sending in the current one.
    ///
    /// # Errors
    /// The first that stands of [`Refusal::NextKnown`], [`Refusal::GenerationsSpent`] and
    /// [`Refusal::SameSecret`].
    pub fn learn(&mut self, secret: &Secret) -> Result<Generation, Refusal> {
        let mut generation = 0;
        done(unsafe { sys::rtmfp_learn(self.raw(), &secret.0, &mut generation) })?;
        Ok(Generation(generation))
    }

    /// Goes over to the generation that was learnt, once all ends of the group know it, and gives
    /// its number. Sessions go on. An attempt whose keying went out before keeps the old secret
    /// until it ends, so cancel it and open again if its peer has gone over, too.
    ///
    /// # Errors
    /// [`Refusal::NoNext`] if none was learnt.
    pub fn advance(&mut self) -> Result<Generation, Refusal> {
        let mut generation = 0;
        done(unsafe { sys::rtmfp_advance(self.raw(), &mut generation) })?;
        Ok(Generation(generation))
    }

    /// Whether the end keeps a session with this peer, one that is no longer half-open.
    pub fn keeps(&self, peer: &Fingerprint) -> bool {
        unsafe { sys::rtmfp_keeps(self.handle.get(), &peer.0) == 1 }
    }

    /// Takes a datagram that came from an address. It is deciphered in place, so its bytes are
    /// changed, unless it is too long. What is wrong with it is told by [`Entry::Discard`], and is
    /// no error.
    ///
    /// # Errors
    /// [`Refusal::TooLong`] if it has more than [`MAX_DATAGRAM`](crate::MAX_DATAGRAM) bytes. After
    /// [`Refusal::Memory`] it may be given again, as it came; after [`Refusal::Partly`] a part of
    /// it was done, and it counts as taken.
    pub fn receive(
        &mut self,
        from: Address,
        datagram: &mut [u8],
        context: Context,
    ) -> Result<(), Refusal> {
        let (from, draws, moment) = (from.to_c(), context.draws.0, context.moment.0);
        let (bytes, len) = (datagram.as_mut_ptr(), datagram.len());
        done(unsafe { sys::rtmfp_receive(self.raw(), &from, moment, bytes, len, &draws) })
    }

    /// Does all that is due: what is queued goes out, what was lost goes again, what is over ends.
    /// It wants to be called some times a second.
    ///
    /// # Errors
    /// [`Refusal::Memory`]: a part may have been done, and the rest is still due.
    pub fn tick(&mut self, context: Context) -> Result<(), Refusal> {
        let (draws, moment) = (context.draws.0, context.moment.0);
        done(unsafe { sys::rtmfp_tick(self.raw(), moment, &draws) })
    }

    /// The entries that calls added since the last [`clear`](Endpoint::clear), in their order. No
    /// call that changes the end can be made while one of them is looked at:
    ///
    /// ```compile_fail,E0502
    /// # fn go(end: &mut rtmfp::Endpoint) {
    /// let first = end.entries().next();
    /// end.clear();
    /// println!("{first:?}");
    /// # }
    /// ```
    pub fn entries(&self) -> Entries<'_> {
        let count = unsafe { sys::rtmfp_entries(self.handle.get()) };
        Entries { end: self, next: 0, count }
    }

    /// Drops the entries, and nothing else.
    pub fn clear(&mut self) {
        // It is refused only where there is no end, and so no entry.
        let _ = unsafe { sys::rtmfp_clear(self.raw()) };
    }
}

/// Frees the end. Nothing goes out: close the sessions first, if the peers are to know. Secrets
/// aren't wiped.
impl Drop for Endpoint {
    fn drop(&mut self) {
        unsafe { sys::rtmfp_free(self.raw()) }
    }
}

impl fmt::Debug for Endpoint {
    fn fmt(&self, f: &mut fmt::Formatter<'_>) -> fmt::Result {
        f.debug_struct("Endpoint").field("entries", &self.entries().len()).finish()
    }
}

/// The entries of an end, which [`Endpoint::entries`] gives.
#[derive(Clone, Debug)]
pub struct Entries<'a> {
    end: &'a Endpoint,
    next: usize,
    count: usize,
}

impl<'a> Iterator for Entries<'a> {
    type Item = Entry<'a>;

    fn next(&mut self) -> Option<Entry<'a>> {
        if self.next >= self.count {
            return None;
        }
        let mut room = entry::room();
        // SAFETY: as above; the room is initialised.
        done(unsafe { sys::rtmfp_entry_at(self.end.handle.get(), self.next, &mut room) }).ok()?;
        self.next += 1;
        // SAFETY: the bytes stay until a call that needs `&mut` of the end, which is borrowed for
        // `'a`.
        Some(unsafe { Entry::of(&room) })
    }

    fn size_hint(&self) -> (usize, Option<usize>) {
        (self.count - self.next, Some(self.count - self.next))
    }
}

impl ExactSizeIterator for Entries<'_> {}

impl FusedIterator for Entries<'_> {}

/// Addresses as C has them. There is room for one more than a call takes, so that it refuses a
/// longer list.
struct Places {
    at: [sys::rtmfp_address; sys::RTMFP_MAX_CANDIDATES + 1],
    count: usize,
}

impl Places {
    fn of(given: &[Address]) -> Places {
        let none = sys::rtmfp_address { family: 0, origin: 0, port: 0, host: [0; 16] };
        let mut places = Places { at: [none; sys::RTMFP_MAX_CANDIDATES + 1], count: 0 };
        for (room, it) in places.at.iter_mut().zip(given) {
            *room = it.to_c();
            places.count += 1;
        }
        places
    }
}
