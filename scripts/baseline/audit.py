#!/usr/bin/env python3
"""A slow checker of the logs of ends, which prints what `rtmfp audit` prints.

It reads the text of logs on standard input, and prints `agreed ends=N events=M kept=K` with status 0, or
`refused line=L CAUSE` with status 12. A line outside the grammar is status 3, and told on standard error. With --why
it also tells on standard error which condition failed.

It is written after the rules alone, apart from the code of this repository, to be read beside them: each condition is
asked as the rule has it, of all that the end did before, which is gone through again for each question. Nothing is kept
from one question to the next but what is hashed, since hashing the same bytes again says nothing new.

  scripts/baseline/audit.py [--why] < LOGS
"""
import os
import re
import sys
from types import SimpleNamespace as Record

sys.path.insert(0, os.path.dirname(os.path.abspath(__file__)))
sys.dont_write_bytecode = True
from handshake import be, mac  # noqa: E402
from logs import TIMED, WHYS, BadLine, chunks_of, iikeying, is_certificate, number_of, packet_of, read, rhello  # noqa: E402
from logs import rikeying, session_id, sha256, signature, unsealed  # noqa: E402

ATTEMPT_TIME, CONFIRM_TIME, IDLE_TIME, LINGER_TIME, COOKIE_TIME = 95_000, 20_000, 120_000, 19_000, 95_000
WIDE = 128
WINDOW = 1_024
INITIATOR, RESPONDER, STARTUP = 1, 2, 3
RHELLO, IIKEYING, RIKEYING, CLOSE, CLOSEACK = 0x70, 0x38, 0x78, 0x0C, 0x4C


class Refused(Exception):
    """The logs don't agree: the line, the cause, and in words which condition failed."""


# ---- What an end did. A log is the end, its events up to the one that is looked at, of which the last one has the entries
# before the one that is looked at alone, and the secrets of all generations.


class Log:
    def __init__(self, end, events, secrets):
        self.end, self.events, self.secrets = end, events, secrets

    def entries(self):
        """Each entry with the place of its event."""
        return [(place, entry) for place, event in enumerate(self.events) for entry in event.entries]

    def before(self, place):
        """The log before an event."""
        return Log(self.end, self.events[:place], self.secrets)

    def without_last_entries(self, count):
        """The log without so many of the entries of the last event."""
        last = self.events[-1]
        cut = Record(**{**vars(last), "entries": last.entries[: len(last.entries) - count]})
        return Log(self.end, self.events[:-1] + [cut], self.secrets)


def moment(log, place):
    """The moment of an event: the largest that was given so far."""
    return max([event.moment for event in log.events[: place + 1] if event.call in TIMED], default=0)


def now(log):
    return moment(log, len(log.events) - 1)


def peers(log):
    """The different peers of what started or was born."""
    return {entry.peer for _, entry in log.entries() if entry.kind in ("started", "born")}


def held(log, peer):
    """What is held with a peer: the last Started or Born with it, with its Opened or Confirmed where they came, unless
    an Ended of that peer came after it. Its stage is opening (Started alone), half-open (Born alone) or kept; `fact` is
    its Started, Born or Opened, and `place` that of the event of this."""
    thing = None
    for place, entry in log.entries():
        if entry.kind == "started" and entry.peer == peer:
            thing = Record(stage="opening", place=place, fact=entry, is_born=False)
        elif entry.kind == "born" and entry.peer == peer:
            thing = Record(stage="half-open", place=place, fact=entry, is_born=True)
        elif entry.kind == "opened" and entry.peer == peer:
            thing = Record(stage="kept", place=place, fact=entry, is_born=False)
        elif entry.kind == "confirmed" and entry.peer == peer:
            thing = Record(stage="kept", place=thing.place, fact=thing.fact, is_born=True)
        elif entry.kind == "ended" and entry.peer == peer:
            thing = None
    return thing


def all_held(log):
    return [thing for peer in sorted(peers(log)) if (thing := held(log, peer))]


def attempts(log):
    return [thing for thing in all_held(log) if thing.stage == "opening"]


def attempt_with(log, peer):
    thing = held(log, peer)
    return thing if thing and thing.stage == "opening" else None


def is_half_open(thing):
    return thing is not None and thing.stage == "half-open"


def closing(log):
    """The sessions that are closing: from the Ended with near or far to the Closed. Each has the place of its Ended."""
    found = []
    entries = log.entries()
    for at, (place, entry) in enumerate(entries):
        if entry.kind == "ended" and entry.why in ("near", "far"):
            closed = [it for _, it in entries[at + 1 :] if it.kind == "closed" and it.near == entry.near]
            if not closed:
                upto = Log(log.end, log.events[: place + 1], log.secrets)
                left = sum(1 for there, _ in entries[at:] if there == place)
                session = held(upto.without_last_entries(left), entry.peer)
                found.append(Record(**{**vars(session), "ended": place}))
    return found


def searches(log):
    """The searches: each Sought after which neither an Unsought nor a Started of its near id came."""
    found, entries = [], log.entries()
    for at, (place, entry) in enumerate(entries):
        if entry.kind == "sought":
            later = [it for _, it in entries[at + 1 :] if it.kind in ("unsought", "started") and it.near == entry.near]
            if not later:
                found.append(Record(near=entry.near, name=entry.name, place=place, tag=log.events[place].tag))
    return found


def search_of(log, attempt):
    """The place of the Sought that an attempt came from."""
    upto = log.before(attempt.place + 1)
    return [place for place, it in upto.entries() if it.kind == "sought" and it.near == attempt.fact.near][-1]


def tag_of(log, attempt):
    """The tag of an attempt: that of its open, or of the seek that it came from."""
    event = log.events[attempt.place]
    return event.tag if event.call == "open" else log.events[search_of(log, attempt)].tag


def in_use(log):
    """The near ids in use: those of what is held, closing or a search."""
    return {it.fact.near for it in all_held(log) + closing(log)} | {it.near for it in searches(log)}


def is_free(log, near):
    return near != 0 and near not in in_use(log)


def seen(log, peer):
    """The greatest of the n of each Born of a peer and the k of each Opened with it, and 0 at first."""
    born = [it.n for _, it in log.entries() if it.kind == "born" and it.peer == peer]
    opened = [it.k for _, it in log.entries() if it.kind == "opened" and it.peer == peer]
    return max([0] + born + opened)


def count(log):
    """The number of Started."""
    return sum(1 for _, it in log.entries() if it.kind == "started")


def current(log):
    """The current generation: that of the last Advanced, or the first one."""
    return ([log.end.generation] + [it.generation for _, it in log.entries() if it.kind == "advanced"])[-1]


def next_known(log):
    """The generation that is known as the next one: from its Learnt to the Advanced of its number."""
    known = None
    for _, it in log.entries():
        if it.kind == "learnt":
            known = it.generation
        elif it.kind == "advanced" and it.generation == known:
            known = None
    return known


# ---- Contexts, and what opens.


def session_context(log, session, outward):
    """The context of a session, away from this end or towards it. Its generation is that in which its keying came."""
    fact, own = session.fact, log.end.print
    generation = opened(log.before(session.place), log.events[session.place]).context[1]
    if session.is_born:
        return ("session", generation, fact.ni, fact.nr, fact.peer, own, fact.far, fact.near, not outward)
    return ("session", generation, fact.ni, fact.nr, own, fact.peer, fact.near, fact.far, outward)


def contexts(log, sid):
    """The contexts of an identifier, in their order: for 0 the startup in the current generation, and then in the next one
    where it is known; for a search and an attempt in the hello stage the startup in the current one, for an attempt in
    the keying stage in its own; for a session, the session's towards this end."""
    if sid == 0:
        following = next_known(log)
        return [("startup", current(log))] + ([("startup", following)] if following is not None else [])
    for search in searches(log):
        if search.near == sid:
            return [("startup", current(log))]
    for attempt in attempts(log):
        if attempt.fact.near == sid:
            generation = generation_of(log, attempt)
            return [("startup", current(log) if generation is None else generation)]
    for session in all_held(log) + closing(log):
        if session.fact.near == sid:
            return [session_context(log, session, outward=False)]
    return []


def opened(log, event):
    """What the datagram of an event is that opens after a log, in the first context of its identifier that opens it: the
    identifier, the context, the number and the plain packet. None for another event, and where it opens in none."""
    if event.call != "receive" or len(event.datagram) < 36:
        return None
    sid = session_id(event.datagram)
    for context in contexts(log, sid):
        secret = log.secrets.get(context[1])
        found = unsealed(secret, context, event.datagram) if secret is not None else None
        # The number of a session's packet begins with zeros.
        if found and (context[0] == "startup" or found[0][:8] == bytes(8)):
            return Record(sid=sid, context=context, number=found[0], packet=packet_of(found[1]))
    return None


def opened_last(log):
    """What the datagram of the last event is, as it came: before the entries of that event."""
    return opened(log.before(len(log.events) - 1), log.events[-1])


def generation_of(log, attempt):
    """The generation of an attempt in the keying stage: that of the last Out with its iikeying since it began. None of one
    in the hello stage, of which none went out."""
    entries = [entry for _, entry in log.entries()]
    begins = [at for at, entry in enumerate(entries) if entry is attempt.fact][0]
    found = [entry.context[1] for entry in entries[begins:] if has_keying(log, entry, attempt.fact.near)]
    return found[-1] if found else None


def has_keying(log, entry, near):
    """Whether an entry is an Out in a startup context with an iikeying of this near id."""
    if entry.kind != "out" or entry.context[0] != "startup" or entry.context[1] not in log.secrets:
        return False
    found = unsealed(log.secrets[entry.context[1]], entry.context, entry.datagram)
    return found is not None and near in [it.near for it in chunks_of(packet_of(found[1]), IIKEYING, iikeying)]


def keying_begins(log, attempt):
    """The generation in which the last event brings an rhello that an attempt takes. Its packet has mode 3, under session 0.
    The attempt is the one with the lowest near id among the attempts and searches with the rhello's tag; the certificate
    is the peer's, and the cookie isn't wide."""
    came = opened_last(log)
    if not came or came.sid != 0 or not came.packet or came.packet.mode != STARTUP:
        return None
    for hello in chunks_of(came.packet, RHELLO, rhello):
        tagged = [it.near for it in searches(log) if it.tag == hello.tag]
        tagged += [it.fact.near for it in attempts(log) if tag_of(log, it) == hello.tag]
        is_lowest = min(tagged, default=None) == attempt.fact.near
        is_narrow = len(hello.cookie) <= WIDE
        if is_lowest and is_narrow and is_certificate(hello.cert) and sha256(hello.cert) == attempt.fact.peer:
            return came.context[1]
    return None


def passes(log, near):
    """The packet of the last event where it passes what is asked of a session's datagram before its chunks: it is long
    enough, its session is there, it opens, its number is neither old nor repeated, its packet has a head that reads,
    and its mode is the peer's."""
    came = opened_last(log)
    if not came or came.sid != near or came.context[0] != "session":
        return None
    before = log.before(len(log.events) - 1)
    session = next(it for it in all_held(before) + closing(before) if it.fact.near == near)
    if not is_new(number_of(came.number[8:]), numbers_taken(before, session)):
        return None
    return came.packet if came.packet and came.packet.mode == peer_mode(session) else None


def peer_mode(session):
    return INITIATOR if session.is_born else RESPONDER


def is_new(number, taken):
    """Whether a window of 1,024 numbers takes a number. The number 0 counts as taken."""
    return number + WINDOW > max([0] + taken) and number not in [0] + taken


def numbers_taken(log, session):
    """The numbers that a session took. One whose packet doesn't read, or has another mode, is taken as well."""
    return [number for _, number, _ in datagrams_taken(log, session)]


def datagrams_taken(log, session):
    """The datagrams of a session whose numbers it took: the place of each, the number, and whether it passes."""
    found, context = [], session_context(log, session, outward=False)
    secret = log.secrets.get(context[1])
    for place in range(session.place + 1, len(log.events)):
        event = log.events[place]
        if event.call != "receive" or len(event.datagram) < 36 or session_id(event.datagram) != session.fact.near:
            continue
        sealed = unsealed(secret, context, event.datagram)
        if sealed and sealed[0][:8] == bytes(8):
            number, packet = number_of(sealed[0][8:]), packet_of(sealed[1])
            if is_new(number, [it for _, it, _ in found]):
                found.append((place, number, packet is not None and packet.mode == peer_mode(session)))
    return found


def has_chunk(packet, kind):
    return packet is not None and any(its_kind == kind for its_kind, _ in packet.chunks)


# ---- The table of lawful logs. Each function gives the conditions of one line in the order of their text, each in words
# with whether it is so; those behind one that isn't aren't asked. `log` has the entry's event with the entries before it.


def started(log, event, entry, rest):
    """Nothing is held with the peer, which isn't this end, and n is one more than the count. Either the event is an open
    towards the peer, the near id is free, and ni is the nonce of its draws; or the event brings, in the startup context
    under session 0, an rhello with the tag of a search and a certificate of its name and the peer's fingerprint, near is
    the search's, and ni is the nonce of the draws of its seek."""
    yield "nothing is held with the peer", held(log, entry.peer) is None
    yield "the peer isn't this end", entry.peer != log.end.print
    yield "n is the count plus 1", entry.n == count(log) + 1
    if event.call == "open":
        yield "the open is towards the peer", event.peer == entry.peer
        yield "near is free", is_free(log, entry.near)
        yield "ni is the nonce of the draws", entry.ni == event.nonce
        return
    came = opened_last(log)
    yield "the event is an open, or opens under session 0", came is not None and came.sid == 0
    found = [it for it in searches(log) if it.near == entry.near]
    yield "near is that of a search", bool(found)
    search = found[0]
    hellos = chunks_of(came.packet, RHELLO, rhello)
    hellos = [it for it in hellos if it.tag == search.tag and is_certificate(it.cert)]
    yield "an rhello has the tag of the search", bool(hellos)
    hellos = [it for it in hellos if it.cert[16:] == search.name]
    yield "its certificate has the name of the search", bool(hellos)
    yield "and the peer's fingerprint", any(sha256(it.cert) == entry.peer for it in hellos)
    yield "ni is the nonce of the draws of the seek", entry.ni == log.events[search.place].nonce


def born(log, event, entry, rest):
    """The event has a chunk that is admissible just before this entry and the Ended directly before it, if there is one;
    peer, n, ni and far are the chunk's. Nothing is held with the peer, the near id is free, nr is the nonce of the
    draws, and k is the count."""
    here = log.events[-1].entries
    has_ended = bool(here) and here[-1].kind == "ended"
    keying = yield from admissible(log.without_last_entries(1) if has_ended else log, event)
    yield "peer is the chunk's", entry.peer == sha256(keying.cert)
    yield "n is the chunk's", entry.n == keying.n
    yield "ni is the chunk's", entry.ni == keying.ni
    yield "far is the chunk's", entry.far == keying.near
    yield "nothing is held with the peer", held(log, entry.peer) is None
    yield "near is free", is_free(log, entry.near)
    yield "nr is the nonce of the draws", entry.nr == event.nonce
    yield "k is the count", entry.k == count(log)


def admissible(log, event):
    """The event brings a startup packet under session 0, with mode 3. The chunk is its first iikeying and reads, and its
    session ID isn't 0. Its signature is right under that context's secret, and its cookie has at most 128 bytes and is
    current. It names this end as responder, and its certificate isn't this end's. Its n is above what was seen of its
    peer. Where an attempt with the peer is held, the peer prevails. The peer is in the rows, or there is room for one
    more; and where nothing is held with the peer, there is room for a session. It gives the chunk."""
    came = opened_last(log)
    yield "the event opens in a startup context under session 0", came is not None and came.sid == 0
    yield "its mode is 3", came.packet is not None and came.packet.mode == STARTUP
    first = [(kind, payload) for kind, payload in came.packet.chunks if kind == IIKEYING][:1]
    yield "it has an iikeying", bool(first)
    read = chunks_of(Record(chunks=first), IIKEYING, iikeying)
    yield "the first one reads", bool(read)
    keying = read[0]
    yield "its session ID isn't 0", keying.near != 0
    yield "its certificate reads", is_certificate(keying.cert)
    yield "its component reads", len(keying.part) == 56
    keying.ni, keying.n, responder = keying.part[:16], number_of(keying.part[16:24]), keying.part[24:]
    secret = log.secrets[came.context[1]]
    yield "its signature is right", keying.sign == signature(secret, keying.signed)
    yield "its cookie isn't wide", len(keying.cookie) <= WIDE
    yield "its cookie is current", is_current(log.end.cookie_secret, keying.cookie, event.source, now(log))
    yield "it names this end", responder == log.end.print
    peer = sha256(keying.cert)
    yield "its certificate isn't this end's", peer != log.end.print
    yield "its n is above what was seen", keying.n > seen(log, peer)
    yield "no attempt is held with a peer that doesn't prevail", not attempt_with(log, peer) or peer > log.end.print
    yield "the peer has a row, or there is room", peer in peers(log) or len(peers(log)) < log.end.max_peers
    is_room = len(in_use(log)) < log.end.max_sessions
    yield "something is held with the peer, or there is room", held(log, peer) is not None or is_room
    return keying


def is_current(secret, cookie, source, at):
    """A cookie is be64 of the moment of its issue, the address with origin 2, and the first 16 bytes of an HMAC of these.
    It is current where it is one of this end, for this place, and at most 95,000 ms old."""
    host, port = source
    place = bytes([0x82 if len(host) == 16 else 0x02]) + host + be(port, 2)
    if cookie[8:-16] != place or cookie[-16:] != mac(secret, cookie[:-16])[:16]:
        return False
    return at <= number_of(cookie[:8]) + COOKIE_TIME


def became_open(log, event, entry, rest):
    """An attempt with the peer is held. The event brings, in the startup context of its identifier, under the attempt's
    near id, an rikeying with the right signature under that context's secret, the peer's fingerprint and the attempt's
    ni. n, near and ni are the attempt's, far, nr and k the chunk's."""
    attempt = attempt_with(log, entry.peer)
    yield "an attempt with the peer is held", attempt is not None
    came = opened_last(log)
    yield "the event opens", came is not None and came.context[0] == "startup"
    yield "under the attempt's near id", came.sid == attempt.fact.near
    answers = [it for it in chunks_of(came.packet, RIKEYING, rikeying) if len(it.part) == 72]
    yield "it has an rikeying", bool(answers)
    secret = log.secrets[came.context[1]]
    answers = [it for it in answers if it.sign == signature(secret, it.signed)]
    yield "whose signature is right", bool(answers)
    answers = [it for it in answers if it.part[24:56] == entry.peer]
    yield "with the peer's fingerprint", bool(answers)
    answers = [it for it in answers if it.part[56:] == attempt.fact.ni]
    yield "and the attempt's ni", bool(answers)
    yield "n is the attempt's", entry.n == attempt.fact.n
    yield "near is the attempt's", entry.near == attempt.fact.near
    yield "ni is the attempt's", entry.ni == attempt.fact.ni
    values = [(it.near, it.part[:16], number_of(it.part[16:24])) for it in answers]
    yield "far, nr and k are the chunk's", (entry.far, entry.nr, entry.k) in values


def confirmed(log, event, entry, rest):
    """A half-open session with that near id is held, and the event opens under that id in its context towards this end."""
    session = held(log, entry.peer)
    yield "a half-open session is held", is_half_open(session)
    yield "with that near id", session.fact.near == entry.near
    came = opened_last(log)
    yield "the event opens under that id", came is not None and came.sid == entry.near
    yield "in the session's context", came.context == session_context(log, session, outward=False)


def ended(log, event, entry, rest):
    thing = held(log, entry.peer)
    yield "something is held with the peer", thing is not None
    yield "with that near id", thing.fact.near == entry.near
    yield from ENDINGS[entry.why](log, event, entry, rest, thing)


def ended_cancelled(log, event, entry, rest, thing):
    """An attempt is held and the event is a cancel of its n."""
    yield "an attempt is held", thing.stage == "opening"
    yield "the event is a cancel of its n", event.call == "cancel" and event.n == thing.fact.n


def ended_expired(log, event, entry, rest, thing):
    """An attempt is held and the event is a tick at least 95,000 after its start."""
    yield "an attempt is held", thing.stage == "opening"
    yield "the event is a tick", event.call == "tick"
    yield "at least 95,000 after its start", now(log) >= moment(log, thing.place) + ATTEMPT_TIME


def ended_glare(log, event, entry, rest, thing):
    """An attempt is held, the peer prevails, and the next entry of the event is a Born of that peer."""
    yield "an attempt is held", thing.stage == "opening"
    yield "the peer prevails", entry.peer > log.end.print
    yield "the next entry is a Born of that peer", is_birth(rest, entry.peer)


def ended_override(log, event, entry, rest, thing):
    """A session is held, and the next entry of the event is a Born of that peer."""
    yield "a session is held", thing.stage != "opening"
    yield "the next entry is a Born of that peer", is_birth(rest, entry.peer)


def is_birth(rest, peer):
    return bool(rest) and rest[0].kind == "born" and rest[0].peer == peer


def ended_unconfirmed(log, event, entry, rest, thing):
    """A half-open session is held and the event is a tick at least 20,000 after its birth."""
    yield "a half-open session is held", is_half_open(thing)
    yield "the event is a tick", event.call == "tick"
    yield "at least 20,000 after its birth", now(log) >= moment(log, thing.place) + CONFIRM_TIME


def ended_near(log, event, entry, rest, thing):
    """A session is held and the event is a close of it."""
    yield "a session is held", thing.stage != "opening"
    yield "the event is a close of it", event.call == "close" and event.near == entry.near


def ended_far(log, event, entry, rest, thing):
    """A session is held and the event passes under its near id and has a close."""
    yield "a session is held", thing.stage != "opening"
    packet = passes(log, entry.near)
    yield "the event passes under its near id", packet is not None
    yield "and has a close", has_chunk(packet, CLOSE)


def ended_idle(log, event, entry, rest, thing):
    """A session is kept and the event is a tick at least 120,000 after the last datagram that it took. The one by which
    it began counts."""
    yield "a session is kept", thing.stage == "kept"
    yield "the event is a tick", event.call == "tick"
    places = [thing.place] + [place for place, _, is_taken in datagrams_taken(log, thing) if is_taken]
    yield "at least 120,000 after the last datagram", now(log) >= moment(log, places[-1]) + IDLE_TIME


ENDINGS = dict(zip(WHYS, (ended_cancelled, ended_expired, ended_glare, ended_override, ended_unconfirmed, ended_near,
                          ended_far, ended_idle)))


def closed(log, event, entry, rest):
    """A session with that near id is closing, and the event passes under that id and has a closeack, or is a tick at least
    19,000 after its Ended."""
    found = [session for session in closing(log) if session.fact.near == entry.near]
    yield "a session with that near id is closing", bool(found)
    if event.call == "tick":
        yield "a tick is at least 19,000 after its Ended", now(log) >= moment(log, found[0].ended) + LINGER_TIME
        return
    packet = passes(log, entry.near)
    yield "the event is a tick, or passes under that id", packet is not None
    yield "and has a closeack", has_chunk(packet, CLOSEACK)


def sought(log, event, entry, rest):
    """The event is a seek of that name, and the near id is free."""
    yield "the event is a seek of that name", event.call == "seek" and event.name == entry.name
    yield "near is free", is_free(log, entry.near)


def unsought(log, event, entry, rest):
    """A search has that near id. Either why is cancelled and the event is its unseek, or why is expired and the event is a
    tick at least 95,000 after its Sought."""
    found = [search for search in searches(log) if search.near == entry.near]
    yield "a search has that near id", bool(found)
    yield "it is cancelled or expired", entry.why in ("cancelled", "expired")
    if entry.why == "cancelled":
        yield "the event is its unseek", event.call == "unseek" and event.near == entry.near
        return
    yield "the event is a tick", event.call == "tick"
    yield "at least 95,000 after its Sought", now(log) >= moment(log, found[0].place) + ATTEMPT_TIME


def learnt(log, event, entry, rest):
    """The event is a learn, no next generation is known, and the number is the current one plus 1."""
    yield "the event is a learn", event.call == "learn"
    yield "no next one is known", next_known(log) is None
    yield "the number is the current one plus 1", entry.generation == current(log) + 1


def advanced(log, event, entry, rest):
    """The event is an advance, a next generation is known, and the number is that of the next one."""
    yield "the event is an advance", event.call == "advance"
    yield "a next one is known", next_known(log) is not None
    yield "the number is that of the next one", entry.generation == next_known(log)


def out(log, event, entry, rest):
    """The datagram is sealed in the entry's context, under a secret of all logs, and no earlier Out of the log has that
    context and number. For a session context this last is asked only where the ni of the log's Started and the nr of
    its Born before this entry are all different."""
    secret = log.secrets.get(entry.context[1])
    yield "the generation has a secret", secret is not None
    found = unsealed(secret, entry.context, entry.datagram)
    yield "the datagram is sealed in the context", found is not None
    number, packet, sid = found[0], packet_of(found[1]), session_id(entry.datagram)
    nonces = nonces_of(log)
    if entry.context[0] == "startup" or len(set(nonces)) == len(nonces):
        earlier = [it for _, it in log.entries() if it.kind == "out" and it.context == entry.context]
        yield "no earlier one has its number", number not in [it.datagram[20:36] for it in earlier]
    for keying in chunks_of(packet, IIKEYING, iikeying):
        yield from out_with_iikeying(log, entry, keying)
    for answer in chunks_of(packet, RIKEYING, rikeying):
        yield from out_with_rikeying(log, entry, sid, answer)
    if entry.context[0] == "session":
        yield from out_in_session(log, entry, sid)


def nonces_of(log):
    """The ni of all Started and the nr of all Born."""
    return [it.ni if it.kind == "started" else it.nr for _, it in log.entries() if it.kind in ("started", "born")]


def out_with_iikeying(log, entry, keying):
    """The context is the startup one of the attempt's generation: of the iikeying that went out before, or for the first
    one that in which the event brings an rhello that the attempt takes. Certificate, near id and component are those of
    this end and of an attempt that is held as opening."""
    yield "an iikeying has the certificate of this end", keying.cert == log.end.cert
    found = [it for it in attempts(log) if it.fact.near == keying.near]
    yield "an iikeying has the near id of an attempt", bool(found)
    attempt = found[0]
    component = attempt.fact.ni + be(attempt.fact.n, 8) + attempt.fact.peer
    yield "an iikeying has the component of the attempt", keying.part == component
    generation = generation_of(log, attempt)
    if generation is None:
        generation = keying_begins(log, attempt)
        yield "the attempt is in the keying stage, or takes an rhello of the event", generation is not None
    yield "the context is the startup of its generation", entry.context == ("startup", generation)


def out_with_rikeying(log, entry, sid, answer):
    """The context is the startup one in which the Born's datagram opened; session ID, near id and component are far, near,
    nr, k, the own fingerprint and ni of a held Born."""
    found = [it for it in all_held(log) if it.is_born and it.fact.near == answer.near]
    yield "an rikeying has the near id of a held Born", bool(found)
    fact, place = found[0].fact, found[0].place
    yield "the session ID is its far", sid == fact.far
    yield "an rikeying has its component", answer.part == fact.nr + be(fact.k, 8) + log.end.print + fact.ni
    context = opened(log.before(place), log.events[place]).context
    yield "the context is the startup in which its datagram opened", entry.context == context


def out_in_session(log, entry, sid):
    """The context is that of a session that is held or closing, in the direction away from this end, with the generation
    in which the datagram of its Born or Opened came; the session ID is its far id."""
    sessions = [it for it in all_held(log) if it.stage != "opening"] + closing(log)
    found = [it for it in sessions if session_context(log, it, outward=True) == entry.context]
    yield "the context is that of a session, away from this end", bool(found)
    yield "the session ID is its far id", any(sid == it.fact.far for it in found)


TABLE = {
    "started": started, "born": born, "opened": became_open, "confirmed": confirmed, "ended": ended, "closed": closed,
    "sought": sought, "unsought": unsought, "learnt": learnt, "advanced": advanced, "out": out,
}


# ---- The checks, in their order.


def refuse_unless(holds, line, cause, why):
    if not holds:
        raise Refused(line, cause, why)


def all_secrets(ends, events):
    """The secret of each generation: of two for one number the one that comes first counts."""
    secrets = {}
    for end in ends:
        secrets.setdefault(end.generation, end.secret)
    for event in events:
        for entry in event.entries:
            if event.call == "learn" and entry.kind == "learnt":
                secrets.setdefault(entry.generation, event.secret)
    return secrets


def check_ends(ends):
    """No end's first secret contradicts one before it, and no two ends have one fingerprint."""
    for place, end in enumerate(ends):
        known = all_secrets(ends[:place], [])
        is_known = known.get(end.generation, end.secret) == end.secret
        refuse_unless(is_known, end.line, "secrets", f"generation {end.generation} has one secret")
        is_new_print = end.print not in [other.print for other in ends[:place]]
        refuse_unless(is_new_print, end.line, "not-fresh", "no earlier end has the fingerprint")


def check_event(ends, events, place, secrets):
    """What is learnt contradicts no secret before it; and what opens at the end was sent before, in an earlier event, with
    the same bytes and in the context in which it opens."""
    event = events[place]
    for entry in event.entries:
        if event.call == "learn" and entry.kind == "learnt":
            known = all_secrets(ends, events[:place]).get(entry.generation, event.secret)
            refuse_unless(known == event.secret, event.line, "secrets", f"generation {entry.generation} has one secret")
    came = opened(Log(event.end, events_of(event.end, events[:place]), secrets), event)
    if came:
        sent = [(it.context, it.datagram) for other in events[:place] for it in other.entries if it.kind == "out"]
        was_sent = (came.context, event.datagram) in sent
        refuse_unless(was_sent, event.line, "not-honest", "what opens was sent in that context")


def events_of(end, events):
    return [event for event in events if event.end is end]


def check_entry(events, place, at, secrets):
    """The entry meets its line of the table; and no Started or Born before it, of any end, has its nonce."""
    event = events[place]
    entry = event.entries[at]
    cut = Record(**{**vars(event), "entries": event.entries[:at]})
    log = Log(event.end, events_of(event.end, events[:place]) + [cut], secrets)
    kind = f"ended {entry.why}" if entry.kind == "ended" else entry.kind
    for words, holds in TABLE[entry.kind](log, event, entry, event.entries[at + 1 :]):
        refuse_unless(holds, entry.line, "unlawful", f"{kind}: {words}")
    if entry.kind in ("started", "born"):
        nonce = entry.ni if entry.kind == "started" else entry.nr
        earlier = nonces_of(Log(None, events[:place] + [cut], secrets))
        refuse_unless(nonce not in earlier, entry.line, "not-fresh", "no earlier Started or Born has the nonce")


def kept(ends, events, secrets):
    """The number of pairs of an end and a peer with a kept session."""
    logs = [Log(end, events_of(end, events), secrets) for end in ends]
    return sum(1 for log in logs for thing in all_held(log) if thing.stage == "kept")


def audit(text):
    """The line that is printed, the status, and which condition failed."""
    try:
        ends, events = read(text)
    except BadLine as bad:
        return "", 3, f"bad line {bad.args[0]}"
    secrets = all_secrets(ends, events)
    try:
        check_ends(ends)
        for place, event in enumerate(events):
            check_event(ends, events, place, secrets)
            for at in range(len(event.entries)):
                check_entry(events, place, at, secrets)
    except Refused as refused:
        line, cause, why = refused.args
        return f"refused line={line} {cause}", 12, why
    return f"agreed ends={len(ends)} events={len(events)} kept={kept(ends, events, secrets)}", 0, "all conditions hold"


def main():
    if sys.argv[1:] not in ([], ["--why"]):
        print("audit: bad command line", file=sys.stderr)
        return 2
    line, status, why = audit(sys.stdin.buffer.read())
    if status == 3:
        print(f"rtmfp: {why}", file=sys.stderr)
        return status
    print(line, flush=True)
    if "--why" in sys.argv:
        print(f"why: {why}", file=sys.stderr)
    if status == 12:
        print(f"rtmfp: logs refused at line {re.search('[0-9]+', line)[0]}", file=sys.stderr)
    return status


if __name__ == "__main__":
    sys.exit(main())
