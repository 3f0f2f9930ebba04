#!/usr/bin/env python3
"""Logs that are refused, one for each condition: made of a short honest log by one change. They are what the crate
endpoint_checks says of logs, as texts: each function here has the name of the one there. It prints them as rows of
crates/examples/data/logs.audits, where they stand.

It is written after the rules alone. In a row the wrong line begins with an exclamation mark, which isn't part of it; a
row without one is an honest log, at the edge of a condition or one that others begin with. End a calls end b, unless a
row has one end alone.

  scripts/baseline/wrong.py
"""
import handshake as wire
import logs

HERE = "1.2.3.4:5"
SECRETS = [bytes([number] * 32) for number in range(3)]
NONE, NI, NR, TAG, OTHER = ("0" * 32, "1" * 32, "2" * 32, "3" * 32, "4" * 32)
NOBODY, LAST = "7" * 64, "f" * 64


class End:
    """An end by its name, which its certificate ends with. As a text it is its fingerprint."""

    def __init__(self, name):
        self.name, self.cert = name, bytes(16) + name.encode()
        self.print = logs.sha256(self.cert)

    def __str__(self):
        return self.print.hex()


# c prevails over a, and a over b.
A, B, C = End("a"), End("b"), End("c")


def digits(data):
    return data.hex() or "-"


def log(end, peers=9, sessions=9, generation=0):
    return f"log {end.name} {peers} {sessions} {generation} {SECRETS[generation].hex()} {'0' * 64} {end.cert.hex()}"


def event(end, call, moment=0, nonce=NONE):
    return f"event {end.name} {moment} {nonce} {call}"


def took(end, datagram, moment=0, nonce=NONE):
    return event(end, f"receive {HERE} {digits(datagram)}", moment, nonce)


def opens(end, peer, near, nonce=NI, n=1, tag=TAG, moment=0):
    """An open of an end and the attempt that it starts."""
    return [event(end, f"open {peer} {tag}", moment, nonce), f"+ started {peer} {n} {near} {nonce}"]


def sought(end, name, near, nonce=NI, tag=TAG, moment=0):
    """A seek of an end and the search that it begins."""
    return [event(end, f"seek {name} {tag}", moment, nonce), f"+ sought {near} {name}"]


# ---- Datagrams


def cookie(moment=0, port=5, secret=bytes(32)):
    return wire.cookie(moment, [1, 2, 3, 4], port, secret)


def rhello(cert=B.cert, tag=TAG, baked=b""):
    return wire.chunk(0x70, wire.counted(bytes.fromhex(tag)) + wire.counted(baked) + cert)


def keying(end=A, near=3, peer=B, ni=NI, n=1, baked=cookie(), secret=SECRETS[0], sign=None):
    """An initiator's keying; its signature is right where none is given."""
    part = bytes.fromhex(ni) + wire.be(n, 8) + bytes.fromhex(str(peer))
    body = wire.be(near, 4) + wire.counted(baked) + wire.counted(end.cert) + wire.counted(part)
    return wire.chunk(0x38, wire.signed(body, secret) if sign is None else body + sign)


def answer(near=6, nr=NR, k=0, own=B, ni=NI, secret=SECRETS[0], sign=None):
    """A responder's keying."""
    part = bytes.fromhex(nr) + wire.be(k, 8) + own.print + bytes.fromhex(ni)
    body = wire.be(near, 4) + wire.counted(part)
    return wire.chunk(0x78, wire.signed(body, secret) if sign is None else body + sign)


def startup(end, count, *chunks, sid=0, mode=3, generation=0):
    """A startup packet of an end with this count."""
    number = end.print[:8] + wire.be(count, 8)
    return wire.datagram(wire.startup_keys(SECRETS[generation]), sid, number, bytes([mode]) + b"".join(chunks))


def out(datagram, generation=0):
    return f"+ out {HERE} startup {generation} {digits(datagram)}"


# The values of the session that a and b make: its generation, and of the initiator and the responder their nonces,
# fingerprints and session IDs.
VALUES = (0, NI, NR, str(A), str(B), 3, 6)
PING, CLOSE, CLOSEACK = (wire.chunk(kind, b"") for kind in (0x01, 0x0C, 0x4C))


def passing(way, count, *chunks, values=VALUES, mode=None, sid=None, front=bytes(8)):
    """A datagram of a session, to the responder (i) or the initiator (r)."""
    generation, ni, nr, print_i, print_r, sid_i, sid_r = values
    ends = (*(bytes.fromhex(it) for it in (ni, nr, print_i, print_r)), sid_i, sid_r)
    keys = wire.session_keys(way == "i", *ends, SECRETS[generation])
    mode = mode or (1 if way == "i" else 2)
    sid = sid if sid is not None else sid_r if way == "i" else sid_i
    return wire.datagram(keys, sid, front + wire.be(count, 8), bytes([mode]) + b"".join(chunks))


def passes(way, datagram, values=VALUES):
    generation, *rest = values
    return f"+ out {HERE} session {generation} {' '.join(map(str, rest))} {way} {digits(datagram)}"


def bent(datagram):
    """A datagram with its last bit turned: it opens nowhere, so nobody has to have sent it."""
    return datagram[:-1] + bytes([datagram[-1] ^ 1])


# ---- Honest logs


HELLO, KEYING, ANSWER = startup(B, 1, rhello()), startup(A, 1, keying()), startup(B, 2, answer(), sid=3)
PINGED, CLOSED, CLOSEACKED = (passing("i", 1, chunk) for chunk in (PING, CLOSE, CLOSEACK))
ENDS = [log(A), log(B)]
HELLOED = [event(B, "tick"), out(HELLO)]
ASKS = [took(A, HELLO), out(KEYING)]


def born(peer=A, n=1, near=6, far=3, ni=NI, nr=NR, k=0):
    return f"+ born {peer} {n} {near} {far} {ni} {nr} {k}"


def opened(peer=B, n=1, near=3, far=6, ni=NI, nr=NR, k=0):
    return f"+ opened {peer} {n} {near} {far} {ni} {nr} {k}"


def ended(peer, near, why):
    return f"+ ended {peer} {near} {why}"


# a called b and its keying is out; b took it, answered, and is answered; a opened its attempt.
ASKED = ENDS + opens(A, B, 3) + HELLOED + ASKS
ANSWERING = [took(B, KEYING, nonce=NR), born()]
KNOWN = ASKED + ANSWERING
OPENING = [out(ANSWER), took(A, ANSWER), opened()]
OPEN = KNOWN + OPENING
CONFIRMING = [passes("i", PINGED), took(B, PINGED), f"+ confirmed {A} 6"]
KEPT = OPEN + CONFIRMING
# a gives up its first attempt and calls again.
KEYING_AGAIN = startup(A, 2, keying(near=4, ni=OTHER, n=2))
CALLS_AGAIN = [event(A, "cancel 1"), ended(B, 3, "cancelled"), *opens(A, B, 4, OTHER, 2)]
CALLS_AGAIN += [took(A, HELLO), out(KEYING_AGAIN)]
BORN_AGAIN = born(n=2, near=7, far=4, ni=OTHER, nr=TAG)
# b closes the session, and its closing is over.
CLOSING = [event(B, "close 6"), ended(A, 6, "near")]
OVER = [event(B, "tick", 19_000), "+ closed 6"]


def row(title, *parts, cause="unlawful", kept=0):
    """The title, the lines, and the answer, which the marked line tells."""
    lines = [line for part in parts for line in ([part] if isinstance(part, str) else part)]
    wrong = [at for at, line in enumerate(lines, 1) if line.startswith("!")]
    lines = [line.removeprefix("!") for line in lines]
    if wrong:
        return title, lines, f"refused line={wrong[0]} {cause}"
    ends, events = (sum(line.startswith(word) for line in lines) for word in ("log ", "event "))
    return title, lines, f"agreed ends={ends} events={events} kept={kept}"


CALLS = {"open": f"open {LAST} {TAG}", "cancel": "cancel 1", "close": "close 6", "learn": f"learn {SECRETS[1].hex()}",
         "advance": "advance", "unseek": "unseek 5", "receive": f"receive {HERE} -", "tick": "tick"}


def in_calls(words):
    """Some calls that do nothing here, each with its name."""
    return [(f"{'an' if word[0] in 'aou' else 'a'} {word}", CALLS[word]) for word in words.split()]


# ---- Attempts and searches


def starts():
    first, mine = [log(A)], opens(A, NOBODY, 5)
    again = f"open {NOBODY} {TAG}"
    for name, call in in_calls("cancel close receive tick"):
        yield row(f"an attempt that starts in {name}", first, event(A, call), f"!+ started {NOBODY} 1 5 {NONE}")
    yield row("an attempt towards another peer than its open's", first, mine[0], f"!+ started {LAST} 1 5 {NI}")
    yield row("an attempt with another nonce than its open's", first, mine[0], f"!+ started {NOBODY} 1 5 {NONE}")
    yield row("an attempt towards its own end",
              first, event(A, f"open {A} {TAG}", nonce=NI), f"!+ started {A} 1 5 {NI}")
    yield row("an attempt where one is held", first, mine, event(A, again, nonce=NR), f"!+ started {NOBODY} 2 6 {NR}")
    yield row("an attempt where a session is held",
              KNOWN, event(B, f"open {A} {TAG}", nonce=OTHER), f"!+ started {A} 1 5 {OTHER}")
    yield row("a first attempt with the number 2", first, mine[0], f"!+ started {NOBODY} 2 5 {NI}")
    over = [event(A, "cancel 1"), ended(NOBODY, 5, "cancelled")]
    for n in (1, 3):
        yield row(f"a second attempt with the number {n}",
                  first, mine, over, event(A, again, nonce=NR), f"!+ started {NOBODY} {n} 5 {NR}")
    yield row("an attempt under the session ID 0", first, mine[0], f"!+ started {NOBODY} 1 0 {NI}")
    other = event(A, f"open {LAST} {TAG}", nonce=NR)
    yield row("an attempt under the session ID of another", first, mine, other, f"!+ started {LAST} 2 5 {NR}")
    there = [event(B, f"open {NOBODY} {TAG}", nonce=OTHER), f"!+ started {NOBODY} 1 6 {OTHER}"]
    yield row("an attempt under the session ID of a half-open session", KNOWN, there)
    yield row("an attempt under the session ID of a confirmed session", KEPT, there)
    here = [event(A, f"open {NOBODY} {TAG}", nonce=OTHER), f"!+ started {NOBODY} 2 3 {OTHER}"]
    yield row("an attempt under the session ID of an opened session", OPEN, here)
    yield row("an attempt under the session ID of a session that this end closed", KNOWN, CLOSING, there)
    far = [passes("i", CLOSED), took(B, CLOSED), ended(A, 6, "far")]
    yield row("an attempt under the session ID of a session that the peer closed", OPEN, far, there)
    second = [*opens(A, NOBODY, 6, NR, 2), event(A, "cancel 2"), ended(NOBODY, 6, "cancelled")]
    third = [event(A, again, nonce=OTHER), f"!+ started {NOBODY} 3 5 {OTHER}"]
    yield row("an attempt under a session ID in use where another is over", first, opens(A, LAST, 5), second, third)
    late = [event(B, f"open {LAST} {TAG}", 19_000, TAG), f"!+ started {LAST} 2 5 {TAG}"]
    yield row("an attempt under a session ID in use where a closing is over",
              KNOWN, opens(B, NOBODY, 5, OTHER), CLOSING, OVER, late)


def seeks():
    first, mine = [log(A)], sought(A, "62", 5)
    for name, call in in_calls("open unseek receive tick"):
        yield row(f"a search that begins in {name}", first, event(A, call), "!+ sought 5 62")
    yield row("a search of another name than its seek's", first, mine[0], "!+ sought 5 63")
    yield row("a search under the session ID 0", first, mine[0], "!+ sought 0 62")
    yield row("a search under the session ID of another", first, mine, mine[0], "!+ sought 5 62")
    yield row("a search under the session ID of an attempt", first, opens(A, NOBODY, 5), mine[0], "!+ sought 5 62")
    yield row("a search under the session ID of a session", KNOWN, event(B, f"seek 62 {TAG}"), "!+ sought 6 62")


def unseeks():
    first = [log(A), *sought(A, "62", 5)]
    over = "+ unsought 5 cancelled"
    for name, call in in_calls("open receive tick cancel close"):
        yield row(f"a search that is cancelled in {name}", first, event(A, call), f"!{over}")
    yield row("a search that is cancelled in the unseek of another", first, event(A, "unseek 6"), f"!{over}")
    for name, call in in_calls("unseek receive"):
        yield row(f"a search that expires in {name}",
                  first, event(A, call, 95_000), "!+ unsought 5 expired")
    yield row("a search that expires at 94,999 ms", first, event(A, "tick", 94_999), "!+ unsought 5 expired")
    yield row("a search that expires at 95,000 ms", first, event(A, "tick", 95_000), "+ unsought 5 expired")
    later = [log(A), *sought(A, "62", 5, moment=7), event(A, "tick", 95_006), "!+ unsought 5 expired"]
    yield row("a search from 7 ms on that expires at 95,006 ms", later)
    for why in ("override", "unconfirmed", "near", "far", "idle"):
        yield row(f"a search that ends by {why}", first, event(A, "unseek 5"), f"!+ unsought 5 {why}")
    yield row("a search that is over under another session ID", first, event(A, "unseek 6"), "!+ unsought 6 cancelled")
    yield row("a search that is over where there is none", [log(A)], event(A, "unseek 5"), f"!{over}")
    yield row("a search that is over where there is an attempt",
              [log(A)], opens(A, NOBODY, 5), event(A, "unseek 5"), f"!{over}")
    yield row("a search that is over twice", first, event(A, "unseek 5"), over, event(A, "unseek 5"), f"!{over}")
    yield row("a search that is over where it was answered",
              SEARCHED, f"+ started {B} 1 5 {NI}", event(A, "unseek 5"), f"!{over}")


# a searches for b, and takes b's hello.
SEARCHING = [*ENDS, *sought(A, "62", 5), *HELLOED]
SEARCHED = [*SEARCHING, took(A, HELLO)]


def searches():
    mine = f"+ started {B} 1 5 {NI}"
    yield row("a search that is answered", SEARCHED, mine)
    yield row("a search that is answered in a tick", log(A), sought(A, "62", 5), event(A, "tick"), f"!{mine}")
    yield row("a hello without a search", ENDS, HELLOED, took(A, HELLO), f"!{mine}")
    yield row("a search that is answered when it is over",
              SEARCHING, event(A, "unseek 5"), "+ unsought 5 cancelled", took(A, HELLO), f"!{mine}")
    twice = [mine, event(A, "cancel 1"), ended(B, 5, "cancelled"), took(A, HELLO), f"!+ started {B} 2 5 {NI}"]
    yield row("a search that is answered twice", SEARCHED, twice)
    yield row("a search that is answered under another session ID", SEARCHED, f"!+ started {B} 1 6 {NI}")
    yield row("a search that is answered with another nonce", SEARCHED, f"!+ started {B} 1 5 {NR}")
    yield row("a search that is answered with the nonce of that call",
              SEARCHING, took(A, HELLO, nonce=NR), f"!+ started {B} 1 5 {NR}")
    yield row("a search that is answered with the number 2", SEARCHED, f"!+ started {B} 2 5 {NI}")
    under = startup(B, 1, rhello(), sid=5)
    yield row("a search that is answered under its session ID",
              ENDS, sought(A, "62", 5), event(B, "tick"), out(under), took(A, under), f"!{mine}")
    yield row("a search that is answered by 35 bytes", ENDS, sought(A, "62", 5), took(A, bytes(35)), f"!{mine}")
    yield row("a search that is answered by what doesn't open",
              ENDS, sought(A, "62", 5), took(A, bent(HELLO)), f"!{mine}")


def hellos():
    def answered(title, chunk, peer=B, name="62"):
        hello = startup(B, 1, chunk)
        asked = [*ENDS, *sought(A, name, 5), event(B, "tick"), out(hello), took(A, hello)]
        return row(title, asked, f"!+ started {peer} 1 5 {NI}")

    yield answered("a search that is answered with another tag", rhello(tag=OTHER))
    yield answered("a search that is answered with another name", rhello(), name="63")
    yield answered("a search that is answered with another end's certificate", rhello(), peer=NOBODY)
    short = bytes(16)
    yield answered("a search that is answered without a certificate", rhello(short), peer=logs.sha256(short).hex())


# ---- How attempts end


def cancels():
    first, over = [log(A), *opens(A, NOBODY, 5)], ended(NOBODY, 5, "cancelled")
    for name, call in in_calls("open receive tick close"):
        yield row(f"an attempt that is cancelled in {name}", first, event(A, call), f"!{over}")
    yield row("an attempt that is cancelled in the cancel of another", first, event(A, "cancel 2"), f"!{over}")
    yield row("an attempt that is cancelled under another session ID",
              first, event(A, "cancel 1"), f"!{ended(NOBODY, 6, 'cancelled')}")
    yield row("an attempt that is cancelled of another peer",
              first, event(A, "cancel 1"), f"!{ended(LAST, 5, 'cancelled')}")
    yield row("an attempt that is cancelled where nothing is held", [log(A)], event(A, "cancel 1"), f"!{over}")
    yield row("a session that is cancelled", KNOWN, event(B, "cancel 1"), f"!{ended(A, 6, 'cancelled')}")


def expiries():
    first, over = [log(A), *opens(A, NOBODY, 5)], ended(NOBODY, 5, "expired")
    for name, call in in_calls("open receive cancel close"):
        yield row(f"an attempt that expires in {name}", first, event(A, call, 95_000), f"!{over}")
    yield row("an attempt that expires under another session ID",
              first, event(A, "tick", 95_000), f"!{ended(NOBODY, 6, 'expired')}")
    yield row("an attempt that expires where nothing is held", [log(A)], event(A, "tick", 95_000), f"!{over}")
    yield row("a session that expires", KNOWN, event(B, "tick", 95_000), f"!{ended(A, 6, 'expired')}")


# b called a as a called b; a prevails.
BOTH_CALLED = [*ASKED, *opens(B, A, 5, OTHER)]


def ways():
    taken, gives_way = took(B, KEYING, nonce=NR), ended(A, 5, "glare")
    birth = born(k=1)
    yield row("an attempt that gives way", BOTH_CALLED, taken, gives_way, birth)
    yield row("an attempt that gives way to nothing",
              log(A), opens(A, LAST, 5), event(A, "tick"), f"!{ended(LAST, 5, 'glare')}")
    yield row("an attempt that gives way to the next event",
              BOTH_CALLED, event(B, "tick"), f"!{gives_way}", taken, birth)
    yield row("an attempt that gives way before a datagram",
              BOTH_CALLED, taken, f"!{gives_way}", out(startup(B, 2)), birth)
    to_another = [*ASKED, *opens(B, LAST, 5, OTHER), taken, f"!{ended(LAST, 5, 'glare')}", birth]
    yield row("an attempt that gives way to another peer's session", to_another)
    yield row("an attempt of the end that prevails that gives way", prevailing())
    again, ends_it = took(B, KEYING_AGAIN, nonce=TAG), ended(A, 6, "override")
    yield row("a session that is overridden", KNOWN, CALLS_AGAIN, again, ends_it, BORN_AGAIN)
    yield row("a session that ends by glare", KNOWN, CALLS_AGAIN, again, f"!{ended(A, 6, 'glare')}", BORN_AGAIN)
    yield row("an attempt that is overridden", BOTH_CALLED, taken, f"!{ended(A, 5, 'override')}", birth)
    yield row("a session that is overridden by nothing", KNOWN, event(B, "tick"), f"!{ends_it}")
    yield row("a session that is overridden by the next event",
              KNOWN, CALLS_AGAIN, event(B, "tick"), f"!{ends_it}", again, BORN_AGAIN)
    yield row("a session that is overridden before a datagram",
              KNOWN, CALLS_AGAIN, again, f"!{ends_it}", out(startup(B, 2)), BORN_AGAIN)
    yield row("a session that is overridden by another peer's", overridden_by_c())
    nothing = [*ASKED, taken]
    yield row("an attempt that gives way under another session ID", BOTH_CALLED, taken, f"!{ended(A, 7, 'glare')}", birth)
    yield row("an attempt that gives way where nothing is held", nothing, f"!{gives_way}", born())
    away = [again, f"!{ended(A, 7, 'override')}", BORN_AGAIN]
    yield row("a session that is overridden under another session ID", KNOWN, CALLS_AGAIN, away)
    yield row("a session that is overridden where nothing is held", nothing, f"!{ends_it}", born())


def prevailing():
    """c called a, and takes a's keying; c prevails."""
    hello, asking = startup(C, 1, rhello(C.cert)), startup(A, 1, keying(peer=C))
    asked = [*opens(A, C, 3), event(C, "tick"), out(hello), took(A, hello), out(asking)]
    gives_way = [took(C, asking, nonce=NR), f"!{ended(A, 5, 'glare')}", born(k=1)]
    return [log(A), log(C), *opens(C, A, 5, OTHER), *asked, *gives_way]


def overridden_by_c():
    """c calls b, which ends its session with a."""
    asking = startup(C, 1, keying(C, ni=OTHER))
    asked = [*opens(C, B, 3, OTHER), took(C, HELLO), out(asking)]
    birth = born(C, near=7, ni=OTHER, nr=TAG)
    return [log(C), *KNOWN, *asked, took(B, asking, nonce=TAG), f"!{ended(A, 6, 'override')}", birth]


# ---- How sessions end


def others(why, call, verb, moment=0, held=KNOWN):
    """What a cause of an end refuses of whatever is no session with this peer and session ID."""
    at = event(B, call, moment)
    yield row(f"a session that {verb} under another session ID",
              held, at.replace("close 6", "close 7"), f"!{ended(A, 7, why)}")
    yield row(f"a session of another peer that {verb}", held, at, f"!{ended(NOBODY, 6, why)}")
    yield row(f"a session that {verb} where nothing is held", log(B), at, f"!{ended(A, 6, why)}")
    yield row(f"an attempt that {verb}", log(B), opens(B, NOBODY, 6, OTHER), at, f"!{ended(NOBODY, 6, why)}")


def unconfirmed():
    over = ended(A, 6, "unconfirmed")
    yield from others("unconfirmed", "tick", "ends as unconfirmed", 20_000)
    yield row("a session that ends as unconfirmed twice",
              KNOWN, event(B, "tick", 20_000), over, event(B, "tick", 20_000), f"!{over}")
    for name, call in in_calls("open cancel close receive"):
        yield row(f"a session that ends as unconfirmed in {name}", KNOWN, event(B, call, 20_000), f"!{over}")
    yield row("a session that ends as unconfirmed at 19,999 ms", KNOWN, event(B, "tick", 19_999), f"!{over}")
    yield row("a session that ends as unconfirmed at 20,000 ms", KNOWN, event(B, "tick", 20_000), over)
    later = [*ASKED, took(B, KEYING, 7, NR), born(), event(B, "tick", 20_006), f"!{over}"]
    yield row("a session from 7 ms on that ends as unconfirmed at 20,006 ms", later)
    yield row("a confirmed session that ends as unconfirmed", KEPT, event(B, "tick", 20_000), f"!{over}")
    yield row("an opened session that ends as unconfirmed",
              OPEN, event(A, "tick", 20_000), f"!{ended(B, 3, 'unconfirmed')}")


def nears():
    over = ended(A, 6, "near")
    yield from others("near", "close 6", "this end closed")
    yield row("a session that this end closed twice", KNOWN, CLOSING, event(B, "close 6"), f"!{over}")
    for name, call in in_calls("open cancel receive tick"):
        yield row(f"a session that this end closed in {name}", KNOWN, event(B, call), f"!{over}")
    yield row("a session that this end closed in the close of another", KNOWN, event(B, "close 7"), f"!{over}")
    yield row("a session that this end closed", KNOWN, CLOSING)


def untaken(chunk, other, before, over, verb):
    """What asks that a session takes a datagram with a chunk is refused of each datagram for which that isn't so.
    `before` is an honest log with a session at both ends, where b did what is needed, and `over` what b says of it."""
    right = passing("i", 1, chunk)

    def taken(title, datagram, sent=True):
        says = [took(B, datagram), f"!{over}"]
        return row(f"a session that {verb} {title}", before, [passes("i", datagram)] if sent else [], says)

    yield taken("in 35 bytes", bytes(35), sent=False)
    yield taken("in a datagram under another session ID", passing("i", 1, chunk, sid=7), sent=False)
    yield taken("in what doesn't open", bent(right), sent=False)
    yield taken("in a packet of another mode", passing("i", 1, chunk, mode=2))
    yield taken("without saying so", passing("i", 1, other))
    yield taken("in a packet with the count 0", passing("i", 0, chunk))
    yield row(f"a session that {verb} in a datagram that comes again",
              before, passes("i", right), took(B, right), took(B, right), f"!{over}")
    first = passing("i", 1_025, PING)
    old = [passes("i", first), passes("i", right), took(B, first), took(B, right), f"!{over}"]
    yield row(f"a session that {verb} 1,024 below another count", before, old)
    first = passing("i", 1_024, PING)
    late = [passes("i", first), passes("i", right), took(B, first), took(B, right), over]
    yield row(f"a session that {verb} 1,023 below another count", before, late, kept=1)


def fars():
    over = ended(A, 6, "far")
    closes = [*OPEN, passes("i", CLOSED)]
    yield row("a session that the peer closed", closes, took(B, CLOSED), over, kept=1)
    call = f"receive {HERE} {digits(CLOSED)}"
    yield from others("far", call, "the peer closed", held=closes)
    yield row("a session that the peer closed twice", closes, took(B, CLOSED), over, took(B, CLOSED), f"!{over}")
    for name, text in in_calls("open cancel close tick"):
        yield row(f"a session that the peer closed in {name}", KNOWN, event(B, text), f"!{over}")
    yield from untaken(CLOSE, PING, OPEN, over, "the peer closed")


def idles():
    over = ended(A, 6, "idle")
    yield from others("idle", "tick", "ends as idle", 120_000, KEPT)
    twice = [event(B, "tick", 120_000), over, event(B, "tick", 120_000), f"!{over}"]
    yield row("a session that ends as idle twice", KEPT, twice, kept=1)
    for name, call in in_calls("open cancel close receive"):
        yield row(f"a session that ends as idle in {name}", KEPT, event(B, call, 120_000), f"!{over}")
    yield row("a half-open session that ends as idle", KNOWN, event(B, "tick", 120_000), f"!{over}")
    yield row("a session that ends as idle at 119,999 ms", KEPT, event(B, "tick", 119_999), f"!{over}")
    yield row("a session that ends as idle at 120,000 ms", KEPT, event(B, "tick", 120_000), over, kept=1)
    birth = [*ASKED, took(B, KEYING, 7, NR), born(), *OPENING]
    heard = [passes("i", PINGED), took(B, PINGED, 7), f"+ confirmed {A} 6"]
    yield row("a session from 7 ms on that ends as idle at 120,006 ms",
              birth, heard, event(B, "tick", 120_006), f"!{over}")
    opening = [*KNOWN, out(ANSWER), took(A, ANSWER, 7), opened(), event(A, "tick", 120_006), f"!{ended(B, 3, 'idle')}"]
    yield row("a session that opened at 7 ms and ends as idle at 120,006 ms", opening)
    last = [passes("i", PINGED), took(B, PINGED, 1), f"+ confirmed {A} 6", event(B, "tick", 120_000), f"!{over}"]
    yield row("a session that ends as idle 119,999 ms after a datagram", OPEN, last)


def closings():
    over = "+ closed 6"
    late = event(B, "tick", 19_000)
    yield row("a closing that is over", KNOWN, CLOSING, OVER)
    yield row("a closing that is over where there is none", log(B), late, f"!{over}")
    yield row("a closing that is over where there is an attempt", log(B), opens(B, NOBODY, 6), late, f"!{over}")
    yield row("a closing that is over where a session is held", KNOWN, late, f"!{over}")
    dropped = [event(B, "tick", 20_000), ended(A, 6, "unconfirmed"), event(B, "tick", 39_000), f"!{over}"]
    yield row("a closing that is over where the session wasn't closed", KNOWN, dropped)
    yield row("a closing that is over under another session ID", KNOWN, CLOSING, late, "!+ closed 7")
    yield row("a closing that is over twice", KNOWN, CLOSING, OVER, late, f"!{over}")
    for name, call in in_calls("open cancel close"):
        yield row(f"a closing that is over in {name}", KNOWN, CLOSING, event(B, call, 19_000), f"!{over}")
    yield row("a closing that is over at 18,999 ms", KNOWN, CLOSING, event(B, "tick", 18_999), f"!{over}")
    later = [event(B, "close 6", 7), ended(A, 6, "near"), event(B, "tick", 19_006), f"!{over}"]
    yield row("a closing from 7 ms on that is over at 19,006 ms", KNOWN, later)
    closed_here = [*KNOWN, out(ANSWER), *CLOSING, took(A, ANSWER), opened()]
    yield row("a closing that the peer answered",
              closed_here, passes("i", CLOSEACKED), took(B, CLOSEACKED), over, kept=1)
    yield from untaken(CLOSEACK, CLOSE, closed_here, over, "ends its closing")


# ---- How sessions are born


def births():
    for name, call in in_calls("open cancel close tick"):
        yield row(f"a session that is born in {name}", log(B), event(B, call), f"!{born(nr=NONE)}")
    yield row("a session that is born of 35 bytes", log(B), took(B, bytes(35), nonce=NR), f"!{born()}")
    under = startup(A, 1, keying(), sid=5)
    asked = [*ASKED[:7], out(under), *opens(B, NOBODY, 5, OTHER)]
    yield row("a session that is born under the session ID of an attempt",
              asked, took(B, under, nonce=NR), f"!{born(k=1)}")
    yield row("a session that is born of what doesn't open", log(B), took(B, bent(KEYING), nonce=NR), f"!{born()}")
    yield row("a session that is born of a packet of another mode",
              *asked_by(startup(A, 1, keying(), mode=1)), f"!{born()}")
    yield row("a session that is born of a packet without chunks", *asked_by(startup(A, 1)), f"!{born()}")
    taken = took(B, KEYING, nonce=NR)
    yield row("a session that is born", ASKED, taken, born())
    yield row("a session that is born under the session ID 0", ASKED, taken, f"!{born(near=0)}")
    yield row("a session that is born with another nonce", ASKED, taken, f"!{born(nr=OTHER)}")
    yield row("a session that is born with the count 1", ASKED, taken, f"!{born(k=1)}")
    yield row("a session that is born of an initiator under 0", ASKED, taken, f"!{born(far=0)}")
    yield row("a session that is born with the number 0", ASKED, taken, f"!{born(n=0)}")
    for what, limits in ("peers", {"peers": 0}), ("sessions", {"sessions": 0}):
        yield row(f"a session that is born without {what}", log(A), log(B, **limits), ASKED[2:], taken, f"!{born()}")


def asked_by(datagram, peer=B):
    """What a calls its peer with, and b takes it."""
    hello = HELLO if peer is B else startup(B, 1, rhello(peer.cert))
    asked = [*opens(A, peer, 3), event(B, "tick"), out(hello), took(A, hello), out(datagram)]
    return ENDS, asked, took(B, datagram, nonce=NR)


def keyings():
    taken = took(B, KEYING, nonce=NR)
    empty = startup(A, 1, wire.chunk(0x38, b""), keying())
    yield row("a session that is born of a second keying where the first can't be read", *asked_by(empty), f"!{born()}")
    for what, values in (("session ID", {"far": 4}), ("number", {"n": 2}), ("nonce", {"ni": OTHER})):
        yield row(f"a session that is born with another {what} than its keying's", ASKED, taken, f"!{born(**values)}")
    yield row("a session that is born with another peer than its keying's", ASKED, taken, f"!{born(NOBODY)}")
    yield row("a session that is born of a keying for another end",
              *asked_by(startup(A, 1, keying(peer=C)), C), f"!{born()}")
    yield row("a session that is born of a keying that isn't signed",
              *asked_by(startup(A, 1, keying(sign=bytes(32)))), f"!{born()}")
    second = startup(A, 1, keying(sign=bytes(32)), keying())
    yield row("a session that is born of a datagram's second keying", *asked_by(second), f"!{born()}")
    other_secret, other_place = cookie(secret=SECRETS[1]), cookie(port=6)
    for what, baked in (("of 129 bytes", bytes(129)), ("of nobody", bytes(31)), ("without bytes", b""),
                        ("of another secret", other_secret), ("for another place", other_place)):
        yield row(f"a session that is born with a cookie {what}",
                  *asked_by(startup(A, 1, keying(baked=baked))), f"!{born()}")
    yield row("a session that is born with a cookie 95,001 ms old", ASKED, took(B, KEYING, 95_001, NR), f"!{born()}")
    yield row("a session that is born with a cookie 95,000 ms old", ASKED, took(B, KEYING, 95_000, NR), born())
    itself = [*opens(B, C, 3), event(A, "tick"), out(startup(A, 1, rhello(C.cert)))]
    own = startup(B, 1, keying(B, peer=C))
    itself += [took(B, startup(A, 1, rhello(C.cert))), out(own), took(B, own, nonce=NR)]
    yield row("a session that is born of a keying of its own end", ENDS, itself, f"!{born(B, k=1)}")


def later_births():
    taken, again = took(B, KEYING, nonce=NR), took(B, KEYING_AGAIN, nonce=TAG)
    yield row("a session that is born where one is held", KNOWN, CALLS_AGAIN, again, f"!{BORN_AGAIN}")
    asked = prevailing()[:-2]
    yield row("a session that is born where the attempt of the end that prevails is held", asked, f"!{born(k=1)}")
    other = [*ASKED, *opens(B, NOBODY, 6, OTHER), taken]
    yield row("a session that is born under the session ID of an attempt that is held", other, f"!{born(k=1)}")
    yield row("a session that is born without the attempt in its count", other, f"!{born(near=7)}")
    yield row("a session that is born under the session ID of one that is closing", KNOWN, CLOSING, CALLS_AGAIN, again,
              f"!{born(n=2, far=4, ni=OTHER, nr=TAG)}")
    override = [took(B, KEYING, nonce=TAG), ended(A, 6, "override")]
    yield row("a session that is born of a keying that bore one", KNOWN, override, f"!{born(near=7, nr=TAG)}")
    over = [event(B, "tick", 20_000), ended(A, 6, "unconfirmed"), took(B, KEYING, 20_000, TAG)]
    yield row("a session that is born of a keying that bore one that is over", KNOWN, over, f"!{born(nr=TAG)}")
    yield row("a session that is born of a keying below the peer's count", below_the_count())
    for what, limits in ("peers", {"peers": 1}), ("sessions", {"sessions": 1}):
        full = [log(A), log(B, **limits), *ASKED[2:], *opens(B, NOBODY, 5, OTHER)]
        yield row(f"a session that is born where an attempt takes all {what}", full, taken, f"!{born(k=1)}")
    over = [event(B, "cancel 1"), ended(NOBODY, 5, "cancelled"), taken]
    full = [log(A), log(B, peers=1), *ASKED[2:], *opens(B, NOBODY, 5, OTHER)]
    yield row("a session that is born where a former attempt takes all peers", full, over, f"!{born(k=1)}")
    yield row("a session that is born where one that is closing takes all sessions",
              log(A), log(B, sessions=1), KNOWN[2:],
              CLOSING, CALLS_AGAIN, again, f"!{BORN_AGAIN}")


def below_the_count():
    """a's first attempt, which has the number 1, is over; b's attempt opens, and a tells the count 1; then a's first
    keying comes."""
    hello, asking = startup(A, 2, rhello(A.cert)), startup(B, 2, keying(B, 6, A, OTHER))
    values = {"n": 1, "ni": OTHER, "nr": TAG, "k": 1}
    told = startup(A, 3, answer(7, TAG, 1, A, OTHER), sid=6)
    a_gives_up = [event(A, "cancel 1"), ended(B, 3, "cancelled"), event(A, "tick"), out(hello)]
    b_calls = [*opens(B, A, 6, OTHER), took(B, hello), out(asking)]
    answers_it = [took(A, asking, nonce=TAG), born(B, near=7, far=6, **values), out(told)]
    opens_it = [took(B, told), opened(A, near=6, far=7, **values)]
    late = [took(B, KEYING, nonce=NR), ended(A, 6, "override"), f"!{born(near=8, k=1)}"]
    return [*ASKED, *a_gives_up, *b_calls, *answers_it, *opens_it, *late]


# ---- How attempts open, and sessions are confirmed


def openings():
    first = [log(A), *opens(A, B, 3)]
    for name, call in in_calls("open cancel close tick"):
        yield row(f"an attempt that opens in {name}", first, event(A, call), f"!{opened()}")
    taken = [out(ANSWER), took(A, ANSWER)]
    over = [event(A, "cancel 1"), ended(B, 3, "cancelled")]
    yield row("an attempt that opens", OPEN, kept=1)
    yield row("an attempt that opens where nothing is held", KNOWN, out(ANSWER), over, took(A, ANSWER), f"!{opened()}")
    others = (("number", {"n": 2}), ("session ID", {"near": 4}), ("nonce", {"ni": OTHER}), ("peer", {"peer": NOBODY}))
    for what, values in others:
        yield row(f"an attempt that opens with another {what}", KNOWN, taken, f"!{opened(**values)}")
    yield row("an attempt that opens where a session is held", OPEN, took(A, ANSWER), f"!{opened()}")
    yield row("a session that was born and opens", KNOWN, took(B, b""), f"!{opened(A, near=6, far=3)}")
    yield row("an attempt that opens by 35 bytes", first, took(A, bytes(35)), f"!{opened()}")
    yield row("an attempt that opens by what is under the session ID 0", KNOWN, took(A, HELLO), f"!{opened()}")
    yield row("an attempt that opens by what doesn't open", first, took(A, bent(ANSWER)), f"!{opened()}")


def answers():
    taken = [out(ANSWER), took(A, ANSWER)]
    for what, values in (("session ID", {"far": 7}), ("nonce", {"nr": OTHER}), ("count", {"k": 1})):
        yield row(f"an attempt that opens with another {what} than its answer's", KNOWN, taken, f"!{opened(**values)}")
    unsigned = startup(B, 2, answer(sign=bytes(32)), sid=3)
    yield row("an attempt that opens by an answer that isn't signed",
              KNOWN, out(unsigned), took(A, unsigned), f"!{opened()}")
    yield row("an attempt that opens without an answer",
              KNOWN, out(startup(B, 2, sid=3)), took(A, startup(B, 2, sid=3)), f"!{opened()}")
    yield row("an attempt that opens by the answer to an earlier one", to_the_earlier())


def to_the_earlier():
    """a calls again under its first session ID, and takes the answer to its first keying."""
    again = [event(A, "cancel 1"), ended(B, 3, "cancelled"), *opens(A, B, 3, OTHER, 2)]
    return [*KNOWN, out(ANSWER), *again, took(A, ANSWER), f"!{opened(n=2, ni=OTHER)}"]


def confirms():
    over = f"+ confirmed {A} 6"
    for name, call in in_calls("open cancel close tick"):
        yield row(f"a session that is confirmed in {name}", KNOWN, event(B, call), f"!{over}")
    yield row("a session that is confirmed where nothing is held", log(B), took(B, b""), f"!{over}")
    yield row("an attempt that is confirmed", log(B), opens(B, A, 6), took(B, b""), f"!{over}")
    sends_ping = [*OPEN, passes("i", PINGED), took(B, PINGED)]
    yield row("a session that is confirmed", KEPT, kept=2)
    yield row("a session that is confirmed under another session ID", sends_ping, f"!+ confirmed {A} 7")
    second = passing("i", 2, PING)
    yield row("a session that is confirmed twice", KEPT, took(B, PINGED), f"!{over}")
    yield row("a session that is confirmed again",
              OPEN, passes("i", PINGED), passes("i", second), CONFIRMING[1:], took(B, second), f"!{over}")
    yield row("a session that is confirmed by 35 bytes", KNOWN, took(B, bytes(35)), f"!{over}")
    yield row("a session that is confirmed by what is under the session ID 0", KNOWN, took(B, KEYING), f"!{over}")
    odd = passing("i", 1, PING, front=bytes(7) + b"\x01")
    yield row("a session that is confirmed by a number that no session's packet has",
              OPEN, passes("i", odd), took(B, odd), f"!{over}")
    yield row("a session that is confirmed by what doesn't open", KNOWN, took(B, bent(PINGED)), f"!{over}")


# ---- What goes out


def sends():
    sent = startup(A, 1)
    yield row("a datagram of 35 bytes that goes out", log(A), event(A, "tick"), f"!{out(bytes(35))}")
    yield row("a datagram that goes out", log(A), event(A, "tick"), out(sent))
    yield row("a datagram that goes out and isn't sealed", log(A), event(A, "tick"), f"!{out(bent(sent))}")
    yield row("a datagram that goes out in a generation without a secret", log(A), event(A, "tick"), f"!{out(sent, 1)}")


def numbers():
    sent, again = startup(A, 1), startup(A, 1, PING)
    yield row("two datagrams with one number", log(A), event(A, "tick"), out(sent), f"!{out(again)}")
    yield row("two datagrams with one number in two calls",
              log(A), event(A, "tick"), out(sent), event(A, "tick"), f"!{out(again)}")
    yield row("two datagrams of a session with one number", OPEN, passes("i", PINGED), f"!{passes('i', CLOSED)}")


def keyings_sent():
    asking = [*ENDS, *opens(A, B, 3), *HELLOED, took(A, HELLO)]

    def sent(title, chunk, generation=0):
        first = [log(C, generation=1)] if generation else []
        return row(title, first, asking, f"!{out(startup(A, 1, chunk, generation=generation), generation)}")

    yield row("a keying in a session", in_a_session())
    yield sent("a keying in another generation", keying(), 1)
    yield sent("a keying with another end's certificate", keying(B))
    yield row("a keying without an attempt", log(A), event(A, "tick"), f"!{out(KEYING)}")
    yield sent("a keying with another session ID", keying(near=4))
    yield sent("a keying with another nonce", keying(ni=OTHER))
    yield sent("a keying with another number", keying(n=2))
    yield sent("a keying for another end", keying(peer=C))
    over = [event(A, "cancel 1"), ended(B, 3, "cancelled"), event(A, "tick")]
    yield row("a keying of an attempt that is over", ASKED, over, f"!{out(startup(A, 2, keying()))}")
    yield row("a keying of an attempt that opened", OPEN, f"!{out(startup(A, 2, keying()))}")


def in_a_session():
    """a has a session with b and calls c, whose hello it takes."""
    hello, asking = startup(B, 3, rhello(C.cert)), passing("i", 1, keying(near=4, peer=C, ni=OTHER, n=2))
    return [*OPEN, *opens(A, C, 4, OTHER, 2), event(B, "tick"), out(hello), took(A, hello), f"!{passes('i', asking)}"]


def answers_sent():
    def sent(title, chunk, generation=0, sid=3):
        first = [log(C, generation=1)] if generation else []
        return row(title, first, KNOWN, f"!{out(startup(B, 2, chunk, sid=sid, generation=generation), generation)}")

    yield row("an answer in a session", KNOWN, f"!{passes('r', passing('r', 1, answer()))}")
    yield sent("an answer in another generation", answer(), 1)
    yield row("an answer without a session", log(B), event(B, "tick"), f"!{out(ANSWER)}")
    yield sent("an answer with another session ID", answer(7))
    yield sent("an answer with another nonce", answer(nr=OTHER))
    yield sent("an answer with another count", answer(k=1))
    yield sent("an answer of another end", answer(own=C))
    yield sent("an answer to another nonce", answer(ni=OTHER))
    yield sent("an answer under another session ID", answer(), sid=4)
    yield row("an answer of a session that is closing", KNOWN, CLOSING, f"!{out(ANSWER)}")
    over = [event(B, "tick", 20_000), ended(A, 6, "unconfirmed")]
    yield row("an answer of a session that is over", KNOWN, over, f"!{out(ANSWER)}")
    here = startup(A, 2, answer(3, NI, 0, A, NR), sid=6)
    yield row("an answer of a session that was opened here", OPEN, f"!{out(here)}")


def sends_in_sessions():
    sent = passing("r", 1, PING)
    goes = f"!{passes('r', sent)}"
    yield row("a datagram in a session where nothing is held", log(B), event(B, "tick"), goes)
    yield row("a datagram in a session where an attempt is held", log(B), opens(B, A, 6, OTHER), event(B, "tick"), goes)
    yield row("a datagram in a session", KNOWN, passes("r", sent))
    changed = (("initiator's nonce", 1, OTHER), ("responder's nonce", 2, OTHER), ("initiator's fingerprint", 3, NOBODY),
               ("responder's fingerprint", 4, NOBODY), ("initiator's session ID", 5, 4),
               ("responder's session ID", 6, 7))
    for what, at, value in changed:
        values = (*VALUES[:at], value, *VALUES[at + 1 :])
        yield row(f"a datagram in a session with another {what}",
                  KNOWN, f"!{passes('r', passing('r', 1, PING, values=values), values)}")
    yield row("a datagram in a session towards this end", KNOWN, f"!{passes('i', PINGED)}")
    yield row("a datagram in an opened session towards this end", OPEN, f"!{passes('r', sent)}")
    later = (1, *VALUES[1:])
    for what, way, held in ("a session", "r", KNOWN), ("an opened session", "i", OPEN):
        made = passes(way, passing(way, 1, PING, values=later), later)
        yield row(f"a datagram in {what} of another generation", log(C, generation=1), held, f"!{made}")
    wrong = passes("r", passing("r", 1, PING, sid=4))
    yield row("a datagram in a session under another session ID", KNOWN, f"!{wrong}")
    other = (*VALUES[:2], OTHER, *VALUES[3:])
    yield row("a datagram in a closing session", KNOWN, CLOSING, passes("r", sent))
    yield row("a datagram in a closing session with another nonce",
              KNOWN, CLOSING, f"!{passes('r', passing('r', 1, PING, values=other), other)}")
    yield row("a datagram in a closing session under another session ID", KNOWN, CLOSING, f"!{wrong}")
    over = [event(B, "tick", 20_000), ended(A, 6, "unconfirmed")]
    yield row("a datagram in a session that is over", KNOWN, over, goes)
    yield row("a datagram in a session whose closing is over", KNOWN, CLOSING, OVER, goes)


# ---- Generations


LEARNS = [event(B, CALLS["learn"]), "+ learnt 1"]
ADVANCES = [event(B, "advance"), "+ advanced 1"]


def learnts():
    for name, call in in_calls("open cancel close advance receive tick"):
        yield row(f"a generation that is learnt in {name}", log(B), event(B, call), "!+ learnt 1")
    yield row("the current generation that is learnt", log(B), event(B, f"learn {SECRETS[0].hex()}"), "!+ learnt 0")
    second = event(B, f"learn {SECRETS[2].hex()}")
    yield row("a number that is skipped later", log(B), LEARNS, ADVANCES, second, "!+ learnt 3")


def advances():
    for name, call in in_calls("open cancel learn receive"):
        yield row(f"a generation that becomes the current one in {name}",
                  log(B), LEARNS, event(B, call), "!+ advanced 1")
    yield row("a generation that becomes the current one in a tick", log(B), LEARNS, event(B, "tick"), "!+ advanced 1")
    yield row("an advance to what wasn't learnt", log(B), event(B, "advance"), "!+ advanced 1")
    yield row("two advances in one call", log(B), LEARNS, ADVANCES, "!+ advanced 1")
    yield row("an advance to the current generation", log(B), LEARNS, event(B, "advance"), "!+ advanced 0")


def comers():
    neither = startup(A, 1, keying(secret=SECRETS[2]), generation=2)
    yield row("a session that is born in a generation that isn't known",
              log(B), LEARNS, took(B, neither, nonce=NR), f"!{born()}")
    yield row("a session that is born in a former generation",
              ASKED, LEARNS, ADVANCES, took(B, KEYING, nonce=NR), f"!{born()}")
    yield row("a session that is born in the next generation", asked_in_the_next(), born())
    learns, goes = [event(A, CALLS["learn"]), "+ learnt 1"], [event(A, "advance"), "+ advanced 1"]
    first, following = [log(A), *opens(A, B, 3), *learns], startup(B, 2, answer(secret=SECRETS[1]), sid=3, generation=1)
    yield row("an attempt without a keying that opens in the next generation",
              first, took(A, following), f"!{opened()}")
    yield row("an attempt without a keying that opens in a former generation",
              first, goes, took(A, ANSWER), f"!{opened()}")
    yield row("an attempt that opens in another generation than its keying's",
              ASKED, learns, goes, took(A, following), f"!{opened()}")
    yield row("an attempt that opens in the former generation of its keying",
              KNOWN, learns, goes, OPENING_LATER, kept=1)


OPENING_LATER = [event(B, "tick"), *OPENING]


def asked_in_the_next():
    """a, whose generation is 1, calls b, which knows it as the next one and takes the keying."""
    hello, asking = startup(B, 1, rhello(), generation=1), startup(A, 1, keying(secret=SECRETS[1]), generation=1)
    asked = [*opens(A, B, 3), event(B, "tick"), out(hello, 1), took(A, hello), out(asking, 1)]
    return [log(A, generation=1), log(B), *LEARNS, *asked, took(B, asking, nonce=NR)]


def keyings_in_others():
    first = [*ENDS, *opens(A, B, 3)]
    yield row("a keying in a tick", first, event(A, "tick"), f"!{out(KEYING)}")
    empty = startup(B, 1)
    yield row("a keying to what is no hello", first, event(B, "tick"), out(empty), took(A, empty), f"!{out(KEYING)}")

    def to_hello(title, chunk, peer=B, mode=3, wrong="!"):
        hello = startup(B, 1, chunk, mode=mode)
        asked = [*opens(A, peer, 3), event(B, "tick"), out(hello), took(A, hello)]
        return row(title, ENDS, asked, wrong + out(startup(A, 1, keying(peer=peer))))

    yield to_hello("a keying to a hello with another tag", rhello(tag=OTHER))
    yield to_hello("a keying to a hello with another end's certificate", rhello(C.cert))
    short = bytes(16)
    yield to_hello("a keying to a hello without a certificate", rhello(short), logs.sha256(short).hex())
    yield to_hello("a keying to a hello with a cookie of 129 bytes", rhello(baked=bytes(129)))
    yield to_hello("a keying to a hello with a cookie of 128 bytes", rhello(baked=bytes(128)), wrong="")
    yield to_hello("a keying to a hello in a packet of another mode", rhello(), mode=2)
    for what, lower in ("an attempt", opens(A, NOBODY, 2, OTHER, 2)), ("a search", sought(A, "63", 2, OTHER)):
        came = [*HELLOED, *lower, took(A, HELLO)]
        yield row(f"a keying to a hello that {what} under a lower session ID has", first, came, f"!{out(KEYING)}")
    learns = [event(A, CALLS["learn"]), "+ learnt 1"]
    hello, asking = startup(B, 1, rhello(), generation=1), startup(A, 1, keying(secret=SECRETS[1]), generation=1)
    came = [event(B, "tick"), out(hello, 1), took(A, hello)]
    yield row("a keying in the next generation", first, learns, came, out(asking, 1))
    yield row("a keying in the current generation to a hello in the next one", first, learns, came, f"!{out(KEYING)}")
    yield row("a keying in the next generation to a hello in the current one",
              first, learns, HELLOED, took(A, HELLO), f"!{out(asking, 1)}")
    yield row("a keying that goes again in another generation", ASKED, learns, event(A, "tick"), f"!{out(asking, 1)}")


def answers_in_others():
    asked = [*asked_in_the_next(), born()]
    later = (1, *VALUES[1:])
    following = startup(B, 2, answer(secret=SECRETS[1]), sid=3, generation=1)
    in_the_new = passes("r", passing("r", 1, PING, values=later), later)
    yield row("an answer in the next generation", asked, out(following, 1), in_the_new)
    yield row("an answer in the current generation to a keying in the next one", asked, f"!{out(ANSWER)}")
    yield row("an answer in the current generation in a later call", asked, event(B, "tick"), f"!{out(ANSWER)}")
    yield row("an answer in the generation that is current since",
              KNOWN, LEARNS, ADVANCES, event(B, "tick"), f"!{out(following, 1)}")
    sent = passes("r", passing("r", 1, PING))
    yield row("a datagram in the current generation in a session of the next one", asked, event(B, "tick"), f"!{sent}")
    yield row("a datagram in the generation that is current since",
              KNOWN, LEARNS, ADVANCES, event(B, "tick"), f"!{in_the_new}")


# ---- Histories


def forged():
    def row_of(title, *parts):
        return row(title, *parts, cause="not-honest")

    empty, other = startup(B, 1), startup(B, 1, PING)
    taken = f"!{took(A, empty)}"
    yield row_of("a datagram that nobody sent", log(A), taken)
    yield row_of("a datagram of which other bytes were sent", ENDS, event(B, "tick"), out(other), taken)
    # One secret of two numbers: the datagram opens in the startup of either.
    twin = [event(B, f"learn {SECRETS[0].hex()}"), "+ learnt 1"]
    yield row_of("a datagram that was sent in another generation of its secret",
                 ENDS, twin, event(B, "tick"), out(empty, 1), taken)
    yield row_of("a datagram that is sent later", ENDS, taken, event(B, "tick"), out(empty))
    yield row_of("a datagram that the same call sends", log(A), taken, out(empty))
    yield row_of("a datagram under the session ID of an attempt that nobody sent",
                 log(A), opens(A, B, 3), f"!{took(A, ANSWER)}")
    yield row_of("a datagram under the session ID of a search that nobody sent",
                 log(A), sought(A, "62", 3), f"!{took(A, ANSWER)}")
    knows = [event(A, f"learn {SECRETS[0].hex()}"), "+ learnt 1"]
    sent = [event(B, "tick"), out(empty, 1)]
    yield row_of("a datagram in the current generation that was sent in the next one", ENDS, knows, sent, taken)
    knows = [event(A, CALLS["learn"]), "+ learnt 1"]
    yield row_of("a datagram in the next generation that nobody sent",
                 log(A), knows, f"!{took(A, startup(B, 1, generation=1))}")
    yield row_of("a datagram in a session that nobody sent", KNOWN, f"!{took(B, PINGED)}")
    yield row_of("a datagram in a session that went the other way alone",
                 KNOWN, passes("r", passing("r", 1, PING)), f"!{took(B, passing('i', 1, PING))}")
    yield row_of("a datagram in a session that this end closed that nobody sent", KNOWN, CLOSING, f"!{took(B, PINGED)}")
    far = [passes("i", CLOSED), took(B, CLOSED), ended(A, 6, "far"), f"!{took(B, passing('i', 2, PING))}"]
    yield row_of("a datagram in a session that the peer closed that nobody sent", OPEN, far)


def stale():
    def row_of(title, *parts):
        return row(title, *parts, cause="not-fresh")

    again = [event(A, f"open {LAST} {TAG}", nonce=NI), f"!+ started {LAST} 2 6 {NI}"]
    yield row_of("a nonce of two attempts of one end", log(A), opens(A, NOBODY, 5), again)
    both = startup(B, 1, rhello(), rhello(C.cert, OTHER))
    searching = [*ENDS, *sought(A, "62", 5), *sought(A, "63", 6, tag=OTHER), event(B, "tick"), out(both)]
    yield row_of("a nonce of two attempts of one call",
                 searching, took(A, both), f"+ started {B} 1 5 {NI}", f"!+ started {C} 2 6 {NI}")
    yield row_of("a nonce of an attempt and its session", ASKED, took(B, KEYING, nonce=NI), f"!{born(nr=NI)}")
    again = [took(B, KEYING_AGAIN, nonce=NR), ended(A, 6, "override"), f"!{born(n=2, near=7, far=4, ni=OTHER)}"]
    yield row_of("a nonce of two sessions", KNOWN, CALLS_AGAIN, again)


def disagreed():
    yield row("an attempt that opens and wasn't born",
              log(A), opens(A, B, 3), f"!{took(A, ANSWER)}", opened(), cause="not-honest")
    yield row("an attempt that opens before it is born",
              ASKED, f"!{took(A, ANSWER)}", opened(), ANSWERING, cause="not-honest")
    twice = [took(B, KEYING, nonce=NR), born(), f"!{born(near=7)}"]
    yield row("an attempt that is born twice in one call", ASKED, twice)
    yield row("a kept session that is overridden by nothing", KEPT, event(B, "tick"), f"!{ended(A, 6, 'override')}")


FUNCTIONS = (starts, seeks, unseeks, searches, hellos, cancels, expiries, ways, unconfirmed, nears, fars, idles,
             closings, births, keyings, later_births, openings, answers, confirms, sends, numbers, keyings_sent,
             answers_sent, sends_in_sessions, learnts, advances, comers, keyings_in_others, answers_in_others, forged,
             stale, disagreed)


def rows():
    """All rows, by the functions of endpoint_checks."""
    for function in FUNCTIONS:
        yield from function()


# ---- The rows as they stand in logs.audits

# Honest logs that others begin with, which are told in full.
WHOLE = ("a session that is born", "an attempt that opens", "a session that is confirmed", "a search that is answered",
         "an attempt that gives way", "a session that is overridden", "a closing that the peer answered",
         "a session that is born in the next generation")


def common(lines, others):
    """How many lines two texts begin with alike."""
    return next((at for at, pair in enumerate(zip(lines, others)) if pair[0] != pair[1]), min(len(lines), len(others)))


def told(lines, whole):
    """Lines with the longest front that they have of another row, at least an event, told by its title. A line may stand
    before it."""
    fronts = [(common(lines[at:], others), at, title) for at in (0, 1) for title, others in whole.items()]
    count, at, title = max(fronts, key=lambda front: front[0])
    return [*lines[:at], f"& {count} {title}", *lines[at + count :]] if count >= 4 else lines


def main():
    texts = {title: (lines, answer) for title, lines, answer in rows()}
    whole = {title: texts.pop(title) for title in WHOLE}
    fronts = {title: lines for title, (lines, _) in whole.items()}
    for title, (lines, answer) in whole.items():
        print("\n".join([f"@ {title}", f"= {answer}", *lines]))
    for title, (lines, answer) in texts.items():
        print("\n".join([f"@ {title}", f"= {answer}", *told(lines, fronts)]))


if __name__ == "__main__":
    main()
