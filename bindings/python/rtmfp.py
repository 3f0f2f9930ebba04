"""One end of the Secure Real-Time Media Flow Protocol (RFC 7016), over librtmfp.so, which scripts/build-library makes.

    end = rtmfp.End(certificate, group)
    end.open(rtmfp.fingerprint(other), [rtmfp.address("10.0.0.2", 1935)])
    end.receive(place, datagram)          # when one came
    end.tick()                            # some times a second
    for entry in end.entries():
        if entry.kind == rtmfp.OUT: send(entry.to.place, entry.bytes)
    end.clear()

`end.turn(socket)` does the last five lines over a UDP socket; chat.py is a program that calls it.

The library is looked for in the file that LIBRTMFP names, and else in out/library/lib of this checkout. What a call
refuses is raised as Refused, with the number and the name that rtmfp.h has for it, and a number that doesn't fit into
C's as OverflowError. Use an end in the thread that made it.
"""
import contextlib
import ctypes as C
import ipaddress
import os
import socket
import time

_TOP = os.path.dirname(os.path.dirname(os.path.dirname(os.path.abspath(__file__))))
_NEVER, _ALWAYS = 2**64 - 1, 2**32 - 1
VERSION = 0x000400

ANSWERS = {
    "OK": 0, "E_MEMORY": -1, "E_EMPTY": -2, "E_FULL": -3, "E_CONFIG": -4, "E_CERTIFICATE": -5, "E_TOO_LONG": -6,
    "E_INDEX": -7, "E_PARTLY": -8, "E_ADDRESS": -9, "E_CANDIDATES": -10, "E_OPENING": -11, "E_OPEN": -12,
    "E_PEERS_FULL": -13, "E_ATTEMPTS_SPENT": -14, "E_OWN_PRINT": -15, "E_SESSIONS_FULL": -16, "E_ROWS_FULL": -17, "E_SIZE": -18,
    "E_NAME": -19,
    "E_NO_ATTEMPT": -20, "E_NO_SESSION": -21, "E_NO_FLOW": -22, "E_FLOWS_FULL": -23, "E_WIDE": -24,
    "E_NOT_QUEUED": -25, "E_FINISHED": -26, "E_MESSAGE": -27, "E_BACKLOG": -28, "E_SEQUENCE_SPENT": -29,
    "E_NEXT_KNOWN": -30, "E_GENERATIONS_SPENT": -31, "E_SAME_SECRET": -32, "E_NO_NEXT": -33,
}
KINDS = ("OUT", "HANDED", "STARTED", "BORN", "OPENED", "CONFIRMED", "ENDED", "CLOSED", "MOVED", "FLOW_OPENED", "QUEUED",
         "FINISHED", "ABANDONED", "DISCARD", "SOUGHT", "UNSOUGHT", "LEARNT", "ADVANCED")
(OUT, HANDED, STARTED, BORN, OPENED, CONFIRMED, ENDED, CLOSED, MOVED, FLOW_OPENED, QUEUED, FINISHED, ABANDONED,
 DISCARD, SOUGHT, UNSOUGHT, LEARNT, ADVANCED) = range(1, 19)


class Config(C.Structure):
    _fields_ = [("max_peers", C.c_uint32), ("max_sessions", C.c_uint32), ("introduces", C.c_uint32)]


class Draws(C.Structure):
    _fields_ = [("nonce", C.c_uint8 * 16), ("tag", C.c_uint8 * 16), ("token", C.c_uint8 * 16), ("word", C.c_uint32)]


class Address(C.Structure):
    _fields_ = [("family", C.c_uint8), ("origin", C.c_uint8), ("port", C.c_uint16), ("host", C.c_uint8 * 16)]

    @property
    def place(self):
        """The host and the port, as a socket has them."""
        return str(ipaddress.ip_address(bytes(self.host)[: 4 if self.family == 4 else 16])), self.port


class Entry(C.Structure):
    _fields_ = [("kind", C.c_uint32), ("near", C.c_uint32), ("far", C.c_uint32), ("code", C.c_uint32),
                ("flow", C.c_uint64), ("seq", C.c_uint64), ("number", C.c_uint64), ("k", C.c_uint64),
                ("data", C.c_void_p), ("len", C.c_size_t), ("to", Address),
                ("peer", C.c_uint8 * 32), ("ni", C.c_uint8 * 16), ("nr", C.c_uint8 * 16)]

    @property
    def bytes(self):
        """The bytes of a datagram, a message or a name, copied."""
        return C.string_at(self.data, self.len) if self.data else b""


class _Handle(C.Structure):
    _fields_ = [("live_", C.c_uint64), ("held_", C.c_void_p)]


class Refused(Exception):
    """A call was refused: the number of the answer, and its name."""

    def __init__(self, call, number):
        name = next((name for name, it in ANSWERS.items() if it == number), "?")
        super().__init__(f"{call}: {name} ({number})")
        self.call, self.number, self.name = call, number, name


_BYTES, _SIZE, _END = C.c_char_p, C.c_size_t, C.POINTER(_Handle)
_U8, _U16, _U32, _U64, _I32 = C.c_uint8, C.c_uint16, C.c_uint32, C.c_uint64, C.c_int32
_NUMBER, _NEAR, _PLACES, _DRAWS, _WRITTEN = C.POINTER(C.c_uint64), C.POINTER(C.c_uint32), C.POINTER(Address), C.POINTER(Draws), C.POINTER(C.c_char)
# The calls of rtmfp.h: what each gives, and what it is given.
CALLS = {
    "version": (_U32, []),
    "fingerprint": (_I32, [_BYTES, _SIZE, _WRITTEN]),
    "new": (_I32, [_END, C.POINTER(Config), _BYTES, _SIZE, _U64, _BYTES, _BYTES]),
    "free": (None, [_END]),
    "open": (_I32, [_END, _BYTES, _PLACES, _SIZE, _U64, _DRAWS, _NUMBER]),
    "seek": (_I32, [_END, _BYTES, _SIZE, _PLACES, _SIZE, _U64, _DRAWS, _NEAR]),
    "unseek": (_I32, [_END, _U32]),
    "cancel": (_I32, [_END, _U64]),
    "close": (_I32, [_END, _U32, _U64]),
    "open_flow": (_I32, [_END, _U32, _U8, _BYTES, _SIZE, _U32, _U64, _NUMBER]),
    "queue": (_I32, [_END, _U32, _U64, _BYTES, _SIZE, _U64, _U32, _NUMBER]),
    "abandon": (_I32, [_END, _U32, _U64, _U64]),
    "finish": (_I32, [_END, _U32, _U64]),
    "add_row": (_I32, [_END, _BYTES, _PLACES, _SIZE]),
    "introduce": (_I32, [_END]),
    "narrow": (_I32, [_END, _U16]),
    "learn": (_I32, [_END, _BYTES, _NUMBER]),
    "advance": (_I32, [_END, _NUMBER]),
    "keeps": (_I32, [_END, _BYTES]),
    "receive": (_I32, [_END, _PLACES, _U64, _WRITTEN, _SIZE, _DRAWS]),
    "tick": (_I32, [_END, _U64, _DRAWS]),
    "entries": (_SIZE, [_END]),
    "entry_at": (_I32, [_END, _SIZE, C.POINTER(Entry)]),
    "entry_bytes": (_I32, [_END, _SIZE, _WRITTEN, _SIZE]),
    "clear": (_I32, [_END]),
}


# How many bits a parameter has. (c_size_t is one of these.)
_BITS = {_U8: 8, _U16: 16, _U32: 32, _U64: 64}


def _fits(number, bits):
    """A number that C has in so many bits. It's looked at here, since ctypes drops the upper ones."""
    if not 0 <= number < 1 << bits:
        raise OverflowError(f"{number} isn't within {bits} bits")
    return number


def _load():
    path = os.environ.get("LIBRTMFP", os.path.join(_TOP, "out", "library", "lib", "librtmfp.so"))
    lib = C.CDLL(path)
    for name, (result, words) in CALLS.items():
        call = getattr(lib, "rtmfp_" + name)
        call.restype, call.argtypes = result, words
    found, part = lib.rtmfp_version(), 16 if VERSION >> 16 else 8
    if found >> part != VERSION >> part:
        raise ImportError(f"{path} has the version {found:#08x}, and {VERSION:#08x} is wanted")
    return lib


_lib = None


def library():
    """The library, which the first call loads."""
    global _lib
    _lib = _lib or _load()
    return _lib


def now():
    """A moment of a clock that never goes back, in milliseconds."""
    return time.monotonic_ns() // 1_000_000


def draws():
    """Fresh random values for one call."""
    return Draws.from_buffer_copy(os.urandom(C.sizeof(Draws)))


def address(host, port, origin=0):
    ip = ipaddress.ip_address(host)
    made = Address(family=ip.version, origin=_fits(origin, 8), port=_fits(port, 16))
    made.host[: len(ip.packed)] = ip.packed
    return made


def certificate(name):
    """The certificate of a new end with this name, 1 to 64 ASCII characters."""
    return os.urandom(16) + name.encode()


def fingerprint(certificate):
    print = C.create_string_buffer(32)
    number = library().rtmfp_fingerprint(certificate, len(certificate), print)
    if number:
        raise Refused("fingerprint", number)
    return print.raw


def _thirty_two(given):
    if len(given) != 32:
        raise ValueError("32 bytes are wanted")
    return bytes(given)


def _places(places):
    return (Address * max(1, len(places)))(*places), len(places)


class End:
    """One end."""

    def __init__(self, certificate, group, cookies=None, max_peers=64, max_sessions=64, introduces=False, generation=0):
        self._handle = _Handle()
        config = Config(_fits(max_peers, 32), _fits(max_sessions, 32), bool(introduces))
        secret = _thirty_two(cookies or os.urandom(32))
        self._do("new", C.byref(config), bytes(certificate), len(certificate), generation, _thirty_two(group), secret)

    def _call(self, name, *words):
        call = getattr(library(), "rtmfp_" + name)
        for kind, word in zip(call.argtypes[1:], words):
            if kind in _BITS:
                _fits(word, _BITS[kind])
        return call(C.byref(self._handle), *words)

    def _do(self, name, *words):
        number = self._call(name, *words)
        if number < 0:
            raise Refused(name, number)
        return number

    def _number(self, name, *words):
        number = C.c_uint64()
        self._do(name, *words, C.byref(number))
        return number.value

    def open(self, print, places, moment=None):
        return self._number("open", _thirty_two(print), *_places(places), now() if moment is None else moment, C.byref(draws()))

    def seek(self, name, places, moment=None):
        """Begins a search for an end of this name, and gives its session ID."""
        near = C.c_uint32()
        when = now() if moment is None else moment
        self._do("seek", bytes(name), len(name), *_places(places), when, C.byref(draws()), C.byref(near))
        return near.value

    def unseek(self, near):
        self._do("unseek", near)

    def cancel(self, number):
        self._do("cancel", number)

    def close(self, near, moment=None):
        self._do("close", near, now() if moment is None else moment)

    def open_flow(self, near, priority=3, metadata=b"", answers=None):
        return self._number("open_flow", near, priority, bytes(metadata), len(metadata), answers is not None, answers or 0)

    def queue(self, near, flow, message, deadline=None, resends=None):
        until = _NEVER if deadline is None else deadline
        times = _ALWAYS if resends is None else resends
        return self._number("queue", near, flow, bytes(message), len(message), until, times)

    def abandon(self, near, flow, seq):
        self._do("abandon", near, flow, seq)

    def finish(self, near, flow):
        self._do("finish", near, flow)

    def add_row(self, print, places):
        self._do("add_row", _thirty_two(print), *_places(places))

    def introduce(self):
        self._do("introduce")

    def narrow(self, limit):
        """Has packets of sessions that have more than so many bytes, 96 to 1,164, go out in pieces from now on."""
        self._do("narrow", limit)

    def learn(self, secret):
        """Learns the secret of the group's next generation, and gives that generation's number."""
        return self._number("learn", _thirty_two(secret))

    def advance(self):
        """Goes over to the generation that was learnt, and gives its number."""
        return self._number("advance")

    def keeps(self, print):
        return self._do("keeps", _thirty_two(print)) == 1

    def receive(self, place, datagram, moment=None):
        room = C.create_string_buffer(bytes(datagram), max(1, len(datagram)))
        self._do("receive", C.byref(place), now() if moment is None else moment, room, len(datagram), C.byref(draws()))

    def tick(self, moment=None):
        self._do("tick", now() if moment is None else moment, C.byref(draws()))

    def entries(self):
        """Yields each entry, which calls added since `clear`. An entry's pointer is good until the next call."""
        for index in range(self._call("entries")):
            entry = Entry()
            self._do("entry_at", index, C.byref(entry))
            yield entry

    def turn(self, udp, wait=0.02):
        """Waits so many seconds for a datagram of a UDP socket and takes it, does what is due, and sends what goes out.
        Gives each other entry with its bytes. The socket's timeout is `wait` from now on."""
        udp.settimeout(wait)
        with contextlib.suppress(socket.timeout):
            # (a longer one is cut, and so it's discarded)
            datagram, place = udp.recvfrom(2048)
            self.receive(address(*place[:2]), datagram)
        self.tick()
        told = [(entry, entry.bytes) for entry in self.entries()]
        self.clear()
        for entry, data in told:
            entry.data = None
            if entry.kind == OUT:
                # (one that can't be sent counts as lost)
                with contextlib.suppress(OSError):
                    udp.sendto(data, entry.to.place)
        return [it for it in told if it[0].kind != OUT]

    def clear(self):
        """Drops the entries."""
        self._do("clear")

    def copy(self, index, length):
        """The bytes of an entry, by a call that copies them."""
        room = C.create_string_buffer(max(1, length))
        self._do("entry_bytes", index, room, length)
        return room.raw[:length]

    def free(self):
        if _lib:
            self._call("free")

    __del__ = free
