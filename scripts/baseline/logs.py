"""The text of the logs of ends, and the packets in it, as scripts/baseline/audit.py reads them.

It is written after the rules alone, apart from the code of this repository; keys and tags come from handshake.py.
"""
import functools
import hashlib
import re
from types import SimpleNamespace as Record

from handshake import be, mac, session_keys, signed, startup_keys

LINES = 100_000
LINE = 8_192
LOGS = 1_024
WHYS = ("cancelled", "expired", "glare", "override", "unconfirmed", "near", "far", "idle")


class BadLine(Exception):
    """A line is outside the grammar."""


def number_of(data):
    return int.from_bytes(data, "big")


def sha256(data):
    return hashlib.sha256(data).digest()


# ---- The words of a line. Each function gives the value of a word, or raises BadLine.


def must(holds):
    if not holds:
        raise BadLine


def a_number(word, most):
    """Decimal digits without a leading zero."""
    must(re.fullmatch(rb"0|[1-9][0-9]*", word) and len(word) <= 20 and int(word) <= most)
    return int(word)


def u64(word):
    return a_number(word, 2**64 - 1)


def u32(word):
    return a_number(word, 2**32 - 1)


def digits(word, count):
    """So many hexadecimal digits, in lower case."""
    must(len(word) == count and re.fullmatch(rb"[0-9a-f]*", word))
    return bytes.fromhex(word.decode())


def a_print(word):
    return digits(word, 64)


def a_secret(word):
    return digits(word, 64)


def a_nonce(word):
    return digits(word, 32)


def hexadecimal(word):
    """An even number of digits, or a hyphen for no bytes."""
    if word == b"-":
        return b""
    must(word and len(word) % 2 == 0)
    return digits(word, len(word))


def a_name(word):
    must(re.fullmatch(rb"[a-z0-9]{1,16}", word))
    return word


def service_name(word):
    """1 to 64 ASCII bytes."""
    name = hexadecimal(word)
    must(1 <= len(name) <= 64 and name.isascii())
    return name


def certificate(word):
    """16 instance bytes and a name of 1 to 64 ASCII bytes."""
    cert = hexadecimal(word)
    must(is_certificate(cert))
    return cert


def is_certificate(cert):
    return 17 <= len(cert) <= 80 and cert[16:].isascii()


def an_address(word):
    """The bytes of the host, 4 or 16, and the port: a place."""
    host, _, port = word.rpartition(b":")
    if host[:1] == b"[" and host[-1:] == b"]":
        return digits(host[1:-1], 32), a_number(port, 65_535)
    parts = host.split(b".")
    must(len(parts) == 4)
    return bytes(a_number(part, 255) for part in parts), a_number(port, 65_535)


def a_why(word):
    must(word.decode("latin1") in WHYS)
    return word.decode()


def a_direction(word):
    """Whether it is towards the responder."""
    must(word in (b"i", b"r"))
    return word == b"i"


def fields(words, **kinds):
    """The values of words, each of its kind. There are just so many words."""
    must(len(words) == len(kinds))
    return {name: kind(word) for (name, kind), word in zip(kinds.items(), words)}


def joined(words):
    return fields(words, peer=a_print, n=u64, near=u32, far=u32, ni=a_nonce, nr=a_nonce, k=u64)


def an_out(words):
    """The context of a startup packet is its generation; that of a session's also has the two nonces, the two
    fingerprints and the two session IDs, initiator first, and the direction."""
    must(len(words) >= 2)
    if words[1] == b"startup":
        out = fields(words[2:], generation=u64, datagram=hexadecimal)
        context = ("startup", out["generation"])
    else:
        must(words[1] == b"session")
        out = fields(words[2:], generation=u64, ni=a_nonce, nr=a_nonce, print_i=a_print, print_r=a_print, sid_i=u32,
                     sid_r=u32, to_responder=a_direction, datagram=hexadecimal)
        context = ("session", *(value for name, value in out.items() if name != "datagram"))
    return {"to": an_address(words[0]), "context": context, "datagram": out["datagram"]}


ENTRIES = {
    b"started": lambda words: fields(words, peer=a_print, n=u64, near=u32, ni=a_nonce),
    b"born": joined,
    b"opened": joined,
    b"confirmed": lambda words: fields(words, peer=a_print, near=u32),
    b"ended": lambda words: fields(words, peer=a_print, near=u32, why=a_why),
    b"closed": lambda words: fields(words, near=u32),
    b"sought": lambda words: fields(words, near=u32, name=service_name),
    b"unsought": lambda words: fields(words, near=u32, why=a_why),
    b"learnt": lambda words: fields(words, generation=u64),
    b"advanced": lambda words: fields(words, generation=u64),
    b"out": an_out,
}
CALLS = {
    b"open": lambda words: fields(words, peer=a_print, tag=a_nonce),
    b"seek": lambda words: fields(words, name=service_name, tag=a_nonce),
    b"cancel": lambda words: fields(words, n=u64),
    b"unseek": lambda words: fields(words, near=u32),
    b"close": lambda words: fields(words, near=u32),
    b"learn": lambda words: fields(words, secret=a_secret),
    b"advance": fields,
    b"receive": lambda words: fields(words, source=an_address, datagram=hexadecimal),
    b"tick": fields,
    b"other": fields,
}
DRAWING = ("open", "seek", "receive", "tick")
TIMED = ("open", "seek", "close", "receive", "tick")


def an_end(words, at):
    end = fields(words, name=a_name, max_peers=u32, max_sessions=u32, generation=u64, secret=a_secret,
                 cookie_secret=a_secret, cert=certificate)
    return Record(line=at, print=sha256(end["cert"]), **end)


def an_event(words, at):
    must(len(words) >= 4 and words[3] in CALLS)
    name, moment, nonce = a_name(words[0]), u64(words[1]), a_nonce(words[2])
    call = words[3].decode()
    # A call without random values has a nonce of zeros.
    must(call in DRAWING or nonce == bytes(16))
    return Record(line=at, of=name, moment=moment, nonce=nonce, call=call, entries=[], **CALLS[words[3]](words[4:]))


def an_entry(words, at):
    must(words and words[0] in ENTRIES)
    return Record(line=at, kind=words[0].decode(), **ENTRIES[words[0]](words[1:]))


def read(text):
    """The ends and the events of a text. BadLine has the number of the first line outside the grammar."""
    lines = text.split(b"\n")
    if lines[-1] == b"":
        lines.pop()
    ends, events = [], []
    for at, line in enumerate(lines, 1):
        try:
            must(at <= LINES and len(line) <= LINE)
            read_line(line, at, ends, events)
        except BadLine:
            raise BadLine(at) from None
    return ends, events


def read_line(line, at, ends, events):
    if line.startswith(b"#"):
        return
    word, *words = line.split(b" ")
    if word == b"log":
        # All of them stand before the first event, and no two have one name.
        must(not events and len(ends) < LOGS)
        end = an_end(words, at)
        must(end.name not in [other.name for other in ends])
        ends.append(end)
    elif word == b"event":
        event = an_event(words, at)
        named = [end for end in ends if end.name == event.of]
        must(named)
        event.end = named[0]
        events.append(event)
    else:
        # An entry is one of the last event.
        must(word == b"+")
        entry = an_entry(words, at)
        must(events)
        events[-1].entries.append(entry)


# ---- Packets. What hashes is kept, since it is asked of the same bytes again and again.


@functools.lru_cache(1 << 16)
def keys_of(secret, context):
    """The keys of a context: that of the cipher and that of the tag."""
    if context[0] == "startup":
        return startup_keys(secret)
    _, _, ni, nr, print_i, print_r, sid_i, sid_r, to_responder = context
    return session_keys(to_responder, ni, nr, print_i, print_r, sid_i, sid_r, secret)


@functools.lru_cache(1 << 16)
def unsealed(secret, context, datagram):
    """The number and the plain packet of a datagram that is sealed in a context; none where it isn't."""
    if len(datagram) < 36:
        return None
    enc, tag_key = keys_of(secret, context)
    tag, number, cipher = datagram[4:20], datagram[20:36], datagram[36:]
    if mac(tag_key, be(session_id(datagram), 4) + number + cipher)[:16] != tag:
        return None
    stream = b"".join(mac(enc, number + be(i, 8)) for i in range(len(cipher) // 32 + 1))
    return number, bytes(a ^ b for a, b in zip(cipher, stream))


@functools.lru_cache(1 << 16)
def signature(secret, payload):
    return signed(payload, secret)[len(payload) :]


def session_id(datagram):
    """The first word XOR the two words behind it, by which it was scrambled."""
    return number_of(datagram[:4]) ^ number_of(datagram[4:8]) ^ number_of(datagram[8:12])


def packet_of(plain):
    """The mode of a plain packet and its chunks, each a type and a payload; none where it has no head that reads."""
    if not plain or plain[0] & 3 == 0:
        return None
    at = 1 + 2 * (plain[0] >> 3 & 1) + 2 * (plain[0] >> 2 & 1)
    if at > len(plain):
        return None
    chunks = []
    while at + 3 <= len(plain) and at + 3 + number_of(plain[at + 1 : at + 3]) <= len(plain):
        end = at + 3 + number_of(plain[at + 1 : at + 3])
        if plain[at] not in (0x00, 0xFF):
            chunks.append((plain[at], plain[at + 3 : end]))
        at = end
    return Record(mode=plain[0] & 3, chunks=chunks)


class Unreadable(Exception):
    """A field isn't there whole."""


class Fields:
    """The fields of a payload, from the left."""

    def __init__(self, payload):
        self.payload, self.at = payload, 0

    def take(self, count):
        if self.at + count > len(self.payload):
            raise Unreadable
        self.at += count
        return self.payload[self.at - count : self.at]

    def vlu(self):
        """7 bits a byte, the most significant first, the high bit on every byte but the last."""
        value = 0
        for _ in range(10):
            byte = self.take(1)[0]
            value = value << 7 | byte & 0x7F
            if byte < 0x80:
                break
        else:
            raise Unreadable
        if value >= 2**64:
            raise Unreadable
        return value

    def counted(self):
        return self.take(self.vlu())

    def rest(self):
        return self.take(len(self.payload) - self.at)


def chunks_of(packet, kind, reader):
    """The chunks of a type that read."""
    found = []
    for its_kind, payload in packet.chunks if packet else []:
        if its_kind == kind:
            try:
                found.append(reader(payload))
            except Unreadable:
                pass
    return found


def rhello(payload):
    it = Fields(payload)
    return Record(tag=it.counted(), cookie=it.counted(), cert=it.rest())


def iikeying(payload):
    it = Fields(payload)
    near, cookie, cert, part = number_of(it.take(4)), it.counted(), it.counted(), it.counted()
    return Record(near=near, cookie=cookie, cert=cert, part=part, signed=payload[: it.at], sign=it.rest())


def rikeying(payload):
    it = Fields(payload)
    near, part = number_of(it.take(4)), it.counted()
    return Record(near=near, part=part, signed=payload[: it.at], sign=it.rest())
