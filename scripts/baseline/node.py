#!/usr/bin/env python3
"""What two nodes are brought in their turns, in hexadecimal, each behind the last byte of the address that it comes from;
and then, for each of four talks of nodes, all datagrams that they send, in an order in which they can be sent and taken,
each behind the number of the node that sends it and that of the node that takes it.

In a talk node P has the address 127.0.0.1 with the port 40100 + P. Its first block of random bytes is numbered 0, and the
parts of its block K, a nonce, a tag, a token and a word, are the numbers 60 P + 4 K + 1 and on. Each look at its clock is 20
ms after the one before. In each turn it takes the next datagram that is sent to it.

It is written after RFC 7016 and docs/PROTOCOL.md, apart from the code of this repository. The tests of
`crates/tests_net/src/sessions.rt` and `crates/tests_net/src/recorded.rt` hold what it prints.

  scripts/baseline/node.py
"""
import hashlib

from handshake import ANSWERER, CALLER, GROUP, be, chunk, cookie, counted, datagram, observed, session_keys, signed, startup_packet

OTHER = b"0123456789abcdefother"
PRINT_N, PRINT_P, PRINT_O = (hashlib.sha256(cert).digest() for cert in (CALLER, ANSWERER, OTHER))
NODE_NONCE, PEER_NONCE = be(0xAB, 16), be(5, 16)
NODE_ID = 9
INSTANCE = b"0123456789abcdef"


def to_a_node_that_calls():
    """An answer to its hello, whose tag is 0, and one to its keying; a message of two bytes; and a close."""
    far = 88
    hello = chunk(0x70, counted(bytes(16)) + counted(b"\x02") + ANSWERER)
    part = PEER_NONCE + be(0, 8) + PRINT_P + NODE_NONCE
    keying = chunk(0x78, signed(be(far, 4) + counted(part)))
    keys = session_keys(False, NODE_NONCE, PEER_NONCE, PRINT_N, PRINT_P, NODE_ID, far)
    message = chunk(0x10, bytes([0x80, 0, 1, 1, 2, 0, 0x6D, 0]) + b"hi")
    yield 2, startup_packet(ANSWERER, 1, 0, hello)
    yield 2, startup_packet(ANSWERER, 2, NODE_ID, keying)
    for count, body in ((1, message), (2, chunk(0x0C, b""))):
        yield 2, datagram(keys, NODE_ID, be(count, 16), bytes([0x02]) + body)


def to_a_node_that_introduces():
    """A keying with a cookie of its address, and a ping in the session; then hellos for that peer and for another one."""
    far = 77
    part = PEER_NONCE + be(1, 8) + PRINT_N
    keying = chunk(0x38, signed(be(far, 4) + counted(cookie(0, [10, 0, 0, 2], 1935)) + counted(ANSWERER) + counted(part)))
    keys = session_keys(True, PEER_NONCE, NODE_NONCE, PRINT_P, PRINT_N, far, NODE_ID)
    yield 2, startup_packet(ANSWERER, 1, 0, keying)
    yield 2, datagram(keys, NODE_ID, be(1, 16), bytes([0x01]) + chunk(0x01, b""))
    for count, wanted in ((1, PRINT_P), (2, PRINT_O)):
        yield 3, startup_packet(OTHER, count, 0, chunk(0x30, counted(b"\x01" + wanted) + bytes([0x11]) * 16))


HERE = [127, 0, 0, 1]
FIRST_LOOKS = (1_000, 262_000, 5_000)


def message_chunk(message):
    """A whole message, the first one of flow 0, which has the metadata "m"."""
    return chunk(0x10, bytes([0x80, 0, 1, 1, 2, 0, 0x6D, 0]) + message)


PING, PINGREPLY = chunk(0x01, b""), chunk(0x41, b"")
# flow 0, the 2,048 blocks that are free, VLUs of 7 bits a byte, and all up to 1
ACK = chunk(0x51, bytes([0, 0x90, 0, 1]))


class Node:
    """A node of a talk. Where no instance bytes are told they are the first ones of its first block."""

    def __init__(self, place, name, instance=None, group=GROUP):
        self.place, self.group = place, group
        first = self.draws(0)
        self.cert = (first[0] if instance is None else instance) + name
        self.print = hashlib.sha256(self.cert).digest()
        self.secret = first[1] + first[2]
        self.openings = self.packets = 0

    def draws(self, block):
        first = 60 * self.place + 4 * block + 1
        return tuple(be(first + part, 16) for part in range(3)) + (first + 3,)

    def drawn_in(self, turn):
        return self.draws(self.openings + turn)

    def moment(self, turn):
        """Turn 0 looks at the clock once, and each later one twice."""
        return FIRST_LOOKS[self.place] + 40 * turn

    def startup(self, sid, body):
        self.packets += 1
        return startup_packet(self.cert, self.packets, sid, body, self.group)

    def answers_hello(self, turn, tag, place):
        """The cookie that is made, and the hello with it."""
        baked = cookie(self.moment(turn), HERE, 40100 + place, self.secret)
        return baked, self.startup(0, chunk(0x70, counted(tag) + counted(baked) + self.cert))


class Attempt:
    """An attempt of a node in its turn 0 towards another one, and the session that comes of it."""

    def __init__(self, caller, called):
        self.caller, self.called = caller, called
        caller.openings += 1
        self.n = caller.openings
        self.ni, self.tag, _, self.near = caller.draws(self.n)
        self.counts, self.stamps = {caller: 0, called: 0}, {caller: [], called: []}

    def wanted(self):
        return counted(b"\x01" + self.called.print)

    def hello(self):
        return self.caller.startup(0, chunk(0x30, self.wanted() + self.tag))

    def keying(self, baked):
        part = self.ni + be(self.n, 8) + self.called.print
        payload = be(self.near, 4) + counted(baked) + counted(self.caller.cert) + counted(part)
        return self.caller.startup(0, chunk(0x38, signed(payload, self.caller.group)))

    def born(self, turn):
        """The answer to the keying that the called node takes in this turn."""
        nr, _, _, self.far = self.called.drawn_in(turn)
        self.values = (self.ni, nr, self.caller.print, self.called.print, self.near, self.far, self.called.group)
        part = nr + be(self.called.openings, 8) + self.called.print + self.ni
        return self.called.startup(self.near, chunk(0x78, signed(be(self.far, 4) + counted(part), self.called.group)))

    def packet(self, sender, turn, body, taken):
        """A datagram of the session, which the other node takes in that turn. A stamp counts 4 ms."""
        to_called = sender is self.caller
        taker, moment = self.called if to_called else self.caller, sender.moment(turn)
        stamp = moment // 4 % 65536
        flags, head = (0x08 | 0x01 if to_called else 0x08 | 0x02), be(stamp, 2)
        heard = [taken_then for taken_then in self.stamps[sender] if taken_then[1] <= moment]
        if heard:
            echo, at = heard[-1]
            flags, head = flags | 0x04, head + be((echo + (moment - at) // 4) % 65536, 2)
        self.counts[sender] += 1
        self.stamps[taker].append((stamp, taker.moment(taken)))
        sid = self.far if to_called else self.near
        return datagram(session_keys(to_called, *self.values), sid, be(self.counts[sender], 16), bytes([flags]) + head + body)


def a_call():
    """A node that is called, and one that calls it and sends a message."""
    a, b = Node(0, b"answerer", INSTANCE), Node(1, b"caller", INSTANCE)
    call = Attempt(b, a)
    yield b, a, call.hello()
    baked, hello = a.answers_hello(1, call.tag, 1)
    yield a, b, hello
    yield b, a, call.keying(baked)
    yield a, b, call.born(2)
    yield b, a, call.packet(b, 2, PING, 3)
    yield b, a, call.packet(b, 2, message_chunk(bytes(range(100))), 4)
    yield a, b, call.packet(a, 3, PINGREPLY, 3)
    yield a, b, call.packet(a, 4, ACK, 4)


def crossed_calls():
    """Two nodes that call each other at the same moment. The one that prevails refuses the other's keying, without a word,
    and the other gives up its attempt for a session."""
    a, b = Node(0, b"anna", INSTANCE), Node(1, b"bert", INSTANCE)
    assert a.print > b.print
    ours, theirs = Attempt(a, b), Attempt(b, a)
    yield a, b, ours.hello()
    yield b, a, theirs.hello()
    to_b, hello = a.answers_hello(1, theirs.tag, 1)
    yield a, b, hello
    to_a, hello = b.answers_hello(1, ours.tag, 0)
    yield b, a, hello
    yield a, b, ours.keying(to_a)
    yield b, a, theirs.keying(to_b)
    yield b, a, ours.born(3)
    yield a, b, ours.packet(a, 4, PING, 4)
    yield a, b, ours.packet(a, 4, message_chunk(b"aa"), 5)
    yield b, a, ours.packet(b, 4, PINGREPLY, 5)
    yield b, a, ours.packet(b, 5, ACK, 6)


def two_calls():
    """A node that draws its instance bytes, calls two others and sends its message to each."""
    a, b, c = Node(0, b"first", INSTANCE), Node(1, b"second", INSTANCE), Node(2, b"caller")
    calls = [(a, Attempt(c, a)), (b, Attempt(c, b))]
    baked = {}
    for called, call in calls:
        yield c, called, call.hello()
    for called, call in calls:
        baked[called], hello = called.answers_hello(1, call.tag, 2)
        yield called, c, hello
    for called, call in calls:
        yield c, called, call.keying(baked[called])
    for called, call in calls:
        yield called, c, call.born(2)
    for turn, (called, call) in enumerate(calls, 3):
        yield c, called, call.packet(c, turn, PING, 3)
        yield c, called, call.packet(c, turn, message_chunk(b"hello"), 4)
    for turn, (called, call) in zip((5, 7), calls):
        yield called, c, call.packet(called, 3, PINGREPLY, turn)
        yield called, c, call.packet(called, 4, ACK, turn + 1)


def a_meeting():
    """The nodes that `meet` starts: b opens a session with i, and a calls b by way of i."""
    group = bytes(32)
    names = ((b"introducer", 0x11), (b"answerer", 0x22), (b"caller", 0x33))
    i, b, a = (Node(place, name, bytes([digit]) * 16, group) for place, (name, digit) in enumerate(names))
    known, call = Attempt(b, i), Attempt(a, b)
    yield b, i, known.hello()
    baked, hello = i.answers_hello(1, known.tag, 1)
    yield i, b, hello
    yield b, i, known.keying(baked)
    yield i, b, known.born(2)
    yield b, i, known.packet(b, 2, PING, 3)
    yield i, b, known.packet(i, 3, PINGREPLY, 3)
    yield a, i, call.hello()
    yield i, b, known.packet(i, 4, chunk(0x0F, call.wanted() + observed(HERE, 40102) + call.tag), 4)
    baked, hello = b.answers_hello(4, call.tag, 2)
    yield b, a, hello
    yield a, b, call.keying(baked)
    yield b, a, call.born(5)
    yield a, b, call.packet(a, 2, PING, 6)
    yield a, b, call.packet(a, 2, message_chunk(b"hello"), 7)
    yield b, a, call.packet(b, 6, PINGREPLY, 3)
    yield b, a, call.packet(b, 7, ACK, 4)


def main():
    for brought in (to_a_node_that_calls(), to_a_node_that_introduces()):
        for last, bytes_brought in brought:
            print(last, bytes_brought.hex())
        print()
    for talk in (a_call(), crossed_calls(), two_calls(), a_meeting()):
        for sender, taker, bytes_sent in talk:
            print(sender.place, taker.place, bytes_sent.hex())
        print()


if __name__ == "__main__":
    main()
