#!/usr/bin/env python3
"""Startup chunks that a member of the group makes, of which the last values are wrong, too: rows of crates/examples/data, of
the tables of places and stages of crates/examples, and of crates/tests_sessions.

It is written after RFC 7016 and docs/PROTOCOL.md, apart from the code of this repository, with Python's hashlib and hmac
alone. It prints a row a chunk: the end that takes it (a called, b answers), under which session ID, and the packet in
hexadecimal; what comes of it stands in the test, after docs/PROTOCOL.md.

  scripts/baseline/keyings.py
"""
import hashlib
import hmac

GROUP = bytes([7]) * 32
CALLER, ANSWERER, OTHER = (b"0123456789abcdef" + name for name in (b"caller", b"answerer", b"other"))
PRINT_C, PRINT_A = (hashlib.sha256(cert).digest() for cert in (CALLER, ANSWERER))
NONCE = bytes(15) + bytes([3])


def mac(key, data):
    return hmac.new(key, data, hashlib.sha256).digest()


RIGHT = mac(GROUP, b"rtmfp sign")
WRONG = bytes(32)


def be(number, size):
    return number.to_bytes(size, "big")


def counted(data):
    size = len(data)
    return (bytes([size]) if size < 128 else bytes([0x80 | size >> 7, size & 0x7F])) + data


def chunk(kind, payload):
    return bytes([kind]) + be(len(payload), 2) + payload


def cookie():
    """For 10.0.0.1:1935 at the moment 0, of an end whose cookie secret is 32 times 9."""
    body = bytes(8) + bytes([0x02, 10, 0, 0, 1]) + be(1935, 2)
    return body + mac(bytes([9]) * 32, body)[:16]


def keying(key, cookie, cert, number, responder):
    """An initiator's keying with session ID 77."""
    payload = be(77, 4) + counted(cookie) + counted(cert) + counted(bytes(16) + be(number, 8) + responder)
    return chunk(0x38, payload + mac(key, payload))


def answer(key, responder, nonce):
    """A responder's keying with session ID 88."""
    payload = be(88, 4) + counted(bytes(24) + responder + nonce)
    return chunk(0x78, payload + mac(key, payload))


def hello(tag, cert):
    return chunk(0x70, counted(tag) + counted(b"\x02") + cert)


def show(end, sid, *chunks):
    print(f"startup {end} {sid} {(bytes([0x03]) + b''.join(chunks)).hex()}")


def main():
    stranger, wide = bytes([5]) * 32, bytes([1]) * 129
    # a signature, a wide cookie, a cookie of nobody, another responder, the own certificate, a number that is stale
    show("b", 0, keying(WRONG, wide, ANSWERER, 0, stranger))
    show("b", 0, keying(RIGHT, wide, ANSWERER, 0, stranger))
    show("b", 0, keying(RIGHT, bytes([1]) * 9, ANSWERER, 0, stranger))
    show("b", 0, keying(RIGHT, cookie(), ANSWERER, 0, stranger))
    show("b", 0, keying(RIGHT, cookie(), ANSWERER, 0, PRINT_A))
    show("b", 0, keying(RIGHT, cookie(), CALLER, 0, PRINT_A))
    # one that is right, one of another end, one to the caller itself, and two in one packet
    show("b", 0, keying(RIGHT, cookie(), CALLER, 1, PRINT_A))
    show("b", 0, keying(RIGHT, cookie(), OTHER, 1, PRINT_A))
    show("a", 0, keying(RIGHT, cookie(), ANSWERER, 1, PRINT_C))
    show("b", 0, keying(WRONG, b"", CALLER, 1, stranger), keying(WRONG, b"", CALLER, 1, stranger))
    # a form before a signature: no session ID, a certificate and a part that are short
    show("b", 0, chunk(0x38, bytes(4) + keying(WRONG, wide, CALLER, 0, stranger)[7:]))
    show("b", 0, keying(WRONG, wide, CALLER[:16], 0, stranger[:31]))
    show("b", 0, keying(WRONG, wide, CALLER, 0, stranger[:31]))
    # hellos of answerers, a hello and a change of a cookie, with a wide field
    show("a", 0, hello(wide, OTHER))
    show("a", 0, hello(bytes([8]) * 16, OTHER))
    show("a", 0, hello(NONCE, OTHER))
    show("a", 0, hello(NONCE, ANSWERER))
    show("a", 0, chunk(0x30, counted(b"") + wide))
    show("a", 0, chunk(0x79, counted(wide)))
    # answers to keyings: a signature, another peer, another nonce, and one that is right
    show("a", 3, answer(WRONG, stranger, bytes([6]) * 16))
    show("a", 3, answer(RIGHT, stranger, bytes([6]) * 16))
    show("a", 3, answer(RIGHT, PRINT_A, bytes([6]) * 16))
    show("a", 3, answer(RIGHT, PRINT_A, NONCE))
    # where two causes stand: a signature alone, a stale number beside glare and beside limits, and answers alike
    show("b", 0, keying(WRONG, cookie(), CALLER, 1, PRINT_A))
    show("a", 0, keying(RIGHT, cookie(), ANSWERER, 0, PRINT_C))
    show("b", 0, keying(RIGHT, cookie(), OTHER, 0, PRINT_A))
    show("b", 0, keying(RIGHT, cookie(), CALLER, 0, stranger))
    show("a", 3, answer(WRONG, PRINT_A, NONCE))
    show("a", 3, answer(WRONG, PRINT_A, bytes([6]) * 16))
    show("a", 3, answer(WRONG, hashlib.sha256(OTHER).digest(), NONCE))
    # what is asked of an end and not given to it: a keying with its cookie, and answers to an attempt with another nonce
    show("b", 0, keying(RIGHT, cookie(), CALLER, 0, PRINT_C))
    show("b", 0, keying(WRONG, cookie(), CALLER, 0, PRINT_C))
    show("b", 0, keying(RIGHT, b"\x02", CALLER, 1, PRINT_A))
    for key, nonce in ((RIGHT, bytes([3]) * 16), (RIGHT, bytes(16)), (WRONG, bytes([3]) * 16)):
        show("a", 6, answer(key, PRINT_A, nonce))


main()
