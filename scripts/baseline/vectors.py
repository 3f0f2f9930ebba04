#!/usr/bin/env python3
"""Values of the cryptography profile, computed with Python's hashlib and hmac from the profile's text alone, and not from the
code of this repository: keys, sealed parts, datagrams of a session, cookies, and the four packets of a handshake.

The tests in crates/tests_sessions hold these bytes. Run it without arguments; it prints one value a line, in hexadecimal.

The profile in short: HMAC is RFC 2104 with SHA-256. Each key is an HMAC under the group secret. A sealed part is a tag of 16
bytes, a number of 16 bytes and the plain packet XOR a keystream, whose block i is the HMAC of the number and of i in 8 bytes;
the tag is the first half of the HMAC of the session ID in 4 bytes, the number and the ciphertext. A datagram begins with its
session ID XOR the first two words of the sealed part. A cookie is its moment, its address with origin 2, and the first half
of the HMAC of both. A signature is an HMAC of the payload before it."""
import hashlib
import hmac


def mac(key, text):
    return hmac.new(key, text, hashlib.sha256).digest()


def be(value, size):
    return value.to_bytes(size, "big")


def vlu(value):
    out = [value & 0x7F]
    while value := value >> 7:
        out.insert(0, 0x80 | value & 0x7F)
    return bytes(out)


def counted(text):
    return vlu(len(text)) + text


def sealed(enc, tag_key, sid, number, plain):
    stream = b"".join(mac(enc, number + be(i, 8)) for i in range(len(plain) // 32 + 1))
    cipher = bytes(a ^ b for a, b in zip(plain, stream))
    return mac(tag_key, be(sid, 4) + number + cipher)[:16] + number + cipher


def datagram(sid, part):
    words = (part + bytes(8))[:8]
    mask = int.from_bytes(words[:4], "big") ^ int.from_bytes(words[4:], "big")
    return be(sid ^ mask, 4) + part


def chunk(kind, payload):
    return be(kind, 1) + be(len(payload), 2) + payload


def address(v6, origin, host, port):
    return be((0x80 if v6 else 0) | origin, 1) + host + be(port, 2)


def cookie(secret, v6, host, port, moment):
    body = be(moment, 8) + address(v6, 2, host, port)
    return body + mac(secret, body)[:16]


def show(name, value):
    print(f"{name} {value.hex()}")


GROUP = bytes(range(32))
STARTUP = mac(GROUP, b"rtmfp startup enc"), mac(GROUP, b"rtmfp startup mac")


def session_keys(way):
    """The keys from the initiator (i) or the responder (r)."""
    ends = bytes([1] * 16 + [2] * 16 + [3] * 32 + [4] * 32) + be(5, 4) + be(6, 4)
    return mac(GROUP, b"rtmfp session enc " + way + ends), mac(GROUP, b"rtmfp session mac " + way + ends)


def profile():
    show("startup-enc", STARTUP[0])
    show("startup-mac", STARTUP[1])
    show("sign", mac(GROUP, b"rtmfp sign"))
    for way in (b"i", b"r"):
        for name, key in zip(("enc", "mac"), session_keys(way)):
            show(f"session-{name}-{way.decode()}", key)
    # 70 bytes, which need three blocks of the keystream
    show("sealed-of-70", sealed(*session_keys(b"i"), 7, bytes(8) + be(9, 8), bytes(range(70))))


def session():
    """A ping of the initiator at 1,000 ms, and the responder's answer at 1,500 ms, which took it at 1,000."""
    ping = be(0x09, 1) + be(250, 2) + chunk(0x01, b"")
    show("ping", datagram(6, sealed(*session_keys(b"i"), 6, bytes(8) + be(1, 8), ping)))
    reply = be(0x0E, 1) + be(375, 2) + be(375, 2) + chunk(0x41, b"")
    show("pingreply", datagram(5, sealed(*session_keys(b"r"), 5, bytes(8) + be(1, 8), reply)))
    # the same ping under a number whose eighth byte isn't 0
    show("ping-of-no-session", sealed(*session_keys(b"i"), 6, bytes(7) + be(1, 1) + be(1, 8), ping))


def cookies():
    secret = bytes(range(100, 132))
    show("cookie-v4", cookie(secret, False, bytes([10, 0, 0, 1]), 1935, 1000))
    show("cookie-v6", cookie(secret, True, bytes(range(16)), 65535, 1 << 40))


def handshake():
    """The hello of a caller, the answerer's hello, and both keyings: under one group secret, with a cookie of moment 0."""
    group, answerer, caller = bytes([7] * 32), b"0123456789abcdefanswerer", b"0123456789abcdefcaller"
    print_of = hashlib.sha256(answerer).digest()
    tag, ni, nr, sign = bytes([5] * 16), bytes([3] * 16), bytes([4] * 16), mac(group, b"rtmfp sign")
    show("ihello", b"\x03" + chunk(0x30, counted(b"\x01" + print_of) + tag))
    given = cookie(bytes([9] * 32), False, bytes([10, 0, 0, 1]), 1935, 0)
    show("rhello", b"\x03" + chunk(0x70, counted(tag) + counted(given) + answerer))
    keying = be(6, 4) + counted(given) + counted(caller) + counted(ni + be(1, 8) + print_of)
    show("iikeying", b"\x03" + chunk(0x38, keying + mac(sign, keying)))
    answer = be(9, 4) + counted(nr + be(0, 8) + print_of + ni)
    show("rikeying", b"\x03" + chunk(0x78, answer + mac(sign, answer)))
    fresh = cookie(bytes([9] * 32), False, bytes([10, 0, 0, 2]), 1935, 20)
    show("cookiechange", b"\x03" + chunk(0x79, counted(given) + fresh))
    # The iikeying with each length spelled by one byte more.
    def long(text):
        return b"\x80" + counted(text)
    keying = be(6, 4) + long(given) + long(caller) + long(ni + be(1, 8) + print_of)
    show("iikeying-long-lengths", keying + mac(sign, keying))
    keying = be(6, 4) + long(given) + long(caller[:16]) + long(ni + be(1, 8) + print_of)
    show("iikeying-no-certificate", keying + mac(sign, keying))
    print("its certificate stands at", 4 + 2 + len(given) + 2)


profile()
session()
cookies()
handshake()
