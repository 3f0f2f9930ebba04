#!/usr/bin/env python3
"""The six datagrams of a handshake of two ends, in hexadecimal.

It is written after RFC 7016 and docs/PROTOCOL.md, apart from the code of this repository, with Python's
hashlib and hmac alone. The table `bytes-of-a-handshake` of `crates/examples/data/ends.tables` holds what it prints.

  scripts/baseline/handshake.py
"""
import hashlib
import hmac

GROUP = bytes([7]) * 32
CALLER = b"0123456789abcdefcaller"
ANSWERER = b"0123456789abcdefanswerer"
COOKIE_SECRET = bytes([9]) * 32


def mac(key, data):
    return hmac.new(key, data, hashlib.sha256).digest()


def be(number, size):
    return number.to_bytes(size, "big")


def vlu(number):
    """7 bits a byte, the most significant first, the high bit on every byte but the last."""
    out = [number & 0x7F]
    number >>= 7
    while number:
        out.append(0x80 | (number & 0x7F))
        number >>= 7
    return bytes(reversed(out))


def counted(data):
    return vlu(len(data)) + data


def chunk(kind, payload):
    return bytes([kind]) + be(len(payload), 2) + payload


def sealed(keys, sid, number, plain):
    """tag(16), number(16), and the plain packet XOR the keystream; keys are those of encryption and of the tag."""
    enc, tag_key = keys
    stream = b"".join(mac(enc, number + be(i, 8)) for i in range(len(plain) // 32 + 1))
    cipher = bytes(a ^ b for a, b in zip(plain, stream))
    return mac(tag_key, be(sid, 4) + number + cipher)[:16] + number + cipher


def datagram(keys, sid, number, plain):
    part = sealed(keys, sid, number, plain)
    words = int.from_bytes(part[:4], "big") ^ int.from_bytes(part[4:8], "big")
    return be(sid ^ words, 4) + part


def startup_keys(group):
    return mac(group, b"rtmfp startup enc"), mac(group, b"rtmfp startup mac")


def session_keys(to_responder, ni, nr, print_i, print_r, sid_i, sid_r, group=GROUP):
    way = b"i" if to_responder else b"r"
    values = ni + nr + print_i + print_r + be(sid_i, 4) + be(sid_r, 4)
    return tuple(mac(group, b"rtmfp session " + what + b" " + way + values) for what in (b"enc", b"mac"))


def signed(payload, group=GROUP):
    return payload + mac(mac(group, b"rtmfp sign"), payload)


def observed(host, port):
    """An address of IPv4 as it was observed: its flags byte has origin 2."""
    return bytes([0x02]) + bytes(host) + be(port, 2)


def cookie(moment, host, port, secret=COOKIE_SECRET):
    body = be(moment, 8) + observed(host, port)
    return body + mac(secret, body)[:16]


def startup_packet(cert, count, sid, body, group=GROUP):
    """Mode 3, no stamps; the number is the first 8 bytes of the sender's fingerprint and a count."""
    number = hashlib.sha256(cert).digest()[:8] + be(count, 8)
    return datagram(startup_keys(group), sid, number, bytes([0x03]) + body)


def main():
    print_c = hashlib.sha256(CALLER).digest()
    print_a = hashlib.sha256(ANSWERER).digest()
    nonce_c, tag, nonce_a = be(3, 16), be(3, 16), be(6, 16)
    near_c, near_a = 3, 6
    # the caller opens at 1,000 ms; each datagram takes 20 ms
    baked = cookie(1020, [10, 0, 0, 1], 1935)
    hello = chunk(0x30, counted(b"\x01" + print_a) + tag)
    answer = chunk(0x70, counted(tag) + counted(baked) + ANSWERER)
    part = nonce_c + be(1, 8) + print_a
    keying = chunk(0x38, signed(be(near_c, 4) + counted(baked) + counted(CALLER) + counted(part)))
    part = nonce_a + be(0, 8) + print_a + nonce_c
    keyed = chunk(0x78, signed(be(near_a, 4) + counted(part)))
    values = (nonce_c, nonce_a, print_c, print_a, near_c, near_a)
    # a stamp is a moment divided by 4; the echo is the stamp that was taken, and the time since
    ping = bytes([0x08 | 0x01]) + be(1080 // 4, 2) + chunk(0x01, b"")
    reply = bytes([0x08 | 0x04 | 0x02]) + be(1100 // 4, 2) + be(1080 // 4, 2) + chunk(0x41, b"")
    for sent in (
        startup_packet(CALLER, 1, 0, hello),
        startup_packet(ANSWERER, 1, 0, answer),
        startup_packet(CALLER, 2, 0, keying),
        startup_packet(ANSWERER, 2, near_c, keyed),
        datagram(session_keys(True, *values), near_a, be(1, 16), ping),
        datagram(session_keys(False, *values), near_c, be(1, 16), reply),
    ):
        print(sent.hex())


if __name__ == "__main__":
    main()
