"""Changes of the logs of ends, as scripts/try-audit makes them: each gives the lines changed, or nothing where it finds nothing
to change. A line is one of the text that scripts/baseline/logs.py reads, without its end.
"""
import collections
import re

import audit
import handshake as wire
import logs

# Changed logs have at most so many events.
EVENTS = 90
# The time that a rule asks for before an entry, by its kind or its reason.
EDGES = {b"closed": 19_000, b"unconfirmed": 20_000, b"expired": 95_000, b"idle": 120_000, b"born": 95_000}


def text_of(lines):
    return b"".join(line + b"\n" for line in lines)


def events_in(lines):
    return [at for at, line in enumerate(lines) if line.startswith(b"event ")]


def entries_in(lines):
    return [at for at, line in enumerate(lines) if line.startswith(b"+ ")]


def end_of_event(lines, at):
    """The place behind the entries of an event."""
    return next((place for place in range(at + 1, len(lines)) if not lines[place].startswith(b"+ ")), len(lines))


def some_line(draw, lines):
    """The place of a line, or of an entry whose kind is rare just as often as of one whose kind isn't."""
    kinds = collections.defaultdict(list)
    for at in entries_in(lines):
        words = lines[at].split(b" ")
        kinds[words[1] + (words[-1] if words[1] in (b"ended", b"unsought") else b"")].append(at)
    if not kinds or draw.random() < 0.4:
        return draw.randrange(len(lines))
    return draw.choice(kinds[draw.choice(sorted(kinds))])


def left_out(draw, lines):
    del lines[some_line(draw, lines)]
    return lines


def doubled(draw, lines):
    at = some_line(draw, lines)
    lines.insert(at, lines[at])
    return lines


def swapped(draw, lines):
    if len(lines) < 2:
        return None
    at = min(some_line(draw, lines), len(lines) - 2)
    lines[at], lines[at + 1] = lines[at + 1], lines[at]
    return lines


def moved(draw, lines):
    """An entry goes to another event, or comes there once more: mostly to one that isn't far away."""
    at = some_line(draw, lines)
    if not lines[at].startswith(b"+ "):
        return None
    entry = lines[at] if draw.random() < 0.3 else lines.pop(at)
    events = events_in(lines)
    event = draw.choice([it for it in events if abs(it - at) < 12 or draw.random() < 0.1] or events)
    lines.insert(draw.randint(event + 1, end_of_event(lines, event)), entry)
    return lines


def event_left_out(draw, lines):
    events = events_in(lines)
    if not events:
        return None
    at = draw.choice(events)
    return lines[:at] + lines[end_of_event(lines, at) :]


def event_moved(draw, lines):
    """An event goes to another place, or comes again, with its entries."""
    events = events_in(lines)
    if not events:
        return None
    at = draw.choice(events)
    taken = lines[at : end_of_event(lines, at)]
    left = lines if draw.random() < 0.2 else lines[:at] + lines[at + len(taken) :]
    places = events_in(left) + [len(left)]
    near = [place for place in places if abs(place - at) < 12] if draw.random() < 0.6 else places
    to = draw.choice(near or places)
    return left[:to] + taken + left[to:]


def field_changed(draw, lines):
    """A word of a line becomes another one."""
    at = some_line(draw, lines)
    words = lines[at].split(b" ")
    place = draw.randrange(1, len(words))
    others = [line.split(b" ") for line in lines]
    alike = [other[place] for other in others if other[0] == words[0] and len(other) == len(words)]
    words[place] = other_word(draw, words[place], [word for word in alike if word != words[place]])
    lines[at] = b" ".join(words)
    return lines


def other_word(draw, word, alike):
    """Another word in the place of one: mostly one that stands in this place elsewhere, or is near it."""
    if word.decode("latin1") in logs.WHYS and draw.random() < 0.8:
        return draw.choice(logs.WHYS).encode()
    if alike and draw.random() < 0.6:
        return draw.choice(alike)
    if re.fullmatch(rb"\d{1,20}", word):
        number = int(word)
        near = [number + 1, max(number - 1, 0), 0, 1, 2]
        return str(draw.choice(3 * near + [2**32 - 1, 2**32, 2**64 - 1, 2**64, f"0{number}"])).encode()
    if re.fullmatch(rb"[0-9a-f]{16,}", word):
        place = draw.randrange(len(word))
        changed = word[:place] + draw.choice([b"0", b"1", b"e", b"f"]) + word[place + 1 :]
        wrong = [b"0" * len(word), b"f" * len(word), word[:-2], word[:-1], word + b"00", word.upper(), b"-"]
        return draw.choice([changed] * 12 + wrong)
    known = [*logs.CALLS, *logs.ENTRIES, *(why.encode() for why in logs.WHYS), b"i", b"r", b"startup", b"session", b"", b"-"]
    known += [b"1.2.3.4:5", b"10.0.0.1:1936", b"[00000000000000000000000000000001]:7", b"1.2.3.4:65536", b"a", b"b", b"e0", b"e1"]
    return draw.choice(known)


def stated_in(lines, at):
    """The kinds of the entries of an event, but for what was sent."""
    return {lines[it].split(b" ")[1] for it in range(at + 1, end_of_event(lines, at))} - {b"out"}


def at_an_edge(draw, lines):
    """An event has a moment at the edge of a rule, counted from an earlier one of its end."""
    events, found = events_in(lines), collections.defaultdict(list)
    for at in entries_in(lines):
        words = lines[at].split(b" ")
        for kind in {words[1], words[-1]} & set(EDGES):
            found[kind].append(at)
    if not found:
        return None
    kind = draw.choice(sorted(found))
    entry = draw.choice(found[kind])
    at = max(it for it in events if it < entry)
    words = lines[at].split(b" ")
    earlier = sorted({int(lines[it].split(b" ")[2]) for it in events if it < at and lines[it].split(b" ")[1] == words[1]})
    if not earlier:
        return None
    over = [moment for moment in earlier if moment + EDGES[kind] <= int(words[2])][-3:]
    moment = draw.choice(over if over and draw.random() < 0.8 else earlier) + EDGES[kind] + draw.randint(-1, 1)
    # The moments of the end before it are moved with it, or aren't.
    for it in events:
        its = lines[it].split(b" ")
        if its[1] == words[1] and it < at and int(its[2]) > moment and draw.random() < 0.7:
            lines[it] = b" ".join([*its[:2], str(moment).encode(), *its[3:]])
    lines[at] = b" ".join([*words[:2], str(moment).encode(), *words[3:]])
    return lines


def limited(draw, lines):
    """An end has places for few peers or sessions."""
    ends = [at for at, line in enumerate(lines) if line.startswith(b"log ")]
    if not ends:
        return None
    at = draw.choice(ends)
    words = lines[at].split(b" ")
    words[draw.choice([2, 3])] = str(draw.randrange(4)).encode()
    lines[at] = b" ".join(words)
    return lines


def misstated(draw, lines):
    """Something ends otherwise than it did: for another cause, with another peer or near id, or at another call; or two
    entries of one event are told the other way round."""
    found = [at for at in entries_in(lines) if lines[at].split(b" ")[1] in (b"ended", b"closed", b"unsought", b"confirmed")]
    if not found:
        return None
    at = draw.choice(found)
    event = max(it for it in events_in(lines) if it < at)
    words, call = lines[at].split(b" "), lines[event].split(b" ")
    things = [line.split(b" ") for line in lines if line.startswith((b"+ started ", b"+ born "))]
    way = draw.randrange(4)
    if way == 0 and words[1] in (b"ended", b"unsought"):
        words[-1] = draw.choice(logs.WHYS).encode()
    elif way == 1 and things:
        thing = draw.choice(things)
        has_peer = words[1] in (b"ended", b"confirmed")
        words = [*words[:2], thing[2], thing[4], *words[4:]] if has_peer else [*words[:2], thing[4], *words[3:]]
    elif way == 2:
        near = words[3 if words[1] in (b"ended", b"confirmed") else 2]
        calls = [b"tick", b"advance", b"cancel 1", b"cancel 2", b"close " + near, b"unseek " + near]
        calls += [b" ".join(lines[it].split(b" ")[4:]) for it in events_in(lines)]
        new = draw.choice(calls)
        has_draws = new.split(b" ")[0].decode() in logs.DRAWING
        call = [*call[:3], call[3] if has_draws else b"0" * 32, new]
    else:
        thing = draw.choice(things or [words])
        if thing[1] in (b"started", b"born"):
            why = draw.choice(logs.WHYS).encode()
            lines.insert(at + draw.randrange(2), b" ".join([b"+", b"ended", thing[2], thing[4], why]))
            return lines
    lines[at], lines[event] = b" ".join(words), b" ".join(call)
    return lines


# ---- Datagrams that are sealed anew


def resealed(draw, lines):
    """A datagram has something changed in it, and is sealed again: where it was sent, where it came, or in both."""
    places = [at for at in entries_in(lines) if lines[at].startswith(b"+ out ")]
    if not places:
        return None
    ends, events = logs.read(text_of(lines))
    secrets = audit.all_secrets(ends, events)
    at = draw.choice(places)
    if draw.random() < 0.8:
        # Mostly one by which something began or ended where it came.
        events = events_in(lines)
        came = {lines[it].split(b" ")[6] for it in events if lines[it].split(b" ")[4] == b"receive" and stated_in(lines, it)}
        at = draw.choice([it for it in places if lines[it].split(b" ")[-1] in came] or places)
    sent = logs.an_entry(lines[at].split(b" ")[1:], at)
    number, plain = logs.unsealed(secrets[sent.context[1]], sent.context, sent.datagram)
    sid, context = logs.session_id(sent.datagram), sent.context
    way = draw.randrange(12)
    if way == 0:
        numbers = [int(word) for line in lines for word in re.findall(rb" (\d{1,9})(?= )", line[:160])]
        sid = draw.choice([0, (sid + 1) % 2**32, *numbers])
    elif way == 1:
        number = other_number(draw, number)
    elif way == 2 and context[0] == "startup":
        context = ("startup", draw.choice(sorted(secrets)))
    elif way == 3:
        other = logs.an_entry(lines[draw.choice(places)].split(b" ")[1:], 0)
        found = logs.unsealed(secrets[other.context[1]], other.context, other.datagram)
        plain = plain + body_of(found[1]) if draw.random() < 0.5 else plain[:1] + body_of(found[1]) + body_of(plain)
    elif way == 4:
        plain = bytes([plain[0] ^ draw.choice([1, 2, 3, 8])]) + plain[1:]
    else:
        plain = other_plain(draw, plain, secrets[context[1]], [end.cert for end in ends])
    made = wire.datagram(logs.keys_of(secrets[context[1]], context), sid, number, plain)
    return replaced(draw, lines, sent, context, made, plain)


def body_of(plain):
    """What stands behind the head of a plain packet."""
    return plain[1 + 2 * (plain[0] >> 3 & 1) + 2 * (plain[0] >> 2 & 1) :]


def other_number(draw, number):
    low = logs.number_of(number[8:])
    if draw.random() < 0.2:
        return draw.randbytes(8) + number[8:]
    return number[:8] + wire.be((low + draw.choice([-1, 1, 2, 1_023, 1_024, 1_025, -low])) % 2**64, 8)


def other_plain(draw, plain, secret, certs):
    """A plain packet with one of its chunks changed. A keying is mostly signed again."""
    chunks = logs.packet_of(plain).chunks
    if not chunks:
        return plain + wire.chunk(draw.choice([0x0C, 0x4C, 0x01]), b"")
    at = draw.randrange(len(chunks))
    kind, payload = chunks[at]
    if draw.random() < 0.1:
        payload = payload[: draw.randrange(len(payload) + 1)]
    elif kind in (0x38, 0x78, 0x70):
        payload = other_keying(draw, kind, payload, secret, certs)
    elif kind in (0x0C, 0x4C, 0x01, 0x41):
        kind = draw.choice([0x0C, 0x4C, 0x01, 0x0D])
    else:
        kind, payload = draw.choice([(kind ^ 1, payload), (0x0C, b""), (0x4C, b"x")])
    chunks = [*chunks[:at], (kind, payload), *chunks[at + 1 :]]
    return plain[: len(plain) - len(body_of(plain))] + b"".join(wire.chunk(*chunk) for chunk in chunks)


def other_bytes(draw, value, others=()):
    if others and draw.random() < 0.5:
        return draw.choice(list(others))
    place = draw.randrange(len(value) + 1)
    changed = value[:place] + draw.randbytes(1) + value[place + 1 :]
    return draw.choice([changed, changed, changed, value[:-1], value + b"\x00", b"", bytes(len(value)), value + bytes(120)])


def other_number_in(draw, value):
    number = logs.number_of(value)
    return wire.be((number + draw.choice([-1, 1, 1, 2, -number, 1_000])) % 2 ** (8 * len(value)), len(value))


def other_keying(draw, kind, payload, secret, certs):
    if kind == 0x70:
        it = logs.rhello(payload)
        tag, cookie, cert = it.tag, it.cookie, it.cert
        match draw.randrange(3):
            case 0:
                tag = other_bytes(draw, tag)
            case 1:
                cookie = other_bytes(draw, cookie)
            case _:
                cert = other_bytes(draw, cert, certs)
        return wire.counted(tag) + wire.counted(cookie) + cert
    it = logs.iikeying(payload) if kind == 0x38 else logs.rikeying(payload)
    near, part = wire.be(it.near, 4), it.part
    pieces = [part[:16], part[16:24], part[24:56], part[56:]]
    middle = b""
    way = draw.randrange(9)
    if way == 0:
        near = other_number_in(draw, near)
    elif way == 1:
        pieces[0] = other_bytes(draw, pieces[0])
    elif way in (2, 3):
        pieces[1] = other_number_in(draw, pieces[1])
    elif way == 4:
        pieces[2] = other_bytes(draw, pieces[2], [logs.sha256(cert) for cert in certs])
    elif way == 5:
        pieces[3] = other_bytes(draw, pieces[3])
    if kind == 0x38:
        cookie = other_bytes(draw, it.cookie) if way == 6 else it.cookie
        cert = other_bytes(draw, it.cert, certs) if way == 7 else it.cert
        middle = wire.counted(cookie) + wire.counted(cert)
    body = near + middle + wire.counted(b"".join(pieces))
    if way == 8 or draw.random() < 0.1:
        return body + other_bytes(draw, it.sign)
    return wire.signed(body, secret)


def replaced(draw, lines, sent, context, made, plain):
    """The lines with another datagram in the place of one that was sent. What is stated of a keying where it came is mostly
    stated of the new one."""
    old, new = sent.datagram.hex().encode(), made.hex().encode()
    where = draw.choice(["both"] * 8 + ["sent", "came"])
    restated = draw.random() < 0.7
    changed, came = [], False
    for line in lines:
        words = line.split(b" ")
        if words[0] == b"event":
            came = where != "sent" and words[4] == b"receive" and words[6] == old
            words = words[:6] + [new] if came else words
        elif words[:2] == [b"+", b"out"] and words[-1] == old and where != "came":
            words[-1] = new
            if words[3] == b"startup":
                words[4] = str(context[1]).encode()
        elif came and restated and words[1] in (b"born", b"opened"):
            words = restated_words(words, plain)
        changed.append(b" ".join(words))
    return changed


def restated_words(words, plain):
    """A Born or an Opened with the values of the first keying of a packet that reads."""
    packet = logs.packet_of(plain)
    for it in logs.chunks_of(packet, 0x38, logs.iikeying) if words[1] == b"born" else []:
        if len(it.part) == 56:
            n, far = str(logs.number_of(it.part[16:24])).encode(), str(it.near).encode()
            return [*words[:2], logs.sha256(it.cert).hex().encode(), n, words[4], far, it.part[:16].hex().encode(), *words[7:]]
    for it in logs.chunks_of(packet, 0x78, logs.rikeying) if words[1] == b"opened" else []:
        if len(it.part) == 72:
            k, far = str(logs.number_of(it.part[16:24])).encode(), str(it.near).encode()
            return [*words[:5], far, words[6], it.part[:16].hex().encode(), k]
    return words


# Each change with its share.
CHANGES = {
    left_out: 8, doubled: 5, swapped: 6, moved: 9, field_changed: 18, event_left_out: 4, event_moved: 8, at_an_edge: 6,
    limited: 4, misstated: 12, resealed: 20,
}
# So many of a hundred texts are changed once more.
TWICE = 20


def cut(draw, lines):
    """A part of some logs, from their beginning on, that isn't long."""
    events = events_in(lines)
    if len(events) <= 3:
        return list(lines)
    return lines[: end_of_event(lines, events[draw.randrange(2, min(len(events), EVENTS))])]


def changed_again(draw, lines):
    if draw.randrange(100) >= TWICE:
        return lines
    again = draw.choice([left_out, moved, at_an_edge, limited, misstated, field_changed])
    return again(draw, list(lines)) or lines
