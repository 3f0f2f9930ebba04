"""Journals of nodes: they are merged as users merge them, and audited by a program and by the slow checker of
scripts/baseline. They are changed, too, and a member of the nodes' group plays false: each time it is derived here, by the
rules and not by what a program says, at which line the text is refused then. scripts/try-nodes uses it.
"""
import os
import re
import select
import socket
import subprocess
import sys
import tempfile
import threading

SCRIPTS = os.path.dirname(os.path.abspath(__file__))
sys.path.insert(0, os.path.join(SCRIPTS, "baseline"))
import audit  # noqa: E402
import handshake as wire  # noqa: E402
import logs  # noqa: E402

IIKEYING, RIKEYING = 0x38, 0x78
# The chunks of a call with a message, by their types, in the order in which they are sent.
KINDS = {0x30: "ihello", 0x70: "rhello", IIKEYING: "iikeying", RIKEYING: "rikeying"}
KINDS |= {0x01: "ping", 0x41: "pingreply", 0x10: "data", 0x51: "ackranges"}
# What only a datagram makes true.
FACTS = ("born", "opened", "confirmed")


# ---- What is said of journals. Each of them is a list of lines.


def merged(journals, last="\n"):
    """The lines of all, in the order of scripts/merge-logs. In its file the last line of each ends with `last`."""
    with tempfile.TemporaryDirectory() as folder:
        paths = [os.path.join(folder, f"{at}.log") for at in range(len(journals))]
        for path, lines in zip(paths, journals):
            with open(path, "w", encoding="ascii") as f:
                f.write("\n".join(lines) + last)
        words = [os.path.join(SCRIPTS, "merge-logs"), *paths]
        return subprocess.run(words, stdout=subprocess.PIPE, text=True, check=True).stdout.splitlines()


def text_of(lines):
    return "".join(f"{line}\n" for line in lines).encode()


def audited(program, lines):
    """What a program's `audit` writes of a text, its status, and what it tells on standard error."""
    ran = subprocess.run([program, "audit"], input=text_of(lines), capture_output=True, timeout=600)
    return ran.stdout.decode(), ran.returncode, ran.stderr.decode()


def said(program, lines):
    """The line that the program and the slow checker write of a text; or how they differ."""
    fast, (line, status, why) = audited(program, lines), audit.audit(text_of(lines))
    told = f"rtmfp: logs refused at line {re.search('[0-9]+', line)[0]}\n" if status == 12 else ""
    slow = f"{line}\n", status, told
    return line if fast == slow else f"the program says {fast}, and the slow checker {slow}, since {why}"


def agreed(lines):
    """What is to be said of logs that agree."""
    ends, kept, end = sum(line.startswith("log ") for line in lines), set(), None
    for line in lines:
        words = line.split(" ")
        if words[0] == "event":
            end = words[1]
        elif words[0] == "+" and words[1] in ("opened", "confirmed"):
            kept.add((end, words[2]))
        elif words[0] == "+" and words[1] == "ended":
            kept.discard((end, words[2]))
    return f"agreed ends={ends} events={len(events_in(lines))} kept={len(kept)}"


def refused(at, cause):
    """What is to be said where the line at this place is the first that fails."""
    return f"refused line={at + 1} {cause}"


def without_idle(lines):
    """The lines without the events in which nothing happened. Nodes have one every 50 ms, which is more than the slow checker
    goes through where there are many of them."""
    idle = re.compile(r"event \S+ \d+ \S+ (tick|other)$")
    return [line for line, after in zip(lines, lines[1:] + [""]) if after.startswith("+") or not idle.match(line)]


def events_in(lines):
    return [at for at, line in enumerate(lines) if line.startswith("event ")]


def event_of(lines, at):
    """The place of the event that the line at a place belongs to."""
    return max(it for it in events_in(lines) if it <= at)


def behind(lines, at):
    """The place behind the entries of an event."""
    return next((it for it in range(at + 1, len(lines)) if not lines[it].startswith("+ ")), len(lines))


def sent_in(lines):
    """Each datagram that was sent, with the place of its line."""
    return {line.split(" ")[-1]: at for at, line in enumerate(lines) if line.startswith("+ out ")}


def came_in(lines):
    """The places of the lines of datagrams that came, each with its datagram."""
    return [(at, lines[at].split(" ")[6]) for at in events_in(lines) if lines[at].split(" ")[4] == "receive"]


def place_of(lines, datagram):
    """The place of the line that tells that a datagram came."""
    return next(at for at, came in came_in(lines) if came == datagram)


# ---- Texts that are changed. They are of nodes of one secret.


def cut_short(journal):
    """What a node leaves that is stopped as it writes its last entry, and what is whole of it."""
    at = max(at for at, line in enumerate(journal) if line.startswith("+ "))
    return [*journal[:at], journal[at][:-1]], journal[: event_of(journal, at)]


def is_startup(datagram, group):
    """Whether a datagram opens at each end that has this secret and no other, whatever that end did before."""
    datagram = bytes.fromhex(datagram)
    return logs.session_id(datagram) == 0 and logs.unsealed(group, ("startup", 0), datagram) is not None


def with_a_digit_changed(lines, draw):
    """One digit of something that was sent is another one: no datagram is sealed so."""
    for at in sent_in(lines).values():
        words = lines[at].split(" ")
        digit = draw.randrange(len(words[-1]))
        other = draw.choice([it for it in "0123456789abcdef" if it != words[-1][digit]])
        words[-1] = words[-1][:digit] + other + words[-1][digit + 1 :]
        yield [*lines[:at], " ".join(words), *lines[at + 1 :]], refused(at, "unlawful")


def with_a_journal_left_out(journals, group):
    """The journal of one node is missing: the first datagram of it that opens for sure is one that nobody sent."""
    for journal in journals:
        lines = merged([other for other in journals if other is not journal])
        sent = sent_in(journal)
        at = next(at for at, came in came_in(lines) if came in sent and is_startup(came, group))
        yield lines, refused(at, "not-honest")


def with_a_datagram_too_early(lines, group):
    """A datagram of the startup comes, with all that it does, before the event in which it is sent."""
    sent = sent_in(lines)
    for at, came in came_in(lines):
        if is_startup(came, group):
            to, end = event_of(lines, sent[came]), behind(lines, at)
            yield lines[:to] + lines[at:end] + lines[to:at] + lines[end:], refused(to, "not-honest")


def with_a_fact_too_early(lines):
    """What a datagram made true stands behind the entries of the event before it of that end, which brings none."""
    for at, line in enumerate(lines):
        if line.startswith("+ ") and line.split(" ")[1] in FACTS:
            event = event_of(lines, at)
            end = lines[event].split(" ")[1]
            before = [it for it in events_in(lines[:event]) if lines[it].split(" ")[1] == end][-1]
            if " receive " not in lines[before]:
                to = behind(lines, before)
                yield lines[:to] + [line] + lines[to:at] + lines[at + 1 :], refused(to, "unlawful")


def changed(journals, group, draw):
    """Ways to change the text of journals that agree, each with the texts that come of it and what is to be said of them."""
    lines = merged(journals)
    yield "a digit of a datagram is another", with_a_digit_changed(lines, draw)
    yield "a journal is missing", with_a_journal_left_out(journals, group)
    yield "a datagram comes too early", with_a_datagram_too_early(lines, group)
    yield "a fact is told too early", with_a_fact_too_early(lines)


# ---- A member that plays false.


def strange_hello(group, print_of):
    """The hello of an end that isn't there, for the one with a fingerprint."""
    wanted = wire.counted(b"\x01" + bytes.fromhex(print_of))
    return wire.startup_packet(bytes(16) + b"nobody", 1, 0, wire.chunk(0x30, wanted + bytes(16)), group)


class Relay:
    """It hands on what two nodes send each other, each datagram twice, by a port of its own. It opens them by the secret of
    their group, seals the first one with a chunk of the false kind under another number, and hands this on in its place."""

    def __init__(self, group, false_kind=None):
        self.group, self.false_kind, self.forged = group, false_kind, None
        self.contexts, self.keying = [("startup", 0)], None
        self.socket = socket.socket(socket.AF_INET, socket.SOCK_DGRAM)
        self.socket.bind(("127.0.0.1", 0))
        self.place = f"127.0.0.1:{self.socket.getsockname()[1]}"
        self.stops = threading.Event()

    def start(self, one, other):
        """Hands on between the ports of two nodes of this machine, in a thread of its own."""
        self.thread = threading.Thread(target=self.pass_on, args=[{one: other, other: one}])
        self.thread.start()

    def end(self):
        self.stops.set()
        self.thread.join()
        self.socket.close()

    def pass_on(self, ways):
        while not self.stops.is_set():
            if select.select([self.socket], [], [], 0.05)[0]:
                datagram, (_, port) = self.socket.recvfrom(4096)
                handed_on = self.instead(datagram)
                for _ in range(2):
                    self.socket.sendto(handed_on, ("127.0.0.1", ways[port]))

    def instead(self, datagram):
        """What is handed on in the place of a datagram."""
        for context in self.contexts:
            found = logs.unsealed(self.group, context, datagram)
            if found:
                packet = logs.packet_of(found[1])
                self.hear(packet)
                if self.forged is None and self.false_kind in [kind for kind, _ in packet.chunks]:
                    number = wire.be(logs.number_of(found[0]) + 500, 16)
                    datagram = wire.datagram(logs.keys_of(self.group, context), logs.session_id(datagram), number, found[1])
                    self.forged = datagram.hex()
                return datagram
        return datagram

    def hear(self, packet):
        """Keeps what two keyings tell of the contexts of their session."""
        for it in logs.chunks_of(packet, IIKEYING, logs.iikeying):
            self.keying = it
        for it in logs.chunks_of(packet, RIKEYING, logs.rikeying):
            ours = self.keying
            values = (ours.part[:16], it.part[:16], logs.sha256(ours.cert), it.part[24:56], ours.near, it.near)
            self.contexts = [("startup", 0), ("session", 0, *values, True), ("session", 0, *values, False)]
