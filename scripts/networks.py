"""Hosts in network namespaces, and a network between them: address translators, delay, jitter, losses and repeats.

What the one interface of a host sends comes to a thread of this process, which hands it on: UDP over IPv4, and nothing
else. It needs root, `ip` and /dev/net/tun; `Refused` tells where one of them is lacking. scripts/try-nodes uses it.
"""
import ctypes
import fcntl
import heapq
import os
import random
import select
import struct
import subprocess
import threading
import time

TUNSETIFF, TUN_WITHOUT_HEADER = 0x400454CA, 0x1001
LIBC = ctypes.CDLL(None, use_errno=True)


class Refused(Exception):
    pass


def run(*words):
    done = subprocess.run(words, capture_output=True, text=True)
    if done.returncode:
        raise Refused(f"{' '.join(words)}: {done.stderr.strip()}")


def enter(namespace):
    if LIBC.setns(namespace, 0):
        raise Refused(f"setns: {os.strerror(ctypes.get_errno())}")


class Translator:
    """What rewrites the addresses of the hosts behind it.

    `open` and `ordinary` give a host's port one port outside, whomever it sends to, and `by-peer` one for each place that
    it sends to. What comes to a port is passed in by `open` from anywhere, by the others from where it was sent to.
    None of them sends back to its own hosts what they send to its outer address.
    """

    def __init__(self, kind, address, draw):
        self.kind, self.address, self.draw = kind, address, draw
        self.outer, self.inner, self.sent = {}, {}, set()

    def outward(self, source, target):
        key = (source, target) if self.kind == "by-peer" else source
        if key not in self.outer:
            port = source[1]
            while port in self.inner or self.kind == "by-peer" and port == source[1]:
                port = self.draw.randrange(1024, 65536)
            self.outer[key], self.inner[port] = port, source
        self.sent.add((self.outer[key], target))
        return self.address, self.outer[key]

    def inward(self, source, port):
        """The host to which something from there goes that comes to this port, if any."""
        return self.inner.get(port) if self.kind == "open" or (port, source) in self.sent else None


class Host:
    def __init__(self, network, name, address, translator):
        self.name, self.address, self.translator = name, address, translator
        run("ip", "netns", "add", name)
        network.hosts.append(self)
        try:
            here = os.open("/proc/self/ns/net", os.O_RDONLY)
            there = os.open(f"/run/netns/{name}", os.O_RDONLY)
            enter(there)
            try:
                self.tun = os.open("/dev/net/tun", os.O_RDWR | os.O_CLOEXEC)
                fcntl.ioctl(self.tun, TUNSETIFF, struct.pack("16sH22x", b"t0", TUN_WITHOUT_HEADER))
            finally:
                enter(here)
                os.close(here)
                os.close(there)
        except OSError as fault:
            raise Refused(str(fault)) from fault
        run("ip", "-n", name, "address", "add", address, "dev", "t0")
        run("ip", "-n", name, "link", "set", "t0", "up")
        run("ip", "-n", name, "link", "set", "lo", "up")
        run("ip", "-n", name, "route", "add", "default", "dev", "t0")

    def words(self, *words):
        """The words that run a program on this host."""
        return ["ip", "netns", "exec", self.name, *words]


class Network:
    """A network in which a datagram takes `delay` seconds and up to `jitter` more, `late` of them 50 ms more. `lost` of them
    don't arrive, and `again` arrive twice; all are shares of 1. Its hosts are made before it starts."""

    def __init__(self, delay=0.05, jitter=0.0, lost=0.0, late=0.0, again=0.0):
        self.delay, self.jitter, self.lost, self.late, self.again = delay, jitter, lost, late, again
        self.draw = random.Random(1)
        self.hosts, self.translators, self.due, self.count = [], {}, [], 0
        self.stops = threading.Event()
        self.thread = threading.Thread(target=self.pass_on)

    def translator(self, kind, address):
        self.translators[address] = Translator(kind, address, self.draw)
        return self.translators[address]

    def host(self, address, translator=None):
        return Host(self, f"rtmfp-{os.getpid()}-{len(self.hosts)}", address, translator)

    def __enter__(self):
        return self

    def start(self):
        self.thread.start()

    def __exit__(self, *_):
        self.stops.set()
        if self.thread.is_alive():
            self.thread.join()
        for host in self.hosts:
            subprocess.run(["ip", "netns", "del", host.name], capture_output=True)

    def pass_on(self):
        by_fd = {host.tun: host for host in self.hosts}
        public = {host.address: host for host in self.hosts if not host.translator}
        inside = {(host.translator.address, host.address): host for host in self.hosts if host.translator}
        poll = select.poll()
        for fd in by_fd:
            poll.register(fd, select.POLLIN)
        while not self.stops.is_set():
            wait = max(0, self.due[0][0] - time.monotonic()) if self.due else 0.05
            for fd, _ in poll.poll(min(wait, 0.05) * 1000):
                self.take(by_fd[fd], os.read(fd, 4096), public, inside)
            while self.due and self.due[0][0] <= time.monotonic():
                _, _, host, packet = heapq.heappop(self.due)
                try:
                    os.write(host.tun, packet)
                except OSError:
                    pass

    def take(self, host, packet, public, inside):
        """Takes a packet that a host sent: it is lost, or due at another."""
        if packet[:1] != b"\x45" or packet[9] != 17:
            return
        source, target = place(packet, 12, 20), place(packet, 16, 22)
        if host.translator:
            if target[0] == host.translator.address:
                return
            source = host.translator.outward(source, target)
        outer = target[0]
        if outer in self.translators:
            target = self.translators[outer].inward(source, target[1])
        other = public.get(outer) or target and inside.get((outer, target[0]))
        if other:
            self.send(other, rewritten(packet, source, target))

    def send(self, host, packet):
        if self.draw.random() < self.lost:
            return
        for _ in range(2 if self.draw.random() < self.again else 1):
            delay = self.delay + self.draw.random() * self.jitter + (0.05 if self.draw.random() < self.late else 0)
            self.count += 1
            heapq.heappush(self.due, (time.monotonic() + delay, self.count, host, packet))


def place(packet, at, port_at):
    """The address and the port that stand there."""
    return ".".join(str(byte) for byte in packet[at : at + 4]), int.from_bytes(packet[port_at : port_at + 2], "big")


def rewritten(packet, source, target):
    """The packet from here to there, with a sum of its head, and none of the rest."""
    raw = bytearray(packet)
    for (address, port), at, port_at in ((source, 12, 20), (target, 16, 22)):
        raw[at : at + 4] = bytes(int(part) for part in address.split("."))
        raw[port_at : port_at + 2] = port.to_bytes(2, "big")
    raw[26:28] = raw[10:12] = b"\0\0"
    total = sum(struct.unpack(">10H", raw[:20]))
    total = (total & 0xFFFF) + (total >> 16)
    total = (total & 0xFFFF) + (total >> 16)
    raw[10:12] = (total ^ 0xFFFF).to_bytes(2, "big")
    return bytes(raw)
