"""A relay on loopback, between ends that reach each other through it: it loses datagrams, repeats them and changes their
order. It needs no rights, which the networks of scripts/networks.py do."""
import heapq
import random
import select
import socket
import threading
import time

LONGEST = 2048


class Relay:
    """For each end, told by its port, it has a socket, whose place is where the others reach that end. What an end sends to
    the socket of another goes to that one, from the socket of its own. `lost` of the datagrams don't arrive and `again` of
    them arrive twice, in shares of 1, and each takes up to `late` seconds."""

    def __init__(self, ports, lost=0.1, again=0.1, late=0.03):
        self.lost, self.again, self.late = lost, again, late
        self.draw, self.due, self.count = random.Random(1), [], 0
        self.sockets = {port: socket.socket(socket.AF_INET, socket.SOCK_DGRAM) for port in ports}
        for it in self.sockets.values():
            it.bind(("127.0.0.1", 0))
        self.places = {port: "127.0.0.1:%d" % it.getsockname()[1] for port, it in self.sockets.items()}
        self.stops = threading.Event()
        self.thread = threading.Thread(target=self.pass_on)

    def __enter__(self):
        self.thread.start()
        return self

    def __exit__(self, *_):
        self.stops.set()
        self.thread.join()
        for it in self.sockets.values():
            it.close()

    def pass_on(self):
        of_socket = {it: port for port, it in self.sockets.items()}
        while not self.stops.is_set():
            for it in select.select(list(of_socket), [], [], 0.002)[0]:
                datagram, (_, source) = it.recvfrom(LONGEST)
                self.take(source, of_socket[it], datagram)
            while self.due and self.due[0][0] <= time.monotonic():
                _, _, source, target, datagram = heapq.heappop(self.due)
                self.sockets[source].sendto(datagram, ("127.0.0.1", target))

    def take(self, source, target, datagram):
        """Takes a datagram of one end for another: it is lost, or due once or twice."""
        if source not in self.sockets or self.draw.random() < self.lost:
            return
        for _ in range(2 if self.draw.random() < self.again else 1):
            self.count += 1
            moment = time.monotonic() + self.draw.random() * self.late
            heapq.heappush(self.due, (moment, self.count, source, target, datagram))
