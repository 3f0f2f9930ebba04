"""A chat over UDP: chat.py SECRET NAME PORT [PEER HOST PORT].

SECRET is a file with the 32 bytes that all who chat have. It looks for an end with the name PEER at
HOST and PORT. Lines that are typed go to all with whom there is a session, and wait until there was
one. Behind the last it goes on for a second. bindings/rust/examples/chat.rs understands it.
"""
import os
import pathlib
import select
import socket
import sys

import rtmfp

secret, name, port, *peer = sys.argv[1:]
end = rtmfp.End(rtmfp.certificate(name), pathlib.Path(secret).read_bytes())
udp = socket.socket(type=socket.SOCK_DGRAM)
udp.bind(("", int(port)))
if peer:
    end.seek(peer[0].encode(), [rtmfp.address(peer[1], int(peer[2]))])
flows, began, last = {}, False, None
while last is None or rtmfp.now() < last + 1000:
    for entry, data in end.turn(udp):
        if entry.kind in (rtmfp.OPENED, rtmfp.CONFIRMED):
            flows[entry.near], began = end.open_flow(entry.near), True
        elif entry.kind == rtmfp.HANDED:
            print(data.decode(errors="replace"), flush=True)
        elif entry.kind == rtmfp.ENDED:
            flows.pop(entry.near, None)
    if began and last is None and select.select([0], [], [], 0)[0]:
        typed = os.read(0, 65536)
        for line in typed.splitlines():
            for near, flow in flows.items():
                end.queue(near, flow, line)
        last = None if typed else rtmfp.now()
for near in flows:
    end.close(near)
end.turn(udp)
