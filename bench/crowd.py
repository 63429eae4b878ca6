#!/usr/bin/env python3
"""Many connections to a server that is running: crowd.py SOCKET PID [CONNECTIONS]

Prints what the server's memory grew by for each silent connection, and how long a line of one of them waited for its
answer, at the middle and at the slowest, while all others said nothing."""

import random
import socket
import sys
import time


def resident(pid):
    with open(f"/proc/{pid}/status", encoding="ascii") as status:
        for line in status:
            if line.startswith("VmRSS:"):
                return int(line.split()[1])
    return 0


def connected(path):
    stream = socket.socket(socket.AF_UNIX)
    stream.connect(path)
    return stream


def main():
    path, pid = sys.argv[1], sys.argv[2]
    count = int(sys.argv[3]) if len(sys.argv) > 3 else 1000
    before = resident(pid)
    peers = [connected(path) for _ in range(count)]
    time.sleep(1)
    each = (resident(pid) - before) * 1024 / count
    random.Random(7).shuffle(peers)
    waits = []
    for peer in peers:
        start = time.perf_counter()
        peer.sendall(b"PUB s hello\n")
        if peer.recv(64) != b"OK\n":
            sys.exit("an answer is wrong")
        waits.append(time.perf_counter() - start)
    waits.sort()
    middle, slowest = waits[count // 2] * 1e6, waits[-1] * 1e6
    print(f"{count} connections: {each:.0f} bytes each, {middle:.0f} us an answer, the slowest {slowest:.0f} us")


main()
