#!/usr/bin/env python3
"""A path with loss between two devices: relay.py DEVICE DEVICE SEED

Frames of either device leave at the other 10 ms later. Of the TCP segments 5 of 100 are lost, and 2 of 100 leave 6 ms
later than the others, so that some overtake them.
"""
import heapq
import random
import select
import socket
import sys
import time

DELAY, LATER = 0.010, 0.006
LOST, HELD = 0.05, 0.02
ETH_P_ALL = 3
TCP = 6


def opened(device):
    end = socket.socket(socket.AF_PACKET, socket.SOCK_RAW, socket.htons(ETH_P_ALL))
    end.bind((device, 0))
    return end


def is_tcp(frame):
    return frame[12:14] == b"\x08\x00" and frame[23] == TCP


class Path:
    """Frames under way, the one that leaves first before the others."""

    def __init__(self, one, two, seed):
        self.other = {one: two, two: one}
        self.draw = random.Random(seed)
        self.waiting = []
        self.number = 0

    def wait(self):
        """Seconds until a frame leaves, or none where no frame is under way."""
        return max(0, self.waiting[0][0] - time.monotonic()) if self.waiting else None

    def take(self, end):
        frame, (_, _, kind, *_) = end.recvfrom(65536)
        chance = self.draw.random() if is_tcp(frame) else 1
        if kind == socket.PACKET_OUTGOING or chance < LOST:
            return
        leaves = time.monotonic() + DELAY + (LATER if chance < LOST + HELD else 0)
        heapq.heappush(self.waiting, (leaves, self.number, self.other[end], frame))
        self.number += 1

    def send_due(self):
        while self.waiting and self.waiting[0][0] <= time.monotonic():
            _, _, end, frame = heapq.heappop(self.waiting)
            end.send(frame)


def main():
    if len(sys.argv) != 4:
        sys.exit(__doc__)
    ends = opened(sys.argv[1]), opened(sys.argv[2])
    path = Path(*ends, int(sys.argv[3]))
    while True:
        for end in select.select(ends, [], [], path.wait())[0]:
            path.take(end)
        path.send_due()


if __name__ == "__main__":
    main()
