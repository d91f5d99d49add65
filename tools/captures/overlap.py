#!/usr/bin/env python3
"""Writes a capture with overlapping segments: overlap.py > FILE.

Three connections to one server, each with one request in three segments, of which the middle one waits for the first:
  repeated   the middle one comes twice, the same each time: an ordinary retransmission
  other      it comes twice, with other bytes the second time: which of them the server reads is open
  late       the other bytes come when the server has read the request
"""
import pathlib
import sys

sys.dont_write_bytecode = True
sys.path.insert(0, str(pathlib.Path(__file__).resolve().parent.parent))

from common import ACK, PUSH, SERVER, SYN, SYN_ACK, Out, client_of, numbers_of, words_of

HEAD, MILD, WILD, TAIL = b"GET /files/", b"readme", b"passwd", b" HTTP/1.0\r\n\r\n"
MIDDLE, END = len(HEAD), len(HEAD) + len(MILD)
# The segments of each connection in their order, each with its place in the client's stream.
REPEATED = ((MIDDLE, MILD), (MIDDLE, MILD), (0, HEAD), (END, TAIL))
OTHER = ((MIDDLE, MILD), (MIDDLE, WILD), (0, HEAD), (END, TAIL))
LATE = ((MIDDLE, MILD), (0, HEAD), (END, TAIL), (MIDDLE, WILD))


def connection(out, c, segments):
    client, (i, j) = client_of(c), numbers_of(c)
    out.packet(client, SERVER, SYN, i, 0)
    out.packet(SERVER, client, SYN_ACK, j, i + 1)
    out.packet(client, SERVER, ACK, i + 1, j + 1)
    for place, payload in segments:
        out.packet(client, SERVER, PUSH, i + 1 + place, j + 1, payload)


def main():
    words_of(__doc__)
    out = Out(sys.stdout.buffer)
    for c, segments in enumerate((REPEATED, OTHER, LATE)):
        connection(out, c, segments)


if __name__ == "__main__":
    main()
