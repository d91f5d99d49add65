#!/usr/bin/env python3
"""Writes a capture with resets that the server doesn't take: blinding.py > FILE.

Three connections to one server, each with one request in two segments and its answer. In front of the second segment
  plain      nothing comes
  far        a reset of the client comes whose time to live ends before the server
  damaged    a reset of the client comes whose TCP checksum is wrong
Checksums are right but for that one.
"""
import pathlib
import struct
import sys

sys.dont_write_bytecode = True
sys.path.insert(0, str(pathlib.Path(__file__).resolve().parent.parent))

from common import ACK, FIN, PUSH, SERVER, SYN, SYN_ACK, TO_CLIENT, TO_SERVER, WORD, Classic, client_of, numbers_of, words_of

RST = 0x04
FIRST, SECOND, ANSWER = b"GET /files/pass", b"wd HTTP/1.0\r\n\r\n", b"HTTP/1.0 200 OK\r\n\r\nroot:x:0:0\n"


def checksum(data):
    total = sum(struct.unpack(f">{len(data) // 2}H", data[: len(data) & ~1])) + (data[-1] << 8 if len(data) % 2 else 0)
    while total >> 16:
        total = (total & 0xFFFF) + (total >> 16)
    return total ^ 0xFFFF


def frame(source, destination, flags, seq, ack, payload=b"", ttl=64, damage=0):
    header = struct.pack(">BBHHHBBHII", 0x45, 0, 40 + len(payload), 0, 0x4000, ttl, 6, 0, source[0], destination[0])
    header = header[:10] + checksum(header).to_bytes(2, "big") + header[12:]
    segment = struct.pack(">HHIIBBHHH", source[1], destination[1], seq & WORD, ack & WORD, 0x50, flags, 0xFFFF, 0, 0) + payload
    right = checksum(struct.pack(">IIHH", source[0], destination[0], 6, len(segment)) + segment)
    segment = segment[:16] + (right ^ damage).to_bytes(2, "big") + segment[18:]
    return (TO_SERVER if destination == SERVER else TO_CLIENT) + b"\x08\x00" + header + segment


def connection(c, reset):
    client, (i, j) = client_of(c), numbers_of(c)
    asked, end = i + 1 + len(FIRST), i + 1 + len(FIRST + SECOND)
    answered = j + 1 + len(ANSWER)
    yield frame(client, SERVER, SYN, i, 0)
    yield frame(SERVER, client, SYN_ACK, j, i + 1, ttl=57)
    yield frame(client, SERVER, ACK, i + 1, j + 1)
    yield frame(client, SERVER, PUSH, i + 1, j + 1, FIRST)
    if reset:
        yield frame(client, SERVER, RST, asked, 0, **reset)
    yield frame(client, SERVER, PUSH, asked, j + 1, SECOND)
    yield frame(SERVER, client, PUSH, j + 1, end, ANSWER, ttl=57)
    yield frame(SERVER, client, FIN, answered, end, ttl=57)
    yield frame(client, SERVER, FIN, end, answered + 1)
    yield frame(SERVER, client, ACK, answered + 1, end + 1, ttl=57)


def main():
    words_of(__doc__)
    sys.stdout.buffer.write(Classic.front)
    number = 0
    for c, reset in enumerate((None, {"ttl": 2}, {"damage": 0x5555})):
        for it in connection(c, reset):
            sys.stdout.buffer.write(Classic.record(number // 1000, number % 1000 * 1000, it))
            number += 1


if __name__ == "__main__":
    main()
