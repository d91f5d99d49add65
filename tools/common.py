"""What the tools share: the program, measured runs of it, and captures that are written packet by packet.

The captures are classic pcap, big-endian, microseconds, Ethernet, IPv4 and TCP without options. The same packets can go over IPv6,
or stand in a pcapng file: a section of one interface, and an enhanced packet block for each packet.
"""
import functools
import os
import pathlib
import struct
import subprocess
import sys
import time

TOP = pathlib.Path(__file__).resolve().parent.parent
BUILT = TOP / "crates" / "mos_cli" / "out" / "mos_cli"
RUNS = 3
PACKETS = 1_000_000

HEADER = struct.pack(">IHHIIII", 0xA1B2C3D4, 2, 4, 0, 0, 65535, 1)
TO_SERVER = bytes.fromhex("020000000002" "020000000001")
TO_CLIENT = bytes.fromhex("020000000001" "020000000002")
SERVER = (0xC0000201, 80)
SYN, SYN_ACK, ACK, PUSH, FIN = 0x02, 0x12, 0x10, 0x18, 0x11
WORD = 0xFFFFFFFF
GROUP = 16


# ---- the program


def words_of(page):
    """The words after the tool's name. `--help` among them prints the tool's page and ends it."""
    if "--help" in sys.argv[1:]:
        print(page.strip())
        sys.exit(0)
    return sys.argv[1:]


def program_of(words):
    """The program that the first word names, or the built one where there is none."""
    program = pathlib.Path(words[0]).resolve() if words else BUILT
    if not program.is_file():
        sys.exit(f"no program at {program}: ./build makes it")
    return program


def count_of(words, place, default):
    """The number at this place of the words, or the default."""
    return int(words[place]) if len(words) > place else default


def measure(words, capture, out):
    """One run: seconds by the clock, seconds of the processor, peak memory in MB, and the exit status."""
    words = [str(capture) if word == "FILE" else str(word) for word in words]
    with open(capture, "rb") as source, open(out, "wb") as sink:
        start = time.perf_counter()
        child = subprocess.Popen(words, stdin=source, stdout=sink, stderr=subprocess.DEVNULL)
        _, status, used = os.wait4(child.pid, 0)
        clock = time.perf_counter() - start
    return clock, used.ru_utime + used.ru_stime, used.ru_maxrss / 1024, os.waitstatus_to_exitcode(status)


def best(words, capture, out):
    """The least of each number over a few runs."""
    runs = [measure(words, capture, out) for _ in range(RUNS)]
    return tuple(min(column) for column in zip(*runs))


def make(folder, kind, packets, *form):
    """The name of a capture in the folder that captures.py writes. It is made where it isn't there.

    Another process writes it: what this one holds would count as memory of the programs that it starts.
    """
    name = folder / "-".join([kind, str(packets), *form])
    if not name.exists():
        with open(name, "wb") as file:
            writer = TOP / "tools" / "captures" / "captures.py"
            subprocess.run([sys.executable, writer, kind, str(packets), *form], stdout=file, check=True)
    return name


# ---- captures


class Classic:
    """Records of a classic capture."""

    front = HEADER

    @staticmethod
    def record(seconds, micros, frame):
        return struct.pack(">IIII", seconds, micros, len(frame), len(frame)) + frame


def block(kind, body, order=">"):
    """A block of a pcapng file, its body padded to four bytes."""
    padded = body + bytes(-len(body) % 4)
    total = struct.pack(order + "I", len(padded) + 12)
    return struct.pack(order + "I", kind) + total + padded + total


class Pcapng:
    """Blocks of a pcapng file whose times count microseconds."""

    front = block(0x0A0D0D0A, struct.pack(">IHHq", 0x1A2B3C4D, 1, 0, -1)) + block(1, struct.pack(">HHI", 1, 0, 262144))

    @staticmethod
    def record(seconds, micros, frame):
        time = divmod(seconds * 1_000_000 + micros, 2**32)
        return block(6, struct.pack(">IIIII", 0, *time, len(frame), len(frame)) + frame)


class Out:
    """Counts the packets, whose number gives their time."""

    def __init__(self, file, ip_header=None, form=Classic):
        self.file = file
        self.ip_header = ip_header or ipv4
        self.form = form
        self.number = 0
        file.write(form.front)

    def packet(self, source, destination, flags, seq, ack, payload=b""):
        ethernet = TO_SERVER if destination == SERVER else TO_CLIENT
        kind, header = self.ip_header(source[0], destination[0], 20 + len(payload))
        time = divmod(self.number, 1000)
        segment = struct.pack(">HHIIBBHHH", source[1], destination[1], seq & WORD, ack & WORD, 0x50, flags, 0xFFFF, 0, 0)
        self.file.write(self.form.record(time[0], time[1] * 1000, ethernet + kind + header + segment + payload))
        self.number += 1


def ipv4(source, destination, size):
    """The frame's type and the header of so many bytes behind it."""
    return b"\x08\x00", struct.pack(">BBHHHBBHII", 0x45, 0, 20 + size, 0, 0x4000, 64, 6, 0, source, destination)


def ipv6(source, destination, size):
    return b"\x86\xdd", struct.pack(">IHBB12xI12xI", 0x60000000, size, 6, 64, source, destination)


def client_of(c):
    return (0x0A000001 + c, 1024 + c % 60000)


def numbers_of(c):
    """The SYN numbers of client and server."""
    return c * 2654435761 & WORD, c * 2654435761 + 2**31 & WORD


def in_groups(out, connections, steps, packet):
    for first in range(0, connections, GROUP):
        for step in range(steps):
            for c in range(first, min(first + GROUP, connections)):
                packet(out, c, step)


def flow_packet(out, c, step):
    client, (i, j) = client_of(c), numbers_of(c)
    sent = bytes(range(c % 64))
    if step == 0:
        out.packet(client, SERVER, SYN, i, 0)
    elif step == 1:
        out.packet(SERVER, client, SYN_ACK, j, i + 1)
    elif step % 2 == 0:
        out.packet(client, SERVER, PUSH, i + 1 + (step // 2 - 1) * len(sent), j + 1, sent)
    else:
        out.packet(SERVER, client, ACK, j + 1, i + 1 + (step // 2) * len(sent))


@functools.cache
def asked_of(first):
    return bytes((first + p) % 256 for p in range(64))


@functools.cache
def answered_of(first):
    """Two segments of an answer."""
    answer = bytes((first + 3 * p) % 256 for p in range(200))
    return answer[:100], answer[100:]


def page_packet(out, c, step):
    client, (i, j) = client_of(c), numbers_of(c)
    asked, (low, high) = asked_of(c % 256), answered_of(c % 256)
    match step:
        case 0:
            out.packet(client, SERVER, SYN, i, 0)
        case 1:
            out.packet(SERVER, client, SYN_ACK, j, i + 1)
        case 2:
            out.packet(client, SERVER, ACK, i + 1, j + 1)
        case 3:
            out.packet(client, SERVER, PUSH, i + 1, j + 1, asked)
        case 4:
            out.packet(SERVER, client, PUSH, j + 101, i + 65, high)
        case 5 | 6:
            out.packet(SERVER, client, PUSH, j + 1, i + 65, low)
        case 7:
            out.packet(client, SERVER, FIN, i + 65, j + 201)
        case 8:
            out.packet(SERVER, client, FIN, j + 201, i + 66)
        case _:
            out.packet(client, SERVER, ACK, i + 66, j + 202)


def long_packet(out, c, step):
    client, (i, j) = client_of(c), numbers_of(c)
    if step == 0:
        out.packet(client, SERVER, SYN, i, 0)
    elif step == 1:
        out.packet(SERVER, client, SYN_ACK, j, i + 1)
    elif step % 3 == 2:
        out.packet(client, SERVER, ACK, i + 1, j + 1 + (step - 2) // 3 * 2000)
    else:
        out.packet(SERVER, client, PUSH, j + 1 + (2 * step - 5) // 3 * 1000, i + 1, bytes(1000))


def opened(out, c):
    """A SYN, and the sender and the number of its stream's first byte."""
    client, (i, _) = client_of(c), numbers_of(c)
    out.packet(client, SERVER, SYN, i, 0)
    return client, i + 1
