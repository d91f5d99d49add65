"""Reads captures for the helpers: classic pcap and pcapng of any link type, also behind gzip, xz and zstd.

`records` gives each packet as (link type, time in nanoseconds, length on the wire, captured bytes), numbered as mos numbers them.
"""
import os
import re
import shutil
import signal
import stat
import struct
import subprocess
import sys
import threading
from pathlib import Path

ETHERNET = 1
MOST_BYTES = 262_144
MOST_PACKETS = 1_048_576
MAGICS = {
    b"\xa1\xb2\xc3\xd4": (">", 1000),
    b"\xd4\xc3\xb2\xa1": ("<", 1000),
    b"\xa1\xb2\x3c\x4d": (">", 1),
    b"\x4d\x3c\xb2\xa1": ("<", 1),
}
SECTION = b"\x0a\x0d\x0d\x0a"
SECOND = 1_000_000_000
COMPRESSED = ((b"\x1f\x8b", "gzip"), (b"\xfd7zXZ\x00", "xz"), (b"\x28\xb5\x2f\xfd", "zstd"))


if signal.getsignal(signal.SIGINT) is signal.default_int_handler:
    signal.signal(signal.SIGINT, signal.SIG_DFL)  # an interrupt ends a helper without a trace of it


class Refused(Exception):
    """A capture that can't be read further, with the reason."""


class Reader:
    """Bytes of a file descriptor. `idle` is called before it waits for more."""

    def __init__(self, descriptor, idle=lambda: None):
        self.descriptor, self.idle = descriptor, idle
        self.held, self.at = b"", 0

    def fill(self, count):
        parts, have = [self.held[self.at :]], len(self.held) - self.at
        while have < count:
            self.idle()
            piece = os.read(self.descriptor, 1 << 18)
            if not piece:
                break
            parts.append(piece)
            have += len(piece)
        self.held, self.at = b"".join(parts), 0

    def peek(self, count):
        if self.at + count > len(self.held):
            self.fill(count)
        return self.held[self.at : self.at + count]

    def take(self, count):
        """The next so many bytes, or fewer at the end."""
        if self.at + count > len(self.held):
            self.fill(count)
        piece = self.held[self.at : self.at + count]
        self.at += len(piece)
        return piece


def feed(reader, pipe):
    """Hands on what a reader holds and has still to read."""
    try:
        with pipe:
            while piece := reader.take(max(len(reader.held) - reader.at, 1)):
                pipe.write(piece)
    except BrokenPipeError:
        pass


def decompressed(reader):
    """The reader of a capture, behind gzip, xz or zstd where its first bytes say so, and a call that ends it."""
    front = reader.peek(6)
    for magic, tool in COMPRESSED:
        if front.startswith(magic):
            if not shutil.which(tool):
                raise Refused(f"it is compressed by {tool}, which isn't installed")
            process = subprocess.Popen([tool, "-dc"], stdin=subprocess.PIPE, stdout=subprocess.PIPE)
            threading.Thread(target=feed, args=(reader, process.stdin), daemon=True).start()

            def end():
                if process.wait():
                    raise Refused(f"{tool} couldn't decompress it")

            return Reader(process.stdout.fileno(), reader.idle), end
    return reader, lambda: None


def records(reader):
    """Each packet of a capture, and nothing of a last one that isn't whole."""
    front = reader.peek(4)
    if front in MAGICS:
        return classic(reader)
    if front == SECTION:
        return pcapng(reader)
    raise Refused("it is empty" if not front else "it is neither a pcap nor a pcapng file")


def link_of(header):
    """The link type of a classic capture's header, or none where that is cut or another's."""
    if len(header) < 24 or header[:4] not in MAGICS:
        return None
    return struct.unpack_from(MAGICS[header[:4]][0] + "I", header, 20)[0] & 0xFFFF


def classic(reader):
    header = reader.take(24)
    if len(header) < 24:
        raise Refused("its header is cut")
    order, unit = MAGICS[header[:4]]
    link = link_of(header)
    head_of, held, at = struct.Struct(order + "IIII").unpack_from, reader.held, reader.at
    while True:
        if at + 16 > len(held):
            reader.at = at
            if len(reader.peek(16)) < 16:
                return
            held, at = reader.held, reader.at
        seconds, fraction, captured, wire = head_of(held, at)
        if captured > MOST_BYTES:
            raise Refused(f"a record has {captured} bytes")
        end = at + 16 + captured
        if end > len(held):
            reader.at = at
            if len(reader.peek(16 + captured)) < 16 + captured:
                return
            held, at = reader.held, reader.at
            end = at + 16 + captured
        yield link, seconds * SECOND + fraction * unit, wire, held[at + 16 : end]
        at = end


def places(data, reader):
    """Of each packet of a file its time, where its bytes begin, and how many they are. The file is in memory, and has a reader."""
    if data[:4] not in MAGICS:
        for place, (_, time, _, frame) in pcapng_places(reader):
            yield time, place, len(frame)
        return
    order, unit = MAGICS[data[:4]]
    head_of, at, size = struct.Struct(order + "III").unpack_from, 24, len(data)
    while at + 16 <= size:
        seconds, fraction, captured = head_of(data, at)
        at += 16
        if captured > MOST_BYTES or at + captured > size:
            return
        yield seconds * SECOND + fraction * unit, at, captured
        at += captured


def options_of(body, order):
    """Codes and values of the options of a block."""
    at = 0
    while at + 4 <= len(body):
        code, size = struct.unpack_from(order + "HH", body, at)
        if code == 0 or at + 4 + size > len(body):
            return
        yield code, body[at + 4 : at + 4 + size]
        at += 4 + size + -size % 4


def interface_of(body, order):
    """Link type, snap length, and the parts of a second of an interface's times."""
    if len(body) < 8:
        raise Refused("an interface's block is cut")
    link, snap = struct.unpack_from(order + "HxxI", body)
    parts = 10**6
    for code, value in options_of(body[8:], order):
        if code == 9 and len(value) == 1:
            parts = 2 ** (value[0] & 0x7F) if value[0] & 0x80 else 10 ** value[0]
            break
    return link, snap, parts


def pcapng(reader):
    return (packet for _, packet in pcapng_places(reader))


def pcapng_places(reader):
    """The packets of a pcapng file, each with the place of its bytes in the file."""
    order, interfaces, begin = "<", [], 0
    while len(head := reader.peek(12)) == 12:
        if head[:4] == SECTION:
            order, interfaces = ">" if head[8:12] == b"\x1a\x2b\x3c\x4d" else "<", []
        kind, total = struct.unpack_from(order + "II", head)
        if total < 12 or total % 4 or total > 1 << 24:
            raise Refused(f"a block has a length of {total}")
        block = reader.take(total)
        if len(block) < total and kind not in (2, 3, 6):
            return
        body = block[8 : total - 4]
        if kind == 1:
            interfaces.append(interface_of(body, order))
        elif kind in (2, 3, 6) and (packet := packet_of(kind, body, order, interfaces)):
            yield begin + (28 if kind == 6 else 12), packet
        begin += total


def packet_of(kind, body, order, interfaces):
    """The packet of a block, or none where it isn't whole or of the obsolete kind, which mos passes over too."""
    if kind == 2 or len(body) < (20 if kind == 6 else 4):
        return None
    number, high, low, captured, wire = struct.unpack_from(order + "IIIII", body) if kind == 6 else (0, 0, 0, 0, 0)
    if number >= len(interfaces):
        raise Refused("a packet is of an interface that isn't there")
    link, snap, parts = interfaces[number]
    at = 20
    if kind == 3:
        wire, at = struct.unpack_from(order + "I", body)[0], 4
        captured = min(wire, snap or wire)
    if captured > MOST_BYTES:
        raise Refused(f"a record has {captured} bytes")
    frame = body[at : at + captured]
    if len(frame) < captured:
        return None
    seconds, rest = divmod((high << 32 | low) * SECOND // parts, SECOND)
    return link, (seconds & 0xFFFFFFFF) * SECOND + rest, wire, frame


WORDS_OF_IP4 = struct.Struct(">BxHxxHxBxx4s4s").unpack_from
WORDS_OF_TCP = struct.Struct(">HHxxxxxxxxBB").unpack_from


def segment_of(frame):
    """(source, destination, flags, payload's length) of a whole TCP segment on Ethernet, or none. An endpoint is the bytes of its
    address and its port. What has none is an orphan to mos."""
    try:
        at = 16 if frame[12:14] == b"\x81\x00" else 12
        kind = frame[at : at + 2]
        if kind == b"\x08\x00":
            first, total, fragment, protocol, source, destination = WORDS_OF_IP4(frame, at + 2)
            tcp, end = at + 2 + (first & 15) * 4, at + 2 + total
            if protocol != 6 or first < 0x45 or first > 0x4F or fragment & 0x3FFF:
                return None
        elif kind == b"\x86\xdd":
            source, destination = frame[at + 10 : at + 26], frame[at + 26 : at + 42]
            tcp, end = behind_extensions(frame, at + 2)
        else:
            return None
        _, _, offset, flags = WORDS_OF_TCP(frame, tcp)
    except (struct.error, IndexError, TypeError):
        return None
    payload = end - tcp - (offset >> 4) * 4
    if end > len(frame) or payload < 0 or offset < 0x50:
        return None
    return source + frame[tcp : tcp + 2], destination + frame[tcp + 2 : tcp + 4], flags, payload


def behind_extensions(frame, at):
    """Where the TCP header of an IPv6 packet begins, and where the packet ends."""
    end = at + 40 + int.from_bytes(frame[at + 4 : at + 6], "big")
    kind, place = frame[at + 6], at + 40
    for _ in range(9):
        if kind == 6:
            return place, end
        if kind not in (0, 43, 44, 51, 60) or (kind == 44 and frame[place + 2] << 8 | frame[place + 3]) & 0xFFF9:
            break
        size = 8 if kind == 44 else 4 * frame[place + 1] + 8 if kind == 51 else 8 * frame[place + 1] + 8
        kind, place = frame[place], place + size
    raise TypeError("no TCP")


def header_of(nanoseconds):
    """The header of a classic capture of Ethernet frames."""
    magic = 0xA1B23C4D if nanoseconds else 0xA1B2C3D4
    return struct.pack("<IHHIIII", magic, 2, 4, 0, 0, MOST_BYTES, ETHERNET)


def record_of(time, wire, frame, unit):
    seconds, rest = divmod(time, SECOND)
    return struct.pack("<IIII", seconds & 0xFFFFFFFF, rest // unit, len(frame), wire) + frame


def mos_beside(here):
    """The program: what MOS names, or mos beside the folder of the helpers, or the one on the path."""
    beside = Path(here).resolve().parent.parent / "mos"
    return os.environ.get("MOS") or (str(beside) if beside.is_file() else shutil.which("mos"))


def let_the_writer_end():
    """An interrupt is for the tool that writes into the pipe: what it has written is still to be read."""
    if stat.S_ISFIFO(os.fstat(0).st_mode):
        signal.signal(signal.SIGINT, signal.SIG_IGN)


def named(text):
    """Text that names helpers, as they are called where they are installed."""
    if Path(sys.argv[0]).name.startswith("mos-"):
        text = re.sub(r"\bhelpers/(\w+)", r"mos-\1", text).replace("./mos", "mos")
    return text


def usage(page):
    print(named(page).strip())
    sys.exit(0)
