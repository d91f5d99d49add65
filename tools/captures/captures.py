#!/usr/bin/env python3
"""Writes captures for measuring: captures.py KIND COUNT [6] [ng] > FILE.

KIND is one of
  flows   COUNT packets in COUNT / 10 connections, none of which ends: in groups of 16 connections a SYN, a SYN+ACK and
          then 8 segments of 0 to 63 bytes from either side.
  pages   COUNT / 10 connections of 10 packets: handshake, a request of 64 bytes, an answer of 200 bytes whose segments
          come in the wrong order and once again, and both FINs. Groups of 16 connections.
  long    8 connections that share COUNT packets: after the handshakes segments of 1,000 bytes from the server, and an
          acknowledgement of every two.
All are classic pcap, big-endian, microseconds, Ethernet, IPv4 and TCP without options. With 6 the same packets go over IPv6, and
with ng they stand in a pcapng file: a section of one interface, and an enhanced packet block for each packet.
"""
import pathlib
import sys

sys.dont_write_bytecode = True
sys.path.insert(0, str(pathlib.Path(__file__).resolve().parent.parent))

from common import Classic, Out, Pcapng, flow_packet, in_groups, ipv4, ipv6, long_packet, page_packet, words_of


def main():
    words = words_of(__doc__)
    more = words[2:]
    if len(words) < 2 or words[0] not in ("flows", "pages", "long") or more not in ([], ["6"], ["ng"], ["6", "ng"]):
        sys.exit(__doc__)
    kind, count = words[0], int(words[1])
    out = Out(sys.stdout.buffer, ipv6 if "6" in more else ipv4, Pcapng if "ng" in more else Classic)
    if kind == "flows":
        in_groups(out, count // 10, 10, flow_packet)
    elif kind == "pages":
        in_groups(out, count // 10, 10, page_packet)
    else:
        in_groups(out, 8, count // 8, long_packet)


if __name__ == "__main__":
    main()
