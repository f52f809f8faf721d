#!/usr/bin/env python3
"""Captures through natgw: packets of pcap files become requests, and answers become pcap files.

    pcap.py requests --lan lan.pcap --wan wan.pcap --rules rules.nft > requests
    natgw replay --dir state --inside 192.168.0.0/16 --external 203.0.113.1 < requests > answers
    pcap.py answers --lan lan.pcap --wan wan.pcap --rules rules.nft --to-lan out-lan.pcap --to-wan out-wan.pcap < answers

--lan has what comes from lan, --wan what comes from wan; one of them may be missing. Packets of both are put in the
order of their times, whose seconds become the moments. `answers` is told the same files again, finds the packet to each
answer, writes what was forwarded with the time at which it came, and lists what was dropped with its cause.

Read are pcap files of either byte order, with micro- or nanoseconds, of Ethernet or of raw IP. Frames of Ethernet
that aren't IPv4, and packets that the capture has cut, are left out and counted on standard error.
"""
import argparse
import collections
import socket
import struct
import sys

import frames

# The magic numbers of a pcap file, and how many nanoseconds its fraction counts.
FRACTIONS = {0xA1B2C3D4: 1000, 0xA1B23C4D: 1}
PCAPNG = b"\n\r\r\n"
# The types of link that tcpdump writes for Ethernet and for packets without a header in front.
ETHERNET, RAW = 1, {12, 14, 101, 228}
WRITTEN_LINK = 101
IPV4, TAGGED = 0x0800, {0x8100, 0x88A8}
SECOND = 1_000_000_000

Seen = collections.namedtuple("Seen", "time side data")


class Bad(Exception):
    """A file that can't be read."""


def records(path):
    """The records of a pcap file: time in nanoseconds, whether it is whole, bytes; and the type of link first."""
    with open(path, "rb") as file:
        data = file.read()
    if data[:4] == PCAPNG:
        raise Bad(f"{path} is a pcapng file: 'tcpdump -r {path} -w other.pcap' makes a pcap file of it")
    order = next((o for o in "<>" if len(data) >= 24 and struct.unpack_from(o + "I", data)[0] in FRACTIONS), None)
    if order is None:
        raise Bad(f"{path} is no pcap file")
    fraction = FRACTIONS[struct.unpack_from(order + "I", data)[0]]
    yield struct.unpack_from(order + "I", data, 20)[0] & 0xFFFF
    at = 24
    while at < len(data):
        if at + 16 > len(data):
            raise Bad(f"{path} ends within a record")
        seconds, part, length, original = struct.unpack_from(order + "4I", data, at)
        at += 16
        if at + length > len(data):
            raise Bad(f"{path} ends within a record")
        yield seconds * SECOND + part * fraction, length == original, data[at : at + length]
        at += length


def without_ethernet(frame):
    """The IPv4 packet in a frame of Ethernet, without what fills up a short one; None where there is none."""
    at = 12
    while len(frame) >= at + 2 and struct.unpack_from(">H", frame, at)[0] in TAGGED:
        at += 4
    if len(frame) < at + 2 or struct.unpack_from(">H", frame, at)[0] != IPV4:
        return None
    packet = frame[at + 2 :]
    if len(packet) >= 20:
        packet = packet[: max(20, struct.unpack_from(">H", packet, 2)[0])]
    return packet


def packets(path, side, left_out):
    """The packets of a file that become requests."""
    found = records(path)
    link = next(found)
    if link != ETHERNET and link not in RAW:
        raise Bad(f"{path} has packets of link type {link}, and neither Ethernet nor raw IP")
    for time, whole, data in found:
        packet = without_ethernet(data) if link == ETHERNET else data
        if not whole:
            left_out["cut by the capture"] += 1
        elif packet is None:
            left_out["not IPv4"] += 1
        elif len(packet) > frames.LONGEST_PACKET:
            left_out["too long"] += 1
        else:
            yield Seen(time, side, packet)


def events(given):
    """All requests in order: the text to load first, where there is one, and then the packets by time."""
    left_out = collections.Counter()
    seen = []
    for side, path in ((frames.LAN, given.lan), (frames.WAN, given.wan)):
        if path is not None:
            seen += packets(path, side, left_out)
    seen.sort(key=lambda packet: packet.time)
    for name, count in sorted(left_out.items()):
        print(f"left out, {name}: {count}", file=sys.stderr)
    text = None
    if given.rules is not None:
        with open(given.rules, "rb") as file:
            text = file.read()
        if len(text) > frames.LONGEST_TEXT:
            raise Bad(f"{given.rules} has more than {frames.LONGEST_TEXT} bytes")
    return text, seen


def write_requests(given, output):
    """Captures to requests."""
    text, seen = events(given)
    if text is not None:
        output.write(frames.load(seen[0].time // SECOND if seen else 0, text))
    for packet in seen:
        output.write(frames.packet(packet.side, packet.time // SECOND, packet.data))


class Capture:
    """A pcap file of raw IP that is written, with microseconds."""

    def __init__(self, path):
        self.file = open(path, "wb") if path is not None else None
        if self.file is not None:
            self.file.write(struct.pack("<IHHiIII", 0xA1B2C3D4, 2, 4, 0, 0, 262_144, WRITTEN_LINK))

    def put(self, time, data):
        """Adds a packet."""
        if self.file is not None:
            self.file.write(struct.pack("<4I", time // SECOND, time % SECOND // 1000, len(data), len(data)) + data)

    def close(self):
        """Ends the file."""
        if self.file is not None:
            self.file.close()


def told(packet):
    """A packet in words, as far as it has any."""
    data = packet.data
    if len(data) < 20:
        return f"{len(data)} bytes"
    words = f"{socket.inet_ntoa(data[12:16])} to {socket.inet_ntoa(data[16:20])}, protocol {data[9]}"
    header = (data[0] & 15) * 4
    if data[9] in (6, 17) and len(data) >= header + 4:
        words += ", ports {} and {}".format(*struct.unpack_from(">HH", data, header))
    return words


def read_answers(given, data, output):
    """Answers to captures, and a line for each drop; says whether each request has its answer."""
    text, seen = events(given)
    asked = ([None] if text is not None else []) + seen
    captures = (Capture(given.to_lan), Capture(given.to_wan))
    counts, causes = collections.Counter(), collections.Counter()
    answered = 0
    for answered, (kind, number, body) in enumerate(frames.Answers().feed(data), 1):
        if number != answered or number > len(asked):
            raise Bad(f"answer {answered} is to event {number}: these aren't the answers to these requests")
        packet = asked[number - 1]
        if kind == frames.FORWARD:
            counts[f"forwarded to {frames.SIDES[body[0]]}"] += 1
            captures[body[0]].put(packet.time, body[1:])
        elif kind == frames.DROPPED:
            causes[body[0]] += 1
            seconds = f"{packet.time // SECOND}.{packet.time % SECOND // 1000:06}"
            print(f"dropped: {frames.CAUSES[body[0]]}, from {frames.SIDES[packet.side]} at {seconds}, {told(packet)}", file=output)
        elif kind in (frames.LOADED, frames.REFUSED):
            print("the ruleset was loaded" if kind == frames.LOADED else "the ruleset was refused", file=output)
    for capture in captures:
        capture.close()
    for name, count in sorted(counts.items()):
        print(f"{name}: {count}", file=output)
    for cause, count in sorted(causes.items()):
        print(f"dropped by {cause} {frames.CAUSES[cause]}: {count}", file=output)
    print(f"answered: {answered} of {len(asked)} requests", file=output)
    return answered == len(asked)


def main():
    words = argparse.ArgumentParser(description="Captures through natgw.")
    tasks = words.add_subparsers(dest="task", required=True)
    for name, about in (("requests", "captures to requests"), ("answers", "answers to captures")):
        task = tasks.add_parser(name, help=about)
        task.add_argument("--lan", metavar="PCAP", help="what comes from lan")
        task.add_argument("--wan", metavar="PCAP", help="what comes from wan")
        task.add_argument("--rules", metavar="FILE", help="a ruleset that is loaded first")
        if name == "answers":
            task.add_argument("--to-lan", metavar="PCAP", help="where to write what leaves on lan")
            task.add_argument("--to-wan", metavar="PCAP", help="where to write what leaves on wan")
    given = words.parse_args()
    try:
        if given.task == "requests":
            write_requests(given, sys.stdout.buffer)
            return 0
        return 0 if read_answers(given, sys.stdin.buffer.read(), sys.stdout) else 1
    except (Bad, OSError) as fault:
        print(f"pcap.py: {fault}", file=sys.stderr)
        return 2


if __name__ == "__main__":
    sys.exit(main())
