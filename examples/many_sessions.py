#!/usr/bin/env python3
"""Streams of many sessions, and whether a gateway still has those that it answered.

    many_sessions.py make N > requests              a ruleset that masquerades, and then N packets from lan
    many_sessions.py check N ANSWERS < sessions     compares answers with what `natgw show` prints

Packet i is of UDP, from an inside endpoint of its own, and begins session i. 200 of them come in each second, so
that from packet 60,000 on each second ends the 200 sessions which began 300 seconds before.

`check` reads how many requests were answered, and from the list of sessions how many were done: after k
packets there are exactly the sessions of those of the last 300 seconds. A gateway that keeps its word has done at
least the answered ones, and no session is missing. The last line says what was seen; the status is 0 where it is so.
"""
import argparse
import struct
import sys

RULESET = b'table ip nat { chain post { type nat hook postrouting priority srcnat; oifname "wan" masquerade; }; }'
START, EACH_SECOND, LIFE = 1000, 200, 300
REMOTE, REMOTE_PORT = 0xC6336407, 53            # 198.51.100.7
ADDRESSES, PORTS = 65536, 64512                 # 192.168.0.0/16, and the ports from 1024 on
LONGEST = 4_128_768                             # behind it the inside endpoints come again

REQUEST = struct.Struct(">BBIQ")
ANSWER = struct.Struct(">BQI")
PACKET = struct.Struct(">HHHHBBHIIHHHH")
LOADED, FORWARD = 3, 1


def inside(index):
    """The inside endpoint of a session: no two of neighbours within 64,512 have one port."""
    return 0xC0A80000 + index % ADDRESSES, 1024 + index % PORTS


def moment(index):
    """The second in which a packet comes."""
    return START + index // EACH_SECOND


def complement(total):
    """The checksum to a sum of 16-bit words."""
    while total > 0xFFFF:
        total = (total & 0xFFFF) + (total >> 16)
    return total ^ 0xFFFF


def packet(index):
    """The packet of UDP that begins a session: 20 bytes of header, 8 of UDP, no payload."""
    source, port = inside(index)
    addresses = (source >> 16) + (source & 0xFFFF) + (REMOTE >> 16) + (REMOTE & 0xFFFF)
    header_sum = complement(0x4500 + 28 + 0x4011 + addresses)
    udp_sum = complement(addresses + 17 + 8 + port + REMOTE_PORT + 8) or 0xFFFF
    return PACKET.pack(0x4500, 28, 0, 0, 64, 17, header_sum, source, REMOTE, port, REMOTE_PORT, 8, udp_sum)


def make(count, output):
    """Writes the load and the packets as request frames."""
    output.write(REQUEST.pack(2, 0, len(RULESET), START) + RULESET)
    for first in range(0, count, 4096):
        block = range(first, min(first + 4096, count))
        output.write(b"".join(REQUEST.pack(1, 0, 28, moment(i)) + packet(i) for i in block))


def answered(path):
    """How many whole answers a file has. A frame that was cut counts as none."""
    with open(path, "rb") as file:
        data = file.read()
    at = count = 0
    while at + ANSWER.size <= len(data):
        kind, number, length = ANSWER.unpack_from(data, at)
        if at + ANSWER.size + length > len(data):
            break
        count += 1
        if number != count or kind != (LOADED if count == 1 else FORWARD):
            raise SystemExit(f"answer {count} has the number {number} and the kind {kind}")
        at += ANSWER.size + length
    return count


def spelled(endpoint):
    """An endpoint as natgw show prints it."""
    address, port = endpoint
    return ".".join(str(address >> shift & 255) for shift in (24, 16, 8, 0)) + f":{port}"


def check(count, path, listing):
    """Compares; gives the line that says what was seen, and whether all is well."""
    answers = answered(path)
    index_of = {spelled(inside(i)): i for i in range(count)}
    found = set()
    for line in listing:
        found.add(index_of[line.split()[1]])
    done = max(found) + 1 if found else 0
    ought = {i for i in range(done) if moment(done - 1) - moment(i) < LIFE} if done else set()
    missing, more = len(ought - found), len(found - ought)
    lost = max(0, answers - 1 - done)
    line = (f"{answers:,} of {count + 1:,} requests were answered before the stop; opened again, natgw has the sessions "
            f"after request {done + 1:,}: {len(found):,} sessions, {missing + lost:,} missing, {more:,} too many")
    return line, missing + lost + more == 0 and answers > 0


def main():
    words = argparse.ArgumentParser(description="Streams of many sessions.")
    tasks = words.add_subparsers(dest="task", required=True)
    for name, about in (("make", "writes a stream of requests"), ("check", "compares answers with natgw show")):
        task = tasks.add_parser(name, help=about)
        task.add_argument("packets", type=int, metavar="N", help="how many packets the stream has")
        if name == "check":
            task.add_argument("answers", metavar="ANSWERS", help="the file of the answers that were given")
    given = words.parse_args()
    if not 1 <= given.packets <= LONGEST:
        words.error(f"a stream has 1 to {LONGEST:,} packets")
    if given.task == "make":
        make(given.packets, sys.stdout.buffer)
        return 0
    line, well = check(given.packets, given.answers, sys.stdin)
    print(line)
    return 0 if well else 1


if __name__ == "__main__":
    sys.exit(main())
