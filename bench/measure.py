#!/usr/bin/env python3
"""How many packets a second natgw takes on this machine, for eight loads.

    bench/measure.py                            all loads, files in memory
    bench/measure.py --loads churn,full         some of them
    bench/measure.py --directory /var/tmp       files on the disk behind this directory, with its syncs
    bench/measure.py --write STREAMS            keeps the streams as files, and measures nothing

Each load is a stream of request frames (docs/frames.md) that stands in a file before natgw starts. `natgw replay` reads
it, in a directory of its own, and writes its answers to nowhere; the figure is the packets over the best wall time of
several runs, with start and end counted in. Before that one run's answers are read: a load whose packets don't all pass,
or of flood aren't dropped from the 65,537th on, is a fault of the load, and is not measured.

    flows   1,000 living flows of UDP, both ways, 128 bytes
    churn   new flows alone, 100 a second, 30,000 of which live
    rules   4,095 rules are looked at before a packet passes
    sets    a packet passes two sets of 8,000 elements each, and is in neither
    big     as flows, with 1,400 bytes
    full    65,000 sessions, any of them at random
    flood   65,536 sessions, which are all that there may be, and then new flows alone, all of them dropped
    tcp     connections: three packets begin one, six carry data, four end it
"""
import argparse
import os
import random
import struct
import subprocess
import sys
import tempfile
import time

HERE = os.path.dirname(os.path.abspath(__file__))
NATGW = os.path.join(os.path.dirname(HERE), "crates", "natgw", "out", "natgw")
SIDES = ["--inside", "192.168.0.0/16", "--external", "203.0.113.1"]

REQUEST = struct.Struct(">BBIQ")        # kind, interface, length of the body, moment in seconds
ANSWER = struct.Struct(">BQI")          # kind, number of the event, length of the body
PACKET, LOAD = 1, 2
FORWARD, DROPPED, LOADED = 1, 2, 3
LAN, WAN = 0, 1

ADDRESSES = struct.Struct(">HHHHBBHII")
UDP, TCP = 17, 6
FIN, SYN, ACK = 1, 2, 16

INSIDE, EXTERNAL, REMOTE = 0xC0A80000, 0xCB007101, 0xC6336400
START = 1000
MOST_SESSIONS, TABLE_FULL = 65_536, 20
MASQUERADE = 'table ip nat { chain post { type nat hook postrouting priority srcnat; oifname "wan" masquerade; }; }\n'


def total_of(data):
    """The sum of the 16-bit words, the last one filled up with 0."""
    data += b"\0" * (len(data) % 2)
    return sum(struct.unpack(f">{len(data) // 2}H", data))


def complement(total):
    """The checksum to a sum of 16-bit words."""
    while total > 0xFFFF:
        total = (total & 0xFFFF) + (total >> 16)
    return total ^ 0xFFFF


def packet(proto, source, destination, body):
    """A packet of IPv4. In its body, a header of UDP or TCP and a payload, the checksum is 0 yet."""
    pseudo = struct.pack(">IIHH", source[0], destination[0], proto, len(body))
    at = 6 if proto == UDP else 16
    checksum = complement(total_of(pseudo) + total_of(body)) or 0xFFFF
    body = body[:at] + struct.pack(">H", checksum) + body[at + 2:]
    fields = [0x4500, 20 + len(body), 0, 0, 64, proto, 0, source[0], destination[0]]
    fields[6] = complement(total_of(ADDRESSES.pack(*fields)))
    return ADDRESSES.pack(*fields) + body


def datagram(source, destination, length):
    """A packet of UDP of so many bytes."""
    payload = bytes(range(256)) * 6
    head = struct.pack(">HHHH", source[1], destination[1], length - 20, 0)
    return packet(UDP, source, destination, head + payload[:length - 28])


def segment(source, destination, flags, length=40):
    """A packet of TCP of so many bytes, with these control bits."""
    head = struct.pack(">HHIIHHHH", source[1], destination[1], 1, 1, 5 << 12 | flags, 0xFFFF, 0, 0)
    return packet(TCP, source, destination, head + b"x" * (length - 40))


def request(side, moment, data):
    """The request of a packet."""
    return REQUEST.pack(PACKET, side, len(data), moment) + data


def load(text):
    """The request to load a ruleset."""
    text = text.encode()
    return REQUEST.pack(LOAD, 0, len(text), START) + text


def endpoints(index):
    """An inside endpoint that no other index below 60,000 has a part of, its outside endpoint, and a remote one."""
    port = 1024 + index % 60_000
    inside = (INSIDE + 256 + index % 60_000, port)
    return inside, (EXTERNAL, port), (REMOTE + 7 + index // 60_000, 53)


def flows(count, length=128):
    """The packets of 1,000 sessions, each first from inside, and then each side in turn."""
    pairs = []
    for inside, outside, remote in map(endpoints, range(1000)):
        pairs.append((request(LAN, START, datagram(inside, remote, length)),
                      request(WAN, START, datagram(remote, outside, length))))
    yield load(MASQUERADE)
    for index in range(count):
        yield pairs[index // 2 % 1000][index % 2]


def big(count):
    return flows(count, 1400)


def churn(count):
    """Packets of which each begins a session; a session is over after 300 seconds."""
    yield load(MASQUERADE)
    for index in range(count):
        inside, _, remote = endpoints(index % 60_000)
        yield request(LAN, START + index // 100, datagram(inside, remote, 60))


def rules(count):
    """Packets of 100 sessions behind 4,095 rules that have none of them."""
    lines = "".join(f"ip daddr 10.{number >> 8}.{number & 255}.1 udp dport 53 drop\n" for number in range(4095))
    chain = "table ip f { chain fwd { type filter hook forward priority filter; policy accept;\n" + lines + "}; }\n"
    packets = [request(LAN, START, datagram(inside, remote, 128))
               for inside, _, remote in map(endpoints, range(100))]
    yield load(MASQUERADE + chain)
    for index in range(count):
        yield packets[index % 100]


def sets(count):
    """Packets of 100 sessions whose endpoints are looked up in sets that have none of them."""
    def text(name, last):
        elements = ",".join(f"10.{number >> 7}.{(number & 127) << 1}.{last}" for number in range(8000))
        return f"set {name} {{ type ipv4_addr; elements = {{ {elements} }}; }}\n"

    chain = ("chain fwd { type filter hook forward priority filter; policy accept;\n"
             "ip daddr @near drop\nip saddr @far drop\n};")
    packets = [request(LAN, START, datagram(inside, remote, 128))
               for inside, _, remote in map(endpoints, range(100))]
    yield load(MASQUERADE + "table ip f {\n" + text("near", 1) + text("far", 2) + chain + " }\n")
    for index in range(count):
        yield packets[index % 100]


def full(count):
    """65,000 sessions, two of most mappings, and then packets of any of them. All of it takes one second."""
    yield load(MASQUERADE)
    packets = [request(LAN, START, datagram(inside, remote, 60))
               for inside, _, remote in map(endpoints, range(65_000))]
    yield from packets
    draw = random.Random(1)
    for _ in range(max(0, count - len(packets))):
        yield packets[draw.randrange(65_000)]


def flood(count):
    """As many sessions as there may be, and then new flows, of hosts that have none yet. All of it takes one second."""
    yield load(MASQUERADE)
    for inside, _, remote in map(endpoints, range(MOST_SESSIONS)):
        yield request(LAN, START, datagram(inside, remote, 60))
    for index in range(max(0, count - MOST_SESSIONS)):
        inside = (INSIDE + 256 + 60_000 + index % 5000, 1024 + index * 7919 % 60_000)
        yield request(LAN, START, datagram(inside, (REMOTE + 7, 53), 60))


def tcp(count):
    """Connections one after the other, 100 in each second; a closed one is over after 240 seconds."""
    yield load(MASQUERADE)
    for index in range(-(-count // 13)):
        inside, outside, remote = endpoints(index % 60_000)
        moment = START + index // 100

        def out(flags, length=40):
            return request(LAN, moment, segment(inside, remote, flags, length))

        def back(flags, length=40):
            return request(WAN, moment, segment(remote, outside, flags, length))

        yield b"".join([out(SYN), back(SYN | ACK), out(ACK)])
        yield b"".join([out(ACK, 200), back(ACK, 1000)] * 3)
        yield b"".join([out(FIN | ACK), back(ACK), back(FIN | ACK), out(ACK)])


LOADS = {"flows": (flows, 1_000_000), "churn": (churn, 300_000), "rules": (rules, 100_000), "sets": (sets, 300_000),
         "big": (big, 300_000), "full": (full, 500_000), "flood": (flood, 500_000), "tcp": (tcp, 500_000)}
PASSING = {"flood": MOST_SESSIONS}      # how many packets pass, where they aren't all


def write_stream(path, make, count):
    """Writes the stream of a load."""
    with open(path, "wb") as file:
        file.writelines(make(count))


def play(natgw, stream, base, answers):
    """Has natgw answer the stream over fresh files; the seconds that it took."""
    with tempfile.TemporaryDirectory(dir=base) as folder, open(stream, "rb") as requests:
        start = time.perf_counter()
        subprocess.run([natgw, "replay", "--dir", folder, "--at", str(START), *SIDES], stdin=requests, stdout=answers, check=True)
        return time.perf_counter() - start


def answered(path, passing):
    """How many packets were answered; gives up unless the first so many passed, and all others met a full table."""
    with open(path, "rb") as file:
        data = file.read()
    at = count = 0
    while at < len(data):
        kind, number, length = ANSWER.unpack_from(data, at)
        wanted = LOADED if number == 1 else FORWARD if number <= passing + 1 else DROPPED
        if kind != wanted or kind == DROPPED and data[at + ANSWER.size] != TABLE_FULL:
            raise SystemExit(f"event {number} is answered by the kind {kind}: the load isn't what it says")
        at += ANSWER.size + length
        count += 1
    return count - 1


def measure(given, name, folder):
    """Measures a load, and prints its line."""
    make, count = LOADS[name]
    stream = os.path.join(folder, f"{name}.frames")
    answers = os.path.join(folder, "answers")
    write_stream(stream, make, max(1000, int(count * given.scale)))
    with open(answers, "wb") as file:
        play(given.natgw, stream, given.directory, file)
    packets = answered(answers, PASSING.get(name, sys.maxsize))
    os.remove(answers)
    best = min(play(given.natgw, stream, given.directory, subprocess.DEVNULL) for _ in range(given.runs))
    os.remove(stream)
    print(f"{name:6} {packets:9,} packets {packets / best:12,.0f} a second {best / packets * 1e9:10,.0f} ns each", flush=True)


def main():
    words = argparse.ArgumentParser(description="Packets a second of natgw, for eight loads.")
    words.add_argument("--natgw", default=NATGW, help="the program (default: the one that ./natgw builds)")
    words.add_argument("--loads", default=",".join(LOADS), help="names of loads, with commas between them")
    words.add_argument("--scale", type=float, default=1.0, help="the length of the streams (default: 1)")
    words.add_argument("--runs", type=int, default=5, help="how many runs the best is taken of (default: 5)")
    words.add_argument("--directory", default="/dev/shm", help="where natgw's files lie (default: /dev/shm, in memory)")
    words.add_argument("--write", metavar="STREAMS", help="a folder for the streams; nothing is measured then")
    given = words.parse_args()
    names = given.loads.split(",")
    for name in names:
        if name not in LOADS:
            words.error(f"there is no load {name}")
    if given.write:
        os.makedirs(given.write, exist_ok=True)
        for name in names:
            make, count = LOADS[name]
            write_stream(os.path.join(given.write, f"{name}.frames"), make, max(1000, int(count * given.scale)))
        return
    if not os.access(given.natgw, os.X_OK):
        words.error(f"there is no program {given.natgw}: './natgw --version' builds it")
    print("load of the machine in the last minute:", os.getloadavg()[0], flush=True)
    with tempfile.TemporaryDirectory() as folder:
        for name in names:
            measure(given, name, folder)


if __name__ == "__main__":
    sys.exit(main())
