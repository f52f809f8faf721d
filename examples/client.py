#!/usr/bin/env python3
"""A client of `natgw serve`, for reading: the frames of docs/frames.md with Python's standard library alone.

    mkdir state
    ./natgw serve --dir state --socket natgw.sock --connections 1 --at "$(date +%s)" \\
        --inside 192.168.0.0/16 --external 203.0.113.1 &
    python3 examples/client.py natgw.sock examples/rules/home-router.nft

It loads the ruleset, sends a packet of UDP from an inside host to a remote one, the remote host's answer to
it, and a packet of TCP that belongs to no connection, and prints what the gateway answers to each.
"""
import argparse
import socket
import struct
import time

# Requests: what stands in the first byte of a frame.
PACKET, LOAD, MOMENT = 1, 2, 3
# The interface of a packet; in the frames of a load and of a moment this byte is 0.
LAN, WAN = 0, 1
# Answers: what stands in the first byte of a frame.
FORWARD, DROPPED, LOADED, REFUSED, TICKED = 1, 2, 3, 4, 5

# kind (1), interface (1), length of the body (4), moment in seconds (8): 14 bytes, highest byte first
REQUEST = struct.Struct(">BBIQ")
# kind (1), number of the event (8), length of the body (4): 13 bytes, highest byte first
ANSWER = struct.Struct(">BQI")

INTERFACES = {LAN: "lan", WAN: "wan"}

CAUSES = {
    1: "Short", 2: "Version", 3: "HeaderLength", 4: "Length", 5: "HeaderSum", 6: "Fragment", 7: "Protocol",
    8: "Transport", 9: "PortZero", 10: "Ttl", 11: "Spoofed", 12: "NoRoute", 13: "NoMapping", 14: "Filtered",
    15: "NoSession", 16: "Rule", 17: "Clash", 18: "SelfMapped", 19: "NoPort", 20: "TableFull",
}


def request(kind, interface, moment, body=b""):
    """The bytes of one request."""
    return REQUEST.pack(kind, interface, len(body), moment) + body


def read_exactly(stream, count):
    """That many bytes; natgw closes the connection where it gives up, and then there are fewer."""
    found = stream.read(count)
    if len(found) < count:
        raise SystemExit("natgw closed the connection; its standard error says why")
    return found


def read_answer(stream):
    """The next answer: its kind, the number of its event, and its body."""
    kind, number, length = ANSWER.unpack(read_exactly(stream, ANSWER.size))
    return kind, number, read_exactly(stream, length)


def checksum(data):
    """The checksum of RFC 791 and RFC 768 over some bytes: the complement of the ones' complement sum."""
    if len(data) % 2:
        data += b"\0"
    total = sum(struct.unpack(f">{len(data) // 2}H", data))
    while total > 0xFFFF:
        total = (total & 0xFFFF) + (total >> 16)
    return total ^ 0xFFFF


def ipv4(protocol, source, destination, transport):
    """An IPv4 packet without options, with a TTL of 64."""
    addresses = socket.inet_aton(source) + socket.inet_aton(destination)
    front = struct.pack(">BBHHHBB", 0x45, 0, 20 + len(transport), 0, 0, 64, protocol)
    header_sum = checksum(front + b"\0\0" + addresses)
    return front + struct.pack(">H", header_sum) + addresses + transport


def pseudo(protocol, source, destination, length):
    """What a transport checksum covers beside the transport part itself."""
    return socket.inet_aton(source) + socket.inet_aton(destination) + struct.pack(">BBH", 0, protocol, length)


def udp(source, source_port, destination, destination_port, payload):
    """A packet of UDP."""
    length = 8 + len(payload)
    ports = struct.pack(">HHH", source_port, destination_port, length)
    covered = pseudo(17, source, destination, length) + ports + b"\0\0" + payload
    field = checksum(covered) or 0xFFFF
    return ipv4(17, source, destination, ports + struct.pack(">H", field) + payload)


def tcp_ack(source, source_port, destination, destination_port):
    """A packet of TCP with the flag ACK alone."""
    segment = struct.pack(">HHIIBBHHH", source_port, destination_port, 1, 1, 0x50, 0x10, 65535, 0, 0)
    field = checksum(pseudo(6, source, destination, len(segment)) + segment)
    return ipv4(6, source, destination, segment[:16] + struct.pack(">H", field) + segment[18:])


def endpoints(packet):
    """Source and destination of a packet of UDP or TCP, in words."""
    header = (packet[0] & 15) * 4
    source_port, destination_port = struct.unpack_from(">HH", packet, header)
    source, destination = socket.inet_ntoa(packet[12:16]), socket.inet_ntoa(packet[16:20])
    return f"{source}:{source_port} to {destination}:{destination_port}"


def told(kind, body):
    """An answer in words."""
    if kind == FORWARD:
        return f"leaves on {INTERFACES[body[0]]}, from {endpoints(body[1:])}"
    if kind == DROPPED:
        return f"dropped: {body[0]} {CAUSES[body[0]]}"
    return {LOADED: "loaded", REFUSED: "refused, the old rules stay; natgw check says why", TICKED: "ticked"}[kind]


class Gateway:
    """A connection to `natgw serve`. Each request is answered before the next one is sent."""

    def __init__(self, path):
        self.socket = socket.socket(socket.AF_UNIX, socket.SOCK_STREAM)
        self.socket.connect(path)
        self.answers = self.socket.makefile("rb")

    def ask(self, what, kind, interface, body=b""):
        """Sends one event of now, prints its answer and gives its kind and body."""
        self.socket.sendall(request(kind, interface, int(time.time()), body))
        kind, number, body = read_answer(self.answers)
        print(f"event {number}, {what}: {told(kind, body)}")
        return kind, body

    def close(self):
        """Says that no request follows. natgw then closes the connection as well, and serves the next one."""
        self.socket.shutdown(socket.SHUT_WR)
        self.answers.read()
        self.socket.close()


def main():
    words = argparse.ArgumentParser(description="A client of natgw serve, for reading.")
    words.add_argument("socket", help="the path that natgw serve was given")
    words.add_argument("ruleset", help="a ruleset's text, as examples/rules/home-router.nft")
    words.add_argument("--host", default="192.168.1.2", help="an address inside (%(default)s)")
    words.add_argument("--remote", default="198.51.100.7", help="an address outside (%(default)s)")
    given = words.parse_args()
    with open(given.ruleset, "rb") as file:
        text = file.read()

    gateway = Gateway(given.socket)
    gateway.ask("a ruleset", LOAD, 0, text)
    question = udp(given.host, 5000, given.remote, 53, b"question")
    kind, body = gateway.ask("a packet from lan", PACKET, LAN, question)
    if kind == FORWARD:
        # The remote host answers to where the packet came from as it sees it: to the outside endpoint.
        seen = body[1:]
        address, port = socket.inet_ntoa(seen[12:16]), struct.unpack_from(">H", seen, 20)[0]
        gateway.ask("its answer from wan", PACKET, WAN, udp(given.remote, 53, address, port, b"answer"))
    gateway.ask("TCP of no connection", PACKET, LAN, tcp_ack(given.host, 5000, given.remote, 80))
    gateway.ask("a moment", MOMENT, 0)
    gateway.close()


if __name__ == "__main__":
    main()
