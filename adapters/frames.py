"""Requests and answers of natgw as frames (docs/frames.md), for the adapters beside this file."""
import struct

PACKET, LOAD, MOMENT = 1, 2, 3
LAN, WAN = 0, 1
FORWARD, DROPPED, LOADED, REFUSED, TICKED = 1, 2, 3, 4, 5

# All numbers are big-endian.
REQUEST = struct.Struct(">BBIQ")  # kind, interface, length of the body, moment in seconds
ANSWER = struct.Struct(">BQI")  # kind, number of the event, length of the body

LONGEST_PACKET, LONGEST_TEXT = 65_535, 262_144

SIDES = ("lan", "wan")

CAUSES = {
    1: "Short", 2: "Version", 3: "HeaderLength", 4: "Length", 5: "HeaderSum", 6: "Fragment", 7: "Protocol",
    8: "Transport", 9: "PortZero", 10: "Ttl", 11: "Spoofed", 12: "NoRoute", 13: "NoMapping", 14: "Filtered",
    15: "NoSession", 16: "Rule", 17: "Clash", 18: "SelfMapped", 19: "NoPort", 20: "TableFull",
}


def packet(side, moment, data):
    """The request of a packet that comes from lan or wan."""
    return b"".join((REQUEST.pack(PACKET, side, len(data), moment), data))


def load(moment, text):
    """The request to load a ruleset."""
    return REQUEST.pack(LOAD, 0, len(text), moment) + text


def tick(moment):
    """The request that only tells a moment."""
    return REQUEST.pack(MOMENT, 0, 0, moment)


class Answers:
    """Bytes in, answers out: what is left of a frame that isn't whole waits for the next bytes."""

    def __init__(self):
        self.rest = b""

    def feed(self, data):
        """The answers that are whole now, each as its kind, the number of its event, and its body."""
        data = self.rest + data if self.rest else data
        found, at, end = [], 0, len(data)
        while end - at >= ANSWER.size:
            kind, number, length = ANSWER.unpack_from(data, at)
            body = at + ANSWER.size
            if end - body < length:
                break
            at = body + length
            found.append((kind, number, data[body:at]))
        self.rest = data[at:]
        return found
