"""What is counted of packets between two devices, in the form of `natgw tun`; and a log of what natgw drops."""
import collections
import os
import socket
import struct
import sys

import frames

# What a line of the log needs of a packet: the longest header, and the one of TCP without options.
FRONT = 80

PACKETS = """\
# HELP natgw_packets_total Packets that came from a device, that it let out, and that it didn't let out.
# TYPE natgw_packets_total counter
"""
BYTES = """\
# HELP natgw_bytes_total Bytes of the packets that came from a device, and that it let out.
# TYPE natgw_bytes_total counter
"""
DROPPED = """\
# HELP natgw_dropped_total Packets that were dropped, by the side that they came from and the cause.
# TYPE natgw_dropped_total counter
"""
RULESETS = """\
# HELP natgw_rulesets_total Rulesets that were loaded, and that were refused.
# TYPE natgw_rulesets_total counter
"""
UNANSWERED = """\
# HELP natgw_unanswered_total Packets that were lost since natgw ended before it answered.
# TYPE natgw_unanswered_total counter
"""


class Counts:
    """The counts of both sides, each beginning with 0."""

    def __init__(self):
        # By table, side, and way or cause.
        self.counted = collections.Counter()
        self.rulesets = {"loaded": 0, "refused": 0}
        self.unanswered = 0

    def passed(self, side, way, length):
        """A packet of this length came or left."""
        name = frames.SIDES[side]
        self.counted["packets", name, way] += 1
        self.counted["bytes", name, way] += length

    def lost(self, side):
        """A device didn't let a packet out."""
        self.counted["packets", frames.SIDES[side], "lost"] += 1

    def dropped(self, side, cause):
        """natgw dropped a packet that came from this side."""
        self.counted["dropped", frames.SIDES[side], cause] += 1

    def table(self, name, label, values):
        """The lines of a table."""
        return "".join(f'natgw_{name}_total{{side="{side}",{label}="{value}"}} {self.counted[name, side, value]}\n'
                       for side in frames.SIDES for value in values)

    def text(self):
        """The text for Prometheus' node exporter."""
        rulesets = "".join(f'natgw_rulesets_total{{outcome="{outcome}"}} {count}\n' for outcome, count in self.rulesets.items())
        return (PACKETS + self.table("packets", "way", ("came", "left", "lost"))
                + BYTES + self.table("bytes", "way", ("came", "left"))
                + DROPPED + self.table("dropped", "cause", frames.CAUSES.values())
                + RULESETS + rulesets + UNANSWERED + f"natgw_unanswered_total {self.unanswered}\n")

    def write(self, path):
        """Puts the text into a file, which takes the place of the one before in one go."""
        with open(f"{path}.part", "w", encoding="ascii") as file:
            file.write(self.text())
        os.rename(f"{path}.part", path)

    def line(self):
        """The counts in a line for people."""
        sides = []
        for side in frames.SIDES:
            came, left, lost = (self.counted["packets", side, way] for way in ("came", "left", "lost"))
            causes = "".join(f", {cause} {self.counted['dropped', side, cause]}"
                             for cause in frames.CAUSES.values() if self.counted["dropped", side, cause])
            sides.append(f"from {side} {came}, to {side} {left}, not let out there {lost}{causes}")
        return "; ".join(sides) + f"; unanswered {self.unanswered}"


FLAGS = ("fin", "syn", "rst", "psh", "ack", "urg", "ece", "cwr")


def drop_line(moment, cause, side, front):
    """The line of a dropped packet, as `natgw tun --log-drops` has it; `-` is what isn't known."""
    words = ["-"] * 4
    if len(front) >= 20 and front[0] >> 4 == 4:
        words[0] = {6: "tcp", 17: "udp"}.get(front[9], str(front[9]))
        ports = ["", ""]
        part = front[front[0] % 16 * 4 :]
        if front[9] in (6, 17) and front[6] % 32 == front[7] == 0:
            ports = [f":{struct.unpack_from('>H', part, at)[0]}" if len(part) >= at + 2 else "" for at in (0, 2)]
            if front[9] == 6 and len(part) > 13 and part[13]:
                words[3] = ",".join(name for bit, name in enumerate(FLAGS) if part[13] >> bit & 1)
        words[1:3] = [socket.inet_ntoa(front[at : at + 4]) + port for at, port in zip((12, 16), ports)]
    return f"dropped {moment} {cause} {frames.SIDES[side]} {' '.join(words)}"


class DropLog:
    """Lines of dropped packets, no more than so many for each second."""

    def __init__(self, most):
        self.most, self.moment, self.told = most, 0, 0

    def begin(self, moment):
        """Another second has begun."""
        if moment != self.moment:
            self.moment, self.told = moment, 0

    def tell(self, side, cause, front):
        """A packet was dropped."""
        if self.told < self.most:
            self.told += 1
            print(drop_line(self.moment, cause, side, front), file=sys.stderr, flush=True)
