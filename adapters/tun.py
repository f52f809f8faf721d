#!/usr/bin/env python3
"""Puts real hosts behind `natgw serve`: carries packets between two TUN devices and natgw's socket.

    tun.py --socket /run/natgw/natgw.sock --rules rules.nft

What the kernel sends into the device of lan or wan becomes a request; what natgw forwards comes out of the device of
its side. README.md beside this file tells how addresses and routes are set up. Runs as root, or with CAP_NET_ADMIN.

Signals: HUP loads the ruleset's file again; USR1 prints the counts; TERM and INT print them and end.
"""
import argparse
import collections
import errno
import os
import select
import signal
import socket
import struct
import sys
import time

import counts
import devices
import frames

# Where natgw is slower than the devices, no more than this waits here: then the kernel's own queues fill and drop.
MOST_UNANSWERED = 512
# Packets that are taken from a device in one turn, and so go to natgw in one write.
BATCH = 64
READ = 262_144
RETRY_SECONDS = 0.05


def say(words):
    """One line on standard error."""
    print(f"tun.py: {words}", file=sys.stderr, flush=True)


def renew(packet, start, offset):
    """Puts the sum of the pseudo header into a checksum that the kernel has left open: the one of its endpoints now."""
    total = sum(struct.unpack_from(">4H", packet, 12)) + packet[9] + len(packet) - start
    total = (total & 0xFFFF) + (total >> 16)
    struct.pack_into(">H", packet, start + offset, (total & 0xFFFF) + (total >> 16))


class Clock:
    """Seconds since 1970 as of the start, and from then on as they pass: setting the clock doesn't move it."""

    def __init__(self):
        self.start = time.time() - time.monotonic()

    def now(self):
        """The present moment, for a request."""
        return int(self.start + time.monotonic())


class Adapter:
    """The two devices, the connection to natgw, and what is on its way between them."""

    def __init__(self, tuns, given):
        self.tuns, self.path, self.rules = tuns, given.socket, given.rules
        # So many bytes stand in front of each packet.
        self.front = 0 if given.no_offload else devices.HEADER.size
        self.clock = Clock()
        self.connection = None
        self.told_away = False
        self.unsent = bytearray()
        self.unanswered = 0
        # For each request without an answer the side, and what stood in front of its packet, with the packet's front; of
        # others than packets no side.
        self.asked = collections.deque()
        self.told_moment = 0
        self.load_wanted = self.rules is not None
        self.load_unanswered = False
        self.counts = counts.Counts()
        self.report, self.report_file, self.reported = given.report, given.report_file, 0
        self.log = counts.DropLog(given.log_drops)

    # The connection

    def connect(self):
        """Tries to connect; what was on its way over an earlier connection is lost, as on a link that was cut."""
        connection = socket.socket(socket.AF_UNIX, socket.SOCK_STREAM)
        try:
            connection.connect(self.path)
        except OSError:
            connection.close()
            if not self.told_away:
                say(f"waiting for natgw at {self.path}")
                self.told_away = True
            return
        connection.setblocking(False)
        self.connection, self.answers = connection, frames.Answers()
        self.told_away = False
        say("connected to natgw")

    def disconnected(self):
        """natgw has gone."""
        self.connection.close()
        self.connection = None
        self.counts.unanswered += sum(side is not None for side, _front in self.asked)
        self.unsent.clear()
        self.unanswered = 0
        self.asked.clear()
        # A load that has no answer may not have been taken: the next connection begins with it.
        self.load_wanted = self.load_wanted or self.load_unanswered
        self.load_unanswered = False
        say("natgw has closed the connection")

    # From the devices to natgw

    def ask(self, request, side=None, front=b""):
        """Puts a request behind those that aren't sent yet."""
        self.unsent += request
        self.unanswered += 1
        self.asked.append((side, front))

    def take(self, side, moment):
        """Reads packets from a device until it has none, or a batch is full."""
        front = self.front
        for _ in range(min(BATCH, MOST_UNANSWERED - self.unanswered)):
            try:
                data = os.read(self.tuns[side], front + frames.LONGEST_PACKET)
            except BlockingIOError:
                return
            self.counts.passed(side, "came", len(data) - front)
            self.ask(frames.packet(side, moment, memoryview(data)[front:]), side, data[:front + counts.FRONT])

    def load(self):
        """Asks natgw to load the ruleset's file."""
        self.load_wanted = False
        try:
            with open(self.rules, "rb") as file:
                text = file.read(frames.LONGEST_TEXT + 1)
        except OSError as fault:
            say(f"{self.rules} can't be read: {fault.strerror}; the old rules stay")
            return
        if len(text) > frames.LONGEST_TEXT:
            say(f"{self.rules} has more than {frames.LONGEST_TEXT} bytes; the old rules stay")
            return
        self.ask(frames.load(self.clock.now(), text))
        self.load_unanswered = True

    def send(self):
        """Writes as much as natgw takes now."""
        try:
            sent = self.connection.send(self.unsent)
        except BlockingIOError:
            return
        del self.unsent[:sent]

    # From natgw to the devices

    def receive(self):
        """Reads answers, and does what they say."""
        try:
            data = self.connection.recv(READ)
        except BlockingIOError:
            return
        if not data:
            raise ConnectionError
        for kind, _number, body in self.answers.feed(data):
            self.unanswered -= 1
            side, front = self.asked.popleft()
            if kind == frames.FORWARD:
                self.put(body[0], memoryview(body)[1:], front[:self.front])
            elif kind == frames.DROPPED:
                cause = frames.CAUSES[body[0]]
                self.counts.dropped(side, cause)
                self.log.tell(side, cause, front[self.front:])
            elif kind == frames.LOADED:
                self.load_unanswered = False
                self.counts.rulesets["loaded"] += 1
                say(f"{self.rules} is loaded")
            elif kind == frames.REFUSED:
                self.load_unanswered = False
                self.counts.rulesets["refused"] += 1
                say(f"{self.rules} was refused, the old rules stay; natgw check says why")

    def put(self, side, packet, header):
        """Lets a packet out on its side, what was left to do of it too. A device that is down takes none."""
        parts = [packet]
        if header:
            flags, kind, length, size, start, offset = devices.HEADER.unpack(header)
            flags &= devices.OPEN_CHECKSUM
            if flags:
                packet = bytearray(packet)
                renew(packet, start, offset)
            parts = [devices.HEADER.pack(flags, kind, length, size, start, offset), packet]
        try:
            os.writev(self.tuns[side], parts)
            self.counts.passed(side, "left", len(packet))
        except OSError as fault:
            if fault.errno not in (errno.EIO, errno.EAGAIN, errno.ENOBUFS, errno.EINVAL):
                raise
            self.counts.lost(side)

    # All together

    def turn(self, wake):
        """One turn: waits until there is something to do, at most a second, and does it."""
        moment = self.clock.now()
        self.log.begin(moment)
        if self.load_wanted:
            self.load()
        if moment != self.told_moment:
            # Sessions end by the clock also where no packet comes.
            self.told_moment = moment
            self.ask(frames.tick(moment))
        readers = [self.connection, wake]
        if self.unanswered < MOST_UNANSWERED:
            readers += self.tuns
        ready, writable, _ = select.select(readers, [self.connection] if self.unsent else [], [], 1.0)
        if self.connection in ready:
            self.receive()
        for side in (frames.LAN, frames.WAN):
            if self.tuns[side] in ready:
                self.take(side, moment)
        if self.unsent:
            self.send()
        return wake in ready

    def run(self, wake, signals):
        """Carries packets until TERM or INT."""
        while True:
            woken = True
            self.tell_counts()
            try:
                if self.connection is None:
                    self.connect()
                if self.connection is None:
                    woken = bool(select.select([wake], [], [], RETRY_SECONDS)[0])
                else:
                    woken = self.turn(wake)
            except ConnectionError:
                self.disconnected()
            if woken and self.obey(signals(wake)):
                return

    def obey(self, numbers):
        """Does what signals ask for; says whether one of them asks for the end."""
        if signal.SIGHUP in numbers and self.rules is not None:
            self.load_wanted = True
        ends = signal.SIGTERM in numbers or signal.SIGINT in numbers
        if ends or signal.SIGUSR1 in numbers:
            say(self.counts.line())
        return ends

    def tell_counts(self):
        """Writes the counts to their file once they are as old as they may be."""
        now = time.monotonic()
        if not self.report or now < self.reported + self.report:
            return
        self.reported = now
        try:
            self.counts.write(self.report_file)
        except OSError as fault:
            say(f"{self.report_file} can't be written: {fault.strerror}")


def listen():
    """A socket on which the numbers of signals arrive, so that waiting ends when one comes."""
    wake, end = socket.socketpair()
    wake.setblocking(False)
    end.setblocking(False)
    signal.set_wakeup_fd(end.fileno())
    for number in (signal.SIGHUP, signal.SIGUSR1, signal.SIGTERM, signal.SIGINT):
        signal.signal(number, lambda *_: None)
    return wake, end


def arrived(wake):
    """The signals that have come."""
    try:
        return set(wake.recv(64))
    except BlockingIOError:
        return set()


def main():
    words = argparse.ArgumentParser(description="Carries packets between two TUN devices and natgw serve.")
    words.add_argument("--socket", required=True, help="the path that natgw serve was given")
    words.add_argument("--rules", metavar="FILE", help="a ruleset, loaded at the start and on HUP")
    words.add_argument("--report", type=int, default=0, metavar="N",
                       help="every so many seconds the counts are written to --report-file; 0 is never (%(default)s)")
    words.add_argument("--report-file", default="natgw.prom", metavar="FILE", help="(%(default)s)")
    words.add_argument("--log-drops", type=int, default=0, metavar="N",
                       help="tells of dropped packets on standard error, at most so many a second (%(default)s)")
    devices.add_options(words, frames.SIDES)
    given = words.parse_args()
    try:
        tuns = devices.attach_both(given, frames.SIDES)
    except OSError as fault:
        raise SystemExit(f"tun.py: a device can't be had (is this root?): {fault}") from None
    wake, _end = listen()
    Adapter(tuns, given).run(wake, arrived)


if __name__ == "__main__":
    main()
