#!/usr/bin/env python3
"""Tells the answers of `natgw replay` as lines: answer frames on standard input, a line for each on standard output.

    ./natgw replay --dir state --at 1000 --inside 192.168.0.0/16 --external 203.0.113.1 \\
        < examples/first_packet.frames | python3 examples/tell.py
"""
import io
import sys

sys.dont_write_bytecode = True
from client import ANSWER, told


def tell(stream):
    """Prints a line for each answer of the stream."""
    while front := stream.read(ANSWER.size):
        if len(front) < ANSWER.size:
            raise SystemExit("tell: the answers end within a frame")
        kind, number, length = ANSWER.unpack(front)
        body = stream.read(length)
        if len(body) < length:
            raise SystemExit("tell: the answers end within a frame")
        print(f"event {number}: {told(kind, body)}", flush=True)


def tell_bytes(answers):
    """Prints a line for each answer of these bytes."""
    tell(io.BytesIO(answers))


if __name__ == "__main__":
    if "--help" in sys.argv[1:]:
        print(__doc__.strip())
    else:
        tell(sys.stdin.buffer)
