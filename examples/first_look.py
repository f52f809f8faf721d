#!/usr/bin/env python3
"""A first look at natgw, without proofs: `./natgw --first-look` runs this.

`rt try` compiles natgw once and runs it twice over the same two files, in a folder that goes at the end: first it answers
examples/first_packet.frames, a ruleset and a packet; then it lists the session that there is. Nothing is proved of it.
"""
import os
import shutil
import subprocess
import sys
import tempfile

sys.dont_write_bytecode = True
from tell import tell_bytes

HERE = os.path.dirname(os.path.abspath(__file__))
CRATE = os.path.join(os.path.dirname(HERE), "crates", "natgw")
OPTIONS = ["--at", "1000", "--inside", "192.168.0.0/16", "--external", "203.0.113.1"]
# The runs, in the order of their names, by which rt takes them and under which it prints what they print.
REPLAY, SHOW = "1-replay", "2-show"


def write_case(folder, name, requests, words):
    """Writes what rt try runs natgw on: standard input, and a word a line."""
    with open(os.path.join(folder, name), "wb") as file:
        file.write(requests)
    with open(os.path.join(folder, name + ".args"), "w", encoding="utf-8") as file:
        file.write("".join(word + "\n" for word in words))


def main():
    if not shutil.which("rt"):
        raise SystemExit("natgw: there is no command rt: the kit that README.md names has it")
    with open(os.path.join(HERE, "first_packet.frames"), "rb") as file:
        requests = file.read()
    with tempfile.TemporaryDirectory(prefix="natgw-look-") as folder:
        cases, state = os.path.join(folder, "cases"), os.path.join(folder, "state")
        os.mkdir(cases)
        os.mkdir(state)
        write_case(cases, REPLAY, requests, ["replay", "--dir", state, *OPTIONS])
        write_case(cases, SHOW, b"", ["show", "--dir", state, *OPTIONS])
        print("natgw: NOTHING IS PROVED of this look; it compiles for some minutes", file=sys.stderr)
        ran = subprocess.run(["rt", "try", "--cases", cases], cwd=CRATE, stdout=subprocess.PIPE, stderr=subprocess.PIPE)
    answers, is_there, sessions = ran.stdout.partition(f"\n== {SHOW}\n".encode())
    title = f"== {REPLAY}\n".encode()
    if ran.returncode or not is_there or not answers.startswith(title):
        sys.stderr.buffer.write(ran.stderr)
        raise SystemExit("natgw: the look failed")
    tell_bytes(answers[len(title):])
    print(sessions.decode(), end="")


if __name__ == "__main__":
    if "--help" in sys.argv[1:]:
        print(__doc__.strip())
    else:
        main()
