#!/usr/bin/env python3
"""Times a run of flume over a made file of lines, and prints its time and its peak memory.

    tools/bench.py [--mib N] [--words N] [--check]

The file has N MiB (64 by default, just within the program's limit of an input) of lines of ten
words, drawn evenly from N different ones (50,000 by default). The same numbers always make the
same file. --check compares the output with what Python sorts.
"""
import argparse
import os
import random
import subprocess
import sys
import tempfile
import time

TOP = os.path.dirname(os.path.dirname(os.path.realpath(__file__)))
FLUME = os.path.join(TOP, "flume")
LIMIT = 64 * 1024 * 1024
SCRIPT = """type line = {line: text}
input lines: line from "in.csv"
fn split(x: line) -> text { for w in words(x.line) { emit w } }
let ws = do lines split
output ws to "out.csv"
"""


def vocabulary(draw, count):
    """Different words of 5 to 12 letters."""
    found = set()
    while len(found) < count:
        found.add("".join(draw.choices("abcdefghijklmnopqrstuvwxyz", k=draw.randint(5, 12))))
    return sorted(found)


def make_input(path, size, count):
    """Writes lines up to that many bytes, and returns how many lines and words."""
    draw = random.Random(1)
    words = vocabulary(draw, count)
    lines = 0
    left = size - len("line\n")
    with open(path, "w", encoding="ascii", newline="\n") as to:
        to.write("line\n")
        while True:
            line = " ".join(draw.choices(words, k=10)) + "\n"
            left -= len(line)
            if left < 0:
                return lines, 10 * lines
            to.write(line)
            lines += 1


def is_sorted_output(folder):
    """The output has the input's words, sorted by bytes."""
    with open(os.path.join(folder, "in.csv"), "rb") as file:
        words = sorted(file.read().split()[1:])
    with open(os.path.join(folder, "out.csv"), "rb") as file:
        return file.read() == b"".join(word + b"\n" for word in [b"value", *words])


def timed(folder):
    """The exit status, the seconds and the peak memory in MiB of a run, and the end of its screen."""
    screen = os.path.join(folder, "screen")
    with open(screen, "wb") as to:
        began = time.monotonic()
        child = subprocess.Popen(
            [FLUME, "run", "words.flume"], cwd=folder, stdin=subprocess.DEVNULL, stdout=to
        )
        _, status, usage = os.wait4(child.pid, 0)
        seconds = time.monotonic() - began
    with open(screen, encoding="utf-8") as file:
        said = file.read().splitlines()
    return os.waitstatus_to_exitcode(status), seconds, usage.ru_maxrss / 1024, said[-3:]


def main():
    reads = argparse.ArgumentParser(description=__doc__.splitlines()[0])
    reads.add_argument("--mib", type=float, default=64, help="size of the input, at most 64")
    reads.add_argument("--words", type=int, default=50_000, help="how many different words")
    reads.add_argument("--check", action="store_true", help="compare the output with Python's sort")
    asked = reads.parse_args()
    # (this builds the program where need be, so that the build is not timed)
    subprocess.run([FLUME], stdin=subprocess.DEVNULL, stdout=subprocess.DEVNULL, check=False)
    with tempfile.TemporaryDirectory(prefix="flume-bench-") as folder:
        with open(os.path.join(folder, "words.flume"), "w", encoding="ascii") as to:
            to.write(SCRIPT)
        size = min(int(asked.mib * 1024 * 1024), LIMIT)
        lines, words = make_input(os.path.join(folder, "in.csv"), size, asked.words)
        status, seconds, peak, said = timed(folder)
        print(
            f"{size} bytes, {lines} lines, {words} words: exit status {status}, {' | '.join(said)}"
        )
        print(f"{seconds:.2f} seconds, {peak:.0f} MiB at most")
        if asked.check and status == 0:
            if not is_sorted_output(folder):
                print("the output is not the sorted words")
                return 1
            print("the output is the sorted words")
    return status


if __name__ == "__main__":
    sys.exit(main())
