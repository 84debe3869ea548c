#!/usr/bin/env python3
"""Runs programs that print a round's text, and compares what they print, byte for byte.

    compare.py FOLDER PROGRAM...

On the worked rounds (against examples/expected), on small random rounds and on damaged ones (against reference.py), and on the
large rounds of FOLDER (against each other). Ends with status 1 at the first difference, and names the file.
"""
import glob
import os
import random
import subprocess
import sys

import make_round
import reference

HERE = os.path.dirname(os.path.abspath(__file__))
EXAMPLES = os.path.join(HERE, "..", "examples")


def printed(program, path):
    return subprocess.run([program, path], stdout=subprocess.PIPE).stdout


def damaged(b, draw):
    """Cut short at every byte, a byte too many, and each byte changed in a few ways."""
    for k in range(len(b)):
        yield b[:k]
        for value in {0, 255, b[k] ^ 1, (b[k] + 1) % 256, int(draw() * 256)} - {b[k]}:
            yield b[:k] + bytes([value]) + b[k + 1 :]
            if draw() < 0.2:
                yield b[:k] + bytes([value]) + b[k + 1 : -int(1 + draw() * 8)]
    yield b + b"\0"


def small_rounds():
    for seed in range(60):
        n, m = seed % 13, 1 + seed % 7
        yield make_round.make(n, m, min(n * m, 4 * n), (0, min(m, 20)), ["few", "some", "many"][seed % 3], seed)


def judge(programs, path, expected):
    for program in programs:
        if printed(program, path) != expected:
            sys.exit("%s prints something else on %s" % (program, path))


def main():
    folder, programs = sys.argv[1], sys.argv[2:]
    case = os.path.join(folder, "case")
    for path in sorted(glob.glob(os.path.join(EXAMPLES, "expected", "*.txt"))):
        name = os.path.splitext(os.path.basename(path))[0]
        with open(path, "rb") as f:
            judge(programs, os.path.join(EXAMPLES, name + ".round"), f.read())
    draw = random.Random(1).random
    with open(os.path.join(EXAMPLES, "g.round"), "rb") as f:
        cases = list(small_rounds()) + list(damaged(f.read(), draw))
    causes = set()
    for b in cases:
        with open(case, "wb") as f:
            f.write(b)
        expected = reference.text(b)
        causes.add(expected.split(" at ")[0] if expected.startswith("refused") else "settled")
        judge(programs, case, expected.encode())
    large = sorted(glob.glob(os.path.join(folder, "*.round"))) + [os.path.join(EXAMPLES, "office.round")]
    for path in large:
        judge(programs[1:], path, printed(programs[0], path))
    print("%d small and damaged rounds (%s), %d large rounds: no difference" % (len(cases), ", ".join(sorted(causes)), len(large)))


if __name__ == "__main__":
    main()
