#!/usr/bin/env python3
"""Times of the plain program and of the verified one on one round, in nanoseconds a run.

    times.py ROUND RUNS PLAIN [STOPWATCH]

The two take turns, five passes each, so that a slow moment of the machine meets both. Of each the median and the best are printed,
for the plain program by phases too, and then what the verified program's time is of the plain one's.
"""
import statistics
import subprocess
import sys

PASSES = 5


def lines(*command):
    return subprocess.run(command, stdout=subprocess.PIPE, check=True, text=True).stdout.splitlines()


def shown(name, times):
    print("  %-6s median %9d  best %9d" % (name, statistics.median(times), min(times)))


def main():
    path, runs, plain, *ours = sys.argv[1:]
    a_pass = str(max(1, int(runs) // PASSES))
    phases = {}
    verified = []
    for _ in range(PASSES):
        for line in lines(plain, "--time", path, a_pass):
            name, *times = line.split()
            phases.setdefault(name, []).extend(map(int, times))
        for program in ours:
            verified += [int(line.split()[1]) for line in lines(program, path, a_pass)]
    print("plain")
    for name, times in phases.items():
        shown(name, times)
    if verified:
        print("verified")
        shown("all", verified)
        whole = phases["all"]
        print("verified / plain: median %.2f, best %.2f" % (
            statistics.median(verified) / statistics.median(whole), min(verified) / min(whole)))


if __name__ == "__main__":
    main()
