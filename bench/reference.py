#!/usr/bin/env python3
"""A round settled slowly and by the definition: all ask together, step by step, and a workshop looks at everybody who has ever
asked it. Beside the plain program so that two programs written apart say the same.

    reference.py FILE    prints the text, or `refused 5 at 12`
"""
import sys


class Refused(Exception):
    pass


def read(b):
    at = 0

    def number(size):
        nonlocal at
        if at + size > len(b):
            raise Refused(1, len(b))
        at += size
        return int.from_bytes(b[at - size : at], "little")

    def need(test, cause, place):
        if not test:
            raise Refused(cause, place)

    n = number(2)
    need(n <= 4000, 2, 0)
    m = number(2)
    need(1 <= m <= 256, 2, 2)
    places = []
    for _ in range(m):
        places.append(number(1))
        need(places[-1] <= 40, 2, at - 1)
    lots, lists = [], []
    for _ in range(n):
        lot = number(2)
        need(lot not in lots, 5, at - 2)
        lots.append(lot)
        count = number(1)
        need(count <= 20, 3, at - 1)
        entries = []
        for _ in range(count):
            w = number(1)
            need(w < m and w not in entries, 4, at - 1)
            entries.append(w)
        lists.append(entries)
    count = number(2)
    need(count <= 60000, 6, at - 2)
    points = {}
    before = (-1, -1)
    for _ in range(count):
        start = at
        w = number(1)
        need(w < m, 7, start)
        a = number(2)
        need(a < n, 7, start)
        p = number(2)
        need(p > 0, 7, start)
        need(before < (w, a), 8, start)
        before = (w, a)
        points[w, a] = p
    need(at == len(b), 9, at)
    return places, lots, lists, points


def ask(places, lots, lists, points):
    """Positions reached (the list's length: used up), and whom each workshop keeps, best first."""
    asked = [set() for _ in places]
    at = [0] * len(lists)
    while True:
        for a, entries in enumerate(lists):
            if at[a] < len(entries):
                asked[entries[at[a]]].add(a)
        kept = []
        for w, askers in enumerate(asked):
            able = sorted((a for a in askers if (w, a) in points), key=lambda a: (-points[w, a], lots[a]))
            kept.append(able[: places[w]])
        turned = [a for a, entries in enumerate(lists) if at[a] < len(entries) and a not in kept[entries[at[a]]]]
        if not turned:
            return at, kept
        for a in turned:
            at[a] += 1


def text(b):
    try:
        places, lots, lists, points = read(b)
    except Refused as refused:
        return "refused %d at %d\n" % refused.args
    at, kept = ask(places, lots, lists, points)
    asks = sum(min(k + 1, len(entries)) for k, entries in zip(at, lists))
    placed = sum(k < len(entries) for k, entries in zip(at, lists))
    out = ["asks %d placed %d" % (asks, placed)]
    for a, (k, entries) in enumerate(zip(at, lists)):
        got = "workshop %d wish %d" % (entries[k], k + 1) if k < len(entries) else "none"
        out.append("applicant %d %s" % (a, got))
    for w, bench in enumerate(kept):
        if places[w] == 0:
            cut = "shut"
        elif len(bench) < places[w]:
            cut = "open"
        else:
            cut = "%d lot %d" % (points[w, bench[-1]], lots[bench[-1]])
        out.append("cut %d %s" % (w, cut))
    return "\n".join(out) + "\n"


if __name__ == "__main__":
    with open(sys.argv[1], "rb") as f:
        sys.stdout.write(text(f.read()))
