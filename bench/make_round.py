#!/usr/bin/env python3
"""Makes a round's bytes for the benchmark, the same for the same arguments.

    make_round.py --applicants N --workshops M --rows R --wishes W --places few|some|many --seed S OUT

Workshops differ in how many want them, applicants in how well they do; points lie close together, so that many are equal and
the lot decides; lots are a random permutation of 1 to N. W is a number (everybody lists W workshops) or a span as 3-20. Rows
are given first to the pairs that stand in a list, nine out of ten, and then to others. Only random.random() is drawn from,
whose numbers Python keeps from version to version.
"""
import argparse
import random

SHARE = {"few": 0.3, "some": 0.8, "many": 1.3}


class Draw:
    def __init__(self, seed):
        self.draw = random.Random(seed).random

    def below(self, n):
        return int(self.draw() * n)

    def between(self, low, high):
        return low + self.below(high - low + 1)

    def normal(self):
        return sum(self.draw() for _ in range(6)) - 3.0

    def shuffle(self, xs):
        for i in range(len(xs) - 1, 0, -1):
            j = self.below(i + 1)
            xs[i], xs[j] = xs[j], xs[i]


def popularity(draw, m):
    ranks = list(range(1, m + 1))
    draw.shuffle(ranks)
    return [rank ** -0.7 for rank in ranks]


def places(draw, n, wanted, share):
    """Places in all about n times share, more where more want to go; some workshops have none this year."""
    whole = sum(wanted)
    out = []
    for weight in wanted:
        mean = n * share * (0.5 / len(wanted) + 0.5 * weight / whole)
        size = int(mean * (0.6 + 0.8 * draw.draw()) + 0.5)
        out.append(0 if draw.draw() < 0.02 else min(40, max(1, size)))
    return out


def preference_list(draw, wanted, count):
    """`count` different workshops, drawn by weight without replacement, in the order drawn."""
    keys = [(draw.draw() ** (1.0 / weight), w) for w, weight in enumerate(wanted)]
    keys.sort(reverse=True)
    return [w for _, w in keys[:count]]


def pairs_with_rows(draw, lists, m, r):
    n = len(lists)
    listed = [(w, a) for a, entries in enumerate(lists) for w in entries]
    draw.shuffle(listed)
    chosen = set(listed[: min(len(listed), r if n * m <= r else r * 9 // 10)])
    r = min(r, n * m)
    if n * m <= 2 * r:
        rest = [(w, a) for w in range(m) for a in range(n) if (w, a) not in chosen]
        draw.shuffle(rest)
        chosen.update(rest[: r - len(chosen)])
    while len(chosen) < r:
        chosen.add((draw.below(m), draw.below(n)))
    return sorted(chosen)


def make(n, m, r, span, level, seed):
    draw = Draw(seed)
    wanted = popularity(draw, m)
    seats = places(draw, n, wanted, SHARE[level])
    low, high = span
    lists = [preference_list(draw, wanted, min(m, draw.between(low, high))) for _ in range(n)]
    lots = list(range(1, n + 1))
    draw.shuffle(lots)
    skill = [draw.normal() for _ in range(n)]
    out = bytearray()
    word = lambda x: out.extend(x.to_bytes(2, "little"))
    word(n)
    word(m)
    out.extend(seats)
    for lot, entries in zip(lots, lists):
        word(lot)
        out.append(len(entries))
        out.extend(entries)
    rows = pairs_with_rows(draw, lists, m, r)
    word(len(rows))
    for w, a in rows:
        out.append(w)
        word(a)
        word(min(200, max(1, int(100 + 18 * skill[a] + 14 * draw.normal()))))
    return bytes(out)


def span(text):
    low, _, high = text.partition("-")
    return int(low), int(high or low)


def main():
    args = argparse.ArgumentParser()
    args.add_argument("--applicants", type=int, required=True)
    args.add_argument("--workshops", type=int, required=True)
    args.add_argument("--rows", type=int, required=True)
    args.add_argument("--wishes", type=span, required=True)
    args.add_argument("--places", choices=sorted(SHARE), required=True)
    args.add_argument("--seed", type=int, required=True)
    args.add_argument("out")
    a = args.parse_args()
    with open(a.out, "wb") as f:
        f.write(make(a.applicants, a.workshops, a.rows, a.wishes, a.places, a.seed))


if __name__ == "__main__":
    main()
