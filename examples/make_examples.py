#!/usr/bin/env python3
"""Writes the worked rounds of this folder as bytes, from the table below.

A line of the table: name; lists from applicant 0; places; points by workshop in the order of applicants, 0 for no row.
Lots are 1, 2, 3 and so on. The results of these rounds are in expected/, worked out by hand.
"""
import os

TABLE = """
a  ; 0 1 / 0 / 1 0 / 0 1 2         ; 1 1 1 ; 10 30 20 25 / 40 0 15 35 / 0 0 0 5
a1 ; 1 / 0 / 1 0 / 0 1 2           ; 1 1 1 ; 10 30 20 25 / 40 0 15 35 / 0 0 0 5
b  ; 0 1 / 1 0                     ; 1 1   ; 1 2 / 2 1
c  ; - / -                         ; 2     ; 3 4
d  ; 0 / 0                         ; 2     ; 0 7
e  ; 0 1                           ; 0 1   ; 9 / 9
f  ; 0 1 2 / 0 1 2 / 0 1 2 / 0 1 2 ; 1 1 1 ; 4 3 2 1 / 4 3 2 1 / 4 3 2 1
g  ; 1 0 / 0 1 / 0 1 2 / 2 0 / 0   ; 2 1 1 ; 10 50 20 40 30 / 20 30 10 0 0 / 0 0 8 9 0
"""


def numbers(text):
    return [int(x) for x in text.replace("-", " ").split()]


def word(x):
    return x.to_bytes(2, "little")


def encode(lists, places, lots, points):
    """The bytes of a round; points[w][a], 0 for no row."""
    out = word(len(lists)) + word(len(places)) + bytes(places)
    for lot, entries in zip(lots, lists):
        out += word(lot) + bytes([len(entries)]) + bytes(entries)
    rows = [(w, a, p) for w, row in enumerate(points) for a, p in enumerate(row) if p > 0]
    out += word(len(rows))
    for w, a, p in rows:
        out += bytes([w]) + word(a) + word(p)
    return out


def main():
    here = os.path.dirname(os.path.abspath(__file__))
    for line in TABLE.strip().splitlines():
        name, lists, places, points = (part.strip() for part in line.split(";"))
        lists = [numbers(entries) for entries in lists.split("/")]
        points = [numbers(row) for row in points.split("/")]
        lots = range(1, len(lists) + 1)
        with open(os.path.join(here, name + ".round"), "wb") as f:
            f.write(encode(lists, numbers(places), lots, points))


if __name__ == "__main__":
    main()
