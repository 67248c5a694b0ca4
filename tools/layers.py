#!/usr/bin/env python3
"""The layers of the crates as a picture, of crates.txt.

    python3 tools/layers.py    writes the SVG that docs/pictures/layers.svg is to be (tools/pictures compares the two)

A row has the crates that stand on those of the rows below it, and a line leads from a crate to each one that it stands on and that none of the others stands on. Crates of tests are left out."""
import os
import sys
from fractions import Fraction
from functools import cache

from figures import FREE
from sketch import HIGH, WIDE, box, frame, line, picture, text, width_of

TOP, PITCH, GAP = 90, 92, 28
# how often rows are ordered and spread, and into how many parts a unit is divided meanwhile
SWEEPS, FINE = 40, 16
KEYS = {"program": FREE[8], "cxlshm stands on it": FREE[4], "only cxlview does": FREE[16], "laws, and libraries for others": FREE[32]}


def crates(lines):
    """The crates that a crate stands on, as crates.txt lists them, without those of the kit and of tests."""
    listed = {line.split(":")[0].split()[0]: line.split(":")[1].split() for line in lines if ":" in line and not line.startswith("#")}
    return {name: [d for d in deps if d in listed] for name, deps in listed.items() if not name.startswith("t_")}


class Layers:
    """Each crate at its row, and the lines between rows: a line that passes rows has a point in each of them, which the lines from one crate share."""

    def __init__(self, stands_on):
        self.stands_on = stands_on
        below = cache(lambda name: frozenset(stands_on[name]).union(*map(below, stands_on[name])))
        row = cache(lambda name: 1 + max(map(row, stands_on[name]), default=-1))
        self.below, self.row = below, row
        rows = 1 + max(map(row, stands_on))
        self.rows = [[name for name in stands_on if row(name) == k] for k in range(rows)]
        self.joins = set()
        for name, deps in stands_on.items():
            for low in deps:
                if not any(low in below(other) for other in deps):
                    self.join(low, name)

    def join(self, low, high):
        """A line from a crate up to one that stands on it."""
        at = low
        for k in range(self.row(low) + 1, self.row(high)):
            point = (low, k)
            if point not in self.rows[k]:
                self.rows[k].append(point)
            self.joins.add((at, point))
            at = point
        self.joins.add((at, high))

    def neighbours(self, above):
        """Those of each node in the row above it, or in the row below it."""
        found = {node: [] for row in self.rows for node in row}
        for low, high in sorted(self.joins, key=str):
            found[low if above else high].append(high if above else low)
        return found

    def crossings(self, rows):
        """How many pairs of lines cross."""
        place = {node: (k, i) for k, row in enumerate(rows) for i, node in enumerate(row)}
        lines = [[] for _ in rows]
        for low, high in self.joins:
            lines[place[low][0]].append((place[low][1], place[high][1]))
        return sum((a - c) * (b - d) < 0 for some in lines for i, (a, b) in enumerate(some) for c, d in some[:i])

    def order(self):
        """Orders each row so that few lines cross: again and again by the mean place of the neighbours, upwards and downwards."""
        above, below = self.neighbours(True), self.neighbours(False)
        rows, best = [list(row) for row in self.rows], None
        for sweep in range(SWEEPS):
            near, ks = (below, range(1, len(rows))) if sweep % 2 == 0 else (above, range(len(rows) - 2, -1, -1))
            for k in ks:
                place = {node: Fraction(i + 1, len(row) + 1) for row in rows for i, node in enumerate(row)}
                rows[k].sort(key=lambda node: sum(place[n] for n in near[node]) / len(near[node]) if near[node] else place[node])
            count = self.crossings(rows)
            if best is None or count < best:
                best, self.rows = count, [list(row) for row in rows]

    def spread(self):
        """Where the middle of each node is: near the mean of its neighbours', in the order of its row, with room for each."""
        above, below = self.neighbours(True), self.neighbours(False)
        near = {node: above[node] + below[node] for node in above}
        half = {node: FINE * ((width_of(node) if isinstance(node, str) else 0) + GAP) // 2 for node in near}
        at = {node: FINE * WIDE // 2 for node in near}
        for _ in range(SWEEPS):
            for row in self.rows:
                want = [sum(at[n] for n in near[node]) // len(near[node]) if near[node] else at[node] for node in row]
                at.update(zip(row, apart(want, [half[node] for node in row])))
        return {node: x // FINE for node, x in at.items()}

    def kind(self, name):
        """What is said of a crate by its colour."""
        if os.path.exists(f"crates/{name}/src/main.rt"):
            return "program"
        return next((key for key, above in (("cxlshm stands on it", "cxlshm"), ("only cxlview does", "cxlview")) if name in self.below(above)), "laws, and libraries for others")


def apart(want, half):
    """Places near these in the same order, of which each has its room between the edges: half way between those that were pushed to the right and those that were pushed to the left."""
    right, left = pushed(want, half), mirrored(pushed, want, half)
    inside = pushed([max((x + y) // 2, h) for x, y, h in zip(right, left, half)], half)
    return mirrored(lambda some, room: pushed([max(x, h) for x, h in zip(some, room)], room), inside, half)


def pushed(want, half):
    """Places of which none is less than is wanted, and each has its room behind the one before."""
    places, end = [], -FINE * WIDE
    for x, h in zip(want, half):
        places.append(max(x, end + h))
        end = places[-1] + h
    return places


def mirrored(push, want, half):
    """The same from right to left."""
    return [FINE * WIDE - x for x in push([FINE * WIDE - x for x in want[::-1]], half[::-1])][::-1]


def layers_picture():
    layers = Layers(crates(open("crates.txt").read().splitlines()))
    layers.order()
    at, count = layers.spread(), len(layers.rows)
    top = {node: TOP + PITCH * (count - 1 - k) for k, row in enumerate(layers.rows) for node in row}
    out, x = [], 20
    for key, fill in KEYS.items():
        out += [frame(x, 20, 34, 34, fill), text(x + 46, 46, key)]
        x += 120 + 13 * len(key)
    out += [line(at[high], top[high] + HIGH // 2, at[low], top[low] + HIGH // 2) for low, high in sorted(layers.joins, key=str)]
    out += [box(at[name] - width_of(name) // 2, top[name], width_of(name), KEYS[layers.kind(name)], name) for row in layers.rows for name in row if isinstance(name, str)]
    return picture(TOP + PITCH * (count - 1) + HIGH + 20, out)


if __name__ == "__main__":
    sys.stdout.write(layers_picture())
