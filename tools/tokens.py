#!/usr/bin/env python3
"""The states of an identity in a pool that threads share, as types and the calls between them, and the way of a token between threads (docs/POOL.md), as a picture.

    python3 tools/tokens.py    writes the SVG that docs/pictures/tokens.svg is to be (tools/pictures compares the two)

It names types and calls of crates/shm_pool and crates/shm_morgue, and stops where one of them isn't there."""
import glob
import re
import sys

from figures import FREE
from sketch import arrow, box, cross, frame, picture, text

HEIGHT = 1130
BROAD, TALL = 280, 80

# each type, what it stands for, and where
TYPES = (
    ("SharedPool", "the words of the pool", 40, 110, FREE[32]),
    ("Vacant", "new, or gone", 640, 110, FREE[16]),
    ("Post", "its agents, one by one", 40, 340, FREE[32]),
    ("Client", "works", 1300, 340, FREE[4]),
    ("Corpse", "its agent has fallen", 640, 640, FREE[8]),
    ("Rescuer", "a recovery, in steps", 1300, 640, FREE[8]),
)

# a call, and what else is said of it; from where and to where its arrow leads; and where that is said
CALLS = (
    ("SharedPool::make", ": one of each", (320, 130), (640, 130), (480, 118), "middle"),
    ("SharedPool::close", ": all of them", (640, 166), (320, 166), (480, 196), "middle"),
    ("Post::new", "", (660, 190), (320, 355), (450, 270), "end"),
    ("Post::vacate", "", (320, 385), (700, 190), (490, 330), "start"),
    ("Post::corpse", "", (320, 405), (660, 640), (440, 520), "end"),
    ("Corpse::recover", "", (740, 640), (740, 190), (730, 440), "end"),
    ("Vacant::join", ", cut off", (820, 190), (820, 640), (832, 440), "start"),
    ("Vacant::join", "", (920, 135), (1440, 340), (1200, 225), "start"),
    ("Client::leave", " or end", (1300, 375), (900, 190), (1080, 385), "start"),
    ("Client::fall", ", or a leave cut off", (1360, 420), (920, 650), (1010, 630), "start"),
    ("Corpse::start", "", (920, 672), (1300, 672), (1110, 664), "middle"),
    ("Rescuer::end", ", before that", (1300, 700), (920, 700), (1110, 730), "middle"),
    ("Rescuer::end", ", recovered", (1330, 640), (860, 190), (1250, 540), "start"),
)

# the threads, and what each holds of one identity's token, from where to where
THREADS = (
    ("the caller", 880, (("Vacant", 180, 320), ("Vacant", 1290, 1420))),
    ("a worker", 970, (("Client", 400, 740), ("Corpse", 780, 900))),
    ("a medic", 1060, (("Corpse", 970, 1090), ("Vacant", 1120, 1240))),
)
# how it goes from one to the next: the call, its arrow, and where it is said
MOVES = (
    ("join", (320, 902), (400, 992), (372, 934), "start"),
    ("Porter::put, Medic::take", (900, 992), (970, 1082), (950, 1010), "start"),
    ("recover", (1090, 1082), (1120, 1082), (1105, 1052), "middle"),
    ("close", (1240, 1082), (1290, 902), (1440, 912), "start"),
)
DEATH = (760, 992)
COLOURS = {name: fill for name, _, _, _, fill in TYPES}


def check(calls):
    """Stops where a type has no such call in the code."""
    source = "".join(open(path).read() for path in sorted(glob.glob("crates/shm_pool/src/*.rt") + glob.glob("crates/shm_morgue/src/*.rt")))
    for name in calls:
        of, call = name.split("::")
        parts = re.findall(rf"^impl(?:<[^{{]*?>)? {of}(?:<[^{{]*?>)? \{{(.*?)^\}}", source, re.S | re.M)
        if not any(f"pub fn {call}" in part for part in parts):
            raise SystemExit(f"tools/tokens.py: there is no call {name}")


def states():
    """The types, and the calls between them."""
    out = [text(20, 50, "The token of an identity: its types, and the calls between them", size=28)]
    for name, call, start, end, place, anchor in CALLS:
        out += [arrow(*start, *end), text(*place, name.split("::")[1] + call, anchor)]
    for name, means, x, y, fill in TYPES:
        out += [frame(x, y, BROAD, TALL, fill), text(x + BROAD // 2, y + 34, name, "middle"), text(x + BROAD // 2, y + 64, means, "middle", size=22)]
    return out


def way():
    """One token on its way through three threads."""
    out = [text(20, 820, "A token on its way between threads: who holds it works for the identity", size=28)]
    for name, y, bars in THREADS:
        out.append(text(20, y + 30, name))
        out += [box(start, y, end - start, COLOURS[of], of) for of, start, end in bars]
    for call, start, end, place, anchor in MOVES:
        out += [arrow(*start, *end), text(*place, call, anchor)]
    return [*out, cross(*DEATH)]


def tokens_picture():
    check([name for name, *_ in CALLS] + ["Porter::put", "Medic::take"])
    return picture(HEIGHT, states() + way())


if __name__ == "__main__":
    sys.stdout.write(tokens_picture())
