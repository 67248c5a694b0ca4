#!/usr/bin/env python3
"""Runs two built programs on hostile inputs, compares what they write, and tells what each input costs them.

    python3 tools/hostile.py [--only WORD] [--runs N] PROGRAM OTHER
    python3 tools/hostile.py --write TITLE > INPUT

It is run by hand, with the paths of two programs that take the words of docs/TRACE.md; PROGRAM may be crates/cxlshm/out/cxlshm. Each case has words and an
input of at most a mebibyte for a trace, which is made here and is the same each time. For each case it prints

- the status, and the word `same` where both programs ended with the same status and wrote the same bytes,
- the processor time of each in milliseconds, the least of N runs in turn (3), and their ratio,
- the peak of the memory of each in megabytes, as the system tells it, and their ratio,
- and how many times the input and the words of the pool that is made together PROGRAM holds, beyond what it holds for an empty input.

With --only WORD it runs the cases whose title has the word; LONGEST, which takes many minutes, only where it is its whole title. The status is 1 where the
programs wrote or ended otherwise.
"""

import argparse
import filecmp
import itertools
import os
import subprocess
import sys
import tempfile
from array import array

MEBIBYTE = 1 << 20
MEGABYTE = 1_000_000
LARGEST = (16, 256, False)
LARGEST_WIDE = (16, 8000, True)

# Runs a program and tells its status, its processor time in microseconds and its peak memory in kilobytes on the descriptor that is named first.
# A process that is started from here would be told to have had Python's memory.
MEASURE = r"""
#include <stdio.h>
#include <stdlib.h>
#include <sys/resource.h>
#include <sys/wait.h>
#include <unistd.h>

int main(int count, char **words)
{
    int status;
    struct rusage used;
    pid_t child = fork();
    if (child == 0) {
        execv(words[2], words + 2);
        _exit(127);
    }
    wait4(child, &status, 0, &used);
    long time = 1000000 * (used.ru_utime.tv_sec + used.ru_stime.tv_sec) + used.ru_utime.tv_usec + used.ru_stime.tv_usec;
    dprintf(atoi(words[1]), "%d %ld %ld", WIFEXITED(status) ? WEXITSTATUS(status) : -1, time, used.ru_maxrss);
    return count < 3;
}
"""


def total(pool):
    """How many words a pool of these sizes has."""
    clients, segments, wide = pool
    return 1 + 21 * clients + 11 * clients**2 + 2065 * segments + (clients if wide else 0)


# Traces: each is a head, and lines again and again up to a mebibyte.


def filled(head, *lines):
    """A head and these lines in turn, as many as a trace may have."""
    text, room = [head], MEBIBYTE - len(head)
    for line in itertools.cycle(lines):
        room -= len(line)
        if room < 0:
            return "".join(text).encode()
        text.append(line)
    raise AssertionError


def shared(head, clients, script, line):
    """A head, and a script of each of these clients that begins alike and has the line again and again, in equal parts up to a mebibyte."""
    scripts = [f"client {c}\n{script}" for c in clients]
    each = (MEBIBYTE - len(head) - sum(map(len, scripts))) // (len(scripts) * len(line))
    return "".join([head] + [begun + each * line for begun in scripts]).encode()


def chain(keys):
    """Puts of keys of one bucket."""
    return "".join(f"put {16 * key} 0\n" for key in range(keys))


def waiting():
    """Client 0 stands still with its latch, and all other turns are of a client that waits for it."""
    order = "order 0:70 " + " ".join(999 * ["1:100000"]) + "\n"
    return f"pool 2 1\n{order}client 0\nput 5 77\nclient 1\nget 0 5\n".encode()


def one_latch():
    """All others look for the last key of a bucket of client 0, whose latch one holds at a time; it put the bucket's keys before their first turn."""
    return shared("pool 16 4\norder " + "0 " * 39 + "0\nclient 0\n" + chain(40), range(1, 16), "", "get 0 0\n")


def long_latch():
    """Client 0 puts keys of one bucket, many of them in a hundred million turns before all others, who look for the last key; one holds the latch at a time."""
    order = "order " + " ".join(1000 * ["0:100000"]) + "\n"
    return ("pool 16 256\n" + order + "client 0\n" + chain(14300) + "".join(f"client {c}\n" + 6630 * "get 0 0\n" for c in range(1, 16))).encode()


def lives(life, rest):
    """All clients put a key and die after so many word steps, and so does each recoverer after as many as the rest says."""
    each = (MEBIBYTE // 16 - 40) // len(rest) * rest
    return "".join(["pool 16 16\n"] + [f"client {c}\nlife {life}{each}\nput {c} 0\n" for c in range(16)]).encode()


def dead_holder():
    """Client 0 dies with its latch and so does each recoverer at its first word steps, while all others wait for the latch."""
    others = "".join(f"client {c}\nget 0 5\n" for c in range(1, 16))
    head = f"pool 16 4\norder 0:71\n{others}client 0\nlife 70"
    return (head + (MEBIBYTE - len(head) - 10) // 2 * " 1" + "\nput 5 77\n").encode()


def long_recoveries():
    """Client 0 dies with hundreds of blocks, and each recoverer while it scans them."""
    head = f"pool 1 256\nclient 0\nlife 200000"
    puts = chain(300)
    return (head + (MEBIBYTE - len(head) - len(puts) - 1) // 5 * " 1900" + "\n" + puts).encode()


# Images: the words of a pool whose pages all have one class.


def image(pool, words):
    """The bytes of an image."""
    clients, segments, wide = pool
    mark = b"CXLSHM02" if wide else b"CXLSHM01"
    return mark + clients.to_bytes(8, "little") + segments.to_bytes(8, "little") + words.tobytes()


def paged(pool, size):
    """The words of a pool with pages of this class alone and nothing else, and the address of the first block."""
    body = total(pool) - 2048 * pool[1]
    words = array("Q", bytes(8 * total(pool)))
    words[body - 16 * pool[1] : body] = array("Q", 16 * pool[1] * [size])
    return words, body


def header(count):
    """The header of a live block of client 0."""
    return 1 << 63 | count << 47 | 2


def tag(pool, refs, plain=0):
    """The tag of a block by client 0 with so many words."""
    return refs << 34 | plain << 30 if pool[2] else refs << 30 | plain << 26


def ring(pool, changes=()):
    """Blocks of the least class, each of which names the next one, and some of the last words changed: (how many before the end, the word)."""
    words, body = paged(pool, 4)
    count = (len(words) - body) // 4
    words[body::4] = array("Q", [header(1)]) * count
    words[body + 1 :: 4] = array("Q", [tag(pool, 1)]) * count
    words[body + 2 :: 4] = array("Q", range(body + 4, len(words), 4)) + array("Q", [body])
    for behind, word in changes:
        words[-behind] = word
    return image(pool, words)


def all_to_the_last(pool):
    """Blocks of 16 words, of which 14 name the last block."""
    words, body = paged(pool, 16)
    count = (len(words) - body) // 16
    words[body::16] = array("Q", [header(1023)]) * count
    words[body + 1 :: 16] = array("Q", [tag(pool, 14)]) * count
    for k in range(2, 16):
        words[body + k :: 16] = array("Q", [len(words) - 16]) * count
    return image(pool, words)


def unused(pool, size):
    """Pages of a class without a block in use."""
    return image(pool, paged(pool, size)[0])


LONGEST = "latch of a long bucket"
CASES = [
    # title, words, the pool that is made, input
    ("empty input", ["replay"], None, lambda: b""),
    ("long bucket, whose last key is read", ["replay"], (1, 256, False), lambda: filled("pool 1 256\nclient 0\n" + chain(1000), "get 0 0\n")),
    ("long bucket, all put", ["replay"], (1, 256, False), lambda: ("pool 1 256\nclient 0\n" + chain(6000)).encode()),
    ("latch that 15 clients want", ["replay"], (16, 4, False), one_latch),
    (LONGEST, ["replay"], (16, 256, False), long_latch),
    ("latch that one client waits for", ["replay"], (2, 1, False), waiting),
    ("latch of the dead, whose recoverers die", ["replay"], (16, 4, False), dead_holder),
    ("lives of one word step", ["replay"], (16, 16, False), lambda: lives(100, " 1")),
    ("lives of 40 word steps", ["replay"], (16, 16, False), lambda: lives(100, " 40")),
    ("lives of scans", ["replay"], (1, 256, False), long_recoveries),
    ("lives of 2^40", ["replay"], (16, 64, False), lambda: shared("pool 16 64\n", range(16), "life 1099511627776\n", "put 1 1\ncopy 2 0 1\ndel 1\n")),
    ("full pool, to which is put", ["replay"], (1, 1, False), lambda: filled("pool 1 1\nclient 0\n" + chain(200), "put 3201 0\n")),
    ("shortest commands", ["replay"], (1, 1, False), lambda: filled("pool 1 1\nclient 0\n", "del 0\n")),
    ("shortest commands of 16 clients", ["replay"], (16, 1, False), lambda: shared("pool 16 1\n", range(16), "", "del 0\n")),
    ("shortest puts", ["replay"], (1, 1, False), lambda: filled("pool 1 1\nclient 0\n", "put 0 0\n")),
    ("longest puts", ["replay"], (1, 1, False), lambda: filled("pool 1 1\nclient 0\n", "put 4294967295 18446744073709551615\n")),
    ("largest pool of format 1", ["replay"], LARGEST, lambda: b"pool 16 256\nclient 0\nput 5 77\n"),
    ("largest pool of format 2", ["replay"], LARGEST_WIDE, lambda: b"pool2 16 8000\nclient 0\nput 5 77\n"),
    ("largest pool of format 2, its image", ["replay", "--image"], LARGEST_WIDE, lambda: b"pool2 16 8000\nclient 0\nput 5 77\n"),
    ("shortest commands, printed", ["replay", "--print"], None, lambda: filled("pool 1 1\nclient 0\n", "del 0\n")),
    ("lives of one word step, printed", ["replay", "--print"], None, lambda: lives(100, " 1")),
    ("fault in the last line", ["replay"], None, lambda: filled("pool 1 1\nclient 0\n", "del 0\n")[:-1]),
    ("one line without an end", ["replay"], None, lambda: MEBIBYTE * b"1"),
    ("line feeds alone", ["replay"], None, lambda: MEBIBYTE * b"\n"),
    ("trace that is too long", ["replay"], None, lambda: 64 * MEBIBYTE * b"\n"),
    ("drawn trace, the longest", ["make", "0", "4000"], (4, 16, False), lambda: b""),
    ("audit: no block in use", ["audit"], None, lambda: unused(LARGEST, 4)),
    ("audit: all blocks live", ["audit"], None, lambda: ring(LARGEST)),
    ("audit: count of the last block", ["audit"], None, lambda: ring(LARGEST, [(4, header(2))])),
    ("audit: header of the last block", ["audit"], None, lambda: ring(LARGEST, [(4, 1)])),
    ("audit: tag of the last block", ["audit"], None, lambda: ring(LARGEST, [(3, 1 << 63)])),
    ("audit: reference of the last block", ["audit"], None, lambda: ring(LARGEST, [(2, 1)])),
    ("audit: all words name the last block", ["audit"], None, lambda: all_to_the_last(LARGEST)),
    ("audit of format 2: all blocks live", ["audit"], None, lambda: ring(LARGEST_WIDE)),
    ("audit of format 2: count of the last block", ["audit"], None, lambda: ring(LARGEST_WIDE, [(4, header(2))])),
    ("audit of format 2: all words name the last block", ["audit"], None, lambda: all_to_the_last(LARGEST_WIDE)),
    ("audit of no image, too long", ["audit"], None, lambda: 200 * MEBIBYTE * b"\0"),
    ("migration: no block in use", ["migrate"], None, lambda: unused(LARGEST, 4)),
    ("migration: all blocks live", ["migrate"], None, lambda: ring(LARGEST)),
    ("migration: count of the last block", ["migrate"], None, lambda: ring(LARGEST, [(4, header(2))])),
]


def build(folder):
    """The program that measures."""
    source, made = f"{folder}/measure.c", f"{folder}/measure"
    with open(source, "w", encoding="utf-8") as file:
        file.write(MEASURE)
    subprocess.run(["cc", "-O2", "-o", made, source], check=True)
    return made


def run(measure, program, words, given, written):
    """Status, processor time in milliseconds and peak memory in megabytes of a run that reads one file and writes another."""
    reads, writes = os.pipe()
    with open(given, "rb") as source, open(written, "wb") as sink:
        command = [measure, str(writes), program, *words]
        subprocess.run(command, stdin=source, stdout=sink, stderr=subprocess.DEVNULL, pass_fds=[writes], check=True)
    os.close(writes)
    with os.fdopen(reads) as file:
        status, time, memory = map(int, file.read().split())
    return status, time / 1000, 1024 * memory / MEGABYTE


def tell(measure, folder, programs, runs, empty, case):
    """Runs a case and prints its line; false where the programs ended or wrote otherwise. `empty` is the memory of PROGRAM for an empty input."""
    title, words, pool, make = case
    given, written = f"{folder}/given", [f"{folder}/written{n}" for n in range(2)]
    with open(given, "wb") as file:
        size = file.write(make())
    made = [[run(measure, program, words, given, text) for program, text in zip(programs, written)] for _ in range(runs)]
    (status, _, _), (other, _, _) = made[0]
    same = status == other and filecmp.cmp(*written, shallow=False)
    times = [min(pair[n][1] for pair in made) for n in range(2)]
    memory = [max(pair[n][2] for pair in made) for n in range(2)]
    room = size + (8 * total(pool) if pool else 0)
    held = f"{(memory[0] - empty) * MEGABYTE / room:6.2f}" if room else "     -"
    print(f"{title:50} {status:2} {'same' if same else 'OTHER'} {times[0]:9.1f} {times[1]:9.1f} {times[0] / times[1]:6.2f} {memory[0]:7.1f} {memory[1]:7.1f} {memory[0] / memory[1]:6.2f} {held}", flush=True)
    return same


def main():
    parser = argparse.ArgumentParser()
    parser.add_argument("--only", default="")
    parser.add_argument("--runs", type=int, default=3)
    parser.add_argument("--write")
    parser.add_argument("programs", nargs="*")
    asked = parser.parse_args()
    if asked.write:
        sys.stdout.buffer.write(next(case[3]() for case in CASES if case[0] == asked.write))
        return 0
    if len(asked.programs) != 2:
        parser.error("the paths of two programs are wanted")
    print(f"{'':50}                ms     other  ratio      MB   other  ratio   held")
    with tempfile.TemporaryDirectory() as folder:
        measure = build(folder)
        empty = run(measure, asked.programs[0], ["replay"], os.devnull, os.devnull)[2]
        ends = [tell(measure, folder, asked.programs, asked.runs, empty, case) for case in CASES if asked.only == case[0] or (asked.only in case[0] and case[0] != LONGEST)]
    return 0 if all(ends) else 1


if __name__ == "__main__":
    sys.exit(main())
