#!/usr/bin/env python3
"""Refuses memory to built programs: one request after the other, until no request has the number.

    python3 tools/refuse.py [FOLDER]

It is run by hand, at the top of the repository, once `rt run` has left the programs crates/cxlshm/out/cxlshm and
crates/t_program/out/t_program (or FOLDER holds them). Requests are calls of the C library's malloc and realloc, numbered from 1 as the
program makes them. Each number is refused alone, and then with all later ones.

- `cxlshm`, for each word of the command line and each kind of input: it has to end with status 6 and nothing written. Where one number alone is
  refused, it may also write what it always writes: the kit's Vec asks for less where it was refused more than it needs, and where a thread can't be
  made the caller does its work.
- rows `want CALL` of t_program, for calls of the libraries: each has to answer that it was refused, and a refused `SharedPool::close` has to
  close when it is called again with the pool and the tokens that it gave back; so has lojarnek's `Pool::close`, once a client has used the pool again.

It prints a line for each case: how many requests there are, and how each number ended. The status is 1 where one ended otherwise.
(`rt try --fail-alloc N` refuses one number, of a program that isn't proved yet; but it builds anew for each number.)
"""

import os
import subprocess
import sys
import tempfile

# Counts the requests, and refuses those from REFUSE_FROM to REFUSE_TO; for each refusal it writes a byte to the descriptor REFUSE_TOLD.
SHIM = r"""
#include <stdlib.h>
#include <unistd.h>

extern void *__libc_malloc(size_t);
extern void *__libc_realloc(void *, size_t);

static unsigned long calls, from, to;
static int told = -1;

__attribute__((constructor)) static void begin(void)
{
    const char *text = getenv("REFUSE_FROM");
    if (text == NULL)
        return;
    from = strtoul(text, NULL, 10);
    to = strtoul(getenv("REFUSE_TO"), NULL, 10);
    told = atoi(getenv("REFUSE_TOLD"));
    calls = 0;
}

static int is_refused(void)
{
    calls += 1;
    if (from == 0 || calls < from || calls > to)
        return 0;
    return write(told, "x", 1) == 1;
}

void *malloc(size_t size)
{
    return is_refused() ? NULL : __libc_malloc(size);
}

void *realloc(void *at, size_t size)
{
    return is_refused() ? NULL : __libc_realloc(at, size);
}
"""

PUT = b"pool 1 1\nclient 0\nput 5 77\n"
TWO = b"pool 2 2\norder 0:104 1:1000\nclient 0\nlife 104\nput 5 77\nclient 1\ncopy 9 0 5\n"
TEAM = b"pool 2 2\nclient 0\nput 5 77\nclient 1\nput 6 78\n"
FAULTY = b"pool 2 1\nclient 16\n"
CUT = b"pool 1 1\nclient 0\nlife 50\nput 5 77\n"
TREE = b"tree 1\nset 0 0 5 1\nset 1 0 9 3\nget 1 5\n"
ALL = 1 << 62


def build(folder):
    """The shim, as a library that the loader puts before the C library."""
    source, made = f"{folder}/refuse.c", f"{folder}/refuse.so"
    with open(source, "w", encoding="utf-8") as file:
        file.write(SHIM)
    subprocess.run(["cc", "-O2", "-shared", "-fPIC", "-o", made, source], check=True)
    return made


def run(shim, words, given, first, last):
    """Status and output of a program, and whether a request was refused."""
    reads, writes = os.pipe()
    env = {"LD_PRELOAD": shim, "REFUSE_FROM": str(first), "REFUSE_TO": str(last), "REFUSE_TOLD": str(writes)}
    ran = subprocess.run(words, input=given, stdout=subprocess.PIPE, stderr=subprocess.DEVNULL, env=env, pass_fds=[writes], timeout=60)
    os.close(writes)
    with os.fdopen(reads, "rb") as file:
        return ran.returncode, ran.stdout, bool(file.read())


def each_number(shim, words, given, has_later):
    """Status and output for each number, until no request has it; then what the program does where nothing is refused."""
    ends, number = [], 1
    while True:
        status, text, was_refused = run(shim, words, given, number, ALL if has_later else number)
        if not was_refused:
            return ends, (status, text)
        ends.append((status, text))
        number += 1


def program_case(shim, program, title, words, given):
    """The program itself; false where a number ended otherwise than it has to."""
    good = True
    for has_later in (False, True):
        ends, usual = each_number(shim, [program, *words], given, has_later)
        stopped = sum(end == (6, b"") for end in ends)
        asked_again = 0 if has_later else sum(end == usual for end in ends)
        good = good and stopped + asked_again == len(ends)
        how = "with all later ones" if has_later else "alone"
        print(f"{title}: {len(ends)} requests, {how}: {stopped} ended with 6 and nothing written, {asked_again} as always (status {usual[0]}), {len(ends) - stopped - asked_again} otherwise")
    return good


def call_case(shim, program, call, given, refused):
    """A call of a library by itself; false where a number ended otherwise than it has to."""
    rows = b"input\n" + given + b".\nwant " + call.encode() + b"\n"
    ends, usual = each_number(shim, [program], rows, False)
    told = [(status, text.decode().rpartition(": ")[2].strip()) for status, text in ends]
    counts = {word: told.count((0, word)) for word in (refused, "no trace", "no replay", "no image", "no pool", "made")}
    # the rows themselves could not be read, or what was told not be written
    counts["no row"] = sum(status != 0 and text == b"" for status, text in ends)
    left = len(ends) - sum(counts.values())
    print(f"{call}: {len(ends)} requests: " + ", ".join(f"{count} {word}" for word, count in counts.items() if count) + f", {left} otherwise")
    return left == 0 and counts[refused] > 0 and usual == (0, f"{call}: made\n".encode())


def main():
    folder = sys.argv[1] if len(sys.argv) > 1 else ""
    program = f"{folder}/cxlshm" if folder else "crates/cxlshm/out/cxlshm"
    rows = f"{folder}/t_program" if folder else "crates/t_program/out/t_program"
    with tempfile.TemporaryDirectory() as made:
        shim = build(made)
        image = run(shim, [program, "replay", "--image"], PUT, 0, 0)[1]
        migrated = run(shim, [program, "migrate"], image, 0, 0)[1]
        unclean = image[:32] + b"\1" + image[33:]
        cases = [
            ("replay", ["replay"], PUT),
            ("replay, with a death", ["replay"], TWO),
            ("replay of no trace", ["replay"], FAULTY),
            ("replay --image", ["replay", "--image"], TWO),
            ("replay --print", ["replay", "--print"], TWO),
            ("run", ["run"], PUT),
            ("run of two clients", ["run"], TEAM),
            ("run of no trace", ["run"], FAULTY),
            ("run --image", ["run", "--image"], PUT),
            ("run --medics 2", ["run", "--medics", "2"], PUT),
            ("run --medics 2 of a client that dies", ["run", "--medics", "2"], CUT),
            ("poll 7", ["poll", "7"], PUT),
            ("poll 7 --limit 2", ["poll", "7", "--limit", "2"], PUT),
            ("tree", ["tree"], TREE),
            ("tree of no script", ["tree"], FAULTY),
            ("audit", ["audit"], image),
            ("audit of no image", ["audit"], image[:-1]),
            ("migrate", ["migrate"], image),
            ("migrate of no image", ["migrate"], image[:-1]),
            ("migrate of an image of format 2", ["migrate"], migrated),
            ("migrate of a pool that is not clean", ["migrate"], unclean),
            ("make 0 1", ["make", "0", "1"], b""),
            ("make 0 4 --print", ["make", "0", "4", "--print"], b""),
            ("words that aren't accepted: fly", ["fly"], b""),
            ("words that aren't accepted: replay --image --print", ["replay", "--image", "--print"], b""),
        ]
        ends = [program_case(shim, program, *case) for case in cases]
        calls = [("parse", "refused"), ("replay", "refused"), ("run", "refused"), ("report", "refused"), ("migrate", "refused"), ("plain 2 2", "refused"), ("shared 2 2", "refused"), ("build 2 2", "refused"), ("build 16 256", "refused")]
        calls += [("close 2 2", "refused, then made"), ("finish 2 2", "refused, then made")]
        ends += [call_case(shim, rows, call, TWO, refused) for call, refused in calls]
    return 0 if all(ends) else 1


if __name__ == "__main__":
    sys.exit(main())
