#!/usr/bin/env python3
"""The rows of t_view and what they have to write, made without the program: by tools/figures.py, tools/runs.py, docs/IMAGE.md, docs/TRACE.md and docs/VIEW.md.

    python3 tools/view_rows.py           compares crates/t_view/stdin and stdout, and the rows of cxlview, with what they are to be
    python3 tools/view_rows.py --write   writes them

Run it at the top of the repository. It ends with status 1 where a file differs."""
import os
import sys

from audit import read
from figures import changes_of, shown_of
from runs import shown_of as run_shown

COMMANDS = """usage:
  cxlview stats < IMAGE           write the figures of an image as aligned text
  cxlview stats --json < IMAGE    write them as JSON
  cxlview pool < IMAGE > SVG      draw the pool of an image
  cat IMAGE IMAGE | cxlview pool --changes > SVG
                                  draw what changed from the first image to the second one
  cxlview steps < TRACE           write at which word steps each command of a trace's replay begins, decides and ends
  cxlview steps --words < TRACE   write each word step of it
  cxlview run < TRACE > SVG       draw the replay of a trace
`pool` takes --client C: the client whose table's references are drawn. `steps` and `run` take --from T and --to T: the first and the last turn that are shown.
"""
STATUSES = """Input comes on standard input, and what is written goes to standard output.
status: 0 done, 2 words not accepted, 3 input refused, 4 a read failed, 5 a write failed, 6 no memory
docs/VIEW.md says what the figures and the pictures show, docs/IMAGE.md what an image is, docs/TRACE.md what a trace is.
"""
TURNS = "cxlview: behind `--from` and `--to` stands the number of a turn, from 1 on, and the first turn isn't behind the last one\n"
CLIENTS = "cxlview: behind `--client` stands the number of a client, from 0 to 15\n"
FORMS = {"stats": "", "stats --json": "--json", "pool": "--svg"}
ALL_FORMS = {**FORMS, **{f"pool --client {c}": f"--svg-of-{c}" for c in range(16)}}


class Rows:
    """Rows and what they have to write, and the input that they have made."""

    def __init__(self):
        self.rows, self.told, self.data = [], [], b""

    def title(self, text):
        self.rows.append(f"# {text}")
        self.told.append(f"# {text}\n")
        self.data = b""

    def image(self, data):
        """Makes this image: of a pool whose words are 0, and then the words that aren't."""
        pool = read(data)
        self.rows.append(f"image {2 if pool.wide else 1} {pool.clients} {pool.segments}")
        self.rows += [f"set {at} {word}" for at, word in enumerate(pool.words) if word]
        self.data = data

    def byte(self, at, value):
        self.rows.append(f"byte {at} {value}")
        self.data = self.data[:at] + bytes([value]) + self.data[at + 1 :]

    def set(self, at, word):
        self.rows.append(f"set {at} {word}")
        self.data = with_words(self.data, {at: word})

    def images(self, before, after):
        """Makes these images, the second one behind the first one."""
        self.image(before)
        pool = read(after)
        self.rows.append(f"and {2 if pool.wide else 1} {pool.clients} {pool.segments}")
        self.rows += [f"set {at + len(before) // 8} {word}" for at, word in enumerate(pool.words) if word]
        self.data += after

    def cut(self, length):
        self.rows.append(f"cut {length}")
        self.data = self.data[:length]

    def call(self, words, status, said, written=""):
        self.rows.append(f"view {words}")
        self.told.append(f"> {words}\nstatus {status}\n{said}{written}")

    def shown(self, *forms):
        """Calls that show the image."""
        for words in forms or FORMS:
            self.call(words, 0, "", shown_of(read(self.data), ALL_FORMS[words]))

    def refused(self, line, why, commands=tuple(FORMS)):
        """Each command refuses the input."""
        for words in commands:
            self.call(words, 3, f"{line}\ncxlview: {why}\n")

    def trace(self, text):
        """Makes this trace."""
        self.rows += [f"+ {line}" for line in text.splitlines()]
        self.data = text.encode()

    def lines(self, count, text):
        """Adds so many lines of this text."""
        self.rows.append(f"lines {count} {text}")
        self.data += f"{text}\n".encode() * count

    def replayed(self, name, *commands):
        """Calls that show the replay of a trace."""
        trace, turns = replay_of(name)
        self.title(f"the replay of {os.path.basename(name)}")
        self.trace(trace)
        for words in commands:
            self.call(words, 0, "", run_shown(trace, turns, words.split(" ")))


def replay_of(name):
    """The text of a trace, and the turns of its replay as another implementation made them."""
    return open(f"{name}.trace").read(), open(f"tools/replays/{os.path.basename(name)}.turns").read()


def with_words(data, words):
    """An image with these words of the pool at their addresses."""
    data = bytearray(data)
    for at, word in words.items():
        data[24 + 8 * at : 32 + 8 * at] = word.to_bytes(8, "little")
    return bytes(data)


def live(client, count, era=1):
    """The header of a live block."""
    return 1 << 63 | client << 57 | count << 47 | era


def tag(pool, refs, plain, author):
    """The tag of a block without a link."""
    low = 24 if pool.wide else 20
    return refs << low + 10 | plain << low + 6 | author << low


def empty(wide, clients, segments):
    """The image of a pool whose words are 0."""
    size = 1 + 21 * clients + (clients if wide else 0) + 11 * clients * clients + 2065 * segments
    frame = (b"CXLSHM02" if wide else b"CXLSHM01") + clients.to_bytes(8, "little") + segments.to_bytes(8, "little")
    return frame + bytes(8 * size)


def busy(wide):
    """An image of three clients and four segments in the midst of work: a table with a chain of three, roots, queues, a latch that is held."""
    data = empty(wide, 3, 4)
    pool = read(data)
    page = lambda s, p: pool.bodies + 2048 * s + 128 * p
    directory, entries, values = page(0, 0), [page(0, 1) + 8 * k for k in (0, 1, 5)], [page(0, 2) + 4 * k for k in (0, 31)]
    words = {1: 1, 2: 2, 3: 3, pool.holds + 1: 1, pool.latches: 2, pool.homes: directory}
    words |= {pool.owners: 1, pool.owners + 2: 2, pool.owners + 3: 1, pool.pages: 32, pool.pages + 1: 8, pool.pages + 2: 4, pool.pages + 16 * 2 + 15: 16}
    words |= {directory: live(0, 1), directory + 1: tag(pool, 16, 0, 0), directory + 2 + 5: entries[0]}
    for k, entry in enumerate(entries):
        after = entries[k + 1] if k < 2 else 0
        words |= {entry: live(0, 1, 2 + k), entry + 1: tag(pool, 2, 1, 0), entry + 2: after, entry + 3: values[k % 2], entry + 4: 5 + 16 * k}
    words |= {values[0]: live(0, 2 + 3), values[0] + 1: tag(pool, 0, 1, 0), values[0] + 2: 77, values[1]: live(2, 1), values[1] + 1: tag(pool, 0, 1, 2)}
    words |= {pool.roots: values[0], pool.roots + 15: values[0], pool.queues + 10 * (0 * 3 + 1) + 2 + 7: values[0]}
    words |= {page(2, 15) + 16: live(1, 1), page(2, 15) + 17: tag(pool, 0, 8, 1), pool.queues + 10 * (2 * 3 + 1) + 2: page(2, 15) + 16}
    return with_words(data, words)


def later(data):
    """Such an image later: a value has one reference more, a reference was taken back, and a page has another class and another block."""
    pool = read(data)
    value, page = pool.bodies + 2 * 128, pool.bodies + 2048 * 2 + 128 * 15
    words = {value: live(0, 6), pool.roots + 1: value, pool.queues + 10 * (2 * 3 + 1) + 2: 0, page + 16: 0, page + 17: 0}
    words |= {pool.pages + 16 * 2 + 15: 8, page + 8: live(1, 1), page + 9: tag(pool, 0, 2, 1), pool.roots + 16: page + 8}
    return with_words(data, words)


def words_rows(rows):
    rows.title("words that aren't accepted")
    for words, why in (
        ("", "cxlview: a command is missing\n"),
        ("statz", "cxlview: `statz` is no command\n"),
        ("stats one.image", "cxlview: `stats` doesn't take `one.image`: it reads standard input: `cxlview stats < one.image`\n"),
        ("stats --svg", "cxlview: `stats` doesn't take `--svg`\n"),
        ("stats --json --json", "cxlview: `stats` doesn't take a word twice\n"),
        ("pool --json", "cxlview: `pool` doesn't take `--json`\n"),
        ("pool 1", "cxlview: `pool` doesn't take `1`: it reads standard input: `cxlview pool < 1`\n"),
        ("pool --client 16", CLIENTS),
        ("pool --client", CLIENTS),
        ("pool --client=x", CLIENTS),
        ("pool --client 0 --client=1", "cxlview: `pool` doesn't take a word twice\n"),
        ("stats --client 0", "cxlview: `stats` doesn't take `--client`\n"),
        ("pool --changes --changes", "cxlview: `pool` doesn't take a word twice\n"),
        ("pool --changes --client 0", "cxlview: `pool` doesn't take `--changes` and `--client` together\n"),
        ("pool --changes=1", "cxlview: `pool` doesn't take `--changes=1`\n"),
        ("pool --changes one.image", "cxlview: `pool` doesn't take `one.image`: it reads two images from standard input: `cat IMAGE IMAGE | cxlview pool --changes`\n"),
        ("pool one.image --changes", "cxlview: `pool` doesn't take `one.image`: it reads two images from standard input: `cat IMAGE IMAGE | cxlview pool --changes`\n"),
        ("stats --changes", "cxlview: `stats` doesn't take `--changes`\n"),
        ("steps one.trace", "cxlview: `steps` doesn't take `one.trace`: it reads standard input: `cxlview steps < one.trace`\n"),
        ("steps --json", "cxlview: `steps` doesn't take `--json`\n"),
        ("steps --words --words", "cxlview: `steps` doesn't take a word twice\n"),
        ("run --words", "cxlview: `run` doesn't take `--words`\n"),
        ("run --from 1 --from=2", "cxlview: `run` doesn't take a word twice\n"),
        ("run --to 5 one.trace", "cxlview: `run` doesn't take `one.trace`: it reads standard input: `cxlview run < one.trace`\n"),
        ("steps --from 0", TURNS),
        ("steps --from 5 --to 4", TURNS),
        ("steps --words --to x", TURNS),
        ("steps --to", TURNS),
        ("run --from 01", TURNS),
        ("run --to=18446744073709551616", TURNS),
    ):
        rows.call(words, 2, why + COMMANDS)
    for words in ("--help", "help", "stats -h"):
        rows.call(words, 2, COMMANDS + STATUSES)


def shown_rows(rows):
    for name in ("one_put.image", "one_put.format_2.image"):
        rows.title(f"the image examples/{name}")
        rows.image(open(f"examples/{name}", "rb").read())
        rows.shown()
        rows.shown("pool --client 0")
    rows.title("empty pools")
    for sizes in ((False, 1, 1), (False, 16, 2), (True, 2, 1)):
        rows.image(empty(*sizes))
        rows.shown(*FORMS if sizes[1] == 1 else ("stats", "stats --json"))
    for wide in (False, True):
        rows.title(f"clients in the midst of work, format {1 + wide}")
        rows.image(busy(wide))
        rows.shown()
        rows.shown("pool --client 0", "pool --client 1", "pool --client 15")
    rows.title("the verdicts")
    rows.image(busy(False))
    pool = read(rows.data)
    for client in (1, 2):
        rows.set(client, 3)
        rows.shown("stats")
    rows.set(pool.bodies + 2 * 128, live(0, 4))
    rows.shown("stats")
    rows.set(pool.bodies + 2 * 128 + 4, live(0, 0))
    rows.set(pool.bodies + 2 * 128 + 5, tag(pool, 0, 1, 0))
    rows.shown("stats", "stats --json")
    rows.title("a status that none has, a chain that goes in a circle, and a home that names no directory")
    rows.image(busy(False))
    rows.set(1, 7)
    rows.set(pool.bodies + 128 + 40 + 2, pool.bodies + 128)
    rows.shown("stats", "pool --client 0")
    rows.set(pool.homes + 1, pool.bodies + 2 * 128 + 31 * 4)
    rows.shown("stats")


def fault_rows(rows):
    first = open("examples/one_put.image", "rb").read()
    rows.title("images that are refused")
    rows.refused("refused short 0", "the image has 0 bytes, and the first 24 say what it is: `CXLSHM01` or `CXLSHM02`, how many clients, and how many segments")
    rows.image(first)
    rows.cut(23)
    rows.refused("refused short 23", "the image has 23 bytes, and the first 24 say what it is: `CXLSHM01` or `CXLSHM02`, how many clients, and how many segments")
    rows.image(first)
    rows.byte(7, ord("3"))
    rows.refused(f"refused magic {int.from_bytes(b'CXLSHM03', 'little')}", "an image begins with `CXLSHM01` or `CXLSHM02`, and this one with `CXLSHM03`")
    rows.image(first)
    rows.byte(8, 17)
    rows.refused("refused geometry 17 1", "the image says 17 clients and 1 segments: a pool has 1 to 16 clients and 1 to 256 segments, or 1 to 8000 in format 2")
    rows.image(first)
    rows.cut(16807)
    rows.refused("refused length 16807 want 16808", "the image has 16807 bytes, and by its clients and segments it has 16808")
    rows.image(first)
    rows.set(34, 5)
    rows.refused("refused page 34 5", "word 34 of the pool, at byte 296 of the image, is 5: the word of a page is 0, 4, 8, 16 or 32")
    rows.image(first)
    rows.set(54, 1)
    rows.refused("refused header 54 1", "word 54 of the pool, at byte 456 of the image, is 1: the header of a block is 0, or that of a live block of a client of the pool")
    rows.image(first)
    rows.set(51, 1 << 36)
    rows.refused(f"refused tag 51 {1 << 36}", f"word 51 of the pool, at byte 432 of the image, is {1 << 36}: it isn't the tag of a block of its size by a client of the pool")
    rows.image(first)
    rows.set(185, 307)
    rows.refused("refused reference 185 307", "word 185 of the pool, at byte 1504 of the image, is 307: a reference is 0, or names a live block with a count above 0")


def change_rows(rows):
    put, wide, four, five = (open(f"examples/{name}.image", "rb").read() for name in ("one_put", "one_put.format_2", "four_puts", "five_puts"))
    rows.title("what changed between two images")
    pool, narrow, more = empty(False, 1, 1), busy(False), busy(True)
    pairs = [(put, put), (four, five), (pool, put), (put, pool), (put, wide), (narrow, later(narrow)), (later(more), more)]
    for before, after in [*pairs, (put, narrow), (narrow, put), (pool, empty(True, 2, 65))]:
        rows.images(before, after)
        rows.call("pool --changes", 0, "", changes_of(read(before), read(after)))
    rows.title("two images of which one is refused")
    frame = "and the first 24 say what it is: `CXLSHM01` or `CXLSHM02`, how many clients, and how many segments"
    page = "word 34 of the pool, at byte 296 of the image, is 5: the word of a page is 0, 4, 8, 16 or 32"

    def refused(line, why):
        rows.call("pool --changes", 3, f"{line}\ncxlview: of the {why}\n")

    refused("refused short 0", f"first image: the image has 0 bytes, {frame}")
    rows.image(put)
    refused("refused short 0", f"second image: the image has 0 bytes, {frame}")
    rows.cut(16807)
    refused("refused length 16807 want 16808", "first image: the image has 16807 bytes, and by its clients and segments it has 16808")
    rows.images(put, put)
    rows.byte(7, ord("3"))
    refused(f"refused magic {int.from_bytes(b'CXLSHM03', 'little')}", "first image: an image begins with `CXLSHM01` or `CXLSHM02`, and this one with `CXLSHM03`")
    for first, which in ((0, "first"), (len(put) // 8, "second")):
        rows.images(put, put)
        rows.set(34 + first, 5)
        refused("refused page 34 5", f"{which} image: {page}")
    rows.images(put, put)
    rows.rows.append("and 1 1 1")
    refused("refused length 33616 want 16808", "second image: the image has 33616 bytes, and by its clients and segments it has 16808")


def replay_rows(rows):
    rows.replayed("examples/one_put", "steps", "steps --words", "run", "steps --words --from 80 --to=90", "run --from 80 --to 90")
    rows.replayed("examples/death", "steps", "run", "steps --words --from 235 --to 240", "run --from=100", "run --to 300", "steps --from 236 --to 237")
    rows.replayed("examples/two_clients", "steps", "run", "steps --words --from 270 --to 310", "run --from 100 --to 260")
    rows.replayed("examples/recoverers", "steps", "run", "steps --words --from 148 --to 166", "run --from 140 --to 190", "run --from 400 --to 18446744073709551615", "steps --from 879", "run --from 879")
    rows.replayed("tools/replays/wide", "steps", "steps --words", "run")
    rows.replayed("tools/replays/lives", "steps", "steps --words --to 20", "run --to 30")
    rows.replayed("tools/replays/nobody", "steps", "steps --words", "run")


def trace_fault_rows(rows):
    commands = ("steps", "steps --words", "run")
    rows.title("traces that are refused")
    rows.refused("refused line 1 syntax", "line 1 of the trace: the input ends before it\n  wanted: pool N G | pool2 N G", commands)
    rows.trace("pool 1 1\nclient 0\nputt 5 77\n")
    forms = "one of pool N G | pool2 N G | order C:T .. | client C | life L .. | put K V | del K | get C K | copy K C K | send C K | recv C K"
    rows.refused("refused line 3 syntax", f"line 3 of the trace: no line begins with `putt`\n  found:  putt 5 77\n  wanted: {forms}", commands)
    rows.title("a number out of its range")
    rows.trace("pool 3 257\n")
    rows.refused("refused line 1 range", "line 1 of the trace: 257 is out of range: G is 1 to 256 here\n  found:  pool 3 257", commands)
    rows.title("two scripts of one client")
    rows.trace("pool 2 1\nclient 0\nclient 1\nclient 0\n")
    rows.refused("refused line 4 twice", "line 4 of the trace: that client has a script already, at line 2\n  found:  client 0", commands)
    rows.title("too many items")
    rows.trace(f"pool 1 1\norder{' 0' * 1001}\n")
    rows.refused("refused line 2 limit", "line 2 of the trace: an order has 1000 items at most", commands)
    rows.title("too many bytes: what was read of the line in which they begin is shown")
    rows.trace("pool 1 1\nclient 0\n")
    rows.lines(116507, "put 5 77")
    found = rows.data[:1048577].decode().split("\n")[116508]
    rows.refused("refused line 116509 limit", f"line 116509 of the trace: the input has more than 1048576 bytes\n  found:  {found}", commands)
    rows.title("an image in place of a trace, and a trace in place of an image")
    rows.trace("pool 1 1\nclient 0\n")
    rows.refused("refused short 18", "the image has 18 bytes, and the first 24 say what it is: `CXLSHM01` or `CXLSHM02`, how many clients, and how many segments")


def stream_rows(rows):
    rows.title("reads and writes that fail")
    rows.image(open("examples/one_put.image", "rb").read())
    for number in (1, 3):
        rows.rows.append(f"read {number}")
        rows.call("stats", 4, "cxlview: standard input can't be read\n")
    rows.rows.append("write 1")
    rows.call("stats", 5, "cxlview: standard output can't be written\n")
    picture = shown_of(read(rows.data), "--svg")
    rows.rows.append("write 2")
    rows.call("pool", 5, "cxlview: standard output can't be written\n", picture[:4096])
    rows.title("the same of two images")
    put = open("examples/one_put.image", "rb").read()
    rows.images(put, put)
    rows.rows.append("read 2")
    rows.call("pool --changes", 4, "cxlview: standard input can't be read\n")
    rows.rows.append("write 2")
    rows.call("pool --changes", 5, "cxlview: standard output can't be written\n", changes_of(read(put), read(put))[:4096])
    rows.title("the same of a trace")
    trace, turns = replay_of("examples/one_put")
    rows.trace(trace)
    for number in (1, 2):
        rows.rows.append(f"read {number}")
        rows.call("steps", 4, "cxlview: standard input can't be read\n")
    rows.rows.append("write 2")
    rows.call("steps --words", 5, "cxlview: standard output can't be written\n", run_shown(trace, turns, ["steps", "--words"])[:4096])


def files():
    """What each file is to hold."""
    rows = Rows()
    words_rows(rows)
    shown_rows(rows)
    fault_rows(rows)
    change_rows(rows)
    replay_rows(rows)
    trace_fault_rows(rows)
    stream_rows(rows)
    image = open("examples/one_put.image", "rb").read()
    return {
        "crates/t_view/stdin": ("\n".join(rows.rows) + "\n").encode(),
        "crates/t_view/stdout": "".join(rows.told).encode(),
        "crates/cxlview/stdin": image,
        "crates/cxlview/stdout": shown_of(read(image), "").encode(),
    }


def main(words):
    differs = 0
    for path, data in files().items():
        if words == ["--write"]:
            open(path, "wb").write(data)
        else:
            try:
                held = open(path, "rb").read()
            except FileNotFoundError:
                held = b""
            if held != data:
                print(f"{path} isn't what tools/view_rows.py makes")
                differs = 1
    return differs


if __name__ == "__main__":
    sys.exit(main(sys.argv[1:]))
