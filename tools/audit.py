#!/usr/bin/env python3
"""Audits images of pools and reports of runs, in plain Python that shares no code with the program: docs/IMAGE.md, docs/WORDS.md and docs/MODEL.md say what is read here.

    python3 tools/audit.py IMAGE..             each file is an image
    python3 tools/audit.py --left IMAGE..      the same, and each is an image that `replay --image` or `run --image` wrote
    python3 tools/audit.py --report TRACE REPORT

For an image it prints `clean live L refs F`, as `cxlshm audit` does, or a line for each thing that is wrong with it, at most ten, and then ends with status 1:
its bytes (mark, sizes, length), the class of each page, each header and tag, each reference, and that the count of each live block is the number of words that name it.
With --left it also asks what a closing leaves: nobody holds a root, a latch, a segment or an item of a queue; the eras are in order; what isn't used is 0; each block is of
the least class that it needs; and every live block belongs to tables of clients, of the shape of docs/WORDS.md, "The table".

For a report it compares its lines with the trace: each script's commands in order, the table with the maps that the answers leave, and the numbers at its end.

tools/soak imports it. Run by hand, it is one more judge of an image beside the program's own."""
import sys
from array import array
from collections import Counter

MARKS = {b"CXLSHM01": False, b"CXLSHM02": True}
CLASSES = (4, 8, 16, 32)
MOST = 10


class Wrong(Exception):
    """The bytes are no image, or the lines no report."""


class Pool:
    """The words of an image, and where they are. `wide` is format 2."""

    def __init__(self, wide, clients, segments, words):
        self.wide, self.clients, self.segments, self.words = wide, clients, segments, words
        n, more = clients, clients if wide else 0
        self.holds = 1 + 2 * n + more
        self.latches = self.holds + n
        self.homes = self.latches + n
        self.eras = self.homes + n
        self.roots = self.eras + n * n
        self.queues = self.roots + 16 * n
        self.owners = self.queues + 10 * n * n
        self.pages = self.owners + segments
        self.bodies = self.pages + 16 * segments

    def blocks(self):
        """The address and the class of each block, live or free, in order."""
        for page in range(16 * self.segments):
            size = self.words[self.pages + page]
            if size:
                start = self.bodies + 128 * page
                for at in range(start, start + 128, size):
                    yield at, size

    def slots(self):
        """The addresses of the slots of all queues."""
        for queue in range(self.clients * self.clients):
            yield from range(self.queues + 10 * queue + 2, self.queues + 10 * queue + 10)

    def tag(self, word):
        """References, plain words, author and link of a tag, or none."""
        low, author_bits = (24, 6) if self.wide else (20, 6)
        link = word & ((1 << low) - 1)
        author = word >> low & ((1 << author_bits) - 1)
        plain = word >> (low + 6) & 15
        refs = word >> (low + 10) & 31
        if word >> (low + 15) or refs > 16 or plain > 8:
            return None
        return refs, plain, author, link


def header(word):
    """Client, count and era of a live header, or none."""
    return (word >> 57 & 63, word >> 47 & 1023, word & ((1 << 47) - 1)) if word >> 63 else None


def size_of(clients, segments, wide):
    """How many words such a pool has."""
    return 1 + 21 * clients + (clients if wide else 0) + 11 * clients * clients + 2065 * segments


def read(data):
    """The pool of an image."""
    if len(data) < 24:
        raise Wrong(f"short: {len(data)} bytes")
    if data[:8] not in MARKS:
        raise Wrong(f"mark: {data[:8]!r}")
    wide = MARKS[data[:8]]
    clients, segments = int.from_bytes(data[8:16], "little"), int.from_bytes(data[16:24], "little")
    if not 1 <= clients <= 16 or not 1 <= segments <= (8000 if wide else 256):
        raise Wrong(f"sizes: {clients} clients, {segments} segments")
    wanted = 24 + 8 * size_of(clients, segments, wide)
    if len(data) != wanted:
        raise Wrong(f"length: {len(data)} bytes, and {wanted} are wanted")
    words = array("Q")
    words.frombytes(data[24:])
    if sys.byteorder == "big":
        words.byteswap()
    return Pool(wide, clients, segments, words)


def live_blocks(pool, said):
    """Each live block by its address: (client, count, era, references, plain words, author). What is wrong with pages, headers and tags is said."""
    found = {}
    for page in range(16 * pool.segments):
        if pool.words[pool.pages + page] not in (0, *CLASSES):
            said.append(f"page {pool.pages + page}: no class is {pool.words[pool.pages + page]}")
            return found
    for at, size in pool.blocks():
        word = pool.words[at]
        if word == 0:
            continue
        head = header(word)
        if head is None or head[0] >= pool.clients:
            said.append(f"header {at}: {word} is neither 0 nor live and of a client")
            continue
        tag = pool.tag(pool.words[at + 1])
        if tag is None or 2 + tag[0] + tag[1] > size or tag[2] >= pool.clients:
            said.append(f"tag {at + 1}: {pool.words[at + 1]} is none of a block of {size} words")
            continue
        found[at] = (*head, *tag[:3])
    return found


def references(pool, live):
    """The address of each word that may name a block, in order of kinds."""
    yield from range(pool.homes, pool.homes + pool.clients)
    yield from range(pool.roots, pool.roots + 16 * pool.clients)
    yield from pool.slots()
    for at, block in live.items():
        yield from range(at + 2, at + 2 + block[3])


def audit(pool):
    """What is wrong with the words of a clean pool, how many blocks are live, and how many words name one."""
    said, named = [], Counter()
    live = live_blocks(pool, said)
    for at in references(pool, live):
        word = pool.words[at]
        if word == 0:
            continue
        if word not in live:
            said.append(f"reference {at}: {word} is no live block")
        else:
            named[word] += 1
    for client in range(pool.clients):
        if pool.words[1 + client] not in (0, 3):
            said.append(f"status of {client}: {pool.words[1 + client]}")
    for at, block in live.items():
        if block[1] == 0:
            said.append(f"block {at}: it is live, and its count is 0")
        elif block[1] != named[at]:
            said.append(f"block {at}: its count is {block[1]}, and {named[at]} words name it")
    return said, live, sum(named.values())


def held(pool):
    """What somebody holds still, in a pool that was closed."""
    words, n = pool.words, pool.clients
    for what, first, count in (("hold", pool.holds, n), ("latch", pool.latches, n), ("root", pool.roots, 16 * n), ("segment", pool.owners, pool.segments)):
        for k in range(count):
            if words[first + k]:
                yield f"{what} {k}: {words[first + k]}, and nobody is there"
    for client in range(n):
        if words[1 + client] != 3:
            yield f"status of {client}: {words[1 + client]}, and all were visited"
    for queue in range(n * n):
        tail, head = words[pool.queues + 10 * queue], words[pool.queues + 10 * queue + 1]
        if tail != head:
            yield f"queue from {queue // n} to {queue % n}: tail {tail}, head {head}"
        if queue // n == queue % n and tail:
            yield f"queue from {queue // n} to itself: it was used"
    for at in pool.slots():
        if words[at]:
            yield f"slot {at}: {words[at]}, and nothing waits"


def unused(pool):
    """Words that are to be 0: the spare one, and those of pages without a class."""
    if pool.words[0]:
        yield f"word 0: {pool.words[0]}"
    for page in range(16 * pool.segments):
        if pool.words[pool.pages + page] == 0:
            start = pool.bodies + 128 * page
            if any(pool.words[start : start + 128]):
                yield f"page {page}: it has no class, and words that aren't 0"


def tags_left(pool, live):
    """Tags with a link, which only a block has that is about to be freed, and blocks of a larger class than they need."""
    for at, size in pool.blocks():
        if at not in live:
            continue
        refs, plain, _, link = pool.tag(pool.words[at + 1])
        if link:
            yield f"tag {at + 1}: it has a link, and the block's count is {live[at][1]}"
        if size != min(it for it in CLASSES if 2 + refs + plain <= it):
            yield f"block {at}: its class {size} isn't the least for {refs} references and {plain} plain words"


def era_order(pool, live):
    """Eras that are out of order: where no step is in progress, all that is seen of an identity's era is below its own."""
    words, n = pool.words, pool.clients
    own = [words[pool.eras + client * n + client] for client in range(n)]
    for client in range(n):
        if own[client] < 1:
            yield f"era of {client}: 0"
        for other in range(n):
            if other != client and words[pool.eras + other * n + client] >= own[client]:
                yield f"era of {client} in row {other}: {words[pool.eras + other * n + client]}, and its own is {own[client]}"
    for at, (client, _, era, *_) in live.items():
        if not 1 <= era < own[client]:
            yield f"header {at}: era {era} of {client}, whose own is {own[client]}"


def tables(pool, live, said):
    """The rows of the table: (client, key, number, value block). What doesn't have its shape is said."""
    rows, seen = [], Counter()

    def part(at, author, refs, plain, what):
        block = live.get(at)
        if block is None or block[3:5] != (refs, plain) or author is not None and block[5] != author:
            said.append(f"{what}: block {at} is no such block{'' if author is None else f' of {author}'}")
            return False
        seen[at] += 1
        return True

    for client in range(pool.clients):
        home = pool.words[pool.homes + client]
        if not home or not part(home, client, 16, 0, f"directory of {client}"):
            continue
        for bucket in range(16):
            at, keys = pool.words[home + 2 + bucket], set()
            while at and part(at, client, 2, 1, f"entry of {client} in bucket {bucket}"):
                key, value = pool.words[at + 4], pool.words[at + 3]
                if key >= 1 << 32 or key % 16 != bucket or key in keys:
                    said.append(f"entry {at}: key {key} in bucket {bucket} of {client}")
                    break
                keys.add(key)
                if part(value, None, 0, 1, f"value of {client}'s key {key}"):
                    rows.append((client, key, pool.words[value + 2], value))
                at = pool.words[at + 2]
    for at in live:
        if at not in seen:
            said.append(f"block {at}: it is live, and in no table")
    for at, times in seen.items():
        if live[at][3:5] != (0, 1) and times > 1:
            said.append(f"block {at}: it stands {times} times in tables")
    return sorted(rows)


def audit_left(data):
    """What is wrong with an image of a pool that was closed, the line of its audit, and the rows of its table."""
    try:
        pool = read(data)
    except Wrong as wrong:
        return [str(wrong)], "", []
    said, live, refs = audit(pool)
    if said:
        return said, "", []
    rows = tables(pool, live, said)
    said += [*held(pool), *unused(pool), *tags_left(pool, live), *era_order(pool, live)]
    return said, f"clean live {len(live)} refs {refs}", rows


# Reports.

ANSWERS = {
    "put": "ok full rootsfull countfull eraspent",
    "del": "ok missing countfull eraspent",
    "get": "value missing",
    "copy": "value missing full rootsfull countfull eraspent",
    "send": "ok missing queuefull countfull eraspent",
    "recv": "value empty full rootsfull countfull eraspent",
}


def scripts_of(trace):
    """The commands of each client's script, in the order of the scripts, and how many clients there are."""
    scripts, lines = [], trace.split("\n")
    for line in lines[1:]:
        words = line.split(" ")
        if words[0] == "client":
            scripts.append((int(words[1]), []))
        elif words[0] in ANSWERS:
            scripts[-1][1].append(line)
    return scripts, int(lines[0].split(" ")[1])


def answered(map, command, line):
    """Does to a client's map what an answered command does."""
    if not line.startswith(command + " "):
        raise Wrong(f"the line `{line}`, where the command is `{command}`")
    words, answer = command.split(" "), line[len(command) + 1 :].split(" ")
    kind, key = words[0], int(words[-1 if words[0] in ("get", "send", "recv") else 1])
    if answer[0] not in ANSWERS[kind].split(" ") or (len(answer) == 2) != (answer[0] == "value") or len(answer) > 2:
        raise Wrong(f"the line `{line}`: no {kind} answers so")
    if kind == "put" and answer == ["ok"]:
        map[key] = int(words[2])
    elif kind == "del" and answer == ["ok"]:
        map.pop(key, None)
    elif kind in ("copy", "recv") and answer[0] == "value":
        map[key] = int(answer[1])


def check_report(trace, report):
    """What is wrong with a report of this trace, by a replay, a run or polls; none where nothing is found."""
    try:
        return told_wrong(trace, report)
    except (Wrong, IndexError, ValueError) as wrong:
        return str(wrong) or "it ends early"


def told_wrong(trace, report):
    if not report.endswith("\n"):
        raise Wrong("it doesn't end with a line feed")
    lines = iter(report[:-1].split("\n"))
    take = lambda: next(lines, "").split(" ")
    scripts, clients = scripts_of(trace)
    maps = {}
    for client, commands in scripts:
        words = take()
        if words[:2] != ["client", str(client)] or words[2] not in ("ended", "died"):
            raise Wrong(f"`{' '.join(words)}`, where client {client} is wanted")
        count = int(words[3]) + (words[4:] == ["done"])
        if words[2] == "ended" and (count != len(commands) or words[4:]) or words[2] == "died" and words[4:] not in (["done"], ["undone"]) or count > len(commands):
            raise Wrong(f"`{' '.join(words)}`, of {len(commands)} commands")
        maps[client] = {}
        for command in commands[:count]:
            answered(maps[client], command, next(lines, ""))
    rows = sorted((client, key, number) for client, map in maps.items() for key, number in map.items())
    if take() != ["table", str(len(rows))]:
        raise Wrong(f"the table hasn't {len(rows)} rows, which the answers leave")
    values, counts = {}, Counter()
    for row in rows:
        words = take()
        if words[:3] != [*map(str, row)] or words[3] not in (*values, f"v{len(values) + 1}") or values.setdefault(words[3], row[2]) != row[2]:
            raise Wrong(f"the row `{' '.join(words)}`, where the answers leave {row}")
        counts[words[3]] += 1
    for value in values:
        words = take()
        if words != ["value", value, str(counts[value])]:
            raise Wrong(f"`{' '.join(words)}`, where {counts[value]} rows have {value}")
    homes = take()
    if homes[0] != "homes" or not len({row[0] for row in rows}) <= int(homes[1]) <= clients:
        raise Wrong(f"`{' '.join(homes)}`")
    last, wanted = take(), ["live", str(int(homes[1]) + len(rows) + len(values)), "refs", str(int(homes[1]) + 2 * len(rows))]
    if last != wanted:
        raise Wrong(f"`{' '.join(last)}`, where tables alone have `{' '.join(wanted)}`")
    if next(lines, None) is not None:
        raise Wrong("lines behind its last one")
    return None


def tell(name, said, good):
    """Prints what was found, and whether all is well."""
    for it in said[:MOST]:
        print(f"{name}{it}")
    if len(said) > MOST:
        print(f"{name}and {len(said) - MOST} more")
    if not said:
        print(f"{name}{good}")
    return not said


def main(words):
    if words[:1] == ["--report"] and len(words) == 3:
        texts = [open(it, encoding="ascii", newline="").read() for it in words[1:]]
        wrong = check_report(*texts)
        return 0 if tell("", [wrong] if wrong else [], "the report fits the trace") else 1
    left = words[:1] == ["--left"]
    files = words[left:]
    if not files or any(it.startswith("-") for it in files):
        print(__doc__)
        return 2
    well = True
    for file in files:
        data = open(file, "rb").read()
        name = f"{file}: " if len(files) > 1 else ""
        if left:
            said, line, _ = audit_left(data)
        else:
            try:
                said, live, refs = audit(read(data))
                line = f"clean live {len(live)} refs {refs}"
            except Wrong as wrong:
                said, line = [str(wrong)], ""
        well = tell(name, said, line) and well
    return 0 if well else 1


if __name__ == "__main__":
    sys.exit(main(sys.argv[1:]))
