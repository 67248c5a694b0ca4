#!/usr/bin/env python3
"""Writes the imports of a file as few lines, one group a crate and folder.

    python3 tools/group_imports.py . [--width N] [--dry] [--antt] [--flat] [CRATE..]

    use Rattle.shm_graph.specs.declared.memo.Look.{Look}
    use Rattle.shm_graph.specs.declared.memo.Memo.{Memo}        use Rattle.shm_graph.specs.{declared.memo.{Look.Look, Memo.Memo}, Asks.Trail, Core.core}
    use Rattle.shm_graph.specs.Asks.{Trail}               ->
    use Rattle.shm_graph.specs.Core.{core}

The first word is the top of the repository; with no CRATE it takes all of crates/. It reads `use` lines of .antt files (specs/, proofs/) and `ghost use` items of .rt files (src/; not with
--antt), and writes each path that was imported once, under the same name: no name, path or alias is added or dropped (it checks that for each file before it writes).
As they are stay: `pub use`, a module's line (`use M as x`), lines that begin with no library or with a short name of the file, any line that a must-fail edit quotes,
and the choice `if_then_else_`. A line is at most N characters (120), but a module's own list of names is never cut. --flat writes no braces within braces. Idempotent.
Prints each file that changed with its import lines before and after, and the sums. --dry writes nothing, and ends in status 1 where a file would change."""
import glob, os, re, sys
from collections import OrderedDict

LIBRARY = re.compile(r"[A-Za-z]\w*$")


def split_top(text):
    """The text's parts between commas that stand in no brace."""
    parts, depth, part = [], 0, ""
    for it in text:
        depth += (it == "{") - (it == "}")
        if it == "," and not depth:
            parts.append(part.strip())
            part = ""
        else:
            part += it
    if part.strip():
        parts.append(part.strip())
    return parts


def leaves(text):
    """The items of a path with braces, as (module's segments, name with its alias)."""
    at = text.find("{")
    if at < 0:
        path, _, name = text.partition(" as ")
        head, _, last = path.strip().rpartition(".")
        return [(tuple(head.split(".")) if head else (), last + (f" as {name.strip()}" if name else ""))]
    if not text.endswith("}") or text[at - 1 : at] not in (".", ""):
        raise ValueError(text)
    head = tuple(text[: at - 1].split(".")) if at else ()
    return [(head + path, name) for part in split_top(text[at + 1 : -1]) for path, name in leaves(part)]


class Node:
    """A module on the way to what is imported: the names taken of it, and the modules below, in the order in which they were met."""

    def __init__(self):
        self.parts = OrderedDict()

    def add(self, path, names):
        if path:
            self.parts.setdefault(("module", path[0]), Node()).add(path[1:], names)
        else:
            for name in names:
                self.parts[("name", name)] = None

    def lists(self, path=()):
        """Each module's own names between two modules below it: (path, names)."""
        names = []
        for (kind, word), node in self.parts.items():
            if kind == "name":
                names.append(word)
                continue
            if names:
                yield path, names
                names = []
            yield from node.lists((*path, word))
        if names:
            yield path, names

    def entries(self, flat):
        """What stands in this module's braces."""
        for (kind, word), node in self.parts.items():
            if kind == "name":
                yield word
                continue
            inner = [*node.entries(flat)]
            if len(inner) == 1 or flat:
                yield from (f"{word}.{it}" for it in inner)
            else:
                yield f"{word}.{{{', '.join(inner)}}}"

    def text(self, path, flat):
        """One import of all that is below: the common path, and the rest in braces."""
        node = self
        while len(node.parts) == 1:
            (kind, word), below = next(iter(node.parts.items()))
            if kind == "name":
                break
            path, node = (*path, word), below
        return f"{'.'.join(path)}.{{{', '.join(node.entries(flat))}}}"


def lines_of(head, path, group, width, flat, end):
    """The import lines of a group, each filled up to the width with whole lists of names."""
    found, lists = [], []

    def text_of(lists):
        node = Node()
        for below, names in lists:
            node.add(below, names)
        return head + node.text(path, flat) + end

    for it in group.lists():
        if lists and len(text_of([*lists, it])) > width:
            found.append(text_of(lists))
            lists = []
        lists.append(it)
    return found + [text_of(lists)] * bool(lists)


def quoted(root, crate):
    """By file of the crate: the texts that its edits quote, in must-fail/ and in tools/edits."""
    found = {}
    for edit in sorted(glob.glob(f"{root}/crates/{crate}/must-fail/*.edit") + glob.glob(f"{root}/tools/edits/{crate}/*.edit")):
        file = None
        for line in open(edit, encoding="utf8"):
            if line.startswith("file: "):
                file = line[6:].strip()
            elif line.startswith("old: ") and file:
                found.setdefault(file, []).append(line[5:].rstrip("\n"))
    return found


def rewritten(lines, head, end, kept, width, flat):
    """The run of import lines anew."""
    short = set()
    for line in lines:
        m = re.search(r" as ([^\s,{}]+)" + re.escape(end) + "$", line)
        if m and "{" not in line:
            short.add(m[1])
        elif "{" not in line:
            short.add(line[len(head) : len(line) - len(end)].rpartition(".")[2])
    order, groups, asides, tail = [], {}, {}, []
    for line in lines:
        text = line[len(head) : len(line) - len(end)] if line.startswith(head) else None
        first = text.split(".")[0] if text else ""
        if text is None or line in kept or first in short or first != "Rattle":
            key = ("", line)
            tail.append(line) if text is not None and first in short else (order.append(key), asides.setdefault(key, []).append(line))
            continue
        segments = text.split("{")[0].rstrip(".").split(" as ")[0].split(".")
        crate = segments[1] if len(segments) > 1 else ""
        if crate not in order:
            order.append(crate)
        if "{" not in text:
            asides.setdefault(crate, []).append((segments[2] if len(segments) > 2 else "", line))
            groups.setdefault((crate, segments[2] if len(segments) > 2 else ""), Node())
            continue
        for path, name in leaves(text):
            if len(path) < 3 or "if_then_else_" in name:
                asides.setdefault(crate, []).append((path[2] if len(path) > 2 else "", f"{head}{'.'.join(path)}.{{{name}}}{end}"))
                groups.setdefault((crate, path[2] if len(path) > 2 else ""), Node())
            else:
                groups.setdefault((crate, path[2]), Node()).add(path[3:], [name])
    found = []
    for key in order:
        if isinstance(key, tuple):
            found += asides[key]
            continue
        for (crate, kind), node in groups.items():
            if crate != key:
                continue
            found += lines_of(head, ("Rattle", crate, kind), node, width, flat, end)
            found += [line for at, line in asides.get(crate, []) if at == kind]
    return found + tail


def brings(lines, head, end):
    """What the lines bring, for the test that nothing was lost: each (path, name) and each other line."""
    found = []
    for line in lines:
        if line.startswith(head) and "{" in line:
            found += leaves(line[len(head) : len(line) - len(end)])
        else:
            found.append(line)
    return sorted(set(map(str, found)))


def changed(text, head, end, quotes, width, flat):
    """The file's text with each run of import lines anew, and the lines before and after."""
    out, run, before, after = [], [], 0, 0
    is_one = lambda it: it.startswith(head) and it.endswith(end) and it.count("{") == it.count("}")

    def close():
        nonlocal before, after
        if run:
            kept = {it for it in run if any(q in it or it in q for q in quotes)}
            new = rewritten(run, head, end, kept, width, flat)
            if brings(new, head, end) != brings(run, head, end):
                raise ValueError("not the same imports")
            before, after = before + len(run), after + len(new)
            out.extend(new)
            run.clear()

    for line in text.split("\n"):
        if is_one(line):
            run.append(line)
        else:
            close()
            out.append(line)
    close()
    return "\n".join(out), before, after


def main():
    words, width, dry, antt, flat = sys.argv[1:], 120, False, False, False
    named = []
    while words:
        word = words.pop(0)
        if word == "--width":
            width = int(words.pop(0))
        elif word == "--dry":
            dry = True
        elif word == "--antt":
            antt = True
        elif word == "--flat":
            flat = True
        else:
            named.append(word)
    if not named:
        sys.exit(__doc__)
    root, sums = named[0], {}
    chars = [0, 0]
    crates = named[1:] or sorted(os.listdir(f"{root}/crates"))
    for crate in crates:
        quotes = quoted(root, crate)
        for at, folders, names in os.walk(f"{root}/crates/{crate}"):
            folders[:] = sorted(it for it in folders if it != "out")
            for name in sorted(names):
                kind = name.rpartition(".")[2]
                if kind not in ("antt", "rt") or (antt and kind == "rt"):
                    continue
                file = f"{at}/{name}"
                short = os.path.relpath(file, f"{root}/crates/{crate}")
                text = open(file, encoding="utf8", newline="").read()
                head, end = ("ghost use ", ";") if kind == "rt" else ("use ", "")
                try:
                    new, before, after = changed(text, head, end, quotes.get(short, []), width, flat)
                except ValueError as why:
                    print(f"left: {crate}/{short}: {why}")
                    continue
                it = sums.setdefault(crate, {"antt": [0, 0], "rt": [0, 0], "files": 0})
                it[kind][0] += before
                it[kind][1] += after
                chars[0] += len(text)
                chars[1] += len(new)
                if new != text:
                    lost = [q for q in quotes.get(short, []) if text.count(q) == 1 and new.count(q) != 1]
                    if lost:
                        print(f"left: {crate}/{short}: an edit quotes {lost[0]}")
                        continue
                    it["files"] += 1
                    print(f"{crate}/{short} {before} -> {after}")
                    if not dry:
                        with open(file, "w", encoding="utf8", newline="") as out:
                            out.write(new)
    total = [0, 0, 0]
    for crate, it in sums.items():
        was, now = it["antt"][0] + it["rt"][0], it["antt"][1] + it["rt"][1]
        total = [total[0] + was, total[1] + now, total[2] + it["files"]]
        print(f"sum {crate}: antt {it['antt'][0]} -> {it['antt'][1]}, rt {it['rt'][0]} -> {it['rt'][1]}, files {it['files']}")
    print(f"sum of all: {total[0]} -> {total[1]} import lines ({total[1] - total[0]}), {chars[1] - chars[0]} characters, {total[2]} files")
    sys.exit(1 if dry and total[2] else 0)


main()
