#!/usr/bin/env python3
"""The figures and the picture of an image, in plain Python that shares no code with the program: what `cxlview` has to write (docs/VIEW.md).

    python3 tools/figures.py IMAGE           what `cxlview stats` writes
    python3 tools/figures.py --json IMAGE    what `cxlview stats --json` writes
    python3 tools/figures.py --svg IMAGE     what `cxlview pool` writes
    python3 tools/figures.py --svg-of-0 IMAGE    what `cxlview pool --client 0` writes
    python3 tools/figures.py --changes IMAGE IMAGE    what `cxlview pool --changes` writes of the two

It reads the image as tools/audit.py does, by docs/IMAGE.md and docs/WORDS.md."""
import html
import json
import sys
from collections import Counter

from audit import audit, header, read, references

STATUSES = ("new", "live", "dead", "gone")


def named(word):
    """Who a word names by number and one; 0 is nobody."""
    return None if word == 0 else word - 1


def word(pool, at):
    """The word at an address, and 0 past the end."""
    return pool.words[at] if at < len(pool.words) else 0


def chains(pool, home):
    """How many entries each chain of a directory has: at most 256 for each segment of the pool, as many as there is room for."""
    found = []
    for bucket in range(16) if home else ():
        length, at = 0, word(pool, home + 2 + bucket)
        while at and length < 256 * pool.segments:
            length, at = length + 1, word(pool, at + 2)
        found.append(length)
    return found


def tables(pool):
    """The tables by name: the names of the columns, and the rows."""
    n, words = pool.clients, pool.words
    owners = Counter(words[pool.owners : pool.pages])
    pages = Counter(words[pool.pages : pool.bodies])
    live, free, counts = Counter(), Counter(), Counter()
    for at, size in pool.blocks():
        head = header(words[at])
        if head:
            live[size] += 1
            counts[head[1]] += 1
        else:
            free[size] += 1
    clients = []
    for c in range(n):
        found = chains(pool, words[pool.homes + c])
        waiting = sum(1 for s in range(n) for k in range(8) if words[pool.queues + 10 * (s * n + c) + 2 + k])
        roots = sum(1 for k in range(16) if words[pool.roots + 16 * c + k])
        clients.append((c, STATUSES[words[1 + c]] if words[1 + c] < 4 else "unknown", named(words[pool.holds + c]), named(words[pool.latches + c]), words[pool.homes + c], roots, waiting, sum(found), max(found, default=0)))
    return {
        "pool": (("format", "clients", "segments", "words"), [(2 if pool.wide else 1, n, pool.segments, len(words))]),
        "segments": (("owner", "segments"), [(named(o), owners[o]) for o in range(n + 1)]),
        "classes": (("class", "pages", "live", "free"), [(k, pages[k], live[k], free[k]) for k in (0, 4, 8, 16, 32)]),
        "counts": (("count", "blocks"), sorted(counts.items())),
        "clients": (("client", "status", "holds", "holder", "home", "roots", "waiting", "keys", "longest"), clients),
    }


def verdict(pool):
    """The line of the audit. Only what a pool without a fault may have is told apart."""
    said, live, refs = audit(pool)
    pending = [c for c in range(pool.clients) if pool.words[1 + c] not in (0, 3)]
    if pending:
        return f"pending {pending[0]}"
    counted = Counter(pool.words[at] for at in references(pool, live))
    for at in sorted(live):
        if live[at][1] == 0:
            return f"uncounted {at}"
        if live[at][1] != counted[at]:
            return f"wrong {at} stored {live[at][1]} found {counted[at]}"
    if said:
        raise SystemExit(said[0])
    return f"clean live {len(live)} refs {refs}"


def shown(cell):
    return "-" if cell is None else str(cell)


def text_of(found, line):
    """The figures as aligned text."""
    lines = []
    for heads, rows in found.values():
        all_rows = [heads, *([shown(cell) for cell in row] for row in rows)]
        widths = [max(len(row[i]) for row in all_rows) for i in range(len(heads))]
        lines += ["  ".join(cell.rjust(width) for cell, width in zip(row, widths)) for row in all_rows] + [""]
    return "\n".join([*lines, f"audit {line}", ""])


def json_of(found, line):
    """The figures as JSON."""
    by_name = {name: [dict(zip(heads, row)) for row in rows] for name, (heads, rows) in found.items()}
    return json.dumps({**by_name, "audit": line}, separators=(",", ":")) + "\n"


LEFT, PAGE, TOP, LINE, MOST = 250, 136, 130, 10, 64
ROW, WIDTH = 8 * LINE + 16, LEFT + 16 * PAGE + 16
GREY, LIVE, FREE = (221, 221, 221), {4: (0, 114, 178), 8: (213, 94, 0), 16: (0, 158, 115), 32: (123, 50, 148)}, {4: (198, 223, 240), 8: (248, 220, 196), 16: (196, 235, 223), 32: (227, 208, 234)}


def rect(x, y, width, height, fill):
    return f'<rect x="{x}" y="{y}" width="{width}" height="{height}" fill="rgb({",".join(map(str, fill))})"/>\n'


def label(x, y, text):
    return f'<text x="{x}" y="{y}">{html.escape(text, quote=False)}</text>\n'


def line(x1, y1, x2, y2):
    return f'<line x1="{x1}" y1="{y1}" x2="{x2}" y2="{y2}" stroke-width="3" stroke="rgb(0,0,0)"/>\n'


def arrows(pool, rows, c):
    """The references of a client's table: from its directory to the first entries of its chains, 64 of each at most, from entry to entry, and to values."""

    def place(at):
        segment, inside = divmod(at - pool.bodies, 2048)
        page, k = divmod(inside, 128)
        return (LEFT + PAGE * page + 8 * (k % 16) + 3, TOP + ROW * segment + LINE * (k // 16) + 4) if 0 <= segment < rows else None

    def reference(at, block):
        start, end = place(at), place(block)
        return [line(*start, *end), rect(end[0] - 4, end[1] - 4, 9, 9, (0, 0, 0))] if start and end else []

    out, home = [], pool.words[pool.homes + c] if c < pool.clients else 0
    for bucket in range(16) if home else ():
        at = home + 2 + bucket
        for _ in range(64):
            entry = word(pool, at)
            if not entry:
                break
            out += reference(at, entry) + reference(entry + 3, word(pool, entry + 3))
            at = entry + 2
    return out


def svg_of(pool, client=None):
    """The picture of the pool, with the references of a client's table where one is named."""
    rows = min(pool.segments, MOST)
    bottom = TOP + ROW * rows
    out = [f'<svg xmlns="http://www.w3.org/2000/svg" viewBox="0 0 {WIDTH} {bottom + 60}" font-family="sans-serif" font-size="34">\n']
    out.append(rect(0, 0, WIDTH, bottom + 60, (255, 255, 255)))
    for k, size in enumerate(LIVE):
        x = 16 + 470 * k
        out += [rect(x, 32, 34, 34, LIVE[size]), rect(x + 40, 32, 34, 34, FREE[size]), label(x + 86, 60, f"{size} words: live, free")]
    out += [rect(1896, 32, 34, 34, GREY), label(1942, 60, "no blocks")]
    for s in range(rows):
        y, owner = TOP + ROW * s, named(pool.words[pool.owners + s])
        out.append(label(16, y + 52, f"{s}: nobody's" if owner is None else f"{s}: client {owner}"))
        for p in range(16):
            x, size = LEFT + PAGE * p, pool.words[pool.pages + 16 * s + p]
            if not size:
                out.append(rect(x, y, 128, 8 * LINE, GREY))
                continue
            first = pool.bodies + 2048 * s + 128 * p
            for at in range(0, 128, size):
                fill = (LIVE if header(pool.words[first + at]) else FREE)[size]
                out.append(rect(x + 8 * (at % 16), y + LINE * (at // 16), 8 * min(size, 16) - 2, LINE * max(size // 16, 1) - 2, fill))
    if client is not None:
        out += [*arrows(pool, rows, client), label(1000, bottom + 36, f"lines: the table of client {client}")]
    if rows < pool.segments:
        out.append(label(16, bottom + 36, f"and {pool.segments - rows} more segments, not shown"))
    return "".join([*out, "</svg>\n"])


CHANGES = {"came": (0, 158, 115), "went": (213, 94, 0), "changed": (0, 114, 178), "as before": (150, 150, 150), "free": (243, 236, 214), "no blocks": GREY}


def page_of(pool, s, p):
    """The class of a page, 0 where the pool doesn't have it, and the words of its live blocks by their places in it."""
    size = pool.words[pool.pages + 16 * s + p] if s < pool.segments else 0
    first = pool.bodies + 2048 * s + 128 * p
    blocks = {k: pool.words[first + k : first + k + size] for k in range(0, 128, size or 128)} if size else {}
    return size, {k: words for k, words in blocks.items() if header(words[0])}


def page_changes(old, new, x, y):
    """A page of which this is the old and the new state: free blocks, those that went, those as before, those that changed and those that came."""
    (size, was), (now_size, now) = old, new
    kept = was if size == now_size else {}
    live = [(name, [k for k in now if name == ("came" if k not in kept else "as before" if kept[k] == now[k] else "changed")]) for name in ("as before", "changed", "came")]
    free = [k for k in range(0, 128, now_size or 128) if k not in now and k not in kept] if now_size else []
    went = [k for k in was if not (size == now_size and k in now)]
    out = [] if now_size else [rect(x, y, 128, 8 * LINE, GREY)]
    for name, places in [("free", free), ("went", went), *live]:
        wide = size if name == "went" else now_size
        out += [rect(x + 8 * (k % 16), y + LINE * (k // 16), 8 * min(wide, 16) - 2, LINE * max(wide // 16, 1) - 2, CHANGES[name]) for k in places]
    return out


def changes_of(before, after):
    """The picture of what changed between two pools."""
    segments = max(before.segments, after.segments)
    rows = min(segments, MOST)
    bottom = TOP + ROW * rows
    out = [f'<svg xmlns="http://www.w3.org/2000/svg" viewBox="0 0 {WIDTH} {bottom + 60}" font-family="sans-serif" font-size="34">\n']
    out.append(rect(0, 0, WIDTH, bottom + 60, (255, 255, 255)))
    for x, name in zip((16, 286, 556, 886, 1246, 1516), CHANGES):
        out += [rect(x, 32, 34, 34, CHANGES[name]), label(x + 46, 60, name)]
    for s in range(rows):
        y, owner = TOP + ROW * s, named(after.words[after.owners + s]) if s < after.segments else None
        out.append(label(16, y + 52, f"{s}: nobody's" if owner is None else f"{s}: client {owner}"))
        for p in range(16):
            out += page_changes(page_of(before, s, p), page_of(after, s, p), LEFT + PAGE * p, y)
    if rows < segments:
        out.append(label(16, bottom + 36, f"and {segments - rows} more segments, not shown"))
    return "".join([*out, "</svg>\n"])


def shown_of(pool, form):
    """What is written of the pool: as text, as JSON or as SVG."""
    if form.startswith("--svg"):
        return svg_of(pool, int(form.split("-")[-1]) if "-of-" in form else None)
    return (json_of if form == "--json" else text_of)(tables(pool), verdict(pool))


def main(words):
    if words[:1] == ["--changes"] and len(words) == 3:
        sys.stdout.write(changes_of(*(read(open(path, "rb").read()) for path in words[1:])))
        return 0
    form = words[0] if words[:1] and (words[0] in ("--json", "--svg") or words[0].startswith("--svg-of-")) else ""
    if len(words) != 1 + bool(form):
        print(__doc__)
        return 2
    sys.stdout.write(shown_of(read(open(words[-1], "rb").read()), form))
    return 0


if __name__ == "__main__":
    sys.exit(main(sys.argv[1:]))
