#!/usr/bin/env python3
"""What `cxlview steps` and `cxlview run` have to write of a replay (docs/VIEW.md), in plain Python that shares no code with the program.

    python3 tools/runs.py TRACE TURNS                  what `cxlview steps` writes
    python3 tools/runs.py TRACE TURNS --words          what `cxlview steps --words` writes
    python3 tools/runs.py TRACE TURNS --run            what `cxlview run` writes
    .. --from T --to T                                 of these turns

TURNS is a file of tools/replays: the turns of the trace's replay as another implementation of the algorithm made them. A line is a turn: `0 L 6 1` a load of word 6 by client 0 that found 1, `0 S 12 77` a store, `0 X 50 0 9 0`
an exchange of 0 for 9 that found 0, `0 death` a death. Behind a word step stands `d` where the answer of its command is certain from then on, and `e` where its work ends."""
import html
import sys
from collections import namedtuple

Turn = namedtuple("Turn", "number who kind at value to found decides ends")
Place = namedtuple("Place", "name numbers")


class Trace:
    """The parts of a trace's text that are wanted here."""

    def __init__(self, text):
        lines = [line.split(" ") for line in text.splitlines()]
        self.wide = lines[0][0] == "pool2"
        self.clients, self.segments = map(int, lines[0][1:])
        self.scripts = {}
        for words in lines[1:]:
            if words[0] == "client":
                commands = self.scripts[int(words[1])] = []
            elif words[0] not in ("order", "life"):
                commands.append(" ".join(words))

    def places(self):
        """The name of each word before the pages, by address."""
        n, more = self.clients, self.clients if self.wide else 0
        names = {0: "spare"}

        def row(first, name, *ranges):
            numbers = [()]
            for several in ranges:
                numbers = [(*some, one) for some in numbers for one in range(several)]
            names.update({first + k: f"{name}({','.join(map(str, some))})" for k, some in enumerate(numbers)})

        row(1, "status", n)
        for c in range(n):
            if self.wide:
                names[1 + n + 2 * c], names[2 + n + 2 * c] = f"redo({c})", f"redo_more({c})"
            else:
                names[1 + n + c] = f"redo({c})"
        for k, name in enumerate(("hold", "latch", "home")):
            row(1 + (2 + k) * n + more, name, n)
        row(1 + 5 * n + more, "era", n, n)
        row(1 + 5 * n + more + n * n, "root", n, 16)
        queues = 1 + 21 * n + more + n * n
        for s in range(n):
            for r in range(n):
                at = queues + 10 * (s * n + r)
                names[at], names[at + 1] = f"tail({s},{r})", f"head({s},{r})"
                names.update({at + 2 + k: f"slot({s},{r},{k})" for k in range(8)})
        owners = queues + 10 * n * n
        row(owners, "segment", self.segments)
        row(owners + self.segments, "page", self.segments, 16)
        self.pages, self.bodies = owners + self.segments, owners + 17 * self.segments
        return names


def turns_of(text):
    """The turns of a file of tools/replays."""
    for number, line in enumerate(text.splitlines(), 1):
        words = line.split(" ")
        marks = [word for word in words if word in ("d", "e")]
        words = [word for word in words if word not in ("d", "e")]
        who, kind = int(words[0]), words[1]
        numbers = [int(word) for word in words[2:]]
        at, value, to, found = {"L": lambda a, f: (a, None, None, f), "S": lambda a, v: (a, v, None, 0), "X": lambda a, v, t, f: (a, v, t, f), "death": lambda: (None,) * 4}[kind](*numbers)
        yield Turn(number, who, kind, at, value, to, found, "d" in marks, "e" in marks)


class Span:
    """A piece of work of an agent."""

    def __init__(self, who, agent, work):
        self.who, self.agent, self.work = who, agent, work
        self.first = self.begins = self.decides = self.decided = self.stepped = self.ends = self.died = self.last = None


def course(trace, turns):
    """Each turn with the piece of work that it is of, and how many word steps its agent has made."""
    at, agents, steps = {}, {}, {}
    for turn in turns:
        c = turn.who
        if c not in at:
            works = ["join", *trace.scripts[c], "leave"]
            agents[c], steps[c], at[c] = 0, 0, (iter(works), None)
            at[c] = (at[c][0], Span(c, 0, next(at[c][0])))
        works, span = at[c]
        span.last = turn.number
        if turn.kind == "death":
            span.died = steps[c]
            span.first = span.first or turn.number
            agents[c], steps[c] = agents[c] + 1, 0
            at[c] = (works, Span(c, agents[c], "recover"))
            yield turn, span, span.died
            continue
        steps[c] += 1
        span.stepped = turn.number
        if span.begins is None:
            span.begins, span.first = steps[c], turn.number
        if turn.decides:
            span.decides, span.decided = steps[c], turn.number
        if turn.ends:
            span.ends = steps[c]
            if span.agent == 0 and span.work != "leave":
                at[c] = (works, Span(c, 0, next(works)))
        yield turn, span, steps[c]


def shown(number):
    return "-" if number is None else str(number)


def steps_text(trace, turns, first, last):
    """What `cxlview steps` writes."""
    turns = list(turns)
    rows = [("client", "agent", "turn", "begins", "decides", "ends", "died", "work")]
    spans = {id(span): span for _, span, _ in course(trace, turns)}.values()
    for span in sorted(spans, key=lambda span: span.last):
        if span.first <= last and first <= span.last:
            began = None if span.begins is None else span.first
            rows.append((str(span.who), str(span.agent), shown(began), shown(span.begins), shown(span.decides), shown(span.ends), shown(span.died), span.work))
    widths = (6, 7, 9, 9, 9, 9, 9)
    lines = ["".join(cell.rjust(width) for cell, width in zip(row, widths)) + "  " + row[7] for row in rows]
    return "\n".join([*lines, "", f"turns {len(turns)}", ""])


def words_text(trace, turns, first, last):
    """What `cxlview steps --words` writes."""
    names, classes, count = trace.places(), {}, 0
    lines = ["    turn  client  agent    step  word step                   word"]
    begun = set()
    for turn, span, step in course(trace, turns):
        count = turn.number
        if turn.kind == "S" or (turn.kind == "X" and turn.value == turn.found):
            if trace.pages <= turn.at < trace.bodies:
                classes[turn.at - trace.pages] = turn.value if turn.kind == "S" else turn.to
        line = f"{turn.number:8}{turn.who:8}{span.agent:7}{step:8}  "
        if turn.kind == "death":
            line += f"died {'before' if span.begins is None else 'in'} {span.work}"
        else:
            written = {"L": f"L{turn.at}={turn.found}", "S": f"S{turn.at}={turn.value}", "X": f"X{turn.at}:{turn.value}>{turn.to}" + ("" if turn.found == turn.value else f"!{turn.found}")}[turn.kind]
            notes = []
            if id(span) not in begun:
                notes.append(f"  begins {span.work}")
                begun.add(id(span))
                spans_alive.append(span)
            if turn.decides:
                notes.append("  decides")
            if turn.ends:
                notes.append("  ends")
            name = names.get(turn.at) or in_block(classes.get((turn.at - trace.bodies) // 128, 0), turn.at, (turn.at - trace.bodies) % 128)
            line += f"{written:26}  " + (f"{name:14}" + "".join(notes) if notes else name)
        if first <= turn.number <= last:
            lines.append(line)
    return "\n".join([*lines, "", f"turns {count}", ""])


# spans whose ids are remembered have to live on
spans_alive = []


def in_block(size, at, k):
    """The name of a word of a page of this class, the k-th of the page."""
    if not size:
        return "unused"
    behind = k % size
    return ("header", "tag")[behind] + f" of {at - behind}" if behind < 2 else f"word {behind - 2} of {at - behind}"


# ---- the picture

WIDTH, LEFT, ROOM, TOP, LANE, BAR, MOST = 2400, 220, 2100, 120, 150, 60, 2100
GREY, PALE, BLACK, ORANGE, PURPLE, WHITE = (214, 214, 214), (232, 232, 232), (0, 0, 0), (230, 159, 0), (123, 50, 148), (255, 255, 255)
FILLS = {"join": GREY, "leave": GREY, "put": (166, 206, 240), "copy": (190, 225, 170), "del": (248, 205, 170), "get": (240, 232, 170), "send": (220, 195, 232), "recv": (170, 225, 215), "recover": (244, 170, 180)}


def rgb(colour):
    return f"rgb({','.join(map(str, colour))})"


def rect(x, y, width, height, fill):
    return f'<rect x="{x}" y="{y}" width="{width}" height="{height}" fill="{rgb(fill)}"/>\n'


def label(x, y, text):
    return f'<text x="{x}" y="{y}">{html.escape(text, quote=False)}</text>\n'


def line(x1, y1, x2, y2, width, stroke):
    return f'<line x1="{x1}" y1="{y1}" x2="{x2}" y2="{y2}" stroke-width="{width}" stroke="{rgb(stroke)}"/>\n'


def cross(x, y):
    return [line(x - 20, y - 20, x + 20, y + 20, 8, BLACK), line(x - 20, y + 20, x + 20, y - 20, 8, BLACK)]


def happened(trace, turns, first, last):
    """The pieces of work in the order of their ends, the waits and the messages."""
    names = trace.places()
    spans, waits, messages = [], [], []
    for turn, span, _ in course(trace, turns):
        if turn.ends or turn.kind == "death":
            spans.append(span)
        if not first <= turn.number <= last or turn.kind == "death":
            continue
        name = names.get(turn.at, "")
        if turn.kind == "X" and name.startswith("latch("):
            going = [wait for wait in waits if wait["who"] == turn.who and wait["goes"] and span.first <= wait["last"]]
            if going:
                going[0].update(last=turn.number, goes=turn.found > 0)
            elif turn.found:
                waits.append({"who": turn.who, "holder": turn.found - 1, "first": turn.number, "last": turn.number, "goes": True})
        if turn.kind == "S" and name.startswith(("tail(", "head(")):
            s, r = map(int, name[5:-1].split(","))
            if name.startswith("tail"):
                messages.append({"queue": (s, r), "number": turn.value, "sent": turn.number, "received": None})
            for message in messages if name.startswith("head") else ():
                if message["queue"] == (s, r) and message["number"] == turn.value:
                    message["received"] = turn.number
    return [span for span in spans if span.first <= last and first <= span.last], waits, messages


def svg_of(trace, turns, first, last):
    """What `cxlview run` writes."""
    turns = list(turns)
    last = min(last, first + MOST - 1)
    spans, waits, messages = happened(trace, turns, first, last)
    total, owners = len(turns), sorted(trace.scripts)
    to = min(last, total)
    unit = min(ROOM // max(1, min(MOST, max(0, to + 1 - first))), 20)
    bottom = TOP + LANE * len(owners)
    x = lambda turn: LEFT + min(min(max(0, turn - first), MOST) * unit, ROOM)
    lane = lambda c: TOP + LANE * sum(1 for d in owners if d < c)
    out = [f'<svg xmlns="http://www.w3.org/2000/svg" viewBox="0 0 {WIDTH} {bottom + 140}" font-family="sans-serif" font-size="34">\n', rect(0, 0, WIDTH, bottom + 140, WHITE)]
    some = f"none of the {total} turns" if to < first else f"turns {first} to {to} of {total}"
    out.append(label(16, 48, f"all {total} turns" if first == 1 and to == total else some))
    step = 200 if unit < 2 else 100 if unit < 4 else 50 if unit < 10 else 20
    mark = -(-first // step) * step
    for turn in range(mark, mark + 24 * step, step):
        if first <= turn <= to:
            out += [rect(x(turn), 112, 2, bottom - 112, PALE), label(x(turn), 102, str(turn))]
    out += [label(16, lane(c) + 58, f"client {c}") for c in trace.scripts]
    for span in spans:
        if span.begins is None:
            continue
        left, y, behind, fill = x(span.first), lane(span.who), x(span.stepped + 1), FILLS[span.work.split(" ")[0]]
        if span.died is not None:
            out.append(rect(behind, y + 43, max(x(span.last) - behind, 0), 6, fill))
        width = max(behind - left - 2, 3)
        out.append(rect(left, y + 16, width, BAR, fill))
        if span.decided is not None and first <= span.decided <= to:
            out.append(rect(x(span.decided), y, 5, 26, BLACK))
        gap = 30 if span.agent else 8
        if 20 * len(span.work) + gap <= width:
            out.append(label(left + gap, y + 58, span.work))
    for span in spans:
        if span.died is not None and first <= span.last <= to:
            out += cross(x(span.last), lane(span.who) + 46)
    for k, wait in enumerate(waits):
        left, y = x(wait["first"]), lane(wait["who"])
        out.append(rect(left, y + 84, max(x(wait["last"] + 1) - left, 3), 12, ORANGE))
        later = [other["first"] for other in waits[k + 1 :] if other["who"] == wait["who"]]
        if (x(later[0]) if later else LEFT + ROOM) - left >= 260:
            out.append(label(left, y + 130, f"waits for {wait['holder']}"))
    for message in messages:
        if message["received"] is not None:
            (s, r), sent, taken = message["queue"], x(message["sent"]), x(message["received"])
            leaves, arrives = (lane(s) + 76, lane(r) + 16) if s < r else (lane(s) + 16, lane(r) + 76)
            out += [line(sent, leaves, taken, arrives, 5, PURPLE), rect(taken - 9, arrives - 9, 18, 18, PURPLE)]
    y, left = bottom + 24, 16
    for name, fill in (("join, leave", GREY), *((name, FILLS[name]) for name in ("put", "copy", "del", "get", "send", "recv", "recover"))):
        out += [rect(left, y, 34, 34, fill), label(left + 46, y + 29, name)]
        left += 290 if left == 16 else 200
    y += 56
    out += [rect(30, y + 4, 5, 26, BLACK), label(62, y + 29, "the answer is certain"), *cross(503, y + 17), label(542, y + 29, "its agent dies")]
    out += [rect(860, y + 12, 40, 12, ORANGE), label(916, y + 29, "waits for a latch that another one holds")]
    out += [line(1650, y + 8, 1700, y + 26, 5, PURPLE), rect(1691, y + 17, 18, 18, PURPLE), label(1724, y + 29, "sent, and received")]
    return "".join([*out, "</svg>\n"])


def shown_of(trace, turns, words):
    """What the command of these words writes: `steps`, `steps --words` or `run`, with `--from` and `--to`, behind which a number stands as a word or after `=`."""
    words = [it for word in words for it in word.split("=")]
    first = int(words[words.index("--from") + 1]) if "--from" in words else 1
    last = int(words[words.index("--to") + 1]) if "--to" in words else first + 499 if words[0] == "run" else 1 << 64
    trace, turns = Trace(trace), turns_of(turns)
    if words[0] == "run":
        return svg_of(trace, turns, first, last)
    return (words_text if "--words" in words else steps_text)(trace, turns, first, last)


def main(words):
    if len(words) < 2:
        print(__doc__)
        return 2
    trace, turns = (open(path).read() for path in words[:2])
    rest = ["run" if "--run" in words else "steps", *(word for word in words[2:] if word != "--run")]
    sys.stdout.write(shown_of(trace, turns, rest))
    return 0


if __name__ == "__main__":
    sys.exit(main(sys.argv[1:]))
