#!/usr/bin/env python3
"""Makes the second half of docs/STATEMENT.md, the definitions that the headline reaches, from the sources.

    statement.py            writes it
    statement.py --check    says whether the page is the one that the tree gives, and ends with 1 if it isn't

Run it at the top of the repository. What stands in the page before the mark is written by hand and stays. Which definitions those are tools/closure.py
finds; here stands in which order they are read. A definition whose file no section names is an error, and so is a file that none is of."""
import re, sys

import closure

PAGE = "docs/STATEMENT.md"
MARK = "<!-- What follows is made by tools/statement.py. -->"
ROOTS = "shm_headline:=Reported+shm_headline:=ReportedCut"

# the sections in the order in which they are read: a title, what it is about, and its files
SECTIONS = [
    (
        "The headline",
        "It comes first, since all that follows is what it names. Read it twice: once now for what is claimed, and once at the end.",
        ["shm_headline/specs/Headline.antt"],
    ),
    (
        "The words of a pool",
        "A pool is a list of words, numbers below 2^64. This section says what the word at each address is for. `see` gives the word at a spot. Pools have"
        " one of two formats, which differ in the number of segments and in the redo records; `wide` says which.",
        [
            "shm_words/src/geometry.rt",
            "shm_words/src/place.rt",
            "shm_words/specs/Layout.antt",
            "shm_graph/src/spot.rt",
            "shm_graph/specs/Spots.antt",
            "shm_graph/src/run.rt",
            "shm_graph/specs/Runs.antt",
        ],
    ),
    (
        "What single words say",
        "Three kinds of word have fields: headers of blocks, tags of blocks, and redo records, in which an identity notes the count step that it is at.",
        [
            "shm_words/specs/Classes.antt",
            "shm_words/src/header.rt",
            "shm_words/specs/Headers.antt",
            "shm_words/src/tag.rt",
            "shm_words/specs/Tags.antt",
            "shm_words/src/redo.rt",
            "shm_words/specs/Redos.antt",
        ],
    ),
    (
        "References and counts",
        "Which words may name a block, and how many do. The last definitions say what a word names while count steps are in progress.",
        ["shm_graph/specs/Blocks.antt", "shm_graph/specs/References.antt", "shm_graph/specs/Ops.antt"],
    ),
    (
        "Steps in progress, and exact counts",
        "A count step takes several word steps: a redo record, a header, a slot. One of them commits it. The words alone show which steps are committed;"
        " `IsExact` says that each committed step is counted once, and no other.",
        ["shm_headline/specs/Now.antt"],
    ),
    (
        "Runs",
        "A run is a list of turns. `Goes` is the heart of the headline: exact counts at first and after each turn.",
        ["shm_graph/src/ask.rt", "shm_graph/specs/Asks.antt", "shm_graph/specs/Views.antt", "shm_headline/specs/WordRuns.antt"],
    ),
    ("Clean pools", "What a pool is when all have left.", ["shm_graph/specs/Clean.antt"]),
    (
        "Tables",
        "Each identity may have a map from keys to numbers in the pool: its home names a directory of 16 chains.",
        ["shm_graph/src/table.rt", "shm_graph/specs/Tables.antt"],
    ),
    (
        "Traces",
        "What a program reads: scripts of commands, with the word steps that each client lives. `text_of` is how a trace is spelled.",
        [
            "shm_script/src/line.rt",
            "shm_script/src/log.rt",
            "shm_script/specs/Values.antt",
            "shm_script/specs/Ranges.antt",
            "shm_script/specs/Text.antt",
        ],
    ),
    ("Logs", "What each command answered, and the map that these answers make.", ["shm_script/specs/Logged.antt"]),
    ("The report", "The text that is written.", ["shm_report/specs/Logs.antt", "shm_report/specs/Report.antt"]),
]


def prose(comment):
    """A comment without its marks, as a sentence or more."""
    lines = [re.sub(r"^\s*(--+|///?)\s?", "", x) for x in comment]
    text = " ".join(x for x in lines if x and not x.startswith("----")).strip()
    text = text[:1].upper() + text[1:]
    return text + "." if text and text[-1] not in ".:" else text


def code(d):
    """The lines of a definition, of a Rust type without its attributes."""
    lines = [x for x in d.lines if not x.strip().startswith("#[")]
    return "\n".join(lines).rstrip()


def shown(d):
    text = prose(d.comment)
    return (text + "\n\n" if text else "") + "```text\n" + code(d) + "\n```\n"


def made():
    """The second half of the page."""
    world = closure.World(".")
    order, _, kit = world.closure(world.contract(ROOTS))
    by = closure.by_path(order)
    named = ["crates/" + f for _, _, files in SECTIONS for f in files]
    wrong = [f"no section has {path}" for path in by if path not in named] + [f"nothing is of {path}" for path in named if path not in by]
    if wrong:
        sys.exit("tools/statement.py: " + "; ".join(wrong))
    count, lines, _, words = closure.sizes(order)
    out = ["# The definitions\n"]
    out.append(
        f"{count} definitions, {lines} lines of code, {words:,} words: some {round(words / 150)} minutes at 150 words a minute. Of the standard library"
        f" {len(kit)} names are used, which \"How to read it\" explains.\n"
    )
    for title, about, files in SECTIONS:
        out.append(f"## {title}\n\n{about}\n")
        for f in files:
            out.append(f"### {f}\n")
            out += [shown(d) for d in sorted(by["crates/" + f], key=lambda d: d.line)]
    return "\n".join(out)


def main():
    page = open(PAGE, encoding="utf-8").read()
    front, mark, _ = page.partition(MARK)
    if not mark:
        sys.exit(f"tools/statement.py: {PAGE} has no mark")
    new = front + MARK + "\n\n" + made()
    if "--check" in sys.argv[1:]:
        print(PAGE + (" is what the tree gives" if new == page else " isn't what the tree gives: run tools/statement.py"))
        sys.exit(new != page)
    open(PAGE, "w", encoding="utf-8").write(new)


if __name__ == "__main__":
    main()
