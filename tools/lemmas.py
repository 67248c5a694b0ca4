#!/usr/bin/env python3
"""Compares specs/ with its rule: what a contract says stands apart from what is proved of it.

A lemma (a signature with a proof) of a library stands below crates/NAME/specs/Proved/, in a file without a definition that a contract reaches;
so whoever reads contracts may pass over these folders. The files of MIXED hold both, since a `module` with parameters binds them together:
a lemma more in another file ends with 1, and so does a name of the list that is needed no more. Run it at the top of the repository."""
import glob, re, sys

MIXED = set("""
crates/plans/specs/CallsPart.antt
crates/plans/specs/Deciding.antt
crates/plans/specs/EventWords.antt
crates/plans/specs/MadeStays.antt
crates/plans/specs/Words.antt
crates/shm_count/specs/CountParts.antt
crates/shm_count/specs/MadeSteps.antt
crates/shm_count/specs/Slots/Parts.antt
crates/shm_count/specs/Step/Parts.antt
crates/shm_count/specs/StepsAt.antt
crates/shm_count/specs/StepsFrom.antt
crates/shm_queue/specs/QueueWords.antt
crates/shm_recover/specs/FinishTakes/Words.antt
crates/shm_recover/specs/Scan/Words.antt
crates/shm_recover/specs/TakeBack/Words.antt
crates/shm_ref/specs/Single.antt
crates/shm_table/specs/Staying/Laws.antt
crates/shm_table/specs/Undoing.antt
""".split())


def lemmas(path):
    """The names of a file's lemmas: a signature that is no `abbrev`, no `record`, no `data` and not `unfoldable`."""
    found, levels = [], {0}
    for line in open(path, encoding="utf-8"):
        indent, text = len(line) - len(line.lstrip(" ")), line.strip()
        if text.startswith("module ") and indent in levels:
            levels = {it for it in levels if it <= indent} | {indent + 2}
        elif text and indent in levels and not text.startswith("--"):
            levels = {it for it in levels if it <= indent}
            name = re.match(r"(?:pub )?([^\s:(){}]+) :(?=\s)", text)
            if name and not re.match(r"(?:pub )?(?:abbrev|pattern|unfoldable|record|data|use|mod)\b", text):
                found.append(name[1])
    return found


crates = [line.split("#")[0].split(":")[0].split() for line in open("crates.txt", encoding="utf-8")]
libraries = {it[0] for it in crates if it and not it[0].startswith("t_")}
holding = {
    path: names
    for path in sorted(glob.glob("crates/*/specs/**/*.antt", recursive=True))
    if path.split("/")[1] in libraries and "/specs/Proved/" not in path and (names := lemmas(path))
}
faults = [f"{path}: lemmas beside definitions: {', '.join(names[:4])}" for path, names in holding.items() if path not in MIXED]
faults += [f"{path}: has no lemma any more, and can leave the list" for path in sorted(MIXED - set(holding))]
print("\n".join(faults) if faults else f"lemmas of specs/ stand apart, but for {len(MIXED)} files")
sys.exit(1 if faults else 0)
