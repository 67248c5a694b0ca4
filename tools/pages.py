#!/usr/bin/env python3
"""Compares the names in README.md and docs/ with the tree: prints each that stands nowhere, and ends with 1 if there is one.

Read are: names in backticks that are one word of letters, digits and underscores or a path of such (`Type::name`, `name.field`); names of must-fail edits
(behind "Wrong ideas"); and paths of files (crates/.., docs/.., examples/.., tools/..). The program that docs/LIBRARY.md shows first is compared with its
file. Run it at the top of the repository."""
import glob, os, re, subprocess, sys

tree = subprocess.run(["git", "ls-files"], capture_output=True, text=True).stdout.split()
code = [f for f in tree if f.startswith("crates/") and f.endswith((".rt", ".antt")) or f.startswith("c/include/") or f in ("crates.txt", "HANDLES")]
words = {w for f in code for w in re.findall(r"[A-Za-z_][A-Za-z0-9_]*", open(f, encoding="utf-8").read())}
words |= {part for f in tree for part in re.split(r"[/.]", f)}
# what the toolchain, its crates and the formats name, and a page may speak of
words |= set("rt rattle clap bash omega v1 v2 env args get_str get_flag act try open value ended died none tables true false suc absurd".split())
edits = {f.split("/")[-1][:-5] for f in tree if f.endswith(".edit")}
files = set(tree) | {os.path.dirname(f) for f in tree}
found = []
for page in ["README.md", *sorted(glob.glob("docs/**/*.md", recursive=True))]:
    text = re.sub(r"```.*?```", "", open(page, encoding="utf-8").read(), flags=re.S)
    for name in set(re.findall(r"`([A-Za-z_][A-Za-z0-9_]*(?:(?:::|\.)[A-Za-z_][A-Za-z0-9_]*)*)`", text)):
        if not name.startswith(("_", "NAME", "name_")) and not all(part in words or part in edits for part in re.split(r"::|\.", name)):
            found.append(f"{page}: `{name}`")
    for part in re.findall(r"\*\*Wrong ideas\*\*:(.*?)(?:\n\n|$)", text, flags=re.S):
        found += [f"{page}: no edit {name}" for name in re.findall(r"\b[a-z0-9]+(?:_[a-z0-9]+)+\b", part) if name not in edits and name not in words]
    for path in set(re.findall(r"\b(?:crates|docs|examples|tools)/[A-Za-z0-9_/.-]*[A-Za-z0-9_]", text)):
        if "/out/" not in path and path.rstrip("/") not in files and not any(f.startswith(path) for f in tree) and not re.search(r"\b[A-Z]{4,}\b", path):
            found.append(f"{page}: no file {path}")
# a program that a page shows first, whole, and its file
for page, file in {"docs/LIBRARY.md": "crates/lojarnek_example/src/main.rt"}.items():
    shown = re.search(r"```rust\n(.*?)```", open(page, encoding="utf-8").read(), flags=re.S)
    if shown is None or shown[1] != open(file, encoding="utf-8").read():
        found.append(f"{page}: its first program isn't {file}")
print("\n".join(found) if found else "each name of the pages stands in the tree")
sys.exit(1 if found else 0)
