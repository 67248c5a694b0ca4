#!/usr/bin/env python3
"""catch_all.py [--write] FILE..: cases of a lemma that have one proof become one clause.

Clauses of one lemma that stand in a line each, have one right side and differ in constructors alone become a catch-all below the others. It merges only where the
clauses left above it split as far as the merged ones did, where the right side names nothing that they bound, and where no other clause changes what it covers. It says
how many lines each file loses, and changes nothing without --write. Check the crate then: a tactic that read an equation out of a merged pattern no longer sees it.
Meant for proofs/ and specs/Proved/: definitions that contracts reach are written out case by case."""
import re, sys

CONSTRUCTOR = re.compile(r"^(?:[A-Za-z_][\w']*\.)*[A-Z]\w*$|^\d+$")
PLAIN = {"zero", "suc", "true", "false", "inl", "inr", "refl", "tt"}
HEAD = re.compile(r"^( *)([^\s=:(){}]+)((?: .*?)?) =(?: (.*))?$")
NO_CLAUSE = re.compile(r"^ *(let|in|use|--|\||pub|record|data|module|abbrev|unfoldable)\b")

class Unread(Exception):
    """A pattern that isn't read."""

# ---- patterns: ("name", it), ("braces", text) and ("of", constructor, [patterns]); a tuple's constructor is its commas

def atom(ts, i):
    t = ts[i]
    if t == "(":
        first, i = application(ts, i + 1)
        items = [first]
        while ts[i] == ",":
            item, i = application(ts, i + 1)
            items.append(item)
        if ts[i] != ")":
            raise Unread()
        return (first if len(items) == 1 else ("of", "," * (len(items) - 1), items)), i + 1
    if t == "[" and ts[i + 1] == "]":
        return ("of", "[]", []), i + 2
    if t == "{":
        depth, j = 1, i + 1
        while depth:
            depth += (ts[j] == "{") - (ts[j] == "}")
            j += 1
        return ("braces", " ".join(ts[i:j])), j
    if re.search(r"[^\w.'≡-]", t):
        raise Unread()
    return (("of", t, []) if t in PLAIN or CONSTRUCTOR.match(t) else ("name", t)), i + 1

def application(ts, i):
    head, i = atom(ts, i)
    items = []
    while ts[i] not in (")", ",", "∷", "}"):
        item, i = atom(ts, i)
        items.append(item)
    if items:
        if head[0] != "of" or head[2]:
            raise Unread()
        head = ("of", head[1], items)
    if ts[i] == "∷":
        rest, i = application(ts, i + 1)
        head = ("of", "∷", [head, rest])
    return head, i

def left_side(text):
    ts = re.findall(r"[(){}\[\],]|[^\s(){}\[\],]+", text) + [")"]
    items, i = [], 0
    while i < len(ts) - 1:
        item, i = atom(ts, i)
        items.append(item)
    return ("of", "", items)

def names(p):
    if p[0] == "of":
        return set().union(*map(names, p[2])) if p[2] else set()
    return set(re.findall(r"[\w']+", p[1]))

def shown(p):
    return p[1] if p[0] != "of" or not p[2] else f"({bare(p)})"

def bare(p):
    if p[0] != "of":
        return p[1]
    if p[1].startswith(","):
        return ", ".join(map(bare, p[2]))
    if p[1] == "∷":
        return f"{shown(p[2][0])} ∷ {bare(p[2][1]) if p[2][1][:2] == ('of', '∷') else shown(p[2][1])}"
    return " ".join([p[1], *map(shown, p[2])])

def meet(p, q):
    """Whether some value has both patterns."""
    if "name" in (p[0], q[0]):
        return True
    if "braces" in (p[0], q[0]):
        return p == q
    return p[1] == q[1] and len(p[2]) == len(q[2]) and all(map(meet, p[2], q[2]))

def covers(q, p):
    """Whether each value that has p has q."""
    if q[0] == "name":
        return True
    return p == q if q[0] == "braces" else p[0] == "of" and p[1] == q[1] and len(p[2]) == len(q[2]) and all(map(covers, q[2], p[2]))

def common(p, q):
    """The narrowest pattern that covers both."""
    if p == q:
        return p
    if p[0] == q[0] == "of" and p[1] == q[1] and len(p[2]) == len(q[2]):
        return ("of", p[1], list(map(common, p[2], q[2])))
    return ("name", "_")

# ---- which clauses may be merged

def places(p, at=()):
    """Where p has a constructor."""
    if p[0] == "of":
        if at:
            yield at
        for i, item in enumerate(p[2]):
            yield from places(item, at + (i,))

def part(p, at):
    for i in at:
        if p[0] != "of" or i >= len(p[2]):
            return None
        p = p[2][i]
    return p

def without(p, at):
    return ("of", p[1], [without(item, at[1:]) if i == at[0] else item for i, item in enumerate(p[2])]) if at else ("name", "_")

def splits(q, p, at):
    """Whether q, above a catch-all, has it split at this place where p is covered."""
    there = part(q, at)
    same = all(part(q, at[:i])[:2] == part(p, at[:i])[:2] for i in range(1, len(at))) if there else False
    return same and there[0] == "of" and meet(without(q, at), without(p, at))

def resolved(p, above):
    return all(any(splits(q, p, at) for q in above) for at in places(p))

def merged_of(patterns, group, others, words):
    """Of a group with one right side, which may be merged, and the catch-all."""
    kept, merged = [], list(group)
    while len(merged) > 1:
        above = [patterns[i] for i in others + kept]
        catch = patterns[merged[0]]
        for i in merged[1:]:
            catch = common(catch, patterns[i])
        bad = [i for i in merged if not resolved(patterns[i], above) or words & (names(patterns[i]) - names(catch))]
        if not bad:
            return merged, catch
        kept.append(bad[0])
        merged.remove(bad[0])
    return [], None

def merge(clauses):
    """Of clauses (pattern, right side or none): those that go, and the catch-alls in their place."""
    patterns = [p for p, _ in clauses]
    if len({len(p[2]) for p in patterns}) > 1 or any(meet(p, q) for i, p in enumerate(patterns) for q in patterns[:i]):
        return set(), []
    groups, gone, catches = {}, set(), []
    for i, (_, right) in enumerate(clauses):
        groups.setdefault(right, []).append(i)
    for right, group in sorted(groups.items(), key=lambda it: -len(it[1])):
        if right is None or len(group) < 2:
            continue
        others = [i for i in range(len(clauses)) if i not in group and i not in gone]
        merged, catch = merged_of(patterns, group, others, set(re.findall(r"[\w']+", right)))
        # it stands above the catch-alls that were found, and must neither take from them nor be among what they cover
        if merged and not any(meet(catch, patterns[i]) for *_, them in catches for i in them):
            catches.insert(0, (catch, right, merged))
            gone |= set(merged)
    left = [(patterns[i], clauses[i][1]) for i in range(len(clauses)) if i not in gone]
    for pattern, right in clauses:
        first = next((it for it in left + [(c, r) for c, r, _ in catches] if meet(it[0], pattern)), None)
        if first is None or not covers(first[0], pattern) or first[1] != right:
            return set(), []
    if not all(resolved(patterns[i], [p for p, _ in left]) for i in gone):
        return set(), []
    return gone, catches

# ---- files

def run(path, write):
    with open(path, encoding="utf-8") as it:
        lines = it.read().split("\n")
    out, i, saved = [], 0, 0
    while i < len(lines):
        head = HEAD.match(lines[i])
        block, j = [], i
        while head and not NO_CLAUSE.match(lines[i]) and j < len(lines):
            m = HEAD.match(lines[j])
            if not m or m[1] != head[1] or m[2] != head[2] or ":" in m[3] or "→" in m[3]:
                break
            end = j + 1
            while end < len(lines) and lines[end].strip() and len(lines[end]) - len(lines[end].lstrip()) > len(head[1]):
                end += 1
            block.append((j, end, m[3], m[4].strip() if m[4] and end == j + 1 else None))
            j = end
        try:
            gone, catches = merge([(left_side(text), right) for _, _, text, right in block]) if len(block) > 1 else (set(), [])
        except (Unread, IndexError):
            gone, catches = set(), []
        if not gone:
            out.append(lines[i])
            i += 1
            continue
        for k, (begin, end, *_) in enumerate(block):
            out += lines[begin:end] if k not in gone else []
        out += [f"{head[1]}{head[2]} {' '.join(map(shown, catch[2]))} = {right}" for catch, right, _ in catches]
        saved += len(gone) - len(catches)
        i = j
    if saved and write:
        with open(path, "w", encoding="utf-8") as it:
            it.write("\n".join(out))
    return saved

def main():
    files = [it for it in sys.argv[1:] if not it.startswith("--")]
    found = [(run(it, "--write" in sys.argv), it) for it in files]
    for saved, it in sorted(found, reverse=True):
        if saved:
            print(f"{saved:4} {it}")
    print(f"{sum(saved for saved, _ in found)} lines")

if __name__ == "__main__":
    main()
