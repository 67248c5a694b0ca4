#!/usr/bin/env python3
"""Tries the statement of docs/STATEMENT.md on recorded runs, word step by word step, and that each log takes effect in them (shm_effects).

    try_statement.py [RUN ..]    the runs of tools/statement_runs, or those whose names hold one of these texts

A file there is a drawn run with deaths, recorded from an implementation of its own: a trace, its turns (B begins, D dies, L loads, S stores, X exchanges,
each with its identity), the logs and the report. The definitions that give values (`is_committed`, `names`, `owed`, `see`, `redo_of`, `fold_in`,
`report_of` ..) are taken from specs/ as they stand and translated into Python, so it is their text that is tried. What speaks of all blocks, words and
turns (`IsExact`, `IsTurn`, `Goes`, `IsClean`, `IsTable`, `AreOf`, `TakesEffect`) is written here again, clause by clause, over what a pool has.

Then wrong definitions are tried, each as a change of that text or of what is written here of it: each must break on some run. The last line says
whether all went so; if not, it ends with 1."""
import functools, glob, os, sys
from collections import Counter
from types import SimpleNamespace as Rec

sys.dont_write_bytecode = True
sys.path.insert(0, os.path.dirname(os.path.abspath(__file__)))
import closure  # noqa: E402
from as_python import KIT, NONE, Code, logs_of, memo, read_run, run_deep, trace_of, turn_of  # noqa: E402

RUNS = "tools/statement_runs"

# wrong definitions: what is wrong, and what stands in place of what
WRONG = [
    ("the parity of a change is turned", "shm_headline.is_first_half", "if odd then e % 2 == 1 else not (e % 2 == 1)", "if odd then not (e % 2 == 1) else e % 2 == 1"),
    ("the header isn't looked at", "shm_headline.is_committed", "(h.live && ((h.client == c) && (h.era == w (spot.Era c c)))) || some_below", "some_below"),
    ("the rows aren't looked at", "shm_headline.is_committed", " || some_below g.clients (is_seen_by w c)", ""),
    ("what a change owes is left out", "shm_headline.owed", "owed_by g w c (record_of g w c)", "0"),
    ("a committed step's slot is as it is stored", "shm_headline.names", "given_by g w c (record_of g w c)", "Quiet"),
]

# and of when commands take effect: what is wrong, and which rule of `Effects` is turned
WRONG_EFFECTS = [
    ("a command in which the client died has no effect", "cut"),
    ("an entry takes effect by a turn of any identity but its own", "own"),
    ("two entries take effect by one turn, or none", "one"),
    ("what a get answered was in the own map", "author"),
]


class Broken(Exception):
    pass


# ------------------------------------------------------------------ what is said of all blocks, words and turns


class Pool:
    """The words at one time, and what the definitions make of them."""

    def __init__(self, f, g, ws, spots):
        self.f, self.g, self.ws = f, g, ws
        self.w = memo(lambda p: f.see(g, ws, p))
        self.classes = f.classes(self.w)
        key = tuple(self.classes(s)(p) for s in range(g.segments_) for p in range(16))
        if key not in spots:
            spots[key] = [f.spot_at(g, self.classes, a) for a in range(len(ws))]
        self.spots = spots[key]
        self.name = memo(f.names(g, self.w))
        self.owed = [f.owed(g, self.w, c) for c in range(g.clients_)]
        self.blocks = [p[1] for p in self.spots if p[0] == "Head"]
        self.header = memo(lambda b: f.headers(self.w, b))
        self.live = [b for b in self.blocks if self.header(b).live_]

    def is_exact(self):
        named = [self.name(p) for p in self.spots]
        counts = Counter(b for b in named + self.owed if b)
        for b in self.live:
            if self.header(b).count_ != counts[b]:
                raise Broken(f"counts: the count of block {b} is {self.header(b).count_}, and {counts[b]} name it or owe it")
        for b in counts:
            if not self.header(b).live_ or self.header(b).count_ == 0:
                raise Broken(f"named or owing: block {b}")
        for b in self.blocks:
            if not self.header(b).live_ and self.w(("Head", b)) != 0:
                raise Broken(f"free: block {b}")


def is_step(c, ask, old, new):
    f, g = old.f, old.g
    if not ask[1] < f.total_of(g):
        raise Broken("inside")
    changed = [p for p in set(old.spots) | set(new.spots) if old.name(p) != new.name(p)]
    if len(changed) > 1:
        raise Broken(f"one: {changed}")
    named = {old.name(p) for p in old.spots}
    for b in set(old.blocks) | set(new.blocks):
        was, now = old.w(("Head", b)), new.w(("Head", b))
        if was == 0 and now != 0 and b in named:
            raise Broken(f"allocated: {b}")
        if old.header(b).live_ and now == 0:
            h, refs = old.header(b), f.tag_refs(g.wide_, old.w(("Tag", b)))
            if h.count_ != 0 or h.client_ != c or any(old.name(("Body", b, i)) for i in range(refs)):
                raise Broken(f"freed: {b}")
    for d in range(g.clients_):
        if d != c and old.owed[d] != new.owed[d]:
            raise Broken(f"others: {d}")


def is_turn(on, pool, turn):
    c = turn[1]
    if turn[0] != "Begins" and not on(c):
        raise Broken(f"a turn of {c}, which isn't at work")
    if turn[0] == "Begins" and not (c < pool.g.clients_ and (not on(c) or pool.w(("Status", c)) == 3)):
        raise Broken(f"a beginning of {c}, which is at work")


def goes(f, g, ws, turns):
    """The pools before these turns, and after each."""
    spots, on = {}, lambda c: False
    pool = Pool(f, g, ws, spots)
    pool.is_exact()
    pools = [pool]
    for i, turn in enumerate(turns):
        try:
            is_turn(on, pool, turn)
            ws = f.words_by(turn, pool.ws)
            on = f.at_work_by(turn, on)
            if ws != pool.ws:
                new = Pool(f, g, ws, spots)
                is_step(turn[1], turn[2], pool, new)
                new.is_exact()
                pool = new
        except Broken as e:
            raise Broken(f"turn {i + 1}: {e}")
        pools.append(pool)
    return pools


def is_clean(pool):
    f, g, w = pool.f, pool.g, pool.w
    refs = memo(lambda p: f.reference(f.words_of(g.wide_, w), p))
    if any(w(("Status", c)) not in (0, 3) for c in range(g.clients_)):
        raise Broken("clean: statuses")
    counts = Counter(refs(p) for p in pool.spots if refs(p))
    for b in pool.live:
        tag = f.tag_of(g.wide_, w(("Tag", b)))
        if tag == NONE or 2 + tag[1].refs_ + tag[1].plain_ > f.class_at(g, pool.classes, b) or tag[1].author_ >= g.clients_:
            raise Broken(f"clean: tag of {b}")
        if pool.header(b).count_ == 0 or pool.header(b).count_ != counts[b]:
            raise Broken(f"clean: count of {b}")
        if f.indegree(g, pool.classes, refs, lambda c: 0, b) != counts[b]:
            raise Broken(f"indegree of {b}")
    if set(counts) - set(pool.live):
        raise Broken("clean: targets")
    return refs


def table_of(pool, refs):
    """The chains of each identity by bucket, where they are as `IsPartition` says."""
    f, g, w = pool.f, pool.g, pool.w
    shape = lambda b: (pool.header(b).live_, f.tag_refs(g.wide_, w(("Tag", b))), f.tag_plain(g.wide_, w(("Tag", b))))
    author = lambda b: f.tag_author(g.wide_, w(("Tag", b)))
    table = {}
    for c in range(g.clients_):
        home = w(("Home", c))
        if home and (shape(home) != (True, 16, 0) or author(home) != c):
            raise Broken(f"home of {c}")
        for k in range(16):
            chain, at = [], refs(("Body", home, k)) if home else 0
            while at:
                value, key = refs(("Body", at, 1)), w(("Body", at, 2))
                if shape(at) != (True, 2, 1) or author(at) != c or key % 16 != k or key >= 2**32 or shape(value) != (True, 0, 1):
                    raise Broken(f"entry {at}")
                chain.append(Rec(key_=key, number_=w(("Body", value, 0)), block_=at, value_=value))
                at = refs(("Body", at, 0))
            if len({e.key_ for e in chain}) != len(chain):
                raise Broken("distinct keys")
            table[c, k] = tuple(chain)
    return lambda c: lambda k: table.get((c, k), ())


def are_of(f, turns, scripts, logs):
    if len(scripts) != len(logs):
        raise Broken("a log for each script")
    for s, l in zip(scripts, logs):
        n = len(l.entries_)
        if l.client_ != s.client_ or tuple(e.line_ for e in l.entries_) != s.lines_[:n]:
            raise Broken(f"lines of {s.client_}")
        died = f.death_of(s.client_, False, 0, turns)
        if l.end_[0] == "Ended":
            right = died == NONE and n == len(s.lines_)
        else:
            right = died == ("Some", f.life_of(s.life_)) and n == l.end_[1] + (1 if l.end_[2] else 0)
        if not right:
            raise Broken(f"end of {s.client_}: {died} {l.end_}")


class Effects:
    """When the entries of the logs of a run take effect, with one rule turned, if one is."""

    def __init__(self, f, turns, logs, pools, wrong=None):
        self.f, self.turns, self.logs, self.pools, self.wrong = f, turns, logs, pools, wrong
        self.maps = functools.cache(self.map_at)
        self.tables = functools.cache(lambda pool: table_of(pool, pool.name))

    def map_at(self, pool, c):
        """The map of c that the words hold, each word by what it names."""
        table = self.tables(pool)(c)
        return {e.key_: (e.number_, e.value_) for k in range(16) for e in table(k)}

    def is_shown(self, c, entry, time):
        line, answer = entry.line_, entry.answer_
        if line[0] != "Get":
            return True
        map_of = self.maps(self.pools[time], c if self.wrong == "author" else line[1])
        if answer[0] == "Value":
            return map_of.get(line[2]) == (answer[1], answer[2])
        return answer[0] != "Missing" or line[1] != c or line[2] not in map_of

    def is_taken(self, log, n, since, i):
        """Whether the entry after the first n takes effect by turn i, where the one before it did before time `since`."""
        turn = self.turns[i]
        own = turn[0] == "Steps" and turn[1] == log.client_
        return (own != (self.wrong == "own")) and n < len(log.entries_) and any(self.is_shown(log.client_, log.entries_[n], j) for j in range(since, i + 1))

    def takes_effect(self, log):
        c, entries = log.client_, log.entries_
        if self.wrong == "cut" and log.end_[0] == "Died" and log.end_[2]:
            entries = entries[:-1]
        folds = [{k: v for k, v in self.f.folded(entries[:n], ())} for n in range(len(entries) + 1)]
        # how many entries have taken effect, with the first time after the last of them did
        states = {0: 0}
        for i, pool in enumerate(self.pools):
            states = {n: since for n, since in states.items() if folds[n] == self.maps(pool, c)}
            if not states:
                raise Broken(f"turn {i}: the map of {c} is no fold of its entries")
            if i < len(self.turns):
                more = 2 if self.wrong == "one" else 1
                for n, since in list(states.items()):
                    if n + more < len(folds) and self.is_taken(log, n, since, i):
                        states.setdefault(n + more, i + 1)
        if len(entries) not in states:
            raise Broken(f"of the entries of {c} no more than {max(states)} took effect")

    def all_take(self):
        for log in self.logs:
            self.takes_effect(log)


def try_run(f, parts):
    """The effects of the run's logs; Broken where the statement doesn't hold of it."""
    t, turns, logs = trace_of(parts["trace"]), tuple(turn_of(x.split()) for x in parts["turns"]), logs_of(parts["logs"])
    if bytes(f.text_of(t)).decode() != "".join(x + "\n" for x in parts["trace"]):
        raise Broken("text of the trace")
    g = f.geometry_of(t)
    pools = goes(f, g, f.words_first(t), turns)
    pool = pools[-1]
    refs = is_clean(pool)
    table = table_of(pool, refs)
    are_of(f, turns, t.scripts_, logs)
    for c in range(t.clients_):
        fold = f.fold_in(logs, c)
        for key in {e.key_ for k in range(16) for e in table(c)(k)} | {k for k, _ in fold}:
            if f.map_of(table(c), key) != KIT["FinMap.get"][1](fold, key):
                raise Broken(f"fold of {c} at {key}")
    if bytes(f.report_of(g, pool.w, table, logs)).decode() != "".join(x + "\n" for x in parts["report"]):
        raise Broken("report")
    effects = Effects(f, turns, logs, pools)
    effects.all_take()
    return effects


WANTED = {
    "shm_headline": "names owed words_by at_work_by death_of life_of geometry_of words_first",
    "shm_graph": "see spot_at classes headers words_of reference indegree class_at map_of",
    "shm_words": "total_of tag_of tag_refs tag_plain tag_author",
    "shm_script": "text_of fold_in folded",
    "shm_report": "report_of",
}


def definitions(world, changed=None):
    code = Code(world, changed)
    return Rec(**{name: code.get(crate, name) for crate, names in WANTED.items() for name in names.split()})


def main():
    world = closure.World(".")
    runs = {os.path.basename(p)[:-4]: read_run(p) for p in sorted(glob.glob(RUNS + "/*.run"))}
    runs = {n: r for n, r in runs.items() if not sys.argv[1:] or any(x in n for x in sys.argv[1:])}
    f, good, turns, effects = definitions(world), True, 0, {}
    for name, parts in runs.items():
        try:
            effects[name] = try_run(f, parts)
            turns += len(effects[name].turns)
        except Broken as e:
            good = False
            print(f"{name}: {e}")
    print(f"{len(runs)} runs, {turns} turns: " + ("the statement holds of each" if good else "the statement doesn't hold of each"))
    for wrong in WRONG:
        f, found = definitions(world, wrong), []
        for name, parts in runs.items():
            try:
                try_run(f, parts)
            except Broken as e:
                found.append(f"{name}, {e}")
        good = good and bool(found)
        print(f"{wrong[0]}: broken on {len(found)} of {len(runs)} runs" + (f", first {found[0]}" if found else ""))
    for what, rule in WRONG_EFFECTS:
        found = []
        for name, e in effects.items():
            try:
                Effects(e.f, e.turns, e.logs, e.pools, rule).all_take()
            except Broken as b:
                found.append(f"{name}, {b}")
        good = good and bool(found)
        print(f"{what}: broken on {len(found)} of {len(runs)} runs" + (f", first {found[0]}" if found else ""))
    print("all went as it should" if good else "not all went as it should")
    sys.exit(not good)


if __name__ == "__main__":
    run_deep(main)
