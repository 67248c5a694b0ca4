#!/usr/bin/env python3
"""Tries what is said of runs of sessions (crates/shm_sessions/specs/Logs.antt) on recorded runs, word step by word step.

    try_sessions.py [RUN ..]    the runs of tools/statement_runs, or those whose names hold one of these texts

From each recorded run a log of sessions is drawn: each agent's word steps are cut into operations, whose machine plays them back; sessions are opened,
called, closed and killed where the run has beginnings and deaths, some deaths as calls that give up or as answers that leave the identity dead, and calls
that change nothing stand between.
`sessions_by`, `words_by` and `turns_by` are taken from specs/ as they stand and translated into Python; `MayHappen` and `IsLog` are written here again,
clause by clause. The log must be lawful, its words those of the run, and its turns the recorded ones.

Then wrong definitions are tried, each as a change of that text: each must break on some run. The last line says whether all went so; if not, it ends
with 1."""
import glob, os, random, sys
from types import SimpleNamespace as Rec

sys.dont_write_bytecode = True
sys.path.insert(0, os.path.dirname(os.path.abspath(__file__)))
import closure  # noqa: E402
from as_python import NONE, Code, read_run, run_deep, trace_of, turn_of  # noqa: E402

RUNS = "tools/statement_runs"

# wrong definitions: what is wrong, and what stands in place of what
WRONG = [
    ("who is killed acts still", "shm_sessions.turns_by", "(acts_in (q c)) false", "(acts_in (q c)) (acts_in (q c))"),
    ("who gives up acts still", "shm_sessions.acts_called", "acts_called true b w = false", "acts_called true b w = b"),
    ("who has left acts still", "shm_sessions.acts_by", "acts_by false b stage.Vacant = false", "acts_by false b stage.Vacant = b"),
    ("a client that has answered has ended", "shm_sessions.acts_by", "acts_by false b stage.Live = b", "acts_by false b stage.Live = false"),
    ("a recoverer that has answered has ended", "shm_sessions.acts_by", "acts_by false b stage.Dead = b", "acts_by false b stage.Dead = false"),
    ("a client whose identity is given up acts still", "shm_sessions.acts_by", "acts_by true b u = false", "acts_by true b u = b"),
    ("a word step leaves the words", "shm_sessions.words_made", "words_set (o.control.asks m) ws", "ws"),
]


class Broken(Exception):
    pass


# ------------------------------------------------------------------ operations that play back


def ended(m):
    return not m.asks_


def playback(plays):
    """Operations whose call with the number n begins the machine plays[n]: it asks for its word steps in order, and then answers how the identity stands."""
    control = Rec(
        me_=lambda m: m.me_,
        line_=lambda m: (112,),
        fresh_=lambda m: m.fresh_,
        finished_=ended,
        asks_=lambda m: m.asks_[0],
        after_=lambda m: lambda n: Rec(me_=m.me_, fresh_=False, asks_=m.asks_[1:], stage_=m.stage_),
        turns_=lambda m: lambda n: NONE if len(m.asks_) > 1 else ("Some", m.stage_),
    )
    said = Rec(code_=0, at_=0, first_=0, second_=0)
    refused = ("Err", ("Stage",))
    return Rec(
        control_=control,
        begins_=lambda me: lambda stage: lambda call: ("Ok", plays[call.first_]) if call.op_ == 1 else refused,
        replies_=lambda answer: lambda stage: Rec(said_=said, stage_=answer),
        effects_=lambda m: NONE,
    )


def call_of(op, first=0):
    return Rec(op_=op, first_=first, second_=0, third_=0, words_=(0,) * 8)


# ------------------------------------------------------------------ a log of sessions from a run


class Drawn:
    """Happenings that come to the turns of a run, with the machines that they play back."""

    def __init__(self, f, g, words, turns, seed):
        self.f, self.g, self.random = f, g, random.Random(seed)
        self.happenings, self.plays, self.words = [], [], []
        self.open, self.left, self.given = {}, {}, set()
        for i, turn in enumerate(turns):
            self.turn(turns, i, words[i])
            self.words += [words[i]] * (len(self.happenings) - len(self.words))

    def add(self, *happening):
        self.happenings.append(happening)

    def status(self, ws, c):
        return self.f.see(self.g, ws, ("Status", c))

    def asks_from(self, turns, i, c):
        """The word steps of c's agent from turn i on, and whether a death follows."""
        asks = []
        for turn in turns[i:]:
            if turn[1] == c and turn[0] != "Steps":
                return asks, turn[0] == "Dies"
            if turn[1] == c:
                asks.append(turn[2])
        return asks, False

    def dies_after(self, turns, i, c, n):
        """Whether c dies in the turn after its n-th word step from turn i on."""
        steps = [k for k in range(i, len(turns)) if turns[k][0] == "Steps" and turns[k][1] == c][:n]
        return n > 0 and turns[steps[-1] + 1 : steps[-1] + 2] == (("Dies", c),)

    def begin(self, turns, i, c, stage):
        """An operation of c from turn i on: it ends after some of the agent's word steps, or with all of them."""
        asks, dies = self.asks_from(turns, i, c)
        at = self.f.address_of_status(c)
        joins = [k for k, a in enumerate(asks) if a[:2] == ("Store", at) and a[2] == 1]
        leaves = [k for k, a in enumerate(asks) if a[:2] == ("Store", at) and a[2] == 3]
        most = (leaves or [len(asks) - 1])[0] + 1
        n = joins[0] + 1 if joins and stage == ("Vacant",) else self.random.randint(1, most)
        if joins and stage == ("Vacant",):
            after = ("Live",)
        elif leaves and n == leaves[0] + 1:
            after = ("Vacant",)
        else:
            after = stage
            if dies and stage == ("Live",) and self.dies_after(turns, i, c, len(asks)) and self.random.random() < 0.5:
                n, after = len(asks), ("Dead",)  # its answer gives the identity up
                self.given.add(c)
            elif dies and n == len(asks) and self.random.random() < 0.5:
                n += 1  # it dies in this operation
        self.plays.append(Rec(me_=Rec(geometry_=self.g, who_=c), fresh_=True, asks_=tuple(asks[:n]) + (("Load", 0),) * (n - len(asks)), stage_=after))
        self.left[c] = n
        self.open[c] = after
        self.add("Calls", c, call_of(1, len(self.plays) - 1))

    def turn(self, turns, i, ws):
        kind, c = turns[i][0], turns[i][1]
        if kind == "Begins":
            if c in self.open and (self.open[c] != ("Vacant",) or self.random.random() < 0.5):
                self.add("Closes", c)
                del self.open[c]
            if c not in self.open:
                self.add("Opens", c, self.status(ws, c))
                self.open[c] = ("Vacant",) if self.status(ws, c) in (0, 3) else ("Dead",)
            if self.random.random() < 0.3:
                self.add("Calls", c, call_of(2))  # refused
            self.begin(turns, i + 1, c, self.open[c])
        elif kind == "Dies" and c in self.given:
            self.given.remove(c)
        elif kind == "Dies":
            if self.random.random() < 0.5:
                self.add("Calls", c, call_of(18))
                self.open[c] = ("Dead",)
                self.left[c] = 0
            else:
                self.add("Closes", c)
                del self.open[c]
        else:
            if self.left.get(c, 0) == 0:
                self.begin(turns, i, c, self.open[c])
            elif self.random.random() < 0.05:
                self.add("Calls", c, call_of(self.random.choice([1, 16, 17])))  # busy, or a question
            ask = turns[i][2]
            self.add("Steps", c, self.f.seen_of(ask, self.f.slice_index(ws, ask[1])))
            self.left[c] -= 1


# ------------------------------------------------------------------ what is lawful


def may_happen(f, g, o, h, q, ws):
    c = h[1]
    x = q(c)
    if h[0] == "Opens" and not (c < g.clients_ and x == NONE and h[2] == f.see(g, ws, ("Status", c))):
        raise Broken(f"opens {c}")
    if h[0] == "Calls":
        if x == NONE or not all(n < 2**k for n, k in ((h[2].op_, 32), (h[2].first_, 64), (h[2].second_, 64), (h[2].third_, 64), *((n, 64) for n in h[2].words_))):
            raise Broken(f"calls {c}")
        if x[1].stage_ == ("Live",) and h[2].op_ != 18 and not f.see(g, ws, ("Era", c, c)) <= 2**47 - 4:
            raise Broken(f"room of {c}")
    if h[0] == "Steps":
        m = f.work_of(x)
        if m == NONE or h[2] != f.seen_of(o.control_.asks_(m[1]), f.slice_index(ws, o.control_.asks_(m[1])[1])):
            raise Broken(f"steps {c}")


def try_run(f, parts, seed):
    t, turns = trace_of(parts["trace"]), tuple(turn_of(x.split()) for x in parts["turns"])
    g, ws = f.geometry_of(t), f.words_first(t)
    f.address_of_status = lambda c: next(a for a in range(len(ws)) if f.place_at(g, a) == ("Status", c))
    words = [ws]
    for turn in turns:
        words.append(f.words_by_turn(turn, words[-1]))
    drawn = Drawn(f, g, words, turns, seed)
    o, q, made = playback(drawn.plays), f.nothing_open, []
    for k, h in enumerate(drawn.happenings):
        try:
            if ws != drawn.words[k] and h[0] == "Steps" and drawn.words[k - 1] == drawn.words[k]:
                raise Broken("words")
            may_happen(f, g, o, h, q, ws)
        except Broken as e:
            raise Broken(f"happening {k + 1}: {e}")
        made += [f.turn_of(m) for m in f.turns_by(g, o, h, q)]
        ws, q = f.words_by(g, o, h, q, ws), f.sessions_by(g, o, h, q)
    if tuple(made) != turns:
        n = next((i for i, (a, b) in enumerate(zip(made, turns)) if a != b), min(len(made), len(turns)))
        raise Broken(f"turn {n + 1} is {made[n] if n < len(made) else 'missing'}, and {turns[n] if n < len(turns) else 'none'} is recorded")
    if ws != words[-1]:
        raise Broken("the words at last")
    return len(drawn.happenings)


WANTED = {
    "shm_sessions": "nothing_open sessions_by words_by turns_by work_of",
    "shm_headline": "geometry_of words_first turn_of",
    "shm_graph": "see seen_of",
    "shm_words": "place_at",
}


def definitions(world, changed=None):
    code = Code(world, changed)
    f = Rec(**{name: code.get(crate, name) for crate, names in WANTED.items() for name in names.split()})
    f.words_by_turn = code.get("shm_headline", "words_by")
    f.slice_index = lambda ws, a: ws[a] if a < len(ws) else 0
    return f


def main():
    world = closure.World(".")
    runs = {os.path.basename(p)[:-4]: read_run(p) for p in sorted(glob.glob(RUNS + "/*.run"))}
    runs = {n: r for n, r in runs.items() if not sys.argv[1:] or any(x in n for x in sys.argv[1:])}
    f, good, happenings = definitions(world), True, 0
    for name, parts in runs.items():
        for seed in range(3):
            try:
                happenings += try_run(f, parts, seed)
            except Broken as e:
                good = False
                print(f"{name}, {seed}: {e}")
    print(f"{3 * len(runs)} logs of sessions, {happenings} happenings: " + ("each is lawful and a run of the pool" if good else "not each is"))
    for wrong in WRONG:
        f, found = definitions(world, wrong), []
        for name, parts in runs.items():
            try:
                try_run(f, parts, 0)
            except Broken as e:
                found.append(f"{name}, {e}")
        good = good and bool(found)
        print(f"{wrong[0]}: broken on {len(found)} of {len(runs)} runs" + (f", first {found[0]}" if found else ""))
    print("all went as it should" if good else "not all went as it should")
    sys.exit(not good)


if __name__ == "__main__":
    run_deep(main)
