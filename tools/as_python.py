"""Definitions of specs/ as Python, and recorded runs: what tools/try_statement.py and tools/try_sessions.py share.

A definition that gives a value is translated from its text as it stands, clause by clause: patterns become tests, records become records, and a name
means what the file's `use` lines say. What a module around it binds (`module _ (o : ..)`) comes first among its arguments."""
import functools, os, re, sys, threading
from types import SimpleNamespace as Rec

sys.dont_write_bytecode = True
sys.path.insert(0, os.path.dirname(os.path.abspath(__file__)))
import closure  # noqa: E402

def memo(f):
    """The function, which remembers what it gave."""
    known = {}

    def g(x):
        if x not in known:
            known[x] = f(x)
        return known[x]

    return g


def curry(f, n, args=()):
    """The rest of a call of a function of n arguments, one argument a call."""
    return f(*args) if len(args) == n else lambda x: curry(f, n, args + (x,))


def insert_entry(cmp, m, k, v):
    return tuple(sorted([e for e in m if e[0] != k] + [(k, v)]))


def position_or_len(p, xs):
    return next((i for i, x in enumerate(xs) if p(x)), len(xs))


NONE = ("None",)
CONSTRUCTORS = ("Some", "None", "Ok", "Err")
# what specs/ have from the standard library, with the number of arguments
KIT = {
    "not": (1, lambda a: not a),
    "is_some": (1, lambda a: a[0] == "Some"),
    "suc": (1, lambda n: n + 1),
    "zero": (0, 0),
    "nat_lt": (2, lambda a, b: a < b),
    "nat_le": (2, lambda a, b: a <= b),
    "nat_eq": (2, lambda a, b: a == b),
    "eqb": (2, lambda a, b: a == b),
    "nat_cmp": (0, None),
    "length": (1, len),
    "map": (2, lambda f, xs: tuple(f(x) for x in xs)),
    "flat_map": (2, lambda f, xs: tuple(y for x in xs for y in f(x))),
    "take": (2, lambda n, xs: xs[:n]),
    "sum": (1, sum),
    "codes": (1, lambda text: tuple(text.encode())),
    "decimal": (1, lambda n: tuple(str(n).encode())),
    "list_any": (2, lambda p, xs: any(p(x) for x in xs)),
    "position_or_len": (2, position_or_len),
    "insert_entry": (4, insert_entry),
    "slice_index": (2, lambda xs, i: xs[i] if i < len(xs) else 0),
    "slice_set": (3, lambda xs, i, x: xs[:i] + (x,) + xs[i + 1 :] if i < len(xs) else xs),
    "FinMap.empty": (0, ()),
    "FinMap.get": (2, lambda m, k: next((("Some", v) for j, v in m if j == k), NONE)),
    "FinMap.insert": (3, lambda m, k, v: tuple(e for e in m if e[0] != k) + ((k, v),)),
    "FinMap.remove": (2, lambda m, k: tuple(e for e in m if e[0] != k)),
}
LEVELS = {"||": (1, 1), "&&": (2, 2), "==": (4, 4), "++": (5, 4), "∷": (5, 4), "+": (6, 6), "-": (6, 6), "*": (7, 7), "/": (7, 7), "%": (7, 7), "^": (8, 7)}
PYTHON = {
    "||": "({} or {})",
    "&&": "({} and {})",
    "==": "({} == {})",
    "++": "({} + {})",
    "∷": "(({},) + {})",
    "+": "({} + {})",
    "-": "max({} - {}, 0)",
    "*": "({} * {})",
    "/": "({} // {})",
    "%": "({} % {})",
    "^": "({} ** {})",
}
TOKEN = re.compile(r'"[^"]*"|\d+|λ|[^\W\d][\w\']*|[().{}\[\],;_:]|[^\s\w().{}\[\],;"]+')
# the dot after the names of a λ, which a blank follows; that before a field has none
LAMBDA_DOT = "λ."


def field(name):
    return f"[{name}]" if name.isdigit() else "." + name + "_"


class Clause:
    """One clause of a definition, read from its words."""

    def __init__(self, code, d, text):
        self.code, self.d = code, d
        self.words = [LAMBDA_DOT if m.group() == "." and text[m.end() : m.end() + 1].isspace() else m.group() for m in TOKEN.finditer(text)]
        self.at = 0

    def peek(self, ahead=0):
        return self.words[self.at + ahead] if self.at + ahead < len(self.words) else ""

    def next(self, want=None):
        w = self.peek()
        if want and w != want:
            raise SyntaxError(f"{self.d.name}: {want} is wanted and not {w}: {' '.join(self.words)}")
        self.at += 1
        return w

    # -- names

    def meaning(self, word):
        """What a word means that no pattern binds: a definition, a name of the library or nothing."""
        return self.d.scope.find(word)

    def qualified(self):
        """module.name, where the word is a module's name here."""
        module = self.next()
        self.next(".")
        name = self.next()
        path = self.d.scope.modules[module]
        at = self.code.world.split(path)
        found = self.code.world.item((at[0], at[1], name)) if at else ("kit", path, name)
        return name, found

    def is_module(self, bound):
        w = self.peek()
        return w not in bound and w in self.d.scope.modules and self.peek(1) == "." and self.d.scope.find(w) is None

    # -- patterns: (conditions, bindings)

    def is_cons(self):
        """Whether a ∷ stands in these brackets, not counting those inside."""
        depth, i = 0, 0
        while depth > 0 or self.peek(i) != ")":
            depth += (self.peek(i) == "(") - (self.peek(i) == ")")
            if depth == 0 and self.peek(i) == "∷":
                return True
            i += 1
        return False

    def pattern(self, value, bound):
        if self.peek() != "(":
            return self.inner_pattern(value, bound, alone=True)
        self.next()
        if self.is_cons():
            tests = [f"len({value}) > 0"] + self.inner_pattern(f"{value}[0]", bound)
            self.next("∷")
            tests += self.inner_pattern(f"{value}[1:]", bound)
        else:
            tests = self.inner_pattern(value, bound)
        self.next(")")
        return tests

    def inner_pattern(self, value, bound, alone=False):
        if self.peek() == "[":
            self.next(), self.next("]")
            return [f"{value} == ()"]
        if self.peek() == "_":
            self.next()
            return []
        if self.peek().isdigit():
            return [f"{value} == {self.next()}"]
        if self.is_module(bound):
            name, found = self.qualified()
        else:
            name = self.next()
            found = self.meaning(name)
        kit = found[2] if isinstance(found, tuple) else None
        if kit in ("true", "false"):
            return [f"{value} == {kit == 'true'}"]
        if kit == "zero":
            return [f"{value} == 0"]
        if kit == "suc":
            return [f"{value} > 0"] + self.pattern(f"({value} - 1)", bound)
        constructor = kit in CONSTRUCTORS or isinstance(found, closure.Def) and found.kind in ("enum", "data") and name[0].isupper()
        if not constructor:
            bound[name] = value
            return []
        tests, i = [f"{value}[0] == {name!r}"], 1
        while not alone and self.peek() not in (")", "∷"):
            tests += self.pattern(f"{value}[{i}]", bound)
            i += 1
        return tests

    # -- expressions

    def expression(self, bound, level=0):
        w = self.peek()
        if w == "if":
            self.next()
            test = self.expression(bound)
            self.next("then")
            yes = self.expression(bound)
            self.next("else")
            return f"({yes} if {test} else {self.expression(bound)})"
        if w == "λ":
            return self.function(bound)
        if w == "let":
            self.next()
            name = self.next()
            while self.peek() != "=":
                self.next()
            self.next()
            value = self.expression(bound)
            self.next("in")
            new = self.code.fresh()
            return f"(lambda {new}: {self.expression({**bound, name: new})})({value})"
        left = self.application(bound)
        while self.peek() in LEVELS and LEVELS[self.peek()][0] > level:
            op = self.next()
            left = PYTHON[op].format(left, self.expression(bound, LEVELS[op][1]))
        return left

    def function(self, bound):
        self.next("λ")
        names = []
        while self.peek() != LAMBDA_DOT:
            if self.peek() == "(":
                self.next()
                while self.peek() != ":":
                    names.append(self.next())
                while self.next() != ")":
                    pass
            else:
                names.append(self.next())
        self.next()
        new = {n: self.code.fresh() for n in names}
        body = self.expression({**bound, **new})
        for n in reversed(names):
            body = f"memo(lambda {new[n]}: {body})"
        return body

    def starts_atom(self):
        w = self.peek()
        return w and (w in "([" or w == "record" or w[0] == '"' or w[0].isdigit() or re.match(r"^[^\W\d]", w)) and w not in ("then", "else", "in", LAMBDA_DOT)

    def application(self, bound):
        head = self.atom(bound)
        args = []
        while self.starts_atom():
            args.append(self.atom(bound))
        if isinstance(head, tuple):
            kind, name, n = head[0], head[1], head[2]
            if kind == "constructor":
                return "(" + "".join(repr(x) + "," if i == 0 else x + "," for i, x in enumerate([name] + [self.text(a) for a in args])) + ")"
            texts = [self.text(a) for a in args]
            if len(texts) >= n:
                out = f"{name}({', '.join(texts[:n])})" if n or kind == "global" else name
                texts = texts[n:]
            else:
                return f"curry({name}, {n}, ({''.join(t + ', ' for t in texts)}))"
        else:
            out, texts = head, [self.text(a) for a in args]
        return out + "".join(f"({t})" for t in texts)

    def text(self, atom):
        """An atom that stands alone."""
        if not isinstance(atom, tuple):
            return atom
        kind, name, n = atom
        if kind == "constructor":
            return f"({name!r},)"
        return (f"{name}()" if kind == "global" else name) if n == 0 else f"curry({name}, {n})"

    def atom(self, bound):
        w = self.peek()
        if w == "(":
            self.next()
            parts = [self.expression(bound)]
            while self.peek() == ",":
                self.next()
                parts.append(self.expression(bound))
            self.next(")")
            out = parts[-1]
            for p in reversed(parts[:-1]):
                out = f"({p}, {out})"
            out = f"({out})"
        elif w == "[":
            self.next(), self.next("]")
            out = "()"
        elif w == "record":
            out = self.record(bound)
        elif w[0] == '"' or w[0].isdigit():
            out = self.next()
        elif self.is_module(bound):
            out = self.known(*self.qualified())
        else:
            self.next()
            out = bound[w] if w in bound else self.known(w, self.meaning(w))
        while self.peek() == ".":
            self.next()
            out = self.text(out) + field(self.next())
        return out

    def known(self, name, found):
        if isinstance(found, closure.Def):
            if found.kind in ("enum", "data"):
                return ("constructor", name, 0)
            kind, py, n = self.code.function(found)
            outer = self.code.outer(found)
            if outer and self.d.path == found.path and outer == self.code.outer(self.d):
                return f"curry({py}, {n}, ({''.join('p_' + x + ', ' for x in outer)}))"
            return kind, py, n
        if found is None:
            raise NameError(f"{self.d.name}: {name}")
        path, name = found[1], found[2]
        if name in ("true", "false"):
            return str(name == "true")
        if name in CONSTRUCTORS:
            return ("constructor", name, 0)
        key = "FinMap." + name if path.endswith("FinMap") else name
        return ("kit", f"KIT[{key!r}][1]", KIT[key][0])

    def record(self, bound):
        self.next("record")
        old = self.atom(bound) if self.peek() != "{" else None
        self.next("{")
        fields = []
        while self.peek() != "}":
            name = self.next()
            self.next("=")
            fields.append(f"{name}_={self.expression(bound)}")
            if self.peek() == ";":
                self.next()
        self.next("}")
        return f"Rec({', '.join(([f'**vars({self.text(old)})'] if old else []) + fields)})"


class Code:
    """Definitions of the tree as Python functions, with one definition changed if one is."""

    def __init__(self, world, changed=None):
        self.world, self.changed = world, changed
        self.arity, self.names, self.count = {}, {}, 0
        self.space = {"memo": memo, "curry": curry, "KIT": KIT, "Rec": Rec}

    def fresh(self):
        self.count += 1
        return f"v{self.count}"

    def clauses(self, d):
        """The clauses of a definition without its signature."""
        out = []
        for text in d.clauses:
            if self.changed and self.changed[1] == f"{d.crate}.{d.name}":
                text = text.replace(self.changed[2], self.changed[3])
            if re.match(r"^" + re.escape(d.name) + r"(\s|$)", text.strip()) and not re.match(r"^\S+\s+:", text.strip()):
                out.append(text.strip())
        return out

    def outer(self, d):
        """What a module around it binds that its calls give, in order."""
        return [x for x in sorted(d.params) if re.fullmatch("[a-z]+", x)]

    def function(self, d):
        """('global', its name in Python, its number of arguments); it is translated the first time."""
        if d.key not in self.names:
            py = f"f{len(self.names)}_{re.sub(r'[^a-z0-9_]', '', d.name)}"
            self.names[d.key] = py
            self.translate(d, py)
        return ("global", self.names[d.key], self.arity[d.key])

    def translate(self, d, py):
        texts = self.clauses(d)
        outer = self.outer(d)
        arity = self.arity_of(d, texts[0])
        self.arity[d.key] = len(outer) + arity
        args = [f"a{i}" for i in range(arity)]
        lines = [f"def {py}({', '.join(['p_' + x for x in outer] + args)}):"]
        for text in texts:
            c = Clause(self, d, text)
            c.next()
            bound, tests = {x: "p_" + x for x in outer}, []
            for a in args:
                tests += c.pattern(a, bound)
            c.next("=")
            body = c.expression(bound)
            if c.peek():
                raise SyntaxError(f"{d.name}: {c.peek()} is left")
            lines.append(f"    if {' and '.join(tests) or 'True'}: return {body}")
        lines.append(f"    raise ValueError({d.name!r})")
        exec("\n".join(lines), self.space)

    def arity_of(self, d, text):
        c = Clause(self, d, text)
        c.next()
        n = 0
        while c.peek() != "=":
            c.pattern("x", {})
            n += 1
        return n

    def get(self, crate, name):
        """A definition as a Python function, which may be called with more arguments than its clauses name, or with fewer."""
        d = next(d for d in self.world.defs.values() if d.crate == crate and d.name == name and d.module.startswith("specs"))
        _, py, n = self.function(d)
        return lambda *args: functools.reduce(lambda h, x: h(x), args[n:], curry(self.space[py], n, args[:n]))


# ------------------------------------------------------------------ recorded runs

LINES = {"put": ("Put", 2), "del": ("Del", 1), "get": ("Get", 2), "copy": ("Copy", 3), "send": ("Send", 2), "recv": ("Recv", 2)}


def line_of(words):
    return (LINES[words[0]][0],) + tuple(map(int, words[1:]))


def trace_of(lines):
    """The trace that these lines spell."""
    head = lines[0].split()
    t = Rec(clients_=int(head[1]), segments_=int(head[2]), wide_=head[0] == "pool2", order_=(), scripts_=())
    scripts = []
    for words in map(str.split, lines[1:]):
        if words[0] == "order":
            items = [w.split(":") + ["0"] for w in words[1:]]
            t.order_ = tuple(Rec(client_=int(c[0]), turns_=int(c[1])) for c in items)
        elif words[0] == "client":
            scripts.append(Rec(client_=int(words[1]), life_=(), lines_=()))
        elif words[0] == "life":
            scripts[-1].life_ = tuple(map(int, words[1:]))
        else:
            scripts[-1].lines_ += (line_of(words),)
    t.scripts_ = tuple(scripts)
    return t


def turn_of(words):
    c, rest = int(words[1]), tuple(map(int, words[2:]))
    kinds = {"L": "Load", "S": "Store", "X": "Exchange"}
    return ("Steps", c, (kinds[words[0]],) + rest) if words[0] in kinds else ({"D": "Dies", "B": "Begins"}[words[0]], c)


def logs_of(lines):
    logs = []
    for line in lines:
        words = line.split()
        if words[0] == "client":
            end = ("Ended",) if words[2] == "ended" else ("Died", int(words[3]), words[4] == "done")
            logs.append(Rec(client_=int(words[1]), entries_=(), end_=end))
        else:
            command, _, answer = line.partition(" | ")
            answer = answer.split()
            logs[-1].entries_ += (Rec(line_=line_of(command.split()), answer_=(answer[0],) + tuple(map(int, answer[1:]))),)
    return tuple(logs)


def read_run(path):
    parts, name = {}, None
    for line in open(path, encoding="ascii").read().splitlines():
        if line in ("trace", "turns", "logs", "report"):
            name = line
            parts[name] = []
        else:
            parts[name].append(line)
    return parts


def run_deep(main):
    """Runs it with room for deep recursion, and ends with its status."""

    def status():
        try:
            main()
        except SystemExit as e:
            done.append(e.code)

    sys.setrecursionlimit(100000)
    threading.stack_size(512 * 1024 * 1024)
    done = []
    thread = threading.Thread(target=status)
    thread.start()
    thread.join()
    sys.exit(done[0] if done else 1)
