#!/usr/bin/env python3
"""How much must be read to know what a contract says? Run at the top of the repository.

    closure.py sizes CONTRACT ..    a table: for each contract how many definitions, lines and words its statement reaches
    closure.py crates CONTRACT      the same of one contract, by crate and by file
    closure.py names CONTRACT       each definition that it reaches, with its place, its size and who names it first
    closure.py text CONTRACT        the text of all these definitions, file by file
    closure.py why CONTRACT NAME    a shortest chain of names from the contract to a definition
    closure.py unread CONTRACT      words of the definitions that are no known name: all should be variables

CONTRACT is CRATE:FUNCTION or CRATE:TYPE::METHOD, as shm_program:top, shm_pool:SharedPool::close. CRATE:* is all public functions of a crate,
CRATE:=NAME a definition or a type, as shm_graph:=IsClean. With `+`, as shm_a:f+shm_b:g, several contracts are taken as one.

What is followed. A contract's clauses (`requires`, `ensures`), the types of its arguments and of its result, and the traits of its type
parameters are the start. From there each name that stands in a definition's text leads on:

- in crates/*/specs/*.antt: `abbrev`, `record`, `data`, functions with their clauses, private ones too, through `use` (with `as`, modules
  under another name, `pub use`);
- `specs.declared.*`: structs and enums of src/*.rt with their fields and ghost fields, and their `impl Model` (Value and view). Bounds of
  their type parameters aren't followed, since a value's meaning doesn't hang on them. Of a struct with an `impl Model` contracts see no
  field, so the Rust types of its fields aren't followed, but for what the impl names;
- traits: the whole trait, with its ghost members, laws and the contracts of its methods;
- `⟦<X as T>⟧` and `X.member`: the ghost members of the impls of T for X.

A body of a function is no part of a statement, nor is a proof: the ghost member of an impl that is a law is left out (of the trait it
is followed). What stands in crates that are none of the repository's (std, clap, atomic_table ..) is a leaf: it isn't read.

What is counted. Of each definition the lines of code, without blank lines, comments and imports; those lines with the comments that stand
directly above it or in it; and the words, since lines here are long: names, numbers and operators, without brackets. A definition of which
a part is named counts as a whole.

What is approximated. The text is read by words, without types. A word that is bound anywhere in the same clause (a `λ`, a `(x : ..)`, a
`let`, a pattern) is taken for that variable there and leads nowhere. A word after a dot is a field, unless what stands before the dot is a
module. So a name can be missed only where a clause binds it and means the definition in the same clause, and can be too much only where a
word is a field of a record literal and a definition's name.
"""

import os
import re
import sys
from collections import defaultdict, deque

WORD = re.compile(r"«[^»]*»|\"(?:[^\"\\]|\\.)*\"|[^\s(){}\[\],;.λ⟦⟧\"]+|[.λ⟦⟧(){}\[\],;]")
# the dot after the names of a λ is told from that before a field by the space after it
LAMBDA_DOT = "↣"


def words_of(text):
    return WORD.findall(re.sub(r"\.(?=\s|$)", " " + LAMBDA_DOT + " ", text))


NAME = re.compile(r"^[^\W\d][\w\-'₀-₉]*$", re.UNICODE)
KEYWORDS = set(
    "let in if then else elim as where record open use unfolding abbrev pub data module mod refl do forall requires ensures ghost".split()
)


class Def:
    """A definition: its crate, its module and name, its text, and what its names mean."""

    def __init__(self, crate, module, name, kind, path, line):
        self.crate, self.module, self.name, self.kind, self.path, self.line = crate, module, name, kind, path, line
        self.comment = []  # the comment lines above it
        self.lines = []  # its own lines, comments among them
        self.clauses = []  # its texts without comments: each is scoped alone
        self.params = set()  # the names that a module around it binds
        self.scope = None  # the file's table of names
        self.direct = []  # definitions that it leads to by other ways than names
        self._targets = None

    @property
    def key(self):
        return (self.crate, self.module, self.name)

    def code_lines(self):
        return sum(1 for x in self.lines if x.strip() and not is_comment(x))

    def all_lines(self):
        return self.code_lines() + len(self.comment) + sum(1 for x in self.lines if is_comment(x))

    def words(self):
        return sum(
            1 for x in self.lines if not is_comment(x) for w in WORD.findall(x) if w not in "(){}[],;.λ⟦⟧"
        )

    def lemma(self):
        """A signature with a body that doesn't unfold: a proof, for contracts can't compute with it."""
        return self.kind == "lemma"

    def where(self):
        return f"{self.path}:{self.line}"


def is_comment(line):
    s = line.strip()
    return s.startswith("--") or s.startswith("//")


class Scope:
    """What the names of one file mean: imports, its own definitions, modules under a name."""

    def __init__(self, crate, module, world):
        self.crate, self.module, self.world = crate, module, world
        self.names = {}  # a name -> (crate, module path, name) or ('kit', whole path)
        self.modules = {}  # a module's name here -> its path
        self.locals = {}  # this file's own definitions

    def find(self, word):
        if word in self.locals:
            return self.locals[word]
        if word in self.names:
            return self.world.item(self.names[word])
        return None


# ------------------------------------------------------------------ reading .antt


def use_line(line):
    """(path, [(name, alias)]) or (path, None, alias) of a `use` line without its `ghost` and `pub`."""
    body = re.sub(r"^(pub )?(ghost )?(pub )?use ", "", line.strip()).rstrip(";")
    m = re.match(r"^([\w.]+)\.\{(.*)\}$", body)
    if m:
        names = []
        for part in m.group(2).split(","):
            part = part.strip()
            if not part:
                continue
            a = re.match(r"^(.+?) as (.+)$", part)
            names.append((a.group(1).strip(), a.group(2).strip()) if a else (part, part))
        return m.group(1), names, None
    m = re.match(r"^([\w.]+) as ([\w]+)$", body)
    if m:
        return m.group(1), None, m.group(2)
    return body, None, body.split(".")[-1]


def split_top(text):
    """The parts of a list in braces, at its own commas alone."""
    parts, depth, start = [], 0, 0
    for i, c in enumerate(text):
        depth += (c == "{") - (c == "}")
        if c == "," and depth == 0:
            parts.append(text[start:i]); start = i + 1
    return [part.strip() for part in parts + [text[start:]] if part.strip()]


def leaves(text):
    """The items of a path with braces, as (module, name with its alias)."""
    at = text.find("{")
    if at < 0:
        path, _, alias = text.partition(" as ")
        head, _, last = path.strip().rpartition(".")
        return [(head, last + (f" as {alias.strip()}" if alias else ""))]
    head = text[:at].rstrip(".")
    return [(".".join(x for x in (head, path) if x), name) for part in split_top(text[at + 1 : text.rindex("}")]) for path, name in leaves(part)]


def flat(text):
    """The text with each import that has paths in braces written as one import a module."""
    out = []
    for line in text.split("\n"):
        m = re.match(r"^(\s*(?:pub )?(?:ghost )?(?:pub )?use )(Rattle\.[^;]*\{.*\})(;?)\s*$", line)
        if m and re.search(r"\{.*[\w\}]\.[\w{].*\}", m.group(2)):
            by = {}
            for path, name in leaves(m.group(2)):
                by.setdefault(path, []).append(name)
            out += [f"{m.group(1)}{path}.{{{', '.join(names)}}}{m.group(3)}" for path, names in by.items()]
        else:
            out.append(line)
    return "\n".join(out)



HEAD = re.compile(r"^(?P<mods>(?:(?:abbrev|unfoldable|pattern|pub|private)\s+)*)(?P<name>[^\s:=(){}]+)")


def strip_comment(line):
    """The line without a comment after code."""
    i = line.find(" -- ")
    return line if i < 0 else line[:i]


def read_antt(world, crate, module, path, text):
    scope = Scope(crate, module, world)
    world.scopes[(crate, module)] = scope
    lines = text.split("\n")
    base, stack, params = 0, [], set()
    current, comment = None, []

    def close():
        nonlocal current
        current = None

    for number, line in enumerate(lines, 1):
        s = line.strip()
        indent = len(line) - len(line.lstrip(" "))
        if not s:
            comment = []
            continue
        while stack and indent < base:
            base, params = stack.pop()
            close()
        if indent > base and current is not None:
            current.lines.append(line)
            if not is_comment(line):
                current.clauses[-1] += "\n" + strip_comment(line)
            continue
        if s.startswith("--"):
            comment.append(line)
            continue
        if re.match(r"^(pub )?use ", s):
            world.uses.append((scope, s))
            comment = []
            continue
        if re.match(r"^(pub )?mod ", s):
            comment = []
            continue
        if s.startswith("module "):
            stack.append((base, params))
            base = indent + 2
            params = params | binders_of(s)
            close()
            comment = []
            continue
        if s.startswith("unfolding"):
            if current is not None:
                current.lines.append(line)
            continue
        # a clause of the definition that stands open, or a new one
        if current is not None and re.match(r"^" + re.escape(current.name) + r"(\s|$)", s) and not re.match(r"^\S+\s+:", s):
            current.lines += comment + [line]
            comment = []
            current.clauses.append(strip_comment(line))
            continue
        m = HEAD.match(s)
        if m is None:
            # a part of the definition that stands open, as the closing bracket of its body
            if current is not None:
                current.lines.append(line)
                current.clauses[-1] += "\n" + strip_comment(line)
            continue
        name, mods = m.group("name"), m.group("mods") or ""
        shaped = re.match(r"^(?:pub )?(record|data) (?:pub )?(\S+)", s)
        if shaped:
            kind, name = shaped.group(1), shaped.group(2)
        elif re.match(r"^(pub )?(pattern )?abbrev ", s):
            kind = "abbrev"
        elif "unfoldable" in mods:
            kind = "function"
        elif re.match(r"^(pub )?\S+ :", s):
            kind = "lemma"
        else:
            # the clause of an operator or of a name in another order
            if current is not None:
                current.lines.append(line)
                current.clauses.append(strip_comment(line))
                continue
            kind = "lemma"
        current = Def(crate, module, name, kind, path, number)
        current.comment, comment = comment, []
        current.lines.append(line)
        current.clauses.append(strip_comment(line))
        current.scope, current.params = scope, set(params)
        world.add(current)
        scope.locals[name] = current
    # constructors of data are names of it
    for d in list(scope.locals.values()):
        if d.kind == "data" and d.crate == crate and d.module == module:
            for x in d.lines[1:]:
                m = re.match(r"^\s+(\S+) :", x)
                if m and not is_comment(x):
                    scope.locals.setdefault(m.group(1), d)
                    world.alias[(crate, module, m.group(1))] = d


# ------------------------------------------------------------------ reading .rt


def rt_blocks(lines):
    """(first line, last line, indent, head) of each item with a block or a `;`, by indentation."""
    out = []
    for i, line in enumerate(lines):
        s = line.strip()
        if not re.match(r"^(pub(\([^)]*\))? )?(struct|enum|trait|impl|union|type|unsafe impl|unsafe trait)\b", s):
            continue
        indent = len(line) - len(line.lstrip())
        j = i
        while j < len(lines):
            t = lines[j]
            ti = len(t) - len(t.lstrip())
            if j == i and (t.rstrip().endswith(";") or t.rstrip().endswith("}")):
                break
            if j > i and ti == indent and t.strip() in ("}", "};", ")", ");"):
                break
            if j > i and ti == indent and t.strip().endswith(";"):
                break
            j += 1
        out.append((i, min(j, len(lines) - 1), indent, s))
    return out


def above(lines, i):
    """The doc comments and the attributes above line i."""
    docs, attrs, j = [], [], i - 1
    while j >= 0 and (lines[j].strip().startswith("///") or lines[j].strip().startswith("#[") or lines[j].strip().startswith("// ")):
        (docs if is_comment(lines[j]) else attrs).insert(0, lines[j])
        j -= 1
    return docs, attrs


def read_rt(world, crate, module, path, text):
    scope = Scope(crate, "src." + module, world)
    world.scopes[(crate, "src." + module)] = scope
    text = re.sub(r"\n#\[cfg\(test\)\]\nmod \w+;", "", text)
    lines = text.split("\n")
    # imports; a `use` may go over several lines
    joined, buffer = [], None
    for line in lines:
        s = line.strip()
        if buffer is not None:
            buffer += " " + s
            if s.endswith(";"):
                joined.append(buffer)
                buffer = None
            continue
        if re.match(r"^(pub(\([^)]*\))? )?(ghost )?(pub )?use ", s):
            if s.endswith(";"):
                joined.append(s)
            else:
                buffer = s
    for s in joined:
        if "ghost use" in s:
            world.uses.append((scope, s))
        else:
            world.rust_uses.append((scope, s))
    # types and traits
    for i, j, indent, head in rt_blocks(lines):
        m = re.match(r"^(?:pub(?:\([^)]*\))? )?(?:unsafe )?(struct|enum|trait|type|union)\s+(\w+)", head)
        if m and indent == 0:
            d = Def(crate, "declared." + module, m.group(2), m.group(1), path, i + 1)
            docs, attrs = above(lines, i)
            d.comment = docs
            d.lines = attrs + lines[i : j + 1]
            d.clauses = ["\n".join(x for x in lines[i : j + 1] if not is_comment(x))]
            d.scope = scope
            world.add(d)
            world.types[crate][d.name].append(d)
            scope.locals[d.name] = d
            if m.group(1) == "enum":
                for x in lines[i + 1 : j]:
                    v = re.match(r"^    (\w+)", x)
                    if v and not is_comment(x):
                        world.alias[(crate, "declared." + module + "." + d.name + ".TheVariants", v.group(1))] = d
            continue
        m = re.match(r"^(?:unsafe )?impl\b", head)
        if m:
            sign = " ".join(x.strip() for x in lines[i : j + 1])
            sign = sign.split("{")[0]
            sign = re.sub(r"^(unsafe )?impl\s*", "", sign)
            sign = drop_generics(sign)
            t = re.match(r"^(.*?)\s+for\s+(.*)$", sign)
            trait = re.match(r"^&?(?:'\w+ )?(?:mut )?(?:\w+::)*(\w+)", (t.group(1) if t else "").strip() or "-")
            of = re.match(r"^&?(?:'\w+ )?(?:mut )?(?:\w+::)*(\w+)", (t.group(2) if t else sign).strip())
            world.impls.append((crate, scope, path, i, j, trait.group(1) if trait else None, of.group(1) if of else None, lines))
    world.files[(crate, module)] = (scope, path, lines)


def drop_generics(s):
    """Without a leading <..>."""
    s = s.strip()
    if not s.startswith("<"):
        return s
    depth = 0
    for i, c in enumerate(s):
        if c == "<":
            depth += 1
        if c == ">" and s[i - 1] != "-":
            depth -= 1
            if depth == 0:
                return s[i + 1 :].strip()
    return s


# ------------------------------------------------------------------ names


def binders_of(text):
    """The words that a clause binds."""
    out = set()
    words = words_of(text)
    n = len(words)
    for i, w in enumerate(words):
        if w == "λ":
            j, depth = i + 1, 0
            while j < n and not (words[j] == LAMBDA_DOT and depth == 0):
                if words[j] in "([{":
                    depth += 1
                elif words[j] in ")]}":
                    depth -= 1
                elif NAME.match(words[j]) and (depth == 0 or binder_head(words, j)):
                    out.add(words[j])
                j += 1
        elif w in "({":
            j = i + 1
            group = []
            while j < n and NAME.match(words[j]):
                group.append(words[j])
                j += 1
            if group and j < n and words[j] == ":":
                out.update(group)
        elif w == "let":
            j = i + 1
            while j < n and words[j] not in (":", "="):
                if NAME.match(words[j]):
                    out.add(words[j])
                j += 1
    # patterns of elim: between [ or | and ↦
    for m in re.finditer(r"[\[|]([^\[\]|]*?)↦", text):
        for w in WORD.findall(m.group(1)):
            if NAME.match(w) and not w[0].isupper():
                out.add(w)
    # the left side of a clause
    first = text.split("\n")[0]
    m = re.match(r"^\s*(\S+)((?:\s+[^=:{]+?)?)\s+=(\s|$)", first)
    if m and not re.match(r"^\s*(pub|abbrev|unfoldable)\b", first):
        for w in WORD.findall(m.group(2)):
            if NAME.match(w) and not w[0].isupper():
                out.add(w)
    # the clauses of a `where` inside
    for x in text.split("\n")[1:]:
        m = re.match(r"^\s+(\w+)((?:\s+[^=:λ{]+?)?)\s+=(\s|$)", x)
        if m and not re.match(r"^\s*(let|in|if|else)\b", x):
            out.add(m.group(1))
            for w in WORD.findall(m.group(2)):
                if NAME.match(w) and not w[0].isupper():
                    out.add(w)
        m = re.match(r"^\s+(?:pub )?([\w\-]+) : ", x)
        if m:
            out.add(m.group(1))
    return out


def scoped(d, texts):
    """The texts of a definition, each with the words that are bound in it. In a record a field is bound after its own line alone."""
    if d.kind != "record":
        for text in texts:
            yield text, binders_of(text) | d.params
        return
    for text in texts:
        parts = re.split(r"\n(?=\s+(?:pub )?[\w\-]+ : )", text)
        fields = set()
        for part in parts:
            m = re.match(r"^\s+(?:pub )?([\w\-]+) : ", part)
            own = {m.group(1)} if m else set()
            head = binders_of(parts[0])
            # without the field's own name in front of its type
            rest = part[m.end() :] if m else part
            yield rest, head | fields | d.params | binders_of(rest)
            fields |= own


def binder_head(words, j):
    """Whether word j stands in a group (.. j .. : ..) before its colon."""
    k = j
    while k >= 0 and words[k] not in "({":
        if words[k] == ":":
            return False
        k -= 1
    return True


OPERATOR = re.compile(r"^[^\w\s(){}\[\],;.λ⟦⟧\"«»]+$")


class World:
    def __init__(self, repo):
        self.repo = repo
        self.defs = {}
        self.alias = {}
        self.scopes = {}
        self.uses = []
        self.rust_uses = []
        self.types = defaultdict(lambda: defaultdict(list))
        self.impls = []
        self.files = {}
        self.ghosts = defaultdict(list)  # (type def key, trait) -> Def of the ghost members
        self.law_names = defaultdict(set)
        self.read()

    def add(self, d):
        if d.key in self.defs and self.defs[d.key] is not d:
            # a second definition of one name in one file: sections; keep both under the first
            n = 2
            while (d.crate, d.module, f"{d.name}#{n}") in self.defs:
                n += 1
            self.defs[(d.crate, d.module, f"{d.name}#{n}")] = d
            return
        self.defs[d.key] = d

    def read(self):
        top = os.path.join(self.repo, "crates")
        self.crates = sorted(x for x in os.listdir(top) if os.path.isdir(os.path.join(top, x)))
        for crate in self.crates:
            for part in ("specs", "proofs", "src"):
                root = os.path.join(top, crate, part)
                for where, _, files in sorted(os.walk(root)):
                    for f in sorted(files):
                        path = os.path.join(where, f)
                        inner = os.path.relpath(path, root)
                        text = flat(open(path, encoding="utf-8").read())
                        rel = os.path.relpath(path, self.repo)
                        if f.endswith(".antt") and part in ("specs", "proofs"):
                            read_antt(self, crate, part + "." + inner[:-5].replace("/", "."), rel, text)
                        elif f.endswith(".rt") and part == "src":
                            read_rt(self, crate, inner[:-3].replace("/", "."), rel, text)
        for scope, line in self.uses:
            self.bring(scope, line)
        for scope, line in self.rust_uses:
            self.bring_rust(scope, line)
        self.find_laws()
        self.find_impls()

    # -- imports

    def split(self, path):
        """Rattle.shm_graph.specs.A.B -> ('shm_graph', 'specs.A.B'); declared -> 'declared.x.Y'."""
        parts = path.split(".")
        if parts[0] != "Rattle" or parts[1] not in self.crates:
            return None
        inner = ".".join(parts[2:])
        if inner.startswith("specs.declared"):
            inner = inner[len("specs.") :]
        return parts[1], inner

    def bring(self, scope, line):
        path, names, alias = use_line(line)
        at = self.split(path)
        if names is None:
            scope.modules[alias] = path
            if at:
                # a module, or an item by its whole path
                crate, inner = at
                head, _, last = inner.rpartition(".")
                if (crate, head, last) in self.defs:
                    scope.names[alias] = (crate, head, last)
            return
        for name, other in names:
            if at is None:
                scope.names[other] = ("kit", path, name)
            else:
                scope.names[other] = (at[0], at[1], name)
            if line.startswith("pub use"):
                self.alias.setdefault((scope.crate, scope.module, other), scope.names[other])

    def bring_rust(self, scope, line):
        body = re.sub(r"^(pub(\([^)]*\))? )?use ", "", line).rstrip(";")
        self.rust_tree(scope, body, "")

    def rust_tree(self, scope, body, prefix):
        body = body.strip()
        m = re.match(r"^(.*?)\{(.*)\}$", body, re.S)
        if m:
            depth, part, parts = 0, "", []
            for c in m.group(2):
                if c == "{":
                    depth += 1
                if c == "}":
                    depth -= 1
                if c == "," and depth == 0:
                    parts.append(part)
                    part = ""
                else:
                    part += c
            parts.append(part)
            for p in parts:
                if p.strip():
                    self.rust_tree(scope, p, prefix + m.group(1).strip())
            return
        whole = prefix + body
        m = re.match(r"^(.*) as (\w+)$", whole)
        path, alias = (m.group(1), m.group(2)) if m else (whole, whole.split("::")[-1])
        parts = path.split("::")
        root = scope.crate if parts[0] in ("crate", "self", "super") else parts[0]
        if root in self.crates:
            found = self.rust_type(root, parts[-1])
            if found is not None and alias not in scope.names:
                scope.names[alias] = found.key

    def rust_type(self, crate, name):
        found = self.types[crate].get(name)
        return found[0] if found else None

    def item(self, target, depth=0):
        """The definition that an imported name means, or ('kit', path, name)."""
        if target is None or depth > 8:
            return None
        if isinstance(target, Def):
            return target
        if target[0] == "kit":
            return target
        crate, inner, name = target
        if (crate, inner, name) in self.defs:
            return self.defs[(crate, inner, name)]
        if (crate, inner, name) in self.alias:
            return self.item(self.alias[(crate, inner, name)], depth + 1)
        # declared.x.Y.{Y}: the type Y of module x
        if inner.startswith("declared."):
            parts = inner.split(".")
            if parts[-1] == "TheVariants":
                owner, module = parts[-2], ".".join(parts[1:-2])
            else:
                owner, module = parts[-1], ".".join(parts[1:-1])
            d = self.defs.get((crate, "declared." + module, owner))
            if d is None:
                d = self.defs.get((crate, "declared.lib", owner)) or self.defs.get((crate, "declared.main", owner))
            if d is None:
                d = self.rust_type(crate, owner)
            return d
        return None

    # -- impls

    def find_laws(self):
        """Of each trait of the repository the ghost members below its last `fn` without `final`: its laws."""
        for d in self.defs.values():
            if d.kind != "trait":
                continue
            last = max((i for i, x in enumerate(d.lines) if re.match(r"^\s+(unsafe )?fn ", x)), default=-1)
            for i, x in enumerate(d.lines):
                m = re.match(r"^\s+ghost (\w+):", x)
                if m and i > last:
                    self.law_names[d.name].add(m.group(1))

    def find_impls(self):
        for crate, scope, path, i, j, trait, of, lines in self.impls:
            if not trait or not of:
                continue
            owner = scope.find(of)
            if not isinstance(owner, Def):
                owner = self.rust_type(crate, of)
            if owner is None:
                continue
            members, keep = [], False
            laws = self.law_names.get(trait, set()) | {"laws"}
            for x in lines[i + 1 : j]:
                m = re.match(r"^\s+ghost (?!use)(\w+)", x)
                if m:
                    keep = m.group(1) not in laws and not (trait == "Model" and m.group(1) == "invariant")
                elif x.strip() and (re.match(r"^\s+((pub )?(const |unsafe )*fn|type|const|#\[)", x) or is_comment(x) or re.match(r"^\s+ghost use", x)):
                    keep = False
                if keep and x.strip():
                    members.append(x)
            if not members:
                continue
            d = Def(crate, owner.module, f"{of} as {trait}", "model" if trait == "Model" else "impl", path, i + 1)
            d.lines = [lines[i]] + members
            d.clauses = ["\n".join(members)]
            d.scope = scope
            self.add(d)
            if trait == "Model":
                owner.direct.append(d)
                owner.has_model = True
            else:
                self.ghosts[(owner.key, trait)].append(d)

    # -- what a definition names

    def targets(self, d):
        if d._targets is not None:
            return d._targets
        found = []
        for x in d.direct:
            found.append(x)
        if d.kind in ("struct", "enum", "union", "type", "trait", "contract"):
            texts = rust_texts(d, getattr(d, "has_model", False))
        else:
            texts = d.clauses
        for text, bound in scoped(d, texts):
            for target, word in self.names_in(d, text, bound):
                if target is not d:
                    found.append(target)
        seen, out = set(), []
        for t in found:
            k = t.key if isinstance(t, Def) else t
            if k not in seen:
                seen.add(k)
                out.append(t)
        d._targets = out
        return out

    def names_in(self, d, text, bound):
        scope = d.scope
        # names in strings are none
        words = words_of(text)
        i, n = 0, len(words)
        while i < n:
            w = words[i]
            before = words[i - 1] if i else ""
            if w.startswith('"'):
                i += 1
                continue
            # ⟦<X as T>⟧.m
            if w == "⟦":
                j = words.index("⟧", i)
                inner = " ".join(words[i + 1 : j])
                m = re.match(r"<\s*(.*?)\s+as\s+(\w+)", inner)
                if m:
                    trait = scope.find(m.group(2))
                    if trait is not None:
                        yield trait, m.group(2)
                    for x in re.findall(r"\w+", m.group(1)):
                        owner = scope.find(x)
                        if isinstance(owner, Def):
                            yield owner, x
                            for g in self.ghosts.get((owner.key, m.group(2)), []):
                                yield g, x
                i = j + 1
                continue
            if w == "Rattle" and words[i + 1 : i + 2] == ["."]:
                # a whole path
                j, path = i, []
                while j < n and (words[j] == "." or NAME.match(words[j])):
                    if words[j] != ".":
                        path.append(words[j])
                    j += 1
                at = self.split(".".join(path[:-1]))
                t = self.item((at[0], at[1], path[-1])) if at else ("kit", ".".join(path[:-1]), path[-1])
                if t is not None:
                    yield t, path[-1]
                i = j
                continue
            if before == ".":
                # a field, or an item of a module
                if i >= 2 and words[i - 2] in scope.modules and words[i - 2] not in bound:
                    path = scope.modules[words[i - 2]]
                    at = self.split(path)
                    t = self.item((at[0], at[1], w)) if at else ("kit", path, w)
                    if t is not None:
                        yield t, w
                elif i >= 2 and isinstance(scope.find(words[i - 2]), Def) and scope.find(words[i - 2]).kind in ("struct", "enum", "trait"):
                    owner = scope.find(words[i - 2])
                    for (key, trait), gs in self.ghosts.items():
                        if key == owner.key:
                            for g in gs:
                                if re.search(r"ghost " + re.escape(w) + r"\b", "\n".join(g.lines)):
                                    yield g, w
                i += 1
                continue
            name = w.strip("«»")
            if name in KEYWORDS:
                i += 1
                continue
            # the field of a record literal
            if words[i + 1 : i + 2] == ["="] and before in ("{", ";") and NAME.match(name):
                i += 1
                continue
            t = scope.find(name)
            if t is None and OPERATOR.match(name):
                t = scope.find("◌" + name + "◌") or scope.find("◌" + name) or scope.find(name + "◌")
            if t is None and name == "if":
                t = scope.find("if◌then◌else◌")
            if t is not None:
                if name not in bound or isinstance(t, tuple) and name[0].isupper():
                    yield t, name
            i += 1

    # -- contracts

    def contract(self, what):
        """The contracts that a text names, as one definition each."""
        out = []
        for one in what.split("+"):
            crate, _, name = one.partition(":")
            if name.startswith("="):
                found = [d for d in self.defs.values() if d.crate == crate and d.name == name[1:] and not d.module.startswith("proofs")]
                if not found:
                    raise SystemExit(f"no definition {one}")
                out += found
                continue
            found = [c for c in self.all_contracts(crate) if name == "*" and c.public or c.name == name]
            if not found:
                raise SystemExit(f"no contract {one}")
            out += found
        return out

    def all_contracts(self, crate):
        """Each function of a crate with its clauses, the types of its signature and its traits."""
        if not hasattr(self, "_contracts"):
            self._contracts = {}
        if crate in self._contracts:
            return self._contracts[crate]
        out = []
        for (c, module), (scope, path, lines) in self.files.items():
            if c != crate:
                continue
            owners = [(i, j, trait, of) for (cc, s, p, i, j, trait, of, ls) in self.impls if p == path]
            traits = [(d.line - 1, d.line - 1 + len(d.lines), d) for d in self.types_in(crate, path) if d.kind == "trait"]
            for i, line in enumerate(lines):
                m = re.match(r"^(\s*)(pub(\([^)]*\))? )?(?:const |unsafe )*fn (\w+)", line)
                if not m:
                    continue
                if any(a <= i < b for a, b, _ in traits):
                    continue
                owner = next(((a, b, t, o) for a, b, t, o in owners if a < i <= b), None)
                # to the brace of the body
                clauses, sign = [], []
                for k in range(i, len(lines)):
                    s = lines[k].strip()
                    if k > i and s == "{" or k > i and s == "{}" or (k == i and re.search(r"\{\}?\s*$", s)):
                        if k == i:
                            sign.append(re.sub(r"\{.*$", "", s))
                        break
                    if re.match(r"^\) ?.*\{$", s) and not re.match(r"^(requires|ensures)", s):
                        sign.append(s[:-1])
                        break
                    if re.match(r"^(requires|ensures|ghost)\b", s):
                        clauses.append(lines[k])
                    elif clauses and not s.startswith(("requires", "ensures")):
                        clauses.append(lines[k])
                    else:
                        sign.append(s)
                name = (owner[3] + "::" if owner else "") + m.group(4)
                d = Def(crate, "fn." + module, name, "contract", path, i + 1)
                docs, _ = above(lines, i)
                d.comment = docs
                d.lines = clauses
                d.sign = " ".join(sign)
                d.clauses = list(clauses)
                d.scope = scope
                d.public = bool(m.group(2) and not m.group(3)) or bool(owner and owner[2])
                d.owner = owner
                if owner:
                    t = scope.find(owner[3])
                    if not isinstance(t, Def):
                        t = self.rust_type(crate, owner[3])
                    if isinstance(t, Def) and re.search(r"\bself\b|\bSelf\b", d.sign + "\n".join(clauses)):
                        d.direct.append(t)
                    if owner[2]:
                        trait = scope.find(owner[2])
                        if isinstance(trait, Def):
                            d.direct.append(trait)
                    # the bounds of the impl
                    d.sign += " " + lines[owner[0]]
                out.append(d)
        self._contracts[crate] = out
        return out

    def types_in(self, crate, path):
        return [d for d in self.defs.values() if d.crate == crate and d.path == path and d.kind in ("struct", "enum", "trait", "type")]

    # -- closures

    def closure(self, roots):
        """The definitions that roots reach, each with who named it first, and the leaves."""
        order, parent, kit = [], {}, {}
        queue = deque()
        for r in roots:
            queue.append(r)
            parent[r.key] = None
        seen = {r.key for r in roots}
        while queue:
            d = queue.popleft()
            order.append(d)
            for t in self.targets(d):
                if isinstance(t, Def):
                    if t.key not in seen:
                        seen.add(t.key)
                        parent[t.key] = d
                        queue.append(t)
                else:
                    kit.setdefault((t[1], t[2]), d)
        return order, parent, kit


def rust_texts(d, has_model):
    """The texts of a struct, an enum, a trait or a contract that are followed."""
    if d.kind == "contract":
        # types of the signature, without the names of the arguments
        sign = re.sub(r"\b\w+\s*:(?!:)", " ", d.sign)
        sign = re.sub(r"'\w+", " ", sign)
        sign = re.sub(r"[<>&+=:!?*|-]", " ", sign)
        return [sign] + d.clauses
    lines = [x for x in d.lines if not is_comment(x) and not x.strip().startswith("#[")]
    if has_model:
        # contracts see no field: only the name stands
        return []
    text = "\n".join(lines)
    if d.kind == "trait":
        # the ghost members and the clauses by themselves, the rest as types
        out, rest, depth = [], [], 0
        for x in lines:
            s = x.strip()
            if s.startswith(("ghost use",)):
                continue
            if re.match(r"^(ghost|requires|ensures)\b", s):
                out.append(re.sub(r"^ghost \w+:", "", s))
            elif re.match(r"^(let|if|match|for|while|return)\b", s):
                continue
            elif re.match(r"^(final )?(unsafe )?fn |^type |^pub trait|^trait", s):
                rest.append(re.sub(r"[<>&+=:!?*|-]", " ", re.sub(r"\b\w+\s*:(?!:)", " ", re.sub(r"'\w+", " ", s))))
        return out + rest
    text = re.sub(r"'\w+", " ", text)
    text = re.sub(r"^(\s*(?:pub(?:\([^)]*\))? )?(?:struct|enum|union) \w+)<[^{(;]*>", r"\1", text)
    out = []
    for x in text.split("\n"):
        s = x.strip()
        if s.startswith("ghost"):
            out.append(s)
        else:
            s = re.sub(r"\b\w+\s*:(?!:)", " ", s)
            out.append(re.sub(r"[<>&+=:!?*|-]", " ", s))
    return out


# ------------------------------------------------------------------ tables


def sizes(defs):
    return (
        len(defs),
        sum(d.code_lines() for d in defs),
        sum(d.all_lines() for d in defs),
        sum(d.words() for d in defs),
    )


def table(rows, heads):
    width = [max(len(str(r[i])) for r in rows + [heads]) for i in range(len(heads))]
    out = ["| " + " | ".join(str(h).ljust(width[i]) for i, h in enumerate(heads)) + " |"]
    out.append("|" + "|".join("-" * (w + 2) for w in width) + "|")
    for r in rows:
        out.append("| " + " | ".join(str(x).ljust(width[i]) if i == 0 else str(x).rjust(width[i]) for i, x in enumerate(r)) + " |")
    return "\n".join(out)


def by_path(order):
    by = defaultdict(list)
    for d in order:
        by[d.path].append(d)
    return by


def text_of(d):
    """A definition as it stands, with the comments above it."""
    return "\n".join(d.comment + ([d.sign] if d.kind == "contract" else []) + d.lines)


def show_sizes(world, contracts):
    rows = []
    for c in contracts:
        order, _, kit = world.closure(world.contract(c))
        rows.append((c,) + sizes(order) + (len({d.crate for d in order}), len(kit)))
    print(table(rows, ("contract", "definitions", "code lines", "with comments", "words", "crates", "names of the kit")))


def show_crates(world, contract):
    order, _, _ = world.closure(world.contract(contract))
    heads = ("definitions", "code lines", "with comments", "words")
    for title, key in (("crate", lambda d: d.crate), ("file", lambda d: d.path.replace("crates/", ""))):
        by = defaultdict(list)
        for d in order:
            by[key(d)].append(d)
        rows = [(c,) + sizes(by[c]) for c in sorted(by, key=lambda c: -sizes(by[c])[3])]
        print(table(rows + [("all",) + sizes(order)], (title,) + heads) + "\n")


def show_why(world, contract, name):
    order, parent, _ = world.closure(world.contract(contract))
    for d in order:
        if d.name == name:
            chain, x = [], d
            while x is not None:
                chain.append(f"{x.crate}:{x.name}")
                x = parent[x.key]
            print(" <- ".join(chain))


def show_unread(world, contract):
    built_in = set("Type tt Unit refl absurd self result now old new items unfoldable".split())
    for d in world.closure(world.contract(contract))[0]:
        if d.kind in ("struct", "enum", "trait", "contract", "type", "union"):
            continue
        for text in d.clauses:
            known = d.params | binders_of(text) | KEYWORDS | built_in
            words = words_of(text)
            for i, w in enumerate(words):
                field = i and words[i - 1] == "." or words[i + 1 : i + 2] == ["="]
                if NAME.match(w) and w != "λ" and not field and w not in known and w not in d.scope.modules and d.scope.find(w) is None:
                    print(f"{w:12} {d.name} {d.where()}")


def main():
    if len(sys.argv) < 3:
        print(__doc__)
        return
    what, rest = sys.argv[1], sys.argv[2:]
    world = World(".")
    if what == "sizes":
        show_sizes(world, rest)
    elif what == "crates":
        show_crates(world, rest[0])
    elif what == "names":
        order, parent, _ = world.closure(world.contract(rest[0]))
        for d in order:
            p = parent[d.key]
            print(f"{d.kind:9} {d.code_lines():4} {d.words():5}  {d.crate}:{d.name:40} {d.where():60} by {p.name if p else '-'}")
    elif what == "text":
        for path, defs in by_path(world.closure(world.contract(rest[0]))[0]).items():
            print(f"\n{'=' * 20} {path}")
            for d in sorted(defs, key=lambda d: d.line):
                print("\n" + text_of(d))
    elif what == "why":
        show_why(world, *rest)
    elif what == "unread":
        show_unread(world, rest[0])
    else:
        print(__doc__)


if __name__ == "__main__":
    main()
