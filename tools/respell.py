#!/usr/bin/env python3
"""Gives the repository's own names one spelling: words in snake_case, with no dash; types and modules keep their capitals.

Run it once, from the top of the repository, right after the kit's port script. That script turns only the names of the
repository that are also names of the library. This one turns the others, from the tree as it is: names that come from the
library, names that Rattle makes and names of Rattle source stay. A second run changes nothing.

    python3 tools/respell.py          writes the files
    python3 tools/respell.py --list   writes nothing, and prints each name and its new spelling
    python3 tools/respell.py --notes  writes the files, and says what it left and which words have the name of an item

It writes crates/*/specs, crates/*/proofs, the clauses and backquoted words of crates/*/src, crates/*/must-fail, and the
backquoted words of the pages. If two names of one file would become one, it says so and writes nothing: then EXCEPT below
needs a line.
"""

import os
import re
import sys

# Lemmas whose plain new spelling is that of the definition they are about: as the kit's style says, they get `_lem`.
LEMMAS = """address-of answer-line attribute-line attributes-shown bearer-shown by-head codec-of codec-text codecs-text
connection-line detail-text element-octets event-text fmtp-word has-gap heard-by ipbcp-line is-line is-plain lend-word
line-event listed-with longest-from match-of media-shown message-lines no-codec on-front on-small only-list origin-line ptime-word
refused-shown request-confused rtpmap-word selected-list stream-lines told-by told-taken trace-in""".split()

# Lemmas that the port script has turned already, while the definition of that name still has the old spelling. They get `_lem` too,
# but only while the definition is there under its old name, so that a second run finds nothing to do.
TURNED = {"after_line": "afterLine", "halves_of": "halvesOf", "index_in": "indexIn", "longest_run": "longestRun", "no_line": "noLine"}

# Names whose plain new spelling is taken in some file, and what they become.
EXCEPT = {
    # the word that reads C's number as a setting: `own_leads` is the parameter that holds the setting
    "ownLeads": "own_leads_of",
    # a question of the worked examples: `length_of` is what an element's size octets say
    "length-of": "asks_length",
    # `getD` is `get_or` now
    "getD-codecs": "get_or_codecs",
    "getD-places": "get_or_places",
    # sets of lemmas, of which one has the plain name
    "afterTokens": "after_tokens_rules",
    "gapFound": "gap_found_rules",
}
EXCEPT.update({n.replace("_", "-"): n + "_lem" for n in TURNED})
EXCEPT.update({n: snaked + "_lem" for n in LEMMAS for snaked in [n.replace("-", "_")]})

# Pairs of old names that become one name in a file where that is right, or harmless: (file, one, other).
ALIKE = set()

# Words that a page has in backquotes and that are no names: what programs print, file names, other tools' words.
NO_NAMES = {"await-setup", "await-change", "setup-failed", "change-failed"}

RESERVED = set("""abbrev as at assumption by case cc cong data do elim exact for grind ground hiding hlevel if import in let
module mod omega open opaque postulate private pub record refl rewrite rule ruleset rules rw search simp sym then unfoldable
unfolding use where with instance class trait impl""".split())

CHAR = r"[^\s(){}\[\];,.@\"`]"
NAME = re.compile(CHAR + "+")
HEAD = re.compile(r"\s*((?:(?:pub|abbrev|unfoldable|opaque|private)\s+)*)")
CAMEL = re.compile(r"[a-z0-9'][A-Z]")
PAGES = ["README.md", "tests/README.md", "bench/README.md"]
HISTORY = ("PORT", )


def letters(t):
    return bool(re.match(r"[^\W\d_]|_", t)) and "◌" not in t and "·" not in t and "::" not in t


def snake(t):
    """The spelling of a name of ours."""
    if t in EXCEPT:
        return EXCEPT[t]
    if not letters(t):
        return t
    if t[0].isupper():
        return t.replace("-", "_") if re.search(r"\w-\w", t) else t
    t = re.sub(r"(?<=\w|')-(?=\w)", "_", t)
    t = re.sub(r"([a-z0-9'])([A-Z])", r"\1_\2", t)
    t = re.sub(r"([A-Z])([A-Z][a-z])", r"\1_\2", t)
    return t.lower() if t.isascii() else "".join(c.lower() if c.isascii() else c for c in t)


def read(p):
    with open(p, encoding="utf-8") as f:
        return f.read()


def pieces(text, comment):
    """Cuts a text into (kind, piece): 'name', 'string', 'comment' or 'other'."""
    i, n = 0, len(text)
    while i < n:
        c = text[i]
        if text.startswith(comment, i) and (i == 0 or text[i - 1] in " \n\t(){};" or comment == "//"):
            j = text.find("\n", i)
            j = n if j < 0 else j
            yield "comment", text[i:j]
        elif c == '"':
            j = i + 1
            while j < n and text[j] != '"':
                j += 2 if text[j] == "\\" and comment == "//" else 1
            j = min(n, j + 1)
            yield "string", text[i:j]
        else:
            m = NAME.match(text, i)
            if m:
                j = m.end()
                if comment == "//" and "//" in m.group():
                    j = i + max(1, m.group().index("//"))
                yield "name", text[i:j]
            else:
                j = i + 1
                yield "other", c
        i = j


class Antt:
    """A file of specs/ or proofs/."""

    def __init__(self, path):
        self.path = path
        parts = path.split("/")
        self.crate = parts[1]
        self.walk = parts[2] == "proofs" and len(parts) > 4  # a function's own file: what it declares stays
        self.module = "Rattle." + ".".join([parts[1]] + parts[2:])[: -len(".antt")]
        self.text = read(path)
        self.cut = list(pieces(self.text, "--"))
        self.imports = []  # (start index, module, [(index, name, index of as or None, alias)], alias of the module)
        self.declared = set()
        self.fields = set()
        self.skip = set()  # indexes of pieces that belong to an import


def parse(a):
    """Fills in what a file imports and declares."""
    cut = a.cut
    i = 0
    while i < len(cut):
        k, t = cut[i]
        if k == "name" and t == "use" and line_start(cut, i):
            j, path = i + 1, ""
            while cut[j][1].isspace():
                j += 1
            while cut[j][0] == "name" or cut[j][1] == ".":
                path += cut[j][1]
                a.skip.add(j)
                j += 1
            path = path.rstrip(".")
            items, alias = [], None
            if j < len(cut) and cut[j][1] == "{":
                j += 1
                entry = []
                while cut[j][1] != "}":
                    if cut[j][1] == ",":
                        items.append(entry)
                        entry = []
                    elif not cut[j][1].isspace():
                        entry.append(j)
                    a.skip.add(j)
                    j += 1
                items.append(entry)
            else:
                h = j
                while h < len(cut) and cut[h][1] == " ":
                    h += 1
                if h < len(cut) and cut[h][1] == "as":
                    h += 1
                    while cut[h][1] == " ":
                        h += 1
                    alias = h
                    a.skip.add(h)
                    j = h + 1
            a.imports.append((i, path, items, alias))
            i = j
        i += 1
    block = None
    for line in lines_of_code(a.text):
        m = HEAD.match(line)
        words = line[m.end():]
        r = re.match(r"(record|data|module|ruleset)\s+(" + CHAR + "+)", words)
        if r:
            a.declared.add(r.group(2))
            block = r.group(1), len(line) - len(line.lstrip())
            continue
        d = re.match("((?:" + CHAR + r"+\s+)+):(\s|$)", words)
        if d and not words.startswith("use "):
            names = [x for x in d.group(1).split() if x != "rewrite"]
            deep = len(line) - len(line.lstrip())
            inside = block and deep > block[1] and block[0] in ("record", "data")
            a.declared.update(names)
            if inside and block[0] == "record":
                a.fields.update(names)
        elif line.strip() and block and len(line) - len(line.lstrip()) <= block[1]:
            block = None


def line_start(cut, i):
    j = i - 1
    while j >= 0 and cut[j][1] in (" ", "pub", "ghost"):
        j -= 1
    return j < 0 or cut[j][1] == "\n" or cut[j][1] in ("{", ";", "}")


def lines_of_code(text):
    out = []
    for k, t in pieces(text, "--"):
        out.append('""' if k == "string" else "" if k == "comment" else t)
    return "".join(out).split("\n")


class Tree:
    def __init__(self):
        self.antt, self.rt, self.edits = {}, [], []
        self.problems, self.notes = [], []
        for c in sorted(os.listdir("crates")):
            for top in ("specs", "proofs", "src", "must-fail"):
                for folder, dirs, files in os.walk(f"crates/{c}/{top}"):
                    dirs.sort()
                    for f in sorted(files):
                        p = f"{folder}/{f}"
                        if f.endswith(".antt") and top in ("specs", "proofs"):
                            a = Antt(p)
                            parse(a)
                            self.antt[a.module] = a
                        elif f.endswith(".rt") and top == "src":
                            self.rt.append(p)
                        elif f.endswith(".edit"):
                            self.edits.append(p)
        declared = set().union(*(a.declared for a in self.antt.values())) if self.antt else set()
        for n, word in TURNED.items():
            if word in declared:
                EXCEPT[n] = n + "_lem"
        self.own = {}  # old names that lemma and spec files declare -> new
        self.fields = set()
        self.names = set()
        for a in self.antt.values():
            if not a.walk:
                for n in a.declared:
                    self.names.add(snake(n))
                    if snake(n) != n:
                        self.own[n] = snake(n)
                self.fields |= a.fields
        self.maps = {}

    def origin(self, module, name, seen=()):
        """'ours' if a name that a module gives is declared in a file of specs/ or a lemma file, 'kept' if not."""
        a = self.antt.get(module)
        if a is None:
            up, _, last = module.rpartition(".")
            b = self.antt.get(up)
            if b is not None and last in b.declared:  # a record or a data type as a module
                return "kept" if b.walk else "ours"
            return "kept"
        if a.walk:
            return "kept"
        if name in a.declared:
            return "ours"
        if module in seen:
            return "kept"
        for _, path, items, _ in a.imports:
            for e in items:
                if e and a.cut[e[-1]][1] == name:
                    return self.origin(path, a.cut[e[0]][1], seen + (module,)) if len(e) == 1 else "ours"
        self.notes.append(f"{module} has no {name}")
        return "kept"

    def plan(self, a):
        """index of a piece -> its new text, for the code of an .antt file."""
        new, kept, ours, modules = {}, set(), {}, {}
        for _, path, items, alias in a.imports:
            if alias is not None:
                name = a.cut[alias][1]
                modules[name] = path
                if not a.walk or CAMEL.search(name):
                    new[alias] = snake(name)
                    ours[name] = snake(name)
            elif not items:
                modules[path.rpartition(".")[2]] = path
            for e in items:
                if not e:
                    continue
                name, last = a.cut[e[0]][1], a.cut[e[-1]][1]
                mine = self.origin(path, name) == "ours"
                if mine:
                    new[e[0]] = snake(name)
                if len(e) == 1:
                    if mine:
                        ours[name] = snake(name)
                    else:
                        kept.add(name)
                elif not a.walk or CAMEL.search(last):
                    new[e[-1]] = snake(last)
                    ours[last] = snake(last)
                else:
                    kept.add(last)
        if a.walk:
            for n in a.declared:
                if not (CAMEL.search(n) and "-" not in n):
                    kept.add(n)
        a.kept, a.ours, a.modules = kept, ours, modules
        a.used = {}
        for i, (k, t) in enumerate(a.cut):
            if k != "name" or i in a.skip:
                if k == "name" and i in new:
                    a.used.setdefault(t, new[i])
                continue
            if i > 1 and a.cut[i - 1][1] == "." and not a.cut[i - 2][1].isspace():
                chain = self.chain(a, i)
                new_t = self.member(a, chain, t)
            else:
                new_t = self.word(a, t)
                a.used[t] = new_t
            if new_t != t:
                new[i] = new_t
        for n in kept:
            a.used.setdefault(n, n)
        for n in ours:
            a.used.setdefault(n, ours[n])
        return new

    def word(self, a, t):
        if t in a.ours:
            return a.ours[t]
        if t in a.kept or not letters(t):
            return t
        if a.walk and not (CAMEL.search(t) and t[0].islower() and "-" not in t):
            return t
        return snake(t)

    def chain(self, a, i):
        """The names before piece i in its path, first first; [''] if it begins with something else."""
        out = []
        while True:
            if i > 1 and a.cut[i - 1][1] == "." and not a.cut[i - 2][1].isspace():
                i -= 2
                if a.cut[i][0] != "name":
                    return [""] + out[::-1]
                out.append(a.cut[i][1])
            else:
                return out[::-1]

    def member(self, a, chain, t):
        h = chain[0]
        if not letters(t):
            return t
        if h in a.modules and h not in a.declared:
            if len(chain) == 1:
                return snake(t) if self.origin(a.modules[h], t) == "ours" else t
            if self.origin(a.modules[h], chain[1]) != "ours":
                return t
        if h == "Rattle":
            return snake(t) if self.origin(".".join(chain), t) == "ours" else t
        if a.walk and h in ("tie", "c", "w"):
            if snake(t) != t and t in self.fields and "-" not in t:
                return snake(t)
            return t
        if snake(t) == t:
            return t
        if t in self.fields:
            return snake(t)
        if h in a.declared or h in a.ours:
            return snake(t)
        self.notes.append(f"{a.path}: .{t} after {'.'.join(chain)} stays")
        return t

    # ---- text in backquotes
    def quoted(self, text, a=None):
        def name(m):
            t = m.group()
            if a is not None and t in getattr(a, "kept", ()):
                return t
            if a is not None and t in getattr(a, "used", {}):
                return a.used[t]
            return self.own.get(t, t)

        def span(m):
            return "`" + NAME.sub(name, m.group(1)) + "`"

        return re.sub(r"`([^`\n]*)`", span, text)

    def page(self, text):
        def name(m):
            t = m.group()
            if t in NO_NAMES or not letters(t):
                return t
            s = snake(t)
            return s if s != t and s in self.names else t

        def span(m):
            inner = m.group(1)
            if "/" in inner and " " not in inner:
                return m.group()
            return "`" + NAME.sub(name, inner) + "`"

        fenced, out = False, []
        for line in text.split("\n"):
            if line.startswith("```"):
                fenced = not fenced
            if line.startswith("|") and re.search(r"`[^`]*` is `", line):  # old names beside new ones: the old ones stay
                out.append(re.sub(r"(?<= is )`([^`\n]*)`", span, line))
            else:
                out.append(line if fenced else re.sub(r"`([^`\n]*)`", span, line))
        return "\n".join(out)


def clause_spans(text):
    """(start, end, kind) of each `ghost use ..;` and of each clause's braces in Rattle source; outside strings and comments."""
    spans, i, n = [], 0, len(text)
    pos = 0
    flat = []
    for k, t in pieces(text, "//"):
        flat.append(" " * len(t) if k in ("comment", "string") else t)
        pos += len(t)
    code = "".join(flat)
    # a clause holds antt text: strings in it stay, so they are blanked here too
    for m in re.finditer(r"\bghost use [^;]*;", code):
        spans.append((m.start(), m.end(), "use"))
    for m in re.finditer(r"(?m)\b(requires|ensures|invariant|decreases|ghost)\b(?! use)[^{};\n]*\{", code):
        i, d = m.end(), 1
        while i < n and d:
            d += {"{": 1, "}": -1}.get(code[i], 0)
            i += 1
        spans.append((m.end(), i - 1, "clause"))
    spans.sort()
    return spans


class Rt:
    pass


def plan_rt(tree, p):
    text = read(p)
    a = Rt()
    a.path, a.walk, a.declared, a.modules, a.ours, a.kept, a.used = p, False, set(), {}, {}, set(), {}
    spans = clause_spans(text)
    a.ghost = []
    out, at = [], 0

    def outside(t):
        made = []
        for k, x in pieces(t, "//"):
            made.append(tree.quoted(x, a) if k == "comment" else x)
        return "".join(made)

    parts = []
    for s, e, kind in spans:
        if kind == "use":
            m = re.match(r"ghost use ([^{;]*?)(?:\.\{([^}]*)\}| as (\S+))?;$", text[s:e], re.S)
            path, items, alias = m.group(1).strip(), m.group(2), m.group(3)
            if alias:
                a.modules[alias] = path
                a.ours[alias] = snake(alias)
            elif items is None:
                a.modules[path.rpartition(".")[2]] = path
            for it in (items or "").split(","):
                w = it.split()
                if not w:
                    continue
                mine = tree.origin(path, w[0]) == "ours"
                if len(w) == 3:
                    a.ours[w[2]] = snake(w[2])
                elif mine:
                    a.ours[w[0]] = snake(w[0])
                else:
                    a.kept.add(w[0])
                a.ghost.append((path, w[0], snake(w[0]) if mine else w[0], w[2] if len(w) == 3 else None))
    for s, e, kind in spans:
        parts.append(("code", text[at:s]))
        parts.append((kind, text[s:e]))
        at = e
    parts.append(("code", text[at:]))
    for kind, t in parts:
        if kind == "code":
            out.append(outside(t))
        elif kind == "use":
            m = re.match(r"(ghost use )([^{;]*?)(\.\{([^}]*)\}| as (\S+))?;$", t, re.S)
            path = m.group(2)
            if m.group(4) is not None:
                def item(w, path=path.strip()):
                    x = w.split()
                    if not x:
                        return w
                    y = list(x)
                    if tree.origin(path, x[0]) == "ours":
                        y[0] = snake(x[0])
                    if len(x) == 3:
                        y[2] = snake(x[2])
                    lead = w[: len(w) - len(w.lstrip())]
                    tail = w[len(w.rstrip()):]
                    return lead + " ".join(y) + tail
                out.append(m.group(1) + path + ".{" + ",".join(item(w) for w in m.group(4).split(",")) + "};")
            elif m.group(5):
                out.append(m.group(1) + path + " as " + snake(m.group(5)) + ";")
            else:
                out.append(t)
        else:
            b = Rt()
            b.__dict__.update(a.__dict__)
            b.cut = list(pieces(t, "//"))
            made = []
            for i, (k, x) in enumerate(b.cut):
                if k == "comment":
                    made.append(tree.quoted(x, a))
                elif k != "name":
                    made.append(x)
                elif i > 1 and b.cut[i - 1][1] == "." and not b.cut[i - 2][1].isspace():
                    made.append(tree.member(b, tree.chain(b, i), x))
                else:
                    y = tree.word(b, x)
                    a.used[x] = y
                    made.append(y)
            out.append("".join(made))
    for x in a.kept:
        a.used.setdefault(x, x)
    for x in a.ours:
        a.used.setdefault(x, a.ours[x])
    a.text, a.new = text, "".join(out)
    return a


def collisions(path, used, problems):
    by = {}
    for old, new in used.items():
        if letters(old):
            by.setdefault(new, set()).add(old)
    for new, olds in sorted(by.items()):
        if len(olds) > 1:
            olds = sorted(olds)
            if (path, *olds) not in ALIKE:
                problems.append(f"{path}: {' and '.join(olds)} would both be {new}")
    for old, new in used.items():
        if old != new and new in RESERVED:
            problems.append(f"{path}: {old} would be {new}, which antt keeps for itself")


def rust_names(text):
    """Items of a Rattle source file, and each function's parameters with its clauses' span."""
    flat = "".join(" " * len(t) if k in ("comment", "string") else t for k, t in pieces(text, "//"))
    items = set(re.findall(r"\b(?:fn|struct|enum|const|static|mod|trait|type)\s+(\w+)", flat))
    for m in re.finditer(r"(?<!ghost )\buse ([^;]*);", flat):
        items |= set(re.findall(r"\w+", m.group(1)))
    fns = []
    for m in re.finditer(r"\bfn\s+(\w+)\s*(?:<[^(]*>)?\(", flat):
        i, d = m.end(), 1
        while d:
            d += {"(": 1, ")": -1}.get(flat[i], 0)
            i += 1
        params = re.findall(r"(?:^|[,(])\s*(?:mut\s+)?(\w+)\s*:", flat[m.end() - 1:i])
        if re.search(r"\bself\b", flat[m.end():i]):
            params.append("self")
        j = i
        # to the body: clauses end where a brace opens that belongs to no clause
        while True:
            n = re.compile(r"\s*(?:->[^{;]*?(?=\s(?:requires|ensures|\{)|\s*\{)|(?:requires|ensures|where|decreases)\b[^{;]*\{)", re.S).match(flat, j)
            if not n or n.end() == j:
                break
            if flat[n.end() - 1] == "{":
                e, d = n.end(), 1
                while d:
                    d += {"{": 1, "}": -1}.get(flat[e], 0)
                    e += 1
                j = e
            else:
                j = n.end()
        fns.append((m.group(1), params, text[i:j]))
    return items, fns


def main(argv):
    if not os.path.isdir("crates"):
        raise SystemExit("respell: run it from the top of the repository")
    tree = Tree()
    files = {}
    for a in tree.antt.values():
        new = tree.plan(a)
        out = []
        for i, (k, t) in enumerate(a.cut):
            out.append(tree.quoted(t, a) if k == "comment" else new.get(i, t))
        files[a.path] = a.text, "".join(out)
        collisions(a.path, a.used, tree.problems)
        a.plan = new
    rts = {}
    for p in tree.rt:
        a = plan_rt(tree, p)
        rts[p] = a
        files[p] = a.text, a.new
        collisions(p, a.used, tree.problems)
        items, fns = rust_names(a.new)
        words = {g[3] or g[2] for g in a.ghost}
        turned = {n for o, n in a.used.items() if o != n}
        for x in sorted(turned & items):
            tree.notes.append(f"{p}: the word {x} has the name of an item here")
            if re.search(r"\b(?:const|static)\s+" + x + r"\b", a.new):
                tree.problems.append(f"{p}: the word {x} has the name of a constant")
        for f, params, clauses in fns:
            cited = set()
            cut = list(pieces(clauses, "//"))
            for i, (k, t) in enumerate(cut):
                if k == "name" and not (i > 1 and cut[i - 1][1] == "." and not cut[i - 2][1].isspace()):
                    cited.add(t)
            for x in sorted(set(params) | {"result"}):
                if x in (words | turned) and x in cited:
                    (tree.problems if x in turned else tree.notes).append(f"{p}: {f} has a parameter {x}, and its clauses cite the word {x}")
    for p in tree.edits:
        text = read(p)
        m = re.search(r"(?m)^file: (\S+)", text)
        target = os.path.join(p.split("/must-fail/")[0], m.group(1)) if m else ""
        a = rts.get(target) or next((x for x in tree.antt.values() if x.path == target), None)
        out = []
        for line in text.split("\n"):
            if re.match(r"(old|new): ", line):
                made = []
                for k, t in pieces(line, "--" if target.endswith(".antt") else "//"):
                    if k == "name" and a is not None and not (t in a.kept):
                        t = a.used.get(t, tree.own.get(t, t))
                    elif k == "comment":
                        t = tree.quoted(t, a)
                    made.append(t)
                line = "".join(made)
            elif line.startswith("#"):
                line = tree.quoted(line, a)
            out.append(line)
        files[p] = text, "\n".join(out)
        if target in files and target.endswith((".rt", ".antt")):
            for o, n in zip(re.findall(r"(?m)^old: (.*)$", text), re.findall(r"(?m)^old: (.*)$", files[p][1])):
                before, after = files[target]
                if before.count(o) == 1 and after.count(n) != 1:
                    tree.problems.append(f"{p}: its text stood once in {target}, and now stands {after.count(n)} times: {n}")
    pages = PAGES + ["docs/" + f for f in sorted(os.listdir("docs"))] if os.path.isdir("docs") else PAGES
    for p in pages:
        if p.endswith(".md") and os.path.exists(p) and not os.path.basename(p).startswith(HISTORY):
            t = read(p)
            files[p] = t, tree.page(t)
    # every name that an import takes from a file of ours is there afterwards, if it was before
    for a in tree.antt.values():
        for _, path, items, _ in a.imports:
            b = tree.antt.get(path)
            for e in items:
                if e and b is not None and a.cut[e[0]][1] in b.declared:
                    now = a.plan.get(e[0], a.cut[e[0]][1])
                    want = a.cut[e[0]][1] if b.walk else snake(a.cut[e[0]][1])
                    if now != want:
                        tree.problems.append(f"{a.path}: imports {now} from {path}, which has {want}")
    if "--list" in argv:
        for o in sorted(tree.own):
            print(o, tree.own[o])
        return 0
    if "--notes" in argv:
        print("\n".join(sorted(set(tree.notes))))
    if tree.problems:
        print("\n".join(tree.problems))
        print(f"respell: {len(tree.problems)} names would fall together: nothing was written")
        return 1
    n = 0
    for p, (old, new) in files.items():
        if old != new:
            n += 1
            with open(p, "w", encoding="utf-8") as f:
                f.write(new)
    print(f"respell: {len(tree.own)} names, {n} files")
    return 0


if __name__ == "__main__":
    raise SystemExit(main(sys.argv[1:]))
