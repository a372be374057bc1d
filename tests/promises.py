#!/usr/bin/env python3
"""promises.py: compares docs/PROMISES.md and docs/READING.md with the code, by crate, module and name.

Every public function of a library crate has an `ensures` and no `requires`, and is in docs/PROMISES.md once. Every
function, definition and theorem that the two pages name exists, in the crate and file that they give:

    `hex::digit` (octets)              a public function, in crates/octets/src/hex.rt; without a module in src/lib.rt
    `Endpoint::set_up` (endpoint)      a method
    `cut` (bat, Framing)               a definition in crates/bat/specs/Framing.antt, or a theorem in proofs/
    `judge/rejects_all`                crates/judge/must-fail/rejects_all.edit

The tables of functions in docs/PROMISES.md give the crate in their first column. Paths in README.md and docs/*.md have
to exist too. Whether a sentence says what the contract says has to be read. Ends with status 1 if something is wrong.
"""
import glob
import os
import re
import sys

os.chdir(os.path.join(os.path.dirname(os.path.abspath(__file__)), ".."))
PROMISES = "docs/PROMISES.md"
READING = "docs/READING.md"
# Names in a column of definitions that have no place: a contract with no definition of its own.
UNPLACED = {"ensures"}
# `a`, `b` (crate, File), or (crate), or (the kit)
PLACED = re.compile(r"(`[^`]+`(?:(?:, | and )`[^`]+`)*) \((\w+)(?:, (\w+))?\)")
KIT = re.compile(r"`[^`]+`(?:, `[^`]+`)* \(the kit\)")
wrong = []


def read(path):
    with open(path) as file:
        return file.read()


def names(text):
    return re.findall(r"`([^`]+)`", text)


# ---- the code
def functions_in(path):
    """The public functions of a file: the name within the crate, and everything between it and the body."""
    text = re.sub(r"(?m)^\s*//.*$", "", read(path))
    module = os.path.basename(path)[:-3]
    for found in re.finditer(r'(?m)^( *)pub (?:extern "C" )?fn (\w+)', text):
        owner = "" if module == "lib" else module + "::"
        if found.group(1):
            owner = re.findall(r"(?m)^impl(?:<[^>]*>)? (\w+)", text[:found.start()])[-1] + "::"
        # a clause may have a name, as in `ensures emptied { .. }`
        rest = re.sub(r"\b(requires|ensures) \w+ \{", r"\1 {", text[found.end():])
        yield owner + found.group(2), re.split(r"(?<!ensures )(?<!requires )\{", rest)[0]


def public_functions():
    """(crate, name) of every public function of a library crate, with its file. Looks at their contracts too."""
    public = {}
    for path in sorted(glob.glob("crates/*/src/*.rt")):
        crate = path.split("/")[1]
        if not os.path.exists("crates/%s/src/lib.rt" % crate):
            continue
        for name, contract in functions_in(path):
            if (crate, name) in public:
                wrong.append("%s: a second public function %s of %s" % (path, name, crate))
            public[crate, name] = path
            if not re.search(r"\bensures \{", contract):
                wrong.append("%s: %s has no ensures" % (path, name))
            if re.search(r"\brequires\b", contract):
                wrong.append("%s: %s has a requires" % (path, name))
    return public


def is_type(crate, name):
    """A public struct or enum of the crate."""
    pattern = r"(?m)^pub (struct|enum) %s\b" % re.escape(name)
    return any(re.search(pattern, read(path)) for path in glob.glob("crates/%s/src/*.rt" % crate))


def defines(text, name):
    """A file of specs/ defines this name, not as a field of a record."""
    pattern = r"(?m)^ *(unfoldable|abbrev) pub {0} :|^pub {0} :|^ *pub (record|data) {0}(?!\S)".format(re.escape(name))
    return re.search(pattern, text) is not None


def is_definition(crate, file, name):
    path = "crates/%s/specs/%s.antt" % (crate, file)
    return os.path.exists(path) and defines(read(path), name)


def states(text, name):
    """A file of proofs/ states this theorem. What is local to a proof is indented and not public."""
    return re.search(r"(?m)^(pub )?{0} :|^ +pub {0} :".format(re.escape(name)), text) is not None


def is_theorem(crate, file, name):
    path = "crates/%s/proofs/%s.antt" % (crate, file)
    return os.path.exists(path) and states(read(path), name)


# ---- the pages
def rows(text, first, last=None):
    """The cells of the tables between two headings, or from one to the end, a table's own head left out."""
    end = text.index(last) if last else len(text)
    tables = re.findall(r"(?m)^\|.*\n\|---.*\n((?:\|.*\n)*)", text[text.index(first):end])
    return [[cell.strip() for cell in line.split("|")[1:-1]] for table in tables for line in table.splitlines()]


def placed(cell):
    """(name, crate, file or None) of each name with a place, and the names that have none."""
    found = [(n, m.group(2), m.group(3)) for m in PLACED.finditer(KIT.sub("", cell)) for n in names(m.group(1))]
    return found, names(PLACED.sub("", KIT.sub("", cell)))


def check_functions(page, public):
    """Both ways: each public function has its row, and each row its function."""
    listed = set()
    for crate, functions, _, definitions in rows(page, "## The functions", "## What is assumed"):
        for name in names(functions):
            if (crate, name) not in public:
                wrong.append("%s: no public function %s in %s" % (PROMISES, name, crate))
            if (crate, name) in listed:
                wrong.append("%s: %s of %s is there twice" % (PROMISES, name, crate))
            listed.add((crate, name))
        found, loose = placed(definitions)
        for name, where, file in found:
            if not is_definition(where, file, name):
                wrong.append("%s: no definition %s (%s, %s)" % (PROMISES, name, where, file))
        wrong.extend("%s: %s has no place" % (PROMISES, n) for n in loose if n not in UNPLACED)
    wrong.extend("%s: %s of %s is missing" % (PROMISES, n, c) for c, n in sorted(set(public) - listed))


def check_theorems(cell, page):
    found, loose = placed(cell)
    for name, crate, file in found:
        if not is_theorem(crate, file, name):
            wrong.append("%s: no theorem %s (%s, %s)" % (page, name, crate, file))
    wrong.extend("%s: %s has no place" % (page, n) for n in loose)
    return len(found)


def check_promised(cell, public):
    """A cell of functions, with their crate, and of theorems, with crate and file."""
    found, loose = placed(cell)
    for name, crate, file in found:
        if file and not is_theorem(crate, file, name):
            wrong.append("%s: no theorem %s (%s, %s)" % (READING, name, crate, file))
        if not file and (crate, name) not in public and not is_type(crate, name):
            wrong.append("%s: no public function %s in %s" % (READING, name, crate))
    wrong.extend("%s: %s has no place" % (READING, n) for n in loose)


def check_places(page, public):
    count = 0
    for _, places, promised in rows(page, "## Refusal numbers", "## The rest") + rows(page, "## Document 02"):
        found, loose = placed(places)
        count += len(found)
        for name, crate, file in found:
            if not is_definition(crate, file, name):
                wrong.append("%s: no definition %s (%s, %s)" % (READING, name, crate, file))
        wrong.extend("%s: %s has no place" % (READING, n) for n in loose)
        check_promised(promised, public)
    return count


def check_prose(path, public):
    """Names with a place anywhere on a page; edits; names without a place that look like functions, definitions or
    theorems."""
    text = read(path)
    for name, crate, file in placed(text)[0]:
        if file:
            there = is_definition(crate, file, name) or is_theorem(crate, file, name)
        else:
            there = (crate, name) in public or is_type(crate, name)
        if not there:
            wrong.append("%s: no %s (%s)" % (path, name, ", ".join(filter(None, (crate, file)))))
    crates = set(os.listdir("crates"))
    last = {n for _, n in public} | {n.split("::")[-1] for _, n in public}
    defined = "\n".join(read(f) for f in glob.glob("crates/*/specs/*.antt"))
    proved = "\n".join(read(f) for f in glob.glob("crates/*/proofs/*.antt"))
    for name in set(names(text)):
        crate, _, edit = name.partition("/")
        if crate in crates and re.fullmatch(r"\w+", edit):
            if not os.path.exists("crates/%s/must-fail/%s.edit" % (crate, edit)):
                wrong.append("%s: no edit %s" % (path, name))
        if re.fullmatch(r"[a-z]\w*(::\w+)+|[A-Z]\w*::\w+", name) and name not in last:
            wrong.append("%s: no public function %s" % (path, name))
        if re.fullmatch(r"[A-Za-z]+([-_][a-z0-9]+)+", name) and name not in last | crates:
            if not defines(defined, name) and not states(proved, name):
                wrong.append("%s: no function, definition or theorem %s" % (path, name))


def check_paths(path):
    """`crates/..`, `tests/..` and the like exist, and so do the files of "`Puts` in `crates/octets/specs`"."""
    text = read(path)
    for name in set(names(text)):
        if re.fullmatch(r"(crates|tests|tools|docs|bench|samples|include)/[\w./*-]+", name) and not glob.glob(name):
            wrong.append("%s: no %s" % (path, name))
    for group in re.finditer(r"(`\w+`(?:, `\w+`)*) in `(crates/\w+/(?:specs|proofs))`", text):
        for name in names(group.group(1)):
            if not os.path.exists("%s/%s.antt" % (group.group(2), name)):
                wrong.append("%s: no %s in %s" % (path, name, group.group(2)))


public = public_functions()
check_functions(read(PROMISES), public)
theorems = sum(check_theorems(c[2], PROMISES) for c in rows(read(PROMISES), "## The theorems", "## The functions"))
definitions = check_places(read(READING), public)
for page in (PROMISES, READING):
    check_prose(page, public)
for page in ["README.md"] + sorted(glob.glob("docs/*.md")):
    check_paths(page)
told = (theorems, len(public), definitions)
print("\n".join(wrong) or "%d theorems, %d public functions and %d places of definitions are as the pages say" % told)
sys.exit(1 if wrong else 0)
