#!/usr/bin/env python3
"""Brings the repository's own definitions and lemmas to snake case: run once, at the top, after port.py.

A word that a file of specs/ or proofs/ declares (a definition, a lemma, a field, a constructor, a variable) is in snake case: `numbersFrom` becomes
`numbers_from`, `words-filled` becomes `words_filled`. Types, facts and modules keep their capitals, and so do names that the check makes of the code
(`loop-holds` of a proof file, `tie.Need-returns`, `c.if-there`) and names that belong to a library. Where a lemma would take the name of a definition,
or of a library's word that some file imports, it gets `_lem`. Functions of src/, exported names, strings, inputs and outputs are not touched: in .rt files only
clauses and `ghost use` items are read, and no such word is in camel case or has a dash elsewhere.

usage: snake-names.py [--list]      --list prints the names and changes nothing
"""

import collections
import os
import re
import sys

WORD = r"[^\W\d][\w'₀-₉]*(?:-[\w'₀-₉]+)*"
TOKEN = re.compile(WORD)
USE = re.compile(r"use ([\w.+'-]+)\.\{([^}]*)\}")
# names that the check makes of a function's code, in the folder of that function's proof
MADE = re.compile(r"^(loop|returns|if|in|then|else|invariant|decreases|overflow|array|shared|slice|element|offset|bounds|mul|add|sub|div|rem|shl|shr|cast|told|fits|way)\b")


def files(*ends):
    for top in ("crates",):
        for folder, dirs, names in os.walk(top):
            dirs[:] = sorted(d for d in dirs if d != "out")
            for n in sorted(names):
                if n.endswith(ends):
                    yield os.path.join(folder, n)


def of_function(path):
    return re.search(r"/proofs/(?:.*/)?[a-z_+][\w+]*/\w+\.antt$", path) is not None


def bare(line):
    return re.sub(r"--.*", "", line)


def snake(name):
    name = name.replace("getD", "get_or").replace("-", "_")
    return re.sub(r"(?<=[a-z0-9])([A-Z])", lambda m: "_" + m.group(1).lower(), name)


def declared(text, in_function):
    """The words that a file declares, each with whether it is a variable."""
    for line in text.split("\n"):
        l = bare(line)
        m = re.match(r"\s*(?:pub |unfoldable |abbrev )*(" + WORD + r")\s*:(.*)", l)
        if m and not (in_function and "tie." in m.group(2)):
            yield m.group(1), False
        m = re.match(r"\s*(?:pub )?(?:data|record) (?:pub )?(" + WORD + ")", l)
        if m:
            yield m.group(1), False
        for m in re.finditer(r"[({]([^(){}:]*?) :", l):
            for n in m.group(1).split():
                if re.fullmatch(WORD, n):
                    yield n, True
        if l.startswith("use "):
            for m in re.finditer(r" as (" + WORD + ")", l):
                yield m.group(1), True
        for m in re.finditer(r"λ ([^.]*)\.", l):
            for n in m.group(1).split():
                if re.fullmatch(WORD, n):
                    yield n, True
        for m in re.finditer(r"\blet (" + WORD + r")\b", l):
            yield m.group(1), True
        m = re.match(r"\s*(" + WORD + r")((?: [^=]+)?) =( |$)", l)
        if m:
            for n in TOKEN.findall(m.group(2)):
                yield n, True


def functions():
    """The names of the functions of src/: a call is a step of that name in a proof file."""
    return {m.group(1) for p in files(".rt") for m in re.finditer(r"\bfn ([a-z_0-9]+)", open(p, encoding="utf-8").read())}


def fields():
    """The fields of the repository's own records."""
    found = set()
    for p in files(".antt"):
        inside = False
        for line in open(p, encoding="utf-8"):
            l = bare(line)
            if re.match(r"\s*(?:pub )?record ", l):
                inside = True
            elif re.match(r"\S", l):
                inside = False
            m = re.match(r"\s+pub (" + WORD + r") :", l)
            if inside and m:
                found.add(m.group(1))
    return found


def renaming():
    kinds = collections.defaultdict(set)  # name -> {'word', 'variable', 'made'}
    imported = set()
    camel = set()
    for p in files(".antt"):
        text = open(p, encoding="utf-8").read()
        for m in USE.finditer(text):
            if not m.group(1).startswith("Rattle.") or m.group(1).startswith("Rattle.std."):
                imported.update(w.strip().split(" as ")[0] for w in m.group(2).split(","))
        for n, variable in declared(text, of_function(p)):
            if of_function(p) and MADE.match(n):
                continue
            kinds[n].add("variable" if variable else "word")
    to = {}
    taken = {n for n in kinds if n == snake(n)} | imported
    wanted = collections.defaultdict(list)
    for n in kinds:
        if n[0].isupper():
            if "-" in n:
                to[n] = n.replace("-", "_")
            continue
        if n != snake(n) and n not in imported:
            wanted[snake(n)].append(n)
    for new, olds in sorted(wanted.items()):
        definition = [n for n in olds if "-" not in n]
        lemmas = [n for n in olds if "-" in n]
        for n in definition:
            if new in taken and new in imported:
                to[n] = new + "_lem"
            else:
                to[n] = new
                if new in kinds:  # a lemma that port.py respelled has the definition's name now
                    to[new] = new + "_lem"
        for n in lemmas:
            to[n] = new + "_lem" if definition or new in taken else new
    return to


def turned(text, to, whole):
    """The text with its tokens renamed; in a function's folder (not whole) what the check made stays."""
    out = []
    for line in text.split("\n"):
        code, sep, said = line.partition("--") if not line.lstrip().startswith("--") else ("", "--", line.lstrip()[2:])
        indent = line[: len(line) - len(line.lstrip())] if not code else ""

        def one(m):
            n = m.group(0)
            before = m.string[: m.start()]
            if before.endswith("."):
                if not whole and n.replace("-", "_") in CALLED and n not in FIELDS:
                    return n.replace("-", "_")
                if n in to and (n in FIELDS or whole and n != n.lower() or whole and "-" in n):
                    return to[n]
                return n
            if n not in to:
                return n
            if re.search(r"\btie\.$", before) or before.endswith("Need-"):
                return n
            if not whole and (MADE.match(n) or (re.search(r"(?:^|[\s(])c(?:\.[\w'-]+)*\.$", before) and MADE.match(n))):
                return n
            return to[n]

        code = TOKEN.sub(one, code)
        said = re.sub(r"`[^`]*`", lambda m: TOKEN.sub(lambda t: to.get(t.group(0), t.group(0)), m.group(0)), said)
        said = TOKEN.sub(lambda t: to.get(t.group(0), t.group(0)) if "-" not in t.group(0) and t.group(0) != t.group(0).lower() else t.group(0), said)
        out.append(indent + code + sep + said)
    return "\n".join(out)


def clauses(text, to):
    """A .rt file or an edit: words in camel case or with a dash stand in clauses alone."""

    def line(l):
        comment = l.lstrip().startswith(("//", "#"))
        return TOKEN.sub(lambda m: to.get(m.group(0), m.group(0)) if m.group(0) != m.group(0).lower() or "-" in m.group(0) and not comment else m.group(0), l)

    return "\n".join(line(l) for l in text.split("\n"))


def prose(text, to):
    return re.sub(r"`[^`\n]*`", lambda m: TOKEN.sub(lambda t: to.get(t.group(0), t.group(0)) if t.group(0) != t.group(0).lower() or "-" in t.group(0) else t.group(0), m.group(0)), text)


def main():
    global CALLED, FIELDS
    CALLED, FIELDS = functions(), fields()
    to = renaming()
    if "--list" in sys.argv:
        for k, v in sorted(to.items()):
            print(k, v)
        return
    for p in files(".antt", ".rt", ".edit"):
        text = open(p, encoding="utf-8").read()
        if p.endswith(".antt"):
            new = turned(text, to, not of_function(p))
            if of_function(p):
                f = os.path.basename(os.path.dirname(p))
                new = re.sub(r"(?<![\w-])" + re.escape(f.replace("_", "-")) + r"-spec(?![\w-])", f + "_spec", new)
        else:
            new = clauses(text, to)
        if new != text:
            open(p, "w", encoding="utf-8").write(new)
    for p in ["README.md"] + [os.path.join("docs", n) for n in sorted(os.listdir("docs")) if n.endswith(".md")]:
        text = open(p, encoding="utf-8").read()
        new = prose(text, to)
        if new != text:
            open(p, "w", encoding="utf-8").write(new)


main()
