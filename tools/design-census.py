#!/usr/bin/env python3
"""Counts the places of the eight points of docs/DESIGN-PASS.md in crates/*/src and crates/*/proofs.

Run at the top of the repository: `python3 tools/design-census.py`, with `--places` for each place.
What only a reader can find (twins above all) is listed on the page itself.
"""
import collections
import glob
import re
import sys

SOURCES = sorted(glob.glob("crates/*/src/*.rt"))


def code_lines():
    """Each line of code, without comments, clauses and ghost lines."""
    for path in SOURCES:
        for number, line in enumerate(open(path), 1):
            text = line.split("//")[0]
            if text.strip() and not re.match(r"\s*(requires|ensures|ghost|×|→)", text):
                yield path, number, text.rstrip("\n")


def lines_with(pattern):
    return [f"{path}:{number}: {text.strip()}" for path, number, text in code_lines() if re.search(pattern, text)]


def functions():
    """Each function with the names of its parameters and the text of its contract."""
    head = re.compile(r"^ *(?:pub )?(?:const )?(?:extern \"C\" )?fn (\w+)(?:<[^\n]*?>)?\((.*?)\)(.*?)^ *\{", re.S | re.M)
    for path in SOURCES:
        for found in head.finditer(open(path).read()):
            names = re.findall(r"(\w+): ", found.group(2))
            yield path, found.group(1), names, found.group(3)


def with_parameters(*wanted):
    """Functions that take all of these parameters; a wanted entry may be a set of which one is enough."""
    places = []
    for path, name, names, _ in functions():
        if all((entry in names) if isinstance(entry, str) else entry & set(names) for entry in wanted):
            places.append(f"{path}: {name}")
    return places


def repeated_facts():
    """Facts that stand alone in the `requires` of three or more functions."""
    where = collections.defaultdict(list)
    for path, name, _, contract in functions():
        for clause in re.findall(r"requires(?: \w+)? \{ (.*?) \}", contract, re.S):
            for fact in clause.split(" × "):
                where[path.split("/")[1] + ": " + " ".join(fact.split())].append(name)
    return [f"{fact} in {', '.join(names)}" for fact, names in sorted(where.items()) if len(names) >= 3 and "length" not in fact]


def answers():
    places = []
    for path in sorted(glob.glob("crates/*/proofs/**/Answers.antt", recursive=True)):
        places += [f"{path}: {name}" for name in re.findall(r"^pub ([^ ]+) :", open(path).read(), re.M)]
    return places


TABLE = {"part", "records", "nodes", "formula", "bytes"}
POINTS = [
    ("1 own enums of the shape of Option or Result", lines_with(r"^(pub )?enum (Opened|Answer|Written|Change) ")),
    ("1 a flag with a value beside it, status codes", lines_with(r"^ *(pub )?(ok|last|spent): bool,|status: &mut u8")),
    ("1 tests of a kind's number", lines_with(r"kind (==|!=|<|<=) [0-9]|[0-9] (<|<=) (\w+(\[\w+\])?\.)?kind|kinds\[")),
    ("1 functions that give a refusal's number", lines_with(r"fn (number_of|running_number|change_number|numbers_of)\(")),
    ("3 `while` and `loop`", lines_with(r"^ *(while|loop)\b")),
    ("3 `for` over the numbers of a range", lines_with(r"^ *for \w+ in [\w.()]+\.\.")),
    ("4 equality, copy, conversion and printing by hand",
     lines_with(r"fn (equal|equal_words|same_transition|wide|one_if|one_if_binder|flag|sign_number|first_flag|one_less|outside|solving_answer|copy|move_up|move_down|clear|store|load|print|print_records)\b")),
    ("5 functions of a file and its counts", with_parameters("file", "sizes")),
    ("5 functions of records, flags and their number", with_parameters("part", "first", "m")),
    ("5 functions of a case and its header", with_parameters({"case", "bytes", "model"}, "h")),
    ("5 functions of the evaluator's tables", with_parameters("h", "records", "masks")),
    ("5 facts that three or more functions require", repeated_facts()),
    ("6 a table's bytes with its count beside them", with_parameters(TABLE, {"m", "f", "k", "a", "l"})),
    ("7 a bool that says which step to run", lines_with(r"\b(either|there|nu|inside|diamond|formula): bool")),
    ("8 answers that proofs give", answers()),
]

for title, places in POINTS:
    print(f"{len(places):4} {title}")
    if "--places" in sys.argv:
        for place in places:
            print(f"       {place}")
