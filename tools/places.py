#!/usr/bin/env python3
"""Lists lines of the code in which an older form may stand, one list for each kind of place.

usage: tools/places.py [TREE]

TREE is the top of a checkout, by default the one that this file lies in. Each list ends with its count. Which of the lines are places that
want another form is for a reader to say; docs/DESIGN-PASS.md does.
"""
import collections
import glob
import os
import re
import sys

LISTS = [
    ("1a enums of the repository", r"^\s*(pub(\(crate\))? )?enum "),
    ("1b flags and small numbers", r"\b(mark|kind|number|accepted|quiet|good)\b: (bool|u8|u16)\b|-> (u8|bool|Option<Refusal>|Option<usize>)\b|Result<bool"),
    ("1c what `?` does, by hand", r"(Err\(.*\)|None) => (return )?(Err|None|Some|0|\"\")|Ok\(.*\) => (None|0|Some|Ok)\b|return Err\(|else \{ return|return None|return Some\(refusal"),
    ("3a loops", r"(^|\s)('[a-z]+: )?(for [^{]* in |while |loop )"),
    ("3b counts by hand", r"saturating_add\(1\)|\b\w+ \+= 1;|\b\w+ -= 1;|\w+ \+ 1 < \w+"),
    ("4a casts", r" as (u8|u16|u32|u64|usize)\b"),
    ("4b types with the derives of copying or dropping only", r"derive\((Clone, Copy|Drop)\)"),
    ("4c printing by hand", r"\b(write|writeln|println)!\("),
    ("6 arrays, lengths, places", r"\[[A-Za-z0-9_<>:]+; *[A-Za-z0-9_]+\]|\b(len|count|start|length|index): usize"),
    ("7 switches, closures, dyn", r"\bdyn\b|\bfn\(|\bFn(Once|Mut)?\(|\bmatch "),
]


def lines_of(tree):
    for path in sorted(glob.glob(os.path.join(tree, "crates/*/src/**/*.rt"), recursive=True)):
        name = os.path.relpath(path, tree)
        for number, line in enumerate(open(path, encoding="utf-8"), 1):
            code = line.rstrip("\n")
            if not code.strip().startswith("//") and "ghost " not in code and not code.strip().startswith(("ensures", "requires")):
                yield name, number, code


def sources(tree):
    for path in sorted(glob.glob(os.path.join(tree, "crates/*/src/**/*.rt"), recursive=True)):
        yield path.split(os.sep)[-3 if os.sep + "src" + os.sep in path else -2], path, open(path, encoding="utf-8").read()


def repeated_facts(tree):
    """Facts that stand in the contracts of three functions and more; the state before and after, and numbers, count as the same."""
    facts = collections.defaultdict(set)
    for _, path, text in sources(tree):
        function = ""
        for line in text.splitlines():
            found = re.search(r"\bfn (\w+)", line)
            if found:
                function = os.path.relpath(path, tree) + " " + found.group(1)
            clause = re.match(r"\s+(requires|ensures)\s*\w*\s*\{(.*)", line)
            if clause:
                for fact in clause.group(2).split(" × "):
                    fact = re.sub(r"\.(now|old|new)\b", "", fact)
                    fact = re.sub(r"[(){}]", "", fact).strip()
                    facts[re.sub(r"\b\d+\b", "N", fact)].add(function)
    return [(fact, where) for fact, where in facts.items() if len(where) >= 3]


def parameters_together(tree):
    """Pairs of parameters that three functions and more have."""
    pairs = collections.defaultdict(set)
    for _, path, text in sources(tree):
        for found in re.finditer(r"\bfn (\w+)[^(]*\(([^)]*)\)", text):
            names = sorted(n for n in re.findall(r"(\w+)\s*:", found.group(2)) if n != "self")
            for i, first in enumerate(names):
                for second in names[i + 1 :]:
                    pairs[first, second].add(os.path.relpath(path, tree) + " " + found.group(1))
    return [(" and ".join(pair), where) for pair, where in pairs.items() if len(where) >= 3]


def equal_bodies(tree):
    """Functions whose text is the same once names of types, numbers and words are left out."""
    shapes = collections.defaultdict(set)
    for _, path, text in sources(tree):
        for found in re.finditer(r"^( *)(pub(\(crate\))? )?fn (\w+).*?^\1\}$", text, re.M | re.S):
            code = re.sub(r"^\s*(ensures|requires).*$|//.*$", "", found.group(0), flags=re.M)
            code = re.sub(r"\"[^\"]*\"", "TEXT", code)
            code = re.sub(r"\b[A-Za-z_]\w*\b", lambda m: m.group(0) if m.group(0) in ("fn", "match", "if", "for", "let", "return", "self") else "W", code)
            code = re.sub(r"\b\d+\b", "N", re.sub(r"\s+", "", code))
            if len(code) > 40:
                shapes[code].add(os.path.relpath(path, tree) + " " + found.group(4))
    return [("the same shape", where) for where in shapes.values() if len(where) >= 2]


def main():
    if sys.argv[1:] in (["--help"], ["-h"]):
        print(__doc__)
        return
    tree = sys.argv[1] if len(sys.argv) > 1 else os.path.join(os.path.dirname(os.path.abspath(__file__)), "..")
    for title, pattern in LISTS:
        hits = [hit for hit in lines_of(tree) if re.search(pattern, hit[2])]
        print(f"== {title}")
        for name, number, code in hits:
            print(f"{name}:{number}: {code.strip()}")
        print(f"-- {len(hits)}")
    for title, found in [
        ("2 functions of one shape", equal_bodies(tree)),
        ("5a facts in three contracts and more", repeated_facts(tree)),
        ("5b parameters in three functions and more", parameters_together(tree)),
    ]:
        print(f"== {title}")
        for what, where in sorted(found, key=lambda hit: -len(hit[1])):
            print(f"{len(where)} {what}: {', '.join(sorted(where))}")
        print(f"-- {len(found)}")
    print("== 8 proofs")
    files = [p for p in glob.glob(os.path.join(tree, "crates/*/proofs/**/*.antt"), recursive=True)]
    total = sum(len(open(p, encoding="utf-8").read().splitlines()) for p in files)
    answers = sum(len(re.findall(r"^(?:abbrev )?pub \S+ : goal\.", open(p, encoding="utf-8").read(), re.M)) for p in files)
    print(f"{len(files)} files, {total} lines, {answers} answers")


main()
