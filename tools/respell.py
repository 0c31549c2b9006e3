#!/usr/bin/env python3
"""Brings the repository's own names of definitions and lemmas to one spelling: words in snake case, types in camel case.

usage: python3 tools/respell.py [--list] [FOLDER]    FOLDER is the top of a checkout, else the current folder

A name with a dash that stands in specs/ or in a lemma file of proofs/, and is no import from the toolchain's library, is turned: job-count
becomes job_count, and Least-window becomes LeastWindow. It is turned then in the code's clauses, in answers, in must-fail edits and in
planted bugs too. Names of the toolchain's library, of generated goals and of local variables in answers stay. Code, strings and plain
English stay too: in comments a word is turned only if it is no English word of WORDS. --list prints what would change, and marks by TOGETHER
what falls together, also with a module or a function.
"""

import os
import re
import sys

# dashed words of plain English, which stay as they are in comments and documents
WORDS = {"one-sided", "on-time", "in-time", "must-fail", "most-urgent", "first-open"}
# a name that would fall together with a struct of src/
OTHER = {"Not-started": "IsNotStarted"}
OWN = {"model", "table", "analysis", "harvest", "node", "listing", "input", "tablecheck", "noderun"}
NAME = re.compile(r"(?<![\w'◌-])[A-Za-z_][\w']*(?:-[\w']+)+(?![\w'◌-])")
USED = re.compile(r"use (Rattle\.(\w+)[\w.'-]*)\.\{([^}]*)\}")
FOREIGN = re.compile(r"use (?!Rattle\.)[\w.'-]+\.\{([^}]*)\}")


def turned(name):
    if name in OTHER:
        return OTHER[name]
    parts = name.split("-")
    if name[0].isupper():
        return "".join(p[:1].upper() + p[1:] for p in parts)
    return "_".join(parts)


def split(line, mark):
    """A line's code, and its comment."""
    m = re.search(r"(^|\s)" + mark + r"(\s|$)", line)
    return (line, "") if not m else (line[: m.start()], line[m.start() :])


def files(root, under):
    for folder, dirs, names in os.walk(os.path.join(root, under)):
        dirs[:] = sorted(d for d in dirs if d != "out")
        for f in sorted(names):
            yield os.path.join(folder, f)


def read(path):
    with open(path, encoding="utf-8") as f:
        return f.read()


def library_names(text):
    """The names that a file imports from the toolchain's library."""
    out = set()
    for m in USED.finditer(text):
        if m[2] not in OWN:
            out |= {n.strip().split(" as ")[0] for n in m[3].split(",")}
    for m in FOREIGN.finditer(text):
        out |= {n.strip().split(" as ")[0] for n in m[1].split(",")}
    return out


def is_lemma_file(path):
    """Whether names are declared there: specs/, and the files that stand in proofs/ itself."""
    parts = path.split(os.sep)
    if not path.endswith(".antt"):
        return False
    return "specs" in parts or parts[-2] == "proofs"


def own_names(root):
    names = set()
    for path in files(root, "crates"):
        if is_lemma_file(path):
            text = read(path)
            kit = library_names(text)
            for line in text.split("\n"):
                names |= {m for m in NAME.findall(split(line, "--")[0]) if m not in kit}
    return names


def respell(text, names, kit, mark):
    def sub(m):
        w = m[0]
        return turned(w) if w in names and w not in kit else w

    def said(m):
        return m[0] if m[0] in WORDS else sub(m)

    out = []
    for line in text.split("\n"):
        code, note = split(line, mark) if mark else (line, "")
        out.append(NAME.sub(sub, code) + NAME.sub(said, note))
    return "\n".join(out)


def main(argv):
    listing = "--list" in argv
    argv = [a for a in argv if a != "--list"]
    root = argv[0] if argv else "."
    names = own_names(root)
    if listing:
        seen = set()
        for path in files(root, "crates"):
            if path.endswith((".rt", ".antt")):
                seen |= set(re.findall(r"(?<![\w'-])[A-Za-z_][\w'-]*", read(path)))
        where = {}
        for n in sorted(names):
            where.setdefault(turned(n), []).append(n)
        for new, old in sorted(where.items()):
            print(" ".join(old), "->", new, "TOGETHER" if len(old) > 1 or new in seen else "")
        return 0
    for under in ("crates", "planted"):
        for path in files(root, under):
            if path.endswith(".antt"):
                mark = "--"
            elif path.endswith(".rt"):
                mark = "//"
            elif path.endswith(".edit") or under == "planted":
                mark = None
            else:
                continue
            text = read(path)
            new = respell(text, names, library_names(text), mark)
            if new != text:
                with open(path, "w", encoding="utf-8") as f:
                    f.write(new)
    return 0


if __name__ == "__main__":
    raise SystemExit(main(sys.argv[1:]))
