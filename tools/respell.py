#!/usr/bin/env python3
"""Respells this repository's own antt names: a definition, lemma, field or constructor with a dash gets
underscores (snake case), a type or a fact with a dash gets upper camel case.

usage: python3 tools/respell.py [ROOT]      rewrites crates/ in place, after port.py has been run there once
       python3 tools/respell.py --list [ROOT]   prints each name with its new one, and what falls together

Left alone: names that Rattle makes (the goals of Answers.antt and Invariants.antt), names imported from std,
comments, strings and Rust code. Names in the backticks of comments and of docs/ and README.md are respelled too.
"""
import os
import re
import sys

WORD = r"[^\s(){}\[\];:,.@\"`«»]+"
SIGNATURE = re.compile(r"^(\s*)(?:(?:abbrev|unfoldable|pub|record|data|unfolding)\s+)*(" + WORD + r")(?:\s+[({][^=]*?)?\s*:(?:\s|$)")
GENERATED = re.compile(r"^(Answers|Invariants|Proof|Choices)\.antt$")


def files(root, ends):
    for folder, dirs, names in os.walk(os.path.join(root, "crates")):
        dirs[:] = sorted(d for d in dirs if d != "out")
        for n in sorted(names):
            if n.endswith(ends):
                yield os.path.join(folder, n)


def read(p):
    with open(p, encoding="utf-8") as f:
        return f.read()


def bare(text, mark):
    """The text without what stands behind a comment's mark."""
    return "\n".join(re.sub(r"(^|\s)" + re.escape(mark) + r".*", "", line) for line in text.split("\n"))


def own_names(root):
    found = {}
    for p in files(root, (".antt",)):
        made = GENERATED.match(os.path.basename(p))
        for line in bare(read(p), "--").split("\n"):
            m = SIGNATURE.match(line)
            if not m or "-" not in m.group(2).strip("-"):
                continue
            name = m.group(2)
            if made and re.search(r":\s*(goal|need|needs)\.", line):
                continue
            if not re.match(r"^[A-Za-z]", name):
                continue
            found.setdefault(name, os.path.relpath(p, root))
    return found


def imported_from_std(text):
    out = set()
    for m in re.finditer(r"use\s+(?:Rattle\.std|Prim|borrow|antt|mathlib)[\w.'-]*\.\{([^}]*)\}", text):
        for part in m.group(1).split(","):
            out.add(part.strip().split(" as ")[-1].strip())
    return out


def respelled(name):
    parts = name.split("-")
    if name[0].isupper():
        return "".join(p[:1].upper() + p[1:] for p in parts)
    return "_".join(p for p in parts if p)


def tokens(text):
    """The names of a proof file that stand for themselves: no part of a path, no field of a value."""
    return re.compile(r"(?<![\w'.-])[A-Za-z][\w'-]*(?![\w'.-])").findall(text)


def cited(text):
    """The names that a source file's clauses import."""
    return [n.strip() for m in re.finditer(r"ghost use [^;{]*\{([^}]*)\}", text) for n in m.group(1).split(",")]


def plan(root):
    names = own_names(root)
    std = set()
    used = set()
    for p in files(root, (".antt", ".rt")):
        t = bare(read(p), "--" if p.endswith(".antt") else "//")
        std |= imported_from_std(t)
        used |= set(tokens(t) if p.endswith(".antt") else cited(t))
    turn, clash = {}, []
    for n in sorted(names):
        if n in std:
            clash.append(f"{n}: std has it too, left alone ({names[n]})")
            continue
        to = respelled(n)
        if to in used or to in turn.values():
            clash.append(f"{n}: {to} is there already ({names[n]})")
            if n not in APART:
                continue
            to = APART[n]
        turn[n] = to
    return turn, clash


# Names that would fall together with another one, and what they are called instead.
APART = {}

TOKEN = re.compile(r"(?<![\w'-])[A-Za-z][\w'-]*(?![\w'-])")


def code(text, turn):
    return TOKEN.sub(lambda m: turn.get(m.group(0), m.group(0)), text)


def ticks(text, turn):
    return re.sub(r"`[^`\n]*`", lambda m: code(m.group(0), turn), text)


def split_comment(line, mark):
    m = re.search(r"(^|\s)" + re.escape(mark), line)
    if not m:
        return line, ""
    at = m.start() + len(m.group(1))
    return line[:at], line[at:]


def strings(text, turn):
    parts = re.split(r"(\"(?:[^\"\\]|\\.)*\")", text)
    return "".join(p if i % 2 else code(p, turn) for i, p in enumerate(parts))


def turned(path, text, turn):
    if path.endswith(".md"):
        return ticks(text, turn)
    if path.endswith(".edit"):
        return "\n".join(code(x, turn) if x.startswith(("old:", "new:")) else x for x in text.split("\n"))
    mark = "--" if path.endswith(".antt") else "//"
    out = []
    for line in text.split("\n"):
        head, tail = split_comment(line, mark)
        head = strings(head, turn) if path.endswith(".rt") else code(head, turn)
        out.append(head + ticks(tail, turn))
    return "\n".join(out)


def main():
    args = sys.argv[1:]
    listing = "--list" in args
    args = [a for a in args if a != "--list"]
    root = args[0] if args else "."
    turn, clash = plan(root)
    for c in clash:
        print("look:", c)
    if listing:
        for n, to in sorted(turn.items()):
            print(n, "->", to)
        return
    paths = list(files(root, (".antt", ".rt", ".edit")))
    for base, dirs, names in os.walk(os.path.join(root, "docs")):
        paths += [os.path.join(base, n) for n in names if n.endswith(".md")]
    paths.append(os.path.join(root, "README.md"))
    changed = 0
    for p in paths:
        if not os.path.exists(p):
            continue
        t = read(p)
        new = turned(p, t, turn)
        if new != t:
            with open(p, "w", encoding="utf-8") as f:
                f.write(new)
            changed += 1
    print(f"{len(turn)} names, {changed} files")


if __name__ == "__main__":
    main()
