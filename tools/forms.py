#!/usr/bin/env python3
"""Lists the places in src/ where an older form of Rattle shows, by the points of docs/DESIGN-PASS.md.

usage: python3 tools/forms.py [-v]      the count of each search, and with -v each place; at the top of the checkout

It goes by text and by some names that stood here once, so it shows where to look, and neither all of it nor what is
wrong: only reading does.
"""
import collections
import glob
import itertools
import re
import sys

SEARCHES = [
    # point, what, pattern of a line
    (1, "a number for a kind", r"\.code\b|\bcode: u8|match (code|kind)\b|\bkind: u8|\bkind\b.*<=|const (READ|EVENTS)\b"),
    (1, "a number for none", r"^\s*(return )?0;?$|_ => 32|=> 0,$"),
    (1, "a flag in a struct", r"^    (pub(\(crate\))? )?\w+: bool,"),
    (1, "an enum like Option or Result", r"^    (Taken|Refused|None|Some|Ok|Err)\(\w+\),|enum (Outcome|Answer|Maybe)"),
    (1, "an Option or Result matched by hand, where a method or `?` does it",
     r"None => (None|false|true|return None|return false)\b|Err\(fault\) => (Err\(fault\)|return refuse|refuse)|Err\(_\) => (Err|unreachable)|_ => return None"),
    (3, "an index counted by hand", r"\bwhile .*(<|\bis_empty\b)|for [a-z]\w* in \(?\w+\.\."),
    (3, "a count, sum or search by hand", r"^\s*(let mut (n|left|count|size|end|before|at|from|due|next|k)( = |:))"),
    (3, "the same call once for each thread", r"\((follower\.)?(self\.)?\w*\(?.*\b8(, thread, is|, 0)?\),$"),
    (4, "equality by hand", r"fn (same|same_\w+)\("),
    (4, "conversion by hand", r"fn (refusal|kind_of|operation_of|name_at|object_at|place_of)\(|% 256|256 \*|/ 256"),
    (4, "printing by hand", r"write!\(f, \" -\"\)"),
    (6, "parallel arrays, buffers with a place beside them", r"starts: \[u8; 8\],$|limits: \[u8; 8\],$|fronts: \[|buffer: &mut \[u8\], (at|start)"),
    (7, "a table of functions, or a boxed or pointed-to one", r"\bfn\(|\bdyn \b|Box<"),
]


def source():
    for path in sorted(glob.glob("crates/*/src/**/*.rt", recursive=True)):
        with open(path) as f:
            yield path, f.read()


def by_line(pattern):
    found = []
    for path, text in source():
        for number, line in enumerate(text.split("\n"), 1):
            if re.search(pattern, line) and not line.lstrip().startswith("//") and "ghost" not in line:
                found.append(f"{path}:{number}: {line.strip()}")
    return found


def functions():
    """(crate, name, parameters, clauses) of each function."""
    head = r"fn (\w+)(?:<[^>]*>)?\((.*?)\)(?: -> [^{]*?)?\s*((?:(?:requires|ensures)\b[^\n]*\n\s*)*)\{"
    for path, text in source():
        for m in re.finditer(head, text, re.S):
            parameters = []
            for p in re.split(r",(?![^<(\[]*[>)\]])", m.group(2)):
                p = re.sub(r"^mut ", "", p.strip())
                if ":" in p:
                    parameters.append(p.split(":")[0].strip())
            clauses = re.findall(r"(?:requires|ensures)\s*\w*\s*\{(.*)\}", m.group(3))
            yield path.split("/")[1], m.group(1), parameters, clauses


def repeated():
    """Clauses of three functions or more, and pairs of parameters of three functions of a crate or more."""
    facts, pairs = collections.defaultdict(list), collections.defaultdict(list)
    for crate, name, parameters, clauses in functions():
        for clause in clauses:
            facts[clause.strip()].append(f"{crate}::{name}")
        for pair in itertools.combinations(parameters, 2):
            if "rt" not in pair:
                pairs[(crate,) + pair].append(name)
    one = [f"{c}: {', '.join(v)}" for c, v in facts.items() if len(v) >= 3]
    two = [f"{c[0]}: {c[1]}, {c[2]}: {', '.join(v)}" for c, v in pairs.items() if len(v) >= 3]
    return one, two


def twins():
    """Functions of one name, not methods of a trait's impl, in two places or more."""
    names = collections.defaultdict(list)
    for path, text in source():
        for m in re.finditer(r"^ *(?:pub(?:\(crate\))? )?(?:const )?fn (\w+)[<(]", text, re.M):
            if m.group(1) not in ("main", "new", "fmt", "from", "name", "told"):
                names[m.group(1)].append(path)
    return [f"{n}: {', '.join(v)}" for n, v in sorted(names.items()) if len(v) >= 2]


def answers():
    return [f"{p}: {sum(1 for l in open(p) if re.match(r'[a-z][^ ]* .*=', l))}"
            for p in sorted(glob.glob("crates/*/proofs/**/Answers.antt", recursive=True))]


def main():
    rows = [(point, what, by_line(pattern)) for point, what, pattern in SEARCHES]
    facts, pairs = repeated()
    rows.append((2, "functions of one name", twins()))
    rows.append((5, "a fact in the contracts of three functions", facts))
    rows.append((5, "parameters that travel together in three functions", pairs))
    rows.append((8, "files of answers", answers()))
    for point, what, found in sorted(rows, key=lambda r: r[0]):
        print(f"{point}  {len(found):3}  {what}")
        if "-v" in sys.argv[1:]:
            for place in found:
                print("        " + place)


main()
