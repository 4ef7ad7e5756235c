#!/usr/bin/env python3
"""Finds answers of a crate's proofs that the check finds alone, and drops them.

usage: python3 tools/spare_answers.py CRATE [WORD]      of a crate that proves, at the top of the checkout, while nothing
                                                       else works there; only files whose path has WORD

It takes each answer out of its Answers.antt, checks that function alone, and puts the answer back where the check
fails. A file with no answer left goes. It prints what it dropped; run `rt tidy` and `rt check` on the crate after it.
"""
import glob
import os
import re
import subprocess
import sys


def proves(crate, path):
    parts = path.split("/proofs/", 1)[1].split("/")[:-1]
    done = subprocess.run(["rt", "check", "--only", "::".join(parts)], cwd=f"crates/{crate}", capture_output=True, text=True)
    last = done.stdout.strip().split("\n")[-1] if done.stdout.strip() else ""
    return done.returncode == 0 and re.search(r"only=(\d+) proved=\1\b", last) is not None


def blocks(text):
    """The head of the file, and its blocks that blank lines part."""
    parts = re.split(r"\n\n+", text.strip("\n"))
    return parts


def main():
    crate, word = sys.argv[1], sys.argv[2] if len(sys.argv) > 2 else ""
    for path in sorted(glob.glob(f"crates/{crate}/proofs/**/Answers.antt", recursive=True)):
        if word not in path:
            continue
        if not proves(crate, path):
            print(f"skipped, it does not prove as it is: {path}", flush=True)
            continue
        kept = blocks(open(path).read())
        for block in list(kept):
            m = re.match(r"(?:--[^\n]*\n)*pub (\S+) : goal\.", block)
            if not m:
                continue
            before = open(path).read()
            left = [b for b in kept if b is not block]
            if any(re.search(r": goal\.", b) for b in left):
                open(path, "w").write("\n\n".join(left) + "\n")
            else:
                os.remove(path)
            dropped = False
            try:
                dropped = proves(crate, path)
            finally:
                if not dropped:
                    open(path, "w").write(before)
            if dropped:
                kept = left
                print(f"dropped {m.group(1)}: {path}", flush=True)


main()
