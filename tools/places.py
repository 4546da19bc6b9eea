#!/usr/bin/env python3
"""Lists, for a commit, the lines of crates/*/src that the design pass of docs/DESIGN-PASS.md looked at.

    tools/places.py COMMIT [POINT]

A line is a candidate: the page says which of them are places of the point, and what became of each.
"""
import collections
import re
import subprocess
import sys

PATTERNS = {
    "1 own Option or Result, flags, codes": [
        r"^\s+(NoMemory|Nothing)(\(\w+\))?,$",  # a case with nothing in it, or with the error
        r"Err\(AllocError\)",
        r"(: |-> )bool\b",
        r"=> \d+,$",
        r"return 255|\(255",
        r"\(\) -> u8$",
    ],
    "3 loops that count": [
        r"\bwhile (?!let)",
        r"\bfor \w+ in .*\.\.",
        r"enumerate\(\)",
        r"\b(n|i|at|left|from) [-+]= ",
    ],
    "4 conversions, equality and printing by hand": [
        r"from_array\(|\.to_array\(\)",
        r"from_le_bytes\(|to_le_bytes\(",
        r"^\s+l0: 0,$",
        r"\bfn (named|is_name|lane_at|number)\b",
        r'"no \{',
    ],
    "6 buffers with a length beside them": [
        r"^\s+(pub )?\w+: \[[\w:]+; \w+\],$",
        r"-> \[u8; 16\]",
        r"Vec<\w+>,$",
    ],
    "7 switches and tables": [
        r"\bmatch .*\bkind\b",
        r"if fresh",
        r"\bdyn\b|: fn\(",
    ],
}


def git(*args):
    return subprocess.run(["git", *args], check=True, capture_output=True, text=True).stdout


def sources(commit):
    for path in git("ls-tree", "-r", "--name-only", commit, "crates").split():
        if "/src/" in path and path.endswith(".rt"):
            yield path, git("show", f"{commit}:{path}").split("\n")


def repeated(files):
    """Clauses of `requires` and ghost fields, by their text: those of three functions or types or more."""
    places = collections.defaultdict(list)
    for path, lines in files:
        for number, line in enumerate(lines, 1):
            found = re.match(r"\s+(?:requires|ghost) ?\w*:? (\{.*)", line)
            if found and "ghost use" not in line and "ghost" != line.strip():
                text = re.sub(r"\b(start|at)\b", "at", found.group(1))
                places[text].append(f"{path}:{number}")
    return {text: where for text, where in places.items() if len(where) >= 3}


def main():
    commit = sys.argv[1]
    only = sys.argv[2] if len(sys.argv) > 2 else ""
    files = list(sources(commit))
    for point, patterns in PATTERNS.items():
        if not point.startswith(only):
            continue
        hits = [
            f"  {path}:{number}: {line.strip()}"
            for path, lines in files
            for number, line in enumerate(lines, 1)
            if any(re.search(p, line) for p in patterns)
        ]
        print(f"{point}: {len(hits)}")
        print("\n".join(hits))
    if "5".startswith(only):
        found = repeated(files)
        print(f"5 facts of three contracts or more: {len(found)}")
        for text, where in found.items():
            print(f"  {len(where)} times {text}")
    if "8".startswith(only):
        names = git("ls-tree", "-r", "--name-only", commit, "crates").split()
        answers = [n for n in names if n.endswith("/Answers.antt")]
        proofs = [n for n in names if "/proofs/" in n and n.endswith(".antt")]
        lines = sum(git("show", f"{commit}:{n}").count("\n") for n in proofs)
        print(f"8 answer files: {len(answers)}; lines in proofs/: {lines}")


main()
