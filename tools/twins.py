#!/usr/bin/env python3
"""Lists, for a commit, pairs of functions of crates/*/src whose bodies have one shape: the same lines, with other names and
numbers. A pair is a place to look; docs/DESIGN-PASS.md says what became of each.

    tools/twins.py COMMIT [LINES]
"""
import itertools
import re
import subprocess
import sys


def git(*args):
    return subprocess.run(["git", *args], check=True, capture_output=True, text=True).stdout


def functions(path, text):
    """The functions of a file: name, first line, and the lines of the body."""
    lines = text.split("\n")
    i = 0
    while i < len(lines):
        head = re.match(r"(\s*)(pub(\(crate\)|\(super\))? )?(const |extern \"C\" )?fn (\w+)", lines[i])
        if not head:
            i += 1
            continue
        indent = head.group(1)
        start = i
        while i < len(lines) and not lines[i].rstrip().endswith(("{", ";", "}")) or "ensures" in lines[i] or "requires" in lines[i]:
            i += 1
        if i < len(lines) and lines[i].rstrip().endswith("{"):
            end = i + 1
            while end < len(lines) and lines[end] != indent + "}":
                end += 1
            yield head.group(5), start + 1, [line.strip() for line in lines[i + 1 : end] if line.strip()]
            i = end
        i += 1


def shape(line):
    line = re.sub(r"//.*", "", line)
    line = re.sub(r"\b\d[\d_a-fx]*\b", "0", line)
    return re.sub(r"\b[A-Za-z_]\w*\b", "x", line)


def main():
    commit = sys.argv[1]
    least = int(sys.argv[2]) if len(sys.argv) > 2 else 2
    found = []
    for path in git("ls-tree", "-r", "--name-only", commit, "crates").split():
        if "/src/" in path and path.endswith(".rt"):
            for name, line, body in functions(path, git("show", f"{commit}:{path}")):
                found.append((f"{path}:{line} {name}", [shape(b) for b in body]))
    pairs = 0
    for (a, x), (b, y) in itertools.combinations(found, 2):
        if len(x) >= least and x == y:
            pairs += 1
            print(f"{a} ~ {b} ({len(x)} lines)")
    print(f"{pairs} pairs of {len(found)} functions")


main()
