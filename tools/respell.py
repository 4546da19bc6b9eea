#!/usr/bin/env python3
"""Brings the names of the repository's own definitions and lemmas to one spelling, once, right after the kit's port.py.

    python3 tools/respell.py            rewrites crates/*/{src,specs,proofs} and must-fail edits in place
    python3 tools/respell.py --list     prints old and new names, and changes nothing

A word is in snake case, a fact or a type in upper camel case. Names from Rust sources, goals that the check makes, and
strings keep their spelling. It stops where two names of a file would fall together.
"""

import re
import sys
from pathlib import Path

ROOT = Path(__file__).resolve().parent.parent
CRATES = ROOT / "crates"

WORD = r"[A-Za-zΑ-ωℕℤ₀-₉_'·+*/≤<◌\u2080-\u2089][\w'·\-+*/≤<∷₀-₉⁺◌]*"
DEFINED = re.compile(r"^\s*(?:(?:abbrev|unfoldable|pub|record|data)\s+)*(%s)\s*(?:$|:|\(|\{)" % WORD)
ALIAS = re.compile(r"\bas (%s)" % WORD)
TOKEN = re.compile(r'"(?:[^"\\\n]|\\.)*"|[\w\'\-₀-₉]+(?:\+\+)?')

# Names that the rule would make fall together with another, or that are constants of the cipher in capitals.
CHOSEN = {
    "MASK": "mask",
    "ADDED": "added_constant",
    "LOWER16": "lower16",
    "UPPER16": "upper16",
}
# A function of src/ and the definition that says what it answers may share their name: these do.
SHARED = {"rows_given", "refusal_text", "top_byte", "top_bytes", "undo_by", "lane_at", "sequences_stand"}
# Capitals that Rust sources have too are turned in these crates' specs and proofs alone.
CAPITALS_IN = {"MASK": "cryptmt", "ADDED": "cryptmt", "LOWER16": None, "UPPER16": None}


def snake(name: str) -> str:
    name = re.sub(r"(?<=[a-z0-9])([A-Z])", lambda m: "_" + m.group(1).lower(), name)
    return re.sub(r"-(?=[A-Za-z0-9])", "_", name)


def camel(name: str) -> str:
    head, *rest = re.split(r"[-_]", name)
    return head + "".join(part[:1].upper() + part[1:] for part in rest)


def respelled(name: str) -> str:
    if name in CHOSEN:
        return CHOSEN[name]
    if name[0].isupper() and name[0].isascii():
        return camel(name)
    return snake(name)


def files() -> list[Path]:
    found = []
    for pattern in ("*/src/**/*.rt", "*/specs/**/*.antt", "*/proofs/**/*.antt", "*/must-fail/*.edit"):
        found += [p for p in CRATES.glob(pattern) if "out" not in p.relative_to(CRATES).parts]
    return sorted(found)


def is_goal(line: str) -> bool:
    """A line that gives a goal or an invariant its type: the check made its name."""
    return re.search(r":\s*(goal|need|given)\.", line) is not None


def own_names(paths: list[Path]) -> set[str]:
    names: set[str] = set()
    for path in paths:
        if path.suffix == ".rt":
            for line in path.read_text().splitlines():
                if line.startswith("ghost use"):
                    names.update(ALIAS.findall(line))
            continue
        if path.suffix != ".antt":
            continue
        goals = set()
        for line in path.read_text().splitlines():
            if line.startswith(("use ", "pub use ")):
                names.update(ALIAS.findall(line))
                continue
            if line.startswith(("pub mod", "mod ", "infix")):
                continue
            match = DEFINED.match(line)
            if not match:
                continue
            name = match.group(1)
            if is_goal(line):
                goals.add(name)
            elif re.match(r"^\s*(?:(?:abbrev|unfoldable|pub)\s+)*%s\s*:(\s|$)" % re.escape(name), line) or re.match(
                r"^\s*pub (?:record|data) ", line
            ):
                names.add(name)
        names -= goals if path.name in ("Answers.antt", "Invariants.antt", "Choices.antt") else set()
    return names


def main() -> int:
    paths = files()
    changes = {n: respelled(n) for n in own_names(paths) if respelled(n) != n}
    if sys.argv[1:] == ["--list"]:
        for old, new in sorted(changes.items()):
            print(old, new)
        return 0
    clashes = []
    turned = {}
    for path in paths:
        crate = path.relative_to(CRATES).parts[0]
        text = path.read_text()

        def turn(match: re.Match) -> str:
            token = match.group(0)
            if token.startswith('"') or token not in changes:
                return token
            if token in CAPITALS_IN and (path.suffix != ".antt" or CAPITALS_IN[token] not in (None, crate)):
                return token
            before = text[: match.start()]
            line = text[before.rfind("\n") + 1 : text.find("\n", match.start())]
            # a goal keeps its name: where it is typed, where its answer begins, and behind `goal.` or `need.`
            if before.endswith(("goal.", "need.", "given.")):
                return token
            return changes[token]

        new = TOKEN.sub(turn, text)
        tokens = {t for t in TOKEN.findall(text) if not t.startswith('"')}
        for token in tokens & changes.keys():
            if changes[token] in tokens - SHARED:
                clashes.append(f"{path.relative_to(ROOT)}: {token} and {changes[token]}")
        turned[path] = new
    for line in sorted(clashes):
        print("falls together:", line)
    if clashes:
        return 1
    for path, new in turned.items():
        if new != path.read_text():
            path.write_text(new)
    print(f"{len(changes)} names")
    return 0


if __name__ == "__main__":
    sys.exit(main())
