"""Makes the stored test vectors anew and compares.

    python3 reference/vectors.py            fails if a stored file differs
    python3 reference/vectors.py --write    writes the stored files
"""

import sys
from collections.abc import Callable
from pathlib import Path

import demo
import tool
import walk

ROOT = Path(__file__).resolve().parent.parent

# Stored file, from the root of the repository, and what makes its content.
VECTORS: dict[str, Callable[[], bytes]] = {
    "crates/demo/stdout": demo.stdout,
    "crates/keystream_tool/stdin": tool.stdin,
    "crates/keystream_tool/stdout": lambda: tool.answer(tool.stdin()),
    "crates/walk_tool/stdin": walk.stdin,
    "crates/walk_tool/stdout": lambda: walk.answer(walk.stdin()),
}

SHOWN = 100  # bytes of a differing line


def shown(lines: list[bytes], index: int) -> str:
    if index >= len(lines):
        return "nothing"
    line = lines[index]
    return repr(line[:SHOWN]) + (" ..." if len(line) > SHOWN else "")


def first_difference(stored: bytes, made: bytes) -> str:
    """The first line that differs; after the last byte 10 comes an empty one."""
    a, b = stored.split(b"\n"), made.split(b"\n")
    index = next(i for i in range(max(len(a), len(b))) if a[i : i + 1] != b[i : i + 1])
    return f"line {index + 1}: stored {shown(a, index)}, should be {shown(b, index)}"


def complaint(name: str, made: bytes) -> str | None:
    path = ROOT / name
    if not path.is_file():
        return f"{name}: missing"
    stored = path.read_bytes()
    if stored != made:
        return f"{name}: {first_difference(stored, made)}"
    return None


def compare() -> int:
    complaints = [c for name, make in VECTORS.items() if (c := complaint(name, make()))]
    for line in complaints:
        print(line)
    print(f"{len(VECTORS) - len(complaints)} stored files right, {len(complaints)} wrong")
    return 1 if complaints else 0


def write() -> int:
    for name, make in VECTORS.items():
        path = ROOT / name
        path.parent.mkdir(parents=True, exist_ok=True)
        path.write_bytes(make())
        print(f"wrote {name}")
    return 0


def main() -> int:
    match sys.argv[1:]:
        case []:
            return compare()
        case ["--write"]:
            return write()
    print(__doc__, file=sys.stderr)
    return 2


if __name__ == "__main__":
    sys.exit(main())
