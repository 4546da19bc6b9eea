"""The expected standard output of the program `demo`.

The program covers a trace in parts, sets up again, uncovers it in other
parts and prints what it did: python3 reference/demo.py
"""

import sys

from cryptmt import cover

KEY = bytes(range(16))
IV = bytes(reversed(range(16)))

ADDRESSES = [
    0x08000130, 0x08000142, 0x08000150, 0x08000142, 0x08000150, 0x08000142, 0x0800015E, 0x08000200,
    0x08000214, 0x0800022A, 0x08000200, 0x08000214, 0x0800022A, 0x08000230, 0x08000164, 0x08000300,
    0x08000318, 0x0800031E, 0x08000318, 0x0800031E, 0x08000318, 0x0800031E, 0x08000326, 0x08000168,
    0x080004A0, 0x080004B6, 0x080004C2, 0x080004A0, 0x080004B6, 0x080004C2, 0x080004D0, 0x0800016C,
    0xFFFFFFF9, 0x08000180, 0x08000194, 0x080001A8, 0x08000180, 0x08000194, 0x080001B0, 0x08000130,
]
ADDRESSES_PER_LINE = 8

# The filler brings the next part to lie across byte 1248, where the
# keystream passes from the booter to SFMT.
FIRST, FILLER, SECOND = 37, 1183, 50
UNCOVERED = [100, 1148, 95]


def trace_bytes(addresses: list[int]) -> bytes:
    return b"".join(address.to_bytes(4, "little") for address in addresses)


def addresses_of(trace: bytes) -> list[int]:
    return [int.from_bytes(trace[p : p + 4], "little") for p in range(0, len(trace), 4)]


def address_lines(addresses: list[int]) -> list[str]:
    words = [f"{address:08x}" for address in addresses]
    step = ADDRESSES_PER_LINE
    return [" ".join(words[p : p + step]) for p in range(0, len(words), step)]


def cover_parts(trace: bytes) -> tuple[bytes, list[str]]:
    """All covered bytes, filler too, and the lines that tell of it."""
    first, second, third = trace[:FIRST], trace[FIRST : FIRST + SECOND], trace[FIRST + SECOND :]
    covered = b""
    lines = []
    for part, is_filler in [(first, False), (bytes(FILLER), True), (second, False), (third, False)]:
        position = len(covered)
        shown = cover(KEY, IV, position, part)
        covered += shown
        if is_filler:
            lines.append(f"covered {len(part)} filler bytes at position {position}")
        else:
            lines.append(f"covered {len(part)} bytes at position {position}: {shown.hex()}")
    return covered, lines


def uncover_parts(covered: bytes) -> tuple[bytes, list[str]]:
    plain = b""
    lines = []
    for count in UNCOVERED:
        position = len(plain)
        plain += cover(KEY, IV, position, covered[position : position + count])
        lines.append(f"uncovered {count} bytes at position {position}")
    return plain, lines


def stdout() -> bytes:
    trace = trace_bytes(ADDRESSES)
    covered, cover_lines = cover_parts(trace)
    plain, uncover_lines = uncover_parts(covered)
    back = addresses_of(plain[:FIRST] + plain[FIRST + FILLER :])
    assert back == ADDRESSES
    lines = [
        f"trace: {len(ADDRESSES)} branch addresses, {len(trace)} bytes",
        f"key {KEY.hex()}",
        f"iv {IV.hex()}",
        "set up the wide cover",
        *cover_lines,
        "set up again",
        *uncover_lines,
        *address_lines(back),
        f"all {len(back)} addresses came back",
    ]
    return "".join(line + "\n" for line in lines).encode("ascii")


if __name__ == "__main__":
    sys.stdout.buffer.write(stdout())
