"""The stored input of the program `keystream_tool`, and its expected output.

    python3 reference/tool.py --input     writes the stored input
    python3 reference/tool.py < FILE      answers any input

A line is KIND KEY IV FROM COUNT with one space between two fields, and
ends at byte 10 or at the end of the input. KIND is `wide`, KEY and IV are
lower-case hex, FROM and COUNT are decimal. Each line is answered by one
line: the keystream bytes in hex, or `no` and the number of the refusal.
"""

import random
import re
import sys
from collections.abc import Iterator
from dataclasses import dataclass

from cryptmt import POSITION_LIMIT, Kind, Refused, keystream

MALFORMED = 16
MAX_LINE = 4096
MAX_COUNT = 4096

HEX = re.compile(rb"(?:[0-9a-f]{2})*")
DECIMAL = re.compile(rb"[0-9]{1,10}")


# Answering


@dataclass(frozen=True)
class Request:
    key: bytes
    iv: bytes
    start: int
    count: int


def split_lines(data: bytes) -> list[bytes]:
    lines = data.split(b"\n")
    if lines[-1] == b"":  # nothing after the last byte 10, or no input
        lines.pop()
    return lines


def hex_field(field: bytes) -> bytes:
    if not HEX.fullmatch(field):
        raise Refused(MALFORMED)
    return bytes.fromhex(field.decode("ascii"))


def decimal_field(field: bytes) -> int:
    if not DECIMAL.fullmatch(field):
        raise Refused(MALFORMED)
    return int(field)


def parse(line: bytes) -> Request:
    fields = line.split(b" ")
    if len(line) > MAX_LINE or len(fields) != 5:
        raise Refused(MALFORMED)
    kind, key, iv, start, count = fields
    request = Request(hex_field(key), hex_field(iv), decimal_field(start), decimal_field(count))
    if kind != b"wide" or request.count > MAX_COUNT:
        raise Refused(MALFORMED)
    return request


def answer_line(line: bytes) -> str:
    try:
        r = parse(line)
        return keystream(Kind.WIDE, r.key, r.iv, r.start, r.count).hex()
    except Refused as refused:
        return f"no {refused.number}"


def answer(data: bytes) -> bytes:
    lines = [answer_line(line) for line in split_lines(data)]
    return "".join(line + "\n" for line in lines).encode("ascii")


# The stored input

ROW_COUNTS = [1, 2, 5, 16]
# The first words, the hand-over to SFMT, and the end of its first 156 words.
PLACES = [(0, 40), (1240, 21), (2490, 21)]

KEY = bytes(range(16))
IV = bytes(reversed(range(16)))


def line_of(key: bytes, iv: bytes, start: object, count: object) -> bytes:
    return f"wide {key.hex()} {iv.hex()} {start} {count}".encode("ascii")


def every_size(rng: random.Random) -> Iterator[bytes]:
    """All pairs of sizes; the key and the IV of a pair serve all places."""
    for key_rows in ROW_COUNTS:
        for iv_rows in ROW_COUNTS:
            key, iv = rng.randbytes(16 * key_rows), rng.randbytes(16 * iv_rows)
            for start, count in PLACES:
                yield line_of(key, iv, start, count)


def patterned() -> Iterator[bytes]:
    """Keys that show a wrong lane order, carry or first accumulator."""
    zeros, ones = bytes(16), b"\xff" * 16
    counting = bytes(range(256))
    one_bit = bytes(15) + b"\x80"
    even_lanes = bytes.fromhex("fefffffffeffffff00000000feffffff")
    two_unlike_rows = zeros + ones
    for key, iv in [
        (KEY, IV),
        (IV, KEY),
        (zeros, zeros),
        (ones, ones),
        (zeros, ones),
        (one_bit, zeros),
        (zeros, one_bit),
        (even_lanes, zeros),
        (two_unlike_rows, zeros),
        (counting, IV),
        (KEY, counting),
        (counting, counting),
    ]:
        yield line_of(key, iv, 0, 40)
        yield line_of(key, iv, 1244, 12)


def ranges(rng: random.Random) -> Iterator[bytes]:
    """Edges of blocks and far places, for one key and IV."""
    key, iv = rng.randbytes(32), rng.randbytes(16)
    for start, count in [
        (0, 1),
        (15, 1),
        (15, 2),
        (16, 16),
        (31, 34),
        (1247, 1),
        (1248, 1),
        (1249, 2),
        (1250, 16),
        (1232, 64),
        (2495, 3),
        (3740, 20),
        (4095, 2),
        (65530, 20),
        (65536, 16),
        (70000, 33),
        (0, 0),
        (1248, 0),
        (70001, 0),
        ("0000000012", "0000000009"),
        ("00", "00"),
        (1300, "0000004096"),
    ]:
        yield line_of(key, iv, start, count)


def past_limit() -> Iterator[bytes]:
    limit = POSITION_LIMIT
    for start, count in [
        (limit, 1),
        (limit - 6, 7),
        (limit - 1, 2),
        (limit - 4095, 4096),
        (limit + 1, 0),
        (limit, 4096),
        (2 * limit, 1),
        (9999999999, 0),
        (9999999999, 4096),
    ]:
        yield line_of(KEY, IV, start, count)


def lengths(rng: random.Random) -> Iterator[bytes]:
    """Lawful and unlawful lengths, and which refusal comes first."""
    limit = POSITION_LIMIT
    for length in [0, 1, 15, 17, 24, 240, 255, 256, 257, 272]:
        data = rng.randbytes(length)
        yield line_of(data, IV, 0, 5)
        yield line_of(KEY, data, 0, 5)
    for key_length, iv_length, start in [
        (0, 0, 0),
        (15, 17, 0),
        (257, 257, 0),
        (256, 257, 0),
        (257, 256, 0),
        (17, 16, limit),
        (16, 17, limit),
        (17, 17, limit),
    ]:
        yield line_of(rng.randbytes(key_length), rng.randbytes(iv_length), start, 1)


def malformed() -> Iterator[bytes]:
    key, iv = KEY.hex().encode("ascii"), IV.hex().encode("ascii")
    good = b"wide " + key + b" " + iv + b" 0 8"
    # The kind
    for kind in [b"", b"other", b"Wide", b"wid", b"widee", b"w"]:
        yield good.replace(b"wide", kind)
    # The hex digits
    for bad in [key.upper(), key[:-1], key + b"0", b"g" + key[1:], key[:-1] + b"G", b"0x" + key]:
        yield good.replace(key, bad)
    for bad in [iv.upper(), iv[:-1], iv + b"0", iv[:-1] + b"g", b"/" + iv[1:], b":" + iv[1:]]:
        yield good.replace(iv, bad)
    yield b"wide " + key[:-1] + b" " + iv[:-1] + b" 4294967296 1"
    # The fields
    yield b"wide"
    yield b"wide " + key
    yield b"wide " + key + b" " + iv
    yield b"wide " + key + b" " + iv + b" 0"
    yield b"wide " + key + b" 0 8"
    yield b"wide   0"
    yield good + b" 0"
    yield good + b" wide"
    # The spaces
    yield b" " + good
    yield good + b" "
    yield good.replace(b" ", b"  ", 1)
    yield good.replace(b" 0 8", b" 0  8")
    yield good.replace(b" 0 8", b"  8")
    yield good.replace(b" 0 8", b" 0 ")
    yield good.replace(b" 0 8", b"  0 8")
    yield good.replace(b" ", b"\t")
    yield good.replace(b" 0 8", b" 0\t8")
    # The decimals
    for bad in [b"+0 8", b"-0 8", b"0x0 8", b"a 8", b"0 a", b"0 -1", b"0.0 8", b"0 8,", b"1_0 8"]:
        yield good.replace(b"0 8", bad)
    for bad in [b"0 4097", b"0 4294967297", b"0 9999999999", b"00000000000 8", b"0 00000000008"]:
        yield good[:-3] + bad
    for bad in [b"10000000000 8", b"42949672960 8", b"4294967296 4097"]:
        yield good[:-3] + bad
    # Bytes that are not printed signs
    yield good + b"\r"
    yield b"\r"
    yield good + b"\x00"
    yield b"\x00"
    yield b"\x00" + good
    yield good.replace(key, key[:8] + b"\x00" + key[9:])
    yield good.replace(key, key[:8] + b"\x80" + key[9:])
    yield good.replace(iv, iv[:8] + b"\xff" + iv[9:])
    yield good.replace(b" ", b"\xa0", 1)
    yield good[:-1] + b"\xb2"
    yield good.replace(b"0 8", b"\xd9\xa0 8")
    yield b"\xef\xbb\xbf" + good
    # Nothing, twice
    yield b""
    yield b""
    # What may be taken for malformed, but is an empty key or IV
    yield b"wide   0 8"
    yield b"wide  " + iv + b" 0 8"
    yield b"wide " + key + b"  0 8"


def longest_lines() -> list[bytes]:
    """Two lines of 4096 bytes: one with a key far too long, one with such an IV."""
    lines = [
        line_of(KEY + bytes(2011), IV, 0, 8),
        line_of(KEY, IV + bytes(2011), 0, 8),
    ]
    assert all(len(line) == MAX_LINE for line in lines)
    return lines


def long_lines() -> Iterator[bytes]:
    """At 4096 bytes a line is still read; with one more it is malformed."""
    for line in longest_lines():
        yield line
        yield line.replace(b" 0 8", b" 00 8")
        yield line.replace(b" 0 8", b" 0 08")
    # What lies beyond byte 4096 is no line of its own.
    good = line_of(KEY, IV, 0, 8)
    yield b"0" * MAX_LINE + good
    yield good + b" " * (MAX_LINE - len(good)) + b"\r"
    yield good + b"0" * (2 * MAX_LINE)
    yield good


def last_line() -> bytes:
    """It has no byte 10 at its end."""
    return line_of(KEY, IV, 1234, 28)


def stdin() -> bytes:
    rng = random.Random(19937)
    lines = [
        *every_size(rng),
        *patterned(),
        *ranges(rng),
        *past_limit(),
        *lengths(rng),
        *malformed(),
        *long_lines(),
        last_line(),
    ]
    return b"\n".join(lines)


def main() -> None:
    if sys.argv[1:] == ["--input"]:
        sys.stdout.buffer.write(stdin())
    else:
        sys.stdout.buffer.write(answer(sys.stdin.buffer.read()))


if __name__ == "__main__":
    main()
