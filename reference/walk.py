"""The stored input of the program `walk_tool`, and its expected output.

    python3 reference/walk.py --input     writes the stored input
    python3 reference/walk.py < FILE      answers any input

A line is KIND KEY IV PLACES with one space between two fields, and ends at
byte 10 or at the end of the input. KIND is `booter`, `handover` (over the
booter) or `lanes` (over the hand-over over the booter), KEY and IV are
lower-case hex, PLACES are decimals with one comma between two. Each line is
answered by one line: the word at each place in turn, in hex with its low
byte first and a space between two words, or `no` and the number of the
refusal.

The program walks from place to place, forwards and backwards. Here the words
are computed from the front up to the last place needed, and picked.
"""

import itertools
import random
import sys
from collections.abc import Callable, Iterator
from dataclasses import dataclass

from cryptmt import Refused, booter_words, bytes_from_row, check_lengths, lane_words, mother_words
from lines import MALFORMED, MAX_LINE, answer_all, decimal_field, hex_field, split_fields

# Answering

# The first words of a generator, as bytes, for a key, an IV and a count.
FirstWords = Callable[[bytes, bytes, int], list[bytes]]


def booter_list(key: bytes, iv: bytes, count: int) -> list[bytes]:
    _, words = booter_words(key, iv, count)
    return [bytes_from_row(word) for word in words]


def handover_list(key: bytes, iv: bytes, count: int) -> list[bytes]:
    _, words = mother_words(key, iv, count)
    return [bytes_from_row(word) for word in words]


def lanes_list(key: bytes, iv: bytes, count: int) -> list[bytes]:
    _, words = lane_words(key, iv, count)
    return [word.to_bytes(4, "little") for word in words]


GENERATORS: dict[bytes, FirstWords] = {
    b"booter": booter_list,
    b"handover": handover_list,
    b"lanes": lanes_list,
}


@dataclass(frozen=True)
class Request:
    first_words: FirstWords
    key: bytes
    iv: bytes
    places: list[int]


def generator_field(field: bytes) -> FirstWords:
    if field not in GENERATORS:
        raise Refused(MALFORMED)
    return GENERATORS[field]


def places_field(field: bytes) -> list[int]:
    return [decimal_field(place) for place in field.split(b",")]


def parse(line: bytes) -> Request:
    kind, key, iv, places = split_fields(line, 4)
    return Request(generator_field(kind), hex_field(key), hex_field(iv), places_field(places))


def answer_line(line: bytes) -> str:
    r = parse(line)
    check_lengths(r.key, r.iv)
    words = r.first_words(r.key, r.iv, max(r.places) + 1)
    return " ".join(words[place].hex() for place in r.places)


def answer(data: bytes) -> bytes:
    return answer_all(data, answer_line)


# The stored input: walks

KINDS = ["booter", "handover", "lanes"]
ROW_KINDS = ["booter", "handover"]

KEY = bytes(range(16))
IV = bytes(reversed(range(16)))

SEAM = 156  # the first row that is not the booter's
LANE_SEAM = 4 * SEAM

# Rows of the key and of the IV. Every size stands on either side of each kind.
SIZES = {
    "booter": [(1, 1), (2, 5), (5, 16), (16, 2)],
    "handover": [(1, 16), (2, 1), (5, 2), (16, 5)],
    "lanes": [(1, 2), (2, 16), (5, 1), (16, 5)],
}


def line_of(kind: str, key: bytes, iv: bytes, places: list[int]) -> bytes:
    line = f"{kind} {key.hex()} {iv.hex()} {','.join(map(str, places))}".encode("ascii")
    assert len(line) <= MAX_LINE
    return line


def there_and_back(places: list[int]) -> list[int]:
    """The last place comes once."""
    return places + places[-2::-1]


def zigzag(middle: int, width: int) -> list[int]:
    """The middle, one below and one above it, two below and two above, and so on."""
    places = [middle]
    for distance in range(1, width + 1):
        places += [middle - distance, middle + distance]
    return places


# Begin and end of the list, the seam, the second turn of the 156 rows, far away.
EDGES = [0, 1, 155, 156, 157, 158, 311, 312, 5000]
LANE_EDGES = [*range(620, 633), *range(1244, 1253), 20000]


def seam_of(kind: str) -> int:
    return LANE_SEAM if kind == "lanes" else SEAM


def edges_of(kind: str) -> list[int]:
    return sorted(EDGES + LANE_EDGES) if kind == "lanes" else EDGES


def every_size(rng: random.Random) -> Iterator[bytes]:
    """All edges, up and down and up again."""
    for kind in KINDS:
        edges = edges_of(kind)
        for key_rows, iv_rows in SIZES[kind]:
            key, iv = rng.randbytes(16 * key_rows), rng.randbytes(16 * iv_rows)
            yield line_of(kind, key, iv, there_and_back(edges) + edges[1:])


def patterned() -> Iterator[bytes]:
    """Keys that show a wrong lane order, carry or first accumulator."""
    zeros, ones = bytes(16), b"\xff" * 16
    counting = bytes(range(256))
    for kind in KINDS:
        seam = seam_of(kind)
        for key, iv in [
            (KEY, IV),
            (zeros, zeros),
            (ones, ones),
            (zeros, ones),
            (ones + zeros, zeros),
            (counting, IV),
            (KEY, counting),
            (counting, counting),
        ]:
            yield line_of(kind, key, iv, [0, 1, 2, 3])
            yield line_of(kind, key, iv, [seam, seam - 1, seam + 1, 0, 2 * seam, 1, seam, 0])


def one_place(rng: random.Random) -> Iterator[bytes]:
    key, iv = rng.randbytes(16), rng.randbytes(16)
    for kind in KINDS:
        for place in edges_of(kind):
            yield line_of(kind, key, iv, [place])


def short_walks(rng: random.Random) -> Iterator[bytes]:
    """A place again, single steps to and fro, and turns on either side of the seam."""
    key, iv = rng.randbytes(32), rng.randbytes(16)
    for kind in KINDS:
        seam = seam_of(kind)
        below, above, second = seam - 1, seam + 1, 2 * seam
        for places in [
            [0, 0, 0],
            [5, 5, 4, 4, 5, 5, 0, 0],
            [below, below, seam, seam, below, below, above, above, seam, seam],
            [seam, 0, seam, 0, seam],
            [below, 0, below, 0, seam, 0],
            [above, 0, above, 1, above, 0],
            [seam, below] * 8,
            [above, below] * 8,
            [0, second, 0, second, seam, second, below, second, 1, second],
            list(range(20, -1, -1)) + list(range(1, 21)),
            there_and_back(list(range(seam - 8, seam + 9))),
            there_and_back(list(range(seam + 8, seam - 9, -1))),
            there_and_back(list(range(second - 6, second + 7))),
        ]:
            yield line_of(kind, key, iv, places)


def zigzags(rng: random.Random) -> Iterator[bytes]:
    """Over the seam and over the second turn, wider and wider, and narrower again."""
    key, iv = rng.randbytes(16), rng.randbytes(32)
    for kind in KINDS:
        seam = seam_of(kind)
        yield line_of(kind, key, iv, zigzag(seam, SEAM))
        yield line_of(kind, key, iv, list(reversed(zigzag(seam, 60))))
        yield line_of(kind, key, iv, zigzag(2 * seam, 40))
        yield line_of(kind, key, iv, [0] + zigzag(2 * seam + 1, 20) + zigzag(seam - 1, 20) + [0])


def inside_rows(rng: random.Random) -> Iterator[bytes]:
    """Turns of the lanes inside a row, and the four lanes of a row in all orders."""
    key, iv = rng.randbytes(16), rng.randbytes(16)
    for places in [
        [7, 6, 5, 4, 3, 2, 1, 0, 1, 2, 3, 4, 5],
        [5, 6, 5, 6, 4, 7, 4, 8, 3],
        [5, 5],
        [3, 4, 3, 4, 4, 3, 3],
        [1, 2, 1, 2, 0, 3, 0, 4, 0],
        [2, 6, 2, 6, 1, 5, 1, 5, 9, 5],
        [623, 624, 623, 624, 622, 625, 621, 626, 620, 627, 619, 628],
        [626, 625, 626, 624, 627, 623, 625, 622, 624, 621],
        [1249, 1250, 1249, 1250, 1248, 1251, 1247, 1252, 1246],
    ]:
        yield line_of("lanes", key, iv, places)
    # The first row, one before the seam, over it, after it, and over the second turn.
    for first in [0, 4, 616, 620, 622, 624, 628, 1246, 1248]:
        orders = itertools.permutations(range(first, first + 4))
        yield line_of("lanes", key, iv, [place for order in orders for place in order])


def random_walks(rng: random.Random) -> Iterator[bytes]:
    """Anywhere in the first words, and about the seam; a key and an IV for each."""
    for kind in KINDS:
        below = 2800 if kind == "lanes" else 700
        for rows in [1, 2, 5, 16]:
            key, iv = rng.randbytes(16 * rows), rng.randbytes(16 * rng.randrange(1, 17))
            count = rng.randrange(40, 61)
            yield line_of(kind, key, iv, [rng.randrange(below) for _ in range(count)])
        for reach in [3, 10, 50]:
            key, iv = rng.randbytes(16), rng.randbytes(16)
            seam, count = seam_of(kind), rng.randrange(40, 61)
            near = [seam + rng.randrange(-reach, reach + 1) for _ in range(count)]
            yield line_of(kind, key, iv, near)


def long_sweeps(rng: random.Random) -> Iterator[bytes]:
    key, iv = rng.randbytes(32), rng.randbytes(80)
    for kind in ROW_KINDS:
        places = [5000, 0, 5000] + zigzag(156, 6) + [4999, 1, 5000, 155, 0, 5000]
        yield line_of(kind, key, iv, places)
    places = [20000, 0, 20000] + zigzag(624, 12) + [19999, 1, 20003, 623, 5000, 0, 20001]
    yield line_of("lanes", key, iv, places)


def leading_zeros() -> Iterator[bytes]:
    """Up to ten digits are read."""
    for kind in KINDS:
        start = line_of(kind, KEY, IV, [0])[:-1]
        yield start + b"0000000005"
        yield start + b"00,01,0000000156,0155,000000000,10"


# The stored input: refusals


def lengths(rng: random.Random) -> Iterator[bytes]:
    """Lawful and unlawful lengths, and which refusal comes first."""
    for kind in KINDS:
        for key_length, iv_length in [
            (0, 16),
            (1, 16),
            (15, 16),
            (17, 16),
            (24, 16),
            (255, 16),
            (257, 16),
            (272, 16),
            (16, 0),
            (16, 1),
            (16, 15),
            (16, 17),
            (16, 24),
            (16, 255),
            (16, 257),
            (16, 272),
            (0, 0),
            (15, 17),
            (257, 257),
            (256, 257),
            (257, 256),
            (256, 256),
            (240, 256),
        ]:
            yield line_of(kind, rng.randbytes(key_length), rng.randbytes(iv_length), [0, 157, 3])
        # Nothing is walked before the lengths are judged.
        yield line_of(kind, KEY[1:], IV, [9999999999, 0])
        yield line_of(kind, KEY, IV[1:], [0, 9999999999])


def malformed_kinds() -> Iterator[bytes]:
    good = line_of("KIND", KEY, IV, [0, 1])
    for kind in [
        b"",
        b"b",
        b"Booter",
        b"BOOTER",
        b"boote",
        b"booterr",
        b"ooter",
        b"booter\x00",
        b"Handover",
        b"handove",
        b"handoverr",
        b"hand-over",
        b"hand over",
        b"hand",
        b"Lanes",
        b"lane",
        b"laness",
        b"anes",
        b"lanes\x00",
        b"l",
        b"booterlanes",
        b"booter,lanes",
        b"wide",
        b"narrow",
        b"odd",
        b"KIND",
    ]:
        yield good.replace(b"KIND", kind)


def malformed_places() -> Iterator[bytes]:
    start = line_of("handover", KEY, IV, [0])[:-1]
    for places in [
        b"",
        b",",
        b",,",
        b",0",
        b"0,",
        b"0,,1",
        b",0,1,",
        b"0, 1",
        b"0 ,1",
        b"0 1",
        b"0;1",
        b"0.1",
        b"0-1",
        b"00000000000",
        b"00000000005",
        b"10000000000",
        b"17179869184",
        b"0,00000000001",
        b"00000000001,0",
        b"+0",
        b"-0",
        b"-1",
        b"1,-1",
        b"1,+1",
        b"0x1",
        b"1,a",
        b"a,1",
        b"1_0",
        b"1e2",
        b"1,2,3,4,5,6,7,8,9,x",
        b"0,1\r",
        b"0\r,1",
        b"0,1\x00",
        b"0\x00,1",
        b"0\t1",
        b"0,\t1",
        b"0,1\t",
        b"0,1\x0b",
        b"0,/",
        b"0,:",
        b"0,\xb2",
        b"0\xac1",
        b"\xd9\xa0",
        b"0,1\x80",
        b"0,1\xff",
    ]:
        yield start + places


def malformed_lines() -> Iterator[bytes]:
    key, iv = KEY.hex().encode("ascii"), IV.hex().encode("ascii")
    good = b"booter " + key + b" " + iv + b" 0,1"
    # The hex digits
    for bad in [key.upper(), key[:-1], key + b"0", b"g" + key[1:], key[:-1] + b"F", b"0x" + key]:
        yield good.replace(key, bad)
    for bad in [iv.upper(), iv[:-1], iv + b"0", iv[:-1] + b"g", b"/" + iv[1:], b":" + iv[1:]]:
        yield good.replace(iv, bad)
    for bad in [b"0F" + iv[2:], b"`" + iv[1:], iv[:-1] + b"@"]:
        yield good.replace(iv, bad)
    yield good.replace(key, key[:-1]).replace(iv, iv[:-1])
    # The fields
    for kind in KINDS:
        yield kind.encode("ascii")
    yield b"booter " + key
    yield b"booter " + key + b" " + iv
    yield b"booter " + key + b" 0,1"
    yield key + b" " + iv + b" 0,1"
    yield key + b" booter " + iv + b" 0,1"
    yield good + b" 2"
    yield good + b" booter"
    # The spaces
    yield b" "
    yield b"   "
    yield b"booter   "
    yield b"booter    "
    yield b" " + good
    yield good + b" "
    yield good.replace(b" ", b"  ", 1)
    yield good.replace(b" 0,1", b"  0,1")
    yield good.replace(b" 0,1", b" ")
    yield good.replace(b" ", b"\t")
    yield good.replace(b" ", b"\t", 1)
    yield good.replace(b" 0,1", b"\t0,1")
    yield good.replace(b" ", b",")
    # Bytes that are not printed signs
    yield good + b"\r"
    yield b"\r"
    yield b"\x00"
    yield b"\x00" + good
    yield good.replace(key, key[:8] + b"\x00" + key[9:])
    yield good.replace(key, key[:8] + b"\x80" + key[9:])
    yield good.replace(iv, iv[:8] + b"\xff" + iv[9:])
    yield good.replace(b" ", b"\xa0", 1)
    yield b"\xef\xbb\xbf" + good
    # Nothing, twice
    yield b""
    yield b""
    # Malformed comes before a wrong length.
    yield line_of("booter", KEY[1:], IV[1:], [0]) + b","
    yield line_of("lanes", KEY[1:], IV, [0]) + b" "
    yield line_of("Lanes", KEY, IV[1:], [0])
    # What may be taken for malformed, but is an empty key or IV
    yield b"booter   0"
    yield b"handover  " + iv + b" 0,1"
    yield b"lanes " + key + b"  0,1"
    # After all these a good one
    yield good


def longest_lines() -> list[bytes]:
    """Four lines of 4096 bytes: many ways over the seam, the longest answer that
    there is, a key far too long and such an IV."""
    over_the_seam = itertools.islice(itertools.cycle([640, 600, 630, 610]), 1005)
    digits = itertools.islice(itertools.cycle(range(10)), 2012)
    lines = [
        line_of("lanes", KEY, IV, [*over_the_seam, 1248]),
        line_of("booter", KEY, IV, list(digits)),
        line_of("handover", KEY + bytes(2009), IV, [0, 0]),
        line_of("handover", KEY, IV + bytes(2009), [0, 0]),
    ]
    assert all(len(line) == MAX_LINE for line in lines)
    return lines


def long_lines() -> Iterator[bytes]:
    """At 4096 bytes a line is still read; with one more it is malformed."""
    for line in longest_lines():
        yield line
        yield line + b"0"
        yield line + b","
    # What lies beyond byte 4096 is no line of its own.
    good = line_of("handover", KEY, IV, [157, 0])
    yield b"0" * MAX_LINE + good
    yield good + b" " * (MAX_LINE - len(good)) + b"\r"
    yield good + b",0" * (2 * MAX_LINE)
    yield good


# The whole


def last_line() -> bytes:
    """It has no byte 10 at its end."""
    return line_of("lanes", KEY, IV, [625, 0, 624, 3])


def stdin() -> bytes:
    rng = random.Random(216091)
    lines = [
        *every_size(rng),
        *patterned(),
        *one_place(rng),
        *short_walks(rng),
        *zigzags(rng),
        *inside_rows(rng),
        *random_walks(rng),
        *long_sweeps(rng),
        *leading_zeros(),
        *lengths(rng),
        *malformed_kinds(),
        *malformed_places(),
        *malformed_lines(),
        *long_lines(),
        last_line(),
    ]
    return b"\n".join(lines)


def main() -> None:
    if sys.argv[1:] == ["--input"]:
        sys.stdout.buffer.write(stdin())
    else:
        sys.stdout.buffer.write(answer(sys.stdin.buffer.read()))


if __name__ == "__main__":
    main()
