"""CryptMT Version 3, computed the plain way.

Every sequence is made from its front, kept whole and indexed by the
subscripts of the cipher's definition. Nothing here is meant to be fast:
it is what the fast programs are compared with.

A row is a tuple of four 32-bit lanes and row[c] is lane [c], so a row
written (a, b, c, d), lane [3] first, is made by row(a, b, c, d).
"""

from collections.abc import Callable
from dataclasses import dataclass
from enum import Enum

Row = tuple[int, int, int, int]

LANE_MASK = 0xFFFFFFFF
ROW_LANES = 4
ROW_BYTES = 16
MAX_ROWS = 16  # of a key, and of an IV
POSITION_LIMIT = 2**32

BAD_KEY_LENGTH = 2
BAD_IV_LENGTH = 6
PAST_LIMIT = 13


class Refused(Exception):
    """A refused request; `number` says why."""

    def __init__(self, number: int) -> None:
        super().__init__(f"refused by {number}")
        self.number = number


# Rows


def row(lane3: int, lane2: int, lane1: int, lane0: int) -> Row:
    return (lane0, lane1, lane2, lane3)


def rows_from_bytes(data: bytes) -> list[Row]:
    """Sixteen bytes to a row: lane [0] first, low byte of a lane first."""
    lanes = [int.from_bytes(data[p : p + 4], "little") for p in range(0, len(data), 4)]
    return [tuple(lanes[p : p + 4]) for p in range(0, len(lanes), 4)]


def bytes_from_row(x: Row) -> bytes:
    return b"".join(lane.to_bytes(4, "little") for lane in x)


def permute(x: Row, a: int, b: int, c: int, d: int) -> Row:
    """x[a][b][c][d]."""
    return row(x[a], x[b], x[c], x[d])


def add(x: Row, y: Row) -> Row:
    return tuple((p + q) & LANE_MASK for p, q in zip(x, y))


def subtract(x: Row, y: Row) -> Row:
    return tuple((p - q) & LANE_MASK for p, q in zip(x, y))


def xor(x: Row, y: Row) -> Row:
    return tuple(p ^ q for p, q in zip(x, y))


def bit_and(x: Row, y: Row) -> Row:
    return tuple(p & q for p, q in zip(x, y))


def bit_or(x: Row, y: Row) -> Row:
    return tuple(p | q for p, q in zip(x, y))


def shift_right_32(x: Row, bits: int) -> Row:
    """Each lane by itself."""
    return tuple(lane >> bits for lane in x)


def shift_left_32(x: Row, bits: int) -> Row:
    """Each lane by itself; the bits pushed out are lost."""
    return tuple((lane << bits) & LANE_MASK for lane in x)


def shift_right_64(x: Row, bits: int) -> Row:
    """The pairs [3][2] and [1][0], each as one 64-bit number."""
    high = (x[3] << 32 | x[2]) >> bits
    low = (x[1] << 32 | x[0]) >> bits
    return row(high >> 32, high & LANE_MASK, low >> 32, low & LANE_MASK)


def odd_product(x: int, y: int) -> int:
    """The product of the odd numbers 2x+1 and 2y+1, again without its lowest bit."""
    return (2 * x * y + x + y) & LANE_MASK


def odd_product_rows(x: Row, y: Row) -> Row:
    return tuple(odd_product(p, q) for p, q in zip(x, y))


def perm_shift_1(x: Row) -> Row:
    return xor(permute(x, 2, 1, 0, 3), shift_right_32(x, 13))


def perm_shift_2(x: Row) -> Row:
    return xor(permute(x, 1, 0, 2, 3), shift_right_32(x, 11))


def perm_shift_3(x: Row) -> Row:
    return xor(x, shift_right_32(permute(x, 0, 3, 2, 1), 1))


# The booter

SYMMETRY_BREAKER = row(846264, 979323, 265358, 314159)
LOWEST_BITS = row(1, 1, 1, 1)


@dataclass(frozen=True)
class Booter:
    """The sequences of a booter after some steps.

    x[j] is x_j and o[j] is o_j. The accumulator that step j multiplies is
    a[j], so a[0] is the first accumulator and step j leaves a[j + 1].
    """

    size: int  # H, the rows of the register
    x: list[Row]
    a: list[Row]
    o: list[Row]


def booter_size(key: bytes, iv: bytes) -> int:
    return 2 * (len(key) + len(iv)) // ROW_BYTES


def register(key: bytes, iv: bytes) -> list[Row]:
    """x_0 to x_(H-1): IV, key, IV, key, a constant added to the last row."""
    x = rows_from_bytes(iv + key + iv + key)
    x[-1] = add(x[-1], SYMMETRY_BREAKER)
    return x


def first_accumulator(key: bytes) -> Row:
    """From the key as given: a key of one row differs in its second copy."""
    return bit_or(rows_from_bytes(key)[0], LOWEST_BITS)


def booter(key: bytes, iv: bytes, steps: int) -> Booter:
    h = booter_size(key, iv)
    x = register(key, iv)
    a = [first_accumulator(key)]
    o = []
    for j in range(steps):
        a.append(odd_product_rows(a[j], perm_shift_2(x[h + j - 1])))
        o.append(add(x[j], x[h + j - 2]))
        x.append(subtract(perm_shift_1(o[j]), a[j + 1]))
    return Booter(h, x, a, o)


def booter_words(key: bytes, iv: bytes, count: int) -> tuple[Row, list[Row]]:
    """The start word x_(2H+1), and w_0 up to w_(count-1).

    The first H + 2 steps are idle: their outputs are not words.
    """
    idle = booter_size(key, iv) + 2
    b = booter(key, iv, idle + count)
    return b.x[2 * b.size + 1], b.o[idle:]


# The hand-over to SFMT

SFMT_SIZE = 156
SFMT_MIDDLE = 108
SFMT_SHIFT = 3
SFMT_MASK = row(0xFFDFAFDF, 0xF5DABFFF, 0xFFDBFFFF, 0xEF7BFFFF)
PERIOD_LANE = 0x4D734E48  # in lane [3] of x_0 it secures the long period


def sfmt(seed: list[Row], count: int) -> list[Row]:
    """x_0 up to x_(count-1), where the seed is x_0 to x_155."""
    x = list(seed)
    for j in range(count - SFMT_SIZE):
        last = x[SFMT_SIZE + j - 1]
        middle = x[SFMT_MIDDLE + j]
        new = bit_and(last, SFMT_MASK)
        new = xor(new, shift_right_64(middle, SFMT_SHIFT))
        new = xor(new, permute(middle, 2, 0, 3, 1))
        new = xor(new, permute(x[j], 0, 3, 2, 1))
        x.append(new)
    return x


def sfmt_seed(words: list[Row]) -> list[Row]:
    """The first words, with the constant in lane [3] of the first."""
    w = words[0]
    return [row(PERIOD_LANE, w[2], w[1], w[0])] + words[1:SFMT_SIZE]


def hand_over(below: list[Row], count: int) -> list[Row]:
    """w_0 up to w_(count-1) over the first words of the generator below.

    The first 156 are passed on unaltered. Then come the rows of SFMT, but
    for x_156, which is skipped: w_(156+i) is x_(157+i).
    """
    if count <= SFMT_SIZE:
        return below[:count]
    x = sfmt(sfmt_seed(below), count + 1)
    return below[:SFMT_SIZE] + x[SFMT_SIZE + 1 :]


def mother_words(key: bytes, iv: bytes, count: int) -> tuple[Row, list[Row]]:
    """Start word and words of the hand-over over the booter."""
    start, below = booter_words(key, iv, SFMT_SIZE)
    return start, hand_over(below, count)


# The lanes


def lanes(rows: list[Row]) -> list[int]:
    """The rows as 32-bit words: w_(4i+c) is lane [c] of row w_i."""
    return [rows[m // ROW_LANES][m % ROW_LANES] for m in range(ROW_LANES * len(rows))]


def lane_words(key: bytes, iv: bytes, count: int) -> tuple[int, list[int]]:
    """Start word and words of the lanes over the hand-over over the booter.

    The start word is lane [0] of the start row.
    """
    start, rows = mother_words(key, iv, -(-count // ROW_LANES))  # rounded up
    return start[0], lanes(rows)[:count]


# The wide filter

LOWER16 = row(0x0000FFFF, 0x0000FFFF, 0x0000FFFF, 0x0000FFFF)
UPPER16 = row(0xFFFF0000, 0xFFFF0000, 0xFFFF0000, 0xFFFF0000)


def wide_memories(start: Row, words: list[Row]) -> list[Row]:
    """y_0 and the memory after each word; y_0 is the start word."""
    y = [start]
    for m, word in enumerate(words):
        y.append(odd_product_rows(perm_shift_3(y[m]), word))
    return y


def wide_block(first: Row, second: Row) -> bytes:
    """z_i, from y_(2i) and y_(2i+1)."""
    lower = bit_and(xor(first, shift_right_32(first, 16)), LOWER16)
    upper = bit_and(xor(second, shift_left_32(second, 16)), UPPER16)
    return bytes_from_row(bit_or(lower, upper))


def wide_blocks(key: bytes, iv: bytes, count: int) -> list[bytes]:
    """z_0 up to z_(count-1)."""
    start, words = mother_words(key, iv, max(0, 2 * count - 1))
    y = wide_memories(start, words)
    return [wide_block(y[2 * i], y[2 * i + 1]) for i in range(count)]


# The two narrow filters

Step = Callable[[int, int], int]


def narrow_step(y: int, x: int) -> int:
    """The product of the memory and the word, which is made odd."""
    return (y * (x | 1)) & LANE_MASK


def narrow_odd_step(y: int, x: int) -> int:
    """The odd product of the memory and the word as it is."""
    return odd_product(y, x)


def narrow_first(start: int) -> int:
    """y_0, the start word with its lowest bit set; both filters begin so."""
    return start | 1


def narrow_memories(step: Step, start: int, words: list[int]) -> list[int]:
    """y_0 and the memory after each word."""
    y = [narrow_first(start)]
    for m, word in enumerate(words):
        y.append(step(y[m], word))
    return y


def narrow_block(first: int, second: int) -> bytes:
    """The top 8 bits of y_(2i), and of y_(2i+1)."""
    return bytes([first >> 24, second >> 24])


def narrow_blocks(step: Step, key: bytes, iv: bytes, count: int) -> list[bytes]:
    """The first blocks, up to block count - 1."""
    start, words = lane_words(key, iv, max(0, 2 * count - 1))
    y = narrow_memories(step, start, words)
    return [narrow_block(y[2 * i], y[2 * i + 1]) for i in range(count)]


# The keystream


class Kind(Enum):
    """The filter that makes a keystream."""

    WIDE = "wide"
    NARROW = "narrow"
    ODD = "odd"


BLOCK_BYTES = {Kind.WIDE: 16, Kind.NARROW: 2, Kind.ODD: 2}


def blocks(kind: Kind, key: bytes, iv: bytes, count: int) -> list[bytes]:
    match kind:
        case Kind.WIDE:
            return wide_blocks(key, iv, count)
        case Kind.NARROW:
            return narrow_blocks(narrow_step, key, iv, count)
        case Kind.ODD:
            return narrow_blocks(narrow_odd_step, key, iv, count)


def lawful_length(length: int) -> bool:
    return length % ROW_BYTES == 0 and ROW_BYTES <= length <= MAX_ROWS * ROW_BYTES


def check_lengths(key: bytes, iv: bytes) -> None:
    """The first reason that holds is the one given."""
    if not lawful_length(len(key)):
        raise Refused(BAD_KEY_LENGTH)
    if not lawful_length(len(iv)):
        raise Refused(BAD_IV_LENGTH)


def check(key: bytes, iv: bytes, start: int, count: int) -> None:
    """The lengths first, then the range."""
    check_lengths(key, iv)
    if start + count > POSITION_LIMIT:
        raise Refused(PAST_LIMIT)


def keystream(kind: Kind, key: bytes, iv: bytes, start: int, count: int) -> bytes:
    """The keystream bytes at positions start to start + count - 1."""
    check(key, iv, start, count)
    if count == 0:
        return b""
    end = start + count
    needed = -(-end // BLOCK_BYTES[kind])  # rounded up
    return b"".join(blocks(kind, key, iv, needed))[start:end]


def cover(key: bytes, iv: bytes, start: int, data: bytes) -> bytes:
    """The data XOR the wide keystream from the given position; its own inverse."""
    stream = keystream(Kind.WIDE, key, iv, start, len(data))
    return bytes(p ^ q for p, q in zip(data, stream))
