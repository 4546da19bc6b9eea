"""Checks the reference against values known by hand: python3 reference/values.py"""

import random
import sys

from cryptmt import (
    POSITION_LIMIT,
    Kind,
    Refused,
    Row,
    booter,
    booter_words,
    bytes_from_row,
    hand_over,
    keystream,
    lane_words,
    lanes,
    mother_words,
    narrow_block,
    narrow_first,
    narrow_odd_step,
    narrow_step,
    odd_product,
    perm_shift_1,
    perm_shift_2,
    perm_shift_3,
    row,
    rows_from_bytes,
    sfmt,
    wide_block,
)

ZERO = bytes(16)


def recursion_row() -> Row:
    """x_156 where all rows before it are zero but x_108."""
    seed = [row(0, 0, 0, 0)] * 156
    seed[108] = row(0, 0, 0, 8)
    return sfmt(seed, 157)[156]


def refusal(
    key_length: int, iv_length: int, start: int, count: int, kind: Kind = Kind.WIDE
) -> int:
    """The number of the refusal, or 0."""
    try:
        keystream(kind, bytes(key_length), bytes(iv_length), start, count)
    except Refused as refused:
        return refused.number
    return 0


def known_values() -> list[tuple[str, object, object]]:
    """What it is, what the reference computes, what it must be."""
    step = booter(ZERO, ZERO, 1)
    memory = row(0, 0, 0, 0x00010203)
    return [
        ("1 (x) 1", odd_product(1, 1), 4),
        ("2 (x) 3", odd_product(2, 3), 17),
        ("ffffffff (x) ffffffff", odd_product(0xFFFFFFFF, 0xFFFFFFFF), 0),
        ("1 (x) 55555555", odd_product(1, 0x55555555), 0),
        ("perm-shift 1", perm_shift_1(row(0, 0, 0, 1)), row(0, 0, 1, 0)),
        ("perm-shift 2", perm_shift_2(row(0, 0, 0, 1)), row(0, 1, 0, 0)),
        ("perm-shift 3", perm_shift_3(row(0, 0, 0, 2)), row(1, 0, 0, 2)),
        (
            "accumulator after step 0 of zero key and IV",
            step.a[1],
            row(796474, 942292, 2938351, 2538340),
        ),
        (
            "row fed back in step 0 of zero key and IV",
            step.x[4],
            row(4294170822, 4294025004, 4292028945, 4292428956),
        ),
        ("output of step 0 of zero key and IV", step.o[0], row(0, 0, 0, 0)),
        ("recursion from x_108 alone", recursion_row(), row(0, 8, 0, 1)),
        (
            "wide block of two equal memories",
            wide_block(memory, memory),
            bytes.fromhex("02020202") + bytes(12),
        ),
        (
            "lanes of two rows",
            lanes([row(40, 30, 20, 10), row(80, 70, 60, 50)]),
            [10, 20, 30, 40, 50, 60, 70, 80],
        ),
        ("narrow step from 3 with 4", narrow_step(3, 4), 15),
        ("narrow step from 3 with 5", narrow_step(3, 5), 15),
        ("narrow step from ffffffff with 2", narrow_step(0xFFFFFFFF, 2), 0xFFFFFFFD),
        ("narrow odd step from 2 with 3", narrow_odd_step(2, 3), 17),
        ("narrow odd step from 3 with 4", narrow_odd_step(3, 4), 31),
        ("first memory from an even start word", narrow_first(0x80000000), 0x80000001),
        ("first memory from an odd start word", narrow_first(5), 5),
        (
            "narrow block: the top byte of each memory",
            narrow_block(0x80000000, 0x01FFFFFF),
            bytes.fromhex("8001"),
        ),
    ]


def refusals() -> list[tuple[str, object, object]]:
    limit = POSITION_LIMIT
    return [
        ("key of 0 bytes", refusal(0, 16, 0, 1), 2),
        ("key of 15 bytes", refusal(15, 16, 0, 1), 2),
        ("key of 272 bytes", refusal(272, 16, 0, 1), 2),
        ("IV of 17 bytes", refusal(16, 17, 0, 1), 6),
        ("IV of 272 bytes", refusal(256, 272, 0, 1), 6),
        ("key of 256 and IV of 256 bytes", refusal(256, 256, 0, 1), 0),
        ("everything wrong", refusal(0, 0, limit, 1), 2),
        ("IV and range wrong", refusal(16, 0, limit, 1), 6),
        ("range one too long", refusal(16, 16, limit - 6, 7), 13),
        ("range that ends at the limit", refusal(16, 16, limit, 0), 0),
        ("narrow, everything wrong", refusal(0, 0, limit, 1, Kind.NARROW), 2),
        ("narrow, IV and range wrong", refusal(16, 0, limit, 1, Kind.NARROW), 6),
        ("narrow, range one too long", refusal(16, 16, limit - 6, 7, Kind.NARROW), 13),
        ("narrow odd, key of 15 bytes", refusal(15, 16, 0, 1, Kind.ODD), 2),
        ("narrow odd, range one too long", refusal(16, 16, limit - 6, 7, Kind.ODD), 13),
    ]


def lane_bytes(first: Row, second: Row) -> bytes:
    """A wide block said another way: two bytes of a folded lane of each memory."""
    out = bytearray()
    for c in range(4):
        for memory in (first, second):
            folded = (memory[c] & 0xFFFF) ^ (memory[c] >> 16)
            out += bytes([folded & 0xFF, folded >> 8])
    return bytes(out)


def narrow_undone(z: int, x: int) -> int:
    """The memory before a narrow step with the word x."""
    return z * pow(x | 1, -1, 2**32) % 2**32


def narrow_odd_undone(z: int, x: int) -> int:
    """The same for the narrow odd step, by odd numbers of 33 bits."""
    return ((2 * z + 1) * pow(2 * x + 1, -1, 2**33) % 2**33 - 1) // 2


def narrow_at_once(key: bytes, iv: bytes, position: int) -> int:
    """A narrow byte said another way: one long product."""
    start, rows = mother_words(key, iv, position // 4 + 1)
    product = start[0] | 1
    for m in range(position):
        product *= rows[m // 4][m % 4] | 1
    return product % 2**32 // 2**24


def narrow_odd_at_once(key: bytes, iv: bytes, position: int) -> int:
    """The same for the narrow odd stream, by odd numbers of 33 bits."""
    start, rows = mother_words(key, iv, position // 4 + 1)
    product = 2 * (start[0] | 1) + 1
    for m in range(position):
        product *= 2 * rows[m // 4][m % 4] + 1
    return product % 2**33 // 2**25


def agreements() -> list[tuple[str, object, object]]:
    """Things that must agree for any input; tried on some random ones."""
    rng = random.Random(156)
    key, iv = rng.randbytes(32), rng.randbytes(48)
    first, second = rows_from_bytes(rng.randbytes(32))
    whole = keystream(Kind.WIDE, key, iv, 0, 2600)
    _, below = booter_words(key, iv, 156)
    words = hand_over(below, 300)
    return [
        ("row from and to bytes", bytes_from_row(rows_from_bytes(key)[0]), key[:16]),
        ("wide block, by lanes", wide_block(first, second), lane_bytes(first, second)),
        ("keystream, by parts", keystream(Kind.WIDE, key, iv, 1240, 21), whole[1240:1261]),
        ("first words, unaltered", words[:156], below),
        ("a longer hand-over", hand_over(below, 400)[:300], words),
    ]


def narrow_agreements() -> list[tuple[str, object, object]]:
    rng = random.Random(624)
    key, iv = rng.randbytes(48), rng.randbytes(16)
    start, rows = mother_words(key, iv, 200)
    rows_whole = b"".join(bytes_from_row(word) for word in rows)
    first_lane, words = lane_words(key, iv, 799)
    lanes_whole = b"".join(word.to_bytes(4, "little") for word in words)
    narrow = keystream(Kind.NARROW, key, iv, 0, 1300)
    odd = keystream(Kind.ODD, key, iv, 0, 1300)
    positions = [0, 1, 2, 3, 4, 5, 623, 624, 625, 626, 1247, 1248, 1249, 1299]
    pairs = [(rng.randrange(2**32), rng.randrange(2**32)) for _ in range(100)]
    memories = [y for y, _ in pairs]
    return [
        ("start lane", first_lane, int.from_bytes(bytes_from_row(start)[:4], "little")),
        ("lanes and rows, as bytes", lanes_whole, rows_whole[: 4 * 799]),
        ("narrow step undone", [narrow_undone(narrow_step(y, x), x) for y, x in pairs], memories),
        (
            "narrow odd step undone",
            [narrow_odd_undone(narrow_odd_step(y, x), x) for y, x in pairs],
            memories,
        ),
        (
            "narrow bytes at once",
            [narrow_at_once(key, iv, p) for p in positions],
            [narrow[p] for p in positions],
        ),
        (
            "narrow odd bytes at once",
            [narrow_odd_at_once(key, iv, p) for p in positions],
            [odd[p] for p in positions],
        ),
        ("narrow, by parts", keystream(Kind.NARROW, key, iv, 619, 12), narrow[619:631]),
        ("narrow odd, by parts", keystream(Kind.ODD, key, iv, 619, 12), odd[619:631]),
    ]


def main() -> int:
    rows = known_values() + refusals() + agreements() + narrow_agreements()
    wrong = [entry for entry in rows if entry[1] != entry[2]]
    for name, got, wanted in wrong:
        print(f"{name}: got {got!r}, wanted {wanted!r}")
    print(f"{len(rows) - len(wrong)} values right, {len(wrong)} wrong")
    return 1 if wrong else 0


if __name__ == "__main__":
    sys.exit(main())
