"""Lines of text as the programs read and answer them.

A line ends at byte 10 or at the end of the input, and has at most 4096
bytes without its end. Empty input has no line, and input that ends after
byte 10 has no further one. Each line is answered by one line.
"""

import re
from collections.abc import Callable

from cryptmt import Refused

MALFORMED = 16
MAX_LINE = 4096

HEX = re.compile(rb"(?:[0-9a-f]{2})*")
DECIMAL = re.compile(rb"[0-9]{1,10}")


def split_lines(data: bytes) -> list[bytes]:
    lines = data.split(b"\n")
    if lines[-1] == b"":  # nothing after the last byte 10, or no input
        lines.pop()
    return lines


def split_fields(line: bytes, count: int) -> list[bytes]:
    """The fields of a line, exactly one space between two."""
    fields = line.split(b" ")
    if len(line) > MAX_LINE or len(fields) != count:
        raise Refused(MALFORMED)
    return fields


def hex_field(field: bytes) -> bytes:
    if not HEX.fullmatch(field):
        raise Refused(MALFORMED)
    return bytes.fromhex(field.decode("ascii"))


def decimal_field(field: bytes) -> int:
    if not DECIMAL.fullmatch(field):
        raise Refused(MALFORMED)
    return int(field)


def answer_or_refusal(line: bytes, answer_line: Callable[[bytes], str]) -> str:
    try:
        return answer_line(line)
    except Refused as refused:
        return f"no {refused.number}"


def answer_all(data: bytes, answer_line: Callable[[bytes], str]) -> bytes:
    answers = [answer_or_refusal(line, answer_line) for line in split_lines(data)]
    return "".join(line + "\n" for line in answers).encode("ascii")
