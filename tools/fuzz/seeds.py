#!/usr/bin/env python3
"""Makes the fuzzer's first inputs out of the recorded answers.

    seeds.py RECORDS DIR

RECORDS is crates/replay/stdin, whose form tools/compare/README.md describes; the form of an input stands in input.c. Of the records of one call that are answered
alike, with texts of about one length, the first few are taken."""

import ast
import os
import re
import struct
import sys
from collections import Counter

HEADER = struct.Struct("<4B3H2H2B2H2Q")
# The number that the fuzzer has for a call, by the number that the records have.
CALLS = {0: 0, 1: 1, 7: 2, 9: 3, 12: 4, 8: 5, 10: 6, 11: 7}
CANDIDATE, COMPOSE, KEYING, TELEX = 3, 5, 6, 7
FEW = 3
MOST = 1400
EXACT, SHORT, LONGER, NUMBER, SPELLED = 0, 1, 4, 5, 8


def telling():
    """The code points that a spelled text has for the bytes from 80 on."""
    with open(os.path.join(os.path.dirname(os.path.abspath(__file__)), "telling.h"), encoding="utf-8") as file:
        return "".join(ast.literal_eval(part) for part in re.findall(r'^u(".*")$', file.read(), re.MULTILINE))


TELLING = {point: 0x80 + place for place, point in enumerate(telling())}


def records(data):
    """The records as (call, arguments, code, texts, room, output length, kind of answer)."""
    at = 0
    while at < len(data):
        call, first, second, code, size, other, room, length, body, tone, khin, _, out, asked, count = HEADER.unpack_from(data, at)
        at += HEADER.size
        texts = data[at : at + size], data[at + size : at + size + other]
        at += size + other + out
        kind = call, first, code, size.bit_length(), length.bit_length(), tone, khin, count.bit_length()
        yield call, (first, second, asked), code, texts, room, out, kind


def small(number, bound):
    """The byte that stands for a number, or None where only a wide number does."""
    if number < bound:
        return number
    return 248 + number - bound if number - bound < 8 else None


def numbers(call, first, second, asked):
    """The bytes of the two numbers, and a wide number for those that have none."""
    given = {
        CANDIDATE: ((asked, small(asked, 2)), (0, 0)),
        COMPOSE: ((first, small(first, 10)), (second, small(second, 2))),
        KEYING: ((first, small(first, 3)), (asked, asked if asked < 256 else None)),
        TELEX: ((second, second if 0x1F <= second <= 0x7F else None), (first, small(first, 2))),
    }.get(call, ((0, 0), (0, 0)))
    which = sum(1 << place for place, (_, byte) in enumerate(given) if byte is None)
    wide = max((number for number, byte in given if byte is None), default=0)
    return bytes(byte or 0 for _, byte in given), struct.pack("<BQ", which, wide) if which else b""


def lent(code, room, out):
    """The kind of room and its number."""
    if code == 0:
        return (EXACT, 0) if room == out else (LONGER, min(room - out, 255))
    return (SHORT, 0) if code == 7 else (NUMBER, min(room, 255))


def spelled(texts):
    """The texts with one byte for each code point, or None where one has no such byte."""
    try:
        points = [text.decode() for text in texts]
    except UnicodeDecodeError:
        return None
    if any(point not in TELLING and point >= "\x80" for text in points for point in text):
        return None
    return [bytes(TELLING.get(point, ord(point) & 0x7F) for point in text) for text in points]


def seed(place, call, arguments, code, texts, room, out):
    """One input. The places at both ends of the pages take turns."""
    small_numbers, wide = numbers(call, *arguments)
    kind, number = lent(code, room, out)
    flags = call | place % 16 << 3 | (0x80 if wide else 0)
    short = spelled(texts)
    if short:
        texts, kind = short, kind | SPELLED
    second = struct.pack("<H", len(texts[1]))
    return bytes([flags, kind]) + small_numbers + second + bytes([number]) + wide + texts[0] + texts[1]


def main(source, folder):
    with open(source, "rb") as file:
        data = file.read()
    os.makedirs(folder, exist_ok=True)
    seen = Counter()
    for place, (call, arguments, code, texts, room, out, kind) in enumerate(records(data)):
        seen[kind] += 1
        if call not in CALLS or seen[kind] > FEW:
            continue
        made = seed(place, CALLS[call], arguments, code, texts, room, out)
        if len(made) <= MOST:
            with open(os.path.join(folder, f"{place:06}"), "wb") as file:
                file.write(made)


if __name__ == "__main__":
    if len(sys.argv) != 3:
        sys.exit("usage: seeds.py RECORDS DIR")
    main(*sys.argv[1:])
