#!/usr/bin/env python3
"""Writes src/tables.rs, the tables of the hand-tuned Rust version.

    tables.py UNICODEDATA > src/tables.rs

UNICODEDATA is Unicode's file UnicodeData.txt. Any edition from 5.1 on gives
the same tables: the newest code point in them is of 5.1, and Unicode never
changes a canonical decomposition or a combining class. CompositionExclusions.txt
is not read, because it lists no code point of the table; the exclusions that
follow from UnicodeData.txt itself (singletons, 0344) are made here.
"""
import sys

TABLE = (list(range(0x0000, 0x0080)) + [0x00B7] + list(range(0x00C0, 0x0250)) + [0x0292]
         + list(range(0x0300, 0x0370)) + [0x1D3A] + list(range(0x1E00, 0x1F00))
         + [0x207F, 0x2260, 0x226E, 0x226F])
# Three-byte code points outside 1E00-1EFF, in the order of their slots from 256 on.
SPARSE = [0x1D3A, 0x207F, 0x2260, 0x226E, 0x226F]
TONES = {0x0301: 2, 0x0300: 3, 0x0302: 5, 0x0303: 6, 0x0304: 7, 0x030D: 8, 0x0306: 9}
# The low tables end with the last row of 64 (one lead byte) that holds a code point of the table.
LOW = 0x0380
MARKS = range(0x0300, 0x0370)


def read(path):
    classes, splits = {}, {}
    for line in open(path, encoding="ascii"):
        field = line.split(";")
        point = int(field[0], 16)
        classes[point] = int(field[3])
        if field[5] and not field[5].startswith("<"):
            splits[point] = [int(x, 16) for x in field[5].split()]
    return classes, splits


def whole(point, splits):
    """The full canonical decomposition."""
    if point not in splits:
        return [point]
    return [y for x in splits[point] for y in whole(x, splits)]


def encoded(points):
    return "".join(map(chr, points)).encode("utf-8")


def pack(data, fifth, sixth, seventh):
    assert len(data) <= 5
    return int.from_bytes(data.ljust(5, b"\0") + bytes([fifth, sixth, seventh]), "little")


def nfd_entry(point, classes, splits):
    points = whole(point, splits)
    data = encoded(points)
    return pack(data, len(data), classes[points[0]], classes[points[-1]])


def strip_entry(point, classes, splits):
    points = whole(point, splits)
    kept = [x for x in points if x not in TONES]
    tones = [TONES[x] for x in points if x in TONES]
    data = encoded(kept)
    # Length 0 is a good entry (a tone mark alone), so 8 says "inside the table".
    return pack(data, len(data) + 8, tones[-1] if tones else 0, classes[kept[-1]] if kept else 0)


def low(entry, classes, splits):
    # ASCII never comes here: the zeros refuse its two-byte forms, which are ill-formed.
    return [entry(p, classes, splits) if p in TABLE and p >= 0x80 else 0 for p in range(LOW)]


def high(entry, classes, splits):
    points = list(range(0x1E00, 0x1F00)) + SPARSE
    return [entry(p, classes, splits) for p in points] + [0]


def joins(classes, splits):
    """(starter, mark) -> composite, for what recomposes."""
    pairs = {}
    for point in TABLE:
        split = splits.get(point, [])
        if len(split) == 2 and classes[point] == 0 and classes[split[0]] == 0:
            pairs[tuple(split)] = point
    return pairs


def marked(pairs):
    """For each tone and ASCII byte: the byte with the tone's mark in NFC, and the number of its bytes."""
    marks = {tone: mark for mark, tone in TONES.items()}
    numbers = []
    for tone in range(10):
        for letter in range(0x80):
            points = [letter]
            if tone in marks:
                composite = pairs.get((letter, marks[tone]))
                points = [composite] if composite else [letter, marks[tone]]
            data = encoded(points)
            numbers.append(int.from_bytes(data.ljust(3, b"\0") + bytes([len(data)]), "little"))
    return numbers


def show(name, kind, numbers, per_line, form):
    print(f"pub static {name}: [{kind}; {len(numbers)}] = [")
    for i in range(0, len(numbers), per_line):
        print("    " + ", ".join(form.format(x) for x in numbers[i:i + per_line]) + ",")
    print("];\n")


def main():
    classes, splits = read(sys.argv[1])
    for point in TABLE:
        assert all(x in TABLE for x in whole(point, splits))
        # Only marks have a class, every mark takes two bytes, and what is no mark starts with a starter.
        assert classes[point] == 0 or point in MARKS
        assert point in MARKS or classes[whole(point, splits)[0]] == 0
    pairs = joins(classes, splits)
    starters = sorted({a for a, _ in pairs})
    marks = sorted({b for _, b in pairs})
    assert all(a < 0x300 or 0x1E00 <= a < 0x1F00 for a in starters)
    assert all(b in MARKS for b in marks)
    rank = {a: i + 1 for i, a in enumerate(starters)}
    column = {b: i + 1 for i, b in enumerate(marks)}
    width = len(starters) + 1

    print("//! Made by tables.py from UnicodeData.txt; do not edit.\n")
    print("/// Code points 0080-037F: NFD as up to five bytes, then its length (0: outside the table),")
    print("/// the class of its first and the class of its last code point.")
    show("NFD_LOW", "u64", low(nfd_entry, classes, splits), 6, "0x{:x}")
    print("/// The same for 1E00-1EFF, then 1D3A, 207F, 2260, 226E, 226F, then outside.")
    show("NFD_HIGH", "u64", high(nfd_entry, classes, splits), 6, "0x{:x}")
    print("/// Code points 0080-037F: NFD without tone marks as up to five bytes, then its length + 8")
    print("/// (0: outside the table), the last tone dropped (0: none), the class of its last code point.")
    show("STRIP_LOW", "u64", low(strip_entry, classes, splits), 6, "0x{:x}")
    print("/// The same for the slots of NFD_HIGH.")
    show("STRIP_HIGH", "u64", high(strip_entry, classes, splits), 6, "0x{:x}")
    print("/// Combining classes of 0300-036F.")
    show("CLASS", "u8", [classes[p] for p in MARKS], 20, "{}")
    print("/// Where a starter below 0300 stands in a row of JOIN (0: it composes with nothing).")
    show("STARTER_LOW", "u8", [rank.get(p, 0) for p in range(0x300)], 20, "{}")
    print("/// The same for 1E00-1EFF.")
    show("STARTER_HIGH", "u8", [rank.get(p, 0) for p in range(0x1E00, 0x1F00)], 20, "{}")
    print("/// The row of JOIN for each mark of 0300-036F (0: it composes with nothing).")
    show("ROW", "u8", [column.get(p, 0) for p in MARKS], 20, "{}")
    print(f"pub const JOIN_WIDTH: usize = {width};")
    print("/// The composite of a mark (row) and a starter (place in the row), or 0.")
    cells = [0] * (width * (len(marks) + 1))
    for (a, b), composite in pairs.items():
        cells[column[b] * width + rank[a]] = composite
    show("JOIN", "u16", cells, 14, "0x{:x}")
    print("/// By tone, then by ASCII byte: the byte with the tone's mark in NFC, as up to three bytes, then")
    print("/// their number.")
    show("MARKED", "u32", marked(pairs), 8, "0x{:x}")


main()
