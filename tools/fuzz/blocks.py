#!/usr/bin/env python3
"""Lists where the blocks of the archive's code begin, as offsets in its section.

    objdump -d -j rf_code FILE | blocks.py > LIST

A block begins at a function's first instruction, where a jump leads to, and behind a jump or a return. Padding between functions, and the traps that stand
where nothing is reached, are no blocks."""

import re
import sys

INSTRUCTION = re.compile(r"^\s*([0-9a-f]+):\t(?:[0-9a-f]{2} )+\s*\t(\S.*)$")
FUNCTION = re.compile(r"^[0-9a-f]+ <.*>:$")


def is_padding(text):
    return bool(re.match(r"(data16 |cs |nop|int3|xchg +%ax,%ax)", text))


def blocks(lines):
    """The offsets, in order."""
    found, targets, instructions, begins = set(), set(), set(), True
    for line in lines:
        if FUNCTION.match(line):
            begins = True
        match = INSTRUCTION.match(line)
        if not match or is_padding(match.group(2)):
            continue
        offset, text = int(match.group(1), 16), match.group(2)
        if not text.startswith("ud2"):
            instructions.add(offset)
        if begins:
            found.add(offset)
        begins = bool(re.match(r"j|ret|ud2", text))
        target = re.match(r"j\w+ +([0-9a-f]+)", text)
        if target:
            targets.add(int(target.group(1), 16))
    return sorted((found | targets) & instructions)


def main():
    for offset in blocks(sys.stdin):
        print(f"{offset:x}")


if __name__ == "__main__":
    main()
