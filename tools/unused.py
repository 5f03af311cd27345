#!/usr/bin/env python3
"""Lists the definitions, laws and functions that nothing cites.

usage: tools/unused.py        status 1 where one is found

A definition or a law of crates/*/specs and crates/*/proofs is cited where its name stands in an .antt or .rt file outside what declares it, or in
quotes in README.md or docs/*.md, which name the laws that are ends. Answers and invariants are cited by their function, and examples are ends. A
function is cited where another calls it, where it is an export, or where it is public and those pages name it. Names are compared as words, so that
two things of one name are seen as one.
"""

import pathlib
import re
import sys

ROOT = pathlib.Path(__file__).resolve().parent.parent
WORD = re.compile(r"[^\s(){}.;,@\"\[\]`]+")
CODE_WORD = re.compile(r"\w+")
DECLARATION = re.compile(
    r"^\s*(?:(?:unfoldable|abbrev|pub|record|data|syntax)\s+)*(?P<name>[^\s(){}.;,:@\"\[\]]+)(?:\s*\{[^}]*\})*(?:\s*\([^)]*:[^)]*\))*\s*:\s"
)
RECORD = re.compile(r"^\s*(?:pub\s+)?(?:record|data)\s+(?P<name>[^\s({]+)")
FUNCTION = re.compile(r"^\s*(?:pub(?:\([a-z]+\))?\s+)?(?:extern\s+\"C\"\s+)?fn\s+(?P<name>\w+)")
# Words with which a line begins that declares nothing.
NO_NAME = {"use", "module", "where", "unfolding", "let", "in", "--"}


def sources():
    """The files of the crates, without what rt makes."""
    for path in sorted((ROOT / "crates").rglob("*")):
        if path.suffix in (".antt", ".rt") and "out" not in path.relative_to(ROOT).parts:
            yield path


def declared(path, lines):
    """The names that a file declares, each with the numbers of the lines that declare it."""
    names = {}
    in_record = None
    for number, line in enumerate(lines):
        words = line.split()
        if not words or words[0] in NO_NAME:
            continue
        indent = len(line) - len(line.lstrip())
        if in_record is not None and indent > in_record:
            continue
        in_record = None
        if path.suffix == ".rt":
            found = FUNCTION.match(line)
        else:
            found = RECORD.match(line)
            if found:
                in_record = indent
            else:
                found = DECLARATION.match(line)
        if found and indent <= 6:
            names.setdefault(found["name"], []).append(number)
    return names


def own_lines(lines, numbers, name):
    """The lines of a declaration: from its first line on, those that go further in or begin with the name."""
    own = set()
    for number in numbers:
        indent = len(lines[number]) - len(lines[number].lstrip())
        own.add(number)
        at = number + 1
        while at < len(lines):
            line = lines[at]
            depth = len(line) - len(line.lstrip())
            begins = line.split()[:1]
            if line.strip() and depth <= indent and begins not in ([name], ["unfolding"]) and not line.lstrip().startswith((")", "]", "}")):
                break
            own.add(at)
            at += 1
    return own


def main():
    texts = {path: path.read_text(encoding="utf-8").split("\n") for path in sources()}
    papers = "\n".join(
        path.read_text(encoding="utf-8") for path in [ROOT / "README.md", *sorted((ROOT / "docs").rglob("*.md"))]
    )
    quoted = {word for quote in re.findall(r"`([^`\n]+)`", papers) for word in WORD.findall(quote)}
    # Where each word stands: the files, and the numbers of the lines that are no import.
    places = {}
    for path, lines in texts.items():
        importing = False
        for number, line in enumerate(lines):
            start = line.lstrip()
            importing = start.startswith(("use ", "ghost use ", "--", "//")) and not start.startswith("pub use")
            if importing:
                continue
            for word in (CODE_WORD if path.suffix == ".rt" else WORD).findall(line):
                places.setdefault(word, set()).add((path, number))
    found = []
    for path, lines in texts.items():
        answers = path.name in ("Answers.antt", "Invariants.antt")
        if path.name in ("tests.rt",) or path.name.endswith("Examples.antt") or path.is_relative_to(ROOT / "crates/examples"):
            continue
        for name, numbers in declared(path, lines).items():
            code = path.suffix == ".rt"
            is_public = any(re.match(r"\s*pub fn ", lines[number]) for number in numbers)
            if name == "main" or "◌" in name or (name in quoted and (is_public or not code)):
                continue
            if answers and any("goal." in lines[number] for number in numbers):
                continue
            if code and any("no_mangle" in lines[max(0, number - 1)] or "#[test]" in lines[max(0, number - 1)] for number in numbers):
                continue
            own = {(path, number) for number in own_lines(lines, numbers, name)}
            if not {place for place in places.get(name, set()) - own if not code or place[0].suffix == ".rt"}:
                found.append(f"{path.relative_to(ROOT)}:{numbers[0] + 1}: {name}")
    for line in found:
        print(line)
    return 1 if found else 0


if __name__ == "__main__":
    sys.exit(main())
