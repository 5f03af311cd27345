#!/usr/bin/env python3
"""Respells the names that this repository declares: what is no type or module in snake case, as `toneOf` to `tone_of` and `both-left` to `both_left`.

usage: tools/respell.py [--check] [FOLDER]        FOLDER has crates/, and is this repository where none is given

Run it once, over the texts as the toolchain's own script for older repositories leaves them. It turns whole words alone:
  .antt    all but comments outside backquotes and quoted text
  .rt      `ghost` imports, clauses and comments' backquotes: no function, field or variable of the code has a new name
  .edit    the lines `old:` and `new:`
A name stays where a file has it from the toolchain's libraries, and so does a name that the check makes of the code: in answers and invariants
what stands behind `goal.` and what hangs on a dot. A law that would meet a definition gets `_law` behind its name.
--check writes nothing. What two names of one file would become is printed, with status 1.
"""

import collections
import pathlib
import re
import sys

NAME = r'[^\s(){}.;,@"«»`]+'
WORD = re.compile(NAME)
QUOTED = re.compile(r'"(?:[^"\\\n]|\\.)*"|(?<![^\s(){}.;,@"«»])--[^\n]*')
SPAN = re.compile(r"`[^`\n]*`")
USE = re.compile(r"\buse ([^\s;{]+)\{([^}]*)\}")
DECLARED = re.compile(r'(?m)^ *(?:(?:abbrev|opaque|unfoldable|pub|let|record|data|in|mutual) +)*(%s)(?: [^=\n]*?)? :(?= |$)' % r'[^\s(){}.;,@"«»`:=|]+')
BOUND = re.compile(r"[({]((?:%s )+):(?= )|λ ((?:%s ?)+)\.|\blet (%s) =|\bas (%s)" % ((r'[^\s(){}.;,@"«»`:=|]+',) * 4))
HEAD = re.compile(r"(?m)^ *(?:\| )?%s((?: %s)+) =(?= |$)" % ((r'[^\s(){}.;,@"«»`:=|]+',) * 2))
GOAL = re.compile(r"\bgoal\.(?:at\.)?(%s)" % NAME)
# What is written by hand for one function, beside labels that the check makes.
BY_FUNCTION = ("Answers.antt", "Invariants.antt", "Proof.antt")
# Laws that would get the name of a definition.
MEETING = """from-keys spelled-bodies both-bad lent-back with-mark check-within low-at but-last by-first class-in mark-class stop-bytes tone-or
    stripped-reply five-for-two after-mark point-of second-low edit-at marks-only second-fits texts-fit mapping-in vowel-rules o-pairs e-pairs
    nasal-rules pair-at mark-of form-bytes parts-fit all-short letter-of body-from key-tone from-raw tone-digit candidates-of tone-of
    good-mapping number-at class-rows composite-rows decomposition-rows""".split()


def is_odd(word):
    """Whether a word is spelled as a value is not: with a capital inside, or a hyphen between two parts."""
    return bool(re.match(r"[a-z]\w*[A-Z]", word) or re.search(r"\w-\w", word))


def respelled(word):
    if word in MEETING:
        word += "_law"
    # a single capital is a name of its own, as the o of `o_pairs`; a run of them is a word, as `iF`
    words = re.sub(r"(?<=[a-z0-9])[A-Z]", lambda m: "_" + m[0].lower(), word)
    return words.replace("-", "_")


def is_own(path, own):
    steps = path.split(".")
    return steps[0] == "Rattle" and len(steps) > 1 and steps[1] in own


class Names:
    """The names of a folder of crates: which it declares, and which each file has from elsewhere."""

    def __init__(self, root):
        self.root = root
        self.own = {p.name for p in (root / "crates").iterdir() if p.is_dir()}
        self.files = sorted(p for kind in ("antt", "rt", "edit") for top in ("crates", "tools/wrong") if (root / top).is_dir() for p in (root / top).rglob("*." + kind) if "out" not in p.relative_to(root).parts)
        self.declared = set()
        for path in self.files:
            if path.suffix == ".antt":
                text = QUOTED.sub("", path.read_text())
                self.declared |= {m[1] for m in DECLARED.finditer(text)}
                for m in BOUND.finditer(text):
                    self.declared |= set((m[1] or m[2] or m[3] or m[4]).split())
                self.declared |= {name for m in HEAD.finditer(text) for name in m[1].split()}

    def kept(self, path, text):
        """The names that stay in a file: those of libraries, and labels."""
        names = set()
        for m in USE.finditer(text):
            if not is_own(m[1], self.own):
                names |= {it.split(" as ")[0].strip() for it in m[2].split(",")}
        if path.name in BY_FUNCTION:
            names |= set(GOAL.findall(text))
        return names


def turn_words(text, names, kept, by_function, found):
    """The text with its own names respelled; `found` gets each old name with its new one."""

    def one(m):
        word = m[0]
        bare = word.rstrip("'")
        behind_dot = text[m.start() - 1 : m.start()] == "."
        in_path = behind_dot or text[m.end() : m.end() + 1] == "."
        if word in kept or bare in kept or not is_odd(bare):
            if not in_path:
                found[word].add(word)
            return word
        if by_function and bare not in names.declared and not re.fullmatch(r"[a-z]\w*", bare):
            return word
        if behind_dot and "-" in bare and (by_function or bare not in names.declared):
            return word
        new = respelled(bare) + word[len(bare) :]
        if not in_path:
            found[new].add(word)
        return new

    return WORD.sub(one, text)


def turn_antt(path, text, names, found):
    kept = names.kept(path, text)
    by_function = path.name in BY_FUNCTION
    out, at = [], 0
    for m in QUOTED.finditer(text):
        out.append(turn_words(text[at : m.start()], names, kept, by_function, found))
        comment = m[0].startswith("--")
        out.append(SPAN.sub(lambda s: turn_words(s[0], names, kept, False, found), m[0]) if comment else m[0])
        at = m.end()
    return "".join(out) + turn_words(text[at:], names, kept, by_function, found)


def ghost_parts(text):
    """The ghost imports, the ghost blocks and the clauses of a file of code, as pairs of where each begins and ends."""
    for m in re.finditer(r"\bghost use\b[^;]*;|\b(?:requires|ensures)\*?(?: \w+)?\s*\{|\bghost (?:\w+ ?[:=]? ?)?\{", text):
        if text[m.end() - 1] == ";":
            yield m.start(), m.end()
            continue
        deep, at = 1, m.end()
        while deep:
            deep += {"{": 1, "}": -1}.get(text[at], 0)
            at += 1
        yield m.start(), at


def turn_rt(path, text, names, found):
    kept = names.kept(path, text)
    out, at = [], 0
    for begin, end in ghost_parts(text):
        out += [spans(text[at:begin], names, kept), turn_quoted(text[begin:end], names, kept, found)]
        at = end
    return "".join(out) + spans(text[at:], names, kept)


def turn_quoted(text, names, kept, found):
    out, at = [], 0
    for m in re.finditer(r'"(?:[^"\\\n]|\\.)*"', text):
        out += [turn_words(text[at : m.start()], names, kept, False, found), m[0]]
        at = m.end()
    return "".join(out) + turn_words(text[at:], names, kept, False, found)


def spans(text, names, kept):
    """Comments' backquotes in code."""
    nothing = collections.defaultdict(set)
    comment = lambda c: SPAN.sub(lambda s: turn_words(s[0], names, kept, False, nothing), c[0])  # noqa: E731
    return re.sub(r"//[^\n]*", comment, text)


def turn_edit(path, text, names, found):
    """An edit's `old:` and `new:` lines, of definitions wholly and of code in its ghost parts, which the whole line stands for."""
    kind = re.search(r"(?m)^file: (\S+)", text)
    if not kind or not kind[1].endswith(".antt"):
        return text
    nothing = collections.defaultdict(set)
    line = lambda m: m[1] + turn_quoted(m[2], names, set(), nothing)  # noqa: E731
    return re.sub(r"(?m)^((?:old|new):)(.*)$", line, text)


def main(arguments):
    check = "--check" in arguments
    folders = [a for a in arguments if a != "--check"]
    root = pathlib.Path(folders[0]) if folders else pathlib.Path(__file__).resolve().parent.parent
    names = Names(root)
    status = 0
    turned = 0
    for path in names.files:
        text = path.read_text()
        found = collections.defaultdict(set)
        turn = {".antt": turn_antt, ".rt": turn_rt, ".edit": turn_edit}[path.suffix]
        new = turn(path, text, names, found)
        for word, olds in sorted(found.items()):
            if len(olds) > 1:
                print(f"{path.relative_to(root)}: {' and '.join(sorted(olds))} would be {word}")
                status = 1
        if new != text:
            turned += 1
            if not check:
                path.write_text(new)
    print(f"{turned} of {len(names.files)} files have names to respell" if check else f"{turned} of {len(names.files)} files respelled")
    return status


if __name__ == "__main__":
    sys.exit(main(sys.argv[1:]))
