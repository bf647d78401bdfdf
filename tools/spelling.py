#!/usr/bin/env python3
"""Brings the repository's own definitions and lemmas to the spelling of today's Rattle, by the table spelling.tsv: words in
snake case, a lemma that would have a definition's name with _lem.

usage: tools/spelling.py          at the top of the repository, once, on the commit that the kit's port.py made
       tools/spelling.py docs     the same for the names between backquotes in README.md and docs/

Turned are .antt files, and of .rt files the ghost items, clauses and comments. A name that a file imports from a library stays
there. Functions of src/, C names, strings, inputs and outputs keep their names.
"""

import os
import re
import sys

HERE = os.path.dirname(os.path.abspath(__file__))
WORD = re.compile(r'[^\s(){}.;,@"«»\[\]`]+')
USE = re.compile(r"^(?:ghost |pub )?use (\S+?)\.\{([^}]*)\};?$", re.M)
STRING = re.compile(r'b?"(?:\\.|[^"\\])*"')


def table():
    with open(os.path.join(HERE, "spelling.tsv"), encoding="utf-8") as f:
        return dict(line.rstrip("\n").split("\t") for line in f)


def foreign(text, own):
    """The names that a file imports from a library, or that the compiler declares for src/."""
    found = set()
    for module, names in USE.findall(text):
        parts = module.split(".")
        if parts[0] != "Rattle" or parts[1] not in own or "declared" in parts:
            found |= {name.strip() for name in names.split(",")}
    return found


def turned(text, names, own):
    stay = foreign(text, own)

    def one(match):
        word = match[0]
        tail = ":" if word.endswith(":") else ""
        bare = word[: len(word) - len(tail)]
        return (names[bare] if bare in names and bare not in stay else bare) + tail

    return WORD.sub(one, text)


def turned_rt(text, names, own):
    """Rust's own names have no capitals and no dashes inside, so what the table lists stands in ghost text alone."""
    parts, at = [], 0
    for string in STRING.finditer(text):
        parts += [turned(text[at : string.start()], names, own), string[0]]
        at = string.end()
    return "".join(parts + [turned(text[at:], names, own)])


def rewrite(path, turn):
    with open(path, encoding="utf-8") as f:
        before = f.read()
    after = turn(before)
    if after != before:
        with open(path, "w", encoding="utf-8") as f:
            f.write(after)


def main(argv):
    names = table()
    if argv == ["docs"]:
        spans = re.compile(r"`[^`\n]+`")
        pages = ["README.md"] + [os.path.join("docs", page) for page in sorted(os.listdir("docs")) if page.endswith(".md")]
        for page in pages:
            if os.path.basename(page) not in ("CHANGES.md", "PORT.md"):
                rewrite(page, lambda text: spans.sub(lambda m: turned(m[0], names, ()), text))
        return
    own = set(os.listdir("crates"))
    code = {name: new for name, new in names.items() if re.search("[A-Z-]", name)}
    for folder, folders, files in os.walk("crates"):
        folders[:] = sorted(f for f in folders if f != "out")
        for file in sorted(files):
            path = os.path.join(folder, file)
            if file.endswith(".antt"):
                rewrite(path, lambda text: turned(text, names, own))
            elif file.endswith(".rt"):
                rewrite(path, lambda text: turned_rt(text, code, own))


if __name__ == "__main__":
    main(sys.argv[1:])
