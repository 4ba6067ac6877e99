#!/usr/bin/env python3
"""Brings the definitions and lemmas of this repository to snake case, by the table port_names.tsv beside this file.

usage: python3 tools/port_names.py      at the top of a tree that the toolchain's port script has turned, once

A line of the table is an old name, a tab and the new name. A whole word is replaced, all at once, in specs/, proofs/
and must-fail/ files, in the code outside strings and comments, and between backquotes in README.md and docs/.
Names of functions, types and modules stay. Where a definition and a lemma would fall together, the lemma ends in _lem.
"""
import pathlib
import re

TABLE = dict(
    line.split("\t") for line in (pathlib.Path(__file__).parent / "port_names.tsv").read_text().splitlines()
)
WORD = re.compile(r"[^\s(){}\[\].,;:λ\"`]+")
CODE = re.compile(r'//[^\n]*|b?"(?:\\.|[^"\\])*"|[^\s(){}\[\].,;:λ"`]+')
QUOTED = re.compile(r"`[^`\n]+`")


def word(match):
    return TABLE.get(match[0], match[0])


def turn(path, text):
    if path.suffix == ".md":
        return QUOTED.sub(lambda quoted: WORD.sub(word, quoted[0]), text)
    return (CODE if path.suffix == ".rt" else WORD).sub(word, text)


def main():
    paths = [p for p in pathlib.Path("crates").rglob("*") if p.suffix in (".rt", ".antt", ".edit") and "out" not in p.parts]
    for path in sorted(paths + [pathlib.Path("README.md")] + list(pathlib.Path("docs").glob("*.md"))):
        text = path.read_text()
        turned = turn(path, text)
        if turned != text:
            path.write_text(turned)


main()
