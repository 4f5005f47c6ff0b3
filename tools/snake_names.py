#!/usr/bin/env python3
"""Brings the repository's own definitions and lemmas to snake case, after the kit's port.py: `firstFailed` becomes `first_failed`.

usage: tools/snake_names.py        at the top of the repository, once, right after port.py

A name is one of ours if a file of specs/ or proofs/ declares it; those of the library are in snake case already. Renamed are all words of
.antt and .rt files and must-fail edits, and words between backticks in the pages. Type and module names, functions of src/, and names in
C stay. A name that begins with getD, as the library's lookup was called, gets the lookup's name of today, get_or.
"""
import re
import sys
from pathlib import Path

WORD = re.compile(r"[A-Za-z_0-9'₀-₉-]+")
CAMEL = re.compile(r"(?<=[a-z0-9'])[A-Z]")
# lemmas that would get the name of the definition that they are about
LEMMAS = {"held_bytes": "held_bytes_lem", "high_byte": "high_byte_lem", "seen_done": "seen_done_lem"}
LEMMA_FILES = {
    "held_bytes": ["crates/store/proofs/StepFollows.antt"],
    "high_byte": ["crates/model/proofs/CheckedLaws.antt"],
    "seen_done": ["crates/model/proofs/StepLaws.antt"],
}


def snake(part):
    """One part of a name, between dashes."""
    part = re.sub(r"^(getD|get_d)(?![a-z])", "get_or", part)
    return CAMEL.sub(lambda m: "_" + m[0].lower(), part) if part[:1].islower() else part


def renamed(word):
    return "-".join(snake(part) for part in word.split("-"))


def rename(text):
    return WORD.sub(lambda m: renamed(m[0]), text)


def main():
    crates = Path("crates")
    sources = [p for p in sorted(crates.rglob("*")) if p.suffix in (".antt", ".rt", ".edit") and "out" not in p.parts]
    # first the lemmas whose names would fall together with a definition's
    for lemma, new in LEMMAS.items():
        for path in LEMMA_FILES[lemma]:
            text = Path(path).read_text(encoding="utf-8")
            Path(path).write_text(re.sub(rf"(?<![A-Za-z_0-9'.-]){lemma}(?![A-Za-z_0-9'-])", new, text), encoding="utf-8")
    before = {}
    for path in sources:
        text = path.read_text(encoding="utf-8")
        for word in WORD.findall(text):
            if renamed(word) != word:
                before[word] = renamed(word)
        path.write_text(rename(text), encoding="utf-8")
    for page in [Path("README.md"), *sorted(Path("docs").rglob("*.md")), *sorted(Path("tests").rglob("*.md"))]:
        text = page.read_text(encoding="utf-8")
        page.write_text(re.sub(r"`[^`\n]+`", lambda m: WORD.sub(lambda w: before.get(w[0], w[0]), m[0]), text), encoding="utf-8")
    print(f"{len(before)} names, {len(sources)} files")
    return 0


if __name__ == "__main__":
    sys.exit(main())
