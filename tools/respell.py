#!/usr/bin/env python3
"""Brings the repository's own definitions and lemmas to snake case, families of types to upper camel case: `sidesGood` to `sides_good`, `roomOf` to `RoomOf`.

usage: tools/respell.py       at the top of the repository, once, right after the kit's own port.py

It goes over the .antt, .rt and .edit files below crates/, comments too, and asks before it writes that no two names of one file fall together.
Functions of src/, exported names and strings are in snake case already, and stay.
"""
import os
import re
import sys

# families of types, which are spelled as types
TYPES = {"roomOf": "RoomOf", "roomOf9": "RoomOf9", "fetchedFor": "FetchedFor"}
# words of the older library in the names of our own lemmas
WORDS = {"getD": "get_or"}
# lemmas that would fall together with the definition that they are about
LEMMAS = {"by_flags", "any_target", "parts_from"}
LEMMA_FILES = ("excess/proofs/Leans.antt", "excess/proofs/leaning/evens/Proof.antt", "mirror/proofs/Converting.antt", "reading/proofs/take/take/Proof.antt")
# one word, or the words of it between dashes: a small letter first, a capital later, no underscore
WORD = re.compile(r"(?<![\w'])[a-z][a-z0-9]*[A-Z][A-Za-z0-9]*'*(?![\w'])")


def snake(word):
    if word in TYPES:
        return TYPES[word]
    for old, new in WORDS.items():
        if word.startswith(old) and (len(word) == len(old) or word[len(old)].isupper()):
            return new + snake_tail(word[len(old):])
    return word[0] + snake_tail(word[1:])


def snake_tail(text):
    return re.sub(r"(?<![A-Z])[A-Z]", lambda m: "_" + m[0], text).lower()


def turned(text):
    return WORD.sub(lambda m: snake(m[0]), text)


def main():
    texts = {}
    for folder, dirs, files in os.walk("crates"):
        dirs[:] = sorted(d for d in dirs if d != "out")
        for name in sorted(files):
            if name.endswith((".antt", ".rt", ".edit")):
                path = os.path.join(folder, name)
                with open(path, encoding="utf-8") as f:
                    texts[path] = f.read()
    fallen = 0
    for path, text in list(texts.items()):
        if path.endswith(LEMMA_FILES):
            texts[path] = text = re.sub(r"(?<![\w'-])(" + "|".join(sorted(LEMMAS)) + r")(?![\w'-])", r"\1_lem", text)
        # functions of src/ and the folders of their proofs may be called as the definition that they work out
        if not path.endswith(".antt"):
            continue
        bare = re.sub(r"--.*|//.*", "", text)
        names = set(re.findall(r"(?<![\w'.-])[\w'-]+(?![\w'.-])", bare))
        for name in names:
            new = turned(name)
            if new != name and new in names:
                print(f"{path}: {name} falls together with {new}", file=sys.stderr)
                fallen += 1
    if fallen:
        return 1
    for path, text in texts.items():
        with open(path, "w", encoding="utf-8") as f:
            f.write(turned(text))
    return 0


if __name__ == "__main__":
    raise SystemExit(main())
