#!/usr/bin/env python3
"""Lists pairs of functions that read alike: python3 tools/twins.py, at the top of the repository.

Two functions are a pair where four fifths of their words are the same, without clauses and comments. It reads only."""
import difflib
import glob
import re

LEAST = 0.8


def functions():
    for path in sorted(glob.glob("crates/*/src/*.rt")):
        text = open(path, encoding="utf-8").read()
        for head in re.finditer(r"^( *)(?:pub(?:\(crate\))? )?(?:const )?fn (\w+)[^\n]*", text, re.M):
            end = re.compile("^" + head.group(1) + r"\}", re.M).search(text, head.end())
            if not end:
                continue
            lines = text[head.start():end.end()].split("\n")
            body = [line for line in lines if not re.match(r"\s*(requires|ensures|//|\(λ)", line)]
            if len(body) >= 5:
                yield path[7:], head.group(2), re.findall(r"\w+|[^\w\s]", "\n".join(body))


def main():
    found, pairs = list(functions()), []
    for i, (path, name, words) in enumerate(found):
        for other, known, older in found[:i]:
            if abs(len(words) - len(older)) <= max(len(words), len(older)) / 4:
                same = difflib.SequenceMatcher(None, words, older, autojunk=False).ratio()
                if same >= LEAST:
                    pairs.append((same, f"{other}:{known}", f"{path}:{name}"))
    for same, a, b in sorted(pairs, reverse=True):
        print(f"{same:.2f} {a} ~ {b}")
    print(len(pairs), "pairs")


main()
