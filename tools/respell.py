#!/usr/bin/env python3
"""Brings this repository's own definitions and lemmas to snake case, once, at the top of the repository: tools/respell.py

A name with a dash that a file of specs/ or proofs/ gives a type (a definition, a lemma, a field, a parameter), or that an import
names by `as`, gets underscores, in every .antt and .rt file below crates/, and between backticks in README.md and docs/. Names of
goals, which the checker makes from the code, and names of the library keep their dashes. It stops where two names would fall together.
"""
import glob
import re
import sys

NAME = r"[^\s(){}\[\],;.:=λ`\"]+"
GOAL = re.compile(r"^\s*(?:(?:pub|abbrev) )*(" + NAME + r") : (?:goal|need|given)\.")
SIGNED = re.compile(r"^\s*(?:\| )?(?:let )?(?:(?:pub|abbrev|unfoldable|package) )*(" + NAME + r") : ")
BOUND = re.compile(r"[({]((?:" + NAME + r" )+): ")
ALIAS = re.compile(r" as (" + NAME + r")")
TOKEN = re.compile(NAME)


def read(path):
    with open(path, encoding="utf-8") as f:
        return f.read()


def main():
    antt = [f for f in glob.glob("crates/*/*/**/*.antt", recursive=True) if "/out/" not in f]
    rust = [f for f in glob.glob("crates/*/src/**/*.rt", recursive=True)]
    pages = ["README.md"] + sorted(glob.glob("docs/*.md"))
    goals, own, taken = set(), set(), set()
    for path in antt:
        for line in read(path).splitlines():
            if line.startswith("use "):
                own |= set(ALIAS.findall(line))
                continue
            goal = GOAL.match(line)
            if goal:
                goals.add(goal[1])
                continue
            signed = SIGNED.match(line)
            if signed:
                own.add(signed[1])
            for bound in BOUND.findall(line):
                own |= set(bound.split())
    for path in rust:
        for line in read(path).splitlines():
            if line.startswith("ghost use "):
                own |= set(ALIAS.findall(line))
    taken = {n for n in own if "-" not in n}
    names = {n: n.replace("-", "_") for n in own - goals if "-" in n and re.search(r"[a-z]", n)}
    fallen = sorted(n for n in names if names[n] in taken)
    if fallen or len(set(names.values())) < len(names):
        sys.exit("two names would fall together: " + " ".join(fallen))

    def respelled(text):
        return TOKEN.sub(lambda m: names.get(m[0], m[0]), text)

    changed = 0
    for path in antt + rust + pages:
        old = read(path)
        new = re.sub(r"`[^`\n]+`", lambda m: respelled(m[0]), old) if path in pages else respelled(old)
        if new != old:
            with open(path, "w", encoding="utf-8") as f:
                f.write(new)
            changed += 1
    print(f"respell: {len(names)} names in {changed} files")


main()
