#!/usr/bin/env python3
"""Brings the names of definitions and lemmas to today's spelling, in every crate of the folder it is run in.

A word is in snake case: `lossBytes` becomes `loss_bytes`. A fact is in camel case: `Lines-tidy` becomes `LinesTidy`. Names of functions in
src/, of exported symbols and of files stay. Run once, after the kit's own port script.
"""
import glob
import re

# A fact whose camel case is taken by another definition of its module.
TAKEN = {
    "Accepted-is-good": "EachAcceptedIsGood",
    "Seen-by-the-rules": "EachSeenByTheRules",
    "Agreed-by-the-rules": "EachAgreedByTheRules",
}

# What a name is made of in antt.
NAME = re.compile(r"[^\s(){}.,;=:⌜⌝«»\"`]+")
CAMEL = re.compile(r"(?:^|(?<=[-_]))[a-z][a-z0-9]*(?:[A-Z][a-z0-9]*)+")
FACT = re.compile(r"^(?:abbrev |unfoldable |pub )*(?:data |record )?([A-Z][A-Za-z0-9]*(?:-[A-Za-z0-9]+)+)(?: :|$| )")


def antt_files():
    return glob.glob("crates/*/specs/*.antt") + glob.glob("crates/*/proofs/**/*.antt", recursive=True)


def facts():
    """The facts that the repository declares under a name with dashes."""
    found = set()
    for path in antt_files():
        for line in open(path, encoding="utf8"):
            declared = FACT.match(line)
            if declared:
                found.add(declared.group(1))
    return {name: TAKEN.get(name, "".join(part[0].upper() + part[1:] for part in name.split("-"))) for name in found}


def snake(match):
    # `getD` is the older kit's name of what it calls `get_or` today.
    word = match.group(0).replace("getD", "get_or")
    return re.sub(r"(?<=[a-z0-9])([A-Z])", lambda m: "_" + m.group(1).lower(), word)


def respelled(text, renamed):
    def one(match):
        name = match.group(0)
        return renamed.get(name) or CAMEL.sub(snake, name)

    return NAME.sub(one, text)


def main():
    renamed = facts()
    for path in antt_files() + glob.glob("crates/*/src/*.rt"):
        text = open(path, encoding="utf8").read()
        new = respelled(text, renamed)
        if new != text:
            open(path, "w", encoding="utf8").write(new)


main()
