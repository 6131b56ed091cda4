#!/usr/bin/env python3
"""Brings the repository's own definitions and lemmas to the spelling of the kit's library:
words in snake case, modules and types in camel case.

    python3 tools/spelling.py

It goes over the crates' .antt, .rt and .edit files. A name is taken for the repository's own where
a file of specs/ or proofs/ declares it; names that the check gives to goals and steps stay. Names
that would fall together are told apart by APART.
"""
import collections
import glob
import re

APART = {
    ("mixal", "image-from"): "looked_up_from",
    ("mixal", "is-last"): "empty_is_last",
    ("word", "read-bytes"): "read_are_bytes",
    ("word", "stored_bytes"): "stored_are_bytes",
    ("word", "at-end"): "end_packed",
    ("card", "run-code"): "run_code_found",
    ("scan", "run-code"): "run_code_found",
    ("deck_laws", "at-end"): "end_lines",
    ("deck_laws", "supplied-one"): "supplied_one_keeps",
    ("deck_laws", "is-end"): "end_alone",
    ("names", "is-mark"): "mark_decides",
}
NAME = r"[^\W\d][\w\-'′]*"
DECLARED = re.compile(r"\s*(?:(?:unfoldable|abbrev|pub)\s+)*(?:record\s+|data\s+)?(" + NAME + r")\s*:\s*(.*)")
TYPE = re.compile(r"\s*(?:(?:unfoldable|abbrev|pub)\s+)*(?:record|data)\s+(" + NAME + r")")


def files(pattern):
    return sorted(glob.glob("crates/*/" + pattern, recursive=True))


def declared():
    """The names that the files of specs/ and proofs/ declare, but for the answers to goals."""
    names = set()
    for path in files("specs/**/*.antt") + files("proofs/**/*.antt"):
        for line in open(path, encoding="utf-8"):
            found = DECLARED.match(line)
            if found and not found.group(2).startswith("goal."):
                names.add(found.group(1))
            found = TYPE.match(line)
            if found:
                names.add(found.group(1))
    return names


def spelled(name):
    name = name.replace("′", "'")
    if name[0].isupper():
        return "".join(part[0].upper() + part[1:] for part in name.split("-"))
    name = re.sub(r"([A-Z])([A-Z][a-z])", r"\1_\2", name.replace("-", "_"))
    return re.sub(r"([a-z0-9])([A-Z])", r"\1_\2", name).lower()


def main():
    names = declared() | {"zeroWord", "atomOfMarks"}  # and two that imports give
    renamed = {name: spelled(name) for name in names if spelled(name) != name}
    used = collections.Counter()
    for path in files("specs/**/*.antt") + files("proofs/**/*.antt") + files("src/*.rt") + files("must-fail/*.edit"):
        crate = path.split("/")[1]
        old = open(path, encoding="utf-8").read()

        def turn(match):
            name = match.group(0)
            apart = APART.get((crate, name))
            new = apart or renamed.get(name, name)
            if new != name:
                used[name] += 1
            return new

        lines = []
        for line in old.split("\n"):
            comment = line.lstrip().startswith("//" if path.endswith(".rt") else "--")
            lines.append(line if comment else re.sub(NAME, turn, line))
        new = "\n".join(lines)
        if new != old:
            open(path, "w", encoding="utf-8").write(new)
    print(f"{len(used)} names, {sum(used.values())} places")


main()
