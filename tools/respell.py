#!/usr/bin/env python3
"""Brings the repository's own definitions and lemmas to the spelling of today's Rattle: snake case for functions and lemmas.

usage: python3 tools/respell.py        at the top of the repository, once, right after the kit's port.py

It also gives each type of the repository, all of them small plain ones, the derives Clone and Copy where port.py wrote Drop, and writes the
line that asks the check for its tactics into each root file.
"""
import os
import re

CAMEL = re.compile(r"(?<![A-Za-z0-9_'])[a-z][a-z0-9_]*[A-Z][A-Za-z0-9_]*")
# Lemmas that would fall together with the function that they speak of.
LEMMAS = {
    "schedule": ["at_new", "at_old"],
    "schedule_guarantees": ["at_new", "at_old"],
    "compare": ["read_whole", "first_ends"],
    "modem_guarantees": ["is_made"],
    "ring_c_guarantees": ["words_left"],
}
# Names of the library that hold a type's name.
KEPT = re.compile(r"_[A-Z]")


def snake(match):
    name = match.group()
    if KEPT.search(name):
        return name
    name = re.sub(r"([A-Z])([A-Z][a-z])", r"\1_\2", name)
    return re.sub(r"([a-z0-9])([A-Z])", r"\1_\2", name).lower()


def source(text):
    """Outside strings."""
    parts = re.split(r'("(?:[^"\\\n]|\\.)*")', text)
    return "".join(p if i % 2 else CAMEL.sub(snake, p) for i, p in enumerate(parts))


def turned(crate, path, text):
    if path.endswith(".rt"):
        text = text.replace("#[derive(Drop)]", "#[derive(Clone, Copy)]")
        return source(text)
    if os.sep + "proofs" + os.sep in path:
        for name in LEMMAS.get(crate, []):
            text = re.sub(r"(?<![A-Za-z0-9_'.\-])%s(?![A-Za-z0-9_'\-])" % name, name + "_lem", text)
    return CAMEL.sub(snake, text)


def with_tactics(text):
    """The line above the first item of a root file."""
    if "#![tactic(auto)]" in text:
        return text
    lines = text.split("\n")
    head = 0
    while head < len(lines) and lines[head].startswith("//"):
        head += 1
    return "\n".join(lines[:head] + ["#![tactic(auto)]"] + lines[head:])


def main():
    for crate in sorted(os.listdir("crates")):
        for folder, folders, files in os.walk(os.path.join("crates", crate)):
            folders[:] = [f for f in folders if f != "out"]
            for name in files:
                path = os.path.join(folder, name)
                if not name.endswith((".rt", ".antt")):
                    continue
                with open(path, encoding="utf-8") as file:
                    old = file.read()
                new = turned(crate, path, old)
                if path.endswith(("src/lib.rt", "src/main.rt")):
                    new = with_tactics(new)
                if new != old:
                    with open(path, "w", encoding="utf-8") as file:
                        file.write(new)


if __name__ == "__main__":
    main()
