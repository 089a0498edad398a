#!/usr/bin/env python3
"""Counts the places in crates/*/src that read like the older language, for docs/DESIGN-PASS.md: one count for each of its points.

    tools/places.py [COMMIT] [--list]

COMMIT: the tree of that commit; without it the files as they lie. --list: each place, and not only the counts.
It goes by text: what it names is a place to look at, not a fault."""
import re
import subprocess
import sys
from collections import defaultdict
from pathlib import Path

ROOT = Path(__file__).resolve().parent.parent


def sources(commit):
    """The .rt files of crates/*/src: (path, text)."""
    if commit is None:
        for path in sorted(ROOT.glob("crates/*/src/**/*.rt")):
            yield str(path.relative_to(ROOT)), path.read_text()
        return
    run = lambda *words: subprocess.run(["git", "-C", str(ROOT), *words], check=True, capture_output=True, text=True).stdout
    for path in run("ls-tree", "-r", "--name-only", commit, "crates").split("\n"):
        if re.fullmatch(r"crates/[a-z0-9_]+/src/.*\.rt", path):
            yield path, run("show", f"{commit}:{path}")


FN = re.compile(r"^( *)((?:pub(?:\(crate\))? )?(?:extern \"C\" )?fn )([a-z_0-9]+)", re.M)
END_OF_CONTRACT = re.compile(r"^ *\{$|\{\}?$", re.M)


class Function:
    def __init__(self, path, text, match):
        indent = match.group(1)
        self.path, self.name = path, match.group(3)
        self.at = text[: match.start()].count("\n") + 1
        one_line = re.compile(r"\n" + indent + r"\}\n|\n" + indent + r"\{\}\n|\{\}\n").search(text, match.start())
        whole = text[match.start() : one_line.end() if one_line else len(text)]
        opens = re.search(r"\n" + indent + r"\{|\) (?:-> [^\n{]*)?\{\n|\{\}\n", whole)
        cut = opens.start() if opens else len(whole)
        self.head, self.body = whole[:cut], whole[cut:]
        signature = self.head.split("\n" + indent + "    requires")[0].split("\n" + indent + "    ensures")[0]
        inside = signature[signature.find("(") + 1 : signature.rfind(")")]
        self.parameters = [re.sub(r"\s+", " ", p.strip()) for p in re.split(r",(?![^\[<]*[\]>])", inside) if p.strip()]
        clauses = re.findall(r"(?:requires|ensures) (?:[a-z_0-9]+ )?\{(.*?)\}\s*(?=requires|ensures|$)", self.head, re.S)
        self.facts = {re.sub(r"\s+", " ", f).strip(" ()") for c in clauses for f in c.split("×")}

    def place(self):
        return f"{self.path}:{self.at} {self.name}"


def functions(files):
    return [Function(path, text, m) for path, text in files for m in FN.finditer(text)]


def lines(files, pattern):
    """Each line with this pattern that is no comment and no import."""
    found = []
    for path, text in files:
        for at, line in enumerate(text.split("\n"), 1):
            if re.search(pattern, line) and not re.match(r"\s*(//|ghost use|use )", line):
                found.append(f"{path}:{at} {line.strip()}")
    return found


def inside(files, kind, pattern):
    """Structs or enums that have a line with this pattern."""
    found = []
    for path, text in files:
        for m in re.finditer(r"^(?:pub(?:\(crate\))? )?" + kind + r" ([A-Za-z]+)[^{;\n]*\{\n(.*?)^\}", text, re.M | re.S):
            if re.search(pattern, m.group(2), re.M):
                found.append(f"{path}:{text[: m.start()].count(chr(10)) + 1} {m.group(1)}")
    return found


def alike(all_functions):
    """Functions whose bodies differ only in names, numbers, widths and types: groups of two and more."""
    groups = defaultdict(list)
    for f in all_functions:
        body = re.sub(r"//.*", "", f.body)
        body = re.sub(r"\b[0-9][0-9_]*\b", "0", body)
        body = re.sub(r"\bu(8|16|32|64|size)\b", "u", body)
        body = re.sub(r"\b[A-Z][A-Za-z_]*\b", "T", body)
        body = re.sub(r"\s+", "", body)
        if len(body) > 40:
            groups[body].append(f.place())
    return [" = ".join(g) for g in groups.values() if len(g) > 1]


def repeated(all_functions, least=3):
    """Facts and pairs of parameters that stand in so many functions."""
    facts, pairs = defaultdict(list), defaultdict(list)
    for f in all_functions:
        for fact in f.facts:
            if 8 < len(fact) < 90 and "result" not in fact and ".new" not in fact:
                facts[re.sub(r"\.(old|now)\b", "", fact)].append(f.place())
        plain = [re.sub(r"&mut ", "&", p) for p in f.parameters if p not in ("self", "&self", "&mut self")]
        for a, b in zip(plain, plain[1:]):
            pairs[f"{a}, {b}"].append(f.place())
    pick = lambda d: [f"{k}: {len(v)}" for k, v in sorted(d.items(), key=lambda kv: -len(kv[1])) if len(v) >= least]
    return pick(facts), pick(pairs)


def main():
    words = [w for w in sys.argv[1:] if w != "--list"]
    files = list(sources(words[0] if words else None))
    every = functions(files)
    facts, pairs = repeated(every)
    points = [
        ("1a own enums shaped like Option or Result", inside(files, "enum", r"\(Refusal\)|^\s+(No|Bad|End|NoFlow)\b")),
        ("1b a flag or a refusal beside values in a struct", inside(files, "struct", r"^\s+(pub )?(accepted|answer|outcome|refused|refusal|ends|wrong|fit|flows|more): ")),
        ("1c numbers for refusals", lines(files, r"const (REFUSED_|MALFORMED|UNKNOWN|UNFIT|MISFIT|CLOCK: u64 = 1|TOO_SOON|EMPTY|SIZE: u64|HEAD: u64 = 1|NO_FLOW)|return 120;|^\s+120$|Refusal::\w+ => \d+")),
        ("1d numbers for kinds", lines(files, r"\b(kind|asks|queue|which|letter|profile|verdict|mark|code)\b\)? *(==|<|<=) *[0-9b]|\b[0-9]+ *(<|<=) *(kind|asks)\b|kind == \d|match (code|kind|letter) |v < 2\b")),
        ("2  groups of functions that differ only in names, numbers and types", alike(every)),
        ("3  loops that count by hand", lines(files, r"^\s*while ")),
        ("4a equality, copying and conversion by hand", [f.place() for f in every if re.match(r"same_|copy$|put_note|number$|numbered|wide$|byte$|place$|say_verdict|put_verdict|named$|queue_of$|flag$|put[1248]$|get[1248]$", f.name)]),
        ("4b functions that only tell an array's length", [f.place() for f in every if re.fullmatch(r"sized|whole|forty|thirty_two|two|held", f.name)]),
        ("5a facts in the contracts of three or more functions", facts),
        ("5b neighbouring parameters of three or more functions", pairs),
        ("6a a buffer with a place beside it", [f.place() for f in every if re.search(r"(out|bytes|input|calls|output): &(mut )?\[u\d+\], (at|from|offset|written)", ", ".join(f.parameters))]),
        ("6b two tables side by side", [f.place() for f in every if re.search(r"handles: &(mut )?\[u32\], sizes: &(mut )?\[u32\]", ", ".join(f.parameters))]),
        ("7  a flag that says which step to run", [f"{f.place()} {p}" for f in every for p in f.parameters if re.search(r"^(tested|room|calm|second|turned|ran|idle|quiet): bool$", p)]),
    ]
    for name, found in points:
        print(f"{name}: {len(found)}")
        if "--list" in sys.argv:
            for place in found:
                print(f"    {place}")


main()
