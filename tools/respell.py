#!/usr/bin/env python3
"""Brings the repository's own definitions and lemmas to today's spelling, by the table tools/respell.tsv, after /opt/rattle/port/port.py has run.

usage: python3 tools/respell.py           at the top of the repository: turns every file below crates/, the pages, and the tests
       python3 tools/respell.py --table   writes the table anew, from what crates/ declares

Words are in snake case, types and modules in camel case. A dash stays where it joins two names, as in `length-drop`; a plain word hangs on by '_'.
"""
import collections
import glob
import os
import re
import sys

TABLE = "tools/respell.tsv"
# lemmas, and a constructor, whose names port.py had turned to those that definitions get here
FIRST = [
    ("crates/exact/proofs/Convolution.antt", r"\bodd_part\b", "odd_part_lem"),
    ("crates/exact/proofs/ExactSmoothing.antt", r"\bodd_part\b", "odd_part_lem"),
    ("crates/cell_bytes/proofs/CellsRead.antt", r"(?<![.\w])fit_count\b", "fit_count_lem"),
    ("crates/smooth_bytes/proofs/Read.antt", r"(?<![.\w])fit_count\b", "fit_count_lem"),
    ("crates/table_bytes/proofs/table/Proof.antt", r"(?<![.\w])fit_count\b", "fit_count_lem"),
    ("crates/disorder/proofs/Compared.antt", r"(?<=headless as headless-first, )second_head\b", "second_head as second_head_first"),
    ("crates/disorder/proofs/Compared.antt", r"(?m)^( +)second_head at\b", r"\1second_head_first at"),
]
DECLARES = re.compile(r"(?m)^(?:  |    )?(?:(?:unfoldable|abbrev|pub|pattern) )*([^\s(){}.;,@\"«»:]+)(?: [({][^)}]*[)}])* :(?= |$)")
RECORD = re.compile(r"(?m)^(?:pub )?(?:record|data) ([^\s(){}.;,@\"«»:]+)")
WORD = re.compile(r"[^\s(){}.;,@\"«»\x60]+")
SPAN = re.compile(r"\x60[^\x60\n]+\x60")


def antt_files():
    return sorted(f for f in glob.glob("crates/*/specs/**/*.antt", recursive=True) + glob.glob("crates/*/proofs/**/*.antt", recursive=True) if "/out/" not in f)


def is_goal_file(path):
    return os.path.basename(path) in ("Proof.antt", "Answers.antt", "Invariants.antt")


def snake(word):
    """camelCase to snake case; a capital alone stays, as in `near_by_E`."""
    return re.sub(r"(?<=[a-z0-9])([A-Z])(?=[a-z])", lambda m: "_" + m[1].lower(), re.sub(r"(?<=[a-z0-9])([A-Z])(?![a-z])", r"_\1", word))


def wanted(name, names):
    if re.fullmatch(r"[A-Z][A-Z0-9]*(-[A-Z0-9]+)+", name):
        return name.replace("-", "_")
    parts = [p for p in name.split("-")]
    if any(not p for p in parts) or not re.fullmatch(r"[\w'-]+[^\s]*", name):
        return name
    turned = [p if re.match("[A-Z]", p) else snake(p) for p in parts]
    out = turned[0]
    for before, after, new in zip(parts, parts[1:], turned[1:]):
        out += ("-" if before in names and after in names else "_") + new
    return out


def make_table():
    declared, records, library = collections.Counter(), set(), set()
    for path in antt_files():
        text = open(path, encoding="utf-8").read()
        records |= set(RECORD.findall(text))
        if not is_goal_file(path):
            for name in DECLARES.findall(text):
                declared[name] += 1
    for path in antt_files() + sorted(glob.glob("crates/*/src/*.rt")):
        text = open(path, encoding="utf-8").read()
        for path_, items in re.findall(r"use ([\w.·+'-]+)\.\{([^}]*)\}", text):
            if not re.match(r"Rattle\.(?!std|core)", path_):
                library |= set(re.split(r"[,\s]+", items.replace(" as ", " ")))
    # a dash joins names of definitions: those of specs/, and the library's own words for lists and numbers
    names = {n for p in antt_files() if "/specs/" in p for n in DECLARES.findall(open(p, encoding="utf-8").read())}
    names |= records | {"length", "take", "drop", "map", "set", "append", "add", "sub", "mul", "div", "mod", "pow", "neg", "nat_abs", "le", "lt", "eq", "pos", "ofZ", "toZ", "of_z", "to_z", "getD", "get_or"}
    rows = []
    for name in sorted(declared):
        new = wanted(name, names)
        if new != name:
            rows.append((name, new))
    # a lemma that would have its function's name ends in `_lem`
    olds = {o for o, _ in rows}
    news = collections.Counter(n for _, n in rows)
    falls = lambda old, new: news[new] > 1 or (new in declared and new not in olds) or new in library
    rows = [(o, n + "_lem" if "-" in o and not o.isupper() and falls(o, n) else n) for o, n in rows]
    news = collections.Counter(n for _, n in rows)
    for old, new in rows:
        if falls(old, new):
            print("falls together, see FIRST:", old, new)
    with open(TABLE, "w", encoding="utf-8") as f:
        f.writelines(f"{o}\t{n}\n" for o, n in rows)
    print(len(rows), "rows")


def main():
    if sys.argv[1:] == ["--table"]:
        return make_table()
    table = dict(line.rstrip("\n").split("\t") for line in open(TABLE, encoding="utf-8"))
    plain = {o: n for o, n in table.items() if re.search(r"[a-z0-9][A-Z]", o) or re.fullmatch(r"[A-Z][A-Z0-9]*(-[A-Z0-9]+)+", o)}
    swap = lambda t: lambda text: WORD.sub(lambda m: t.get(m[0]) or (m[0][:1] in "<*'[" and m[0][:1] + t.get(m[0][1:], m[0][1:])) or m[0], text)
    every, some = swap(table), swap(plain)

    def prose(text):
        out, at = [], 0
        for m in SPAN.finditer(text):
            out += [some(text[at : m.start()]), every(m[0])]
            at = m.end()
        return "".join(out + [some(text[at:])])

    def antt(line):
        m = re.search(r"(?:^|(?<=\s))--(?=\s|$)", line)
        return every(line) if not m else every(line[: m.start()]) + prose(line[m.start() :])

    def rt(line):
        m = re.search(r"//", line)
        return some(line) if not m else some(line[: m.start()]) + prose(line[m.start() :])

    def edit(line):
        head, _, rest = line.partition(":")
        return head + ":" + every(rest) if head in ("old", "new") and _ else prose(line)

    for path, old, new in FIRST:
        if os.path.exists(path):
            text = open(path, encoding="utf-8").read()
            open(path, "w", encoding="utf-8").write(re.sub(old, new, text))
    kinds = {".antt": antt, ".rt": rt, ".edit": edit, ".md": prose}
    changed = 0
    for path in sorted(glob.glob("crates/*/*/**/*", recursive=True)) + sorted(glob.glob("docs/*.md")) + ["README.md"] + sorted(glob.glob("tests/*") + glob.glob("host/*")):
        if not os.path.isfile(path) or "/out/" in path:
            continue
        kind = os.path.splitext(path)[1]
        if path.startswith("crates/") and kind not in kinds:
            continue
        turn = kinds.get(kind, None)
        if turn is None:
            # scripts and hosts' files name the constants of specs/ alone
            turn = lambda line: re.sub(r"\b[A-Z]+(?:-[A-Z]+)+\b", lambda m: table.get(m[0], m[0]), line)
        text = open(path, encoding="utf-8").read()
        new = "".join(turn(line) for line in text.splitlines(keepends=True))
        if new != text:
            open(path, "w", encoding="utf-8").write(new)
            changed += 1
    print(changed, "files")


main()
