#!/usr/bin/env python3
"""Respells the names that specs/ declare in the library's way.

usage: tools/names.py SNAKE [--make]    at the top of a checkout, once, after the kit's port.py
SNAKE is the kit's snake.py, which turns whole words by a table: tools/names.tsv, beside this script. --make writes that table from the files.
A definition, a record's field and a constructor have no dash: 'body-length' became 'body_length'. A lemma keeps the dash behind the function
that its left side begins with, 'act-accepted'; where it begins with none, it has no dash either.
"""

import os
import re
import subprocess
import sys

TABLE = os.path.join(os.path.dirname(os.path.abspath(__file__)), "names.tsv")
DECLARED = re.compile(r"^( *)((?:(?:pub|abbrev|unfoldable) +)*)([^\s:(){}|=]+(?: +[^\s:(){}|=]+)*) +:(?=\s|$)")
BLOCK = re.compile(r"^( *)(?:(?:pub|abbrev|unfoldable) +)*(?:record|data|enum|inductive) ")
MODULE = re.compile(r"^ *(?:pub +)?module +([^\s(){}]+)")
IMPORTED = re.compile(r"^ *(?:pub +)?(?:ghost +)?use [^{\n]*\{([^}]*)\}", re.M)
PLAIN = re.compile(r"[A-Za-z0-9_'₀-₉ℕℤ-]*[A-Za-z0-9'₀-₉ℕℤ]")
OLDER = [("getD", "get_or"), ("toZ", "to_z"), ("ofZ", "of_z"), ("natAbs", "nat_abs")]


def sources():
    for crate in sorted(os.listdir("crates")):
        for room in ("specs", "proofs"):
            folder = os.path.join("crates", crate, room)
            for f in sorted(os.listdir(folder)) if os.path.isdir(folder) else ():
                if f.endswith(".antt"):
                    yield os.path.join(folder, f)


def declared():
    """The names that the files declare: definitions, and lemmas; and what they import."""
    definitions, lemmas, imported = set(), set(), set()
    for path in sources():
        inside = None  # the indentation of a record or an enumeration
        text = open(path, encoding="utf-8").read()
        for names in IMPORTED.findall(text):
            imported |= {n.split(" as ")[-1].strip() for n in names.split(",")}
        for line in text.splitlines():
            if line.lstrip().startswith("--") or not line.strip():
                continue
            if inside is not None and len(line) - len(line.lstrip()) <= inside:
                inside = None
            block, module, m = BLOCK.match(line), MODULE.match(line), DECLARED.match(line)
            if block:
                inside = len(block[1])
            elif module:
                definitions.add(module[1])
            elif m and not {"let", "in", "λ"} & set(m[3].split()):
                made = "abbrev" in m[2] or "unfoldable" in m[2] or inside is not None
                (definitions if made else lemmas).update(m[3].split())
    return definitions, lemmas - definitions, imported


def lemma(name, functions):
    """A lemma's new name: the longest beginning that is a function, a dash, and the rest by '_'."""
    parts = name.split("-")
    for n in range(len(parts) - 1, 0, -1):
        if "-".join(parts[:n]) in functions or "_".join(parts[:n]) in functions:
            return "_".join(parts[:n]) + "-" + "_".join(parts[n:])
    return "_".join(parts)


def table():
    definitions, lemmas, imported = declared()
    functions = {n for n in definitions | imported if re.match(r"[a-z]", n)}
    rows = {}
    for name in sorted(definitions | lemmas):
        if not PLAIN.fullmatch(name):
            continue
        new = name
        for old, today in OLDER:
            new = re.sub(rf"(?<![A-Za-z]){old}(?![a-z])", today, new)
        new = new.replace("-", "_") if name in definitions else lemma(new, functions)
        if new != name:
            rows[name] = new
    taken, came = (definitions | lemmas | imported) - set(rows), {}
    for old, new in rows.items():
        if new in taken or new in came:
            print(f"falls together: {old} as {new}")
        came[new] = old
    return rows


def main(argv):
    if not argv or not os.path.isdir("crates"):
        print(__doc__)
        return 2
    if "--make" in argv:
        with open(TABLE, "w", encoding="utf-8") as f:
            f.writelines(f"{old}\t{new}\n" for old, new in table().items())
        return 0
    for kinds, paths in (("antt,rt", ["crates"]), ("md", [p for p in ("README.md", "docs") if os.path.exists(p)])):
        words = [argv[0], "--table", TABLE, "--only", kinds, "--skip-behind", "c,l,g,w,goal", *paths]
        if subprocess.run([sys.executable, *words]).returncode:
            return 1
    return 0


if __name__ == "__main__":
    sys.exit(main(sys.argv[1:]))
