#!/usr/bin/env python3
"""Lists the places of older forms in the sources, by the points of docs/DESIGN-PASS.md: tools/places.py [POINT] [CRATES].

It goes by text, so it finds where to look, and docs/DESIGN-PASS.md says of each place that is left why it stands."""
import collections
import glob
import os
import re
import sys

ROOT = sys.argv[2] if len(sys.argv) > 2 else "crates"
FAILING = r"Refused|Wrong|Malformed|Overflow|Unknown|Missing|None|Absent"


def sources():
    for path in sorted(glob.glob(f"{ROOT}/*/src/**/*.rt", recursive=True)):
        yield os.path.relpath(path, ROOT).replace("/src/", "/"), open(path).read()


def functions():
    """Each function: file, name, head (up to its body) and body."""
    for path, text in sources():
        for at in re.finditer(r"^( *)(?:pub(?:\(crate\))? )?(?:const )?(?:extern \"C\" )?fn (\w+)", text, re.M):
            end = text.index(f"\n{at[1]}}}", at.start()) if f"\n{at[1]}}}" in text[at.start():] else len(text)
            part = text[at.start():end]
            opening = f"\n{at[1]}{{\n"
            if opening in part:
                head, body = part.split(opening, 1)
            else:
                head, _, body = part.partition("{\n")
            yield path, at[2], head, body


def parameters(head):
    flat = re.sub(r"\s+", " ", re.split(r"\n\s*(?:requires|ensures)", head)[0])
    inside = flat[flat.index("(") + 1:]
    depth, parts, part = 0, [], ""
    for c in inside:
        if c == ")" and depth == 0:
            break
        depth += c in "([<"
        depth -= c in ")]>"
        if c == "," and depth == 0:
            parts.append(part.strip())
            part = ""
        else:
            part += c
    parts.append(part.strip())
    return [p for p in parts if p and ":" in p]


def one():
    """Enums with a failing variant, numbers of refusals, sentinels, flags in structs, numbers for outcomes."""
    for path, text in sources():
        for at in re.finditer(r"enum (\w+) \{(.*?)\n\}", text, re.S):
            if re.search(rf"^\s*(?:{FAILING})\b", at[2], re.M) and at[1] not in ("Refusal", "Fault"):
                yield path, f"enum {at[1]}"
        for at in re.finditer(r"\b(\w+)::Refused\((?:\d+|k)\)", text):
            yield path, f"{at[1]}::Refused with a number"
        for at in re.finditer(r"^\s*(?:pub )?(\w+): bool,$", text, re.M):
            if text.rfind("struct ", 0, at.start()) > text.rfind("fn ", 0, at.start()):
                yield path, f"flag {at[1]}"
        for at in re.finditer(r"stop\(c, \d\)|outcome == \d|break \d;", text):
            yield path, f"outcome by number: {at[0]}"
    for path, name, head, body in functions():
        last = body.rstrip().split("\n")[-1].strip()
        if re.search(r"^\s*(?:10|16)$", body, re.M) or ("-> usize" in head and re.search(r"return \w+;", body) and re.fullmatch(r"\w+|[\w.]+len\(\)", last)):
            yield path, f"sentinel of {name}"


def skeleton(body):
    body = re.sub(r"//.*", "", body)
    words = re.findall(r"[A-Za-z_]\w*|\d[\w]*|[^\s\w]", body)
    kept = {"let", "mut", "while", "if", "else", "return", "match", "for", "in", "loop", "break", "continue", "true", "false", "as"}
    return " ".join(w if w in kept or not re.match(r"\w", w) else ("N" if w[0].isdigit() else "x") for w in words)


def two():
    """Functions of one skeleton (names and numbers aside), of a loop or of at least 25 words."""
    groups = collections.defaultdict(list)
    for path, name, head, body in functions():
        form = skeleton(body)
        if "while" in form or "for" in form.split() or len(form.split()) >= 25:
            groups[form].append((path, name))
    for group in groups.values():
        for path, name in group[1:]:
            yield path, f"{name} as {group[0][0]}: {group[0][1]}"


def three():
    """Loops that are no `for`."""
    for path, name, head, body in functions():
        for at in re.finditer(r"^\s*(?:let \w+ = )?(while .*|loop) \{", body, re.M):
            yield path, f"{name}: {at[1]}"


def four():
    """Copying field by field, conversions by a function of one cast, printing by a match of texts, comparing by hand."""
    for path, name, head, body in functions():
        if re.search(r"self\.\w+,?\s*\n.*self\.\w+", body, re.S) and re.search(r"\b(\w+): (?:self\.)?\1\b|\b(\w+): self\.\2", body):
            yield path, f"{name} copies a struct"
        if re.fullmatch(r"\s*\(?[\w% ]+\)? as \w+\s*", body):
            yield path, f"{name} converts by a cast"
        if len(re.findall(r"=> buffer::put|=> out\.put", body)) >= 3:
            yield path, f"{name} prints by a match"
        if path.startswith("ffi_numbers/") or (path.split("/")[0] in ("words", "cells", "arith", "text") and name in ("signed", "unsigned", "magnitude", "load", "put_word")):
            if not path.startswith("text/") or name == "magnitude":
                yield path, f"{name} converts"


def five():
    """A clause that stands in three or more functions of a crate; three parameters that three or more functions of a crate share."""
    clauses = collections.Counter()
    groups = collections.Counter()
    for path, name, head, body in functions():
        crate = path.split("/")[0]
        for clause in re.findall(r"requires(?: \w+)? \{ (.*?) \}\n", head + "\n"):
            for fact in re.split(r" × ", clause):
                clauses[(crate, fact.strip("() "))] += 1
        names = sorted(parameters(head))
        for i in range(len(names)):
            for j in range(i + 1, len(names)):
                for k in range(j + 1, len(names)):
                    groups[(crate, names[i], names[j], names[k])] += 1
    for (crate, fact), n in sorted(clauses.items()):
        if n >= 3:
            yield crate, f"{n} times: {fact}"
    best = {}
    for key, n in groups.items():
        if n >= 3:
            best.setdefault((key[0], n), []).append(key[1:])
    for (crate, n), keys in sorted(best.items()):
        yield crate, f"{n} functions share three of: {', '.join(sorted({p for k in keys for p in k}))}"


def six():
    """A slice or array with a length or an index beside it, and two arrays side by side."""
    for path, name, head, body in functions():
        ps = parameters(head)
        lists = [p for p in ps if re.search(r"\[\w+(?:; \d+)?\]", p)]
        lengths = [p for p in ps if re.match(r"(?:count|n|len|at|left|size|both|q): usize", p)]
        arrays = [p for p in ps if re.search(r"\[(?:usize|i64); \d+\]", p)]
        if len(arrays) >= 2 or (lists and lengths):
            yield path, f"{name}({', '.join(lists + lengths)})"


def seven():
    """A match of three or more arms that are calls."""
    for path, name, head, body in functions():
        for at in re.finditer(r"match (.*?) \{(.*?)\n    \}", body, re.S):
            arms = re.findall(r"=> \{?\s*[\w:]+\(", at[2])
            if len(arms) >= 3:
                yield path, f"{name}: {len(arms)} arms"
        ifs = re.findall(r"if (\w+) == \d+ \{\s*return \w+", body)
        if len(ifs) >= 3:
            yield path, f"{name}: {len(ifs)} tests of {ifs[0]}"


def eight():
    """Answers that are one tactic alone, and lines that stand three or more times in a file of answers."""
    for path in sorted(glob.glob(f"{ROOT}/*/proofs/**/Answers.antt", recursive=True)):
        text = open(path).read()
        short = os.path.relpath(path, ROOT).replace("/proofs/", "/").replace("/Answers.antt", "")
        alone = re.findall(r"^([\w-]+)(?: \w+)* = (?:omega arith|search rules|cc|refl)$", text, re.M)
        for goal in alone:
            yield short, f"{goal} by one tactic"
        lines = collections.Counter(l.strip() for l in text.split("\n") if l.strip().startswith("let ") and len(l.strip()) > 25)
        for line, n in lines.items():
            if n >= 3:
                yield short, f"{n} times: {line}"


POINTS = [one, two, three, four, five, six, seven, eight]
which = [int(sys.argv[1])] if len(sys.argv) > 1 and sys.argv[1] != "0" else range(1, 9)
for i in which:
    found = list(POINTS[i - 1]())
    print(f"point {i}: {len(found)} places. {POINTS[i - 1].__doc__}")
    if len(sys.argv) > 1 and sys.argv[1] != "0":
        for where, what in found:
            print(f"  {where}  {what}")
