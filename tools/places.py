#!/usr/bin/env python3
"""Counts the places in src/ that docs/DESIGN-PASS.md speaks of: where code reads like an older language.

usage: tools/places.py [FOLDER]   (FOLDER: a checkout, this one without a word; --list names each place)"""
import pathlib
import re
import sys

words = [w for w in sys.argv[1:] if not w.startswith("-")]
listing = "--list" in sys.argv
if "--help" in sys.argv or len(words) > 1:
    print(__doc__)
    sys.exit(0 if "--help" in sys.argv else 2)
root = pathlib.Path(words[0]) if words else pathlib.Path(__file__).resolve().parent.parent
files = sorted(root.glob("crates/*/src/*.rt"))
if not files:
    sys.exit(f"tools/places.py: no crates/*/src/*.rt in {root}")


def line_of(text, at):
    return text.count("\n", 0, at) + 1


def enums(text):
    """each enum with its variants, and whether each has data"""
    for m in re.finditer(r"^(?:pub )?enum (\w+)[^{]*\{\n(.*?)^\}", text, re.M | re.S):
        variants = re.findall(r"^    (\w+)(\(|,| \{)", m.group(2), re.M)
        yield m.start(), m.group(1), [(name, data != ",") for name, data in variants]


def functions(text):
    """each function's place, name, parameters and result"""
    for m in re.finditer(r"^ *(?:pub )?(?:extern \"C\" )?fn (\w+)(?:<[^(]*>)?\((.*?)\)\s*(?:-> ([^\n{]*))?", text, re.M | re.S):
        yield m.start(), m.group(1), m.group(2), (m.group(3) or "").strip()


def shaped(text):
    """1: two cases, at least one with a value, or a case called Is, Good, Bad or BadLength"""
    for at, name, variants in enums(text):
        names = {v for v, _ in variants}
        if (len(variants) == 2 and any(d for _, d in variants)) or names & {"Is", "Good", "Bad", "BadLength"}:
            if not name.endswith("Error"):
                yield at, "enum " + name


def numbered(text):
    """1: a function between a kind and a number, and a refusal by its number in a type"""
    for at, name, _, result in functions(text):
        if name in ("kind_number", "mark_number", "held_number", "flag_number", "kind_of", "held_of", "selector_of") and result:
            yield at, f"fn {name} -> {result}"
    for m in re.finditer(r"\bRefused\(u\d+", text):
        yield m.start(), m.group(0)


def flags(text):
    """1, 7: a parameter or a field that says whether, or which step"""
    for at, name, params, _ in functions(text):
        for p in re.findall(r"\b(\w+): bool\b", params):
            yield at, f"fn {name}: {p}"
    for m in re.finditer(r"^(?:pub )?struct (\w+)[^{;]*\{\n(.*?)^\}", text, re.M | re.S):
        for f in re.findall(r"^    (?:pub )?(\w+): bool,$", m.group(2), re.M):
            yield m.start(), f"struct {m.group(1)}: {f}"


def loops(text):
    """3: while and loop"""
    for m in re.finditer(r"^\s*(while|loop)\b[^\n]*", text, re.M):
        yield m.start(), m.group(0).strip()


def answers(text):
    """4: an arm that says yes or no"""
    for m in re.finditer(r"^\s*\S[^\n]* => (true|false),$", text, re.M):
        yield m.start(), m.group(0).strip()


def memories(text):
    """5: a function that takes two or more of the three memories"""
    for at, name, params, _ in functions(text):
        if len(re.findall(r"\b(?:buf|slot_mem|queue_mem): &mut", params)) > 1:
            yield at, "fn " + name


def beside(text):
    """6: a function that takes a buffer and a place in it, and answers the next place"""
    for at, name, params, result in functions(text):
        if re.search(r"\b(out|mem|own): &mut", params) and re.search(r"\b(at|from): usize", params) and "usize" in result:
            yield at, "fn " + name


for count in (shaped, numbered, flags, loops, answers, memories, beside):
    found = [(f, line_of(t, at), what) for f in files for t in [f.read_text()] for at, what in count(t)]
    print(f"{len(found):4}  {count.__doc__}")
    if listing:
        for f, line, what in found:
            print(f"      {f.relative_to(root)}:{line}: {what}")
proofs = sorted(root.glob("crates/*/proofs/**/Answers.antt"))
answered = sum(len(re.findall(r"^pub \S+ : goal\.", p.read_text(), re.M)) for p in proofs)
print(f"{answered:4}  8: answers in proofs/, in {len(proofs)} files")
