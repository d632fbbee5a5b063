#!/usr/bin/env python3
"""tools/respell.py: brings the names of definitions and lemmas to snake case, once, after the kit's port.py has run.

It goes over every file of crates/ that is tracked here: a name that a file of specs/ or a lemma file of proofs/ declares (`isBlank`, `find-says`) becomes
`is_blank`, `find_says`, wherever it stands: specs/, proofs/, clauses in src/, must-fail edits and their twins. Types, facts and modules keep their capitals, what
the kit or a function's proof made keeps its dashes, and functions of src/ keep their names. In pages and tests the same names are turned where they stand
between back quotes, or where they have a capital inside.
A lemma that would have its function's name gets _lem behind it.
"""
import collections
import os
import re
import subprocess
import sys

TOKEN = re.compile(r"[^\s(){}\[\];,.:⌜⌝\"`|@=]+")
DECLARED = re.compile(r"^[ \t]*((?:pub |abbrev |unfoldable )*)([^\s(){}\[\];,.⌜⌝]+) :(?!=)", re.M)


def files(top):
    said = subprocess.run(["git", "ls-files", "-co", "--exclude-standard", top], capture_output=True, text=True, check=True).stdout
    return [p for p in said.split("\n") if p and os.path.isfile(p)]


def in_lemmas(path):
    """A file of specs/ or a lemma file of proofs/, not a function's proof."""
    return re.fullmatch(r"crates/[^/]+/(specs/.+|proofs/[^/]+)\.antt", path) is not None


def snake(name):
    name = re.sub(r"([a-z0-9])([A-Z])", lambda m: m[1] + "_" + m[2].lower(), name)
    return name.replace("-", "_")


def without_comments(text):
    return re.sub(r"--.*", "", text)


IMPORT = re.compile(r"\buse ([^\s{;]+)\.\{([^}]*)\}")


def imported(texts, crates):
    """What is brought in from the kit, so that no name of its own is turned."""
    names = set()
    for text in texts:
        for m in IMPORT.finditer(text):
            part = m[1].split(".")
            if not (part[0] == "Rattle" and len(part) > 1 and part[1] in crates):
                names.update(n.split()[0] for n in m[2].split(",") if n.strip())
    return names


def main():
    if len(sys.argv) != 1:
        sys.exit("usage: tools/respell.py   (at the top of the repository, after port.py)")
    texts = {}
    for p in files("crates"):
        if p.endswith((".antt", ".rt", ".edit", ".twin")):
            with open(p, encoding="utf-8") as h:
                texts[p] = h.read()
    own = set()
    made = set()
    for p, text in texts.items():
        if not p.endswith(".antt"):
            continue
        found = {m[2] for m in DECLARED.finditer(without_comments(text))}
        (own if in_lemmas(p) else made).update(found)
    crates = {p.split("/")[1] for p in texts}
    kit = imported((t for p, t in texts.items() if p.endswith((".antt", ".rt"))), crates)
    taken = collections.Counter()
    for p, text in texts.items():
        if p.endswith(".antt"):
            taken.update(TOKEN.findall(without_comments(text)))
    names = {}
    lemmas = {}
    for n in sorted(own):
        s = snake(n)
        if not re.fullmatch(r"[a-z][A-Za-z0-9'-]*", n) or n == s:
            continue
        if n in kit or n in made:
            print(f"kept, a name of the kit's or in a function's proof too: {n}")
            continue
        # A lemma that would have its function's name gets _lem.
        if "-" in n:
            names[n] = s + "_lem" if s in own or any(snake(o) == s and "-" not in o for o in own) else s
        else:
            names[n] = s
            if s in own:
                lemmas[s] = s + "_lem"
        if names[n] == s and s in taken and s not in own:
            print(f"look: {n} becomes {s}, which stands already, as a function or a local name")
    for n, s in list(names.items()) + list(lemmas.items()):
        if s in own and s not in lemmas:
            print(f"look: {n} becomes {s}, which is another name")
        if s.endswith("_lem"):
            print(f"{n} becomes {s}")
    back = collections.Counter(names.values())
    for s, k in back.items():
        if k > 1:
            print(f"look: {k} names become {s}")
    now = {snake(n) for n in own} | set(names.values())

    def turned(m):
        return names.get(m[0], m[0])

    def turned_antt(m):
        return names.get(m[0]) or lemmas.get(m[0], m[0])

    def turned_edit(m):
        n = m[0]
        if n in names:
            return names[n]
        if re.fullmatch(r"[a-z][A-Za-z0-9-]*", n) and n not in own and snake(n) != n and snake(n) in own:
            return snake(n)
        return n

    for p, text in texts.items():
        new = TOKEN.sub(turned_edit if p.endswith((".edit", ".twin")) else turned_antt if p.endswith(".antt") else turned, text)
        if new != text:
            with open(p, "w", encoding="utf-8") as h:
                h.write(new)

    # Pages and tests: names with a capital inside anywhere, those with a dash between back quotes alone.
    def in_page(text):
        def camel(m):
            n = m[0]
            return snake(n) if snake(n) in now else n
        text = re.sub(r"(?<![A-Za-z0-9_./-])[a-z]+[a-z0-9]*(?:[A-Z][a-z0-9]*)+(?![A-Za-z0-9_-])", camel, text)
        def quoted(m):
            return TOKEN.sub(lambda k: snake(k[0]) if k[0] in names or (re.fullmatch(r"[a-z][a-z0-9]*(-[a-z0-9]+)+", k[0]) and snake(k[0]) in own) else k[0], m[0])
        return re.sub(r"`[^`\n]+`", quoted, text)

    for p in files("docs") + files("tests") + ["README.md"]:
        if p.endswith((".md",)) or p in ("tests/determined", "tests/automaton", "tests/waiting", "tests/saying", "tests/model.py"):
            with open(p, encoding="utf-8") as h:
                text = h.read()
            new = in_page(text)
            if new != text:
                with open(p, "w", encoding="utf-8") as h:
                    h.write(new)
    print(f"{len(names)} names turned")


main()
