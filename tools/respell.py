#!/usr/bin/env python3
"""Brings the names that this repository declares in specs/ and proofs/ to one spelling: words in snake case.

usage: python3 tools/respell.py            at the top of the repository, once, after the toolchain's own script

Definitions, lemmas, fields and constructors that stand in a file of specs/ or in a file of lemmas in proofs/ lose capitals and dashes:
`headerOf` is `header_of`, `any-in` is `any_in`. Types and modules keep their capitals, and so does what comes from Rattle source or from
the library. Where two names would fall together the lemma ends in `_lem`. Comments and pages are turned within backticks alone.
"""
import glob
import os
import re

ID = r"[^\s(){}\[\],;.:«»\"`]+"
# where a definition and a lemma would have one name, or a name would be hidden by a local one
APART = {
    "of-needs": "of_needs",
    "same_line": "same_line_lem",
    "at_front": "at_front_lem",
    "in_order": "in_order_lem",
    "place-of": "place_of_lem",
    "bit-of": "bit_of_lem",
    "line-at": "line_at_lem",
}


# the modules of theorems that crate plan_calls imports by a name of its own
MODULES = {"of-needs": "needs_theorems", "of-pages": "pages_theorems"}


def files():
    for p in sorted(glob.glob("crates/*/specs/**/*.antt", recursive=True) + glob.glob("crates/*/proofs/**/*.antt", recursive=True)):
        yield p


def lemmas(p):
    return not os.path.basename(p) == "Proof.antt"


def declared():
    """The names declared outside Proof.antt, each with whether it is a value."""
    found = {}
    for p in filter(lemmas, files()):
        for line in open(p, encoding="utf-8"):
            if line.lstrip().startswith(("--", "use ", "pub use ", "|", "(", "λ", "let ")):
                continue
            if re.match(r"\s*(?:abbrev |unfoldable |pub )*(record|data|module)\s", line):
                continue
            m = re.match(rf"\s*((?:{ID} )*{ID})\s*:(?!:)", line)
            if m:
                for n in m.group(1).split():
                    if n not in ("abbrev", "unfoldable", "pub"):
                        found[n] = True
        for m in re.finditer(r"use [^\s{};]+ as (\S+)", open(p, encoding="utf-8").read()):
            found[m.group(1)] = True
    return found


def imported():
    """The names that come from the library."""
    own = set(os.listdir("crates"))
    found = set()
    for p in list(files()) + glob.glob("crates/*/src/*.rt"):
        for m in re.finditer(r"use ([^\s{};]+)\.\{([^}]*)\}", open(p, encoding="utf-8").read()):
            where = m.group(1).split(".")
            if where[0] == "Rattle" and where[1] in own:
                continue
            found |= {n.strip().split(" as ")[0].strip() for n in m.group(2).split(",")}
    return found


def snake(name):
    parts = [re.sub(r"(?<=[a-z0-9])([A-Z])", lambda m: "_" + m.group(1).lower(), x) for x in name.split("-")]
    return "_".join(parts).replace("′", "'")


def table():
    library = imported()
    names = {n for n in declared() if not re.match(r"[A-Z]", n) and n not in library and "◌" not in n}
    to = {n: snake(n) for n in names if re.match(r"[a-z]", n) and snake(n) != n}
    to.update(APART)
    by_new = {}
    for old, new in to.items():
        by_new.setdefault(new, []).append(old)
    for new, olds in by_new.items():
        if len(olds) > 1:
            for old in olds:
                if "-" in old and old not in APART:
                    to[old] = new + "_lem"
    return to


def turn(text, to):
    return re.sub(ID, lambda m: to.get(m.group(0), m.group(0)), text)


def ticked(text, to):
    return re.sub(r"`[^`\n]*`", lambda m: turn(m.group(0), to), text)


def code(text, to, comment):
    out = []
    for line in text.split("\n"):
        at = re.search(rf"(?:^|\s){comment}", line)
        here, rest = (line, "") if not at else (line[: at.start()], line[at.start():])
        pieces = re.split(r"(\"(?:[^\"\\]|\\.)*\")", here) if comment == "//" else [here]
        out.append("".join(p if p.startswith('"') else turn(p, to) for p in pieces) + ticked(rest, to))
    return "\n".join(out)


def main():
    to = table()
    for p in list(files()):
        here = to | MODULES if p.startswith("crates/plan_calls/") else to
        write(p, lambda t: code(t, here, "--"))
    for p in glob.glob("crates/*/src/*.rt"):
        write(p, lambda t: code(t, to, "//"))
    for p in glob.glob("crates/*/must-fail/*.edit"):
        write(p, lambda t: edit(t, to))
    for p in glob.glob("*.md") + glob.glob("docs/**/*.md", recursive=True) + glob.glob("conformance/*.md"):
        write(p, lambda t: ticked(t, to))
    print(f"respell: {len(to)} names")


def edit(text, to):
    return "\n".join(l if l.startswith("file:") else turn(l, to) for l in text.split("\n"))


def write(p, how):
    old = open(p, encoding="utf-8").read()
    new = how(old)
    if new != old:
        open(p, "w", encoding="utf-8").write(new)


if __name__ == "__main__":
    main()
