#!/usr/bin/env python3
"""Respells this repository's own definitions and lemmas: snake case for functions, lemmas, fields and constructors, camel case for facts and types.

usage: python3 tools/respell.py            at the top of the repository, once, after the library's names were turned
       python3 tools/respell.py --list     prints the names and what they become, and changes nothing

Only names that this repository declares with a dash are turned, and only as whole names: a goal's name, which the checker makes, keeps its dashes,
and so does a name of the library. Text in quotes and comments stays as it is.
"""

import os
import re
import sys

# A name is a run of anything but blanks, brackets, dots, commas, semicolons and quotes.
NAME = re.compile(r"[^\s(){}\[\].,;\"«»]+")
WORD = r"[^\s(){}\[\].,;\":«»]+"
DECLARES = re.compile(rf"^\s*(?:(?:pub|abbrev|unfoldable|mutual)\s+)*(?:(?:record|data|module)\s+({WORD})|({WORD}(?:\s+{WORD})*)\s*:(?!=))")
LIBRARY = re.compile(r"\s*(?:ghost )?(?:pub )?use (?:Rattle\.std|lib|native|mathlib|borrow|Prim)[^{]*\{([^}]*)\}")
# The checker's own names for the parts of a proof stay.
MADE = re.compile(r"^(?:returns|loop|invariant|decreases|overflow|bounds|slice_bounds|nonzero|offset_bounds|Inv|measure|add|sub|mul|cast|step)-|-(?:requires|preserved|init|smaller|pre|kept|down|result|fits)(?:-|$)|^(?:invariant_of|the)-")
GOAL = re.compile(r":\s*(?:goal|need|given|rules?)\.")
# Facts whose first word names something else, and names that would fall together.
BY_HAND = {
    "Goes_on": "GoesOn",
    "Laid_out": "LaidOut",
    "conjugate-times": "conjugate_product",
    "kind-of": "shape_kind",
    "rule-of": "rule_model",
}

# Names that look like the checker's own, and names whose declaration has another form.
ALSO = """Goes_on Laid_out admitted-fits automaton-kept codes-kept finals-kept grown-kept has-kept-by is-led low-enough mul-mod-mod named-fits no-rule none-higher
of-kept product-through rest-same side-at square-fits the-rule value-at""".split()


def files(root):
    for folder, dirs, names in os.walk(os.path.join(root, "crates")):
        dirs[:] = sorted(d for d in dirs if d != "out")
        for n in sorted(names):
            if n.endswith((".antt", ".rt", ".edit")):
                yield os.path.join(folder, n)


def read(path):
    with open(path, encoding="utf-8") as f:
        return f.read()


def respelled(name):
    if name in BY_HAND:
        return BY_HAND[name]
    if name[0].isupper():
        return "".join(w[:1].upper() + w[1:] for w in name.split("-"))
    return name.replace("-", "_")


def declared(root):
    found, library = {}, set()
    for path in files(root):
        for line in read(path).splitlines():
            use = LIBRARY.match(line)
            if use:
                library |= {n.strip().split(" as ")[0] for n in use[1].split(",")}
            if not path.endswith(".antt") or line.lstrip().startswith("--") or GOAL.search(line):
                continue
            m = DECLARES.match(line)
            for n in (m[1] or m[2]).split() if m else []:
                if "-" in n and n.replace("-", "") and not MADE.search(n):
                    found.setdefault(n, set()).add(os.path.relpath(path, root))
    found |= {n: {"listed by hand"} for n in ALSO}
    return {n: where for n, where in found.items() if n not in library}


def parts(text, comment):
    """The text in pieces: (piece, whether names in it are turned)."""
    i = 0
    for m in re.finditer(r'"(?:[^"\\\n]|\\.)*"|' + comment + r"[^\n]*", text):
        yield text[i : m.start()], True
        yield m[0], False
        i = m.end()
    yield text[i:], True


def turned(text, names, comment):
    return "".join(NAME.sub(lambda m: names.get(m[0], m[0]), t) if code else t for t, code in parts(text, comment))


def main(argv):
    root = "."
    found = declared(root)
    names = {n: respelled(n) for n in found}
    back = {}
    for n, to in names.items():
        back.setdefault(to, []).append(n)
    if argv == ["--list"]:
        for n in sorted(names):
            print(n, names[n], sorted(found[n])[0], sep="\t")
    trouble = [f"{ns} all become {to}" for to, ns in back.items() if len(ns) > 1]
    for path in files(root):
        text = read(path)
        here = {m for t, code in parts(text, "--" if path.endswith(".antt") else "//") if code for m in NAME.findall(t)}
        # A function whose contract is the lemma's statement has a folder of the lemma's name, and that may be.
        trouble += [f"{path}: {n} becomes {names[n]}, which stands there too" for n in sorted(here) if n in names and names[n] in here and f"/{names[n]}/" not in path]
    print("\n".join(trouble), file=sys.stderr)
    if argv == ["--list"]:
        return 0
    if trouble:
        return 1
    for path in files(root):
        text = read(path)
        comment = "--" if path.endswith(".antt") else "//"
        new = turned(text, names, comment)
        if new != text:
            with open(path, "w", encoding="utf-8") as f:
                f.write(new)
    print(len(names), "names")
    return 0


if __name__ == "__main__":
    raise SystemExit(main(sys.argv[1:]))
