#!/usr/bin/env python3
"""Brings the repository's own names in specs/ and proofs/ to Rattle's spelling.

Run once at the top of the repository, after the toolchain's own script. A definition, lemma, field, constructor or label that
is declared in specs/ or proofs/ with a dash or with a capital inside is written in snake case; a statement, whose name
begins with a capital, loses its dashes and stays in camel case. Names that Rattle makes (the goals) and names of src/ stay.
With --list it only prints the names, old and new, and what might fall together.
"""
import re
import sys
from pathlib import Path

TOKEN = re.compile(r"[^\s(){}\[\];,.\"⌜⌝]+")
DECLARED = re.compile(
    r"^\s*(?:(?:pub|abbrev|unfoldable|data|record|ruleset)\s+)*([^\s(){}\[\];,.:=]+)(?:\s+[({].*)?\s+:(?:\s|$)"
)
GOAL = re.compile(r":\s*goal\.")


# Names that would fall together with another, or that are the names of tactics.
CHOSEN = {
    "list-text": "list_text_lem",
    "no-terms": "no_terms_lem",
    "spoken-text": "spoken_text_lem",
    "front-getD": "front_get_or",
    "second-of": "second_figure",
}


def tactic_names(path, text):
    """Two definitions and an alias bear names of tactics."""
    if path.suffix == ".antt":
        text = re.sub(r"(?<![\w.])ground(?=\.)|(?<=TheVariants as )ground\b", "ground_term", text)
    if path.suffix == ".antt" or "refusals" in path.parts:
        figure = re.search(r"\bspecs\.Refusals\.\{[^}]*\bfirst_of\b", text) or path.name == "Refusals.antt"
        text = re.sub(r"(?<![\w.])first_of(?![\w-])", "first_figure" if figure else "first_given", text)
    return text


def snake(name):
    out = re.sub(r"(?<=[a-z0-9])([A-Z])", lambda m: "_" + m.group(1).lower(), name)
    return out.replace("-", "_")


def camel(name):
    parts = name.split("-")
    return parts[0] + "".join(p[:1].upper() + p[1:] for p in parts[1:])


def respelled(name):
    if not re.fullmatch(r"[A-Za-z0-9_'+-]+", name) or name.startswith("-"):
        return name
    if name in CHOSEN:
        return CHOSEN[name]
    return camel(name) if name[0].isupper() else snake(name)


def files():
    for ending in ("*.antt", "*.rt", "*.edit"):
        yield from sorted(Path("crates").rglob(ending))


def own_names():
    names = {}
    for path in sorted(Path("crates").rglob("*.antt")):
        if "out" in path.parts:
            continue
        for line in path.read_text().splitlines():
            found = DECLARED.match(line)
            if found and not GOAL.search(line) and not line.lstrip().startswith("--"):
                old = found.group(1)
                new = respelled(old)
                if new != old:
                    names[old] = new
    return names


def main():
    names = own_names()
    if "--list" in sys.argv:
        everything = set()
        for path in files():
            if "out" not in path.parts:
                everything.update(TOKEN.findall(path.read_text()))
        for old, new in sorted(names.items()):
            twins = [o for o, n in names.items() if n == new and o != old]
            print(old, new, "TAKEN" if new in everything else "", " ".join(twins))
        return
    for path in files():
        if "out" in path.parts:
            continue
        text = path.read_text()
        lines = []
        for line in text.split("\n"):
            keep = path.suffix == ".edit" and not re.match(r"(old|new):", line)
            keep = keep or (path.suffix == ".rt" and line.lstrip().startswith("//"))
            lines.append(line if keep else TOKEN.sub(lambda m: names.get(m.group(0), m.group(0)), line))
        new = tactic_names(path, "\n".join(lines))
        if new != text:
            path.write_text(new)


main()
