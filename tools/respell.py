#!/usr/bin/env python3
"""Respells the repository's own names of definitions and lemmas, once, after port/port.py of the kit.

usage: python3 tools/respell.py [--dry]     at the top of the repository

A name with a dash that a file of specs/ or proofs/ defines (a definition, a lemma, a field, a constructor, a name of a `where`) gets
underscores, and camel case where it names a type. Names of the library, and those that Rattle makes for goals, stay. Pages name the same
things, so README.md and docs/ are respelled too. It stops where two names would fall together.
"""

import glob
import re
import sys

# A name as antt reads it: a dash joins its parts.
NAME = r"[A-Za-z][A-Za-z0-9_']*(?:-[A-Za-z0-9_']+)+"
# What may be said before the name that a line defines.
LED = r"^\s*(?:(?:pub|abbrev|unfoldable|data|record|where)\s+)*"
DEFINED = re.compile(LED + r"(" + NAME + r")\s*(?:\([^)]*\)\s*|\{[^}]*\}\s*)*:(?!=)")
USED = re.compile(r"^\s*(?:ghost )?use (Rattle\.[\w.'-]+|[\w.'-]+)\.\{([^}]*)\}")
TOKEN = re.compile(r"(?<![A-Za-z0-9_'-])" + NAME + r"(?![A-Za-z0-9_'-])")
# Names that would fall together with a function of the code that cites them.
APART = {
    "is-path": "is_path_text",
    "are-components": "are_components_text",
    "starts-well": "starts_well_text",
    "without-last": "without_last_names",
    "line-end": "line_end_lem",
}
# Names of methods, of functions that no clause stands beside, and of goals: nothing falls together.
BESIDE = {"join_path", "words_end"}


def files(kinds):
    return sorted(f for kind in kinds for f in glob.glob(f"crates/*/{kind}", recursive=True) if "/out/" not in f)


def read(path):
    with open(path, encoding="utf-8") as f:
        return f.read()


def respelled(name):
    if name in APART:
        return APART[name]
    if name[0].isupper():
        return "".join(part[0].upper() + part[1:] for part in name.split("-"))
    return name.replace("-", "_")


def own_names():
    """The names with a dash that lemma files and definitions define; the answers' own names are Rattle's."""
    names = set()
    for path in files(["specs/*.antt", "proofs/*.antt"]):
        for line in read(path).split("\n"):
            found = DEFINED.match(line)
            if found:
                names.add(found.group(1))
    return names


def library_names():
    names = set()
    for path in files(["specs/*.antt", "proofs/**/*.antt", "src/**/*.rt"]):
        for line in read(path).split("\n"):
            found = USED.match(line)
            if found and not re.match(r"Rattle\.(wesl|replay|published)", found.group(1)):
                names |= set(re.findall(NAME, found.group(2)))
    return names


def main(argv):
    library = library_names()
    names = own_names() - library
    new = {name: respelled(name) for name in names}
    taken = {}
    words = set()
    for path in files(["specs/*.antt", "proofs/**/*.antt"]):
        words |= set(re.findall(r"(?<![A-Za-z0-9_'-])[A-Za-z][A-Za-z0-9_']*(?![A-Za-z0-9_'-])", read(path)))
    for path in files(["src/**/*.rt"]):
        words |= set(re.findall(r"\bfn (\w+)", read(path)))
    stop = False
    for name, to in sorted(new.items()):
        if to in taken or (to in words and to not in BESIDE):
            print(f"falls together: {name} as {to} with {taken.get(to, 'a name that stands')}")
            stop = True
        taken[to] = name
    if stop:
        return 1
    if "--dry" in argv:
        print("\n".join(f"{name} {to}" for name, to in sorted(new.items())))
        return 0
    changed = 0
    for path in files(["specs/*.antt", "proofs/**/*.antt", "src/**/*.rt"]) + ["README.md"] + sorted(glob.glob("docs/*.md")):
        text = read(path)
        to = TOKEN.sub(lambda m: new.get(m.group(0), m.group(0)), text)
        if to != text:
            with open(path, "w", encoding="utf-8") as f:
                f.write(to)
            changed += 1
    print(f"respelled {len(new)} names in {changed} files")
    return 0


if __name__ == "__main__":
    raise SystemExit(main(sys.argv[1:]))
