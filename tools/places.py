#!/usr/bin/env python3
"""Lists the places in crates/*/src of each form that docs/DESIGN-PASS.md counts.

    python3 tools/places.py [ROOT]

A place is a function (or a type) that has the form at least once; a test is none. Each line is `point file: name`,
and each point ends with its count.
"""
import collections
import pathlib
import re
import sys

ROOT = pathlib.Path(sys.argv[1] if len(sys.argv) > 1 else ".")

# An item's head, from which on a line belongs to it.
HEAD = re.compile(r"^\s*(?:pub(?:\([a-z]+\))? )?(?:(?:const )?fn|struct|enum|trait) (\w+)|^\s*impl.*?(\w+)(?:<[^>]*>)? \{$")

FORMS = {
    # an Option or a Result turned by hand, a flag beside a value, a number for a refusal
    "1": r"Some\(\w+\) => (?:Ok|Some)\(|None => (?:return )?(?:Err|None)\b|Err\(\w+\) => (?:return )?(?:Err|Some|None)\b"
    r"|Ok\(\w+\) => (?:Ok|Some)\(|else \{\s+(?:return )?None;?\s|unreachable\(\)|map_or\(Ok|\bslash: bool,|first: bool|-> Result<bool|fn number\(",
    # loops that count, test or search by hand
    "3": r"\bwhile |\.enumerate\(\) \{|for \w+ in \w+\.\.|for b in (?:bytes|word|text) \{",
    # equality, conversion and printing by hand
    "4": r"impl PartialEq |impl From|impl<T: Drop> From|impl fmt::Display for Failure|from_utf8\(|b'0' \+|same_bytes\([^)]*\)\s+\|\| same_bytes|Err\(\w+\) => (?:return )?Err\(\w+::\w+\(",
    # buffers with a length, indices into a text
    "6": r"\[u8; \w+\],|\[0u8; \w+\]|\b(?:at|from|start|len|count|end): usize",
    # a switch on the step to run
    "7": r"enum (?:Way|WordStyle|Step)\b|match (?:way|style|step) \{",
}

CALL = re.compile(r"\{\n\s+(?:self\.)?(\w+)\(([\w, &*.\"]*)\);?\n\s*\}")


def items(path):
    """The items of a file, without its tests: name and text."""
    name, text = "(head)", []
    for line in path.read_text().split("\n"):
        if line.startswith("#[cfg(test)]"):
            break
        if line.strip().startswith("//") or line.startswith("use ") or line.startswith("ghost use"):
            continue
        head = HEAD.match(line)
        if head:
            yield name, "\n".join(text)
            name, text = head.group(1) or head.group(2), []
        text.append(line)
    yield name, "\n".join(text)


def main():
    found = collections.defaultdict(list)
    names, clauses, pairs = collections.Counter(), collections.Counter(), collections.Counter()
    for path in sorted((ROOT / "crates").glob("*/src/**/*.rt")):
        short = str(path.relative_to(ROOT / "crates"))
        for name, text in items(path):
            for point, form in FORMS.items():
                if re.search(form, text):
                    found[point].append(f"{short}: {name}")
            if "fn " + name in text:
                names[name] += 1
                call = CALL.search(text)
                if call and call.group(1) != name:
                    found["2"].append(f"{short}: {name} hands on to {call.group(1)}")
            if re.search(r"\[u8; \w+\],\n\s+len: usize,", text):
                found["2"].append(f"{short}: {name} (bytes and a length)")
            for clause in re.findall(r"(?:requires|ensures) (?:\w+ )?\{ (.*) \}$", text, re.M):
                clauses[re.sub(r"\b\w+\.(now|old|new)\b", "_", clause)] += 1
            if re.search(r"(?:cells?|text): &(?:'\w+ )?(?:mut )?\[\w+\],\s+(?:at|from|count): usize", text):
                pairs["a buffer or text, and a place in it"] += 1
            if re.search(r"path: &ModulePath,\s+item: &PlainName", text):
                pairs["path, item"] += 1
    for name, count in sorted(names.items()):
        if count > 1 and name not in ("new", "fmt", "from", "main", "eq", "of", "read", "as_bytes", "next"):
            found["2"].append(f"(several files) fn {name}, {count} times")
    found["5"] += [f"{count} times: {clause}" for clause, count in clauses.items() if count > 2]
    found["5"] += [f"{count} functions: {what}" for what, count in pairs.items() if count > 2]
    answers = sum(len(re.findall(r"^pub ", path.read_text(), re.M)) for path in (ROOT / "crates").glob("*/proofs/**/Answers.antt"))
    lemmas = sum(len(re.findall(r"^(?:pub )?[\w-]+ :", path.read_text(), re.M)) for path in (ROOT / "crates").glob("*/proofs/*.antt"))
    for point in "1234567":
        for place in found[point]:
            print(point, place)
        print(f"{point}: {len(found[point])}")
    print(f"8: {answers} answers, {lemmas} lemmas")


main()
