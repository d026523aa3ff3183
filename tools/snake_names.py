#!/usr/bin/env python3
"""Brings the repository's own names to today's spelling: words in snake case, types and modules in camel case.

usage: python3 tools/snake_names.py        at the top of the repository, once, behind the kit's port.py

A name of specs/ or proofs/ with a capital inside, as `refusalNumber`, is `refusal_number` behind it; the fields of
records of specs/ that had a dash have `_`, those of FIELDS here and the others by port.py. A lemma of LEMMAS, whose name
falls together with a definition's, then ends in `_lem`; so does `item_name_lem` of spec, which was mended by hand.
Turned are .antt files, what is not a string of .rt files, and the texts of must-fail edits. Functions, exported names,
strings, inputs and outputs keep their names; so do the names of XML attributes in comments.
"""

import collections
import os
import re
import sys

TOKEN = re.compile(r"[^\s(){}\[\].,;:=@\\«»`\"|+*/%<>&!?#]+")
SIGNATURE = re.compile(r"^\s*(?:\|\s*)?(?:(?:abbrev|unfoldable|pub)\s+)*([^\s(){}:]+)\s*:\s")
# attributes of the documents, as XML spells them
XML = {
    "creationTime", "instanceId", "bufferSize", "nextSequence", "firstSequence", "lastSequence", "dataItemId",
    "nativeCode", "nativeSeverity", "componentId", "subType",
}
# lemmas that a definition would fall together with
LEMMAS = """all_held at_ok at_rows by_level first_byte first_rows goes_on group_lines head_ok holds_at item_ok items_at
    join_first no_place number_ok plain_rows stands_at text_at""".split()
# declared where a lemma of another file has the name, so only there
FIELDS = """item-name a-pos a-max u-max c-max m-pos m-max names-min names-max names-len category-max calls-before
    single-outputs n-max m-is b-pos b-last last-max kept-up b-max""".split()


def texts(root):
    for folder, dirs, files in os.walk(os.path.join(root, "crates")):
        dirs[:] = sorted(d for d in dirs if d != "out")
        for f in sorted(files):
            if f.endswith((".rt", ".antt", ".edit")):
                yield os.path.join(folder, f)


def read(p):
    with open(p, encoding="utf-8") as f:
        return f.read()


def snake(name):
    return re.sub(r"(?<=[a-z0-9_'])([A-Z])", lambda m: "_" + m.group(1).lower(), name)


def is_camel(name):
    return re.match(r"^[a-z][a-z0-9]*[A-Z]?[a-zA-Z0-9]*(?:[-'₀-₉][\w'₀-₉-]*)?$", name) and re.search(r"[a-z0-9][A-Z]", name)


def own_names(files):
    """The names with a capital inside that .antt files declare or bind, and what stands for each."""
    found = set()
    for p in files:
        if p.endswith(".antt"):
            for line in read(p).split("\n"):
                if line.lstrip().startswith("--") or line.startswith("use "):
                    continue
                for t in TOKEN.findall(split_comment(line, "--")[0]):
                    if is_camel(t) and not re.match(r"^[hl][A-Z]'?$", t):
                        found.add(t)
    return found


def imported(files, root):
    """Names that come from the logic or the library, and not from a crate of this repository."""
    crates = set(os.listdir(os.path.join(root, "crates")))
    others = set()
    for p in files:
        if p.endswith(".edit"):
            continue
        for m in re.finditer(r"^(?:ghost )?use ([^\s{]+?)\.\{([^}]*)\}", read(p), re.M):
            parts = m.group(1).split(".")
            if parts[0] != "Rattle" or parts[1] not in crates:
                others |= {n.split(" as ")[0].strip() for n in m.group(2).split(",")}
    return others


def turn(text, names, kind):
    def word(m):
        return names.get(m.group(0), m.group(0))

    out = []
    for line in text.split("\n"):
        if kind == "rt":
            code, comment = split_comment(line, "//")
            pieces = re.split(r'(b?"(?:[^"\\]|\\.)*")', code)
            code = "".join(x if x.startswith(('"', 'b"')) else TOKEN.sub(word, x) for x in pieces)
        elif kind == "antt":
            code, comment = split_comment(line, "--")
            pieces = re.split(r'("(?:[^"\\]|\\.)*")', code)
            code = "".join(x if x.startswith('"') else TOKEN.sub(word, x) for x in pieces)
        else:
            if re.match(r"(old|new): ", line):
                pieces = re.split(r'(b?"(?:[^"\\]|\\.)*")', line)
                line = "".join(x if x.startswith(('"', 'b"')) else TOKEN.sub(word, x) for x in pieces)
            out.append(line)
            continue
        out.append(code + TOKEN.sub(lambda m: m.group(0) if m.group(0) in XML else word(m), comment))
    return "\n".join(out)


def split_comment(line, mark):
    if line.lstrip().startswith(mark):
        return "", line
    k = line.find(" " + mark + " ")
    return (line, "") if k < 0 or line[:k].count('"') % 2 else (line[:k], line[k:])


def main():
    root = "."
    files = list(texts(root))
    names = {n: snake(n) for n in own_names(files) - imported(files, root)}
    fields = {n: n.replace("-", "_") for n in FIELDS}
    taken = collections.Counter(names.values())
    for n, k in taken.items():
        if k > 1:
            print(f"fall together: {n}: {[o for o in names if names[o] == n]}", file=sys.stderr)
    lemmas = {n: n + "_lem" for n in LEMMAS}
    for p in files:
        kind = p.rsplit(".", 1)[1]
        old = text = read(p)
        if kind == "antt":
            # a step of a function's record keeps its name
            text = re.sub(r"(?<![\w.'-])(" + "|".join(LEMMAS) + r")(?![\w'-])", lambda m: lemmas[m.group(1)], text)
        text = turn(text, {**fields, **names}, kind)
        if text != old:
            with open(p, "w", encoding="utf-8") as f:
                f.write(text)
    for n in sorted(names):
        print(n, names[n])


if __name__ == "__main__":
    main()
