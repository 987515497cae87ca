#!/usr/bin/env python3
"""Brings the names of this repository's definitions and lemmas to snake case, as the library has them.

usage: python3 tools/respell.py        at the top, once, after the kit's port.py

    leftToRight, left-none, no-cell-at  ->  left_to_right, left_none, no_cell_at

Types keep their capitals, and goals keep the names that the check gives them. Where a lemma would fall together with a
definition, it gets the ending `_lem`. In a page or an edit only names of definitions are respelled, and in a .rt file
those and the lemmas that it imports: elsewhere `a-b` is a difference.
A name that a file takes from the library under the same spelling stays in that file, and is reported.
"""
import collections
import glob
import re
import sys

DECLARED = re.compile(r"^(?:(?:abbrev|unfoldable|pattern|pub) )*([^\s:(){}]+)(?:\s*\{[^}]*\})*\s*:\s")
RECORD = re.compile(r"^(?:pub )?record (\S+)")
NESTED = re.compile(r"^( +)(?:(?:abbrev|unfoldable|pattern|pub) )*([^\s:(){}]+)(?:\s*\{[^}]*\})*\s*:\s")
FIELD = re.compile(r"^\s+(?:pub )?([^\s:(){}]+)\s*:\s")
WORD = r"[^\s(){}.;,@\"«»\[\]\\:]+"
IN_PROOFS = re.compile(r"--[^\n]*|" + WORD)
IN_TEXT = re.compile(r"(?<![\w-])[a-z][a-z0-9]*[A-Z]\w*")
USE = re.compile(r"^(?:ghost )?use ([^\s{;]+)\.\{([^}]*)\}", re.M)
RESERVED = {"data", "record", "open", "where", "module", "use", "let", "in", "do", "as", "ruleset", "row", "claim", "world", "met"}


def read(path):
    with open(path, encoding="utf-8") as it:
        return it.read()


def own_crates():
    return {path.split("/")[1] for path in glob.glob("crates/*/")}


def proofs():
    return sorted(glob.glob("crates/*/specs/*.antt") + glob.glob("crates/*/proofs/**/*.antt", recursive=True))


def is_defined(name, indent, rest):
    """Whether the lines after a signature, in a module with parameters or behind `where`, define its name."""
    for line in rest:
        word = line.split()
        if word and len(line) - len(line.lstrip()) <= indent and word[0] != "unfolding":
            return word[0] == name
    return False


def declared():
    """The names of definitions and lemmas, of record fields, and of types with a dash; and the files of each."""
    names, fields, types = collections.defaultdict(set), collections.defaultdict(set), set()
    for path in proofs():
        inside = False
        lines = read(path).split("\n")
        for at, line in enumerate(lines):
            nested = NESTED.match(line)
            if nested and is_defined(nested[2], len(nested[1]), lines[at + 1 :]):
                names[nested[2]].add(path)
            record = RECORD.match(line)
            if record:
                inside = True
                types.add(record[1])
            elif line.startswith(" "):
                field = FIELD.match(line) if inside else None
                if field:
                    fields[field[1]].add(path)
            elif line and not line.startswith("--"):
                inside = False
                name = DECLARED.match(line)
                if name and not re.search(r":\s*goal\.", line):
                    names[name[1]].add(path)
    return names, fields, types


def snake(name):
    return re.sub(r"(?<=[a-z0-9])[A-Z]", lambda it: "_" + it[0].lower(), name).replace("-", "_")


def camel(name):
    return "".join(word[:1].upper() + word[1:] for word in name.split("-"))


def respelled():
    """Old name to new name, and the old names of record fields."""
    names, fields, types = declared()
    new = {}
    for name in [*names, *fields]:
        if not name[0].isupper() and snake(name) != name:
            new[name] = snake(name)
    for name in types:
        if "-" in name:
            new[name] = camel(name)
    # A lemma may not take the name of a word of the library that its own file imports.
    own = own_crates()
    for name in list(new):
        if any(new[name] in foreign(read(path), own) for path in names[name]):
            new[name] += "_lem"
    taken = collections.defaultdict(set)
    for name in [*names, *fields]:
        taken[new.get(name, name)].add(name)
    for name, olds in taken.items():
        if len(olds) > 1:
            # The definition, which is in specs/ or in camel case, keeps the plain name.
            keep = [o for o in olds if any("/specs/" in path for path in names[o])] or [o for o in olds if "-" not in o and o != name] or [o for o in olds if o == name]
            for old in olds:
                if old not in keep[:1]:
                    new[old] = name + "_lem"
                    print(f"respell: {old} -> {name}_lem, beside {keep[:1]}")
    for old, name in new.items():
        if name in RESERVED:
            print(f"respell: {old} would be the reserved word {name}")
    return new, set(fields)


def foreign(text, own):
    """What a file imports from elsewhere than this repository."""
    out = set()
    for module, items in USE.findall(text):
        parts = module.split(".")
        if not (len(parts) > 1 and parts[0] == "Rattle" and parts[1] in own):
            for item in items.split(","):
                out.add(item.split(" as ")[-1].strip())
    return out


def turn(path, new, fields, pattern, own):
    text = read(path)
    theirs = foreign(text, own)

    def one(it):
        word = it[0]
        if word.startswith("--"):
            return IN_TEXT.sub(lambda w: new.get(w[0], w[0]), word)
        if word not in new:
            return word
        before = text[: it.start()]
        if word in theirs:
            print(f"respell: {path}: {word} is the library's there, and stays")
            return word
        # A dash behind a dot names a step or a goal of Rattle's, unless it is a field of a record here.
        if before.endswith(".") and "-" in word and word not in fields and re.search(r"(?:^|[\s({\[])(?:c|l|w|goal|a|at)(?:\.[^\s(){}]*)?\.$", before):
            return word
        return new[word]

    turned = pattern.sub(one, text)
    if turned != text:
        with open(path, "w", encoding="utf-8") as it:
            it.write(turned)


def turn_proofs_cited(path, new, own):
    """In a .rt file: the lemmas that it takes from this repository's proofs, wherever it cites them."""
    text = turned = read(path)
    for module, items in USE.findall(text):
        parts = module.split(".")
        if len(parts) > 1 and parts[0] == "Rattle" and parts[1] in own:
            for item in (it.strip() for it in items.split(",")):
                if "-" in item:
                    turned = re.sub(r"(?<![\w-])" + re.escape(item) + r"(?![\w-])", new.get(item, snake(item)), turned)
    if turned != text:
        with open(path, "w", encoding="utf-8") as it:
            it.write(turned)


def main():
    new, fields = respelled()
    own = own_crates()
    for path in proofs():
        turn(path, new, fields, IN_PROOFS, own)
    of_definitions = {old: name for old, name in new.items() if "-" not in old}
    texts = glob.glob("crates/*/src/*.rt") + glob.glob("crates/*/must-fail/*.edit") + glob.glob("docs/*.md") + ["README.md"]
    for path in sorted(texts):
        turn(path, of_definitions, fields, IN_TEXT, own)
        if path.endswith(".rt"):
            turn_proofs_cited(path, new, own)
    print(f"respell: {len(new)} names")


if __name__ == "__main__":
    sys.exit(main())
