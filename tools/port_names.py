#!/usr/bin/env python3
"""Spells the definitions and lemmas of the repository in snake case, where `port.py` did not: `goodPrefix` becomes `good_prefix`, `char-length` `char_length`.

usage: port_names.py           run once, right after port.py, at the top of the repository
       port_names.py --list    writes the table of old and new names, and changes nothing

What turns: each name that a file of specs/ or proofs/ declares, fields and constructors included, wherever it stands as a whole word: in antt, in the clauses of src/, in
must-fail edits, and in the code spans of documents. What stays: types (in camel case already); the rules and alternatives of RFC 3629's grammar, which are the RFC's own names;
functions of src/; names of the library; names that Rattle makes. Where a lemma would meet a definition, it gets `_lem`.
"""
import collections
import pathlib
import re
import sys

ROOT = pathlib.Path(__file__).resolve().parent.parent
NAME = r"[^\s(){}.;,@\"«»]+"
DECLARED = re.compile(r"^( *)((?:(?:abbrev|unfoldable|pub|ruleset|data|record) )*)([^\s(){}.;,@\"«»:=]+)((?: (?:\{[^{}]*\}|\([^()]*\)))*) (?::|=)( |$)")
WORD = re.compile(NAME)
# what Rattle makes of a function's name or of its code
MADE = re.compile(r"(?:invariant|decreases)-|.*-spec$|(?:returns|loop|overflow|bounds|slice|nonzero)(?:-|$)")
GRAMMAR = re.compile(r"UTF8-\w+|[0-9A-F]{2}-[0-9A-F]{2}")
# these were in snake case before, and another name comes to meet them
MET = {"in_window", "is_true", "items_at", "left_by", "no_code"}
MET_IN_LAYOUTS = {"not_last": "not_last_there", "too_long": "too_long_there"}
MET_IN_FILE = {"crates/layouts_calls/proofs/CallOurs.antt": {"by_row": "by_row_lem"}}


ALL = []


def sources():
    for folder in ("specs", "proofs"):
        yield from sorted(ROOT.glob(f"crates/*/{folder}/**/*.antt"))


def in_snake_case(name):
    if not name[0].isupper():
        name = re.sub(r"(?<=[a-z0-9])[A-Z]", lambda hump: "_" + hump[0].lower(), name)
    return name.replace("-", "_")


def declared():
    """The names that turn, each with what it is called from now on."""
    table = {}
    for file in sources():
        text = file.read_text()
        names = []
        for line in text.split("\n"):
            if line.startswith("use ") or line.lstrip().startswith("--"):
                continue
            if found := DECLARED.match(line):
                # a type keeps its spelling; so does what Rattle makes of a function
                if {"data", "record"} & set(found[2].split()) or MADE.fullmatch(found[3]) or (file.name in ("Proof.antt", "Answers.antt") and re.search(r" : tie\.", line)):
                    continue
                names.append(found[3])
        for name in names:
            if GRAMMAR.fullmatch(name) or name[0] in "_◌":
                continue
            new = in_snake_case(name)
            if new != name:
                table[name] = new
    # the definition has the plain name
    defined = {new for name, new in table.items() if "-" not in name}
    for name, new in table.items():
        if "-" in name and (new in defined or meets(name, new)):
            table[name] = new + "_lem"
    return table | {name: name + "_lem" for name in MET}


def words(text):
    """The words of a text, but for the parts of paths."""
    return set(re.findall(rf"(?<![^\s(){{}};,@\"«»])({NAME})(?!\.)", text))


def meets(name, new):
    return any({name, new} <= here for here in ALL)


def turned(text, table, made=()):
    """The text in the new names; behind a dot, what Rattle makes of a function's calls stays."""

    def new(word):
        if made and word.start() and text[word.start() - 1] == "." and word[0].replace("-", "_") in made:
            return word[0]
        return table.get(word[0], word[0])

    return WORD.sub(new, text)


def main(options):
    ALL.extend(words(file.read_text()) for file in sources())
    table = declared()
    if options == ["--list"]:
        for name, new in sorted(table.items()):
            print(f"{name}\t{new}")
        return 0
    files = list(sources()) + sorted(ROOT.glob("crates/*/src/**/*.rt")) + sorted(ROOT.glob("crates/*/must-fail/*.edit"))
    changed = 0
    functions = {name for file in ROOT.glob("crates/*/src/**/*.rt") for name in re.findall(r"\b(?:fn|let(?: mut)?) (\w+)", file.read_text())}
    for file in files:
        text = file.read_text()
        here = str(file.relative_to(ROOT))
        new = turned(text, table | (MET_IN_LAYOUTS if here.startswith("crates/layouts") else {}) | MET_IN_FILE.get(here, {}), functions if file.name == "Proof.antt" else ())
        if new != text:
            file.write_text(new)
            changed += 1
    # a name of one word is not told from English in a document
    span = re.compile(r"(`+)([^`\n]+)\1")
    for file in sorted(ROOT.glob("docs/*.md")) + [ROOT / "README.md", ROOT / "CONTRIBUTING.md"]:
        text = file.read_text()
        new = span.sub(lambda code: code[1] + turned(code[2], table) + code[1], text)
        new = "\n".join(turned(line, table) if line.startswith("    ") else line for line in new.split("\n"))
        if new != text:
            file.write_text(new)
            changed += 1
    print(f"{changed} files, {len(table)} names")
    return 0


if __name__ == "__main__":
    sys.exit(main(sys.argv[1:]))
