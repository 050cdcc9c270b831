#!/usr/bin/env python3
"""Brings the names of definitions and lemmas to the spelling of the Rattle that this repository stands on: words in snake case.

usage: tools/port/respell.py    at the top of the repository, once, after the kit's own port.py

It turns each name in camel case that begins with a small letter, in specs, proofs, contracts, comments, must-fail edits and pages.
Strings, functions of src/, inputs and outputs keep what they have: no function of src/ has such a name.
A name that another thing has already where it is used gets another spelling, or the lemma that has it gets `_lem`.
"""
import os
import re
import subprocess

# Names whose plain spelling is that of a field or a parameter beside them.
OTHER = {"etherBase": "is_ether_base", "tailAtoms": "atoms_of_tail"}
# Lemmas that have the name that their definition gets, and the files that have or cite them.
LEMMA_FILES = {
    "after_open": ["crates/template_rules/proofs/Templates.antt"],
    "branch_closes": ["crates/tail_grammar/proofs/tail/Alone.antt", "crates/tail_grammar/proofs/tail/Scan.antt", "crates/tail_grammar/proofs/tail/Plain.antt"],
    "digit_or": ["crates/tail_grammar/proofs/tail/Alone.antt"],
    "goes_on": ["crates/tail_grammar/proofs/tail/Alone.antt"],
    "none_open": ["crates/tail_grammar/proofs/tail/Exactly.antt"],
    "ring_in": ["crates/chain_record/proofs/ringcodes/Laws.antt", "crates/chain_record/proofs/ringcodes/ring_in/Proof.antt"],
}
WORD = r"[A-Za-z_][A-Za-z0-9_]*"
CAMEL = re.compile(r"[a-z][a-z0-9]*(?:_[a-z0-9]+)*[A-Z][A-Za-z0-9_]*$")
STRING = re.compile(r'"(?:[^"\\]|\\.)*"')


def snake(word):
    return OTHER.get(word) or re.sub(r"(?<=[a-z0-9])([A-Z])", lambda it: "_" + it[1].lower(), word).lower()


def files(endings, top="crates"):
    for folder, folders, names in os.walk(top):
        folders[:] = sorted(it for it in folders if it not in ("out", ".git", "target"))
        for name in sorted(names):
            if name.endswith(endings):
                yield os.path.join(folder, name)


def read(path):
    with open(path, encoding="utf-8") as file:
        return file.read()


def write(path, text):
    with open(path, "w", encoding="utf-8") as file:
        file.write(text)


def outside_strings(text, turn):
    out, at = [], 0
    for it in STRING.finditer(text):
        out += [turn(text[at : it.start()]), it[0]]
        at = it.end()
    return "".join(out + [turn(text[at:])])


def main():
    for name, paths in LEMMA_FILES.items():
        for path in paths:
            if os.path.exists(path):
                write(path, re.sub(rf"(?<![\w.'-]){name}(?![\w'-])", name + "_lem", read(path)))
    words, modules = set(), {}
    for path in files((".antt", ".rt")):
        text = STRING.sub("", read(path))
        text = re.sub(r"^\s*(--|//).*$", "", text, flags=re.M)
        words |= {it for it in re.findall(WORD, text) if CAMEL.match(it)}
        for it in re.finditer(rf"^\s*(?:pub )?use [^\s{{}}]+ as ({WORD})$", text, flags=re.M):
            if CAMEL.match(it[1]):
                modules[it[1]] = it[1][0].upper() + it[1][1:]
    # what an alias names keeps the case of a module
    turn_to = {it: snake(it) for it in words} | modules
    # in edits and pages: what the kit's script has renamed already, too
    now = set()
    for path in files((".antt", ".rt")):
        now |= set(re.findall(WORD, read(path)))

    def turn(text):
        return re.sub(WORD, lambda it: turn_to.get(it[0], it[0]), text)

    def turn_page(text):
        def one(it):
            if it[0] in turn_to:
                return turn_to[it[0]]
            return snake(it[0]) if CAMEL.match(it[0]) and snake(it[0]) in now else it[0]

        return re.sub(WORD, one, text)

    for path in files((".antt", ".rt")):
        text = read(path)
        new = "".join(outside_strings(line, turn) for line in text.splitlines(keepends=True))
        new = new.replace("record·Refused", "Record-as-Refused")
        if new != text:
            write(path, new)
    for path in files((".edit",)):
        text = read(path)
        new = "".join(outside_strings(line, turn_page) for line in text.splitlines(keepends=True))
        if new != text:
            write(path, new)
    pages = [it for it in files((".md",), ".") if not it.startswith("./bindings")]
    for path in pages:
        text = read(path)
        new = re.sub(r"`[^`\n]*`", lambda it: turn_page(it[0]), text)
        if new != text:
            write(path, new)
    for path in ["tests/edits/run"]:
        text = read(path)
        new = turn_page(text)
        if new != text:
            print(f"look: {path} names what was turned")
    print(f"{len(turn_to)} names turned")


if __name__ == "__main__":
    main()
