#!/usr/bin/env python3
"""Compare how RDKit and document 01 read the lines of a batch output.

    compare_rdkit.py [OUT] [--every N]

OUT is what the batch program prints (default: vectors/requests.out); each line of
an accepted row is read twice, by the reading rules of 01 (tools/model) and by
RDKit, and compared: the atoms with their symbols, the bonds with their orders, the
sn labels, the repeat marks and the site lists. Nothing else is decided here, and
the gate does not need it.

It needs RDKit's Python package (Debian: python3-rdkit). Where there is none, it
says so and ends well.
"""

import argparse
import collections
import os
import re
import sys

HERE = os.path.dirname(os.path.abspath(__file__))
ROOT = os.path.dirname(os.path.dirname(HERE))
sys.path.insert(0, os.path.join(ROOT, "tools", "model"))

try:
    from rdkit import Chem, RDLogger
except ImportError:
    print("compare_rdkit: skipped, there is no RDKit (Debian: apt-get install python3-rdkit)")
    sys.exit(0)

import model  # noqa: E402

RDLogger.DisableLog("rdApp.*")

# 01 is wider than OpenSMILES here, so RDKit's refusal is no difference.
WIDER = "a bracket outside OpenSMILES"

# RDKit's order of a bond for each mark of 01; a mark of geometry is a single bond.
ORDERS = {b"": 1.0, b"=": 2.0, b"#": 3.0, b"/": 1.0, b"\\": 1.0}


def accepted_lines(path):
    """The line of each accepted row."""
    with open(path, "rb") as rows:
        for row in rows:
            cells = row.rstrip(b"\n").split(b"\t")
            if len(cells) == 4 and cells[0] == b"0":
                yield cells[2]


# What may stand in a bracket by OpenSMILES: isotope, element, chirality, hydrogens, charge. 01 takes any 1 to 16 letters, digits, `+ - @`.
BRACKET = re.compile(r"\[\d*([A-Z][a-z]?|[bcnops]|se|as)(@{0,2})(H\d*)?([+-]\d*)?\]")


def symbol_of(symbol):
    """An atom's symbol as RDKit gives it, an aromatic letter as its capital; None for a bracket that OpenSMILES does not have."""
    symbol = symbol.decode()
    if symbol.startswith("["):
        match = BRACKET.fullmatch(symbol)
        if match is None:
            return None
        symbol = match.group(1)
    return symbol[0].upper() + symbol[1:]


def parse(line):
    """RDKit's molecule, unsanitized: its rules of valence are no rules of 01."""
    parameters = Chem.SmilesParserParams()
    parameters.sanitize = False
    parameters.removeHs = False
    parameters.allowCXSMILES = True
    parameters.strictCXSMILES = True
    return Chem.MolFromSmiles(line.decode("ascii"), parameters)


def order_of(bond):
    """A bond's order. Between two aromatic atoms RDKit calls a plain bond aromatic."""
    if bond.GetBondType() == Chem.BondType.AROMATIC:
        return 1.0
    return bond.GetBondTypeAsDouble()


def floating_ends(molecule):
    """The site lists by their floating atom: RDKit keeps them at that atom's bond, counted from 1."""
    ends = {}
    for bond in molecule.GetBonds():
        if not bond.HasProp("_MolFileBondEndPts"):
            continue
        listed = bond.GetProp("_MolFileBondEndPts").strip("()").split()[1:]
        dummy = bond.GetBeginAtom() if bond.GetBeginAtom().GetAtomicNum() == 0 else bond.GetEndAtom()
        ends[dummy.GetIdx()] = [int(i) - 1 for i in listed]
    return ends


def repeat_marks(molecule):
    """The repeat marks: atom and name."""
    marks = {}
    for group in Chem.GetMolSubstanceGroups(molecule):
        if group.GetProp("TYPE") != "SRU":
            continue
        for atom in group.GetAtoms():
            marks[atom] = group.GetProp("LABEL").encode() if group.HasProp("LABEL") else b""
    return marks


def differences(line):
    """What the two readings have differently, as words; RDKit may also refuse the line."""
    ours = model.read_line(line)
    symbols = [symbol_of(a.symbol) for a in ours.atoms]
    theirs = parse(line)
    if theirs is None and None in symbols:
        return [WIDER]
    if theirs is None:
        return ["RDKit refuses the line"]
    found = []
    if len(ours.atoms) != theirs.GetNumAtoms():
        found.append("number of atoms")
    if len(ours.bonds) != theirs.GetNumBonds():
        found.append("number of bonds")
    if symbols != [a.GetSymbol() for a in theirs.GetAtoms()]:
        found.append("symbols")
    bonds = sorted((a, b, ORDERS[mark]) for a, b, mark in ours.bonds)
    if bonds != sorted(
        (*sorted((b.GetBeginAtomIdx(), b.GetEndAtomIdx())), order_of(b)) for b in theirs.GetBonds()
    ):
        found.append("bonds")
    labels = {i: "sn%d" % a.label for i, a in enumerate(ours.atoms) if a.label is not None}
    if labels != {
        a.GetIdx(): a.GetProp("atomLabel")
        for a in theirs.GetAtoms()
        if a.HasProp("atomLabel") and a.GetProp("atomLabel")
    }:
        found.append("labels")
    marks = {i: a.variable for i, a in enumerate(ours.atoms) if a.variable is not None}
    if marks != repeat_marks(theirs):
        found.append("repeat marks")
    sites = {i: list(a.sites) for i, a in enumerate(ours.atoms) if a.sites is not None}
    if sites != floating_ends(theirs):
        found.append("site lists")
    return found


def main():
    arguments = argparse.ArgumentParser(description="compare RDKit's reading with that of 01")
    arguments.add_argument("out", nargs="?", default=os.path.join(ROOT, "vectors", "requests.out"))
    arguments.add_argument("--every", type=int, default=1, help="take each N-th line only")
    options = arguments.parse_args()
    lines = sorted(set(accepted_lines(options.out)))[:: options.every]
    counts = collections.Counter()
    shown = collections.Counter()
    for line in lines:
        found = differences(line)
        counts["same" if not found else "; ".join(found)] += 1
        if found and found != [WIDER] and shown["; ".join(found)] < 3:
            shown["; ".join(found)] += 1
            print("differs (%s): %s" % ("; ".join(found), line.decode("ascii", "replace")[:200]))
    for what, times in sorted(counts.items(), key=lambda c: -c[1]):
        print("%6d %s" % (times, what))
    return 0 if set(counts) <= {"same", WIDER} else 1


if __name__ == "__main__":
    sys.exit(main())
