"""Answers the orders of a sheet by the csv module, and writes them as CSV:

    python3 orders_csv.py ORDERS.tsv >ANSWERED.csv
"""

import csv
import sys

import perlwynos

# A cell is text, and swap is a flag.
SWAP = {"": False, "0": False, "1": True}


def tokens(row):
    """sn1 and so on, up to the last that is not blank."""
    names = [row.get(f"sn{place}") or "" for place in range(1, 5)]
    while names and not names[-1]:
        names.pop()
    return names


def answer(row):
    """The answer's number, the line and the meaning of a refusal."""
    try:
        drawn = perlwynos.draw(row["class"], tokens(row), row.get("tail") or "", SWAP[row.get("swap") or ""])
    except perlwynos.Refused as refused:
        return refused.number, "", str(refused)
    return 0, drawn.line, ""


def main():
    with open(sys.argv[1], newline="", encoding="utf-8") as sheet:
        rows = csv.DictReader(sheet, delimiter="\t", quoting=csv.QUOTE_NONE)
        writer = csv.writer(sys.stdout)
        writer.writerow([*rows.fieldnames, "answer", "line", "meaning"])
        for row in rows:
            writer.writerow([*(row[name] for name in rows.fieldnames), *answer(row)])


if __name__ == "__main__":
    main()
