"""Looks at the contact sheets that tests/pictures/run made: see there."""

import collections
import html
import pathlib
import re
import sys

MADE = pathlib.Path(sys.argv[1])
EXAMPLES = pathlib.Path("examples")
ATOM = re.compile(r"\[\d*([A-Z][a-z]?|[a-z*])[^]]*\]|(Cl|Br|[BCNOPSFIbcnops*])")


def fail(text):
    sys.exit(f"tests/pictures/run: {text}")


def counts(line):
    """The atoms of each element and the bonds of the text of a line, counted without a toolkit."""
    text = line.split(" |")[0]
    atoms = collections.Counter((bracket or plain).capitalize() for bracket, plain in ATOM.findall(text))
    rings = len(re.findall(r"%\d\d|\d", re.sub(r"\[[^]]*\]", "", text))) // 2
    bonds = sum(atoms.values()) - 1 - text.count(".") + rings
    return " ".join(f"{symbol}={number}" for symbol, number in sorted(atoms.items())), bonds


def sections(page):
    return {int(row): (head, body) for row, head, body in re.findall(r'<section data-row="(\d+)"([^>]*)>(.*?)</section>', page, re.S)}


def check_orders():
    page = sections((MADE / "orders.html").read_text(encoding="utf-8"))
    answers = [row.split("\t") for row in (EXAMPLES / "orders.out").read_text(encoding="ascii").split("\n")[1:] if row and row[0] != "#"]
    meanings = dict(row.split("\t")[:2] for row in pathlib.Path("tools/sheet/answers.tsv").read_text(encoding="ascii").splitlines())
    if sorted(page) != list(range(1, len(answers) + 1)):
        fail("the page of examples/orders.tsv has not each row once")
    for row, (number, at, line, _) in enumerate(answers, 1):
        head, body = page[row]
        if f'data-answer="{number}"' not in head:
            fail(f"row {row}: another answer")
        if number != "0":
            if html.escape(meanings[number].replace("{}", f"sn{at}")) not in body or "<svg" in body:
                fail(f"row {row}: its refusal is not said")
            continue
        atoms, bonds = counts(line)
        if f'data-atoms="{atoms}" data-bonds="{bonds}"' not in head:
            fail(f"row {row}: not the atoms {atoms} and the {bonds} bonds of its line, but {head.strip()}")
        if len(re.findall(r"class='bond'", body)) != bonds:
            fail(f"row {row}: not {bonds} bonds are drawn")
        if f"<code>{html.escape(line, quote=False)}</code>" not in body:
            fail(f"row {row}: its line is not shown")
    if sum(number == "0" for number, *_ in answers) < 100:
        fail("examples/orders.tsv has too few accepted rows to say much")


def check_desk():
    """What is said, without the pictures: these may differ from one version of CDK or of a font to another."""
    made, stored = (
        re.sub(r"<svg.*?</svg>", "<svg/>", path.read_text(encoding="utf-8"), flags=re.S)
        for path in (MADE / "desk.html", EXAMPLES / "desk.html")
    )
    if made != stored:
        fail("examples/desk.html is not what tools/pictures/sheet makes of examples/desk.tsv")
    for words in ("OH on one of C2 to C18", "a + b = 15", "sn1, sn2 may be exchanged", "order 4711-1", "South &amp; Sons"):
        if words not in made:
            fail(f"the page of examples/desk.tsv does not say: {words}")


def check_paper():
    data = (MADE / "desk.pdf").read_bytes()
    pages = int(re.search(rb"/Count (\d+)", data).group(1))
    start = int(re.search(rb"startxref\n(\d+)\n%%EOF\n$", data).group(1))
    if not data.startswith(b"%PDF-1.4\n") or data[start : start + 5] != b"xref\n" or data.count(b"/Subtype /Image") != pages:
        fail("desk.pdf is not whole")


check_orders()
check_desk()
check_paper()
