#!/usr/bin/env python3
"""Places of src/ that may read like an older Rattle, by the points of docs/DESIGN-PASS.md: `places.py [TOP] [POINT]`.

Each rule is a pattern for a line, or (twins) a comparison of function bodies. A rule finds candidates: the page says which of them are none.
Without POINT the counts are printed, with it the lines of that point."""
import pathlib
import re
import sys

TOP = pathlib.Path(sys.argv[1] if len(sys.argv) > 1 else ".")
POINT = sys.argv[2] if len(sys.argv) > 2 else ""

RULES = [
    ("1a own Option or Result", r"^\s+(Nothing|Unreadable|Unseated|Unknown|Other|Refused\(u16\)|Refused \{.*),$"),
    ("1b a flag beside a value", r"^\s+(pub )?(ok|readable|more|whole): bool,$"),
    ("1c 0 or a blank for none", r"//.*(\(0:|[^0-9a-z]0 where|else 0\b|0 for none|Each is 0)|^\s*(pub )?fn (no|not)_(head|spot|item|listed|usual|plan|shape)\(|^fn (nowhere|unreadable|ended|refuse)\("),
    ("1d a number for a refusal", r"^(pub )?const (?!MAX_CARBONS|SLIGHT_CARBONS)[A-Z_]+: u16 = [0-9]+;$"),
    ("1e a number for a kind", r"^(pub )?const (OPENING|BONDED|CLOSED|WHOLE|BORON|CARBON|CLASS|SWAP|TAIL|SN[1-4]): (u32|usize) = [0-9]+;$"),
    ("3  a loop that counts by hand", r"^\s+(while .*|loop) \{$"),
    ("4a a smaller or a larger of two", r"^\s*(pub )?fn (at_most|least|larger|within|in_line|in_places|in_room|capped|one_at_least|from_one|advance|one_more|more|nearer)\("),
    ("4b a conversion", r"^\s*(pub )?fn (wide|narrow|counted|figure|index|digit|past|letter_place|wide_branch_atoms|flags?_code|role_code|role_in|geometry_code|geometry_in|bridge_code|bridge_in|bond_number|group_number)\("),
    ("4c a comparison", r"^\s*(pub )?fn (both|is_among|is_within|is_second|is_cy|same_ring|starts_at|sits_at|on_first|is_rows|is_header)\("),
    ("6  numbers that are packed", r"^(?!\s*//).*(: &(mut )?\[u64[\];]|\[u64; [A-Z_0-9]+\]|\[u32; NOTE_ROOM\]|\[0u64; |\[0u32; NOTE_ROOM)"),
]
KEYWORDS = set("if else while loop for in let mut return match continue break true false as self fn pub impl".split())


def skeleton(body):
    """The body with its names by order, and one word for each type and constant."""
    body = re.sub(r'b?"(?:[^"\\]|\\.)*"|b\'(?:[^\'\\]|\\.)\'', "S", body)
    body = re.sub(r"\b0x[0-9a-f_]+\b|\b\d[\d_]*(?:u\d+|usize)?\b", "N", body)
    body = re.sub(r"\b(u8|u16|u32|u64|usize|bool)\b", "T", body)
    names = {}

    def name(m):
        w = m.group(0)
        return w if w in KEYWORDS or w in "SNT" else names.setdefault(w, f"v{len(names)}")

    return re.sub(r"\s+", " ", re.sub(r"[A-Za-z_]\w*", name, body))


def functions(text):
    """Each function: its name, its parameters and clauses, and its body."""
    for m in re.finditer(r"(?m)^([ ]*)(?:pub |extern \"C\" )*fn (\w+)", text):
        start = re.compile(r"(?m)\{\n|^" + m.group(1) + r"\{$").search(text, m.end())
        at = depth = start.start() if start else len(text)
        i, depth = at, 0
        while i < len(text):
            depth += (text[i] == "{") - (text[i] == "}")
            if depth == 0:
                break
            i += 1
        yield m.group(2), text[m.end():at], text[at:i + 1]


def parameters(head):
    """How many parameters a head has."""
    depth, n, any_word = 0, 0, False
    for c in head[head.index("("):]:
        depth += (c in "([<") - (c in ")]>")
        if depth == 0:
            break
        if depth == 1 and c == ",":
            n, any_word = n + 1, False
        elif depth == 1 and c.isalpha():
            any_word = True
    return n + any_word


def clauses(files):
    """The clauses that stand in three functions or more."""
    at = {}
    for f, text in files:
        for name, head, _ in functions(re.sub(r"//[^\n]*", "", text)):
            for clause in set(re.findall(r"(?m)^\s+requires (?:\w+ )?\{ (.*) \}$", head)):
                at.setdefault(clause, []).append(f"{f}:{name}")
    return {c: w for c, w in at.items() if len(w) > 2}


def twins(files):
    groups = {}
    for f, text in files:
        for name, _, body in functions(re.sub(r"//[^\n]*", "", text)):
            s = skeleton(body)
            if len(s) > 60:
                groups.setdefault(s, []).append(f"{f}:{name}")
    return sorted(g for g in groups.values() if len(g) > 1)


files = [(f.relative_to(TOP), f.read_text()) for f in sorted(TOP.glob("crates/*/src/**/*.rt"))]
for title, pattern in RULES:
    found = [f"{f}:{n}: {line.strip()}" for f, text in files for n, line in enumerate(text.split("\n"), 1) if re.search(pattern, line)]
    if not POINT:
        print(f"{len(found):4}  {title}")
    elif title.startswith(POINT):
        print("\n".join(found))
groups, facts = twins(files), clauses(files)
long = [f"{f}:{name} {parameters(head)}" for f, text in files for name, head, _ in functions(text) if parameters(head) > 7]
if not POINT:
    print(f"{sum(map(len, groups)):4}  2  twins, in {len(groups)} groups")
    print(f"{sum(map(len, facts.values())):4}  5a a `requires` that stands in three functions or more, {len(facts)} of them")
    print(f"{len(long):4}  5b a function of eight parameters or more")
elif POINT.startswith("2"):
    print("\n".join("  ".join(g) for g in groups))
elif POINT.startswith("5"):
    print("\n".join(f"{len(w)} {c}" for c, w in sorted(facts.items())) + "\n" + "\n".join(long))
