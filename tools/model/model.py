"""An independent model of document 01: chain tokens as CXSMILES lines.

Written sentence by sentence from document 01, in its order; it carries no code of
the original Rust.  Points that 01 leaves open follow the project's decisions, some
of which were settled by what the original does, so there agreement with it shows
only that the model keeps the decision.  It is slow and plain on purpose.  Words
between double quotes are 01's, some of them shortened.

Drawing and line share the chain in its place (`Placed`) and `chain_bonds`, and all
that reads text shares `atom_at`.  A fault there is not seen by demand 3, only by
the comparison with the original.

Sections:

  1. Token reader        bytes of a token to a chain, or 11 or 31
  2. Tail                the grammar, and the tail's atoms and bonds
  3. Refusals            which number takes a request, in 01's order
  4. Drawing             a request as a molecule, without any text
  5. The line            a request as bytes, with its index lists and sites
  6. Reading             bytes of a line to a molecule, or unreadable
  7. The answer          one request, the whole call
  8. Demand 3            the line read is the molecule drawn, with its indices
  9. Batch program       a whole sheet

Words as everywhere in this project: a *part* is a part of a token, a *place* is
counted from the start of a slice, a *position* is a carbon's number in its
chain, an *index* is an atom's number in the molecule.
"""

from collections import Counter, namedtuple

MAX_TOKEN_BYTES = 255
MAX_CARBONS = 255
MAX_GROUPS = 16
MAX_RINGS = 8
MAX_POSITIONS = 32
MAX_TAIL_BYTES = 255
MAX_BRANCH_DEPTH = 16
MAX_BRACKET_BYTES = 16
FIRST_LABEL = 10
U32 = 2**32 - 1
U64 = 2**64 - 1


class Refused(Exception):
    """A refusal: 01's number, and the token's place from 1 where it has one."""

    def __init__(self, number, place=0):
        super().__init__(number, place)
        self.number = number
        self.place = place


# ---------------------------------------------------------------------------
# 1. Token reader
# ---------------------------------------------------------------------------

# "Group table, 17 rows."  Each row: abbreviation, branch as written, and the
# branch's atoms, each with the earlier atom of the branch that it hangs from
# (None: the carbon that carries the group) and the mark of that bond.
GROUP_ROWS = [
    (b"Et", b"CC", [(b"C", None, b""), (b"C", 0, b"")]),
    (b"Me", b"C", [(b"C", None, b"")]),
    (b"Br", b"Br", [(b"Br", None, b"")]),
    (b"Cl", b"Cl", [(b"Cl", None, b"")]),
    (b"F", b"F", [(b"F", None, b"")]),
    (b"I", b"I", [(b"I", None, b"")]),
    (b"NO2", b"[N+](=O)[O-]", [(b"[N+]", None, b""), (b"O", 0, b"="), (b"[O-]", 0, b"")]),
    (b"OMe", b"OC", [(b"O", None, b""), (b"C", 0, b"")]),
    (b"NH2", b"N", [(b"N", None, b"")]),
    (b"OOH", b"OO", [(b"O", None, b""), (b"O", 0, b"")]),
    (b"SH", b"S", [(b"S", None, b"")]),
    (b"OH", b"O", [(b"O", None, b"")]),
    (b"oxo", b"=O", [(b"O", None, b"=")]),
    (b"CN", b"C#N", [(b"C", None, b""), (b"N", 0, b"#")]),
    (b"P", b"OP(=O)(O)O",
     [(b"O", None, b""), (b"P", 0, b""), (b"O", 1, b"="), (b"O", 1, b""), (b"O", 1, b"")]),
    (b"S", b"OS(=O)(=O)O",
     [(b"O", None, b""), (b"S", 0, b""), (b"O", 1, b"="), (b"O", 1, b"="), (b"O", 1, b"")]),
    (b"COOH", b"C(=O)O", [(b"C", None, b""), (b"O", 0, b"="), (b"O", 0, b"")]),
]
BRANCH_ATOMS = {branch: atoms for _, branch, atoms in GROUP_ROWS}
BRANCH_OF = {abbr: branch for abbr, branch, _ in GROUP_ROWS}
BRANCH_OF.update({b"hydroxy": b"O", b"keto": b"=O"})
METHYL, HYDROXYL = b"C", b"O"

# "Alias rings: Ep, ep, epox span 2 with an O bridge; cyc, cyclo span 3."
ALIAS_SPAN = {b"Ep": 2, b"ep": 2, b"epox": 2, b"cyc": 3, b"cyclo": 3}

BRANCH_WORDS = [(b"iso-", 1), (b"anteiso-", 2)]

Bond = namedtuple("Bond", "position letter")  # letter: b"Z", b"E" or b""
Group = namedtuple("Group", "position branch")  # position 0: unlocated
Ring = namedtuple("Ring", "start end epoxide")


class Chain:
    """What a token says.  `bonds` are the located double bonds as written; the
    one that `P-` adds is left to `located_bonds`."""

    def __init__(self):
        self.prefix = "A"  # A none, O `O-`, P `P-`, D d or D, T t or T
        self.written = 0  # carbons as written
        self.c = 0  # carbons of the drawn chain
        self.unlocated = 0  # n, double bonds without a position
        self.bonds = []
        self.groups = []
        self.rings = []

    def located_bonds(self):
        """`P-` "adds a located, unlettered double bond at 1"."""
        return [Bond(1, b"")] * (self.prefix == "P") + self.bonds

    def show(self):
        """One line, as `oracle tokens` prints it."""
        bonds = ",".join(f"{b.position}{b.letter.decode()}" for b in self.bonds)
        groups = ",".join(f"{g.position}:{g.branch.decode()}" for g in self.groups)
        rings = ",".join(f"{r.start}-{r.end}{'O' * r.epoxide}" for r in self.rings)
        lists = " ".join(text or "-" for text in (bonds, groups, rings))
        return f"{self.prefix} {self.c} {self.unlocated} {lists}"


def trim(part):
    """01: "Trimming drops spaces"."""
    return part.strip(b" ")


def unreadable_unless(condition):
    if not condition:
        raise Refused(11)


def read_number(part, largest=U32):
    """01: "A number is digits after at most one `+`, at most 4,294,967,295"."""
    digits = part[1:] if part.startswith(b"+") else part
    unreadable_unless(digits.isdigit())
    value = int(digits)
    unreadable_unless(value <= largest)
    return value


def split_digits(part):
    """The leading digits of `part`, and the rest."""
    rest = part.lstrip(b"0123456789")
    return part[: len(part) - len(rest)], rest


def read_list(part, read_one):
    """01: "Positions are trimmed; an empty list is none"."""
    return [read_one(trim(p)) for p in part.split(b",")] if part else []


def read_bond(part):
    """01: "A double bond's [position] may end in one Z, z, E or e"."""
    letter = part[-1:].upper()
    if letter in (b"Z", b"E"):
        return Bond(read_number(part[:-1]), letter)
    return Bond(read_number(part), b"")


def read_prefix(chain, part):
    """01: "`iso-` or `anteiso-`, then `O-`, `P-`, or d/D/t/T before a digit, then
    the branch word if not yet seen."  Gives the branch word's offset (0: no
    word) and what follows."""
    offset, part = read_branch_word(part)
    if part[:2] in (b"O-", b"P-"):
        chain.prefix, part = chr(part[0]), part[2:]
    elif part[:1] in (b"d", b"D", b"t", b"T") and part[1:2].isdigit():
        chain.prefix, part = chr(part[0]).upper(), part[1:]
    if offset == 0:
        offset, part = read_branch_word(part)
    return offset, part


def read_branch_word(part):
    for word, offset in BRANCH_WORDS:
        if part.startswith(word):
            return offset, part[len(word):]
    return 0, part


def read_carbons(chain, offset, part):
    """The carbon text.  "iso takes offset 1, anteiso 2: carbons below offset + 3
    give 11; else c is one less, methyl at c - offset"."""
    chain.written = chain.c = read_number(part)
    if chain.written > MAX_CARBONS:
        raise Refused(31)
    if offset:
        unreadable_unless(chain.written >= offset + 3)
        chain.c -= 1
        chain.groups.append(Group(chain.c - offset, METHYL))


def read_ring(chain, part):
    """Ring start-end`cy`size, "each trimmed, then optionally `:n` and after it
    `(list)`, blank n being 0"."""
    span, _, rest = part.partition(b"cy")
    start, _, end = span.partition(b"-")
    size, _, bonds = rest.partition(b":")
    start, end, size = (read_number(trim(p)) for p in (start, end, size))
    count, opened, positions = bonds.partition(b"(")
    if opened:
        unreadable_unless(positions.endswith(b")"))
        positions = positions[:-1]
    positions = read_list(positions, read_bond)
    count = read_number(trim(count), U64) if trim(count) else 0
    # "11 if end < start, end > c, size wrong, more positions than n, or a
    # position outside start..end-1."
    unreadable_unless(start <= end <= chain.c)
    unreadable_unless(size == end - start + 1)
    unreadable_unless(len(positions) <= count)
    unreadable_unless(all(start <= b.position < end for b in positions))
    return Ring(start, end, False), positions


def alias_ring(chain, abbr, start):
    """01: "Start 0 or end over c gives 11, in unbounded arithmetic"."""
    end = start + ALIAS_SPAN[abbr] - 1
    unreadable_unless(start > 0 and end <= chain.c)
    return Ring(start, end, abbr not in (b"cyc", b"cyclo"))


def read_group_branch(abbr):
    unreadable_unless(abbr in BRANCH_OF)
    return BRANCH_OF[abbr]


def read_counted_groups(chain, part):
    """01: "`(abbr)n`: n unlocated groups, 1 if nothing follows"."""
    abbr, closed, count = part[1:].partition(b")")
    unreadable_unless(closed)
    count = read_number(count) if count else 1
    branch = read_group_branch(abbr)
    # One group too many is enough for 31; four thousand million need no list.
    chain.groups += [Group(0, branch)] * min(count, MAX_GROUPS + 1)


def read_listed_groups(chain, part):
    """01: "`abbr(list)`: groups or alias rings there; position 0 means unlocated"."""
    abbr, _, positions = part.partition(b"(")
    unreadable_unless(positions.endswith(b")"))
    positions = read_list(positions[:-1], read_number)
    if abbr in ALIAS_SPAN:
        chain.rings += [alias_ring(chain, abbr, p) for p in positions]
    else:
        branch = read_group_branch(abbr)
        chain.groups += [Group(p, branch) for p in positions]


def read_parts(chain, segment):
    """01: "Split at commas: digits then abbr, no digits meaning 0, a part all digits
    unreadable."  Gives the last oxygen count of the segment, None without one."""
    oxygens = None
    for part in segment.split(b","):
        digits, abbr = split_digits(part)
        position = read_number(digits) if digits else 0
        if abbr in ALIAS_SPAN:
            chain.rings.append(alias_ring(chain, abbr, position))
        elif abbr in BRANCH_OF:
            chain.groups.append(Group(position, BRANCH_OF[abbr]))
        else:
            # "`O` with an optional number (1 without), an oxygen count that
            # draws nothing.  Anything else gives 11."
            unreadable_unless(abbr.startswith(b"O"))
            oxygens = read_number(abbr[1:]) if abbr[1:] else 1
    return oxygens


def seats_fit(c, used, missing):
    """01: "Missing bonds need c >= 4 and each a free seat in 2..c-1, neither it nor
    a neighbour used by a position of the `(..)` list or a seat.  Look upward
    from max(2, min(9, c-1)), past c-1 back to 2; after p start from p + 3"."""
    if missing == 0:
        return True
    if c < 4:
        return False
    used = set(used)
    start = max(2, min(9, c - 1))
    for _ in range(missing):
        if start > c - 1:
            start = 2
        circle = list(range(start, c)) + list(range(2, start))
        free = (p for p in circle if not used & {p - 1, p, p + 1})
        seat = next(free, None)
        if seat is None:
            return False
        used.add(seat)
        start = seat + 3
    return True


def read_token(raw):
    """The chain of a token, or `Refused` with 31 or 11.

    "Length and bytes of the untrimmed token first, carbons with their text,
    counts after each bond list or segment read without 11"."""
    if len(raw) > MAX_TOKEN_BYTES or any(b < 32 or b > 126 for b in raw):
        raise Refused(31)
    chain = Chain()
    token = trim(raw)
    if token == b"0:0":
        return chain

    offset, rest = read_prefix(chain, token)
    carbons, colon, rest = rest.partition(b":")
    unreadable_unless(colon)
    read_carbons(chain, offset, carbons)
    declared, rest = split_digits(rest)
    declared = read_number(declared)

    if rest.startswith(b"("):
        positions, closed, rest = rest[1:].partition(b")")
        unreadable_unless(closed)
        chain.bonds = read_list(positions, read_bond)
    given = list(chain.bonds)
    refuse_over_counts(chain)

    last_oxygens = 0
    for segment in rest.split(b";"):
        # "A segment is trimmed, leading `[` and trailing `]` fall, empty is
        # skipped."
        segment = trim(segment).lstrip(b"[").rstrip(b"]")
        if not segment:
            continue
        before, cy, _ = segment.partition(b"cy")
        if cy and b"-" in before:
            ring, bonds = read_ring(chain, segment)
            chain.rings.append(ring)
            chain.bonds += bonds
        elif segment.startswith(b"("):
            read_counted_groups(chain, segment)
        elif b"(" in segment:
            read_listed_groups(chain, segment)
        else:
            oxygens = read_parts(chain, segment)
            last_oxygens = last_oxygens if oxygens is None else oxygens
        refuse_over_counts(chain)

    # "After the segments: 11 if more bonds are given than declared, seats fail,
    # or the last oxygen count is above 0 with no group and no ring."
    unreadable_unless(len(given) <= declared)
    chain.unlocated = declared - len(given)
    unreadable_unless(seats_fit(chain.c, [b.position for b in given], chain.unlocated))
    unreadable_unless(last_oxygens == 0 or chain.groups or chain.rings)
    return chain


def refuse_over_counts(chain):
    """31: "over 16 groups (a methyl counts), 8 rings or 32 written double bonds
    with a position"."""
    if (
        len(chain.groups) > MAX_GROUPS
        or len(chain.rings) > MAX_RINGS
        or len(chain.bonds) > MAX_POSITIONS
    ):
        raise Refused(31)


# ---------------------------------------------------------------------------
# 2. Tail
# ---------------------------------------------------------------------------

MARKS = (b"-", b"=", b"#", b"/", b"\\")
RING_DIGITS = tuple(b"%d" % d for d in range(1, 10))
TWO_LETTER_ATOMS = (b"Cl", b"Br")
ONE_LETTER_ATOMS = b"BCNOPSFIbcnosp*"
BRACKET_BYTES = b"abcdefghijklmnopqrstuvwxyzABCDEFGHIJKLMNOPQRSTUVWXYZ0123456789+-@"


def atom_at(text, at):
    """The bytes of the atom that stands at `at`, empty if none does."""
    if text[at:at + 2] in TWO_LETTER_ATOMS:
        return text[at:at + 2]
    if at < len(text) and text[at] in ONE_LETTER_ATOMS:
        return text[at:at + 1]
    if text[at:at + 1] == b"[":
        end = at + 1
        while end < len(text) and text[end] in BRACKET_BYTES:
            end += 1
        if 1 <= end - at - 1 <= MAX_BRACKET_BYTES and text[end:end + 1] == b"]":
            return text[at:end + 1]
    return b""


def plain(mark):
    """01: "`-` is plain"."""
    return b"" if mark == b"-" else mark


class Tail:
    """A tail by its grammar.  `atoms` are their bytes; `bonds` are (lower,
    higher, mark), where -1 is the template's atom that the tail hangs from."""

    class Outside(Exception):
        """The text is outside the grammar."""

    def __init__(self, text):
        self.text = text
        self.atoms = []
        self.bonds = []
        self.open_digits = {}
        if not 1 <= len(text) <= MAX_TAIL_BYTES:
            raise Tail.Outside
        end = self.run(0, -1, MAX_BRANCH_DEPTH)
        if end != len(text) or self.open_digits:
            raise Tail.Outside

    def run(self, at, parent, depth):
        """01: "One or more atoms, each after at most one bond": reads from `at`, the
        first atom joined to `parent`, and gives the place after the run."""
        first = True
        while True:
            mark = self.text[at:at + 1]
            mark = mark if mark in MARKS else b""
            atom = atom_at(self.text, at + len(mark))
            if not atom:
                # The text may end here, or the branch; but never after a mark.
                if first or mark:
                    raise Tail.Outside
                return at
            at += len(mark) + len(atom)
            index = len(self.atoms)
            self.atoms.append(atom)
            self.bonds.append((parent, index, plain(mark)))
            while self.text[at:at + 1] in RING_DIGITS:
                self.digit(self.text[at:at + 1], index)
                at += 1
            # "A branch follows an atom, its digits or another branch."
            while self.text[at:at + 1] == b"(":
                if depth == 0:
                    raise Tail.Outside
                at = self.run(at + 1, index, depth - 1)
                if self.text[at:at + 1] != b")":
                    raise Tail.Outside
                at += 1
            parent, first = index, False

    def digit(self, digit, index):
        """01: "Closed inside the tail between two otherwise unbonded atoms"."""
        if digit not in self.open_digits:
            self.open_digits[digit] = index
            return
        other = self.open_digits.pop(digit)
        if other == index or any((a, b) == (other, index) for a, b, _ in self.bonds):
            raise Tail.Outside
        self.bonds.append((other, index, b""))


# ---------------------------------------------------------------------------
# 3. Refusals
# ---------------------------------------------------------------------------

Request = namedtuple("Request", "class_code swap tail tokens line_size index_size")

TOKEN_COUNTS = {
    b"FA": (1,), b"GL1": (1,), b"GL2": (1, 2), b"GL3": (1, 2, 3),
    b"GP": (1, 2), b"CL": (4,), b"SB": (1,), b"SA": (2,),
}
CLASSES_WITH_TAIL = (b"GP", b"SB", b"SA")


class Placed:
    """A chain in its place: what the drawing needs to know of it."""

    def __init__(self, chain, kind):
        self.chain = chain
        self.kind = kind  # "acyl" (nothing else fits), "slot" or "base"
        self.c = chain.c
        self.is_base = kind == "base"
        # "Let f be the first drawn carbon (3 for a base, else 1)."
        self.f = 3 if self.is_base else 1
        # "A base is none of these, and has no carbonyl."
        self.is_acyl = chain.prefix == "A" and not self.is_base
        self.bonds = chain.bonds if self.is_base else chain.located_bonds()
        self.rings = chain.rings
        self.n = chain.unlocated
        self.groups = list(chain.groups)
        if self.is_base:
            # "O at 3, and at 4 for t, unless a located group sits there."
            for position in (3, 4) if chain.prefix == "T" else (3,):
                if all(g.position != position for g in chain.groups):
                    self.groups.append(Group(position, HYDROXYL))

    def located_groups(self):
        return [g for g in self.groups if g.position]

    def unlocated_groups(self):
        return [g for g in self.groups if not g.position]

    def prefix_end(self):
        """01: "Literal prefix runs to the largest of f, p+1, group positions, ring
        ends, capped at c."  Without unlocated bonds all is literal."""
        if self.n == 0:
            return self.c
        ends = [self.f] + [b.position + 1 for b in self.bonds]
        ends += [g.position for g in self.located_groups()] + [r.end for r in self.rings]
        return min(max(ends), self.c)

    # One test for each number; the words are those of 01's lists.

    def is_22(self):
        """Wrong kind of chain for its place."""
        if self.kind == "base":
            return self.c < 4
        if self.kind == "acyl":
            return self.chain.prefix != "A" or self.c == 0
        return self.chain.prefix in "DT" and self.c > 0

    def is_32(self):
        """Feature off the drawn chain."""
        return (
            any(not self.f <= b.position < self.c for b in self.bonds)
            or any(not self.f <= g.position <= self.c for g in self.located_groups())
            or any(r.start < self.f or (r.start == 1 and self.is_acyl) for r in self.rings)
            or (self.c == 0 and bool(self.groups))
            or (self.is_base and self.chain.prefix in "OP")
        )

    def is_33(self):
        """Two features that clash."""
        positions = [b.position for b in self.bonds]
        spans = [(r.start, r.end) for r in self.rings]
        return (
            len(set(positions)) < len(positions)
            or any(r.epoxide and r.start in positions for r in self.rings)
            or any(not r.epoxide and r.end - r.start + 1 <= 2 for r in self.rings)
            or len(set(spans)) < len(spans)
        )

    def is_12(self):
        """Located group at C1 of an acyl chain."""
        return self.is_acyl and any(g.position == 1 for g in self.groups)

    def is_13(self):
        """Unlocated bonds and a first pin (located group or ring start) "past 3
        on acyl, else past f + 1"."""
        pins = [g.position for g in self.located_groups()] + [r.start for r in self.rings]
        return self.n > 0 and bool(pins) and min(pins) > (3 if self.is_acyl else self.f + 1)

    def is_14(self):
        """01: "R carbons remain; R < 2n+2 gives 14"."""
        return self.n > 0 and self.c - self.prefix_end() < 2 * self.n + 2

    def is_15(self):
        """Unlocated group with no site: "sites are all drawn carbons but acyl
        C1"."""
        return bool(self.unlocated_groups()) and self.c < (2 if self.is_acyl else self.f)


def kinds_of(class_code):
    """What may stand in each place of a class."""
    return {b"FA": ["acyl"], b"SB": ["base"], b"SA": ["base", "acyl"]}.get(
        class_code, ["slot"] * 4
    )


def check_request(request):
    """The placed chains and the tail (None if the class has none) of a request
    that only 41 may still refuse; otherwise `Refused`.

    "Order: 20, 21, per token 31 and 11, per chain 22, then 23, per chain 32 then
    33, per chain 12 to 15, 41"."""
    if request.class_code not in TOKEN_COUNTS:
        raise Refused(20)
    if len(request.tokens) not in TOKEN_COUNTS[request.class_code]:
        raise Refused(21)

    chains = []
    for place, token in enumerate(request.tokens, 1):
        try:
            chain = read_token(token)
        except Refused as refusal:
            raise Refused(refusal.number, place) from None
        chains.append(chain)
    placed = [Placed(c, kind) for c, kind in zip(chains, kinds_of(request.class_code))]

    refuse_first(placed, [(22, Placed.is_22)])
    tail = check_tail(request)
    refuse_first(placed, [(32, Placed.is_32), (33, Placed.is_33)])
    refuse_first(placed, [(12, Placed.is_12), (13, Placed.is_13),
                          (14, Placed.is_14), (15, Placed.is_15)])
    return placed, tail


def refuse_first(placed, tests):
    """Per chain, the tests in order."""
    for place, chain in enumerate(placed, 1):
        for number, test in tests:
            if test(chain):
                raise Refused(number, place)


def check_tail(request):
    """23: "The tail is empty elsewhere"; else it has to be in the grammar."""
    if request.class_code not in CLASSES_WITH_TAIL:
        if request.tail:
            raise Refused(23)
        return None
    try:
        return Tail(request.tail)
    except Tail.Outside:
        raise Refused(23) from None


# ---------------------------------------------------------------------------
# 4. Drawing
# ---------------------------------------------------------------------------

# "A molecule is its atoms by number, each with its bytes and, where it has them,
# its sn label, repeat mark (a variable) and site list; the set of its bonds,
# each with the lower atom, the higher atom and its mark; and the set of its
# sums, each its variables in order and its number."
Atom = namedtuple("Atom", "symbol label variable sites")
Molecule = namedtuple("Molecule", "atoms bonds sums")

DOUBLE, BRIDGED, UP, DOWN, EMPTY = b"=", b"O", b"/", b"\\", b""


def chain_bonds(placed):
    """01: "Bond k joins k and k+1: double, bridged, marked or plain": bond k for
    k = 0..c, of which 0 and c are never filled."""
    bonds = [EMPTY] * (placed.c + 1)
    for ring in placed.rings:
        if ring.epoxide:
            bonds[ring.start] = BRIDGED
    for bond in placed.bonds:
        bonds[bond.position] = DOUBLE
    # "Marks: by rising p with stated geometry, an empty bond p-1 (p > 1) becomes
    # `/`; open is down if it is `\`, else up.  If p+1 < c and bond p+1 is empty
    # it is `/` (up) or `\`, unlike open for Z, like for E."
    for p, letter in sorted(placed.bonds):
        if not letter:
            continue
        if p > 1 and bonds[p - 1] == EMPTY:
            bonds[p - 1] = UP
        open_up = not (p > 1 and bonds[p - 1] == DOWN)
        if p + 1 < placed.c and bonds[p + 1] == EMPTY:
            bonds[p + 1] = UP if open_up == (letter == b"E") else DOWN
    return bonds


def mark_of(bond):
    """The mark that stands in a line for a bond without a bridge."""
    return b"" if bond == BRIDGED else bond


def variable_name(index):
    """01: "Variables: a..z, aa..zz"."""
    letters = b"abcdefghijklmnopqrstuvwxyz"
    if index < 26:
        return letters[index:index + 1]
    high, low = divmod(index - 26, 26)
    return letters[high:high + 1] + letters[low:low + 1]


class Drawing:
    """The molecule of the names, atom by atom "as the template stands", and the
    index of every chain carbon.  No text and no ring label is used here."""

    def __init__(self, request, placed, tail):
        self.symbols = []
        self.bonds = set()
        self.variables = {}  # by atom
        self.floating = {}  # site list by floating atom
        self.sums = set()
        self.carbons = {}  # by sn
        self.sites = {}  # by sn
        self.placed = dict(enumerate(placed, 1))
        self.draw_template(request.class_code, tail)
        self.labels = {}
        if request.swap and len(self.sites) >= 2:
            self.labels = {atom: sn for sn, atom in self.sites.items()}

    def molecule(self):
        atoms = [
            Atom(symbol, self.labels.get(i), self.variables.get(i), self.floating.get(i))
            for i, symbol in enumerate(self.symbols)
        ]
        return Molecule(atoms, self.bonds, self.sums)

    def atom(self, symbol, parent, mark=b""):
        """Draws the next atom, bonded to `parent` if there is one."""
        index = len(self.symbols)
        self.symbols.append(symbol)
        if parent is not None:
            self.bonds.add((parent, index, mark))
        return index

    def draw_template(self, class_code, tail):
        if class_code == b"FA":
            self.chain(1, self.atom(b"O", None))
        elif class_code in (b"GL1", b"GL2", b"GL3"):
            middle = self.atom(b"C", None)
            self.slot(3, self.atom(b"C", middle))
            self.slot(2, middle)
            self.slot(1, self.atom(b"C", middle))
        elif class_code == b"GP":
            middle = self.atom(b"C", None)
            self.tail(tail, self.atom(b"C", middle))
            self.slot(2, middle)
            self.slot(1, self.atom(b"C", middle))
        elif class_code == b"CL":
            middle = self.atom(b"C", None)
            self.phosphatidyl(2, 1, self.atom(b"C", middle))
            self.atom(b"O", middle)
            self.phosphatidyl(4, 3, self.atom(b"C", middle))
        else:
            self.sphingoid(tail)

    def phosphatidyl(self, sn_middle, sn_end, parent):
        """`OP(=O)(O)OCC(`S`)C`S, one arm of CL."""
        phosphorus = self.atom(b"P", self.atom(b"O", parent))
        self.atom(b"O", phosphorus, DOUBLE)
        self.atom(b"O", phosphorus)
        first = self.atom(b"C", self.atom(b"O", phosphorus))
        middle = self.atom(b"C", first)
        self.slot(sn_middle, middle)
        self.slot(sn_end, self.atom(b"C", middle))

    def sphingoid(self, tail):
        """01: "The base's C1 and C2 are atoms 1 and 0, where its indices start; sn 1
        has no site"."""
        second = self.atom(b"C", None)
        first = self.atom(b"C", second)
        self.tail(tail, first)
        nitrogen = self.atom(b"N", second)
        if 2 in self.placed:
            self.chain(2, nitrogen)
        self.carbons[1] = [first, second]
        self.chain_body(1, second)

    def slot(self, sn, parent):
        """01: "Slot S is `O` and chain; `O` alone if absent or c = 0"."""
        oxygen = self.atom(b"O", parent)
        if sn in self.placed and self.placed[sn].c > 0:
            self.chain(sn, oxygen, site=oxygen)

    def chain(self, sn, parent, site=None):
        """A chain from C1.  "A site is the first atom pushed for a nonempty
        chain": a slot's `O`, and C1 where no slot's `O` belongs to the chain."""
        self.sites[sn] = len(self.symbols) if site is None else site
        self.carbons[sn] = []
        self.chain_body(sn, parent)

    def chain_body(self, sn, parent):
        placed = self.placed[sn]
        bonds = chain_bonds(placed)
        drawn = {}
        end = placed.prefix_end()
        for k in range(placed.f, end + 1):
            drawn[k] = self.atom(b"C", parent, mark_of(bonds[k - 1]))
            if k == 1 and placed.is_acyl:
                self.atom(b"O", drawn[k], DOUBLE)
            for group in placed.located_groups():
                if group.position == k:
                    self.branch(group.branch, drawn[k])
            parent = drawn[k]
            # "An epoxide's O between k and k+1."
            if bonds[k] == BRIDGED and k < end:
                parent = self.atom(b"O", parent)
        # "Each ring adds a plain bond between its ends."
        for ring in placed.rings:
            self.bonds.add((drawn[ring.start], drawn[ring.end], EMPTY))
        run = list(drawn.values())
        if placed.n > 0:
            run += self.flexible_tail(placed, parent, bonds[end], placed.c - end)
        self.carbons[sn] += run
        sites = run[1:] if placed.is_acyl else run
        for group in placed.unlocated_groups():
            floating = self.atom(b"*", None)
            self.floating[floating] = sites
            self.branch(group.branch, floating)

    def flexible_tail(self, placed, parent, mark, remaining):
        """01: "Then any mark, `C`, n-1 `C=C`, `C=CC`": 2n+2 carbons, every second
        bond double from the second on.  "Variables sit on P+2i for i < n and on
        P+2n+1; their sum is R-n-1"."""
        n = placed.n
        run = []
        for i in range(2 * n + 2):
            if i > 0:
                mark = DOUBLE if i % 2 == 0 else EMPTY
            parent = self.atom(b"C", parent, mark)
            run.append(parent)
        marked = [run[2 * i] for i in range(n)] + [run[2 * n + 1]]
        names = []
        for atom in marked:
            names.append(variable_name(len(self.variables)))
            self.variables[atom] = names[-1]
        self.sums.add((tuple(names), remaining - n - 1))
        return run

    def branch(self, branch, parent):
        drawn = []
        for symbol, hangs_from, mark in BRANCH_ATOMS[branch]:
            from_atom = parent if hangs_from is None else drawn[hangs_from]
            drawn.append(self.atom(symbol, from_atom, mark))

    def tail(self, tail, parent):
        first = len(self.symbols)
        self.symbols += tail.atoms
        for lower, higher, mark in tail.bonds:
            self.bonds.add((parent if lower < 0 else first + lower, first + higher, mark))


# ---------------------------------------------------------------------------
# 5. The line
# ---------------------------------------------------------------------------


def atoms_in(text):
    """Atoms in a piece of a line; a label's digits and the `l` of Cl are none."""
    at = count = 0
    while at < len(text):
        atom = atom_at(text, at)
        count += bool(atom)
        at += len(atom) or 1
    return count


class Line:
    """The builder: text pushed piece by piece, with counters of atoms, variables
    and ring labels, and the blocks kept until the end."""

    def __init__(self, request, placed):
        self.text = b""
        self.atoms = self.variables = self.labels = 0
        self.repeat_blocks, self.site_blocks, self.constraints = [], [], []
        self.lists = {}  # by sn
        self.sites = {}  # by sn
        self.placed = dict(enumerate(placed, 1))
        self.swap = request.swap
        self.push_template(request.class_code, request.tail)

    def push_fixed(self, text):
        self.text += text
        self.atoms += atoms_in(text)

    def push_template(self, class_code, tail):
        if class_code == b"FA":
            self.push_fixed(b"O")
            self.push_chain(1)
        elif class_code in (b"SB", b"SA"):
            self.push_fixed(b"C(C" + tail + b")(N")
            if class_code == b"SA":
                self.push_chain(2)
            self.push_fixed(b")")
            self.push_fragment(1, before=[1, 0])
        else:
            template = {
                b"GP": [b"C(C" + tail + b")(", 2, b")C", 1],
                b"CL": [b"C(COP(=O)(O)OCC(", 2, b")C", 1,
                        b")(O)COP(=O)(O)OCC(", 4, b")C", 3],
            }.get(class_code, [b"C(C", 3, b")(", 2, b")C", 1])
            for piece in template:
                if isinstance(piece, bytes):
                    self.push_fixed(piece)
                elif piece in self.placed and self.placed[piece].c > 0:
                    self.push_chain(piece, opening=b"O")
                else:
                    self.push_fixed(b"O")

    def push_chain(self, sn, opening=b""):
        """A chain with a site: "the first atom pushed for a nonempty chain"."""
        self.sites[sn] = self.atoms
        self.push_fixed(opening)
        self.push_fragment(sn, before=[])

    def push_fragment(self, sn, before):
        placed = self.placed[sn]
        end = placed.prefix_end()
        bonds = chain_bonds(placed)
        run = []
        if placed.is_base:
            self.push_fixed(mark_of(bonds[placed.f - 1]))
        for k in range(placed.f, end + 1):
            run.append(self.atoms)
            self.push_fixed(self.carbon_text(placed, k))
            if k < end:
                self.push_fixed(bonds[k])
        if placed.n > 0:
            run += self.push_flexible_tail(placed.n, bonds[end], placed.c - end)
        self.labels += len(placed.rings)
        self.lists[sn] = before + run

        sites = run[1:] if placed.is_acyl else run
        for group in placed.unlocated_groups():
            self.site_blocks.append(b"m:%d:%s" % (self.atoms, b".".join(b"%d" % s for s in sites)))
            self.push_fixed(b".*" + group.branch)

    def carbon_text(self, placed, k):
        """01: "Text: C, labels `%10` on, `(branch)`"."""
        text = b"C"
        for i, ring in enumerate(placed.rings):
            if k in (ring.start, ring.end):
                text += b"%%%d" % (FIRST_LABEL + self.labels + i)
        if k == 1 and placed.is_acyl:
            text += b"(=O)"
        for group in placed.located_groups():
            if group.position == k:
                text += b"(" + group.branch + b")"
        return text

    def push_flexible_tail(self, n, mark, remaining):
        first = self.atoms
        self.push_fixed(mark + b"C" + b"C=C" * (n - 1) + b"C=CC")
        names = [variable_name(self.variables + i) for i in range(n + 1)]
        self.variables += n + 1
        for i, name in enumerate(names):
            atom = first + 2 * i if i < n else first + 2 * n + 1
            self.repeat_blocks.append(b"Sg:n:%d:%s:ht" % (atom, name))
        self.constraints.append(b"constrain(%s=%d)" % (b"+".join(names), remaining - n - 1))
        return range(first, first + 2 * n + 2)

    def finish(self):
        """01: "Blocks: sn labels (swap set, two sites or more), all Sg, all m; then
        `swappable(..)` and `constrain(..)` joined by `;`.  No block: bare
        text"."""
        blocks, trailers = [], []
        if self.swap and len(self.sites) >= 2:
            entries = [b""] * (max(self.sites.values()) + 1)
            for sn, atom in self.sites.items():
                entries[atom] = b"sn%d" % sn
            blocks.append(b"$" + b";".join(entries) + b"$")
            trailers.append(b"swappable(%s)" % b",".join(b"sn%d" % sn for sn in sorted(self.sites)))
        blocks += self.repeat_blocks + self.site_blocks
        trailers += self.constraints
        line = self.text
        if blocks:
            line += b" |" + b",".join(blocks) + b"|"
        if trailers:
            line += b" " + b";".join(trailers)
        return line


# ---------------------------------------------------------------------------
# 6. Reading
# ---------------------------------------------------------------------------


class Unreadable(Exception):
    """A line outside the reading rules."""


def demand(condition):
    if not condition:
        raise Unreadable


def read_text(text):
    """The atoms' bytes and the set of bonds of a text, by a machine: the current
    atom, a stack of branch points, the open labels.

    "A run is an atom with labels (`%`, 10 to 99) and digits 1 to 9, then any
    number of: such an atom, after at most one mark or `.`; `(`, at most one
    mark, a run, `)`.  The text is a run"."""
    symbols, bonds, joined = [], set(), set()
    open_labels, branch_points = {}, []
    current = None
    # What may come next: only an atom (at the very start, after a mark or `.`),
    # an atom or a mark (a branch has opened), or anything (after an atom or `)`).
    expect = "atom"
    mark = b""
    at = 0
    while at < len(text):
        byte = text[at:at + 1]
        atom = atom_at(text, at)
        if atom:
            index = len(symbols)
            symbols.append(atom)
            if current is not None:
                bonds.add((current, index, plain(mark)))
                joined.add((current, index))
            current, mark, expect = index, b"", "anything"
            at += len(atom)
            at = read_labels(text, at, index, open_labels, bonds, joined)
        elif byte in MARKS:
            demand(expect in ("atom or mark", "anything"))
            mark, expect = byte, "atom"
            at += 1
        elif byte == b".":
            demand(expect == "anything")
            current, expect = None, "atom"
            at += 1
        elif byte == b"(":
            demand(expect == "anything")
            branch_points.append(current)
            expect = "atom or mark"
            at += 1
        elif byte == b")":
            demand(expect == "anything" and branch_points)
            current = branch_points.pop()
            at += 1
        else:
            raise Unreadable
    demand(expect == "anything" and not branch_points and not open_labels)
    return symbols, bonds


def read_labels(text, at, index, open_labels, bonds, joined):
    """01: "A label or digit opens, then closes with a plain bond.  One closing on
    its own atom or on one already bonded to it is unreadable"."""
    while True:
        if text[at:at + 1] in RING_DIGITS:
            label, at = text[at:at + 1], at + 1
        elif text[at:at + 1] == b"%":
            label = text[at + 1:at + 3]
            demand(len(label) == 2 and label.isdigit() and label[:1] != b"0")
            at += 3
        else:
            return at
        if label not in open_labels:
            open_labels[label] = index
            continue
        other = open_labels.pop(label)
        demand(other != index and (other, index) not in joined)
        bonds.add((other, index, b""))
        joined.add((other, index))


def line_number(part):
    """01: "Numbers are digits without a leading zero, below 2^32"."""
    demand(part.isdigit() and (part == b"0" or part[:1] != b"0"))
    demand(int(part) <= U32)
    return int(part)


def variable(part):
    """01: "One or two small letters"."""
    demand(1 <= len(part) <= 2 and all(97 <= b <= 122 for b in part))
    return part


def enclosed(part, opening, closing):
    demand(len(part) >= len(opening) + len(closing))
    demand(part.startswith(opening) and part.endswith(closing))
    return part[len(opening):len(part) - len(closing)]


def read_line(line):
    """The molecule of a line, or `Unreadable`."""
    text, blank, rest = line.partition(b" ")
    symbols, bonds = read_text(text)
    labels, variables, sites, sums = {}, {}, {}, []
    if blank:
        demand(rest.startswith(b"|"))
        blocks, closed, trailer = rest[1:].partition(b"|")
        demand(closed)
        read_blocks(blocks, len(symbols), labels, variables, sites)
        if trailer:
            trailers = enclosed(trailer, b" ", b"").split(b";")
        else:
            trailers = []
        # "`swappable` stands exactly with [`$..$`] and holds its labels, strictly
        # rising."
        if labels:
            demand(trailers)
            expected = b",".join(b"sn%d" % sn for sn in sorted(labels.values()))
            demand(enclosed(trailers.pop(0), b"swappable(", b")") == expected)
        sums = [read_sum(enclosed(t, b"constrain(", b")")) for t in trailers]
    # "A marked variable not exactly once in the sums, or an unmarked one there."
    demand(sorted(v for names, _ in sums for v in names) == sorted(variables.values()))
    atoms = [
        Atom(symbol, labels.get(i), variables.get(i), sites.get(i))
        for i, symbol in enumerate(symbols)
    ]
    return Molecule(atoms, bonds, set(sums))


def read_blocks(text, atom_count, labels, variables, sites):
    """The blocks between the bars, "at least one, in the order above"."""
    kinds = []
    for block in text.split(b","):
        if block.startswith(b"$"):
            kinds.append(0)
            read_label_block(enclosed(block, b"$", b"$"), atom_count, labels)
        elif block.startswith(b"Sg:n:"):
            kinds.append(1)
            parts = block.split(b":")
            demand(len(parts) == 5 and parts[4] == b"ht")
            atom, name = line_number(parts[2]), variable(parts[3])
            demand(atom < atom_count and atom not in variables)
            demand(name not in variables.values())
            variables[atom] = name
        else:
            kinds.append(2)
            parts = block.split(b":")
            demand(len(parts) == 3 and parts[0] == b"m")
            atom = line_number(parts[1])
            listed = [line_number(p) for p in parts[2].split(b".")]
            demand(all(i < atom_count for i in [atom] + listed) and atom not in sites)
            sites[atom] = listed
    demand(kinds == sorted(kinds) and kinds.count(0) <= 1)


def read_label_block(text, atom_count, labels):
    """01: "`$..$` names the atoms from 0, parted by `;`", "of entries empty or sn1 to
    sn4"; "lists are not empty"."""
    entries = text.split(b";")
    demand(len(entries) <= atom_count)
    for atom, entry in enumerate(entries):
        if entry:
            demand(entry in (b"sn1", b"sn2", b"sn3", b"sn4"))
            demand(int(entry[2:]) not in labels.values())
            labels[atom] = int(entry[2:])
    demand(labels)


def read_sum(text):
    """01: "A sum is its variables parted by `+`, then `=` and its number"."""
    names, equals, total = text.partition(b"=")
    demand(equals)
    return tuple(variable(v) for v in names.split(b"+")), line_number(total)


# ---------------------------------------------------------------------------
# 7. The answer
# ---------------------------------------------------------------------------

# `lists` and `sites` are pairs by rising sn; a refusal has neither, nor a line.
Answer = namedtuple("Answer", "number place line lists sites")


def answer(request):
    """What the call answers to a request."""
    try:
        placed, _ = check_request(request)
        line = Line(request, placed)
        text = line.finish()
        indices = sum(len(carbons) for carbons in line.lists.values())
        if len(text) > request.line_size or indices > request.index_size:
            raise Refused(41)
    except Refused as refusal:
        return Answer(refusal.number, refusal.place, b"", [], [])
    return Answer(0, 0, text, sorted(line.lists.items()), sorted(line.sites.items()))


# The refusals that 01 adds: the original may accept what these take.
ALWAYS_ADDED = (20, 23, 31, 32, 33, 41, 42)
SURPLUS_ADDED = (b"FA", b"SB", b"SA")


def is_added(request, number):
    """Whether the refusal `number` of a request is one that 01 added: then the
    original is no measure of it."""
    if number == 21 and request.class_code in SURPLUS_ADDED:
        return len(request.tokens) > max(TOKEN_COUNTS[request.class_code])
    return number in ALWAYS_ADDED


# ---------------------------------------------------------------------------
# 8. Demand 3
# ---------------------------------------------------------------------------


def check_demand_3(request, given):
    """None if the accepted answer `given` keeps demand 3, else what is wrong."""
    placed, tail = check_request(request)
    drawing = Drawing(request, placed, tail)
    drawn = drawing.molecule()
    try:
        read = read_line(given.line)
    except Unreadable:
        return "the line is unreadable"
    if read != drawn:
        return "the molecule read is not the molecule drawn"
    if given.lists != sorted(drawing.carbons.items()):
        return "the index lists are not the carbons of the drawing"
    if given.sites != sorted(drawing.sites.items()):
        return "the sn sites are not those of the drawing"
    if [sn for sn, _ in given.lists] != [i for i, p in enumerate(placed, 1) if p.c > 0]:
        return "a chain with carbons is not listed, or an empty one is"
    for names, total in read.sums:
        if total < len(names):
            return "no repeat counts from 1 meet a sum"
    for sn, carbons in given.lists:
        if len(set(carbons)) < len(carbons):
            return "an index list has a double"
        if any(read.atoms[i].symbol != b"C" for i in carbons):
            return "an index list names an atom that is no carbon"
        chain = placed[sn - 1].chain
        methyl = chain.written - chain.c  # 1 after an iso or anteiso word
        repeated = repeated_carbons(read, carbons)
        if repeated is None or repeated + methyl != chain.written:
            return "repeats do not add up to the written carbons"
    return None


def repeated_carbons(molecule, carbons):
    """How many carbons a list stands for, for every choice of repeat counts that
    meets the sums.  None unless each sum lies wholly on these atoms or wholly
    off them: then its number stands for its variables."""
    on_list = {molecule.atoms[i].variable for i in carbons} - {None}
    total = sum(molecule.atoms[i].variable is None for i in carbons)
    for summed, number in molecule.sums:
        if on_list.isdisjoint(summed):
            continue
        if not on_list.issuperset(summed):
            return None
        total += number
    return total


# ---------------------------------------------------------------------------
# 9. Batch program
# ---------------------------------------------------------------------------

COLUMNS = (b"class", b"swap", b"tail", b"sn1", b"sn2", b"sn3", b"sn4")
MAX_ROW_BYTES = 2048
BATCH_LINE_BYTES = 65536
BATCH_INDICES = 4096
UNREADABLE_ROW = Answer(42, 0, b"", [], [])


def read_header(line):
    """The column names, or None: "a header with an unknown or doubled name or no
    class"."""
    names = line.split(b"\t")
    known = all(name in COLUMNS for name in names)
    return names if known and len(set(names)) == len(names) and b"class" in names else None


def read_row(names, row):
    """The request of a row, or None where 42 takes it."""
    cells = row.split(b"\t")
    if len(row) > MAX_ROW_BYTES or len(cells) != len(names):
        return None
    cell = dict(zip(names, cells))
    swap = cell.get(b"swap", b"")
    if swap not in (b"", b"0", b"1"):
        return None
    tokens = [cell.get(b"sn%d" % sn, b"") for sn in (1, 2, 3, 4)]
    while tokens and not tokens[-1]:
        tokens.pop()
    return Request(
        cell[b"class"], swap == b"1", cell.get(b"tail", b""), tuple(tokens),
        BATCH_LINE_BYTES, BATCH_INDICES,
    )


def sheet_lines(sheet):
    """01: "Lines end in LF, the last at will"."""
    lines = sheet.split(b"\n")
    return lines[:-1] if len(lines) > 1 and not lines[-1] else lines


def batch_answers(sheet):
    """The answers to a sheet in order; one 42 if its header is unreadable."""
    header, *rows = sheet_lines(sheet)
    names = read_header(header)
    if names is None:
        return [UNREADABLE_ROW]
    requests = (read_row(names, row) for row in rows)
    return [UNREADABLE_ROW if r is None else answer(r) for r in requests]


def show_answers(answers):
    """What the batch program prints, counts by rising answer number."""
    out = [b"answer\tat\tline\tcarbons\n"]
    for a in answers:
        out.append(b"%d\t%d\t%s\t%s\n" % (a.number, a.place, a.line, show_lists(a.lists)))
    for number, times in sorted(Counter(a.number for a in answers).items()):
        out.append(b"#\t%d\t%d\n" % (number, times))
    return b"".join(out)


def show_lists(lists):
    return b";".join(
        b"%d:%s" % (sn, b".".join(b"%d" % i for i in carbons)) for sn, carbons in lists
    )


def show_sites(sites):
    return b";".join(b"%d:%d" % site for site in sites)


def batch(sheet):
    return show_answers(batch_answers(sheet))


def show_token(token):
    """The record of a token as `oracle tokens` prints it, `11` or `31`."""
    try:
        return read_token(token).show().encode()
    except Refused as refusal:
        return b"%d" % refusal.number
