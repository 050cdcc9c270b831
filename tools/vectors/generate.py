"""Requests and tokens to compare the model, the original and the programs on.

Everything here is drawn from the `random.Random` that the caller hands in, so a
seed fixes it.  Tokens and cells are bytes.
"""

import itertools

CLASSES = [b"FA", b"GL1", b"GL2", b"GL3", b"GP", b"CL", b"SB", b"SA"]
TOKEN_COUNT = {b"FA": (1, 1), b"GL1": (1, 1), b"GL2": (1, 2), b"GL3": (1, 3),
               b"GP": (1, 2), b"CL": (4, 4), b"SB": (1, 1), b"SA": (2, 2)}
ABBREVIATIONS = [b"Et", b"Me", b"Br", b"Cl", b"F", b"I", b"NO2", b"OMe", b"NH2", b"OOH",
                 b"SH", b"OH", b"oxo", b"CN", b"P", b"S", b"COOH", b"hydroxy", b"keto"]
EPOXIDES = [b"Ep", b"ep", b"epox"]
CARBOCYCLES = [b"cyc", b"cyclo"]
# Refused ones among the abbreviations: linkages, conjugates, near misses.
WRONG_ABBREVIATIONS = [b"oxy", b"OO", b"G", b"T", b"oh", b"Oh", b"EP", b"NO", b"H", b"cy", b"O-"]
HEADGROUPS = [b"O", b"OP(=O)(O)O", b"OP(=O)([O-])OCC[N+](C)(C)C", b"OP(=O)(O)OCCN",
              b"OP(=O)(O)OCC(O)CO", b"OP(=O)(O)OC1C(O)C(O)C(O)C(O)C1O",
              b"OC1OC(CO)C(O)C(O)C1O", b"OP(=O)(O)OCC(N)C(=O)O"]
BOUNDARY_CARBONS = list(range(13)) + [253, 254, 255, 256, 257]
LARGE_NUMBERS = [2**32 - 3, 2**32 - 2, 2**32 - 1, 2**32, 2**32 + 1,
                 2**64 - 1, 2**64, 2**64 + 1]


# ---------------------------------------------------------------------------
# One token
# ---------------------------------------------------------------------------


def good_token(rng, kind):
    """A token that is mostly fit for `kind` ("acyl", "slot" or "base"), with its
    features crowded around one carbon so that neighbours meet."""
    prefix = rng.choice({
        "acyl": [b""],
        "slot": [b"", b"", b"", b"O-", b"P-"],
        "base": [b"d", b"d", b"t", b"t", b"", b"D", b"T"],
    }[kind])
    word = rng.choice([b""] * 14 + [b"iso-", b"anteiso-"])
    carbons = rng.choice([rng.randrange(1, 13), rng.randrange(4, 20), rng.randrange(4, 26),
                          rng.randrange(8, 40)])
    missing = rng.choice([0] * 6 + [1, 1, 2, 3])
    if missing and rng.random() < 0.9:
        carbons += 2 * missing + 6
        word = b""  # a methyl pins the end of the chain, and no tail is left
    carbons = max(carbons, 4 if kind == "base" or word else 1)
    crowd = Crowd(rng, prefix, kind, carbons - bool(word), missing)

    bonds = crowd.bonds()
    segments = [crowd.segment() for _ in range(rng.choice([0, 0, 1, 1, 1, 2, 3]))]
    token = prefix + word if rng.random() < 0.3 else word + prefix
    token += b"%d:%d" % (carbons, len(bonds) + missing)
    if bonds or rng.random() < 0.02:
        token += b"(" + b",".join(bonds) + b")"
    for text in segments:
        token += b";" + text
    return decorate(rng, token)


class Crowd:
    """Features of one chain around a hot carbon.  Positions taken by a double
    bond or a ring are remembered, so that most tokens do not clash."""

    def __init__(self, rng, prefix, kind, c, missing):
        self.rng = rng
        self.c = c
        self.lowest = 3 if kind == "base" else 1 if prefix else 2
        self.taken = {1} if prefix == b"P-" else set()
        # With unlocated bonds only pins near the start leave a flexible tail.
        self.hot = self.lowest + (missing == 0) * rng.randrange(max(1, c - self.lowest + 1))
        if missing == 0 and rng.random() < 0.15:
            self.hot = max(self.lowest, c - 1)

    def near(self, span=1):
        """A start near the hot carbon from which `span` carbons mostly fit."""
        if self.rng.random() < 0.02:
            return self.rng.randrange(0, self.c + 2)
        start = self.hot + self.rng.choice([-2, -1, -1, 0, 0, 0, 1, 1, 2, 3])
        return max(min(start, self.c - span + 1), self.lowest)

    def free(self, span):
        """`near`, and mostly at no carbon where a bond or ring stands."""
        for _ in range(4):
            start = self.near(span)
            if start not in self.taken:
                break
        self.taken.add(start)
        return start

    def bonds(self):
        """Positions with letters: single ones, or a conjugated run."""
        count = self.rng.choice([0, 0, 1, 1, 1, 2, 2, 3])
        positions = [self.free(2) for _ in range(count)]
        if count and self.rng.random() < 0.3:
            first = positions[0]
            positions = [p for p in range(first, first + 2 * count, 2) if p < self.c]
            self.taken.update(positions)
        if self.rng.random() < 0.2:
            positions.reverse()
        letters = [b"", b"Z", b"E", b"Z", b"E", b"z", b"e"]
        return [b"%d" % p + self.rng.choice(letters) for p in positions]

    def segment(self):
        """One segment, in any of the forms."""
        rng = self.rng
        form = rng.randrange(12)
        abbr = rng.choice(ABBREVIATIONS)
        if form < 3:
            return b"%d" % self.near() + abbr
        if form == 3:
            return b",".join(b"%d" % self.near() + rng.choice(ABBREVIATIONS) for _ in range(2))
        if form == 4:
            positions = [b"%d" % self.near() for _ in range(rng.randrange(3))]
            return abbr + b"(" + b",".join(positions) + b")"
        if form == 5:
            return rng.choice([abbr, b"(" + abbr + b")", b"(%s)%d" % (abbr, rng.randrange(4)),
                               abbr + b"(0)", b"0" + abbr])
        if form < 8:
            name = rng.choice(EPOXIDES)
            return rng.choice([b"%d%s", b"%d%s", b"%d%s,3OH"]) % (self.free(2), name)
        if form == 8:
            name = rng.choice(CARBOCYCLES)
            if rng.random() < 0.5:
                return b"%d%s" % (self.free(3), name)
            return name + b"(%d,%d)" % (self.free(3), self.free(3))
        if form < 11:
            return self.ring()
        return rng.choice([b"O", b"O2", b"O0", b"3O2", b"O+1", b""]) if rng.random() < 0.3 else b"OH"

    def ring(self):
        rng = self.rng
        size = rng.choice([3, 3, 3, 4, 4, 5, 6, 6] if rng.random() < 0.9 else [1, 2])
        start = self.near(size)
        end = start + size - 1
        text = b"%d-%dcy%d" % (start, end, size)
        form = rng.randrange(4)
        if form == 1:
            text += b":%d" % rng.randrange(3)
        elif form == 2 and end > start:
            p = rng.randrange(start, end)
            if p not in self.taken or rng.random() < 0.2:
                text += b":%d(%d%s)" % (rng.choice([1, 1, 2]), p, rng.choice([b"", b"Z", b"E"]))
                self.taken.add(p)
        return b"[" + text + b"]" if rng.random() < 0.3 else text


def decorate(rng, token):
    """Now and then blanks, brackets, plus signs or zeros where they may stand."""
    form = rng.randrange(40)
    if form == 0:
        return b" " + token + b"  "
    if form == 1:
        return token.replace(b";", b" ; ")
    if form == 2:
        return token.replace(b";", b";[[", 1) + b"]"
    if form == 3:
        return token.replace(b",", b", ")
    if form == 4:
        return token.replace(b"(", b"(+")
    if form == 5:
        return token.replace(b":", b":0", 1)
    if form == 6:
        return token + b";;"
    return token


DAMAGE_BYTES = b"0123456789:;,()[]-+ dDtTOPZEzeHCcyEpisoanteMF/\\=.%"
ODD_BYTES = b"\r\x00\x1f\x7f\x80\xc3\xff~!"


def damaged(rng, text):
    """A copy with one to three small faults."""
    text = bytearray(text)
    for _ in range(rng.choice([1, 1, 1, 2, 3])):
        at = rng.randrange(len(text) + 1)
        byte = rng.choice(DAMAGE_BYTES if rng.random() < 0.98 else ODD_BYTES)
        fault = rng.randrange(5)
        if fault == 0:
            text.insert(at, byte)
        elif fault == 1 and text:
            del text[min(at, len(text) - 1)]
        elif fault == 2 and text:
            text[min(at, len(text) - 1)] = byte
        elif fault == 3 and at + 1 < len(text):
            text[at], text[at + 1] = text[at + 1], text[at]
        elif text:
            end = min(len(text), at + rng.randrange(1, 5))
            text[at:at] = text[at:end]
    return bytes(text)


def wild_token(rng):
    """Pieces of the grammar in any order."""
    pieces = [b"iso-", b"anteiso-", b"O-", b"P-", b"d", b"t", b":", b":", b";", b";", b"(", b")",
              b",", b"[", b"]", b" ", b"+", b"-", b"cy", b"Z", b"E", b"O", b"0", b"1", b"2", b"3",
              b"4", b"6", b"9", b"12", b"18"]
    pieces += ABBREVIATIONS + EPOXIDES + CARBOCYCLES + WRONG_ABBREVIATIONS
    start = rng.choice([b"", b"6:0;", b"9:1", b"12:2(", b"9:0;2-4cy3", b"18:0;("])
    return start + b"".join(rng.choice(pieces) for _ in range(rng.randrange(7)))


def random_token(rng):
    """Any token, of the kinds above and from the boundary forms."""
    form = rng.randrange(20)
    if form < 10:
        return good_token(rng, rng.choice(["acyl", "slot", "base"]))
    if form < 14:
        return damaged(rng, good_token(rng, rng.choice(["acyl", "slot", "base"])))
    if form < 17:
        return wild_token(rng)
    return crowded_token(rng)


def crowded_token(rng):
    """Near the limits of 31 and of the seats."""
    carbons = rng.choice(BOUNDARY_CARBONS + [18, 30, 60, 100])
    form = rng.randrange(5)
    if form == 0:
        most = max(0, (carbons - 2) // 2)
        return b"%d:%d" % (carbons, max(0, most + rng.randrange(-4, 3)))
    if form == 1:
        groups = [b"(OH)%d" % rng.randrange(14, 18)]
        groups += [b"%dF" % rng.randrange(0, carbons + 2) for _ in range(rng.randrange(3))]
        return b"%d:0;" % carbons + b";".join(groups)
    if form == 2:
        count = rng.randrange(7, 10)
        return b"%d:0;Ep(%s)" % (carbons, b",".join(b"%d" % (2 * i + 2) for i in range(count)))
    if form == 3:
        count = rng.randrange(31, 34)
        positions = b",".join(b"%d" % (i + 2) for i in range(count))
        declared = count + rng.randrange(-1, 2)
        tail = rng.choice([b"", b";40-42cy3:1(40)", b";40-42cy3:2(40,41)"])
        return b"%d:%d(%s)" % (carbons, declared, positions) + tail
    large = rng.choice(LARGE_NUMBERS)
    return rng.choice([b"%d:0", b"9:%d", b"9:1(%d)", b"9:0;(OH)%d", b"9:0;%dOH", b"9:0;OH(%d)",
                       b"9:0;%dEp", b"9:0;cyc(%d)", b"9:0;2-4cy%d", b"9:0;2-4cy3:%d",
                       b"9:0;%d-4cy3", b"9:0;2-%dcy3", b"9:0;3OH;O%d"]) % large


# ---------------------------------------------------------------------------
# Stored tokens
# ---------------------------------------------------------------------------


def words(alphabet, longest):
    """Every word over an alphabet, shortest first."""
    for length in range(longest + 1):
        for letters in itertools.product(alphabet, repeat=length):
            yield b"".join(letters)


def short_tokens():
    """Every short token over small alphabets: whole ones, position lists, parts
    of a segment, what follows a ring."""
    split = lambda text: [text[i:i + 1] for i in range(len(text))]
    yield from (w for w in words(split(b"04:;d"), 4) if w)
    yield from (b"6:1" + w for w in words(split(b"()3Z,"), 4))
    yield from (b"6:0;" + w for w in words(split(b"3OH,()"), 4))
    yield from (b"9:0;2-4cy3" + w for w in words(split(b":1(3)"), 4))
    yield from (b"6:0;" + w for w in words([b"[", b"]", b" ", b"3OH", b";"], 4))


def boundary_tokens():
    """Numbers and counts at and beside every limit of the token reader."""
    prefixes = [b"", b"O-", b"P-", b"d", b"D", b"t", b"T"]
    branch_words = [b"", b"iso-", b"anteiso-"]
    for first, prefix, second in itertools.product(branch_words, prefixes, branch_words):
        for carbons in (0, 3, 4, 5, 6, 255, 256):
            yield first + prefix + second + b"%d:0" % carbons
    for text in (b"d:0", b"dd4:0", b"dt4:0", b"o-4:0", b"p-4:0", b"O-P-4:0", b"iso4:0", b"Iso-9:0",
                 b"d+6:0", b"d 6:0", b"O- 6:0", b"iso- 6:0", b"O-d6:0", b"dO-6:0"):
        yield text
    for carbons in BOUNDARY_CARBONS:
        for count in (0, 1, 2, 3, 4, 5):
            yield b"%d:%d" % (carbons, count)
        for p in (0, 1, 2, carbons - 1, carbons, carbons + 1):
            if p >= 0:
                yield b"%d:1(%dZ)" % (carbons, p)
                yield b"%d:0;%dOH" % (carbons, p)
                yield b"%d:0;%dEp" % (carbons, p)
                yield b"%d:0;%dcyc" % (carbons, p)
                yield b"%d:0;%d-%dcy3" % (carbons, p, p + 2)
                yield b"%d:2(%d)" % (carbons, p)
    # Seats: the largest count that fits, and one more, for many lengths.
    for carbons in list(range(4, 60)) + [253, 254, 255]:
        for count in range(max(1, (carbons - 2) // 3 - 1), (carbons - 2) // 2 + 2):
            if carbons < 28 or count % 7 == 0:
                yield b"%d:%d" % (carbons, count)
    # Seats keep clear of the `(..)` list, not of a ring's bonds or that of `P-`.
    for carbons in range(6, 15):
        for count in range(1, 6):
            yield b"P-%d:%d" % (carbons, count)
            yield b"iso-%d:%d" % (carbons, count)
            yield b"%d:%d;2-4cy3:1(3)" % (carbons, count)
            yield b"%d:%d;3-6cy4:2(3,5Z)" % (carbons, count)
            yield b"%d:%d(3,9)" % (carbons, count)
            yield b"%d:%d(1,20)" % (carbons, count)
    for used in itertools.combinations(range(2, 11), 2):
        yield b"12:4(%d,%d)" % used
        yield b"12:5(%d,%d)" % used
    for count in (15, 16, 17, 18):
        listed = b",".join(b"%d" % (2 + i % 9) for i in range(count))
        parts = b",".join(b"%dF" % (2 + i % 9) for i in range(count))
        for word in (b"", b"iso-"):
            yield word + b"18:0;(OH)%d" % count
            yield word + b"18:0;OH(%s)" % listed
            yield word + b"18:0;%s" % parts
            yield word + b"18:0;%s,x" % parts
            yield word + b"18:0;%s;x" % parts
            yield word + b"18:0;x;%s" % parts
            yield word + b"18:0;(OH)%d;(F)1" % (count - 1)
            yield word + b"18:0;(OH)%d;Ep(3)" % count
            yield word + b"3:1;(OH)%d" % count
    for count in (7, 8, 9):
        for carbons in (2 * count, 2 * count + 1, 30):
            starts = [2 * i + 2 for i in range(count)]
            yield b"%d:0;Ep(%s)" % (carbons, b",".join(b"%d" % s for s in starts))
            yield b"%d:0;%s" % (carbons, b",".join(b"%dep" % s for s in starts))
            yield b"%d:0;%s" % (carbons, b";".join(b"%d-%dcy2" % (s, s + 1) for s in starts))
            yield b"%d:0;Ep(%s);x" % (carbons, b",".join(b"%d" % s for s in starts))
    for count in (31, 32, 33, 34):
        positions = b",".join(b"%d" % (2 + i) for i in range(count))
        for declared in (1, count - 1, count, count + 1):
            yield b"99:%d(%s)" % (declared, positions)
            yield b"99:%d(%s);OH" % (declared, positions)
            yield b"99:%d(%s);x" % (declared, positions)
            yield b"99:%d(%s);50-52cy3:1(50)" % (declared, positions)
            yield b"99:%d(%s);50-52cy3:1(52)" % (declared, positions)
            yield b"99:0;2-90cy89:%d(%s)" % (declared, positions)
    for number in LARGE_NUMBERS + [255, 256]:
        for form in (b"%d:0", b"+%d:0", b"iso-%d:0", b"%d:x", b"%d", b"9:%d", b"9:1(%d)",
                     b"9:1(%dZ)", b"9:0;(OH)%d", b"9:0;(x)%d", b"9:0;%dOH", b"9:0;%dx",
                     b"9:0;OH(%d)", b"9:0;Ep(%d)", b"9:0;cyc(%d)", b"9:0;%dEp", b"9:0;%dcyclo",
                     b"9:0;2-4cy%d", b"9:0;2-4cy3:%d", b"9:0;2-4cy3:%d(3)", b"9:0;%d-4cy3",
                     b"9:0;2-%dcy3", b"9:0;O%d", b"9:0;3OH,O%d", b"9:0;3OH,%dO", b"9:0;(OH)+%d",
                     b"9:%d;(OH)17", b"9:0;(OH)17;%d"):
            yield form % number
        yield b"9:0;2-4cy3:" + b"0" * 30 + b"%d" % number
        yield b"0" * 30 + b"%d:0" % number
    for abbr in ABBREVIATIONS + EPOXIDES + CARBOCYCLES + WRONG_ABBREVIATIONS:
        for form in (b"%s", b"3%s", b"0%s", b"00%s", b"03%s", b"+3%s", b" %s", b"3 %s", b"%s ",
                     b"(%s)", b"(%s)0", b"(%s)2", b"(%s) 2", b"(%s)+2", b"( %s)", b"(3%s)",
                     b"%s()", b"%s(0)", b"%s(3)", b"%s(3,5)", b"%s( 3 , 5 )", b"%s(+3)", b"%s(3Z)",
                     b"%s(3", b"%s(3)x", b"%s (3)", b"3%s,5%s", b"3%s, 5%s", b"[3%s]", b"[[3%s]]"):
            yield b"9:0;" + form.replace(b"%s", abbr)
    for text in (b"O", b"O0", b"O1", b"O2", b"O+2", b"O++2", b"O 2", b"3O2", b"O2,O0", b"O0,O2",
                 b"O2;O0", b"O0;O2", b"O2;3OH", b"3OH;O2", b"O2;Ep(3)", b"O2;(OH)0", b"O00", b"oO",
                 b"O2;OH()", b"OO2"):
        yield b"9:0;" + text
        yield b"iso-9:0;" + text
    for text in (b"2-4cy3", b"2-4cy4", b"4-2cy3", b"0-2cy3", b"7-9cy3", b"8-10cy3", b"2-2cy1",
                 b"2-3cy2", b"2 - 4 cy 3", b" 2-4cy3 ", b"[2-4cy3]", b"[2-4cy3:0]", b"2-4cy3:",
                 b"2-4cy3: ", b"2-4cy3:()", b"2-4cy3:0()", b"2-4cy3:1()", b"2-4cy3:1(2)",
                 b"2-4cy3:1(3)", b"2-4cy3:1(4)", b"2-4cy3:1(1)", b"2-4cy3:2(2,3)", b"2-4cy3:2(2,2)",
                 b"2-4cy3:1(2,3)", b"2-4cy3:1 ( 3E )", b"2-4cy3:1(3e)", b"2-4cy3:1(3x)", b"2-4cy3(3)",
                 b"2-4cy3:1(3)x", b"2-4cy3:1(3", b"2-4-5cy3", b"2-4cycy3", b"-4cy3", b"2-cy3", b"2-4cy",
                 b"cy-3", b"2cy3", b"24cy3", b"+2-+4cy+3:+1(+2)", b"2-4Cy3", b"2-4cyc", b"x2-4cy3",
                 b"2-4cy3,3OH", b"[2-4cy3;3OH]", b"2-4cy3;2-4cy3", b"2-4cy3;3-5cy3", b"2-4cy3:-1",
                 b"2--4cy3", b"cyc(2)-cy", b"OH(2-3cy", b"2-4cy3:1;(3)"):
        yield b"9:0;" + text
        yield b"9:1(6);" + text
        yield b"9:2;" + text
    for text in (b"6:1(3)OH", b"6:0OH", b"6:0 OH", b"6:1 (3)", b"6:1(3);OH", b"6:1(3)(4)", b"6:0(OH)",
                 b"6:0(OH)2", b"6:0 ;3OH", b"6:0[3OH]", b"6:0[", b"6:0]", b"6:0[]", b"6:1(3)]", b"6:",
                 b"6: 0", b"6 :0", b" 6:0", b"6:0 ", b":0", b"6", b"", b" ", b"6:0:0", b"6:1(", b"6:1)",
                 b"6:1((3))", b"6:1(3", b"6:1(3Z)", b"6:1(3ZZ)", b"6:1(Z)", b"6:1(3 Z)", b"6:1( 3Z )",
                 b"6:1(3Z,)", b"6:1(,3)", b"6:2(3,,4)", b"6:1(+3Z)", b"6:1(-3)", b"6:1(3;4)", b"+6:0",
                 b"++6:0", b"-6:0", b"6:+0", b"6:-0", b"6.0:0", b"0:0", b" 0:0 ", b"00:0", b"0:00",
                 b"+0:0", b"0:0;", b"0:0;OH", b"0:0;O2", b"0:0;(OH)0", b"0:1", b"0:0;0-0cy1", b"0:1(0)",
                 b"d0:0", b"t0:0", b"O-0:0", b"P-0:0", b"iso-0:0", b"0:0x"):
        yield text
    for length in (253, 254, 255, 256, 257):
        yield b"4:0" + b" " * (length - 3)
        yield b" " * (length - 3) + b"4:0"
        yield b"0" * (length - 3) + b"4:0"
        yield b"4:" + b"0" * (length - 2)
        yield b"4:0" + b";" * (length - 3)
        yield b"9:0;" + b"[" * (length - 7) + b"3OH"
        yield b"x" * length
    for byte in ODD_BYTES + b"\x01\x0b\x0c\x1b\xa0\xa9":
        for text in (b"4:0%s", b"%s4:0", b"4%s:0", b"x%s", b"4:0;%s"):
            yield text.replace(b"%s", bytes([byte]))
    yield "4:0\u00a0".encode()
    yield "\u20094:0".encode()
    yield "6:0;3\u00d6H".encode()


def stored_tokens(rng, random_count):
    """The stored token vectors: no doubles, no LF, no tab."""
    drawn = (random_token(rng) for _ in range(random_count))
    seen = dict.fromkeys(itertools.chain(short_tokens(), boundary_tokens(), drawn))
    return [t for t in seen if b"\n" not in t and b"\t" not in t]


# ---------------------------------------------------------------------------
# Tails
# ---------------------------------------------------------------------------


def good_tail(rng):
    if rng.random() < 0.4:
        return rng.choice(HEADGROUPS)
    return tail_run(rng, rng.choice([0, 1, 1, 2, 3]), opening=0.2)


def tail_run(rng, depth, opening):
    """A run of the tail's grammar; a ring digit opens and closes three atoms on."""
    atoms = [b"C", b"C", b"C", b"O", b"N", b"P", b"S", b"F", b"I", b"B", b"Cl", b"Br", b"b", b"c", b"n",
             b"o", b"s", b"p", b"*", b"[O-]", b"[N+]", b"[C@@H]", b"[13C]", b"[abcdefghijklmnop]"]
    text = b""
    for i in range(rng.choice([1, 1, 2, 2, 3, 4])):
        if rng.random() < (opening if i == 0 else 0.25):
            text += rng.choice([b"-", b"=", b"#", b"/", b"\\"])
        if rng.random() < 0.1:
            digit = b"%d" % rng.randrange(1, 10)
            text += rng.choice([b"C%sCC%s", b"c%sccc%s", b"C%s(CC%s)", b"C(C%s)CC%s"]).replace(b"%s", digit)
        else:
            text += rng.choice(atoms)
        while depth and rng.random() < 0.35:
            text += b"(" + tail_run(rng, depth - 1, opening=0.3) + b")"
    return text


def nested_tail(depth):
    return b"C(" * depth + b"C" + b")" * depth


EDGE_TAILS = [
    b"", b"C1", b"C11", b"C1C1", b"C1CC1", b"C12CC12", b"C12CCC1C2", b"C1CC11CC1", b"C1CC=1", b"C=1CC1",
    b"C(C)1CC1", b"C1(CC1)", b"C(C1)CC1", b"C(C1)C1", b"(C)C", b"C()", b"C(=)", b"C=", b"C(C", b"C)C",
    b"C0", b"C%10CC%10", b"C.C", b"C C", b"=C", b"==C", b"C==C", b"C(=C)(#N)/C", b"C(-C)\\C", b"-C", b"~C",
    b"C$C", b"C:C", b"[]", b"[C", b"C]", b"[C ]", b"[C.]", b"[[C]]", b"[*]", b"Cl", b"l", b"r", b"ClBr",
    b"CBr1CC1", b"Cl1CC1", b"H", b"A", b"Si", b"se", b"[Se]", b"C1C2CC12", b"C1CCC1C1CC1", b"C1CC12CC2",
    b"C9CC9", b"C1C(C1)C", b"C(C)(C)(C)C", b"C((C))C", b"C(C)=(C)C", b"C=(C)C", b"C(=C=C)C", b"C1=CC=1",
    b"*", b"**", b"*1**1", b"bcnosp", b"BCNOPSFI", b"[abcdefghijklmnopq]", b"[ABCDEFGHIJKLMNOP]",
    b"[+-@0aZ]", b"[+-/]", b"C1CC1C1CC1", b"C123CC1CC2CC3", b"C(C(C1)CC1)C",
]


# ---------------------------------------------------------------------------
# Requests
# ---------------------------------------------------------------------------

HEADER = b"class\tswap\ttail\tsn1\tsn2\tsn3\tsn4"


def row(class_code, tokens, tail=b"", swap=b""):
    """A row of the sheet; more than four tokens make it unreadable."""
    cells = [class_code, swap, tail] + list(tokens)
    return b"\t".join(cells + [b""] * (7 - len(cells)))


def kind_at(class_code, place):
    if class_code in (b"SB", b"SA"):
        return "base" if place == 0 else "acyl"
    return "acyl" if class_code == b"FA" else "slot"


def needs_tail(class_code):
    return class_code in (b"GP", b"SB", b"SA")


def good_row(rng, fault_rate=0.0):
    """A row that is mostly accepted; with `fault_rate`, some cell is damaged."""
    class_code = rng.choice(CLASSES)
    fewest, most = TOKEN_COUNT[class_code]
    count = rng.randrange(fewest, most + 1) if rng.random() < 0.4 else most
    tokens = [good_token(rng, kind_at(class_code, i)) for i in range(count)]
    if class_code not in (b"FA", b"SB", b"SA") and rng.random() < 0.15:
        tokens[rng.randrange(count)] = b"0:0"
    tail = good_tail(rng) if needs_tail(class_code) else b""
    swap = rng.choice([b"", b"0", b"1", b"1"])
    if rng.random() < fault_rate:
        fault = rng.randrange(12)
        at = rng.randrange(count)
        if fault < 5:
            tokens[at] = damaged(rng, tokens[at])
        elif fault < 7:
            tail = damaged(rng, tail)
        elif fault == 7:
            tokens[at] = good_token(rng, rng.choice(["acyl", "slot", "base"]))
        elif fault == 8:
            tokens[at] = random_token(rng)
        elif fault == 9:
            tokens = tokens + [good_token(rng, "slot")] if rng.random() < 0.5 else tokens[:-1]
        elif fault == 10:
            class_code = rng.choice(CLASSES + [b"", b"fa", b"GL", b"GL4", b"PC", b" FA", b"FA "])
        else:
            tokens[at] = rng.choice([b"", b" ", b"0:0", b"x", b"d4:0", b"O-0:0", b"P-0:0", b"3:0"])
    return row(class_code, tokens, tail, swap)


def random_row(rng):
    form = rng.randrange(10)
    if form < 6:
        return good_row(rng)
    if form < 9:
        return good_row(rng, fault_rate=1.0)
    class_code = rng.choice(CLASSES)
    tokens = [random_token(rng) for _ in range(TOKEN_COUNT[class_code][1])]
    return row(class_code, tokens, good_tail(rng) if needs_tail(class_code) else b"",
               rng.choice([b"", b"0", b"1"]))


def boundary_rows():
    """Rows at the limits, beside the drawn ones."""
    for class_code in CLASSES:
        fewest, most = TOKEN_COUNT[class_code]
        tail = b"O" if needs_tail(class_code) else b""
        prefix = b"d" if class_code in (b"SB", b"SA") else b""
        others = [b"4:0"] * (most - 1)
        for carbons in BOUNDARY_CARBONS:
            for feature in (b":0", b":1", b":1(2Z)", b":0;3OH", b":0;OH", b":0;3Ep", b":1(3E);2OH"):
                yield row(class_code, [prefix + b"%d" % carbons + feature] + others, tail, b"1")
        for count in range(6):
            yield row(class_code, [prefix + b"5:0"] * count, tail, b"1")
            yield row(class_code, [b"x"] * count, b"C1", b"")
        for swap in (b"", b"0", b"1", b"2", b"01", b" ", b"1 "):
            yield row(class_code, [prefix + b"5:0"] + others, tail, swap)
        for token in (b"5:0", b"O-5:0", b"P-5:0", b"d5:0", b"t5:0", b"0:0", b"O-0:0", b"d0:0", b"P-0:0",
                      b"3:0", b"d3:0", b"iso-d4:0", b"iso-d5:0", b"anteiso-d5:0", b"anteiso-d6:0",
                      b"iso-t6:0", b"iso-6:0", b"anteiso-6:0", b"O-anteiso-6:0", b"iso-12:1", b"d8:1(3E)",
                      b"d8:1(2)", b"d8:1(4Z)", b"t8:1(4Z)", b"d8:0;1OH", b"d8:0;2OH", b"d8:0;3oxo",
                      b"t8:0;4Me,4Et", b"d8:0;3Ep", b"d8:0;2Ep", b"d8:1", b"t9:1", b"t8:1", b"d8:0;OH",
                      b"O-6:0;1OH", b"O-6:0;1Ep", b"O-6:1(1E)", b"P-6:0;2Ep", b"P-6:0;1OH", b"P-6:1(2Z)",
                      b"P-7:1", b"P-8:1;1OH", b"P-8:1;2OH", b"P-8:1;3OH", b"1:0;OH", b"O-1:0;OH", b"P-1:0",
                      b"6:1(1Z)", b"6:1(5E)", b"6:1(6)", b"6:0;6OH", b"6:0;7OH", b"6:0;1OH", b"6:0;1cyc"):
            yield row(class_code, [token] + others, tail, b"1")
            if others:
                first = prefix + b"5:0"
                yield row(class_code, [first] + others[:-1] + [token], tail, b"1")
        # Seats and the room of a flexible tail.
        for carbons in range(4, 16):
            for count in range(1, 4):
                yield row(class_code, [prefix + b"%d:%d" % (carbons, count)] + others, tail)
                yield row(class_code, [prefix + b"%d:%d(2Z)" % (carbons, count)] + others, tail)
        for count in (15, 16, 17):
            yield row(class_code, [prefix + b"9:0;(OH)%d" % count] + others, tail)
            yield row(class_code, [prefix + b"9:0;3F;(OH)%d" % (count - 1)] + others, tail)
        for count in (7, 8, 9):
            rings = b"Ep(%s)" % b",".join(b"%d" % (2 * i + 3) for i in range(count))
            yield row(class_code, [prefix + b"22:0;" + rings] * most, tail, b"1")
            rings = b";".join(b"4-%dcy%d" % (6 + i, 3 + i) for i in range(count))
            yield row(class_code, [prefix + b"22:0;" + rings] * most, tail, b"1")
        for count in (31, 32, 33):
            positions = b",".join(b"%d%s" % (2 * i + 3, b"ZE"[i % 2:i % 2 + 1]) for i in range(count))
            yield row(class_code, [prefix + b"70:%d(%s)" % (count, positions)] + others, tail)
    # Two faults at once: which is answered.
    faults = [b"x", b"256:0", b"d4:0", b"9:1(9)", b"9:2(3,3)", b"9:0;1OH", b"9:1;4OH", b"5:1(2)", b"4:1",
              b"1:0;OH", b"4:0", b"0:0"]
    for first, second in itertools.product(faults, repeat=2):
        yield row(b"GL2", [first, second])
        yield row(b"GP", [first, second], b"C1")
        yield row(b"SA", [first.replace(b"d4:0", b"d3:0"), second], b"O")
    for class_code in (b"", b"fa", b"FA ", b" FA", b"GL0", b"GL4", b"GL", b"PC", b"PL", b"SBB", b"CLL"):
        yield row(class_code, [b"4:0"])
        yield row(class_code, [])
    for class_code, token in ((b"GP", b"2:0"), (b"SB", b"d4:0")):
        for tail in EDGE_TAILS + [nested_tail(d) for d in (1, 15, 16, 17)]:
            yield row(class_code, [token], tail)
        for length in (254, 255, 256):
            yield row(class_code, [token], b"C" * length)
            yield row(class_code, [token], b"(".join([b"C"] * 3) + b")" * 2 + b"O" * (length - 7))
    for tail in EDGE_TAILS[:12]:
        yield row(b"FA", [b"4:0"], tail)
        yield row(b"CL", [b"2:0"] * 4, tail)
    # The line slice: 65,536 bytes exactly, one more, and far more.
    full = b"255:0;(OH)16"
    yield row(b"CL", [full] * 3 + [b"242:0;(OH)13;(Cl)2"])
    yield row(b"CL", [full] * 3 + [b"242:0;(OH)12;(Cl)3"])
    yield row(b"CL", [full] * 4, swap=b"1")
    # Many variables: past z, past az, in one chain and in the next.
    for count in (24, 25, 26, 51, 52):
        yield row(b"FA", [b"160:%d" % count])
        yield row(b"GL2", [b"8:1", b"160:%d" % count], swap=b"1")
        yield row(b"SA", [b"d160:%d" % count, b"9:2"], b"O")
    yield row(b"FA", [b"255:86"])
    yield row(b"CL", [b"60:12"] * 4, swap=b"1")
    yield row(b"GL3", [b"255:60"] * 3)
    # Rows that are no row.
    yield b""
    yield b"FA"
    yield b"FA\t\t\t4:0"
    yield row(b"FA", [b"4:0"]) + b"\t"
    for length in (2047, 2048, 2049):
        yield row(b"FA", [b"x" * (length - 8)])
        yield row(b"FA", [b"4:0", b" " * (length - 11)])
    yield row(b"GL2", [b"", b"4:0"])
    yield row(b"GL2", [b" ", b"4:0"])
    yield row(b"GL3", [b"4:0", b"", b"4:0"])
    yield row(b"FA", [b"4:0\r"])
    yield row(b"FA", [b"4:0\xff"])


def stored_rows(rng, good_count, fault_count):
    """The stored request vectors: no doubles."""
    rows = list(boundary_rows())
    rows += [good_row(rng) for _ in range(good_count)]
    rows += [good_row(rng, fault_rate=1.0) for _ in range(fault_count)]
    return list(dict.fromkeys(rows))


# ---------------------------------------------------------------------------
# Chains: features on neighbouring carbons
# ---------------------------------------------------------------------------

# What sits at carbon k, as a double bond of the list or as a segment.
CHAIN_BONDS = [b"%d", b"%dZ", b"%dE"]
CHAIN_SEGMENTS = [lambda k: b"%dEp" % k, lambda k: b"%d-%dcy5" % (k, k + 4), lambda k: b"%d-%dcy5" % (k - 4, k),
                  lambda k: b"%dOH" % k, lambda k: b"%doxo" % k, lambda k: b"OH"]
CHAIN_PLACES = [(7, 1), (7, 2), (7, 5), (7, 6), (14, 2), (14, 5), (14, 6), (14, 12)]


def chain_token(carbons, missing, features):
    """A token with features (which, carbon); the first three kinds are double bonds."""
    bonds = [CHAIN_BONDS[f] % k for f, k in features if f < len(CHAIN_BONDS)]
    segments = [CHAIN_SEGMENTS[f - len(CHAIN_BONDS)](k) for f, k in features if f >= len(CHAIN_BONDS)]
    token = b"%d:%d" % (carbons, len(bonds) + missing)
    if bonds:
        token += b"(" + b",".join(bonds) + b")"
    return token + b"".join(b";" + text for text in segments)


def chain_rows():
    """Every pair of features on one carbon, on neighbours and one apart, at the start, in the
    middle and at the end of a chain, with no, one and two double bonds without a position."""
    kinds = range(len(CHAIN_BONDS) + len(CHAIN_SEGMENTS))
    for carbons, k in CHAIN_PLACES:
        for missing in (0, 1, 2):
            for a in kinds:
                for b in kinds:
                    for apart in (0, 1, 2):
                        yield row(b"FA", [chain_token(carbons + 6 * missing, missing, [(a, k), (b, k + apart)])])
    for carbons in range(1, 40):
        for missing in range(0, 6):
            yield row(b"FA", [b"%d:%d" % (carbons, missing)])
            yield row(b"FA", [b"iso-%d:%d" % (carbons, missing)])
            yield row(b"FA", [b"%d:%d;OH" % (carbons, missing)])


def stored_chains():
    return list(dict.fromkeys(chain_rows()))
