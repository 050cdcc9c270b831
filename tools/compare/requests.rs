// ---------- requests from a seed ----------
//
// The same kinds as tools/vectors/generate.py has: good ones with their features
// crowded around one carbon, damaged copies, pieces of the grammar in any order, the
// limits, and every short token over small alphabets.

mod requests {
    use super::call::Case;
    use std::io::Write;

    /// Numbers from a seed (splitmix64).
    pub struct Rng(u64);

    impl Rng {
        pub fn new(seed: u64, stream: u64) -> Rng {
            let mut rng = Rng(seed.wrapping_mul(0xd134_2543_de82_ef95) ^ stream.wrapping_mul(0xa076_1d64_78bd_642f));
            rng.next();
            rng
        }

        fn next(&mut self) -> u64 {
            self.0 = self.0.wrapping_add(0x9e37_79b9_7f4a_7c15);
            let mut z = self.0;
            z = (z ^ (z >> 30)).wrapping_mul(0xbf58_476d_1ce4_e5b9);
            z = (z ^ (z >> 27)).wrapping_mul(0x94d0_49bb_1331_11eb);
            z ^ (z >> 31)
        }

        /// A number below `n`, which is above 0.
        pub fn below(&mut self, n: usize) -> usize {
            (((self.next() >> 32) * n as u64) >> 32) as usize
        }

        /// A number of `low..high`.
        fn range(&mut self, low: i64, high: i64) -> i64 {
            low + self.below((high - low) as usize) as i64
        }

        /// True `percent` times of a hundred.
        fn chance(&mut self, percent: usize) -> bool {
            self.below(100) < percent
        }

        fn pick<T: Copy>(&mut self, from: &[T]) -> T {
            from[self.below(from.len())]
        }
    }

    pub const CLASSES: [(&str, usize, usize); 8] = [
        ("FA", 1, 1),
        ("GL1", 1, 1),
        ("GL2", 1, 2),
        ("GL3", 1, 3),
        ("GP", 1, 2),
        ("CL", 4, 4),
        ("SB", 1, 1),
        ("SA", 2, 2),
    ];
    const GROUPS: [&str; 19] = [
        "Et", "Me", "Br", "Cl", "F", "I", "NO2", "OMe", "NH2", "OOH", "SH", "OH", "oxo", "CN", "P", "S", "COOH",
        "hydroxy", "keto",
    ];
    const EPOXIDES: [&str; 3] = ["Ep", "ep", "epox"];
    const CARBOCYCLES: [&str; 2] = ["cyc", "cyclo"];
    /// Refused ones among the abbreviations: linkages, conjugates, near misses.
    const WRONG: [&str; 11] = ["oxy", "OO", "G", "T", "oh", "Oh", "EP", "NO", "H", "cy", "O-"];
    const HEADGROUPS: [&str; 8] = [
        "O",
        "OP(=O)(O)O",
        "OP(=O)([O-])OCC[N+](C)(C)C",
        "OP(=O)(O)OCCN",
        "OP(=O)(O)OCC(O)CO",
        "OP(=O)(O)OC1C(O)C(O)C(O)C(O)C1O",
        "OC1OC(CO)C(O)C(O)C1O",
        "OP(=O)(O)OCC(N)C(=O)O",
    ];
    const BOUNDARY_CARBONS: [i64; 18] = [0, 1, 2, 3, 4, 5, 6, 7, 8, 9, 10, 11, 12, 253, 254, 255, 256, 257];
    const LARGE: [u128; 8] =
        [(1 << 32) - 3, (1 << 32) - 2, (1 << 32) - 1, 1 << 32, (1 << 32) + 1, (1 << 64) - 1, 1 << 64, (1 << 64) + 1];

    /// What a place of a class takes.
    #[derive(Clone, Copy)]
    enum Kind {
        Acyl,
        Slot,
        Base,
    }

    fn kind_at(class: &str, place: usize) -> Kind {
        match (class, place) {
            ("SB" | "SA", 0) => Kind::Base,
            ("SB" | "SA" | "FA", _) => Kind::Acyl,
            _ => Kind::Slot,
        }
    }

    fn any_kind(rng: &mut Rng) -> Kind {
        rng.pick(&[Kind::Acyl, Kind::Slot, Kind::Base])
    }

    fn has_tail(class: &str) -> bool {
        matches!(class, "GP" | "SB" | "SA")
    }

    macro_rules! put {
        ($text:expr, $($piece:tt)*) => { write!($text, $($piece)*).expect("a vector takes it") };
    }

    // ---------- one token ----------

    /// A token that mostly fits its place, with its features crowded around one carbon, so
    /// that neighbours meet.
    fn good_token(rng: &mut Rng, kind: Kind) -> Vec<u8> {
        let prefix = match kind {
            Kind::Acyl => "",
            Kind::Slot => rng.pick(&["", "", "", "O-", "P-"]),
            Kind::Base => rng.pick(&["d", "d", "t", "t", "", "D", "T"]),
        };
        let mut word = match rng.below(16) {
            0 => "iso-",
            1 => "anteiso-",
            _ => "",
        };
        let (low, high) = rng.pick(&[(1, 13), (4, 20), (4, 26), (8, 40)]);
        let mut carbons = rng.range(low, high);
        let missing = rng.pick(&[0, 0, 0, 0, 0, 0, 1, 1, 2, 3]);
        if missing > 0 && rng.chance(90) {
            carbons += 2 * missing + 6;
            word = ""; // a methyl pins the end of the chain, and no tail is left
        }
        let base = matches!(kind, Kind::Base);
        carbons = carbons.max(if base || !word.is_empty() { 4 } else { 1 });

        let c = carbons - i64::from(!word.is_empty());
        let mut crowd = Crowd::new(rng, prefix, base, c, missing);
        let bonds = crowd.bonds();
        let segments: Vec<Vec<u8>> = (0..crowd.rng.pick(&[0, 0, 1, 1, 1, 2, 3])).map(|_| crowd.segment()).collect();

        let mut token = Vec::new();
        if rng.chance(30) {
            put!(token, "{prefix}{word}");
        } else {
            put!(token, "{word}{prefix}");
        }
        put!(token, "{carbons}:{}", bonds.len() as i64 + missing);
        if !bonds.is_empty() || rng.chance(2) {
            put!(token, "({})", bonds.join(","));
        }
        for segment in segments {
            token.push(b';');
            token.extend(segment);
        }
        decorated(rng, token)
    }

    /// Features of one chain around a hot carbon. Positions that a double bond or a ring
    /// takes are remembered, so that most tokens do not clash.
    struct Crowd<'a> {
        rng: &'a mut Rng,
        c: i64,
        lowest: i64,
        hot: i64,
        taken: Vec<i64>,
    }

    impl<'a> Crowd<'a> {
        fn new(rng: &'a mut Rng, prefix: &str, base: bool, c: i64, missing: i64) -> Crowd<'a> {
            let lowest = if base {
                3
            } else if prefix.is_empty() {
                2
            } else {
                1
            };
            // With unlocated bonds only pins near the start leave a flexible tail.
            let mut hot = lowest;
            if missing == 0 {
                hot += rng.range(0, (c - lowest + 1).max(1));
                if rng.chance(15) {
                    hot = lowest.max(c - 1);
                }
            }
            Crowd { rng, c, lowest, hot, taken: if prefix == "P-" { vec![1] } else { vec![] } }
        }

        /// A start near the hot carbon from which `span` carbons mostly fit.
        fn near(&mut self, span: i64) -> i64 {
            if self.rng.chance(2) {
                return self.rng.range(0, self.c + 2);
            }
            let start = self.hot + self.rng.pick(&[-2, -1, -1, 0, 0, 0, 1, 1, 2, 3]);
            start.min(self.c - span + 1).max(self.lowest)
        }

        /// `near`, and mostly at no carbon where a bond or ring stands.
        fn free(&mut self, span: i64) -> i64 {
            let mut start = self.near(span);
            for _ in 0..3 {
                if self.taken.contains(&start) {
                    start = self.near(span);
                }
            }
            self.taken.push(start);
            start
        }

        /// Positions with letters: single ones, or a conjugated run.
        fn bonds(&mut self) -> Vec<String> {
            let count = self.rng.pick(&[0, 0, 1, 1, 1, 2, 2, 3]);
            let mut positions: Vec<i64> = (0..count).map(|_| self.free(2)).collect();
            if count > 0 && self.rng.chance(30) {
                let first = positions[0];
                positions = (0..count).map(|i| first + 2 * i).filter(|p| *p < self.c).collect();
                self.taken.extend(&positions);
            }
            if self.rng.chance(20) {
                positions.reverse();
            }
            positions
                .into_iter()
                .map(|p| format!("{p}{}", self.rng.pick(&["", "Z", "E", "Z", "E", "z", "e"])))
                .collect()
        }

        /// One segment, in any of the forms.
        fn segment(&mut self) -> Vec<u8> {
            let form = self.rng.below(12);
            let abbr = self.rng.pick(&GROUPS);
            let mut text = Vec::new();
            match form {
                0..=2 => put!(text, "{}{abbr}", self.near(1)),
                3 => put!(text, "{}{abbr},{}{}", self.near(1), self.near(1), self.rng.pick(&GROUPS)),
                4 => match self.rng.below(3) {
                    0 => put!(text, "{abbr}()"),
                    1 => put!(text, "{abbr}({})", self.near(1)),
                    _ => put!(text, "{abbr}({},{})", self.near(1), self.near(1)),
                },
                5 => match self.rng.below(5) {
                    0 => put!(text, "{abbr}"),
                    1 => put!(text, "({abbr})"),
                    2 => put!(text, "({abbr}){}", self.rng.below(4)),
                    3 => put!(text, "{abbr}(0)"),
                    _ => put!(text, "0{abbr}"),
                },
                6 | 7 => {
                    put!(text, "{}{}", self.free(2), self.rng.pick(&EPOXIDES));
                    if self.rng.below(3) == 0 {
                        put!(text, ",3OH");
                    }
                }
                8 => {
                    let name = self.rng.pick(&CARBOCYCLES);
                    if self.rng.chance(50) {
                        put!(text, "{}{name}", self.free(3));
                    } else {
                        put!(text, "{name}({},{})", self.free(3), self.free(3));
                    }
                }
                9 | 10 => self.ring(&mut text),
                _ if self.rng.chance(30) => put!(text, "{}", self.rng.pick(&["O", "O2", "O0", "3O2", "O+1", ""])),
                _ => put!(text, "OH"),
            }
            text
        }

        fn ring(&mut self, text: &mut Vec<u8>) {
            let size =
                if self.rng.chance(90) { self.rng.pick(&[3, 3, 3, 4, 4, 5, 6, 6]) } else { self.rng.pick(&[1, 2]) };
            let start = self.near(size);
            let end = start + size - 1;
            let bracketed = self.rng.chance(30);
            if bracketed {
                text.push(b'[');
            }
            put!(text, "{start}-{end}cy{size}");
            match self.rng.below(4) {
                1 => put!(text, ":{}", self.rng.below(3)),
                2 if end > start => {
                    let p = self.rng.range(start, end);
                    if !self.taken.contains(&p) || self.rng.chance(20) {
                        put!(text, ":{}({p}{})", self.rng.pick(&[1, 1, 2]), self.rng.pick(&["", "Z", "E"]));
                        self.taken.push(p);
                    }
                }
                _ => {}
            }
            if bracketed {
                text.push(b']');
            }
        }
    }

    fn replaced(text: &[u8], from: u8, to: &[u8], most: usize) -> Vec<u8> {
        let mut out = Vec::with_capacity(text.len() + 8);
        let mut times = 0;
        for &byte in text {
            if byte == from && times < most {
                out.extend(to);
                times += 1;
            } else {
                out.push(byte);
            }
        }
        out
    }

    /// Now and then blanks, brackets, plus signs or zeros where they may stand.
    fn decorated(rng: &mut Rng, mut token: Vec<u8>) -> Vec<u8> {
        match rng.below(40) {
            0 => [b" ", &token[..], b"  "].concat(),
            1 => replaced(&token, b';', b" ; ", 99),
            2 => {
                token = replaced(&token, b';', b";[[", 1);
                token.push(b']');
                token
            }
            3 => replaced(&token, b',', b", ", 99),
            4 => replaced(&token, b'(', b"(+", 99),
            5 => replaced(&token, b':', b":0", 1),
            6 => {
                token.extend(b";;");
                token
            }
            _ => token,
        }
    }

    const DAMAGE: &[u8] = b"0123456789:;,()[]-+ dDtTOPZEzeHCcyEpisoanteMF/\\=.%";
    const ODD: &[u8] = b"\t\n\r\x00\x1f\x7f\x80\xc3\xff~!";

    /// A copy with one to three small faults.
    fn damaged(rng: &mut Rng, text: &[u8]) -> Vec<u8> {
        let mut text = text.to_vec();
        for _ in 0..rng.pick(&[1, 1, 1, 2, 3]) {
            let at = rng.below(text.len() + 1);
            let byte = if rng.chance(98) { rng.pick(DAMAGE) } else { rng.pick(ODD) };
            let last = text.len().saturating_sub(1);
            match rng.below(5) {
                0 => text.insert(at, byte),
                1 if !text.is_empty() => {
                    text.remove(at.min(last));
                }
                2 if !text.is_empty() => text[at.min(last)] = byte,
                3 if at < last => text.swap(at, at + 1),
                _ => {
                    let end = text.len().min(at + 1 + rng.below(4));
                    let copy = text[at..end].to_vec();
                    text.splice(at..at, copy);
                }
            }
        }
        text
    }

    /// Pieces of the grammar in any order.
    fn wild_token(rng: &mut Rng) -> Vec<u8> {
        const PIECES: [&str; 31] = [
            "iso-", "anteiso-", "O-", "P-", "d", "t", ":", ":", ";", ";", "(", ")", ",", "[", "]", " ", "+", "-", "cy",
            "Z", "E", "O", "0", "1", "2", "3", "4", "6", "9", "12", "18",
        ];
        let mut token = rng.pick(&["", "6:0;", "9:1", "12:2(", "9:0;2-4cy3", "18:0;("]).as_bytes().to_vec();
        for _ in 0..rng.below(7) {
            let lists: [&[&str]; 5] = [&PIECES, &GROUPS, &EPOXIDES, &CARBOCYCLES, &WRONG];
            let list = lists[rng.pick(&[0, 0, 0, 0, 1, 1, 1, 2, 3, 4])];
            token.extend(rng.pick(list).as_bytes());
        }
        token
    }

    /// At and beside the limits of 31 and of the seats.
    fn crowded_token(rng: &mut Rng, prefix: &str) -> Vec<u8> {
        let mut token = prefix.as_bytes().to_vec();
        let carbons = match rng.below(3) {
            0 => rng.pick(&[18, 30, 60, 100]),
            _ => rng.pick(&BOUNDARY_CARBONS),
        };
        match rng.below(8) {
            0 => {
                let most = ((carbons - 2) / 2).max(0);
                put!(token, "{carbons}:{}", (most + rng.range(-4, 3)).max(0));
            }
            1 => {
                put!(token, "{carbons}:0;({}){}", rng.pick(&GROUPS), rng.range(14, 18));
                for _ in 0..rng.below(3) {
                    put!(token, ";{}F", rng.range(0, carbons + 2));
                }
            }
            2 => {
                // Groups with positions, sixteen or seventeen of them.
                put!(token, "{carbons}:0;{}(", rng.pick(&GROUPS));
                for i in 0..rng.range(15, 18) {
                    put!(token, "{}{}", if i == 0 { "" } else { "," }, 3 + i % 9);
                }
                put!(token, ")");
            }
            3 => {
                put!(token, "{carbons}:0;{}(", rng.pick(&["Ep", "cyc"]));
                for i in 0..rng.range(7, 10) {
                    put!(token, "{}{}", if i == 0 { "" } else { "," }, 2 * i + 3);
                }
                put!(token, ")");
            }
            4 => {
                put!(token, "{carbons}:0");
                for i in 0..rng.range(7, 10) {
                    put!(token, ";4-{}cy{}", 6 + i, 3 + i);
                }
            }
            5 => {
                let count = rng.range(31, 34);
                let (first, step) = rng.pick(&[(2, 1), (3, 2)]);
                put!(token, "{carbons}:{}(", count + rng.range(-1, 2));
                for i in 0..count {
                    put!(
                        token,
                        "{}{}{}",
                        if i == 0 { "" } else { "," },
                        first + step * i,
                        rng.pick(&["", "", "Z", "E"])
                    );
                }
                put!(token, "){}", rng.pick(&["", "", ";90-92cy3:1(90)", ";90-92cy3:2(90,91)"]));
            }
            6 => {
                let feature = rng.pick(&[":0", ":1", ":1(2Z)", ":0;3OH", ":0;OH", ":0;3Ep", ":1(3E);2OH", ":1(4E)"]);
                put!(token, "{carbons}{feature}");
            }
            _ => {
                let large = rng.pick(&LARGE);
                let (before, after) = rng.pick(&[
                    ("", ":0"),
                    ("9:", ""),
                    ("9:1(", ")"),
                    ("9:0;(OH)", ""),
                    ("9:0;", "OH"),
                    ("9:0;OH(", ")"),
                    ("9:0;", "Ep"),
                    ("9:0;cyc(", ")"),
                    ("9:0;2-4cy", ""),
                    ("9:0;2-4cy3:", ""),
                    ("9:0;", "-4cy3"),
                    ("9:0;2-", "cy3"),
                    ("9:0;3OH;O", ""),
                ]);
                put!(token, "{before}{large}{after}");
            }
        }
        token
    }

    /// Any token.
    fn random_token(rng: &mut Rng) -> Vec<u8> {
        match rng.below(20) {
            0..=9 => {
                let kind = any_kind(rng);
                good_token(rng, kind)
            }
            10..=13 => {
                let kind = any_kind(rng);
                let token = good_token(rng, kind);
                damaged(rng, &token)
            }
            14..=16 => wild_token(rng),
            _ => {
                let prefix = rng.pick(&["", "", "", "d", "t", "O-", "P-", "iso-"]);
                crowded_token(rng, prefix)
            }
        }
    }

    // ---------- tails ----------

    fn good_tail(rng: &mut Rng) -> Vec<u8> {
        let mut tail = Vec::new();
        match rng.below(20) {
            0..=7 => tail.extend(rng.pick(&HEADGROUPS).as_bytes()),
            8 => {
                // Depth 15 to 17, of which 16 is the most.
                let depth = 15 + rng.below(3);
                tail.extend(b"C(".repeat(depth));
                tail.push(b'C');
                tail.extend(b")".repeat(depth));
            }
            9 => tail.extend(b"C".repeat(254 + rng.below(3))),
            _ => {
                let depth = rng.pick(&[0, 1, 1, 2, 3]);
                tail_run(rng, depth, 20, &mut tail);
            }
        }
        tail
    }

    /// A run of the tail's grammar; a ring digit opens, and closes some atoms on.
    fn tail_run(rng: &mut Rng, depth: usize, opening: usize, tail: &mut Vec<u8>) {
        const ATOMS: [&str; 24] = [
            "C",
            "C",
            "C",
            "O",
            "N",
            "P",
            "S",
            "F",
            "I",
            "B",
            "Cl",
            "Br",
            "b",
            "c",
            "n",
            "o",
            "s",
            "p",
            "*",
            "[O-]",
            "[N+]",
            "[C@@H]",
            "[13C]",
            "[abcdefghijklmnop]",
        ];
        for i in 0..rng.pick(&[1, 1, 2, 2, 3, 4]) {
            if rng.chance(if i == 0 { opening } else { 25 }) {
                tail.push(rng.pick(b"-=#/\\"));
            }
            if rng.chance(10) {
                let digit = [b'1' + rng.below(9) as u8];
                let form = rng.pick(&["C%CC%", "c%ccc%", "C%(CC%)", "C(C%)CC%"]);
                tail.extend(replaced(form.as_bytes(), b'%', &digit, 2));
            } else {
                tail.extend(rng.pick(&ATOMS).as_bytes());
            }
            while depth > 0 && rng.chance(35) {
                tail.push(b'(');
                tail_run(rng, depth - 1, 30, tail);
                tail.push(b')');
            }
        }
    }

    // ---------- requests ----------

    /// How a request was made.
    #[derive(Clone, Copy)]
    pub enum Source {
        Good,
        Neighbours,
        Damaged,
        Boundary,
        Any,
        Short,
    }

    pub const SOURCES: [&str; 6] = ["good", "neighbours", "damaged", "at the limits", "any tokens", "short texts"];

    fn good_request(rng: &mut Rng) -> Case {
        let (class, fewest, most) = rng.pick(&CLASSES);
        let count = if rng.chance(40) { fewest + rng.below(most - fewest + 1) } else { most };
        let mut tokens: Vec<Vec<u8>> = (0..count).map(|i| good_token(rng, kind_at(class, i))).collect();
        if !matches!(class, "FA" | "SB" | "SA") && rng.chance(15) {
            let at = rng.below(count);
            tokens[at] = b"0:0".to_vec();
        }
        let tail = if has_tail(class) { good_tail(rng) } else { Vec::new() };
        Case { class: class.as_bytes().to_vec(), swap: rng.chance(50), tail, tokens }
    }

    /// Two to four features on one carbon and the next ones, whether they clash or not.
    fn neighbours_token(rng: &mut Rng, prefix: &str) -> Vec<u8> {
        let missing = rng.pick(&[0, 0, 0, 1, 2]);
        let carbons = rng.range(4, 15) + 6 * missing;
        let k = if missing > 0 { rng.range(1, 6) } else { rng.range(1, carbons + 1) };
        let (mut bonds, mut segments) = (Vec::new(), Vec::new());
        for _ in 0..rng.range(2, 5) {
            let p = k + rng.range(0, 3);
            let more = rng.range(2, 5);
            match rng.below(10) {
                0 => bonds.push(format!("{p}")),
                1 | 2 => bonds.push(format!("{p}Z")),
                3 | 4 => bonds.push(format!("{p}E")),
                5 => segments.push(format!("{p}Ep")),
                6 => segments.push(format!("{p}-{}cy{}", p + more, more + 1)),
                7 if p > more => segments.push(format!("{}-{p}cy{}", p - more, more + 1)),
                8 => segments.push(rng.pick(&GROUPS).to_string()),
                _ => segments.push(format!("{p}{}", rng.pick(&GROUPS))),
            }
        }
        let mut token = Vec::new();
        put!(token, "{prefix}{carbons}:{}", bonds.len() as i64 + missing);
        if !bonds.is_empty() {
            put!(token, "({})", bonds.join(","));
        }
        for segment in segments {
            put!(token, ";{segment}");
        }
        token
    }

    fn neighbours_request(rng: &mut Rng) -> Case {
        let mut case = good_request(rng);
        let at = rng.below(case.tokens.len());
        let prefix = match &case.class[..] {
            b"SB" | b"SA" if at == 0 => rng.pick(&["d", "t", ""]),
            b"SA" | b"FA" => rng.pick(&["", "", "", "iso-", "anteiso-"]),
            _ => rng.pick(&["", "", "O-", "P-", "O-iso-"]),
        };
        case.tokens[at] = neighbours_token(rng, prefix);
        case
    }

    fn damaged_request(rng: &mut Rng) -> Case {
        let mut case = good_request(rng);
        let at = rng.below(case.tokens.len());
        match rng.below(12) {
            0..=4 => case.tokens[at] = damaged(rng, &case.tokens[at]),
            5 | 6 => case.tail = damaged(rng, &case.tail),
            7 => {
                let kind = any_kind(rng);
                case.tokens[at] = good_token(rng, kind);
            }
            8 => case.tokens[at] = random_token(rng),
            9 => {
                if rng.chance(50) {
                    case.tokens.pop();
                } else if rng.chance(70) {
                    case.tokens.push(good_token(rng, Kind::Slot));
                } else {
                    case.tokens.push(random_token(rng));
                }
            }
            10 => {
                let codes =
                    ["FA", "GL1", "GL2", "GL3", "GP", "CL", "SB", "SA", "", "fa", "GL", "GL4", "PC", " FA", "FA "];
                case.class = rng.pick(&codes).as_bytes().to_vec();
            }
            _ => {
                let token = rng.pick(&["", " ", "0:0", "x", "d4:0", "O-0:0", "P-0:0", "3:0"]);
                case.tokens[at] = token.as_bytes().to_vec();
            }
        }
        case
    }

    /// One token at the limits, in its place or another, and short ones beside it.
    fn boundary_request(rng: &mut Rng) -> Case {
        let (class, _, most) = rng.pick(&CLASSES);
        let base = matches!(class, "SB" | "SA");
        let mut tokens = vec![b"4:0".to_vec(); most];
        let at = rng.below(most);
        if base {
            tokens[0] = rng.pick(&["d5:0", "t6:0"]).as_bytes().to_vec();
        }
        let prefix = match kind_at(class, at) {
            Kind::Base => rng.pick(&["d", "d", "t", "iso-d", "d", ""]),
            Kind::Acyl => rng.pick(&["", "", "", "iso-", "anteiso-"]),
            Kind::Slot => rng.pick(&["", "", "", "O-", "P-", "iso-"]),
        };
        tokens[at] = crowded_token(rng, prefix);
        if rng.chance(10) {
            for place in 1..most {
                tokens[place] = crowded_token(rng, "");
            }
        }
        let tail = if has_tail(class) { b"O".to_vec() } else { Vec::new() };
        Case { class: class.as_bytes().to_vec(), swap: rng.chance(50), tail, tokens }
    }

    fn any_request(rng: &mut Rng) -> Case {
        let (class, _, most) = rng.pick(&CLASSES);
        let tokens = (0..most).map(|_| random_token(rng)).collect();
        let tail = if has_tail(class) { good_tail(rng) } else { Vec::new() };
        Case { class: class.as_bytes().to_vec(), swap: rng.chance(50), tail, tokens }
    }

    pub fn random_request(rng: &mut Rng) -> (Source, Case) {
        match rng.below(100) {
            0..=44 => (Source::Good, good_request(rng)),
            45..=64 => (Source::Neighbours, neighbours_request(rng)),
            65..=87 => (Source::Damaged, damaged_request(rng)),
            88..=92 => (Source::Boundary, boundary_request(rng)),
            _ => (Source::Any, any_request(rng)),
        }
    }

    // ---------- every short text ----------

    /// Every word over some pieces, behind some opening: a token of a class, or its tail.
    struct Words {
        class: &'static str,
        opening: &'static str,
        pieces: &'static [&'static str],
        is_tail: bool,
    }

    const fn tokens(class: &'static str, opening: &'static str, pieces: &'static [&'static str]) -> Words {
        Words { class, opening, pieces, is_tail: false }
    }

    const WORDS: [Words; 10] = [
        tokens("FA", "", &["0", "4", ":", ";", "d"]),
        tokens("SB", "", &["0", "4", ":", ";", "d"]),
        tokens("FA", "6:1", &["(", ")", "3", "Z", ","]),
        tokens("FA", "6:0;", &["3", "O", "H", ",", "(", ")"]),
        tokens("FA", "9:0;2-4cy3", &[":", "1", "(", "3", ")"]),
        tokens("FA", "6:0;", &["[", "]", " ", "3OH", ";"]),
        tokens("GL1", "P-9:", &["1", "2", "(", ")", ",", "E"]),
        tokens("GL1", "O-9:1(4Z);", &["2", "5", "Ep", ",", "OH", "cyc"]),
        tokens("SB", "t12:1", &["(4E)", ";", "4", "OH", "Me", "-6cy3"]),
        Words { class: "GP", opening: "", pieces: &["C", "1", "(", ")", "=", "Cl"], is_tail: true },
    ];

    fn words_of_length(length: u32) -> usize {
        WORDS.iter().map(|w| w.pieces.len().pow(length)).sum()
    }

    /// The largest length whose words, with all shorter ones, are at most `room`; and how
    /// many these are.
    pub fn short_texts(room: usize) -> (u32, usize) {
        let (mut length, mut total) = (0, words_of_length(0));
        while total + words_of_length(length + 1) <= room {
            length += 1;
            total += words_of_length(length);
        }
        (length, total)
    }

    /// The `number`th of them, shortest first.
    pub fn short_request(mut number: usize) -> Case {
        let mut length = 0;
        while number >= words_of_length(length) {
            number -= words_of_length(length);
            length += 1;
        }
        let mut words = &WORDS[0];
        for w in &WORDS {
            words = w;
            let count = w.pieces.len().pow(length);
            if number < count {
                break;
            }
            number -= count;
        }
        let mut text = words.opening.as_bytes().to_vec();
        for _ in 0..length {
            text.extend(words.pieces[number % words.pieces.len()].as_bytes());
            number /= words.pieces.len();
        }
        let class = words.class.as_bytes().to_vec();
        if words.is_tail {
            Case { class, swap: false, tail: text, tokens: vec![b"2:0".to_vec()] }
        } else {
            let tail = if has_tail(words.class) { b"O".to_vec() } else { Vec::new() };
            Case { class, swap: false, tail, tokens: vec![text] }
        }
    }
}
