// ---------- the numbers of document 01 ----------
//
// The original refuses with None, and does not know the refusals that document 01 adds.
// Which number and place an answer has is worked out here from the record that the original
// itself reads of each token.

mod numbers {
    use super::call::Case;
    use super::requests::CLASSES;
    use super::{ChainPrefix, ParsedChain, parse_chain_token};

    /// What an answer may be, with slices that are large enough.
    pub enum Expected {
        /// This number, at this place.
        Answer(u32, u32),
        /// 11 or 31 at this place: which comes first the original does not say.
        Unread(u32),
        /// The original should not be handed the token: a number of it has over three digits.
        Unknown,
    }

    impl Expected {
        /// Whether an answer is as expected, if that is known.
        pub fn fits(&self, number: u32, place: u32) -> Option<bool> {
            match *self {
                Expected::Answer(n, at) => Some((n, at) == (number, place)),
                Expected::Unread(at) => Some(matches!(number, 11 | 31) && at == place),
                Expected::Unknown => None,
            }
        }
    }

    #[derive(Clone, Copy, PartialEq)]
    enum Place {
        Acyl,
        Slot,
        Base,
    }

    pub fn expected(case: &Case) -> Expected {
        let Some((class, fewest, most)) = CLASSES.into_iter().find(|c| c.0.as_bytes() == case.class) else {
            return Expected::Answer(20, 0);
        };
        if case.tokens.len() < fewest || case.tokens.len() > most {
            return Expected::Answer(21, 0);
        }
        let mut chains = Vec::new();
        for (i, token) in case.tokens.iter().enumerate() {
            let at = i as u32 + 1;
            if token.len() > 255 || token.iter().any(|byte| !(32..=126).contains(byte)) {
                return Expected::Answer(31, at);
            }
            let numbers = || token.split(|byte| !byte.is_ascii_digit());
            if numbers().any(|digits| digits.len() > 3) {
                return Expected::Unknown;
            }
            let text = std::str::from_utf8(token).expect("it is ASCII");
            let Some(read) = parse_chain_token(text) else {
                return if may_be_over_limit(token) { Expected::Unread(at) } else { Expected::Answer(11, at) };
            };
            let located = read.db_pos.iter().filter(|bond| !bond.placeholder).count();
            let written = read.carbon + u32::from(text.contains("iso-"));
            if written > 255 || read.mods.len() > 16 || read.rings.len() > 8 || located > 32 {
                return Expected::Answer(31, at);
            }
            let place = match (class, i) {
                ("SB" | "SA", 0) => Place::Base,
                ("SB" | "SA" | "FA", _) => Place::Acyl,
                _ => Place::Slot,
            };
            chains.push(Chain::new(&read, place));
        }
        let first = |tests: &[(u32, fn(&Chain) -> bool)]| {
            for (i, chain) in chains.iter().enumerate() {
                for (number, test) in tests {
                    if test(chain) {
                        return Some(Expected::Answer(*number, i as u32 + 1));
                    }
                }
            }
            None
        };
        let tail_fits = match class {
            "GP" | "SB" | "SA" => Tail::reads(&case.tail),
            _ => case.tail.is_empty(),
        };
        first(&[(22, Chain::is_22)])
            .or_else(|| (!tail_fits).then_some(Expected::Answer(23, 0)))
            .or_else(|| first(&[(32, Chain::is_32), (33, Chain::is_33)]))
            .or_else(|| first(&[(12, Chain::is_12), (13, Chain::is_13), (14, Chain::is_14), (15, Chain::is_15)]))
            .unwrap_or(Expected::Answer(0, 0))
    }

    /// Whether a token that cannot be read could be over a limit before that shows: a number
    /// over 255, many parts, or a count of more than four groups.
    fn may_be_over_limit(token: &[u8]) -> bool {
        let value = |digits: &[u8]| digits.iter().fold(0, |sum, digit| 10 * sum + u32::from(digit - b'0'));
        let parts = token.iter().filter(|byte| matches!(byte, b',' | b';' | b'(')).count();
        let large = token.split(|byte| !byte.is_ascii_digit()).any(|digits| value(digits) > 255);
        let counted = token.split(|byte| *byte == b')').skip(1).any(|behind| {
            let behind = behind.strip_prefix(b"+").unwrap_or(behind);
            let digits = behind.iter().take_while(|byte| byte.is_ascii_digit()).count();
            value(&behind[..digits]) > 4
        });
        large || counted || parts > 7
    }

    // ---------- a chain in its place ----------

    struct Chain {
        place: Place,
        prefix: ChainPrefix,
        c: u32,
        /// The first drawn carbon.
        f: u32,
        acyl: bool,
        /// How many double bonds have no position, and the positions of the others.
        n: u32,
        bonds: Vec<u32>,
        located: Vec<u32>,
        unlocated: bool,
        /// Start, end, and whether it is an epoxide.
        rings: Vec<(u32, u32, bool)>,
        /// The hydroxyls that a base has of itself: pins, but nothing that is named.
        own: Vec<u32>,
    }

    impl Chain {
        fn new(read: &ParsedChain, place: Place) -> Chain {
            let base = place == Place::Base;
            let mut bonds: Vec<u32> =
                read.db_pos.iter().filter(|bond| !bond.placeholder).map(|bond| bond.pos).collect();
            let n = (read.db_pos.len() - bonds.len()) as u32;
            if !base && read.prefix == ChainPrefix::EtherAlkenyl {
                bonds.push(1);
            }
            let located: Vec<u32> = read.mods.iter().map(|group| group.pos).filter(|pos| *pos != 0).collect();
            let mut own = Vec::new();
            if base {
                own.push(3);
                if read.prefix == ChainPrefix::SphingoidT {
                    own.push(4);
                }
                own.retain(|k| !located.contains(k));
            }
            Chain {
                place,
                prefix: read.prefix,
                c: read.carbon,
                f: if base { 3 } else { 1 },
                acyl: !base && read.prefix == ChainPrefix::Acyl,
                n,
                bonds,
                unlocated: read.mods.len() > located.len(),
                located,
                rings: read.rings.iter().map(|ring| (ring.start, ring.end, ring.bridge.is_some())).collect(),
                own,
            }
        }

        fn is_22(&self) -> bool {
            match self.place {
                Place::Base => self.c < 4,
                Place::Acyl => self.prefix != ChainPrefix::Acyl || self.c == 0,
                Place::Slot => matches!(self.prefix, ChainPrefix::SphingoidD | ChainPrefix::SphingoidT) && self.c > 0,
            }
        }

        fn is_32(&self) -> bool {
            self.bonds.iter().any(|p| *p < self.f || *p >= self.c)
                || self.located.iter().any(|k| *k < self.f || *k > self.c)
                || self.rings.iter().any(|ring| ring.0 < self.f || (self.acyl && ring.0 == 1))
                || (self.c == 0 && (self.unlocated || !self.located.is_empty()))
                || (self.place == Place::Base
                    && matches!(self.prefix, ChainPrefix::EtherAlkyl | ChainPrefix::EtherAlkenyl))
        }

        fn is_33(&self) -> bool {
            let twice = |at: usize| self.bonds[..at].contains(&self.bonds[at]);
            let same_ends = |at: usize| {
                let (start, end, _) = self.rings[at];
                self.rings[..at].iter().any(|ring| (ring.0, ring.1) == (start, end))
            };
            (0..self.bonds.len()).any(twice)
                || self.rings.iter().any(
                    |&(start, end, epoxide)| {
                        if epoxide { self.bonds.contains(&start) } else { end - start < 2 }
                    },
                )
                || (0..self.rings.len()).any(same_ends)
        }

        fn is_12(&self) -> bool {
            self.acyl && self.located.contains(&1)
        }

        fn is_13(&self) -> bool {
            let pins = self.located.iter().chain(&self.own).copied().chain(self.rings.iter().map(|ring| ring.0));
            let last = if self.acyl { 3 } else { self.f + 1 };
            self.n > 0 && pins.min().is_some_and(|pin| pin > last)
        }

        fn is_14(&self) -> bool {
            let ends = self.bonds.iter().map(|p| p + 1).chain(self.rings.iter().map(|ring| ring.1));
            let known = ends.chain(self.located.iter().chain(&self.own).copied()).fold(self.f, u32::max);
            self.n > 0 && self.c - known.min(self.c) < 2 * self.n + 2
        }

        fn is_15(&self) -> bool {
            self.unlocated && self.c < if self.acyl { 2 } else { self.f }
        }
    }

    // ---------- the tail's grammar ----------

    struct Tail<'a> {
        text: &'a [u8],
        at: usize,
        atoms: usize,
        bonds: Vec<(usize, usize)>,
        open: [Option<usize>; 10],
    }

    impl Tail<'_> {
        fn reads(text: &[u8]) -> bool {
            let mut tail = Tail { text, at: 0, atoms: 0, bonds: Vec::new(), open: [None; 10] };
            text.len() <= 255 && tail.run(None, 16) && tail.at == text.len() && tail.open == [None; 10]
        }

        fn byte(&self) -> Option<u8> {
            self.text.get(self.at).copied()
        }

        /// Passes over an atom, if one stands here.
        fn atom(&mut self) -> bool {
            let rest = &self.text[self.at..];
            let length = match rest {
                [b'C', b'l', ..] | [b'B', b'r', ..] => 2,
                [b'[', inner @ ..] => {
                    let within = |byte: &&u8| byte.is_ascii_alphanumeric() || b"+-@".contains(byte);
                    let count = inner.iter().take_while(within).count();
                    if count == 0 || count > 16 || inner.get(count) != Some(&b']') {
                        return false;
                    }
                    count + 2
                }
                [byte, ..] if b"BCNOPSFIbcnosp*".contains(byte) => 1,
                _ => return false,
            };
            self.at += length;
            true
        }

        /// One or more atoms with what follows each, up to the end or a `)`.
        fn run(&mut self, mut parent: Option<usize>, depth: usize) -> bool {
            let mut first = true;
            loop {
                let marked = self.byte().is_some_and(|byte| b"-=#/\\".contains(&byte));
                self.at += usize::from(marked);
                if !self.atom() {
                    return !first && !marked;
                }
                let atom = self.atoms;
                self.atoms += 1;
                if let Some(other) = parent {
                    self.bonds.push((other, atom));
                }
                while let Some(digit @ b'1'..=b'9') = self.byte() {
                    self.at += 1;
                    let open = &mut self.open[usize::from(digit - b'0')];
                    match open.take() {
                        None => *open = Some(atom),
                        Some(other) if other == atom || self.bonds.contains(&(other, atom)) => return false,
                        Some(other) => self.bonds.push((other, atom)),
                    }
                }
                while self.byte() == Some(b'(') {
                    self.at += 1;
                    if depth == 0 || !self.run(Some(atom), depth - 1) || self.byte() != Some(b')') {
                        return false;
                    }
                    self.at += 1;
                }
                parent = Some(atom);
                first = false;
            }
        }
    }
}
