// ---------- the comparison ----------

mod compare {
    use super::call::{self, Case, Report};
    use super::numbers::{self, Expected};
    use super::requests::{self, Rng, Source};
    use super::{Built, build_request};
    use std::cell::RefCell;
    use std::collections::BTreeMap;
    use std::fmt::Write;
    use std::panic::{AssertUnwindSafe, catch_unwind};
    use std::sync::Mutex;
    use std::sync::atomic::{AtomicBool, AtomicUsize, Ordering};

    /// Requests that one thread takes at a time. Each such part has numbers of its own from
    /// the seed, so that the requests do not depend on the threads.
    const PART: usize = 2000;

    // ---------- the slices ----------

    /// Bytes and numbers beside the lent slices, which must stay as they are too.
    const BESIDE: usize = 64;

    /// A pattern of bytes and numbers that no answer has: a line is ASCII, and an atom number
    /// is far below 2^15.
    struct Room {
        line: Vec<u8>,
        index: Vec<u16>,
        line_pattern: Vec<u8>,
        index_pattern: Vec<u16>,
    }

    impl Room {
        fn new(line: usize, index: usize) -> Room {
            let line_pattern: Vec<u8> =
                (0..line + 2 * BESIDE).map(|i| 0x80 | (i ^ (i >> 7) ^ (i >> 14)) as u8).collect();
            let index_pattern: Vec<u16> = (0..index + 2 * BESIDE).map(|i| 0x8000 | i as u16).collect();
            Room { line: line_pattern.clone(), index: index_pattern.clone(), line_pattern, index_pattern }
        }

        fn sizes(&self) -> (usize, usize) {
            (self.line.len() - 2 * BESIDE, self.index.len() - 2 * BESIDE)
        }
    }

    /// The two rooms of a thread: most answers fit into the first, and all into the second.
    struct Rooms {
        usual: Room,
        large: Room,
    }

    impl Rooms {
        fn new() -> Rooms {
            Rooms { usual: Room::new(4096, 1024), large: Room::new(1 << 18, 1024) }
        }
    }

    // ---------- the answer of the call ----------

    #[derive(PartialEq)]
    struct Answer {
        number: u32,
        place: u32,
        line: Vec<u8>,
        lists: Vec<(u32, Vec<u16>)>,
        sites: Vec<(u32, u32)>,
    }

    /// Up to four pairs of a report, whose number stands right before them; none may be
    /// written behind them.
    fn pairs(report: &Report, at: usize) -> Result<Vec<(u32, u32)>, String> {
        let count = report[at] as usize;
        let places = &report[at + 1..at + 9];
        if count > 4 || places[2 * count..].iter().any(|n| *n != 0) {
            return Err(format!("the report is malformed: {report:?}"));
        }
        Ok(places[..2 * count].chunks(2).map(|pair| (pair[0], pair[1])).collect())
    }

    /// The answer with slices of these sizes, or what it breaks of include/perlwynos.h. The
    /// room has its pattern again afterwards.
    fn answer(case: &Case, room: &mut Room, (line_len, index_len): (usize, usize)) -> Result<Answer, String> {
        let mut report: Report = [0xffff_ffff; 21];
        let line = &mut room.line[BESIDE..BESIDE + line_len];
        let index = &mut room.index[BESIDE..BESIDE + index_len];
        let number = call::draw(case, line, index, &mut report);

        let lists = pairs(&report, 3)?;
        let sites = pairs(&report, 12)?;
        let (place, length) = (report[1], report[2] as usize);
        let listed: usize = lists.iter().map(|(_, count)| *count as usize).sum();
        let place_fits = match number {
            0 | 20 | 21 | 23 | 41 => place == 0,
            11..=15 | 22 | 31..=33 => 1 <= place && place as usize <= case.tokens.len().min(4),
            _ => false,
        };
        let empty = length == 0 && lists.is_empty() && sites.is_empty();
        if report[0] != number || !place_fits || empty != (number != 0) || length > line_len || listed > index_len {
            return Err(format!("the report is malformed: {report:?}"));
        }

        let written = line[..length].to_vec();
        let mut rest = &index[..listed];
        let mut carbons = Vec::new();
        for (sn, count) in lists {
            let (list, behind) = rest.split_at(count as usize);
            carbons.push((sn, list.to_vec()));
            rest = behind;
        }
        room.line[BESIDE..BESIDE + length].copy_from_slice(&room.line_pattern[BESIDE..BESIDE + length]);
        room.index[BESIDE..BESIDE + listed].copy_from_slice(&room.index_pattern[BESIDE..BESIDE + listed]);
        let unchanged = room.line == room.line_pattern && room.index == room.index_pattern;
        room.line.copy_from_slice(&room.line_pattern);
        room.index.copy_from_slice(&room.index_pattern);
        if !unchanged {
            return Err(format!("answer {number}: something beside the answer was written"));
        }
        Ok(Answer { number, place, line: written, lists: carbons, sites })
    }

    /// The answer with slices that are large enough.
    fn whole_answer(case: &Case, rooms: &mut Rooms) -> Result<Answer, String> {
        let sizes = rooms.usual.sizes();
        let given = answer(case, &mut rooms.usual, sizes)?;
        if given.number != 41 {
            return Ok(given);
        }
        let sizes = rooms.large.sizes();
        let given = answer(case, &mut rooms.large, sizes)?;
        if given.number != 0 {
            return Err(format!("41 with the usual slices, and {} with large ones", given.number));
        }
        Ok(given)
    }

    // ---------- the original beside it ----------

    thread_local! {
        static PANIC: RefCell<String> = const { RefCell::new(String::new()) };
    }

    #[derive(Clone, Copy, PartialEq, Eq, PartialOrd, Ord)]
    enum Verdict {
        SameLine,
        BothRefuse,
        /// A refusal that document 01 adds: the original is no measure.
        Added,
        NotAscii,
        OverLimit,
        Overflow,
    }

    fn is_added(case: &Case, number: u32) -> bool {
        match (number, &case.class[..]) {
            (20 | 23 | 31 | 32 | 33 | 41, _) => true,
            (21, b"FA" | b"SB") => case.tokens.len() > 1,
            (21, b"SA") => case.tokens.len() > 2,
            _ => false,
        }
    }

    /// Whether the call says 31 of some token by itself. Where another refusal comes first,
    /// the original could read `(OH)4294967295`, and take all memory.
    fn is_over_limit(case: &Case, rooms: &mut Rooms) -> Result<bool, String> {
        for token in &case.tokens {
            let alone = Case { class: b"FA".to_vec(), swap: false, tail: Vec::new(), tokens: vec![token.clone()] };
            if whole_answer(&alone, rooms)?.number == 31 {
                return Ok(true);
            }
        }
        Ok(false)
    }

    /// What differs of an answer and the original's, if anything does.
    fn difference(given: &Answer, original: &Option<Built>) -> Option<String> {
        let Some(built) = original else {
            return (given.number == 0).then(|| format!("accepted, refused by the original: {}", shown(&given.line)));
        };
        if given.number != 0 {
            return Some(format!(
                "{} at token {}, and the original draws {}",
                given.number,
                given.place,
                shown(built.smiles.as_bytes())
            ));
        }
        if given.line != built.smiles.as_bytes() {
            return Some(format!(
                "lines\n  call      {}\n  original  {}",
                shown(&given.line),
                shown(built.smiles.as_bytes())
            ));
        }
        let same_lists = given.lists.len() == built.chains.len()
            && given.lists.iter().zip(&built.chains).all(|((sn, list), (other_sn, other))| {
                *sn as usize == *other_sn
                    && list.len() == other.len()
                    && list.iter().zip(other).all(|(a, b)| usize::from(*a) == *b)
            });
        if !same_lists {
            return Some(format!("index lists\n  call      {:?}\n  original  {:?}", given.lists, built.chains));
        }
        let same_sites = given.sites.len() == built.sn_sites.len()
            && given.sites.iter().zip(&built.sn_sites).all(|(a, b)| (a.0 as usize, a.1 as usize) == *b);
        if !same_sites {
            return Some(format!("sn sites\n  call      {:?}\n  original  {:?}", given.sites, built.sn_sites));
        }
        None
    }

    fn compare_with_original(case: &Case, given: &Answer, rooms: &mut Rooms) -> Result<Verdict, String> {
        if is_added(case, given.number) {
            return Ok(Verdict::Added);
        }
        let Some(request) = case.as_text() else {
            return Ok(Verdict::NotAscii);
        };
        // Every other refusal but 21 comes after 31 of all tokens, or at the first token that
        // the original does not read either.
        if given.number == 21 && is_over_limit(case, rooms)? {
            return Ok(Verdict::OverLimit);
        }
        let Ok(original) = catch_unwind(AssertUnwindSafe(|| build_request(&request))) else {
            let said = PANIC.with(|text| text.borrow().clone());
            // An alias ring near 2^32: document 01 says 11, in unbounded arithmetic, unless the
            // number of tokens is wrong, which it looks at first.
            return if said.contains("overflow") && matches!(given.number, 11 | 21) {
                Ok(Verdict::Overflow)
            } else {
                Err(format!("{} at token {}, and the original stops: {said}", given.number, given.place))
            };
        };
        match difference(given, &original) {
            Some(text) => Err(text),
            None if given.number == 0 => Ok(Verdict::SameLine),
            None => Ok(Verdict::BothRefuse),
        }
    }

    /// The same request with other slices: 41 exactly where one is too small for an accepted
    /// request, and else the same answer. True if it was 41.
    fn compare_slices(case: &Case, whole: &Answer, rooms: &mut Rooms, choice: usize) -> Result<bool, String> {
        let length = whole.line.len();
        let listed: usize = whole.lists.iter().map(|(_, list)| list.len()).sum();
        let sizes = match choice % 8 {
            0 => (length, listed),
            1 | 2 => (length.saturating_sub(1), listed),
            3 | 4 => (length, listed.saturating_sub(1)),
            5 => (0, 0),
            6 => (choice % (length + 1), listed),
            _ => (length + 7, choice % (listed + 1)),
        };
        let room = if sizes.0 <= rooms.usual.sizes().0 { &mut rooms.usual } else { &mut rooms.large };
        let given = answer(case, room, sizes)?;
        let short = whole.number == 0 && (sizes.0 < length || sizes.1 < listed);
        let expected = if short { given.number == 41 } else { given == *whole };
        if expected {
            Ok(short)
        } else {
            Err(format!(
                "slices of {} and {}: answer {}; {} and {} are needed, and large ones give {}",
                sizes.0, sizes.1, given.number, length, listed, whole.number
            ))
        }
    }

    /// The number and the place, where they are known. True if they are.
    fn compare_number(case: &Case, given: &Answer) -> Result<bool, String> {
        let expected = numbers::expected(case);
        match expected.fits(given.number, given.place) {
            Some(true) => Ok(true),
            None => Ok(false),
            Some(false) => {
                let due = match expected {
                    Expected::Answer(number, place) => format!("{number} at token {place}"),
                    _ => "11 or 31".to_string(),
                };
                Err(format!("{} at token {}, and document 01 says {due}", given.number, given.place))
            }
        }
    }

    /// What was found of one request.
    struct Checked {
        number: u32,
        verdict: Verdict,
        number_known: bool,
        /// Asked again with other slices, and 41 for these.
        sliced: bool,
        short: bool,
    }

    /// All that is asked of one request. `slices` says whether, and which, other slices are
    /// tried.
    fn check(case: &Case, rooms: &mut Rooms, slices: Option<usize>) -> Result<Checked, String> {
        let given = whole_answer(case, rooms)?;
        let verdict = compare_with_original(case, &given, rooms)?;
        let number_known = compare_number(case, &given)?;
        let short = match slices {
            Some(choice) => compare_slices(case, &given, rooms, choice)?,
            None => false,
        };
        Ok(Checked { number: given.number, verdict, number_known, sliced: slices.is_some(), short })
    }

    // ---------- the smallest input ----------

    /// Smaller requests, next to one: without a token, the swap or the tail, of a class that
    /// stands before it, without some bytes in a row, and with a digit less by one. None of
    /// these steps undoes another, so that they come to an end.
    fn smaller(case: &Case) -> Vec<Case> {
        let mut found = Vec::new();
        let mut with = |change: &dyn Fn(&mut Case)| {
            let mut other = case.clone();
            change(&mut other);
            if other != *case {
                found.push(other);
            }
        };
        for at in 0..case.tokens.len() {
            with(&|c| {
                c.tokens.remove(at);
            });
            if case.tokens[at].len() > 3 {
                with(&|c| c.tokens[at] = b"0:0".to_vec());
            }
        }
        with(&|c| c.swap = false);
        with(&|c| c.tail.clear());
        let codes = requests::CLASSES.iter().map(|class| class.0.as_bytes());
        for code in codes.take_while(|code| *code != case.class) {
            with(&|c| c.class = code.to_vec());
            with(&|c| {
                c.class = code.to_vec();
                c.tail.clear();
            });
            for at in 0..case.tokens.len() {
                with(&|c| {
                    c.class = code.to_vec();
                    c.tail.clear();
                    c.tokens = vec![c.tokens[at].clone()];
                });
            }
        }
        for length in [64, 32, 16, 12, 8, 7, 6, 5, 4, 3, 2, 1] {
            for text in 0..=case.tokens.len() {
                for from in 0..(text_of(&mut case.clone(), text).len() + 1).saturating_sub(length) {
                    with(&|c| {
                        text_of(c, text).drain(from..from + length);
                    });
                }
            }
        }
        for text in 0..=case.tokens.len() {
            for (at, byte) in text_of(&mut case.clone(), text).iter().enumerate() {
                if (b'1'..=b'9').contains(byte) {
                    with(&|c| text_of(c, text)[at] -= 1);
                }
            }
        }
        found
    }

    /// A token, or the tail behind them.
    fn text_of(case: &mut Case, which: usize) -> &mut Vec<u8> {
        match case.tokens.get_mut(which) {
            Some(token) => token,
            None => &mut case.tail,
        }
    }

    /// The request after as many such steps as keep a difference, and the difference.
    fn smallest(case: &Case, rooms: &mut Rooms, slices: Option<usize>, said: String) -> (Case, String) {
        let (mut case, mut said) = (case.clone(), said);
        'again: loop {
            for other in smaller(&case) {
                if let Err(text) = check(&other, rooms, slices) {
                    (case, said) = (other, text);
                    continue 'again;
                }
            }
            return (case, said);
        }
    }

    fn shown(bytes: &[u8]) -> String {
        bytes.escape_ascii().to_string()
    }

    fn show_case(case: &Case) -> String {
        let tokens: Vec<String> = case.tokens.iter().map(|t| format!("`{}`", shown(t))).collect();
        format!(
            "class `{}`, swap {}, tail `{}`, tokens {}",
            shown(&case.class),
            u8::from(case.swap),
            shown(&case.tail),
            if tokens.is_empty() { "none".to_string() } else { tokens.join(" ") }
        )
    }

    // ---------- counts ----------

    #[derive(Default)]
    struct Counts {
        /// By the class's place among the eight, or 8 for another code; and by the answer.
        answers: BTreeMap<(usize, u32), usize>,
        verdicts: BTreeMap<Verdict, usize>,
        added: BTreeMap<u32, usize>,
        sources: [usize; 6],
        known: usize,
        slices: usize,
        short: usize,
    }

    impl Counts {
        fn note(&mut self, source: Source, case: &Case, checked: &Checked) {
            let class = requests::CLASSES.iter().position(|c| c.0.as_bytes() == case.class).unwrap_or(8);
            *self.answers.entry((class, checked.number)).or_default() += 1;
            *self.verdicts.entry(checked.verdict).or_default() += 1;
            if checked.verdict == Verdict::Added {
                *self.added.entry(checked.number).or_default() += 1;
            }
            self.sources[source as usize] += 1;
            self.known += usize::from(checked.number_known);
            self.slices += usize::from(checked.sliced);
            self.short += usize::from(checked.short);
        }

        fn add(&mut self, other: Counts) {
            for (key, n) in other.answers {
                *self.answers.entry(key).or_default() += n;
            }
            for (key, n) in other.verdicts {
                *self.verdicts.entry(key).or_default() += n;
            }
            for (key, n) in other.added {
                *self.added.entry(key).or_default() += n;
            }
            for (mine, n) in self.sources.iter_mut().zip(other.sources) {
                *mine += n;
            }
            self.known += other.known;
            self.slices += other.slices;
            self.short += other.short;
        }

        fn show(&self) -> String {
            const NUMBERS: [u32; 13] = [0, 11, 12, 13, 14, 15, 20, 21, 22, 23, 31, 32, 33];
            let of = |verdict| self.verdicts.get(&verdict).copied().unwrap_or(0);
            let mut text = String::from("class ");
            let mut say = |line: std::fmt::Arguments| text.write_fmt(line).expect("a string takes it");
            for number in NUMBERS {
                say(format_args!("{number:>9}"));
            }
            say(format_args!("\n"));
            let mut sums = [0; NUMBERS.len()];
            for class in 0..9 {
                say(format_args!("{:<6}", requests::CLASSES.get(class).map_or("other", |c| c.0)));
                for (number, sum) in NUMBERS.iter().zip(&mut sums) {
                    let n = self.answers.get(&(class, *number)).copied().unwrap_or(0);
                    *sum += n;
                    say(format_args!("{n:>9}"));
                }
                say(format_args!("\n"));
            }
            say(format_args!("all   "));
            for sum in sums {
                say(format_args!("{sum:>9}"));
            }
            let sources: Vec<String> =
                requests::SOURCES.iter().zip(self.sources).map(|(name, n)| format!("{name} {n}")).collect();
            say(format_args!("\nrequests: {}\n", sources.join(", ")));
            say(format_args!(
                "compared: {} accepted by both with the same line, index lists and sn sites, {} refused by both\n",
                of(Verdict::SameLine),
                of(Verdict::BothRefuse)
            ));
            let added: Vec<String> = self.added.iter().map(|(number, n)| format!("{number}: {n}")).collect();
            say(format_args!(
                "not compared, refusals that document 01 adds: {} ({})\n",
                of(Verdict::Added),
                added.join(", ")
            ));
            say(format_args!(
                "left out, where the original cannot be asked: {} bytes beyond ASCII, {} with 21 and a token over the \
                 limits, {} alias rings near 2^32\n",
                of(Verdict::NotAscii),
                of(Verdict::OverLimit),
                of(Verdict::Overflow)
            ));
            say(format_args!(
                "numbers: {} answers have the number and place that document 01 gives over the original's records of the \
                 tokens\n",
                self.known
            ));
            say(format_args!(
                "slices: nothing beside the answer was written; of {} requests asked again with other slices {} got 41\n",
                self.slices, self.short
            ));
            text
        }
    }

    // ---------- the run ----------

    fn number(text: Option<String>, usual: u64) -> u64 {
        text.map_or(usual, |t| {
            t.parse().unwrap_or_else(|_| {
                eprintln!("usage: compare [COUNT [SEED]]");
                std::process::exit(2)
            })
        })
    }

    pub fn run() {
        let mut arguments = std::env::args().skip(1);
        let total = number(arguments.next(), 200_000) as usize;
        let seed = number(arguments.next(), 1);
        let threads = std::thread::available_parallelism().map_or(1, usize::from);
        let (longest, short) = requests::short_texts(total / 3);
        println!(
            "compare: {total} requests, seed {seed}, {threads} threads; {short} of them are all texts of up to {longest} \
             pieces over small alphabets"
        );

        std::panic::set_hook(Box::new(|info| {
            PANIC.with(|text| *text.borrow_mut() = info.to_string());
        }));
        let next = AtomicUsize::new(0);
        let stop = AtomicBool::new(false);
        let found: Mutex<Option<String>> = Mutex::new(None);
        let counts: Mutex<Counts> = Mutex::new(Counts::default());
        let work = || {
            let mut rooms = Rooms::new();
            let mut mine = Counts::default();
            loop {
                let part = next.fetch_add(1, Ordering::Relaxed);
                if part * PART >= total || stop.load(Ordering::Relaxed) {
                    break;
                }
                let mut rng = Rng::new(seed, part as u64);
                for at in part * PART..total.min((part + 1) * PART) {
                    let (source, case) = if at < short {
                        (Source::Short, requests::short_request(at))
                    } else {
                        requests::random_request(&mut rng)
                    };
                    let slices = (rng.below(16) == 0).then(|| rng.below(1 << 30));
                    match check(&case, &mut rooms, slices) {
                        Ok(checked) => mine.note(source, &case, &checked),
                        Err(said) => {
                            if stop.swap(true, Ordering::Relaxed) {
                                return;
                            }
                            let (small, small_said) = smallest(&case, &mut rooms, slices, said.clone());
                            *found.lock().expect("no thread stops") = Some(format!(
                                "request {at}: {}\n{said}\nsmallest found: {}\n{small_said}",
                                show_case(&case),
                                show_case(&small)
                            ));
                            return;
                        }
                    }
                }
            }
            counts.lock().expect("no thread stops").add(mine);
        };
        let started = std::time::Instant::now();
        std::thread::scope(|scope| {
            for _ in 0..threads {
                scope.spawn(work);
            }
        });
        if let Some(text) = found.into_inner().expect("no thread stops") {
            println!("compare: a difference\n{text}");
            std::process::exit(1);
        }
        print!("{}", counts.into_inner().expect("no thread stops").show());
        println!("no difference; {:.1} s", started.elapsed().as_secs_f64());
    }
}

fn main() {
    compare::run();
}
