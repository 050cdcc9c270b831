// ---------- a sheet of orders, answered by the original and by the batch program ----------
//
//   sheet make COUNT SEED           # writes a sheet of so many rows
//   sheet answer                    # answers the sheet on standard input with the original
//   sheet time PROGRAM SHEET ...    # compares and times PROGRAM and the original

mod sheet {
    use super::requests::{CLASSES, Rng};
    use super::{Request, build_request};
    use std::fs::File;
    use std::io::{BufRead, BufReader, BufWriter, Result, Write, stdin, stdout};
    use std::process::{Command, Stdio, exit};

    // ---------- the sheet ----------

    /// Chains as orders have them, the frequent ones more than once.
    const ACYLS: [&str; 36] = [
        "16:0",
        "16:0",
        "16:0",
        "18:0",
        "18:0",
        "18:1(9Z)",
        "18:1(9Z)",
        "18:1(9Z)",
        "18:1",
        "18:1",
        "18:2(9Z,12Z)",
        "18:2(9Z,12Z)",
        "18:2",
        "18:3(9Z,12Z,15Z)",
        "20:4(5Z,8Z,11Z,14Z)",
        "20:4(5Z,8Z,11Z,14Z)",
        "20:4",
        "20:5(5Z,8Z,11Z,14Z,17Z)",
        "22:6(4Z,7Z,10Z,13Z,16Z,19Z)",
        "22:6",
        "12:0",
        "14:0",
        "15:0",
        "17:0",
        "16:1(9Z)",
        "24:0",
        "24:1(15Z)",
        "26:0",
        "iso-17:0",
        "anteiso-17:0",
        "18:1(9Z);12OH",
        "18:2(9Z,11E);13OH",
        "18:1(12Z);9Ep",
        "20:2(5Z,13E);[8-12cy5];9oxo,11OH,15OH",
        "24:0;2OH",
        "18:0;OH",
    ];
    const ETHERS: [&str; 6] = ["O-16:0", "O-18:0", "O-18:1(9Z)", "P-16:0", "P-18:0", "P-18:1(9Z)"];
    const BASES: [&str; 10] = [
        "d18:1(4E)",
        "d18:1(4E)",
        "d18:1(4E)",
        "d18:0",
        "d16:1(4E)",
        "d18:2(4E,14Z)",
        "d20:1(4E)",
        "t18:0",
        "t20:0",
        "d18:1",
    ];
    const GLYCEROL_TAILS: [&str; 6] = [
        "OP(=O)([O-])OCC[N+](C)(C)C",
        "OP(=O)(O)OCCN",
        "OP(=O)(O)OCC(N)C(=O)O",
        "OP(=O)(O)OCC(O)CO",
        "OP(=O)(O)OC1C(O)C(O)C(O)C(O)C1O",
        "OP(=O)(O)O",
    ];
    const BASE_TAILS: [&str; 3] = ["O", "OP(=O)([O-])OCC[N+](C)(C)C", "OC1OC(CO)C(O)C(O)C1O"];
    const GROUPS: [&str; 6] = ["OH", "OH", "oxo", "OOH", "Me", "F"];

    fn pick<'a>(rng: &mut Rng, from: &[&'a str]) -> &'a str {
        from[rng.below(from.len())]
    }

    fn chance(rng: &mut Rng, percent: usize) -> bool {
        rng.below(100) < percent
    }

    /// A chain of any length, its double bonds three carbons apart from the end on, or without
    /// positions; now and then a group.
    fn any_acyl(rng: &mut Rng) -> String {
        let carbons = 12 + rng.below(17);
        let most = [0, 0, 1, 1, 2, 3, 4, 6][rng.below(8)];
        let end = carbons - [3, 6, 7, 9][rng.below(4)];
        let positions: Vec<usize> = (0..most).map(|i| end.saturating_sub(3 * i)).filter(|p| *p > 3).collect();
        let mut token = format!("{carbons}:{}", positions.len());
        if !positions.is_empty() && chance(rng, 60) {
            let texts: Vec<String> = positions.iter().rev().map(|p| format!("{p}Z")).collect();
            token += &format!("({})", texts.join(","));
        }
        let group = pick(rng, &GROUPS);
        match rng.below(16) {
            0 => token += &format!(";{group}"),
            1 => token += &format!(";({group}){}", 2 + rng.below(3)),
            2 => token += &format!(";{}{group}", 2 + rng.below(carbons - 2)),
            _ => {}
        }
        token
    }

    fn acyl(rng: &mut Rng) -> String {
        if chance(rng, 30) { any_acyl(rng) } else { pick(rng, &ACYLS).to_string() }
    }

    struct Row {
        class: String,
        swap: &'static str,
        tail: String,
        tokens: Vec<String>,
    }

    fn good_row(rng: &mut Rng) -> Row {
        let (class, fewest, most) = CLASSES[rng.below(CLASSES.len())];
        let count = if chance(rng, 10) { fewest } else { most };
        let tokens = (0..count)
            .map(|place| match class {
                "SB" | "SA" if place == 0 => pick(rng, &BASES).to_string(),
                "GL1" | "GL2" | "GL3" | "GP" if chance(rng, 8) => pick(rng, &ETHERS).to_string(),
                "GL2" | "GL3" | "GP" | "CL" if chance(rng, 3) => "0:0".to_string(),
                _ => acyl(rng),
            })
            .collect();
        let tail = match class {
            "GP" => pick(rng, &GLYCEROL_TAILS),
            "SB" | "SA" => pick(rng, &BASE_TAILS),
            _ => "",
        };
        Row { class: class.to_string(), swap: ["", "0", "1", "1"][rng.below(4)], tail: tail.to_string(), tokens }
    }

    /// One fault of the kind that an order has.
    fn spoiled(rng: &mut Rng, mut row: Row) -> Row {
        let at = rng.below(row.tokens.len());
        let token = &mut row.tokens[at];
        match rng.below(10) {
            0 => {
                token.pop();
            }
            1 => *token = token.replace(':', "."),
            2 => *token = format!("C{token}"),
            3 => *token = format!("{token};5xy"),
            4 => *token = format!("{token};1OH"),
            5 => *token = format!("{token};29Ep"),
            6 => row.class = pick(rng, &["PC", "TG", "Cer", "fa"]).to_string(),
            7 => row.tail = if row.tail.is_empty() { "O".to_string() } else { String::new() },
            8 => *token = "3:2".to_string(),
            _ => row.swap = "2",
        }
        row
    }

    pub fn make(count: usize, seed: u64) -> Result<()> {
        let mut out = BufWriter::new(stdout().lock());
        let mut rng = Rng::new(seed, 0);
        out.write_all(b"class\tswap\ttail\tsn1\tsn2\tsn3\tsn4\n")?;
        for _ in 0..count {
            let mut row = good_row(&mut rng);
            if chance(&mut rng, 5) {
                row = spoiled(&mut rng, row);
            }
            row.tokens.resize(4, String::new());
            writeln!(out, "{}\t{}\t{}\t{}", row.class, row.swap, row.tail, row.tokens.join("\t"))?;
        }
        out.flush()
    }

    // ---------- the original ----------

    /// The number of a row that is refused: the original has none.
    const REFUSED: usize = 11;
    const UNREADABLE: usize = 42;

    fn put_number(out: &mut Vec<u8>, n: usize) {
        if n > 9 {
            put_number(out, n / 10);
        }
        out.push(b'0' + (n % 10) as u8);
    }

    fn put_refusal(out: &mut Vec<u8>, number: usize, place: usize) -> usize {
        put_number(out, number);
        out.push(b'\t');
        put_number(out, place);
        out.extend(b"\t\t\n");
        number
    }

    /// A row of the sheet as `make` writes it, answered. Gives the number.
    fn answer_row(row: &[u8], out: &mut Vec<u8>) -> usize {
        let Ok(row) = std::str::from_utf8(row) else {
            return put_refusal(out, UNREADABLE, 0);
        };
        let mut cells = row.split('\t');
        let mut cell = || cells.next().unwrap_or("");
        let (class, swap, tail) = (cell(), cell(), cell());
        let sns = [cell(), cell(), cell(), cell()];
        if !matches!(swap, "" | "0" | "1") {
            return put_refusal(out, UNREADABLE, 0);
        }
        let count = sns.iter().rposition(|sn| !sn.is_empty()).map_or(0, |last| last + 1);
        let request = Request { class, swap: swap == "1", tail, tokens: sns[..count].to_vec() };
        let Some(built) = build_request(&request) else {
            return put_refusal(out, REFUSED, 1);
        };
        out.extend(b"0\t0\t");
        out.extend(built.smiles.as_bytes());
        for (i, (sn, carbons)) in built.chains.iter().enumerate() {
            out.push(if i == 0 { b'\t' } else { b';' });
            put_number(out, *sn);
            for (j, carbon) in carbons.iter().enumerate() {
                out.push(if j == 0 { b':' } else { b'.' });
                put_number(out, *carbon);
            }
        }
        if built.chains.is_empty() {
            out.push(b'\t');
        }
        out.push(b'\n');
        0
    }

    pub fn answer() -> Result<()> {
        // Rooms like those of the batch program.
        let mut input = BufReader::with_capacity(65_536, stdin().lock());
        let mut output = stdout().lock();
        let mut out = Vec::with_capacity(262_144);
        let mut times = [0; 43];
        let mut row = Vec::new();
        out.extend(b"answer\tat\tline\tcarbons\n");
        input.read_until(b'\n', &mut row)?;
        loop {
            row.clear();
            if input.read_until(b'\n', &mut row)? == 0 {
                break;
            }
            if row.last() == Some(&b'\n') {
                row.pop();
            }
            times[answer_row(&row, &mut out)] += 1;
            if out.len() > 163_840 {
                output.write_all(&out)?;
                out.clear();
            }
        }
        for (number, times) in times.iter().enumerate().filter(|(_, times)| **times > 0) {
            writeln!(out, "#\t{number}\t{times}")?;
        }
        output.write_all(&out)
    }

    // ---------- the times ----------

    /// Rounds of all, in turn; the table has the median of each.
    const ROUNDS: usize = 21;

    fn command(program: &str, arguments: &[&str], sheet: &str) -> Result<Command> {
        let mut command = Command::new(program);
        command.args(arguments).stdin(File::open(sheet)?);
        Ok(command)
    }

    fn output_of(mut command: Command) -> Result<Vec<u8>> {
        let output = command.stderr(Stdio::inherit()).output()?;
        if !output.status.success() {
            println!("sheet: {command:?} failed");
            exit(1);
        }
        Ok(output.stdout)
    }

    unsafe extern "C" {
        fn getrusage(who: i32, usage: *mut [i64; 18]) -> i32;
    }

    /// Seconds of the processor, user and system, that all ended children took.
    fn spent() -> f64 {
        const CHILDREN: i32 = -1;
        let mut usage = [0; 18];
        // SAFETY: on x86-64 Linux `struct rusage` is two times of two words each, and 14 words.
        if unsafe { getrusage(CHILDREN, &mut usage) } != 0 {
            println!("sheet: getrusage failed");
            exit(1);
        }
        (usage[0] + usage[2]) as f64 + (usage[1] + usage[3]) as f64 * 1e-6
    }

    /// Seconds of the processor for each of some runs, whose output is thrown away.
    fn seconds_of(runs: usize, make: impl Fn() -> Result<Command>) -> Result<f64> {
        let before = spent();
        for _ in 0..runs {
            let mut command = make()?;
            if !command.stdout(Stdio::null()).status()?.success() {
                println!("sheet: {command:?} failed");
                exit(1);
            }
        }
        Ok((spent() - before) / runs as f64)
    }

    /// The number of rows, of those that the program accepts, and of those that only the original does.
    /// A row that the program accepts must be the original's.
    fn compared(ours: &[u8], original: &[u8]) -> (usize, usize, usize) {
        let rows = |text: &'static str, bytes: &[u8]| -> Vec<Vec<u8>> {
            let all = bytes.split(|b| *b == b'\n').map(<[u8]>::to_vec);
            let rows: Vec<Vec<u8>> = all.skip(1).take_while(|row| !row.is_empty() && row[0] != b'#').collect();
            if rows.is_empty() {
                println!("sheet: no rows from {text}");
                exit(1);
            }
            rows
        };
        let (ours, original) = (rows("the batch program", ours), rows("the original", original));
        let (mut accepted, mut added) = (0, 0);
        if ours.len() != original.len() {
            println!("sheet: {} and {} rows", ours.len(), original.len());
            exit(1);
        }
        for (at, (row, other)) in ours.iter().zip(&original).enumerate() {
            if row.starts_with(b"0\t") {
                accepted += 1;
                if row != other {
                    let text = String::from_utf8_lossy;
                    println!("sheet: row {} differs\n  program   {}\n  original  {}", at + 1, text(row), text(other));
                    exit(1);
                }
            } else if other.starts_with(b"0\t") {
                added += 1;
            }
        }
        (ours.len(), accepted, added)
    }

    fn median(mut of: Vec<f64>) -> f64 {
        of.sort_by(f64::total_cmp);
        of[of.len() / 2]
    }

    pub fn time(program: &str, sheets: &[String]) -> Result<()> {
        let this = std::env::current_exe()?;
        let this = this.to_str().expect("the path is text");
        println!(
            "a sheet of mixed rows: processor time, user and system, of the whole program, the median of {ROUNDS} rounds; \
             output thrown away"
        );
        println!(
            "{:>9}{:>10}{:>10}{:>12}{:>12}{:>8}{:>14}{:>14}{:>9}",
            "rows", "accepted", "bytes", "original/s", "program/s", "ratio", "original us", "program us", "fastest"
        );
        let mut found = Vec::new();
        for sheet in sheets {
            let ours = output_of(command(program, &[], sheet)?)?;
            let rows = compared(&ours, &output_of(command(this, &["answer"], sheet)?)?);
            found.push((rows, ours.len(), Vec::new(), Vec::new()));
        }
        // All in turn, and a smaller sheet as many times as the largest has its rows, so that what
        // else the machine does falls on all alike.
        let most = found.iter().map(|((rows, _, _), ..)| *rows).max().unwrap_or(0);
        for _ in 0..ROUNDS {
            for (sheet, ((rows, _, _), _, original, ours)) in sheets.iter().zip(&mut found) {
                let runs = most / *rows;
                original.push(seconds_of(runs, || command(this, &["answer"], sheet))?);
                ours.push(seconds_of(runs, || command(program, &[], sheet))?);
            }
        }
        let mut spread: f64 = 0.0;
        let mut only_original = Vec::new();
        for ((rows, accepted, added), bytes, original, ours) in found {
            only_original.push(format!("{added} of {rows}"));
            let least = |times: &[f64]| times.iter().copied().fold(f64::INFINITY, f64::min);
            for times in [&original, &ours] {
                let most = times.iter().copied().fold(0.0, f64::max);
                spread = spread.max(most / least(times));
            }
            let fastest = least(&original) / least(&ours);
            let (original, ours) = (median(original), median(ours));
            println!(
                "{rows:>9}{accepted:>10}{bytes:>10}{:>12.0}{:>12.0}{:>8.2}{:>14.2}{:>14.2}{fastest:>9.2}",
                rows as f64 / original,
                rows as f64 / ours,
                original / ours,
                original / rows as f64 * 1e6,
                ours / rows as f64 * 1e6
            );
        }
        println!(
            "bytes: of the output. /s: rows a second; us: microseconds a row; ratio: the original's time by that of the \
             program; fastest: the same of the fastest round of each, in which the machine did least else. Every row that the program accepts is the original's; the original also draws rows that document 01 \
             refuses: {}. The program's slices (65,536 bytes, 4,096 numbers) are not cleared between rows.",
            only_original.join(", ")
        );
        println!("The slowest round of a sheet took up to {spread:.2} times its fastest.");
        Ok(())
    }
}

fn main() {
    let arguments: Vec<String> = std::env::args().skip(1).collect();
    let words: Vec<&str> = arguments.iter().map(String::as_str).collect();
    let done = match words[..] {
        ["make", count, seed] => match (count.parse(), seed.parse()) {
            (Ok(count), Ok(seed)) => sheet::make(count, seed),
            _ => std::process::exit(2),
        },
        ["answer"] => sheet::answer(),
        ["time", program, _, ..] => sheet::time(program, &arguments[2..]),
        _ => {
            eprintln!("usage: sheet make COUNT SEED | sheet answer | sheet time PROGRAM SHEET ...");
            std::process::exit(2)
        }
    };
    if let Err(said) = done {
        eprintln!("sheet: {said}");
        std::process::exit(1);
    }
}
