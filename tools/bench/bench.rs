// ---------- the times of the call and of the original ----------

mod bench {
    use super::build_request;
    use super::call::{self, Case, Report};
    use std::hint::black_box;
    use std::time::{Duration, Instant};

    /// Rounds of either, in turn; the table has the median of each.
    const ROUNDS: usize = 9;
    const ROUND: Duration = Duration::from_millis(60);
    const SHORT_ROUNDS: usize = 200;

    fn of(class: &str, swap: bool, tail: &str, tokens: &[&str]) -> Case {
        Case {
            class: class.as_bytes().to_vec(),
            swap,
            tail: tail.as_bytes().to_vec(),
            tokens: tokens.iter().map(|t| t.as_bytes().to_vec()).collect(),
        }
    }

    fn workloads() -> Vec<Case> {
        vec![
            of("FA", false, "", &["18:1(9Z)"]),
            of("FA", false, "", &["20:4"]),
            of("GP", true, "OP(=O)(O)OCCN", &["16:0", "18:1(9Z)"]),
            of("GL3", true, "", &["16:0", "18:1(9Z)", "18:2"]),
            of("CL", true, "", &["18:2", "18:2(9Z,12Z)", "18:2", "16:0;OH"]),
            of("SA", false, "O", &["d18:1(4E)", "24:0;2OH"]),
            of("FA", false, "", &["20:2(5Z,13E);[8-12cy5];9oxo,11OH,15OH"]),
            of("GL3", true, "", &["255:40;(OH)8"; 3]),
        ]
    }

    /// Requests with little to do, by their answers: refused at the class, at the number of tokens
    /// and at the first byte of a token; and the shortest chain.
    fn least() -> Vec<(u32, Case)> {
        vec![
            (20, of("XX", false, "", &[])),
            (21, of("FA", false, "", &[])),
            (11, of("FA", false, "", &["x"])),
            (0, of("FA", false, "", &["1:0"])),
        ]
    }

    fn show(case: &Case) -> String {
        let text = |bytes: &[u8]| String::from_utf8_lossy(bytes).into_owned();
        let tokens: Vec<String> = case.tokens.iter().map(|t| text(t)).collect();
        let tokens = if case.tokens.len() > 2 && case.tokens.iter().all(|t| *t == case.tokens[0]) {
            format!("{} times {}", tokens.len(), tokens[0])
        } else {
            tokens.join(", ")
        };
        let tail = if case.tail.is_empty() { String::new() } else { format!(", tail {}", text(&case.tail)) };
        format!("{} {tokens}{tail}{}", text(&case.class), if case.swap { ", swap" } else { "" })
    }

    /// Nanoseconds for each of `times` runs of `work`.
    fn timed(times: usize, mut work: impl FnMut()) -> f64 {
        let started = Instant::now();
        for _ in 0..times {
            work();
        }
        started.elapsed().as_nanos() as f64 / times as f64
    }

    /// How many runs of `work` take about a round.
    fn runs_of_a_round(mut work: impl FnMut()) -> usize {
        let mut times = 1;
        loop {
            let each = timed(times, &mut work);
            if each * times as f64 > ROUND.as_nanos() as f64 / 8.0 {
                return ((ROUND.as_nanos() as f64 / each) as usize).max(1);
            }
            times *= 2;
        }
    }

    fn median(mut of: Vec<f64>) -> f64 {
        of.sort_by(f64::total_cmp);
        of[of.len() / 2]
    }

    /// The fastest of many short rounds, of which some are not interrupted.
    fn fastest(mut work: impl FnMut()) -> f64 {
        let runs = runs_of_a_round(&mut work) / 30 + 1;
        (0..SHORT_ROUNDS).map(|_| timed(runs, &mut work)).fold(f64::INFINITY, f64::min)
    }

    pub fn run_least() {
        println!("what a request takes at least: ns, the fastest of {SHORT_ROUNDS} rounds of about 2 ms");
        println!("{:<58}{:>8}{:>11}{:>11}", "request", "answer", "original", "call");
        let mut line = vec![0; 65_536];
        let mut index = vec![0; 4_096];
        let mut report: Report = [0; 21];
        for (number, case) in least() {
            let request = case.as_text().expect("the requests are ASCII");
            let answered = call::draw(&case, &mut line, &mut index, &mut report);
            if answered != number || build_request(&request).is_some() != (number == 0) {
                println!("bench: the answer to {} is {answered}", show(&case));
                std::process::exit(1);
            }
            let original = fastest(|| {
                black_box(build_request(black_box(&request)));
            });
            let ours = fastest(|| {
                black_box(call::draw(black_box(&case), &mut line, &mut index, &mut report));
            });
            println!("{:<58}{number:>8}{original:>11.0}{ours:>11.0}", show(&case));
        }
    }

    pub fn run() {
        println!("ns per request, the median of {ROUNDS} rounds of {} ms; ns per byte of the line", ROUND.as_millis());
        println!(
            "{:<58}{:>8}{:>11}{:>11}{:>8}{:>11}{:>11}",
            "request", "bytes", "original", "call", "ratio", "original/B", "call/B"
        );
        let mut line = vec![0; 65_536];
        let mut index = vec![0; 4_096];
        let mut report: Report = [0; 21];
        let mut spread: f64 = 0.0;
        for case in workloads() {
            let request = case.as_text().expect("the requests are ASCII");
            // The two must answer alike before their times mean anything.
            let built = build_request(&request).expect("the original draws it");
            let number = call::draw(&case, &mut line, &mut index, &mut report);
            let bytes = report[2] as usize;
            if number != 0 || line[..bytes] != *built.smiles.as_bytes() {
                println!("bench: the answers to {} differ: run tools/compare", show(&case));
                std::process::exit(1);
            }

            let mut original = || {
                black_box(build_request(black_box(&request)));
            };
            let mut ours = || {
                black_box(call::draw(black_box(&case), &mut line, &mut index, &mut report));
            };
            let (original_runs, our_runs) = (runs_of_a_round(&mut original), runs_of_a_round(&mut ours));
            let (mut original_times, mut our_times) = (Vec::new(), Vec::new());
            for _ in 0..ROUNDS {
                original_times.push(timed(original_runs, &mut original));
                our_times.push(timed(our_runs, &mut ours));
            }
            for times in [&original_times, &our_times] {
                let least = times.iter().copied().fold(f64::INFINITY, f64::min);
                let most = times.iter().copied().fold(0.0, f64::max);
                spread = spread.max(most / least);
            }
            let (original, ours) = (median(original_times), median(our_times));
            println!(
                "{:<58}{bytes:>8}{original:>11.0}{ours:>11.0}{:>8.2}{:>11.2}{:>11.2}",
                show(&case),
                original / ours,
                original / bytes as f64,
                ours / bytes as f64
            );
        }
        println!(
            "ratio: the original's time by that of the call. The original parses, draws and frees what it allocated; the \
             call writes to lent slices (65,536 bytes, 4,096 numbers), which are not cleared between calls."
        );
        println!("The slowest round of a row took up to {spread:.2} times its fastest.");
    }
}

fn main() {
    bench::run();
    println!();
    bench::run_least();
}
