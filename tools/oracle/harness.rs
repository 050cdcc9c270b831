
// ---------- the oracle: ask.rs stands above, and the original above that ----------
//
// `oracle requests` reads a sheet in the batch program's form and answers each
// row with `line⇥carbons⇥sites`, or `refused`.  `oracle tokens` reads one token
// per line and answers with the record that was parsed, or `11`.  Either says
// `overflow` where the original's arithmetic overflows.

/// The cells of `row` under the names of `header`; None if it has another
/// number of cells or a swap that is no flag.
fn read_request<'a>(header: &[&str], row: &'a str) -> Option<Request<'a>> {
    let cells: Vec<&'a str> = row.split('\t').collect();
    if cells.len() != header.len() {
        return None;
    }
    let cell = |name: &str| header.iter().position(|h| *h == name).map_or("", |i| cells[i]);
    let swap = match cell("swap") {
        "" | "0" => false,
        "1" => true,
        _ => return None,
    };
    let mut tokens: Vec<&'a str> = ["sn1", "sn2", "sn3", "sn4"].map(cell).to_vec();
    while tokens.last().is_some_and(|t| t.is_empty()) {
        tokens.pop();
    }
    Some(Request { class: cell("class"), swap, tail: cell("tail"), tokens })
}

fn joined<T>(items: &[T], separator: &str, show: impl Fn(&T) -> String) -> String {
    items.iter().map(show).collect::<Vec<_>>().join(separator)
}

fn show_built(built: &Built) -> String {
    let carbons = joined(&built.chains, ";", |(sn, atoms)| {
        format!("{sn}:{}", joined(atoms, ".", usize::to_string))
    });
    let sites = joined(&built.sn_sites, ";", |(sn, atom)| format!("{sn}:{atom}"));
    format!("{}\t{carbons}\t{sites}", built.smiles)
}

/// `prefix c n bonds groups rings`, as the stored token vectors have it.
fn show_chain(chain: &ParsedChain) -> String {
    let list = |text: String| if text.is_empty() { "-".to_string() } else { text };
    let prefix = match chain.prefix {
        ChainPrefix::Acyl => 'A',
        ChainPrefix::EtherAlkyl => 'O',
        ChainPrefix::EtherAlkenyl => 'P',
        ChainPrefix::SphingoidD => 'D',
        ChainPrefix::SphingoidT => 'T',
    };
    let located: Vec<DbPos> =
        chain.db_pos.iter().copied().filter(|d| !d.placeholder).collect();
    let bonds = joined(&located, ",", |d| {
        let letter = match d.geom {
            Some(Geometry::Cis) => "Z",
            Some(Geometry::Trans) => "E",
            None => "",
        };
        format!("{}{letter}", d.pos)
    });
    let groups = joined(&chain.mods, ",", |m| format!("{}:{}", m.pos, m.branch));
    let rings = joined(&chain.rings, ",", |r| {
        format!("{}-{}{}", r.start, r.end, r.bridge.unwrap_or(""))
    });
    format!(
        "{prefix} {} {} {} {} {}",
        chain.carbon,
        chain.db_pos.len() - located.len(),
        list(bonds),
        list(groups),
        list(rings)
    )
}

/// What `answer` says of one line, or `refusal`, or `overflow`.
fn guarded(refusal: &str, answer: impl FnOnce() -> Option<String>) -> String {
    match std::panic::catch_unwind(std::panic::AssertUnwindSafe(answer)) {
        Ok(Some(text)) => text,
        Ok(None) => refusal.to_string(),
        Err(_) => "overflow".to_string(),
    }
}

fn main() {
    use std::io::{BufRead, Write};

    std::panic::set_hook(Box::new(|_| {}));
    let mode = std::env::args().nth(1).unwrap_or_default();
    if mode != "requests" && mode != "tokens" {
        eprintln!("usage: oracle requests|tokens");
        std::process::exit(2);
    }

    let mut lines = std::io::stdin().lock().split(b'\n').map(|line| line.expect("standard input"));
    let mut out = std::io::BufWriter::new(std::io::stdout().lock());
    let mut say = |text: String| writeln!(out, "{text}").expect("standard output");

    if mode == "tokens" {
        for line in lines {
            say(guarded("11", || {
                let token = std::str::from_utf8(&line).ok()?;
                parse_chain_token(token).map(|chain| show_chain(&chain))
            }));
        }
        return;
    }

    let header = lines.next().unwrap_or_default();
    let header = String::from_utf8_lossy(&header);
    let names: Vec<&str> = header.split('\t').collect();
    for line in lines {
        say(guarded("refused", || {
            let row = std::str::from_utf8(&line).ok()?;
            let request = read_request(&names, row)?;
            build_request(&request).map(|built| show_built(&built))
        }));
    }
}
