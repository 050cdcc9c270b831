//! All stored requests, held to what the batch program prints for them.

use perlwynos::{draw, Request};
use std::fs;
use std::path::PathBuf;

fn stored(name: &str) -> Vec<Vec<u8>> {
    let path = PathBuf::from(env!("CARGO_MANIFEST_DIR")).join("../../vectors").join(name);
    let mut lines: Vec<Vec<u8>> = fs::read(path).unwrap().split(|&byte| byte == b'\n').map(<[u8]>::to_vec).collect();
    assert_eq!(lines.pop(), Some(vec![])); // the last line ends in LF too
    lines
}

/// The row that the batch program prints for a request, and the row of its sites.
fn answer(request: &Request) -> (Vec<u8>, String) {
    match draw(request) {
        Ok(drawn) => {
            let dotted = |atoms: &[u16]| atoms.iter().map(u16::to_string).collect::<Vec<_>>().join(".");
            let lists: Vec<_> = drawn.carbons.iter().map(|(sn, atoms)| format!("{sn}:{}", dotted(atoms))).collect();
            let sites: Vec<_> = drawn.sites.iter().map(|(sn, atom)| format!("{sn}:{atom}")).collect();
            let row = [b"0\t0\t", &drawn.line[..], b"\t", lists.join(";").as_bytes()].concat();
            (row, sites.join(";"))
        }
        Err(refusal) => {
            let row = format!("{}\t{}\t\t", refusal.reason.number(), refusal.token.unwrap_or(0));
            (row.into_bytes(), String::new())
        }
    }
}

fn run_over(name: &str, sites: Option<Vec<Vec<u8>>>) {
    let (rows, answers) = (stored(&format!("{name}.tsv")), stored(&format!("{name}.out")));
    assert!(rows.len() > 100 && answers.len() >= rows.len());
    for (at, (row, expected)) in rows.iter().zip(&answers).enumerate().skip(1) {
        if expected.starts_with(b"42\t") {
            continue; // of the batch program alone
        }
        let cells: Vec<&[u8]> = row.split(|&byte| byte == b'\t').collect();
        let count = cells[3..].iter().rposition(|cell| !cell.is_empty()).map_or(0, |last| last + 1);
        let request = Request::raw(cells[0], &cells[3..3 + count]).tail(cells[2]).swap(cells[1] == b"1");
        let (found, found_sites) = answer(&request);
        if expected.starts_with(b"41\t") {
            // The batch program has 65,536 bytes for a line; here its room grows.
            assert!(found.starts_with(b"0\t0\t") && found.len() > 65_536, "{request:?}");
            continue;
        }
        assert_eq!(String::from_utf8_lossy(&found), String::from_utf8_lossy(expected), "{request:?}");
        if let Some(sites) = &sites {
            assert_eq!(found_sites.as_bytes(), sites[at - 1], "{request:?}");
        }
    }
}

#[test]
fn traps() {
    run_over("traps", None);
}

#[test]
fn requests() {
    run_over("requests", Some(stored("sites.out")));
}

#[test]
fn chains() {
    run_over("chains", None);
}
