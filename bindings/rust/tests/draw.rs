//! Calls of `draw` and `draw_into`: worked lines, each refusal with its place, short slices.

use perlwynos::{draw, draw_into, Class, Drawn, Reason, Refusal, Request};

fn accepted(request: &Request, line: &str, carbons: &[(u8, &[u16])], sites: &[(u8, u32)]) {
    let expected = Drawn {
        line: line.into(),
        carbons: carbons.iter().map(|&(sn, atoms)| (sn, atoms.to_vec())).collect(),
        sites: sites.to_vec(),
    };
    assert_eq!(draw(request), Ok(expected));

    // In slices exactly as long as needed, in longer ones, and one element short.
    let (length, indices) = (line.len(), carbons.iter().map(|(_, atoms)| atoms.len()).sum::<usize>());
    for more in [0, 1, 50] {
        let (mut line_room, mut index_room) = (vec![0xA5; length + more], vec![0xA5A5; indices + more]);
        let lent = draw_into(request, &mut line_room, &mut index_room).unwrap();
        assert_eq!(lent.line(), line.as_bytes());
        assert_eq!(lent.carbons().collect::<Vec<_>>(), carbons);
        assert_eq!(lent.sites().collect::<Vec<_>>(), sites);
        assert!(line_room[length..].iter().all(|&byte| byte == 0xA5));
        assert!(index_room[indices..].iter().all(|&number| number == 0xA5A5));
    }
    untouched(request, length - 1, indices, Reason::ShortSlice, None);
    if indices > 0 {
        untouched(request, length, indices - 1, Reason::ShortSlice, None);
    }
    untouched(request, 0, 0, Reason::ShortSlice, None);
}

/// A refusal leaves both slices as they were.
fn untouched(request: &Request, length: usize, indices: usize, reason: Reason, token: Option<usize>) {
    let (mut line, mut index) = (vec![0xA5; length], vec![0xA5A5; indices]);
    let answer = draw_into(request, &mut line, &mut index);
    assert_eq!(answer.map(|lent| lent.line()).unwrap_err(), Refusal { reason, token });
    assert!(line.iter().all(|&byte| byte == 0xA5) && index.iter().all(|&number| number == 0xA5A5));
}

fn refused(request: &Request, number: u32, place: usize) -> Refusal {
    let refusal = draw(request).unwrap_err();
    let token = if place == 0 { None } else { Some(place) };
    assert_eq!((refusal.reason.number(), refusal.token), (number, token), "{request:?}");
    untouched(request, 512, 128, refusal.reason, token);
    refusal
}

#[test]
fn worked_lines() {
    accepted(
        &Request::new(Class::Fa, &[b"6:1"]),
        "OC(=O)CC=CC |Sg:n:3:a:ht,Sg:n:6:b:ht| constrain(a+b=3)",
        &[(1, &[1, 3, 4, 5, 6])],
        &[(1, 1)],
    );
    accepted(
        &Request::new(Class::Fa, &[b"5:0;OH"]),
        "OC(=O)CCCC.*O |m:7:3.4.5.6|",
        &[(1, &[1, 3, 4, 5, 6])],
        &[(1, 1)],
    );
    accepted(&Request::new(Class::Sb, &[b"d6:0"]).tail(b"O"), "C(CO)(N)C(O)CCC", &[(1, &[1, 0, 4, 6, 7, 8])], &[]);
}

#[test]
fn several_chains() {
    let request = Request::new(Class::Gp, &[b"2:0", b"2:0"]).tail(b"O");
    accepted(&request, "C(CO)(OC(=O)C)COC(=O)C", &[(1, &[9, 11]), (2, &[4, 6])], &[(1, 8), (2, 3)]);
    accepted(
        &request.swap(true),
        "C(CO)(OC(=O)C)COC(=O)C |$;;;sn2;;;;;sn1$| swappable(sn1,sn2)",
        &[(1, &[9, 11]), (2, &[4, 6])],
        &[(1, 8), (2, 3)],
    );
    accepted(&Request::new(Class::Gl2, &[b"0:0", b"2:0"]), "C(CO)(OC(=O)C)CO", &[(2, &[4, 6])], &[(2, 3)]);
    accepted(&Request::new(Class::Gl1, &[b"0:0"]), "C(CO)(O)CO", &[], &[]);
}

#[test]
fn a_line_that_outgrows_its_room() {
    let drawn = draw(&Request::new(Class::Cl, &[&b"255:0;(OH)16"[..]; 4]).swap(true)).unwrap();
    assert!(drawn.line.len() > 65_536);
    assert!(drawn.line.ends_with(b"| swappable(sn1,sn2,sn3,sn4)"));
    assert_eq!(
        drawn.carbons.iter().map(|(sn, atoms)| (*sn, atoms.len())).collect::<Vec<_>>(),
        [(1, 255), (2, 255), (3, 255), (4, 255)]
    );
    assert_eq!(drawn.sites.len(), 4);
}

#[test]
fn each_refusal_with_its_place() {
    let long: [&[u8]; 4] = [b"2:0", b"2:0", b"2:0", &[b' '; 256]];
    let cases: &[(Request, u32, usize)] = &[
        (Request::new(Class::Gl2, &[b"16:0", b"sixteen"]), 11, 2),
        (Request::new(Class::Fa, &[b"18:0;1OMe"]), 12, 1),
        (Request::new(Class::Gl3, &[b"2:0", b"2:0;1OH", b"2:0"]), 12, 2),
        (Request::new(Class::Gl2, &[b"2:0", b"18:1;4OH"]), 13, 2),
        (Request::new(Class::Gl3, &[b"2:0", b"2:0", b"4:1"]), 14, 3),
        (Request::new(Class::Fa, &[b"1:0;OH"]), 15, 1),
        (Request::raw(b"fa", &[b"2:0"]), 20, 0),
        (Request::new(Class::Fa, &[b"2:0", b"2:0"]), 21, 0),
        (Request::new(Class::Gl2, &[b"16:0", b"d18:0"]), 22, 2),
        (Request::new(Class::Fa, &[b"2:0"]).tail(b"O"), 23, 0),
        (Request::new(Class::Gp, &[b"2:0"]), 23, 0),
        (Request::new(Class::Gp, &[b"2:0"]).tail(b"O("), 23, 0),
        (Request::new(Class::Fa, &[b"256:0"]), 31, 1),
        (Request::new(Class::Cl, &long), 31, 4),
        (Request::new(Class::Fa, &[b"5:0;1Ep"]), 32, 1),
        (Request::new(Class::Cl, &[b"2:0", b"2:0", b"2:0", b"2:0;5OH"]), 32, 4),
        (Request::new(Class::Fa, &[b"18:2(9,9)"]), 33, 1),
    ];
    for (request, number, place) in cases {
        let refusal = refused(request, *number, *place);
        let mender = if (20..30).contains(number) { "whoever picked the template" } else { "the author of the name" };
        assert_eq!(refusal.reason.mender(), mender);
        let said = refusal.to_string();
        assert!(said.starts_with(&format!("refusal {number}: ")) && said.ends_with(&format!("; {mender} can mend it")));
        assert_eq!(said.contains(&format!("token {place} ")), *place > 0);
    }
    let met = |reason: &Reason| cases.iter().any(|(_, number, _)| reason.number() == *number);
    assert_eq!(Reason::ALL.into_iter().filter(|reason| !met(reason)).collect::<Vec<_>>(), [Reason::ShortSlice]);
    assert_eq!(Reason::ShortSlice.mender(), "the calling program");
}

#[test]
fn numbers_of_the_header() {
    let header = include_str!("../../../include/perlwynos.h");
    for reason in Reason::ALL {
        let name: String = format!("{reason:?}")
            .chars()
            .flat_map(|c| c.is_uppercase().then_some('_').into_iter().chain([c.to_ascii_uppercase()]))
            .collect();
        assert!(header.contains(&format!(" PERLWYNOS{name} = {}", reason.number())), "{name}");
        assert_eq!(Reason::from_number(reason.number()), Some(reason));
    }
    assert_eq!((0..100).filter_map(Reason::from_number).collect::<Vec<_>>(), Reason::ALL);
}

#[test]
fn sentences_of_the_project() {
    let rows: Vec<&str> = include_str!("../../../tools/sheet/answers.tsv").lines().skip(1).collect();
    assert_eq!(rows.len(), Reason::ALL.len() + 2); // 0, and 42 of the batch program
    for row in rows {
        let cells: Vec<&str> = row.split('\t').collect();
        let Some(reason) = Reason::from_number(cells[0].parse().unwrap()) else {
            assert!(["0", "42"].contains(&cells[0]));
            continue;
        };
        let token = cells[1].contains("{}").then_some(3);
        let said = format!("refusal {}: {}; {} can mend it", cells[0], cells[1].replace("{}", "token 3"), cells[2]);
        assert_eq!(Refusal { reason, token }.to_string(), said);
    }
}

#[test]
fn too_many_tokens() {
    for class in Class::ALL {
        refused(&Request::new(class, &[&b"2:0"[..]; 5]), 21, 0);
    }
    refused(&Request::new(Class::Cl, &[b"2:0", b"2:0", b"2:0", b"2:0", b""]), 21, 0);
    refused(&Request::new(Class::Fa, &[&b"sixteen"[..]; 5]), 21, 0);
    refused(&Request::raw(b"PC", &[&b"2:0"[..]; 5]), 20, 0);
}

#[test]
fn empty_texts() {
    refused(&Request::raw(b"", &[]), 20, 0);
    refused(&Request::new(Class::Fa, &[]), 21, 0);
    refused(&Request::new(Class::Fa, &[b""]), 11, 1);
    refused(&Request::new(Class::Gl2, &[b"2:0", b""]), 11, 2);
    refused(&Request::new(Class::Fa, &[b"0:0"]), 22, 1);
}

#[test]
fn bytes_beyond_ascii() {
    for token in ["16:0é".as_bytes(), b"16:0\xff", b"16:0\0", b"16:0\t", b"\x7f"] {
        refused(&Request::new(Class::Gl2, &[b"16:0", token]), 31, 2);
    }
    refused(&Request::raw(b"FA\0", &[b"16:0"]), 20, 0);
    refused(&Request::new(Class::Gp, &[b"16:0"]).tail("Ø".as_bytes()), 23, 0);
}

#[test]
fn class_codes_are_known() {
    for class in Class::ALL {
        let tokens: &[&[u8]] = match class {
            Class::Cl => &[&b"4:0"[..]; 4],
            Class::Sa => &[&b"4:0"[..]; 2],
            _ => &[b"4:0"],
        };
        let tail: &[u8] = if matches!(class, Class::Gp | Class::Sb | Class::Sa) { b"O" } else { b"" };
        assert!(draw(&Request::new(class, tokens).tail(tail)).is_ok(), "{class:?}");
    }
}

mod example {
    include!("../examples/draw.rs");

    #[test]
    fn that_the_readme_shows() {
        main();
        assert!(include_str!("../../../README.md").contains(include_str!("../examples/draw.rs")));
    }
}
