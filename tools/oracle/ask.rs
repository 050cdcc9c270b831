
// ---------- everything above this line is the original ----------
//
// What the programs that ask the original have in common: stand-ins for the two
// modules that it names, and a request of document 01 as a call of the original.
//
// Do not hand it tokens over the limits of document 01 (its 31): the original
// would allocate one record for each of four thousand million groups.

/// Stand-in: only `generate_smiles` and `generate_structure` call it, and the
/// programs call neither.
mod nomenclature {
    pub(crate) fn split_display_name(name: &str) -> (String, Option<String>) {
        (name.to_string(), None)
    }
}

/// Stand-in: only `attach_consensus` uses it, and the programs do not call it.
mod consensus {
    pub(crate) struct Consensus {
        pub(crate) kind: String,
        pub(crate) sn: usize,
    }

    impl Consensus {
        pub(crate) fn is_localized(&self) -> bool {
            false
        }
    }

    pub(crate) fn parse_tail(_: &str) -> Option<Vec<Consensus>> {
        None
    }

    pub(crate) fn tokens(
        _: &[Consensus],
        _: bool,
        _: impl Fn(&Consensus) -> Option<String>,
    ) -> Vec<String> {
        Vec::new()
    }
}

/// A request, as document 01 has it, without the slices.
struct Request<'a> {
    class: &'a str,
    swap: bool,
    tail: &'a str,
    tokens: Vec<&'a str>,
}

/// What the original answers: the template function of the class over its tokens.
fn build_request(r: &Request) -> Option<Built> {
    let chains: Vec<ParsedChain> =
        r.tokens.iter().map(|t| parse_chain_token(t)).collect::<Option<_>>()?;
    match r.class {
        "FA" => fa_smiles(&chains),
        "GL1" => glycerolipid_smiles(&chains, 1, r.swap),
        "GL2" => glycerolipid_smiles(&chains, 2, r.swap),
        "GL3" => glycerolipid_smiles(&chains, 3, r.swap),
        "GP" => gpl_smiles(r.tail, &chains, r.swap),
        "CL" => cl_smiles(&chains, r.swap),
        "SB" => sphingo_dispatch(&chains, r.tail, false),
        "SA" => sphingo_dispatch(&chains, r.tail, true),
        _ => None,
    }
}
