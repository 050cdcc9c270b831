//! Chain names of lipids to one CXSMILES line, with the atom number of every chain carbon.
//!
//! ```
//! use perlwynos::{draw, Class, Reason, Request};
//!
//! let drawn = draw(&Request::new(Class::Sb, &[b"d6:0"]).tail(b"O")).unwrap();
//! assert_eq!(drawn.line, b"C(CO)(N)C(O)CCC");
//! assert_eq!(drawn.carbons, [(1, vec![1, 0, 4, 6, 7, 8])]);
//! assert_eq!(drawn.sites, []);
//!
//! let refusal = draw(&Request::new(Class::Gl2, &[b"16:0", b"sixteen"])).unwrap_err();
//! assert_eq!(refusal.reason, Reason::Unreadable);
//! assert_eq!(refusal.token, Some(2));
//! assert_eq!(
//!     refusal.to_string(),
//!     "refusal 11: token 2 cannot be read as a chain name; the author of the name can mend it"
//! );
//! ```
//!
//! [`draw`] answers with vectors of its own. [`draw_into`] writes to slices that the
//! caller lends, and allocates nothing.
//!
//! The crate calls `perlwynos_draw` of the static library. The build looks for this in the
//! folder that the environment variable `PERLWYNOS_LIB` names, else in target/staticlib of
//! the project or in lib of a release.

#![deny(missing_docs, unsafe_op_in_unsafe_fn)]

use std::error::Error;
use std::fmt;

/// The classes that can be drawn.
#[derive(Clone, Copy, Debug, PartialEq, Eq, Hash)]
pub enum Class {
    /// A fatty acid: one chain.
    Fa,
    /// A glycerolipid with one chain.
    Gl1,
    /// A glycerolipid with one chain or two.
    Gl2,
    /// A glycerolipid with one to three chains.
    Gl3,
    /// A glycerophospholipid: one chain or two, and a tail.
    Gp,
    /// A cardiolipin: four chains.
    Cl,
    /// A sphingoid base alone, and a tail.
    Sb,
    /// A sphingoid base with an acyl chain, and a tail.
    Sa,
}

impl Class {
    /// All eight.
    pub const ALL: [Class; 8] =
        [Class::Fa, Class::Gl1, Class::Gl2, Class::Gl3, Class::Gp, Class::Cl, Class::Sb, Class::Sa];

    /// The code of the class, as a sheet has it.
    pub const fn code(self) -> &'static [u8] {
        match self {
            Class::Fa => b"FA",
            Class::Gl1 => b"GL1",
            Class::Gl2 => b"GL2",
            Class::Gl3 => b"GL3",
            Class::Gp => b"GP",
            Class::Cl => b"CL",
            Class::Sb => b"SB",
            Class::Sa => b"SA",
        }
    }
}

/// What is to be drawn. Any bytes may stand in its texts: every request has an answer.
#[derive(Clone, Copy, Debug, PartialEq, Eq, Hash)]
pub struct Request<'a> {
    /// The class code, as [`Class::code`] gives it.
    pub class: &'a [u8],
    /// Whether the chains may be exchanged, which the line then says.
    pub swap: bool,
    /// The head group's text, for the classes that have one; else empty.
    pub tail: &'a [u8],
    /// The chain names in the order of their sn, as `18:1(9Z)`; `0:0` leaves a place
    /// without a chain. No class takes more than four.
    pub tokens: &'a [&'a [u8]],
}

impl<'a> Request<'a> {
    /// A request without a tail, whose chains stay in their places.
    pub const fn new(class: Class, tokens: &'a [&'a [u8]]) -> Self {
        Self::raw(class.code(), tokens)
    }

    /// The same for a class code that comes from elsewhere, and may be unknown.
    pub const fn raw(class: &'a [u8], tokens: &'a [&'a [u8]]) -> Self {
        Request { class, swap: false, tail: b"", tokens }
    }

    /// This request with a tail.
    #[must_use]
    pub const fn tail(self, tail: &'a [u8]) -> Self {
        Request { tail, ..self }
    }

    /// This request with its chains free to be exchanged, or not.
    #[must_use]
    pub const fn swap(self, swap: bool) -> Self {
        Request { swap, ..self }
    }
}

/// Why a request is refused. The batch program has one number more, 42, for rows that it
/// cannot read.
#[derive(Clone, Copy, Debug, PartialEq, Eq, PartialOrd, Ord, Hash)]
pub enum Reason {
    /// A token cannot be read.
    Unreadable = 11,
    /// A group with a position sits at C1 of an acyl chain.
    GroupOnCarbonyl = 12,
    /// There are double bonds without a position, and the first group or ring is too far
    /// along the chain.
    PinTooFar = 13,
    /// There are too few carbons for the double bonds without a position.
    TailTooShort = 14,
    /// A group without a position has no carbon to sit on.
    NoSite = 15,
    /// The class code is none of the eight.
    UnknownClass = 20,
    /// The class takes another number of tokens.
    WrongCount = 21,
    /// A chain is of the wrong kind for its place.
    WrongKind = 22,
    /// The tail is missing, outside the grammar, or there where the class has none.
    WrongTail = 23,
    /// A token is over a limit.
    OverLimit = 31,
    /// A feature does not lie on the drawn chain.
    OffChain = 32,
    /// Two features clash.
    Clash = 33,
    /// A lent slice is too short. [`draw`] never answers this.
    ShortSlice = 41,
}

impl Reason {
    /// All that there are, by rising number.
    pub const ALL: [Reason; 13] = [
        Reason::Unreadable,
        Reason::GroupOnCarbonyl,
        Reason::PinTooFar,
        Reason::TailTooShort,
        Reason::NoSite,
        Reason::UnknownClass,
        Reason::WrongCount,
        Reason::WrongKind,
        Reason::WrongTail,
        Reason::OverLimit,
        Reason::OffChain,
        Reason::Clash,
        Reason::ShortSlice,
    ];

    /// The number of the refusal.
    pub const fn number(self) -> u32 {
        self as u32
    }

    /// The reason that has this number, if one has.
    pub fn from_number(number: u32) -> Option<Reason> {
        Reason::ALL.into_iter().find(|reason| reason.number() == number)
    }

    /// Who can put it right.
    pub const fn mender(self) -> &'static str {
        match self {
            Reason::UnknownClass | Reason::WrongCount | Reason::WrongKind | Reason::WrongTail => {
                "whoever picked the template"
            }
            Reason::ShortSlice => "the calling program",
            _ => "the author of the name",
        }
    }

    /// What is wrong, said of a token, which stands before it, or of the whole request:
    /// tools/sheet/answers.tsv of the project.
    const fn meaning(self) -> &'static str {
        match self {
            Reason::Unreadable => "cannot be read as a chain name",
            Reason::GroupOnCarbonyl => "puts a group on C1 of an acyl chain, which is the carbonyl carbon",
            Reason::PinTooFar => {
                "has its first group or ring too far along the chain: double bonds without a position could lie before it"
            }
            Reason::TailTooShort => "has too few carbons for its double bonds without a position",
            Reason::NoSite => "has a group without a position, and no carbon to put it on",
            Reason::UnknownClass => "the class is none of FA, GL1, GL2, GL3, GP, CL, SB and SA",
            Reason::WrongCount => "the class takes another number of tokens",
            Reason::WrongKind => "is of a kind that its place in the class does not take",
            Reason::WrongTail => {
                "the tail is missing, is outside the grammar of tails, or is given to a class without one"
            }
            Reason::OverLimit => {
                "has a byte that is not printable ASCII, or more than 255 bytes, 255 carbons, 16 groups, 8 rings or \
                 32 double bonds with a position"
            }
            Reason::OffChain => "has a feature that does not lie on the drawn chain",
            Reason::Clash => "has two features that cannot both be drawn",
            Reason::ShortSlice => "the line or the indices need more room than was lent",
        }
    }
}

/// A request that cannot be drawn. Shown, it is a sentence that says what is wrong and who
/// can mend it.
#[derive(Clone, Copy, Debug, PartialEq, Eq, Hash)]
pub struct Refusal {
    /// Why.
    pub reason: Reason,
    /// The place of the token concerned, from 1; none where the request as a whole is meant.
    pub token: Option<usize>,
}

impl fmt::Display for Refusal {
    fn fmt(&self, f: &mut fmt::Formatter<'_>) -> fmt::Result {
        write!(f, "refusal {}: ", self.reason.number())?;
        if let Some(place) = self.token {
            write!(f, "token {place} ")?;
        }
        write!(f, "{}; {} can mend it", self.reason.meaning(), self.reason.mender())
    }
}

impl Error for Refusal {}

/// An accepted request. Atoms are counted from 0, as they stand in the line.
#[derive(Clone, Debug, PartialEq, Eq, Hash)]
pub struct Drawn {
    /// The CXSMILES line.
    pub line: Vec<u8>,
    /// For each chain that has carbons, by rising sn: its sn, and the atoms of its carbons
    /// from C1 on.
    pub carbons: Vec<(u8, Vec<u16>)>,
    /// By rising sn: the sn, and the first atom that the chain, with the O of its place,
    /// adds to the line.
    pub sites: Vec<(u8, u32)>,
}

/// An accepted request in slices that were lent.
#[derive(Clone, Copy, Debug)]
pub struct Lent<'a> {
    line: &'a [u8],
    index: &'a [u16],
    report: [u32; report::ROOM],
}

impl<'a> Lent<'a> {
    /// The CXSMILES line: the part of the lent slice that holds it.
    pub fn line(&self) -> &'a [u8] {
        self.line
    }

    /// As [`Drawn::carbons`], the atoms as parts of the lent slice.
    pub fn carbons(&self) -> impl Iterator<Item = (u8, &'a [u16])> {
        let mut rest = self.index;
        pairs(self.report, report::LISTS).map(move |(sn, count)| {
            let (list, behind) = rest.split_at(count as usize);
            rest = behind;
            (sn, list)
        })
    }

    /// As [`Drawn::sites`].
    pub fn sites(&self) -> impl Iterator<Item = (u8, u32)> {
        pairs(self.report, report::SITES)
    }
}

/// Where the numbers of a report stand: include/perlwynos.h.
mod report {
    pub const ROOM: usize = 21;
    pub const TOKEN: usize = 1;
    pub const LENGTH: usize = 2;
    /// How many pairs follow, and the pairs themselves.
    pub const LISTS: usize = 3;
    pub const SITES: usize = 12;
}

/// The pairs of a report whose number stands at a place, right before them.
fn pairs(report: [u32; report::ROOM], at: usize) -> impl Iterator<Item = (u8, u32)> {
    (0..report[at] as usize).map(move |i| (report[at + 1 + 2 * i] as u8, report[at + 2 + 2 * i]))
}

extern "C" {
    fn perlwynos_draw(
        class_code: *const u8,
        class_len: usize,
        swap: u8,
        tail: *const u8,
        tail_len: usize,
        count: usize,
        sn1: *const u8,
        sn1_len: usize,
        sn2: *const u8,
        sn2_len: usize,
        sn3: *const u8,
        sn3_len: usize,
        sn4: *const u8,
        sn4_len: usize,
        line: *mut u8,
        line_len: usize,
        index: *mut u16,
        index_len: usize,
        report: *mut u32,
    ) -> u32;
}

/// The report of the library's answer, or its refusal.
fn call(request: &Request, line: &mut [u8], index: &mut [u16]) -> Result<[u32; report::ROOM], Refusal> {
    let mut report = [0; report::ROOM];
    // The call has places for four tokens; of a fifth it only needs to know that it is there.
    let mut sn: [&[u8]; 4] = [b""; 4];
    for (place, token) in sn.iter_mut().zip(request.tokens) {
        *place = token;
    }
    let [sn1, sn2, sn3, sn4] = sn;
    // SAFETY: the declaration above is that of include/perlwynos.h, whose size_t is a usize
    // on x86-64. Each pointer is that of a slice and goes with its own length; `report` has
    // the 21 numbers that the header asks for. The three that are written are borrowed
    // mutably, so that they overlap nothing. The library keeps no pointer, has no state,
    // and returns for every request without unwinding.
    let number = unsafe {
        perlwynos_draw(
            request.class.as_ptr(),
            request.class.len(),
            request.swap.into(),
            request.tail.as_ptr(),
            request.tail.len(),
            request.tokens.len(),
            sn1.as_ptr(),
            sn1.len(),
            sn2.as_ptr(),
            sn2.len(),
            sn3.as_ptr(),
            sn3.len(),
            sn4.as_ptr(),
            sn4.len(),
            line.as_mut_ptr(),
            line.len(),
            index.as_mut_ptr(),
            index.len(),
            report.as_mut_ptr(),
        )
    };
    if number == 0 {
        return Ok(report);
    }
    let reason = Reason::from_number(number).expect("the library refuses with a number of its header");
    Err(Refusal { reason, token: Some(report[report::TOKEN] as usize).filter(|&place| place > 0) })
}

/// Draws one request into lent slices, and allocates nothing.
///
/// Where it is refused both slices are as they were, and where it is accepted what lies
/// behind the line and the indices is. Slices that are too short are refused with
/// [`Reason::ShortSlice`]; 1,024 numbers hold the indices of every request, as no chain has
/// more than 255 carbons.
///
/// ```
/// let mut line = [0; 64];
/// let mut index = [0; 32];
/// let request = perlwynos::Request::new(perlwynos::Class::Fa, &[b"18:1(9Z)"]);
/// let lent = perlwynos::draw_into(&request, &mut line, &mut index)?;
/// assert_eq!(lent.line(), b"OC(=O)CCCCCCC/C=C\\CCCCCCCC");
/// let (sn, atoms) = lent.carbons().next().unwrap();
/// assert_eq!((sn, atoms.len(), atoms[9 - 1]), (1, 18, 10));
/// # Ok::<(), perlwynos::Refusal>(())
/// ```
pub fn draw_into<'a>(request: &Request, line: &'a mut [u8], index: &'a mut [u16]) -> Result<Lent<'a>, Refusal> {
    let report = call(request, line, index)?;
    Ok(Lent { line: &line[..report[report::LENGTH] as usize], index, report })
}

/// Draws one request.
///
/// It lends the library room for the line, and more where that is too little, so that
/// [`Reason::ShortSlice`] is never met. May be called from several threads at once.
pub fn draw(request: &Request) -> Result<Drawn, Refusal> {
    let mut line = vec![0; 4096];
    let mut index = vec![0; 1024];
    loop {
        match draw_into(request, &mut line, &mut index) {
            Ok(lent) => {
                return Ok(Drawn {
                    line: lent.line().to_vec(),
                    carbons: lent.carbons().map(|(sn, atoms)| (sn, atoms.to_vec())).collect(),
                    sites: lent.sites().collect(),
                })
            }
            Err(Refusal { reason: Reason::ShortSlice, .. }) => {
                line.resize(2 * line.len(), 0);
                index.resize(2 * index.len(), 0);
            }
            Err(refusal) => return Err(refusal),
        }
    }
}

// The example of the folder's README is run with the others.
#[cfg(doctest)]
#[doc = include_str!("../README.md")]
struct Readme;
