//! The kinds of texts that are measured.
use crate::generator;

/// A kind of text: logs of a channel, or the oracle's short texts of all sorts.
#[derive(Clone, Copy)]
pub enum Kind {
    Log(generator::Kind),
    Mixed,
}

/// All kinds, with their names.
pub const KINDS: [(&str, Kind); 5] = [
    ("array-2", Kind::Log(generator::Kind { array: true, threads: 2 })),
    ("array-8", Kind::Log(generator::Kind { array: true, threads: 8 })),
    ("rendezvous-2", Kind::Log(generator::Kind { array: false, threads: 2 })),
    ("rendezvous-8", Kind::Log(generator::Kind { array: false, threads: 8 })),
    ("mixed", Kind::Mixed),
];

/// The sums that are shown: which kinds' names begin so.
pub const SUMS: [(&str, &str); 2] = [("all array", "array-"), ("all rendezvous", "rendezvous-")];

impl Kind {
    /// The kind of a name.
    pub fn named(name: &str) -> Kind {
        KINDS.iter().find(|(n, _)| *n == name).unwrap_or_else(|| panic!("{name}: no kind of text")).1
    }

    /// The text of a seed.
    pub fn text(self, seed: u64) -> Vec<u8> {
        match self {
            Kind::Log(kind) => generator::log(kind, seed),
            Kind::Mixed => generator::text(seed),
        }
    }
}

/// How many frames a text has: one a line.
pub fn frames(text: &[u8]) -> u64 {
    text.split_inclusive(|b| *b == b'\n').count() as u64
}
