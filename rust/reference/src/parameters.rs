//! The parameter record.

/// What a call is lent of sizes, as raw numbers. A job judges those of them that it uses.
#[derive(Clone, Copy, PartialEq, Eq, Debug, Default)]
pub struct Parameters {
    /// Depth; for folding the upper level.
    pub depth: u32,
    /// Rate.
    pub rate: u32,
    /// Words of a base message, k0.
    pub k0: u32,
}

impl Parameters {
    /// Base messages of one word.
    pub const fn one(depth: u32, rate: u32) -> Parameters {
        Parameters { depth, rate, k0: 1 }
    }
}
