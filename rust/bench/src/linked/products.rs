//! The functions that the library's sources export for the benchmark alone.

#[rustfmt::skip]
extern "C" {
    /// Each value times its factor, in rounds.
    pub fn products_side_by_side(
        rounds: u32, factors: *const u32, factors_len: usize, values: *mut u32, values_len: usize,
    ) -> bool;
    /// 1 times all factors, one after another, in rounds.
    pub fn products_in_chain(rounds: u32, factors: *const u32, factors_len: usize) -> u32;
}
