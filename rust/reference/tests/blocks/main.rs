//! Base messages of one, two and four words. What is expected comes from `plain`, from how an input was
//! made, or from the order's text, never from the jobs.

mod code;
mod honest;
mod limits;
mod opening;
mod order;
mod plain;
mod rows;
mod verdicts;
mod words;

use tvarchula_reference::Layout;

/// Sizes with messages of at most 32 words, at rates of every kind.
fn small_layouts() -> impl Iterator<Item = Layout> {
    let every = [1, 2, 4].into_iter().flat_map(|k0| {
        let depths = (0..=5).filter(move |depth| k0 << depth <= 32);
        depths.flat_map(move |depth| [2, 3, 7, 16].map(|rate| Layout { depth, rate, k0 }))
    });
    every.filter(|layout| layout.top_block() <= 256)
}
