//! The exported functions of the static libraries, and all the unsafe code of this crate but the clock's.
//!
//! Every call is sound for the same reasons: the libraries answer on any input; a slice goes over as
//! its pointer and its own length; all slices live during the call, and a library keeps none of
//! them; those that are written are borrowed alone.

use crate::answer::{Answer, Code};
use crate::filling::Filling;
use crate::jobs::{Jobs, Outputs};
use crate::plain::{Filled, Folding, Opened};
use crate::products::Products;
use tvarchula_sys::{tv_answer, tv_parameters, TV_FIELD_1, TV_FIELD_2};

/// The static library over a field: `TV_FIELD_1` or `TV_FIELD_2`.
#[derive(Clone, Copy, Debug)]
pub struct Library<const FIELD: bool>;

/// An older one over the first field, where the build was told of it.
#[cfg(before)]
#[derive(Clone, Copy, Debug)]
pub struct Before;

#[cfg(native)]
pub mod native;
mod products;

/// What the library exports, and what its sources export for the benchmark.
mod library {
    pub use super::products::*;
    pub use tvarchula_sys::*;
}

#[cfg(before)]
use tvarchula_before as before;

fn answer(raw: tv_answer) -> Answer {
    Answer {
        number: raw.number,
        first: raw.first,
        second: raw.second,
    }
}

/// A record. What a job does not judge there is 0.
fn record(depth: u32, rate: u32, k0: u32) -> tv_parameters {
    tv_parameters { depth, rate, k0 }
}

// SAFETY of all calls below: see the head of this file.
macro_rules! linked {
    ($side:ty, $functions:ident, $field:expr) => {
        impl Jobs for $side {
            fn table_to_coefficients(k0: u32, clearances: &[i32], message: &mut [u32]) -> Answer {
                answer(unsafe {
                    $functions::tv_table_to_coefficients(
                        $field,
                        record(0, 0, k0),
                        clearances.as_ptr(),
                        clearances.len(),
                        message.as_mut_ptr(),
                        message.len(),
                    )
                })
            }

            fn coefficients_to_table(
                k0: u32,
                message: &[u32],
                table: &mut [i32],
                work: &mut [u32],
            ) -> Answer {
                answer(unsafe {
                    $functions::tv_coefficients_to_table(
                        $field,
                        record(0, 0, k0),
                        message.as_ptr(),
                        message.len(),
                        table.as_mut_ptr(),
                        table.len(),
                        work.as_mut_ptr(),
                        work.len(),
                    )
                })
            }

            fn evaluate(
                depth: u32,
                k0: u32,
                message: &[u32],
                z: &[u32],
                value: &mut u32,
            ) -> Answer {
                answer(unsafe {
                    $functions::tv_evaluate(
                        $field,
                        record(depth, 0, k0),
                        message.as_ptr(),
                        message.len(),
                        z.as_ptr(),
                        z.len(),
                        value,
                    )
                })
            }

            fn encode(code: &Code<'_>, message: &[u32], block: &mut [u32]) -> Answer {
                let Code {
                    depth,
                    rate,
                    k0,
                    g,
                    t,
                    t2,
                } = *code;
                answer(unsafe {
                    $functions::tv_encode(
                        $field,
                        record(depth, rate, k0),
                        g.as_ptr(),
                        g.len(),
                        t.as_ptr(),
                        t.len(),
                        t2.as_ptr(),
                        t2.len(),
                        message.as_ptr(),
                        message.len(),
                        block.as_mut_ptr(),
                        block.len(),
                    )
                })
            }

            fn decode(
                code: &Code<'_>,
                block: &[u32],
                message: &mut [u32],
                work: &mut [u32],
            ) -> Answer {
                let Code {
                    depth,
                    rate,
                    k0,
                    g,
                    t,
                    t2,
                } = *code;
                answer(unsafe {
                    $functions::tv_decode(
                        $field,
                        record(depth, rate, k0),
                        g.as_ptr(),
                        g.len(),
                        t.as_ptr(),
                        t.len(),
                        t2.as_ptr(),
                        t2.len(),
                        block.as_ptr(),
                        block.len(),
                        message.as_mut_ptr(),
                        message.len(),
                        work.as_mut_ptr(),
                        work.len(),
                    )
                })
            }

            fn fold(lent: &Folding<'_>, folded: &mut [u32]) -> Answer {
                let Folding {
                    level,
                    rate,
                    k0,
                    t,
                    t2,
                    block,
                    challenge,
                } = *lent;
                answer(unsafe {
                    $functions::tv_fold(
                        $field,
                        record(level, rate, k0),
                        t.as_ptr(),
                        t.len(),
                        t2.as_ptr(),
                        t2.len(),
                        block.as_ptr(),
                        block.len(),
                        challenge,
                        folded.as_mut_ptr(),
                        folded.len(),
                    )
                })
            }

            fn write_opening(
                code: &Code<'_>,
                message: &[u32],
                z: &[u32],
                r: &[u32],
                out: Outputs<'_>,
            ) -> Answer {
                let Code {
                    depth,
                    rate,
                    k0,
                    g,
                    t,
                    t2,
                } = *code;
                let Outputs {
                    result,
                    work,
                    value,
                } = out;
                answer(unsafe {
                    $functions::tv_write_opening(
                        $field,
                        record(depth, rate, k0),
                        g.as_ptr(),
                        g.len(),
                        t.as_ptr(),
                        t.len(),
                        t2.as_ptr(),
                        t2.len(),
                        message.as_ptr(),
                        message.len(),
                        z.as_ptr(),
                        z.len(),
                        r.as_ptr(),
                        r.len(),
                        result.as_mut_ptr(),
                        result.len(),
                        work.as_mut_ptr(),
                        work.len(),
                        value,
                    )
                })
            }

            fn verify_opening(code: &Code<'_>, lent: &Opened<'_>) -> Answer {
                let Code {
                    depth,
                    rate,
                    k0,
                    g,
                    t,
                    t2,
                } = *code;
                let Opened {
                    block,
                    z,
                    y,
                    r,
                    queries,
                    opening,
                } = *lent;
                answer(unsafe {
                    $functions::tv_verify_opening(
                        $field,
                        record(depth, rate, k0),
                        g.as_ptr(),
                        g.len(),
                        t.as_ptr(),
                        t.len(),
                        t2.as_ptr(),
                        t2.len(),
                        block.as_ptr(),
                        block.len(),
                        z.as_ptr(),
                        z.len(),
                        y,
                        r.as_ptr(),
                        r.len(),
                        queries.as_ptr(),
                        queries.len(),
                        opening.as_ptr(),
                        opening.len(),
                    )
                })
            }
        }
    };
}

/// Products alone, of the first field.
macro_rules! linked_products {
    ($side:ty, $functions:ident) => {
        impl Products for $side {
            fn side_by_side(rounds: u32, factors: &[u32], values: &mut [u32]) -> bool {
                unsafe {
                    $functions::products_side_by_side(
                        rounds,
                        factors.as_ptr(),
                        factors.len(),
                        values.as_mut_ptr(),
                        values.len(),
                    )
                }
            }

            fn in_chain(rounds: u32, factors: &[u32]) -> u32 {
                unsafe { $functions::products_in_chain(rounds, factors.as_ptr(), factors.len()) }
            }
        }
    };
}

linked!(Library<TV_FIELD_1>, library, TV_FIELD_1);
linked!(Library<TV_FIELD_2>, library, TV_FIELD_2);
#[cfg(before)]
linked!(Before, before, TV_FIELD_1);
linked_products!(Library<TV_FIELD_1>, library);
#[cfg(before)]
linked_products!(Before, before);

impl Filling for Library<TV_FIELD_2> {
    fn fill_roots(depth: u32, rate: u32, filled: Filled<'_>) -> Answer {
        let Filled { g, t, t2 } = filled;
        answer(unsafe {
            library::tv_fill_roots(
                record(depth, rate, 1),
                g.as_mut_ptr(),
                g.len(),
                t.as_mut_ptr(),
                t.len(),
                t2.as_mut_ptr(),
                t2.len(),
            )
        })
    }
}
