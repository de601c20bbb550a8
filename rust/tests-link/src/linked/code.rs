//! Encoding, decoding, folding, filling.

use super::{answer, record, second};
use tvarchula_reference::{Answer, CodeJobs, LentCode, LentLevel, Parameters};

// SAFETY of all calls below: every pointer is that of a slice with its own length, alive during the
// call, distinct from the others because the written ones are borrowed alone.
macro_rules! jobs {
    ($side:ty, $functions:ident) => {
        impl CodeJobs for $side {
            fn encode(lent: LentCode, message: &[u32], block: &mut [u32]) -> Answer {
                let raw = unsafe {
                    $functions::tv_encode(
                        second(lent.field),
                        record(lent.parameters),
                        lent.g.as_ptr(),
                        lent.g.len(),
                        lent.t.as_ptr(),
                        lent.t.len(),
                        lent.t2.as_ptr(),
                        lent.t2.len(),
                        message.as_ptr(),
                        message.len(),
                        block.as_mut_ptr(),
                        block.len(),
                    )
                };
                answer(raw)
            }

            fn decode(
                lent: LentCode,
                block: &[u32],
                message: &mut [u32],
                work: &mut [u32],
            ) -> Answer {
                let raw = unsafe {
                    $functions::tv_decode(
                        second(lent.field),
                        record(lent.parameters),
                        lent.g.as_ptr(),
                        lent.g.len(),
                        lent.t.as_ptr(),
                        lent.t.len(),
                        lent.t2.as_ptr(),
                        lent.t2.len(),
                        block.as_ptr(),
                        block.len(),
                        message.as_mut_ptr(),
                        message.len(),
                        work.as_mut_ptr(),
                        work.len(),
                    )
                };
                answer(raw)
            }

            fn fold(lent: LentLevel, block: &[u32], challenge: u32, out: &mut [u32]) -> Answer {
                let raw = unsafe {
                    $functions::tv_fold(
                        second(lent.field),
                        record(lent.parameters),
                        lent.t.as_ptr(),
                        lent.t.len(),
                        lent.t2.as_ptr(),
                        lent.t2.len(),
                        block.as_ptr(),
                        block.len(),
                        challenge,
                        out.as_mut_ptr(),
                        out.len(),
                    )
                };
                answer(raw)
            }

            fn fill_roots(
                parameters: Parameters,
                g: &mut [u32],
                t: &mut [u32],
                t2: &mut [u32],
            ) -> Answer {
                let raw = unsafe {
                    $functions::tv_fill_roots(
                        record(parameters),
                        g.as_mut_ptr(),
                        g.len(),
                        t.as_mut_ptr(),
                        t.len(),
                        t2.as_mut_ptr(),
                        t2.len(),
                    )
                };
                answer(raw)
            }
        }
    };
}

jobs!(super::Linked, tvarchula_sys);
#[cfg(feature = "before")]
jobs!(super::Before, tvarchula_before);
