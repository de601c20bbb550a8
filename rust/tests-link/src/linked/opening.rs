//! Writing and verifying openings.

use super::{answer, record, second};
use tvarchula_reference::{Answer, LentCode, OpeningJobs};

// SAFETY of all calls below: every pointer is that of a slice with its own length, alive during the
// call, distinct from the others because the written ones are borrowed alone.
macro_rules! jobs {
    ($side:ty, $functions:ident) => {
        impl OpeningJobs for $side {
            fn write_opening(
                lent: LentCode,
                message: &[u32],
                z: &[u32],
                r: &[u32],
                opening: &mut [u32],
                work: &mut [u32],
                value: &mut u32,
            ) -> Answer {
                let raw = unsafe {
                    $functions::tv_write_opening(
                        second(lent.field),
                        record(lent.parameters),
                        lent.g.as_ptr(),
                        lent.g.len(),
                        lent.t.as_ptr(),
                        lent.t.len(),
                        lent.t2.as_ptr(),
                        lent.t2.len(),
                        message.as_ptr(),
                        message.len(),
                        z.as_ptr(),
                        z.len(),
                        r.as_ptr(),
                        r.len(),
                        opening.as_mut_ptr(),
                        opening.len(),
                        work.as_mut_ptr(),
                        work.len(),
                        value,
                    )
                };
                answer(raw)
            }

            fn verify_opening(
                lent: LentCode,
                block: &[u32],
                z: &[u32],
                y: u32,
                r: &[u32],
                queries: &[u32],
                opening: &[u32],
            ) -> Answer {
                let raw = unsafe {
                    $functions::tv_verify_opening(
                        second(lent.field),
                        record(lent.parameters),
                        lent.g.as_ptr(),
                        lent.g.len(),
                        lent.t.as_ptr(),
                        lent.t.len(),
                        lent.t2.as_ptr(),
                        lent.t2.len(),
                        block.as_ptr(),
                        block.len(),
                        z.as_ptr(),
                        z.len(),
                        y,
                        r.as_ptr(),
                        r.len(),
                        queries.as_ptr(),
                        queries.len(),
                        opening.as_ptr(),
                        opening.len(),
                    )
                };
                answer(raw)
            }
        }
    };
}

jobs!(super::Linked, tvarchula_sys);
#[cfg(feature = "before")]
jobs!(super::Before, tvarchula_before);
