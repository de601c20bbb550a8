//! Readings, tables and evaluation.

use super::{answer, record, second};
use tvarchula_reference::{Answer, Field, GroundJobs, Parameters, Reading};

// SAFETY of all calls below: every pointer is that of a slice with its own length, alive during the
// call, distinct from the others because the written ones are borrowed alone.
macro_rules! jobs {
    ($side:ty, $functions:ident) => {
        impl GroundJobs for $side {
            fn read_clearance(field: Field, word: u32) -> Reading {
                let raw = unsafe { $functions::tv_read_clearance(second(field), word) };
                Reading {
                    answer: answer(raw.answer),
                    kind: raw.kind,
                    amount: raw.amount,
                }
            }

            fn table_to_coefficients(
                field: Field,
                parameters: Parameters,
                clearances: &[i32],
                message: &mut [u32],
            ) -> Answer {
                let raw = unsafe {
                    $functions::tv_table_to_coefficients(
                        second(field),
                        record(parameters),
                        clearances.as_ptr(),
                        clearances.len(),
                        message.as_mut_ptr(),
                        message.len(),
                    )
                };
                answer(raw)
            }

            fn coefficients_to_table(
                field: Field,
                parameters: Parameters,
                message: &[u32],
                clearances: &mut [i32],
                work: &mut [u32],
            ) -> Answer {
                let raw = unsafe {
                    $functions::tv_coefficients_to_table(
                        second(field),
                        record(parameters),
                        message.as_ptr(),
                        message.len(),
                        clearances.as_mut_ptr(),
                        clearances.len(),
                        work.as_mut_ptr(),
                        work.len(),
                    )
                };
                answer(raw)
            }

            fn evaluate(
                field: Field,
                parameters: Parameters,
                message: &[u32],
                z: &[u32],
                value: &mut u32,
            ) -> Answer {
                let raw = unsafe {
                    $functions::tv_evaluate(
                        second(field),
                        record(parameters),
                        message.as_ptr(),
                        message.len(),
                        z.as_ptr(),
                        z.len(),
                        value,
                    )
                };
                answer(raw)
            }
        }
    };
}

jobs!(super::Linked, tvarchula_sys);
#[cfg(feature = "before")]
jobs!(super::Before, tvarchula_before);
