//! Calls of the C functions, and all the unsafe code of this crate.
//!
//! Why every call below is sound:
//! - The library answers on any input: no depth, rate, k0, length or word makes it fail, so a call has
//!   no condition on the values it is lent.
//! - A slice goes over as its pointer and its own length, and the library touches nothing outside.
//!   An empty slice has a pointer that is not null, in Rust as the library wants it.
//! - All slices live during the call, and the library keeps no pointer after it.
//! - A slice that is written is borrowed alone (`&mut`), so it is distinct from every other one.
//!   Two slices that are only read may be the same memory: nobody writes it during the call.
//! - The library has no state and never unwinds, so any thread may call it at any time.
//!
//! The comments at the calls name what is particular to each.

use tvarchula_sys::*;

use crate::code::Code;
use crate::field::Field;
use crate::opening::{Claim, Question};
use crate::parameters::Parameters;

pub fn read_clearance(field: Field, word: u32) -> tv_reading {
    // SAFETY: no memory is lent.
    unsafe { tv_read_clearance(field.lent(), word) }
}

#[rustfmt::skip]
pub fn table_to_coefficients(
    field: Field, sizes: Parameters, clearances: &[i32], message: &mut [u32],
) -> tv_answer {
    // SAFETY: see above; `message` is borrowed alone.
    unsafe {
        tv_table_to_coefficients(
            field.lent(), sizes.lent(), clearances.as_ptr(), clearances.len(),
            message.as_mut_ptr(), message.len(),
        )
    }
}

#[rustfmt::skip]
pub fn coefficients_to_table(
    field: Field, sizes: Parameters, message: &[u32], clearances: &mut [i32], work: &mut [u32],
) -> tv_answer {
    // SAFETY: see above; `clearances` and `work` are borrowed alone.
    unsafe {
        tv_coefficients_to_table(
            field.lent(), sizes.lent(), message.as_ptr(), message.len(),
            clearances.as_mut_ptr(), clearances.len(), work.as_mut_ptr(), work.len(),
        )
    }
}

#[rustfmt::skip]
pub fn evaluate(
    field: Field, sizes: Parameters, message: &[u32], z: &[u32], value: &mut u32,
) -> tv_answer {
    // SAFETY: see above; `value` is one word borrowed alone.
    unsafe {
        tv_evaluate(
            field.lent(), sizes.lent(), message.as_ptr(), message.len(), z.as_ptr(), z.len(), value,
        )
    }
}

#[rustfmt::skip]
pub fn encode(code: &Code<'_>, message: &[u32], block: &mut [u32]) -> tv_answer {
    let Code { field, g, t, t2, .. } = *code;
    let sizes = code.parameters().lent();
    // SAFETY: see above; `block` is borrowed alone.
    unsafe {
        tv_encode(
            field.lent(), sizes, g.as_ptr(), g.len(), t.as_ptr(), t.len(), t2.as_ptr(), t2.len(),
            message.as_ptr(), message.len(), block.as_mut_ptr(), block.len(),
        )
    }
}

#[rustfmt::skip]
pub fn decode(code: &Code<'_>, block: &[u32], message: &mut [u32], work: &mut [u32]) -> tv_answer {
    let Code { field, g, t, t2, .. } = *code;
    let sizes = code.parameters().lent();
    // SAFETY: see above; `message` and `work` are borrowed alone.
    unsafe {
        tv_decode(
            field.lent(), sizes, g.as_ptr(), g.len(), t.as_ptr(), t.len(), t2.as_ptr(), t2.len(),
            block.as_ptr(), block.len(), message.as_mut_ptr(), message.len(),
            work.as_mut_ptr(), work.len(),
        )
    }
}

#[rustfmt::skip]
#[allow(clippy::too_many_arguments)]
pub fn fold(
    field: Field, sizes: Parameters, t: &[u32], t2: &[u32], block: &[u32], challenge: u32,
    folded: &mut [u32],
) -> tv_answer {
    // SAFETY: see above; `folded` is borrowed alone.
    unsafe {
        tv_fold(
            field.lent(), sizes.lent(), t.as_ptr(), t.len(), t2.as_ptr(), t2.len(),
            block.as_ptr(), block.len(), challenge, folded.as_mut_ptr(), folded.len(),
        )
    }
}

#[rustfmt::skip]
pub fn write_opening(
    code: &Code<'_>, message: &[u32], question: &Question<'_>,
    opening: &mut [u32], work: &mut [u32], value: &mut u32,
) -> tv_answer {
    let Code { field, g, t, t2, .. } = *code;
    let sizes = code.parameters().lent();
    let Question { z, r } = *question;
    // SAFETY: see above; `opening`, `work` and the word `value` are borrowed alone.
    unsafe {
        tv_write_opening(
            field.lent(), sizes, g.as_ptr(), g.len(), t.as_ptr(), t.len(), t2.as_ptr(), t2.len(),
            message.as_ptr(), message.len(), z.as_ptr(), z.len(), r.as_ptr(), r.len(),
            opening.as_mut_ptr(), opening.len(), work.as_mut_ptr(), work.len(), value,
        )
    }
}

#[rustfmt::skip]
pub fn verify_opening(
    code: &Code<'_>, block: &[u32], claim: &Claim<'_>, opening: &[u32],
) -> tv_answer {
    let Code { field, g, t, t2, .. } = *code;
    let sizes = code.parameters().lent();
    let Claim { z, y, r, queries } = *claim;
    // SAFETY: see above; nothing is written.
    unsafe {
        tv_verify_opening(
            field.lent(), sizes, g.as_ptr(), g.len(), t.as_ptr(), t.len(), t2.as_ptr(), t2.len(),
            block.as_ptr(), block.len(), z.as_ptr(), z.len(), y, r.as_ptr(), r.len(),
            queries.as_ptr(), queries.len(), opening.as_ptr(), opening.len(),
        )
    }
}

#[rustfmt::skip]
pub fn fill_roots(
    sizes: Parameters, g: &mut [u32], t: &mut [u32], t2: &mut [u32],
) -> tv_answer {
    // SAFETY: see above; `g`, `t` and `t2` are borrowed alone.
    unsafe {
        tv_fill_roots(
            sizes.lent(), g.as_mut_ptr(), g.len(), t.as_mut_ptr(), t.len(), t2.as_mut_ptr(), t2.len(),
        )
    }
}
