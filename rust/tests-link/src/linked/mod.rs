//! The exported C functions of the static library, wrapped as jobs.
//!
//! `tvarchula-sys` declares them; a slice is a pointer and a length in that order.

#[cfg(feature = "code")]
mod code;
#[cfg(feature = "ground")]
mod ground;
#[cfg(feature = "opening")]
mod opening;

/// The linked library.
#[derive(Clone, Copy, Debug)]
pub struct Linked;

/// An older library, linked beside it.
#[cfg(feature = "before")]
#[derive(Clone, Copy, Debug)]
pub struct Before;

fn answer(raw: tvarchula_sys::tv_answer) -> tvarchula_reference::Answer {
    tvarchula_reference::Answer {
        number: raw.number,
        first: raw.first,
        second: raw.second,
    }
}

/// The field as the functions take it.
fn second(field: tvarchula_reference::Field) -> bool {
    match field {
        tvarchula_reference::Field::First => tvarchula_sys::TV_FIELD_1,
        tvarchula_reference::Field::Second => tvarchula_sys::TV_FIELD_2,
    }
}

/// The record as the functions take it.
fn record(lent: tvarchula_reference::Parameters) -> tvarchula_sys::tv_parameters {
    tvarchula_sys::tv_parameters {
        depth: lent.depth,
        rate: lent.rate,
        k0: lent.k0,
    }
}
