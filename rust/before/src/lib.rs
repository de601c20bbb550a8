//! The functions of an older library, under the declarations of `tvarchula-sys`: they are linked beside the
//! present ones, so that both can be called in one program.
//!
//! `TVARCHULA_BEFORE_DIR` names the folder of the older archives when this is built. Their header is the
//! present one, or that of 0.6, from before the parameter record, where `TVARCHULA_BEFORE_VERSION` is `0.6`:
//! calls then have to have `k0 = 1`. Where no folder is named, there is nothing here.

#[cfg(all(linked, older))]
mod older;

/// Where the header is the present one, this is `tvarchula-sys` but for the names that are linked.
#[cfg(all(linked, not(older)))]
mod present {
    include!(concat!(env!("OUT_DIR"), "/tvarchula.rs"));
}

/// What the benchmark alone calls.
#[cfg(linked)]
mod products {
    include!(concat!(env!("OUT_DIR"), "/products.rs"));
}

#[cfg(all(linked, older))]
pub use older::*;
#[cfg(all(linked, not(older)))]
pub use present::*;
#[cfg(linked)]
pub use products::*;
