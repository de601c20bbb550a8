//! The jobs as traits, so that the same comparison runs on any two implementations of them.

use crate::answer::{Answer, Reading};
use crate::field::Field;
use crate::lent::{LentCode, LentLevel};
use crate::parameters::Parameters;
use crate::{clearance, decode, encode, fill, fold, opening, polynomial, table, verify};

/// Readings, tables and evaluation.
pub trait GroundJobs {
    /// Reads one word as a clearance.
    fn read_clearance(field: Field, word: u32) -> Reading;
    /// Clearance table to coefficients.
    fn table_to_coefficients(
        field: Field,
        parameters: Parameters,
        clearances: &[i32],
        message: &mut [u32],
    ) -> Answer;
    /// Coefficients to clearance table.
    fn coefficients_to_table(
        field: Field,
        parameters: Parameters,
        message: &[u32],
        clearances: &mut [i32],
        work: &mut [u32],
    ) -> Answer;
    /// The polynomial's value at a point.
    fn evaluate(
        field: Field,
        parameters: Parameters,
        message: &[u32],
        z: &[u32],
        value: &mut u32,
    ) -> Answer;
}

/// Encoding, decoding, folding, filling.
pub trait CodeJobs {
    /// The codeword of a message.
    fn encode(lent: LentCode, message: &[u32], block: &mut [u32]) -> Answer;
    /// The message of a codeword.
    fn decode(lent: LentCode, block: &[u32], message: &mut [u32], work: &mut [u32]) -> Answer;
    /// The fold of a block by one level.
    fn fold(lent: LentLevel, block: &[u32], challenge: u32, out: &mut [u32]) -> Answer;
    /// Base row and diagonals of the second field, by rule.
    fn fill_roots(parameters: Parameters, g: &mut [u32], t: &mut [u32], t2: &mut [u32]) -> Answer;
}

/// Writing and verifying openings.
pub trait OpeningJobs {
    /// Writes an opening and the value at the point.
    fn write_opening(
        lent: LentCode,
        message: &[u32],
        z: &[u32],
        r: &[u32],
        opening: &mut [u32],
        work: &mut [u32],
        value: &mut u32,
    ) -> Answer;
    /// Verifies an opening.
    fn verify_opening(
        lent: LentCode,
        block: &[u32],
        z: &[u32],
        y: u32,
        r: &[u32],
        queries: &[u32],
        opening: &[u32],
    ) -> Answer;
}

/// This crate's jobs.
#[derive(Clone, Copy, Debug)]
pub struct Reference;

impl GroundJobs for Reference {
    fn read_clearance(field: Field, word: u32) -> Reading {
        clearance::read_clearance(field, word)
    }
    fn table_to_coefficients(
        field: Field,
        parameters: Parameters,
        clearances: &[i32],
        message: &mut [u32],
    ) -> Answer {
        table::table_to_coefficients(field, parameters, clearances, message)
    }
    fn coefficients_to_table(
        field: Field,
        parameters: Parameters,
        message: &[u32],
        clearances: &mut [i32],
        work: &mut [u32],
    ) -> Answer {
        table::coefficients_to_table(field, parameters, message, clearances, work)
    }
    fn evaluate(
        field: Field,
        parameters: Parameters,
        message: &[u32],
        z: &[u32],
        value: &mut u32,
    ) -> Answer {
        polynomial::evaluate(field, parameters, message, z, value)
    }
}

impl CodeJobs for Reference {
    fn encode(lent: LentCode, message: &[u32], block: &mut [u32]) -> Answer {
        encode::encode(lent, message, block)
    }
    fn decode(lent: LentCode, block: &[u32], message: &mut [u32], work: &mut [u32]) -> Answer {
        decode::decode(lent, block, message, work)
    }
    fn fold(lent: LentLevel, block: &[u32], challenge: u32, out: &mut [u32]) -> Answer {
        fold::fold(lent, block, challenge, out)
    }
    fn fill_roots(parameters: Parameters, g: &mut [u32], t: &mut [u32], t2: &mut [u32]) -> Answer {
        fill::fill_roots(parameters, g, t, t2)
    }
}

impl OpeningJobs for Reference {
    fn write_opening(
        lent: LentCode,
        message: &[u32],
        z: &[u32],
        r: &[u32],
        opening: &mut [u32],
        work: &mut [u32],
        value: &mut u32,
    ) -> Answer {
        opening::write_opening(lent, message, z, r, opening, work, value)
    }
    fn verify_opening(
        lent: LentCode,
        block: &[u32],
        z: &[u32],
        y: u32,
        r: &[u32],
        queries: &[u32],
        opening: &[u32],
    ) -> Answer {
        verify::verify_opening(lent, block, z, y, r, queries, opening)
    }
}
