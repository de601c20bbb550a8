//! A planner commits to the clearances of eight pallet layouts; a cell asks for three of them, checks
//! each answer against the commitment, and passes only what is free. It is not taken in by two other
//! answers. First over the first field, with a code drawn from a seed; then over the second, with a
//! code of roots of unity that nobody draws.
//!
//! `cargo run -p tvarchula --example pallet`

mod toy;

use std::error::Error;
use toy::{corner, Toy};
use tvarchula::*;

const DEPTH: u32 = 3; // 2^3 entries
const RATE: u32 = 4;

/// How far the nearest parcels are apart in each layout, in micrometres: zero is contact, negative is
/// an overlap.
const CLEARANCES: [i32; 8] = [1250, 400, 87, 2100, 960, -300, 0, 733];

/// What the cell asks: a layout's corner, with challenges and places that it draws for this question.
struct Asked {
    z: Vec<u32>,
    r: Vec<u32>,
    queries: Vec<u32>,
}

impl Asked {
    fn draw(field: Field, layout: u32, drawn: &mut Toy) -> Asked {
        println!("cell     asks for layout {layout}");
        Asked {
            z: corner(layout, DEPTH),
            r: drawn.list(DEPTH as usize, field.modulus()),
            queries: drawn.places(8, block_len(DEPTH - 1, RATE) as u32),
        }
    }

    fn question(&self) -> Question<'_> {
        let (z, r) = (&self.z, &self.r);
        Question { z, r }
    }

    fn claim(&self, y: u32) -> Claim<'_> {
        let (z, r, queries) = (&self.z, &self.r, &self.queries);
        Claim { z, y, r, queries }
    }
}

fn main() -> Result<(), Box<dyn Error>> {
    // The row and the diagonals: both sides make them from one seed.
    let row = Toy(2024).row(Field::Mersenne31, DEPTH, RATE);
    planner_and_cell(&row.code())?;

    // Both sides fill them by the same rule.
    println!();
    let roots = Roots::new(DEPTH, RATE)?;
    planner_and_cell(&roots.code())
}

fn planner_and_cell(code: &Code<'_>) -> Result<(), Box<dyn Error>> {
    // Planner: the table as a polynomial, and its codeword as the commitment.
    let field = code.field;
    let message = table_to_coefficients_vec(field, &CLEARANCES)?;
    let commitment = encode_vec(code, &message)?;
    println!("both     agree on {field}");
    println!("planner  clearances in micrometres: {CLEARANCES:?}");
    println!("planner  commits to them in {} words", commitment.len());

    let mut drawn = Toy(7);
    let mut answer = |layout: u32| -> Result<(Asked, Vec<u32>), Box<dyn Error>> {
        let asked = Asked::draw(field, layout, &mut drawn);
        // Planner: opens the entry at its corner.
        let (opening, value) = write_opening_vec(code, &message, &asked.question())?;
        let words = opening.len();
        println!("planner  claims {value} and sends an opening of {words} words");
        // Cell: reads the value only once the opening is accepted, and passes only what is free.
        verify_opening(code, &commitment, &asked.claim(value), &opening)?;
        let reading = read_clearance(field, value)?;
        let does = if reading.is_free() { "passes" } else { "stops" };
        println!("cell     accepted, and {does}: {reading}");
        Ok((asked, opening))
    };
    answer(7)?;
    answer(6)?;
    let (asked, opening) = answer(5)?;

    // A planner that claims another entry's clearance.
    let swapped = CLEARANCES[3] as u32;
    println!("planner  claims {swapped} instead, the clearance of layout 3");
    let verdict = verify_opening(code, &commitment, &asked.claim(swapped), &opening);
    println!("cell     {}", verdict.unwrap_err());

    // A planner that swaps two entries after the commitment and opens the new table honestly.
    let mut table = CLEARANCES;
    table.swap(3, 5);
    let message = table_to_coefficients_vec(field, &table)?;
    let (opening, value) = write_opening_vec(code, &message, &asked.question())?;
    println!("planner  swaps layouts 3 and 5 and opens that table: {value}");
    let verdict = verify_opening(code, &commitment, &asked.claim(value), &opening);
    println!("cell     {}", verdict.unwrap_err());
    Ok(())
}
