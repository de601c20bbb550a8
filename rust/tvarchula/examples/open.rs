//! A planner commits to two clearances and opens one; a cell verifies it, reads it, and refuses another value.

use tvarchula::*;

fn main() -> Result<(), Box<dyn std::error::Error>> {
    // Planner and cell agree on the field and the code: depth, rate, base row, two diagonals.
    let field = Field::Mersenne31;
    let code = Code::new(field, 1, 2, &[1, 1], &[2, 3], &[2147483645, 2147483644]);

    // Planner: a table of two clearances, its coefficients, the commitment.
    let message = table_to_coefficients_vec(field, &[1250, -300])?;
    let commitment = encode_vec(&code, &message)?;

    // Entry 1 is opened at the corner [1], under the challenge r that the cell drew.
    let (z, r) = ([1], [77]);
    let (opening, y) = write_opening_vec(&code, &message, &Question { z: &z, r: &r })?;

    // Cell: draws places, verifies, and only then reads. Anything but accepted is an `Err`.
    let claim = Claim {
        z: &z,
        y,
        r: &r,
        queries: &[0, 1],
    };
    verify_opening(&code, &commitment, &claim, &opening)?;
    println!("entry 1 accepted: {}", read_clearance(field, y)?);

    // The other entry's clearance instead.
    let forged = Claim { y: 1250, ..claim };
    let error = verify_opening(&code, &commitment, &forged, &opening).unwrap_err();
    println!("1250 instead: {error}");
    Ok(())
}
