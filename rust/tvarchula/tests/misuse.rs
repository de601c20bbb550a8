//! What users of other verification crates write: none of it accepts a value that is not shown.

use std::error::Error;
use tvarchula::*;

const FIELD: Field = Field::Mersenne31;
const P: u32 = 2_147_483_647;
const CODE: Code<'static> = Code::new(
    FIELD,
    1,
    2,
    &[1, 1],
    &[2, 3],
    &[2_147_483_645, 2_147_483_644],
);
const BLOCK: [u32; 4] = [19, 26, 2_147_483_638, 2_147_483_631];
const OPENING: [u32; 6] = [2_147_483_637, 36, 152, 33, 33, 33];
const CLAIM: Claim<'static> = Claim {
    z: &[3],
    y: 26,
    r: &[4],
    queries: &[0, 1],
};

fn verified(claim: &Claim<'_>) -> Result<(), VerifyError> {
    verify_opening(&CODE, &BLOCK, claim, &OPENING)
}

/// As a cell writes it.
fn entry(claim: &Claim<'_>) -> Result<Reading, Box<dyn Error>> {
    verified(claim)?;
    Ok(read_clearance(FIELD, claim.y)?)
}

#[test]
fn a_forged_value_is_an_error() {
    assert!(verified(&CLAIM).is_ok());
    assert_eq!(entry(&CLAIM).unwrap(), Reading::Free(26));
    for y in [0, 25, 27, P - 1] {
        let forged = Claim { y, ..CLAIM };
        assert!(verified(&forged).is_err());
        let rejected = VerifyError::Rejected(Failure::Sum(1));
        assert_eq!(verified(&forged), Err(rejected));
        assert_eq!(rejected.number(), 20);
        let error = entry(&forged).unwrap_err();
        assert!(error.to_string().starts_with("rejected: round 1"));
    }
}

#[test]
#[should_panic(expected = "Rejected(Sum(1))")]
fn a_forged_value_is_not_expected() {
    verified(&Claim { y: 27, ..CLAIM }).expect("the opening shows the value");
}

#[test]
fn a_refusal_is_an_error_too() {
    let refused = |claim| {
        let error = verified(&claim).unwrap_err();
        assert!(error.to_string().starts_with("refused: "));
        error
    };
    let no_queries = Claim {
        queries: &[],
        ..CLAIM
    };
    let refusal = VerifyError::Refused(Refusal::Queries);
    assert_eq!(refused(no_queries), refusal);
    let repeated = Claim {
        queries: &[1, 1],
        ..CLAIM
    };
    let refusal = VerifyError::Refused(Refusal::Repeated);
    assert_eq!(refused(repeated), refusal);
    assert_eq!(refusal.number(), 11);
    let no_residue = Claim { y: P, ..CLAIM };
    let refusal = VerifyError::Refused(Refusal::Word {
        field: FIELD,
        input: Input::Y,
        index: 0,
        word: P,
    });
    assert_eq!(refused(no_residue), refusal);
    assert_eq!(refusal.number(), 4);
    let sentence = "refused: word 0 of y is 2147483647, not below 2147483647";
    assert_eq!(refusal.to_string(), sentence);
}

#[test]
fn z_and_r_in_each_others_place() {
    let swapped = Claim {
        z: CLAIM.r,
        r: CLAIM.z,
        ..CLAIM
    };
    assert!(verified(&swapped).is_err());
}

/// One side thinks of the other field: nothing that is not shown is accepted. A word that only the
/// first field has is refused; without one, the checks of the other field fail.
#[test]
fn the_other_field() {
    let mut code = CODE;
    code.field = Field::BabyBear;
    let refused = Refusal::Word {
        field: Field::BabyBear,
        input: Input::T2,
        index: 0,
        word: 2_147_483_645,
    };
    let verdict = verify_opening(&code, &BLOCK, &CLAIM, &OPENING);
    assert_eq!(verdict, Err(VerifyError::Refused(refused)));

    // The first two words of this opening sum to 26 in the first field only.
    code.t2 = &[5, 7];
    let block = [19, 26, 40, 54];
    let opening = [2_000_000_000, 147_483_673, 152, 33, 33, 33];
    let rejected = Err(VerifyError::Rejected(Failure::Sum(1)));
    assert_eq!(verify_opening(&code, &block, &CLAIM, &opening), rejected);
    code.field = FIELD;
    let rejected = Err(VerifyError::Rejected(Failure::Final));
    assert_eq!(verify_opening(&code, &block, &CLAIM, &opening), rejected);

    // A reading is of a field too.
    assert_eq!(read_clearance(FIELD, P - 300), Ok(Reading::Overlap(300)));
    assert!(read_clearance(Field::BabyBear, P - 300).is_err());
}
