//! Base messages of two words, on any implementation that is lent the parameter record. The code is
//! that of two rows, 1 0 1 1 and 0 1 1 2: a base message a, b has the codeword a, b, a + b, a + 2b.
//! Every word is written down by hand.

use super::{answer, FIELD, P};
use crate::answer::Answer;
use crate::jobs::{CodeJobs, GroundJobs, OpeningJobs};
use crate::lent::{LentCode, LentLevel};
use crate::parameters::Parameters;

const TWO: Parameters = Parameters {
    depth: 1,
    rate: 2,
    k0: 2,
};
const CODE: LentCode = LentCode {
    field: FIELD,
    parameters: TWO,
    g: &[1, 0, 1, 1, 0, 1, 1, 2],
    t: &[1, 2, 3, 4],
    t2: &[5, 6, 7, 8],
};
const DEPTH_0: LentCode = LentCode {
    parameters: Parameters { depth: 0, ..TWO },
    t: &[],
    t2: &[],
    ..CODE
};
/// f is 1 + 2 X_0 + 3 X_1 + 4 X_0 X_1.
const MESSAGE: [u32; 4] = [1, 2, 3, 4];
/// The halves' codewords are 1 2 3 5 and 3 4 7 11.
const BLOCK: [u32; 8] = [4, 10, 24, 49, 16, 26, 52, 93];

/// The record's depth and rate are no matter to tables, nor is its rate to evaluation.
pub fn ground<J: GroundJobs>() {
    let any = |k0| Parameters {
        depth: 77,
        rate: 77,
        k0,
    };
    let mut message = [77; 4];
    let done = J::table_to_coefficients(FIELD, any(4), &[1, 3, 4, 10], &mut message);
    assert_eq!((done, message), (Answer::DONE, MESSAGE));
    let (mut table, mut work) = ([77; 4], [77; 4]);
    let done = J::coefficients_to_table(FIELD, any(2), &MESSAGE, &mut table, &mut work);
    assert_eq!((done, table, work), (Answer::DONE, [1, 3, 4, 10], [0; 4]));
    let refused = J::table_to_coefficients(FIELD, any(4), &[1, 3], &mut [77; 2]);
    assert_eq!(refused, answer(1, 0, 0));
    let refused = J::table_to_coefficients(FIELD, any(3), &[1, 3], &mut [77; 3]);
    assert_eq!(refused, answer(13, 0, 0));

    let evaluate = |depth, k0, z: &[u32]| {
        let (mut value, rate) = (77, 77);
        let lent = Parameters { depth, rate, k0 };
        (J::evaluate(FIELD, lent, &MESSAGE, z, &mut value), value)
    };
    // 1 + 6 + 12 + 48
    assert_eq!(evaluate(2, 1, &[3, 4]), (Answer::DONE, 67));
    assert_eq!(evaluate(1, 2, &[3, 4]), (Answer::DONE, 67));
    assert_eq!(evaluate(0, 4, &[3, 4]), (Answer::DONE, 67));
    assert_eq!(evaluate(0, 4, &[3]), (answer(3, 0, 0), 77));
    assert_eq!(evaluate(0, 3, &[3]), (answer(13, 0, 0), 77));
}

/// Codeword, decoding, fold, and the rows that are refused.
pub fn code<J: CodeJobs>() {
    let encode = |code: LentCode| {
        let mut block = [77; 8];
        (J::encode(code, &MESSAGE, &mut block), block)
    };
    assert_eq!(encode(CODE), (Answer::DONE, BLOCK));
    let decode = |block: &[u32]| {
        let (mut message, mut work) = ([77; 4], [77; 8]);
        let done = J::decode(CODE, block, &mut message, &mut work);
        assert_eq!(work, [0; 8]);
        (done, message)
    };
    assert_eq!(decode(&BLOCK), (Answer::DONE, MESSAGE));
    for j in 0..8 {
        let mut block = BLOCK;
        block[j] += 1;
        assert_eq!(decode(&block), (answer(8, 0, 0), [77; 4]));
    }
    let level = LentLevel {
        field: FIELD,
        parameters: TWO,
        t: CODE.t,
        t2: CODE.t2,
    };
    let mut folded = [77; 4];
    let done = J::fold(level, &BLOCK, 2, &mut folded);
    assert_eq!((done, folded), (Answer::DONE, [7, 10, 17, 27]));

    // Rows 1 2 and 2 4 depend on each other, whatever follows them. A zero alone is no reason.
    let g = |g| encode(LentCode { g, ..CODE }).0;
    assert_eq!(g(&[1, 2, 1, 0, 2, 4, 0, 1]), answer(5, 0, 0));
    assert_eq!(g(&[0, 0, 1, 0, 0, 0, 0, 1]), answer(5, 0, 0));
    assert_eq!(g(&[0, 1, 0, 0, 1, 0, 0, 0]), Answer::DONE);
    assert_eq!(g(&[1, 2, 1, 0, 2, P, 0, P]), answer(4, 5, 1));
    let k0 = |k0| {
        let parameters = Parameters { k0, ..TWO };
        J::fill_roots(parameters, &mut [77; 8], &mut [77; 4], &mut [77; 4])
    };
    assert_eq!([0, 2, 3, 4].map(k0), [answer(13, 0, 0); 4]);
}

/// With z = 3, 4: f(0, X) and f(1, X) are 1 + 3X and 3 + 7X, eq has -2 and 3 for X_0 and 7X - 3 for X_1,
/// so that h is (7 + 15X)(7X - 3).
pub fn opening<J: OpeningJobs>() {
    let due = [P - 21, 88, 407, 7, 10, 7, 10, 17, 27];
    let (mut opening, mut work, mut y) = ([77; 9], [77; 8], 77);
    let done = J::write_opening(
        CODE,
        &MESSAGE,
        &[3, 4],
        &[2],
        &mut opening,
        &mut work,
        &mut y,
    );
    assert_eq!((done, opening, work, y), (Answer::DONE, due, [0; 8], 67));
    let verify = |y, opening: &[u32]| {
        let queries = [0, 1, 2, 3];
        J::verify_opening(CODE, &BLOCK, &[3, 4], y, &[2], &queries, opening)
    };
    assert_eq!(verify(67, &due), Answer::DONE);
    assert_eq!(verify(66, &due), answer(20, 1, 0));
    // With the weights -2 and 3 of X_0 the last sum counts v_0 once and v_1 three times: -3 and 1 leave
    // it as it is, and then the base finds them.
    let moved = |by: [u32; 2]| {
        let mut opening = due;
        (opening[3], opening[4]) = ((7 + by[0]) % P, (10 + by[1]) % P);
        verify(67, &opening)
    };
    assert_eq!(moved([1, 0]), answer(21, 0, 0));
    assert_eq!(moved([0, 1]), answer(21, 0, 0));
    assert_eq!(moved([P - 3, 1]), answer(22, 0, 0));
    for j in 0..4 {
        let mut opening = due;
        opening[5 + j] += 1;
        assert_eq!(verify(67, &opening), answer(22, j as u32, 0));
    }
    depth_0::<J>();
}

/// The opening is the message, and the commitment its base codeword.
fn depth_0<J: OpeningJobs>() {
    let (mut opening, mut work, mut y) = ([77; 2], [77; 4], 77);
    let done = J::write_opening(DEPTH_0, &[5, 7], &[3], &[], &mut opening, &mut work, &mut y);
    assert_eq!((done, opening, work, y), (Answer::DONE, [5, 7], [0; 4], 26));
    let verify =
        |y, block: [u32; 4]| J::verify_opening(DEPTH_0, &block, &[3], y, &[], &[], &opening);
    assert_eq!(verify(26, [5, 7, 12, 19]), Answer::DONE);
    assert_eq!(verify(25, [5, 7, 12, 19]), answer(21, 0, 0));
    assert_eq!(verify(26, [5, 7, 12, 18]), answer(22, 3, 0));
}
