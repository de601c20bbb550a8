//! The order's numbers to try, each as it is printed there, as checks on any implementation of the
//! jobs. They panic where a number is not met.

mod blocks;
mod deep;
mod places;
mod queries;
mod second;

use crate::answer::{Answer, Reading};
use crate::field::Field;
use crate::jobs::{CodeJobs, GroundJobs, OpeningJobs};
use crate::lent::{LentCode, LentLevel};
use crate::parameters::Parameters;

const FIELD: Field = Field::First;
const P: u32 = 2_147_483_647;
const CODE: LentCode = LentCode {
    field: FIELD,
    parameters: Parameters::one(1, 2),
    g: &[1, 1],
    t: &[2, 3],
    t2: &[2_147_483_645, 2_147_483_644],
};
const DEPTH_0: LentCode = LentCode {
    field: FIELD,
    parameters: Parameters::one(0, 2),
    t: &[],
    t2: &[],
    ..CODE
};
/// Depth and rate are of no matter to tables, nor is the rate to evaluation.
const ANY: Parameters = Parameters::one(u32::MAX, u32::MAX);
const BLOCK: [u32; 4] = [19, 26, 2_147_483_638, 2_147_483_631];
const OPENING: [u32; 6] = [2_147_483_637, 36, 152, 33, 33, 33];

/// A record for evaluation.
fn at(depth: u32) -> Parameters {
    Parameters { depth, ..ANY }
}

fn answer(number: u32, first: u32, second: u32) -> Answer {
    Answer {
        number,
        first,
        second,
    }
}

/// One level of the diagonals at rate 2.
fn level<'a>(field: Field, level: u32, t: &'a [u32], t2: &'a [u32]) -> LentLevel<'a> {
    LentLevel {
        field,
        parameters: Parameters::one(level, 2),
        t,
        t2,
    }
}

/// A reading that is not refused.
fn read(kind: u32, amount: u32) -> Reading {
    Reading {
        answer: Answer::DONE,
        kind,
        amount,
    }
}

/// Clearances and tables.
pub fn ground<J: GroundJobs>() {
    let mut one = [77];
    let done = J::table_to_coefficients(FIELD, ANY, &[-1], &mut one);
    assert_eq!((done, one), (Answer::DONE, [2_147_483_646]));
    for (word, due) in [
        (0, read(3, 0)),
        (1, read(1, 1)),
        (2_147_483_646, read(2, 1)),
        (1_073_741_823, read(1, 1_073_741_823)),
        (1_073_741_824, read(2, 1_073_741_823)),
    ] {
        assert_eq!(J::read_clearance(FIELD, word), due, "word {word}");
    }
    let (mut table, mut work) = ([77], [77]);
    let done = J::coefficients_to_table(FIELD, ANY, &[1_073_741_824], &mut table, &mut work);
    assert_eq!((done, table, work), (Answer::DONE, [-1_073_741_823], [0]));
    let mut one = [77];
    let refused = J::table_to_coefficients(FIELD, ANY, &[1_073_741_824], &mut one);
    assert_eq!((refused, one), (answer(9, 0, 0), [77]));

    let mut message = [77; 4];
    let done = J::table_to_coefficients(FIELD, ANY, &[3, 5, 4, 10], &mut message);
    assert_eq!((done, message), (Answer::DONE, [3, 2, 1, 4]));
    let (mut table, mut work) = ([77; 4], [77; 4]);
    let done = J::coefficients_to_table(FIELD, ANY, &message, &mut table, &mut work);
    assert_eq!((done, table, work), (Answer::DONE, [3, 5, 4, 10], [0; 4]));
    let mut three = [77; 3];
    let refused = J::table_to_coefficients(FIELD, ANY, &[1, 2, 3], &mut three);
    assert_eq!((refused, three), (answer(1, 0, 0), [77; 3]));
    assert_eq!(
        J::table_to_coefficients(FIELD, ANY, &[], &mut []),
        answer(1, 0, 0)
    );

    let mut value = 77;
    assert_eq!(
        J::evaluate(FIELD, at(1), &[5, 7], &[3], &mut value),
        Answer::DONE
    );
    assert_eq!(value, 26);
    assert_eq!(
        J::evaluate(FIELD, at(1), &[5, 7], &[P], &mut value),
        answer(4, 0, 5)
    );
    assert_eq!(
        J::evaluate(FIELD, at(17), &[5, 7], &[3], &mut value),
        answer(3, 0, 0)
    );
    assert_eq!(
        J::evaluate(FIELD, at(21), &[5, 7], &[3], &mut value),
        answer(1, 0, 0)
    );
    assert_eq!(value, 26);
    places::ground::<J>();
    deep::ground::<J>();
    second::ground::<J>();
    blocks::ground::<J>();
}

/// Codeword, decoding, fold, and the edges of the refusals.
pub fn code<J: CodeJobs>() {
    let encode = |code: LentCode, message: &[u32]| {
        let mut block = [77; 4];
        (J::encode(code, message, &mut block), block)
    };
    assert_eq!(encode(CODE, &[5, 7]), (Answer::DONE, BLOCK));
    let (mut message, mut work) = ([77; 2], [77; 4]);
    let done = J::decode(CODE, &BLOCK, &mut message, &mut work);
    assert_eq!((done, message, work), (Answer::DONE, [5, 7], [0; 4]));
    let damaged = [BLOCK[0], BLOCK[1], BLOCK[2], 2_147_483_632];
    let (mut message, mut work) = ([77; 2], [77; 4]);
    let refused = J::decode(CODE, &damaged, &mut message, &mut work);
    assert_eq!((refused, message, work), (answer(8, 0, 0), [77; 2], [0; 4]));
    let mut out = [77; 2];
    let done = J::fold(level(FIELD, 1, CODE.t, CODE.t2), &BLOCK, 4, &mut out);
    assert_eq!((done, out), (Answer::DONE, [33, 33]));
    let mut block = [77; 2];
    let done = J::encode(DEPTH_0, &[9], &mut block);
    assert_eq!((done, block), (Answer::DONE, [9, 9]));

    assert_eq!(encode(CODE, &[5, P - 1]).0, Answer::DONE);
    assert_eq!(encode(CODE, &[5, P]), (answer(4, 1, 4), [77; 4]));
    let refused = |code| encode(code, &[5, 7]);
    let left = |number| (Answer::plain(number), [77; 4]);
    assert_eq!(
        refused(LentCode {
            parameters: Parameters::one(17, 2),
            ..CODE
        }),
        left(3)
    );
    assert_eq!(
        refused(LentCode {
            parameters: Parameters::one(21, 2),
            ..CODE
        }),
        left(1)
    );
    assert_eq!(
        refused(LentCode {
            parameters: Parameters::one(1, 1),
            ..CODE
        }),
        left(2)
    );
    assert_eq!(
        refused(LentCode {
            parameters: Parameters::one(1, 17),
            ..CODE
        }),
        left(2)
    );
    let zero_and_pair = LentCode {
        g: &[1, 0],
        t2: &[2_147_483_645, 3],
        ..CODE
    };
    assert_eq!(refused(zero_and_pair), (answer(5, 1, 0), [77; 4]));
    let pair = LentCode {
        g: CODE.g,
        ..zero_and_pair
    };
    assert_eq!(refused(pair), (answer(6, 1, 0), [77; 4]));
    places::code::<J>();
    deep::code::<J>();
    second::code::<J>();
    blocks::code::<J>();
}

/// Openings and verdicts.
pub fn opening<J: OpeningJobs>() {
    let write = |z: &[u32], r: &[u32]| {
        let (mut opening, mut work, mut value) = ([77; 6], [77; 4], 77);
        let done = J::write_opening(CODE, &[5, 7], z, r, &mut opening, &mut work, &mut value);
        assert_eq!((done, work), (Answer::DONE, [0; 4]));
        (opening, value)
    };
    let verify = |z: u32, y: u32, r: u32, queries: &[u32], opening: &[u32]| {
        J::verify_opening(CODE, &BLOCK, &[z], y, &[r], queries, opening)
    };
    assert_eq!(write(&[3], &[4]), (OPENING, 26));
    assert_eq!(verify(3, 26, 4, &[0, 1], &OPENING), Answer::DONE);
    assert_eq!(verify(3, 27, 4, &[0, 1], &OPENING), answer(20, 1, 0));
    assert_eq!(verify(3, 26, 4, &[1], &OPENING), Answer::DONE);
    assert_eq!(verify(3, 26, 4, &[2], &OPENING), answer(7, 0, 0));

    // Here eq is 0: the final check says nothing about v, the folds still decide.
    let (mut opening, value) = write(&[0], &[1]);
    assert_eq!((opening, value), ([5, 0, 2_147_483_628, 12, 12, 12], 5));
    assert_eq!(verify(0, 5, 1, &[0], &opening), Answer::DONE);
    opening[3..].fill(13);
    assert_eq!(verify(0, 5, 1, &[0], &opening), answer(23, 0, 0));

    let (mut opening, mut work, mut value) = ([77], [77; 2], 77);
    let done = J::write_opening(DEPTH_0, &[9], &[], &[], &mut opening, &mut work, &mut value);
    assert_eq!((done, opening, work, value), (Answer::DONE, [9], [0; 2], 9));
    let verify =
        |y, queries: &[u32]| J::verify_opening(DEPTH_0, &[9, 9], &[], y, &[], queries, &opening);
    assert_eq!(verify(9, &[]), Answer::DONE);
    assert_eq!(verify(8, &[]), answer(21, 0, 0));
    assert_eq!(verify(9, &[0]), answer(7, 0, 0));
    second_half::<J>();
    places::opening::<J>();
    queries::opening::<J>();
    deep::opening::<J>();
    second::opening::<J>();
    blocks::opening::<J>();
}

/// At d = 2, c = 2 query 2 must go on at 0: an honest opening is accepted there, and a wrong word
/// at place 0 of block 1 is found through it.
fn second_half<J: OpeningJobs>() {
    let code = LentCode {
        field: FIELD,
        parameters: Parameters::one(2, 2),
        g: &[1, 1],
        t: &[2, 3, 4, 5, 6, 7],
        t2: &[8, 9, 10, 11, 12, 13],
    };
    // The codeword of [5, 7, 11, 13], level by level by hand: left [19, 26, 61, 68] and right
    // [37, 50, 115, 128], then left + [4, 5, 6, 7] * right and left + [10, 11, 12, 13] * right.
    let block = [167, 276, 751, 964, 389, 576, 1441, 1732];
    let (z, r) = ([3, 4], [5, 6]);
    let (mut opening, mut work, mut value) = ([77; 13], [77; 8], 77);
    let message = [5, 7, 11, 13];
    let done = J::write_opening(code, &message, &z, &r, &mut opening, &mut work, &mut value);
    // f(3, 4) = 5 + 7*3 + 11*4 + 13*12
    assert_eq!((done, value), (Answer::DONE, 226));
    let verdict =
        |query, opening: &[u32]| J::verify_opening(code, &block, &z, value, &r, &[query], opening);
    assert_eq!(verdict(2, &opening), Answer::DONE);
    // Words 7 to 10 are block 1. Its place 0 is not on the path of query 3, but on that of query 2.
    opening[7] += 1;
    assert_eq!(verdict(3, &opening), Answer::DONE);
    assert_eq!(verdict(2, &opening), answer(23, 0, 0));
    assert_eq!(verdict(0, &opening), answer(23, 0, 1));
}
