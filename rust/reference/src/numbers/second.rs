//! Numbers of the second field and of filling it, computed outside with plain integers.

use super::{answer, at, level, read, ANY};
use crate::answer::{Answer, Reading};
use crate::field::Field;
use crate::jobs::{CodeJobs, GroundJobs, OpeningJobs};
use crate::lent::LentCode;
use crate::parameters::Parameters;

const FIELD: Field = Field::Second;
const P: u32 = 2_013_265_921;
/// The code of the first field's numbers, with -2 and -3 of this one.
const CODE: LentCode = LentCode {
    field: FIELD,
    parameters: Parameters::one(1, 2),
    g: &[1, 1],
    t: &[2, 3],
    t2: &[2_013_265_919, 2_013_265_918],
};
const BLOCK: [u32; 4] = [19, 26, 2_013_265_912, 2_013_265_905];
const OPENING: [u32; 6] = [2_013_265_911, 36, 152, 33, 33, 33];
/// Words near the ends and the halves of both fields.
const LARGE: LentCode = LentCode {
    g: &[1_006_632_961, 2_013_265_920],
    t: &[2_013_265_920, 1_073_741_824],
    t2: &[1_006_632_960, 1_073_741_823],
    ..CODE
};
const LARGE_MESSAGE: [u32; 2] = [2_013_265_919, 1_006_632_961];
const LARGE_BLOCK: [u32; 4] = [503_316_479, 1_476_395_011, 251_658_239, 469_762_051];
/// Depth 2 and rate 2, filled: the roots of order 4 and 8 are 1728404513 and 1592366214.
const FILLED: LentCode = LentCode {
    parameters: Parameters::one(2, 2),
    t: &[
        1,
        1_728_404_513,
        1,
        1_592_366_214,
        1_728_404_513,
        211_723_194,
    ],
    t2: &[
        2_013_265_920,
        284_861_408,
        2_013_265_920,
        420_899_707,
        284_861_408,
        1_801_542_727,
    ],
    ..CODE
};
const FILLED_BLOCK: [u32; 8] = [
    36,
    155_006_736,
    569_722_814,
    864_554_725,
    2_013_265_909,
    1_896_731_325,
    1_443_543_103,
    1_110_239_076,
];

/// Clearances, tables and values.
pub fn ground<J: GroundJobs>() {
    for (word, due) in [
        (0, read(3, 0)),
        (1, read(1, 1)),
        (2_013_265_920, read(2, 1)),
        (1_006_632_960, read(1, 1_006_632_960)),
        (1_006_632_961, read(2, 1_006_632_960)),
        (1_073_741_823, read(2, 939_524_098)),
    ] {
        assert_eq!(J::read_clearance(FIELD, word), due, "word {word}");
    }
    for word in [P, P + 1, 2_147_483_646, 2_147_483_647, u32::MAX] {
        let refused = Reading {
            answer: answer(4, 0, 4),
            kind: 0,
            amount: 0,
        };
        assert_eq!(J::read_clearance(FIELD, word), refused);
    }
    // In the first field these are residues, and other clearances.
    let first = |word| J::read_clearance(Field::First, word);
    assert_eq!(first(P), read(2, 134_217_726));
    assert_eq!(first(1_006_632_961), read(1, 1_006_632_961));

    let coefficients = |table: [i32; 4]| {
        let mut message = [77; 4];
        (
            J::table_to_coefficients(FIELD, ANY, &table, &mut message),
            message,
        )
    };
    assert_eq!(coefficients([3, 5, 4, 10]), (Answer::DONE, [3, 2, 1, 4]));
    let table = [-1_006_632_960, 1_006_632_960, -1, 1_000_000_000];
    let message = [1_006_632_961, 2_013_265_920, 1_006_632_959, 1_000_000_002];
    assert_eq!(coefficients(table), (Answer::DONE, message));
    let (mut back, mut work) = ([77; 4], [77; 4]);
    let done = J::coefficients_to_table(FIELD, ANY, &message, &mut back, &mut work);
    assert_eq!((done, back, work), (Answer::DONE, table, [0; 4]));
    for clearance in [1_006_632_961, -1_006_632_961, 1_073_741_823, -1_073_741_823] {
        let refused = coefficients([3, 5, clearance, 10]);
        assert_eq!(refused, (answer(9, 0, 0), [77; 4]));
        let mut message = [77];
        let done = J::table_to_coefficients(Field::First, ANY, &[clearance], &mut message);
        assert_eq!(done, Answer::DONE);
    }

    let evaluate = |message: &[u32], z: &[u32]| {
        let mut value = 77;
        (
            J::evaluate(FIELD, at(z.len() as u32), message, z, &mut value),
            value,
        )
    };
    assert_eq!(evaluate(&[5, 7], &[3]), (Answer::DONE, 26));
    let message = [2_013_265_920, 2_147_483, 1_006_632_961, 1_073_741_824];
    let value = evaluate(&message, &[2_013_265_919, 1_073_741_824]);
    assert_eq!(value, (Answer::DONE, 1_141_029_645));
    assert_eq!(evaluate(&[5, 7], &[P]), (answer(4, 0, 5), 77));
    assert_eq!(evaluate(&[5, 2_147_483_646], &[3]), (answer(4, 1, 4), 77));
}

/// Codewords, decoding, folds, and filling.
pub fn code<J: CodeJobs>() {
    let encode = |code: LentCode, message: &[u32]| {
        let mut block = vec![77; message.len() * 2];
        (J::encode(code, message, &mut block), block)
    };
    let done = |block: &[u32]| (Answer::DONE, block.to_vec());
    assert_eq!(encode(CODE, &[5, 7]), done(&BLOCK));
    assert_eq!(encode(LARGE, &LARGE_MESSAGE), done(&LARGE_BLOCK));
    assert_eq!(encode(FILLED, &[5, 7, 11, 13]), done(&FILLED_BLOCK));
    for word in [P, 2_147_483_646] {
        assert_eq!(encode(CODE, &[5, word]).0, answer(4, 1, 4));
        let g = &[1, word];
        assert_eq!(encode(LentCode { g, ..CODE }, &[5, 7]).0, answer(4, 1, 1));
    }
    let decode = |code: LentCode, block: &[u32]| {
        let (mut message, mut work) = (vec![77; block.len() / 2], vec![77; block.len()]);
        let answer = J::decode(code, block, &mut message, &mut work);
        assert_eq!(work, vec![0; block.len()]);
        (answer, message)
    };
    assert_eq!(decode(CODE, &BLOCK), done(&[5, 7]));
    assert_eq!(decode(LARGE, &LARGE_BLOCK), done(&LARGE_MESSAGE));
    assert_eq!(decode(FILLED, &FILLED_BLOCK), done(&[5, 7, 11, 13]));
    let damaged = [BLOCK[0], BLOCK[1], BLOCK[2], BLOCK[3] + 1];
    assert_eq!(decode(CODE, &damaged), (answer(8, 0, 0), vec![77; 2]));

    let fold = |code: LentCode, block: &[u32], challenge| {
        let mut out = [77; 2];
        let answer = J::fold(level(FIELD, 1, code.t, code.t2), block, challenge, &mut out);
        (answer, out)
    };
    assert_eq!(fold(CODE, &BLOCK, 4), (Answer::DONE, [33, 33]));
    let folded = fold(LARGE, &LARGE_BLOCK, 2_013_265_918);
    assert_eq!(folded, (Answer::DONE, [1_509_949_439, 1_006_632_964]));
    assert_eq!(fold(CODE, &BLOCK, P), (answer(4, 0, 7), [77; 2]));
    filling::<J>();
}

/// Openings and verdicts.
pub fn opening<J: OpeningJobs>() {
    let write = |z: u32, r: u32| {
        let (mut opening, mut work, mut value) = ([77; 6], [77; 4], 77);
        let (opened, used) = (&mut opening, &mut work);
        let done = J::write_opening(CODE, &[5, 7], &[z], &[r], opened, used, &mut value);
        assert_eq!((done, work), (Answer::DONE, [0; 4]));
        (opening, value)
    };
    assert_eq!(write(3, 4), (OPENING, 26));
    assert_eq!(write(0, 1), ([5, 0, 2_013_265_902, 12, 12, 12], 5));
    let verify = |y, queries: &[u32], opening: &[u32]| {
        J::verify_opening(CODE, &BLOCK, &[3], y, &[4], queries, opening)
    };
    assert_eq!(verify(26, &[0, 1], &OPENING), Answer::DONE);
    assert_eq!(verify(27, &[0, 1], &OPENING), answer(20, 1, 0));
    assert_eq!(verify(26 + P, &[0, 1], &OPENING), answer(4, 0, 6));
    assert_eq!(verify(26, &[2], &OPENING), answer(7, 0, 0));
    assert_eq!(verify(26, &[1, 1], &OPENING), answer(11, 0, 0));
    let with = |place: usize, word| {
        let mut opening = OPENING;
        opening[place] = word;
        verify(26, &[0, 1], &opening)
    };
    assert_eq!(with(2, 153), answer(21, 0, 0));
    assert_eq!(with(3, 34), answer(21, 0, 0));
    assert_eq!(with(5, 34), answer(22, 1, 0));
    assert_eq!(with(0, 2_147_483_637), answer(4, 0, 8));
    // -10 of the first field is no residue here; there -10 of the second is one, but no h_1(0).
    let first = LentCode {
        field: Field::First,
        ..CODE
    };
    let verdict = J::verify_opening(first, &BLOCK, &[3], 26, &[4], &[0], &OPENING);
    assert_eq!(verdict, answer(20, 1, 0));

    let (mut opening, mut work, mut value) = ([77; 13], [77; 8], 77);
    let (message, z, r) = ([5, 7, 11, 13], [3, 4], [5, 6]);
    let done = J::write_opening(
        FILLED,
        &message,
        &z,
        &r,
        &mut opening,
        &mut work,
        &mut value,
    );
    assert_eq!((done, value), (Answer::DONE, 226));
    let rounds = [2_013_265_843, 304, 1386, 2_013_260_383, 18_252, 75_192];
    assert_eq!(opening[..6], rounds);
    let blocks = [496, 156, 1_959_237_364, 2_013_265_907, 54_028_699, 496, 496];
    assert_eq!(opening[6..], blocks);
    let verdict = |queries: &[u32], opening: &[u32]| {
        J::verify_opening(FILLED, &FILLED_BLOCK, &z, 226, &r, queries, opening)
    };
    assert_eq!(verdict(&[3, 0, 2, 1], &opening), Answer::DONE);
    // Place 1 of block 1: query 3 reads it on its way to level 0, query 1 finds it wrong itself.
    opening[8] += 1;
    assert_eq!(verdict(&[3], &opening), answer(23, 0, 0));
    assert_eq!(verdict(&[0, 2, 1], &opening), answer(23, 2, 1));
}

/// What is filled, and 1, 2, 3 and 12 in this order; nothing is written then.
fn filling<J: CodeJobs>() {
    let fill = |depth, rate, lengths: [usize; 3]| {
        let mut rows = lengths.map(|length| vec![u32::MAX; length]);
        let [g, t, t2] = &mut rows;
        let answer = J::fill_roots(Parameters::one(depth, rate), g, t, t2);
        let untouched = rows.iter().flatten().all(|&word| word == u32::MAX);
        assert!(answer.number == 0 || untouched);
        (answer, rows)
    };
    let filled = |g: &[u32], t: &[u32], t2: &[u32]| (Answer::DONE, [g, t, t2].map(<[u32]>::to_vec));
    assert_eq!(fill(2, 2, [2, 6, 6]), filled(&[1, 1], FILLED.t, FILLED.t2));
    assert_eq!(fill(0, 2, [2, 0, 0]), filled(&[1, 1], &[], &[]));
    assert_eq!(fill(0, 16, [16, 0, 0]), filled(&[1; 16], &[], &[]));
    let t = [1, 1_592_366_214, 1_728_404_513, 211_723_194];
    let t2 = [2_013_265_920, 420_899_707, 284_861_408, 1_801_542_727];
    assert_eq!(fill(1, 4, [4, 4, 4]), filled(&[1; 4], &t, &t2));
    let refused = |depth, rate, lengths| fill(depth, rate, lengths).0;
    for depth in [21, 32, u32::MAX] {
        assert_eq!(refused(depth, 2, [2, 6, 6]), answer(1, 0, 0));
        assert_eq!(refused(depth, 17, [2, 6, 6]), answer(1, 0, 0));
    }
    assert_eq!(refused(21, 3, [3, 9, 9]), answer(1, 0, 0));
    for rate in [0, 1, 17, 32, u32::MAX] {
        assert_eq!(refused(2, rate, [2, 6, 6]), answer(2, 0, 0));
    }
    assert_eq!(refused(2, 1, [1, 3, 3]), answer(2, 0, 0));
    for lengths in [
        [1, 6, 6],
        [3, 6, 6],
        [2, 5, 6],
        [2, 7, 6],
        [2, 6, 5],
        [2, 6, 7],
        [0; 3],
    ] {
        assert_eq!(refused(2, 2, lengths), answer(3, 0, 0));
        assert_eq!(refused(2, 3, lengths), answer(3, 0, 0));
    }
    assert_eq!(refused(20, 2, [2, 6, 6]), answer(3, 0, 0));
    for rate in [3, 5, 6, 7, 9, 10, 11, 12, 13, 14, 15] {
        let words = rate as usize;
        assert_eq!(refused(0, rate, [words, 0, 0]), answer(12, 0, 0));
        assert_eq!(refused(1, rate, [words; 3]), answer(12, 0, 0));
    }
}
