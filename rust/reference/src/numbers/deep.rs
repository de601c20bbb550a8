//! Depth 17, which is done, depth 20, the largest, and 21, which is 1.
//!
//! The message 9 0 0 .. is the polynomial 9: so are its values, the entries of its table, the words of
//! its codeword, and every fold of that.

use super::{answer, at, level, ANY, FIELD, P};
use crate::answer::Answer;
use crate::jobs::{CodeJobs, GroundJobs, OpeningJobs};
use crate::lent::LentCode;
use crate::parameters::Parameters;

const LEGAL: [usize; 2] = [17, 20];

pub fn message(depth: usize) -> Vec<u32> {
    let mut message = vec![0; 1 << depth];
    message[0] = 9;
    message
}

/// Rate 2, with words that are legal in every place.
pub struct Row([Vec<u32>; 2]);

impl Row {
    pub fn new(depth: usize) -> Row {
        let length = 2 * ((1 << depth) - 1);
        Row([vec![2; length], vec![3; length]])
    }

    pub fn code(&self, depth: usize) -> LentCode<'_> {
        let [t, t2] = &self.0;
        LentCode {
            field: FIELD,
            parameters: Parameters::one(depth as u32, 2),
            g: &[1, 1],
            t,
            t2,
        }
    }
}

pub fn ground<J: GroundJobs>() {
    for depth in LEGAL {
        let entries = vec![9; 1 << depth];
        let mut written = vec![77; 1 << depth];
        let done = J::table_to_coefficients(FIELD, ANY, &entries, &mut written);
        assert_eq!((done, written), (Answer::DONE, message(depth)));
        let (mut table, mut work) = (vec![77; 1 << depth], vec![77; 1 << depth]);
        let done = J::coefficients_to_table(FIELD, ANY, &message(depth), &mut table, &mut work);
        assert_eq!((done, table), (Answer::DONE, entries));
        assert!(work.iter().all(|&word| word == 0));
        // 9 + 7 X, where X is the last variable.
        let mut line = message(depth);
        line[1 << (depth - 1)] = 7;
        let mut value = 77;
        let done = J::evaluate(FIELD, at(depth as u32), &line, &vec![3; depth], &mut value);
        assert_eq!((done, value), (Answer::DONE, 30));
    }
    let mut long = vec![77; 1 << 21];
    let refused = J::table_to_coefficients(FIELD, ANY, &vec![9; 1 << 21], &mut long);
    assert_eq!(refused, answer(1, 0, 0));
    assert!(long.iter().all(|&word| word == 77));
    let mut value = 77;
    let refused = J::evaluate(FIELD, at(21), &message(21), &[3; 21], &mut value);
    assert_eq!((refused, value), (answer(1, 0, 0), 77));
}

pub fn code<J: CodeJobs>() {
    for depth in LEGAL {
        let (row, words) = (Row::new(depth), 2 << depth);
        let mut block = vec![77; words];
        let done = J::encode(row.code(depth), &message(depth), &mut block);
        assert_eq!((done, &block), (Answer::DONE, &vec![9; words]));
        let (mut decoded, mut work) = (vec![77; 1 << depth], vec![77; words]);
        let done = J::decode(row.code(depth), &block, &mut decoded, &mut work);
        assert_eq!((done, decoded), (Answer::DONE, message(depth)));
        assert!(work.iter().all(|&word| word == 0));
        let [t, t2] = [2, 3].map(|word| vec![word; words / 2]);
        let mut folded = vec![77; words / 2];
        let done = J::fold(level(FIELD, depth as u32, &t, &t2), &block, 4, &mut folded);
        assert_eq!((done, folded), (Answer::DONE, vec![9; words / 2]));
    }
    last_words::<J>();
    let row = Row::new(21);
    let mut block = vec![77; 2 << 21];
    let refused = J::encode(row.code(21), &message(21), &mut block);
    assert_eq!(refused, answer(1, 0, 0));
    let [t, t2] = [2, 3].map(|word| vec![word; 1 << 21]);
    let mut folded = vec![77; 1 << 21];
    let refused = J::fold(level(FIELD, 21, &t, &t2), &block, 4, &mut folded);
    assert_eq!(refused, answer(1, 0, 0));
    assert!(block.iter().chain(&folded).all(|&word| word == 77));
}

/// At depth 20 a diagonal has 2097150 words and a message 1048576: the last place of each.
fn last_words<J: CodeJobs>() {
    let mut row = Row::new(20);
    let mut message = message(20);
    let mut block = vec![77; 2 << 20];
    row.0[1][2_097_149] = 2;
    let refused = J::encode(row.code(20), &message, &mut block);
    assert_eq!(refused, answer(6, 2_097_149, 0));
    message[1_048_575] = P;
    let refused = J::encode(row.code(20), &message, &mut block);
    assert_eq!(refused, answer(4, 1_048_575, 4));
    row.0[1][2_097_149] = u32::MAX;
    let refused = J::encode(row.code(20), &message, &mut block);
    assert_eq!(refused, answer(4, 2_097_149, 3));
    assert!(block.iter().all(|&word| word == 77));
}

pub fn opening<J: OpeningJobs>() {
    for depth in LEGAL {
        let row = Row::new(depth);
        let (z, r) = (vec![3; depth], vec![4; depth]);
        let mut opening = vec![77; 3 * depth + 1 + 2 * ((1 << depth) - 1)];
        let (mut work, mut value) = (vec![77; 2 << depth], 77);
        let code = row.code(depth);
        let message = message(depth);
        let done = J::write_opening(code, &message, &z, &r, &mut opening, &mut work, &mut value);
        assert_eq!((done, value), (Answer::DONE, 9));
        assert!(work.iter().all(|&word| word == 0));
        // v and all blocks
        assert!(opening[3 * depth..].iter().all(|&word| word == 9));
        let block = vec![9; 2 << depth];
        let last = (1 << depth) - 1;
        let verdict =
            |y, query| J::verify_opening(row.code(depth), &block, &z, y, &r, &[query], &opening);
        assert_eq!(verdict(9, last), Answer::DONE);
        assert_eq!(verdict(8, last), answer(20, depth as u32, 0));
        assert_eq!(verdict(9, last + 1), answer(7, 0, 0));
    }
}
