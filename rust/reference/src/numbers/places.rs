//! Where 4, 5 and 6 are: the first word that offends, in the first input that has one. Every place is
//! written down by hand.

use super::{answer, at, level, ANY, BLOCK, CODE, FIELD, OPENING, P};
use crate::answer::{Answer, Reading};
use crate::jobs::{CodeJobs, GroundJobs, OpeningJobs};
use crate::lent::LentCode;
use crate::parameters::Parameters;

/// Every code here is made of constants.
type Code = LentCode<'static>;

/// At rate 2 level 0 of the diagonals has 2 words, level 1 has words 2 to 5.
const DEPTH_2: Code = LentCode {
    field: FIELD,
    parameters: Parameters::one(2, 2),
    g: &[1, 1],
    t: &[2, 3, 4, 5, 6, 7],
    t2: &[8, 9, 10, 11, 12, 13],
};
const MESSAGE: [u32; 4] = [5, 7, 11, 13];

/// The word that is read and a message are the block's place; it comes before the point.
pub fn ground<J: GroundJobs>() {
    for word in [P, P + 1, u32::MAX] {
        let refused = Reading {
            answer: answer(4, 0, 4),
            kind: 0,
            amount: 0,
        };
        assert_eq!(J::read_clearance(FIELD, word), refused);
    }
    let back = |message: [u32; 4]| {
        let (mut table, mut work) = ([77; 4], [77; 4]);
        let refused = J::coefficients_to_table(FIELD, ANY, &message, &mut table, &mut work);
        assert_eq!((table, work), ([77; 4], [77; 4]));
        refused
    };
    assert_eq!(back([P, 2, 1, 4]), answer(4, 0, 4));
    assert_eq!(back([3, 2, P + 1, 4]), answer(4, 2, 4));
    assert_eq!(back([3, 2, 1, u32::MAX]), answer(4, 3, 4));
    assert_eq!(back([3, P, 1, P]), answer(4, 1, 4));
    let evaluate = |message: [u32; 4], z: [u32; 2]| {
        let mut value = 77;
        let refused = J::evaluate(FIELD, at(2), &message, &z, &mut value);
        assert_eq!(value, 77);
        refused
    };
    assert_eq!(evaluate(MESSAGE, [P, 4]), answer(4, 0, 5));
    assert_eq!(evaluate(MESSAGE, [3, P]), answer(4, 1, 5));
    assert_eq!(evaluate([5, 7, 11, P], [P, P]), answer(4, 3, 4));
    assert_eq!(evaluate([5, P, P, 13], [3, 4]), answer(4, 1, 4));
}

/// The code, then the message or the block; folding is lent one level, and its challenge comes last.
pub fn code<J: CodeJobs>() {
    let encode = |code: Code, message: [u32; 4]| {
        let mut block = [77; 8];
        let refused = J::encode(code, &message, &mut block);
        assert_eq!(block, [77; 8]);
        refused
    };
    codes(|code| encode(code, MESSAGE));
    codes_before(|code| encode(code, [5, 7, P, P]), answer(4, 2, 4));
    let decode = |code: Code, block: [u32; 8]| {
        let (mut message, mut work) = ([77; 4], [77; 8]);
        let refused = J::decode(code, &block, &mut message, &mut work);
        assert_eq!((message, work), ([77; 4], [77; 8]));
        refused
    };
    codes(|code| decode(code, [9; 8]));
    let block = [9, 9, 9, 9, 9, 9, 9, P + 5];
    codes_before(|code| decode(code, block), answer(4, 7, 4));

    let fold = |t: [u32; 2], t2: [u32; 2], block: [u32; 4], challenge| {
        let mut folded = [77; 2];
        let refused = J::fold(level(FIELD, 1, &t, &t2), &block, challenge, &mut folded);
        assert_eq!(folded, [77; 2]);
        refused
    };
    assert_eq!(fold([2, P], [P, P], [P; 4], P), answer(4, 1, 2));
    assert_eq!(fold([2, 3], [P, P], [P; 4], P), answer(4, 0, 3));
    assert_eq!(fold([2, 3], [2, 3], [19, 26, 5, P], P), answer(4, 3, 4));
    assert_eq!(fold([2, 3], [2, 3], BLOCK, P), answer(4, 0, 7));
    assert_eq!(fold([2, 3], [2, 3], BLOCK, 4), answer(6, 0, 0));
    assert_eq!(fold([2, 3], [4, 3], BLOCK, 4), answer(6, 1, 0));
    // The upper level of the two, lent alone: its words count from 0.
    let (t, mut folded) = ([4, 5, 6, 7], [77; 4]);
    let refused = J::fold(level(FIELD, 2, &t, &[9, 8, 6, 6]), &[1; 8], 4, &mut folded);
    assert_eq!(refused, answer(6, 2, 0));
    let refused = J::fold(level(FIELD, 2, &t, &[9, 8, 9, P]), &[1; 8], 4, &mut folded);
    assert_eq!(refused, answer(4, 3, 3));
    assert_eq!(folded, [77; 4]);
}

/// What is wrong with a code alone, asked of a job that is lent nothing else that is wrong.
fn codes(job: impl Fn(Code) -> Answer) {
    let refused = |change: fn(&mut Code)| {
        let mut code = DEPTH_2;
        change(&mut code);
        job(code)
    };
    assert_eq!(refused(|code| code.g = &[P, 1]), answer(4, 0, 1));
    assert_eq!(refused(|code| code.g = &[0, P]), answer(4, 1, 1));
    let words = |code: &mut Code| code.t = &[2, 3, 4, P, 6, P];
    assert_eq!(refused(words), answer(4, 3, 2));
    let words = |code: &mut Code| code.t2 = &[8, 9, 10, 11, 12, u32::MAX];
    assert_eq!(refused(words), answer(4, 5, 3));
    let both = |code: &mut Code| {
        code.t = &[2, 3, 4, 5, P, 7];
        code.t2 = &[P, 9, 10, 11, 12, 13];
    };
    assert_eq!(refused(both), answer(4, 4, 2));
    assert_eq!(refused(|code| code.g = &[0, 1]), answer(5, 0, 0));
    assert_eq!(refused(|code| code.g = &[1, 0]), answer(5, 1, 0));
    assert_eq!(refused(|code| code.g = &[0, 0]), answer(5, 0, 0));
    let pair = |code: &mut Code| code.t2 = &[2, 9, 10, 11, 12, 13];
    assert_eq!(refused(pair), answer(6, 0, 0));
    let pairs = |code: &mut Code| code.t2 = &[8, 9, 10, 5, 12, 7];
    assert_eq!(refused(pairs), answer(6, 3, 0));
    let zero_and_pair = |code: &mut Code| (code.g, code.t2) = (&[1, 0], code.t);
    assert_eq!(refused(zero_and_pair), answer(5, 1, 0));
}

/// A job that is lent another wrong word, which is due where no word of the code is.
fn codes_before(job: impl Fn(Code) -> Answer, due: Answer) {
    let refused = |change: fn(&mut Code)| {
        let mut code = DEPTH_2;
        change(&mut code);
        job(code)
    };
    assert_eq!(refused(|_| ()), due);
    assert_eq!(refused(|code| code.g = &[0, 0]), due);
    assert_eq!(refused(|code| code.t2 = code.t), due);
    assert_eq!(refused(|code| code.g = &[1, P]), answer(4, 1, 1));
    let words = |code: &mut Code| code.t2 = &[8, 9, 10, 11, P, 13];
    assert_eq!(refused(words), answer(4, 4, 3));
}

/// Behind the code: message, point, challenges; of a claim block, point, value, challenges, opening.
pub fn opening<J: OpeningJobs>() {
    let write = |code: Code, message: [u32; 4], z: [u32; 2], r: [u32; 2]| {
        let (mut opening, mut work, mut value) = ([77; 13], [77; 8], 77);
        let refused = J::write_opening(code, &message, &z, &r, &mut opening, &mut work, &mut value);
        assert_eq!((opening, work, value), ([77; 13], [77; 8], 77));
        refused
    };
    codes(|code| write(code, MESSAGE, [3, 4], [5, 6]));
    codes_before(|code| write(code, [P; 4], [P; 2], [P; 2]), answer(4, 0, 4));
    codes_before(|code| write(code, MESSAGE, [3, P], [P; 2]), answer(4, 1, 5));
    codes_before(|code| write(code, MESSAGE, [3, 4], [5, P]), answer(4, 1, 7));

    let verify = |code, block: [u32; 8], z: [u32; 2], y, r: [u32; 2], opening: [u32; 13]| {
        J::verify_opening(code, &block, &z, y, &r, &[0], &opening)
    };
    codes(|code| verify(code, [9; 8], [3, 4], 9, [5, 6], [9; 13]));
    let mut opening = [9; 13];
    opening[11] = P;
    let mut block = [9; 8];
    block[6] = u32::MAX;
    let all = |code| verify(code, block, [P; 2], P, [P; 2], opening);
    codes_before(all, answer(4, 6, 4));
    let point = |code| verify(code, [9; 8], [3, P], P, [P; 2], opening);
    codes_before(point, answer(4, 1, 5));
    let value = |code| verify(code, [9; 8], [3, 4], P, [P; 2], opening);
    codes_before(value, answer(4, 0, 6));
    let challenges = |code| verify(code, [9; 8], [3, 4], 9, [5, P], opening);
    codes_before(challenges, answer(4, 1, 7));
    let opened = |code| verify(code, [9; 8], [3, 4], 9, [5, 6], opening);
    codes_before(opened, answer(4, 11, 8));
    // The query list is not judged by 4.
    let queries = |opening: &[u32]| J::verify_opening(CODE, &BLOCK, &[3], 26, &[4], &[P], opening);
    assert_eq!(queries(&OPENING), answer(7, 0, 0));
    assert_eq!(queries(&[P, P, P, P, P, P]), answer(4, 0, 8));
}
