//! Query lists in which a place repeats: 11, after all of 1 to 7 and before any check.

use super::deep::{message, Row};
use super::{answer, BLOCK, CODE, DEPTH_0, OPENING, P};
use crate::answer::Answer;
use crate::jobs::OpeningJobs;
use crate::lent::LentCode;
use crate::parameters::Parameters;

pub fn opening<J: OpeningJobs>() {
    repeated::<J>();
    first_refused::<J>();
    longest::<J>();
}

/// With two places, 0 and 1: what repeats, where, and beside which failing check.
fn repeated<J: OpeningJobs>() {
    let verify = |y, queries: &[u32], opening: &[u32]| {
        J::verify_opening(CODE, &BLOCK, &[3], y, &[4], queries, opening).number
    };
    let [mut v, mut base] = [OPENING; 2];
    v[3] = 34;
    base[5] = 34;
    let mut block = BLOCK;
    block[0] = 20;
    let fold =
        |queries: &[u32]| J::verify_opening(CODE, &block, &[3], 26, &[4], queries, &OPENING).number;
    let checked = |queries: &[u32]| {
        let failing = [
            verify(27, queries, &OPENING),
            verify(26, queries, &v),
            verify(26, queries, &base),
            fold(queries),
        ];
        (verify(26, queries, &OPENING), failing)
    };
    assert_eq!(checked(&[1, 0]), (0, [20, 21, 22, 23]));
    let refused = |number| (number, [number; 4]);
    for queries in [&[0, 0][..], &[1, 1], &[0, 1, 0], &[0, 1, 1], &[1, 1, 0]] {
        assert_eq!(checked(queries), refused(11), "{queries:?}");
    }
    assert_eq!(checked(&[1; 256]), refused(11));
    // A place too large, before the repeat, in it, between and after: 7.
    for queries in [&[2, 0, 0][..], &[2, 2], &[0, 2, 0], &[1, 1, 2], &[0, 0, P]] {
        assert_eq!(checked(queries), refused(7), "{queries:?}");
    }
    assert_eq!(checked(&[1; 257]), refused(7));
    assert_eq!(checked(&[]), refused(7));
}

/// A repeat beside each of 1 to 6, and at depth 0.
fn first_refused<J: OpeningJobs>() {
    let refused =
        |code, block: &[u32]| J::verify_opening(code, block, &[3], 26, &[4], &[1, 1], &OPENING);
    let code = LentCode {
        parameters: Parameters::one(21, 2),
        ..CODE
    };
    assert_eq!(refused(CODE, &BLOCK), answer(11, 0, 0));
    assert_eq!(refused(code, &BLOCK), answer(1, 0, 0));
    let code = LentCode {
        parameters: Parameters::one(1, 17),
        ..CODE
    };
    assert_eq!(refused(code, &BLOCK), answer(2, 0, 0));
    assert_eq!(refused(CODE, &BLOCK[1..]), answer(3, 0, 0));
    let block = [BLOCK[0], P, BLOCK[2], BLOCK[3]];
    assert_eq!(refused(CODE, &block), answer(4, 1, 4));
    let g = &[1, 0];
    assert_eq!(refused(LentCode { g, ..CODE }, &BLOCK), answer(5, 1, 0));
    let t2 = &[CODE.t2[0], CODE.t[1]];
    assert_eq!(refused(LentCode { t2, ..CODE }, &BLOCK), answer(6, 1, 0));
    for queries in [&[0][..], &[0, 0]] {
        let refused = J::verify_opening(DEPTH_0, &[9, 9], &[], 9, &[], queries, &[9]);
        assert_eq!(refused, answer(7, 0, 0));
    }
}

/// At depth 8 and rate 2 there are 256 places: all of them at once, and one of them once more.
fn longest<J: OpeningJobs>() {
    let (row, message, z, r) = (Row::new(8), message(8), [3; 8], [4; 8]);
    let (mut opening, mut work, mut y) = (vec![77; 535], vec![77; 512], 77);
    let code = row.code(8);
    let done = J::write_opening(code, &message, &z, &r, &mut opening, &mut work, &mut y);
    assert_eq!((done, y), (Answer::DONE, 9));
    let block = vec![9; 512];
    let verify = |queries: &[u32]| J::verify_opening(code, &block, &z, y, &r, queries, &opening);
    let mut queries: Vec<u32> = (0..256).rev().collect();
    assert_eq!(verify(&queries), Answer::DONE);
    for (j, k) in [(0, 255), (0, 1), (254, 255), (127, 128), (31, 200)] {
        let kept = queries[k];
        queries[k] = queries[j];
        assert_eq!(verify(&queries), answer(11, 0, 0), "{j} and {k}");
        queries[k] = kept;
    }
    queries.push(0);
    assert_eq!(verify(&queries), answer(7, 0, 0));
}
