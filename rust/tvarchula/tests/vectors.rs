//! The forms with vectors: the same results and refusals, and the largest sizes.
#![cfg(feature = "alloc")]

use tvarchula::*;

const FIELD: Field = Field::Mersenne31;
const P: u32 = 2_147_483_647;
const CODE: Code<'static> = Code::new(
    FIELD,
    1,
    2,
    &[1, 1],
    &[2, 3],
    &[2_147_483_645, 2_147_483_644],
);
const BLOCK: [u32; 4] = [19, 26, 2_147_483_638, 2_147_483_631];
const QUESTION: Question<'static> = Question { z: &[3], r: &[4] };

#[test]
fn results() {
    let message = table_to_coefficients_vec(FIELD, &[3, 5, 4, 10]);
    assert_eq!(message, Ok(vec![3, 2, 1, 4]));
    let table = coefficients_to_table_vec(FIELD, &[3, 2, 1, 4]);
    assert_eq!(table, Ok(vec![3, 5, 4, 10]));
    assert_eq!(encode_vec(&CODE, &[5, 7]), Ok(BLOCK.to_vec()));
    assert_eq!(decode_vec(&CODE, &BLOCK), Ok(vec![5, 7]));
    let folded = fold_vec(FIELD, 1, 2, CODE.t, CODE.t2, &BLOCK, 4);
    assert_eq!(folded, Ok(vec![33, 33]));
    let opening = vec![2_147_483_637, 36, 152, 33, 33, 33];
    let opened = write_opening_vec(&CODE, &[5, 7], &QUESTION);
    assert_eq!(opened, Ok((opening, 26)));
}

/// Where no length is legal the forms with vectors find the same refusal.
#[test]
fn refusals() {
    for wrong in [&[][..], &[1, 2, 3]] {
        assert_eq!(table_to_coefficients_vec(FIELD, wrong), Err(Refusal::Depth));
    }
    let refused = coefficients_to_table_vec(FIELD, &[1, 2, 3]);
    assert_eq!(refused, Err(Refusal::Depth));
    let refused = Refusal::Word {
        field: FIELD,
        input: Input::Block,
        index: 1,
        word: P,
    };
    assert_eq!(coefficients_to_table_vec(FIELD, &[1, P]), Err(refused));
    for depth in [21, 64, u32::MAX] {
        let mut code = CODE;
        code.depth = depth;
        assert_eq!(encode_vec(&code, &[5, 7]), Err(Refusal::Depth));
        assert_eq!(decode_vec(&code, &BLOCK), Err(Refusal::Depth));
        let refused = write_opening_vec(&code, &[5, 7], &QUESTION);
        assert_eq!(refused, Err(Refusal::Depth));
    }
    for level in [0, 21, u32::MAX] {
        let refused = fold_vec(FIELD, level, 2, CODE.t, CODE.t2, &BLOCK, 4);
        assert_eq!(refused, Err(Refusal::Depth));
    }
}

/// Rows and diagonals of roots in vectors, as they are filled at depth 2 and rate 2.
#[test]
fn roots() {
    let roots = Roots::new(2, 2).unwrap();
    let t = [
        1,
        1_728_404_513,
        1,
        1_592_366_214,
        1_728_404_513,
        211_723_194,
    ];
    let t2 = [
        2_013_265_920,
        284_861_408,
        2_013_265_920,
        420_899_707,
        284_861_408,
        1_801_542_727,
    ];
    let code = Code::new(Field::BabyBear, 2, 2, &[1, 1], &t, &t2);
    assert_eq!(roots.code(), code);
    let roots = Roots::new(0, 16).unwrap();
    let code = Code::new(Field::BabyBear, 0, 16, &[1; 16], &[], &[]);
    assert_eq!(roots.code(), code);
    for (depth, rate, refusal) in [
        (21, 1, Refusal::Depth),
        (u32::MAX, 2, Refusal::Depth),
        (20, 1, Refusal::Rate),
        (2, 17, Refusal::Rate),
        (2, u32::MAX, Refusal::Rate),
        (2, 3, Refusal::NoPowerOfTwo),
        (0, 12, Refusal::NoPowerOfTwo),
    ] {
        assert_eq!(Roots::new(depth, rate), Err(refusal));
    }
}

/// The largest depth at the smallest rate, and the largest rate at depth 17.
#[test]
fn large_sizes() {
    for field in [Field::Mersenne31, Field::BabyBear] {
        for (depth, rate, opening_words) in [(20, 2, 2_097_211), (17, 16, 2_097_188)] {
            let t = vec![2; diagonals_len(depth, rate)];
            let t2 = vec![3; diagonals_len(depth, rate)];
            let g = vec![1; rate as usize];
            opened(&Code::new(field, depth, rate, &g, &t, &t2), opening_words);
        }
    }
    opened(&Roots::new(20, 2).unwrap().code(), 2_097_211);
    opened(&Roots::new(17, 16).unwrap().code(), 2_097_188);
}

fn opened(code: &Code<'_>, opening_words: usize) {
    let depth = code.depth;
    let message: Vec<u32> = (0..message_len(depth) as u32).collect();
    let block = encode_vec(code, &message).unwrap();
    let point = vec![7; depth as usize];
    let question = Question {
        z: &point,
        r: &point,
    };
    let (opening, value) = write_opening_vec(code, &message, &question).unwrap();
    assert_eq!(opening.len(), opening_words);
    let mut queries: Vec<u32> = (0..MAX_QUERIES as u32).collect();
    let verify = |y, queries: &[u32]| {
        let claim = Claim {
            z: &point,
            y,
            r: &point,
            queries,
        };
        verify_opening(code, &block, &claim, &opening)
    };
    assert_eq!(verify(value, &queries), Ok(()));
    let another = (value + 1) % code.field.modulus();
    let rejected = Err(VerifyError::Rejected(Failure::Sum(depth)));
    assert_eq!(verify(another, &queries), rejected);
    queries[MAX_QUERIES - 1] = queries[0];
    let refused = Err(VerifyError::Refused(Refusal::Repeated));
    assert_eq!(verify(value, &queries), refused);
    assert_eq!(verify(another, &queries), refused);
}
