//! Numbers over the second field, computed outside the library with plain integers, through the forms
//! that write into lent buffers: every answer, and every buffer after it.

use tvarchula::*;

const FIELD: Field = Field::BabyBear;
const P: u32 = 2_013_265_921;
const CODE: Code<'static> = Code::new(
    FIELD,
    1,
    2,
    &[1, 1],
    &[2, 3],
    &[2_013_265_919, 2_013_265_918],
);
const DEPTH_0: Code<'static> = Code::new(FIELD, 0, 2, &[1, 1], &[], &[]);
const BLOCK: [u32; 4] = [19, 26, 2_013_265_912, 2_013_265_905];
const OPENING: [u32; 6] = [2_013_265_911, 36, 152, 33, 33, 33];

/// A code of words of all sizes at depth 2: products go round the modulus many times.
const WIDE: Code<'static> = Code::new(
    FIELD,
    2,
    2,
    &[1_234_567_890, 7],
    &[
        1_000_000_007,
        2_013_265_920,
        123_456_789,
        987_654_321,
        2_000_000_000,
        42,
    ],
    &[5, 1, 2_013_265_920, 0, 1_500_000_001, 1_999_999_999],
);
const WIDE_MESSAGE: [u32; 4] = [1_111_111_111, 2_012_345_678, 1_357_924_680, 2_013_265_920];
const WIDE_BLOCK: [u32; 8] = [
    71_879_934,
    1_485_067_015,
    507_430_876,
    321_475_660,
    1_699_330_465,
    1_744_421_715,
    1_710_718_733,
    1_060_976_548,
];
const WIDE_FOLDED: [u32; 4] = [1_963_931_387, 1_647_675_698, 1_198_359_231, 1_128_241_595];
const WIDE_Z: [u32; 2] = [1_700_000_000, 999_999_937];
const WIDE_R: [u32; 2] = [2_013_265_920, 1_618_033_988];
const WIDE_VALUE: u32 = 986_334_682;
const WIDE_OPENING: [u32; 13] = [
    1_710_425_977,
    1_289_174_626,
    184_656_789,
    470_935_932,
    1_485_082_808,
    879_596_104,
    1_673_429_329,
    1_963_931_387,
    1_647_675_698,
    1_198_359_231,
    1_128_241_595,
    143_951_967,
    1_647_675_698,
];

/// 4, at the word of an input.
fn high(input: Input, index: usize, word: u32) -> Refusal {
    Refusal::Word {
        field: FIELD,
        input,
        index,
        word,
    }
}

/// What a job left in buffers that held 77 everywhere.
type Left<const N: usize, const W: usize> = (Result<(), Refusal>, [u32; N], [u32; W]);

fn to_coefficients<const N: usize>(field: Field, table: [i32; N]) -> Left<N, 0> {
    let mut message = [77; N];
    let done = table_to_coefficients(field, &table, &mut message);
    (done, message, [])
}

#[test]
fn readings() {
    let farthest = 1_006_632_960;
    assert_eq!(read_clearance(FIELD, 0), Ok(Reading::Contact));
    assert_eq!(read_clearance(FIELD, 1), Ok(Reading::Free(1)));
    assert_eq!(read_clearance(FIELD, farthest), Ok(Reading::Free(farthest)));
    let overlap = Ok(Reading::Overlap(farthest));
    assert_eq!(read_clearance(FIELD, 1_006_632_961), overlap);
    let overlap = Ok(Reading::Overlap(1));
    assert_eq!(read_clearance(FIELD, 2_013_265_920), overlap);
    for word in [2_013_265_921, 2_147_483_646, 2_147_483_647, u32::MAX] {
        let refused = read_clearance(FIELD, word).unwrap_err();
        assert_eq!(refused, high(Input::Block, 0, word));
        assert_eq!(refused.number(), 4);
    }
    let refused = read_clearance(FIELD, P).unwrap_err();
    let sentence = "word 0 of the message, block or word is 2013265921, not below 2013265921";
    assert_eq!(refused.to_string(), sentence);
}

#[test]
fn tables() {
    assert_eq!(to_coefficients(FIELD, [-1]), (Ok(()), [2_013_265_920], []));
    let coefficients = (Ok(()), [3, 2, 1, 4], []);
    assert_eq!(to_coefficients(FIELD, [3, 5, 4, 10]), coefficients);
    let wide = [-1_006_632_960, 1_006_632_960, 17, -5];
    let due = [1_006_632_961, 2_013_265_920, 1_006_632_977, 2_013_265_900];
    assert_eq!(to_coefficients(FIELD, wide), (Ok(()), due, []));
    let (mut table, mut work) = ([77; 4], [77; 4]);
    let done = coefficients_to_table(FIELD, &due, &mut table, &mut work);
    assert_eq!((done, table, work), (Ok(()), wide, [0; 4]));
    assert_eq!(to_coefficients(FIELD, [1, 2, 3]).0, Err(Refusal::Depth));

    // The first field goes further.
    for entry in [1_006_632_961, -1_006_632_961] {
        let refused = Refusal::Clearance { field: FIELD };
        assert_eq!(to_coefficients(FIELD, [entry]), (Err(refused), [77], []));
        assert_eq!(refused.number(), 9);
        let sentence = "a clearance is further than 1006632960 micrometres from 0";
        assert_eq!(refused.to_string(), sentence);
    }
    let first = to_coefficients(Field::Mersenne31, [1_006_632_961]);
    assert_eq!(first, (Ok(()), [1_006_632_961], []));
    let first = to_coefficients(Field::Mersenne31, [-1_006_632_961]);
    assert_eq!(first, (Ok(()), [1_140_850_686], []));

    let (mut table, mut work) = ([77; 4], [77; 4]);
    let refused = coefficients_to_table(FIELD, &[3, 2, P, P + 4], &mut table, &mut work);
    let due = Err(high(Input::Block, 2, P));
    assert_eq!((refused, table, work), (due, [77; 4], [77; 4]));
}

#[test]
fn evaluation() {
    assert_eq!(evaluate(FIELD, 1, &[5, 7], &[3]), Ok(26));
    assert_eq!(evaluate(FIELD, 1, &[5, 7], &[P - 1]), Ok(P - 2));
    let value = evaluate(FIELD, 2, &WIDE_MESSAGE, &WIDE_Z);
    assert_eq!(value, Ok(WIDE_VALUE));
    // The same words are legal in the first field, and have another value there.
    let value = evaluate(Field::Mersenne31, 2, &WIDE_MESSAGE, &WIDE_Z);
    assert_eq!(value, Ok(1_466_793_451));
    let refused = evaluate(FIELD, 1, &[5, 7], &[P]);
    assert_eq!(refused, Err(high(Input::Z, 0, P)));
    assert_eq!(evaluate(FIELD, 21, &[5, 7], &[3]), Err(Refusal::Depth));
}

fn encoded<const N: usize>(code: &Code<'_>, message: &[u32]) -> Left<N, 0> {
    let mut block = [77; N];
    (encode(code, message, &mut block), block, [])
}

fn decoded<const M: usize, const N: usize>(code: &Code<'_>, block: [u32; N]) -> Left<M, N> {
    let (mut message, mut work) = ([77; M], [77; N]);
    let done = decode(code, &block, &mut message, &mut work);
    (done, message, work)
}

#[test]
fn code() {
    assert_eq!(encoded(&CODE, &[5, 7]), (Ok(()), BLOCK, []));
    assert_eq!(encoded(&DEPTH_0, &[9]), (Ok(()), [9, 9], []));
    assert_eq!(encoded(&WIDE, &WIDE_MESSAGE), (Ok(()), WIDE_BLOCK, []));
    assert_eq!(decoded(&CODE, BLOCK), (Ok(()), [5, 7], [0; 4]));
    assert_eq!(decoded(&WIDE, WIDE_BLOCK), (Ok(()), WIDE_MESSAGE, [0; 8]));
    let mut damaged = WIDE_BLOCK;
    damaged[7] += 1;
    let refused = (Err(Refusal::NoCodeword), [77; 4], [0; 8]);
    assert_eq!(decoded(&WIDE, damaged), refused);
    damaged[7] = P;
    let refused = (Err(high(Input::Block, 7, P)), [77; 4], [77; 8]);
    assert_eq!(decoded(&WIDE, damaged), refused);

    let mut folded = [77; 2];
    let done = fold(FIELD, 1, 2, CODE.t, CODE.t2, &BLOCK, 4, &mut folded);
    assert_eq!((done, folded), (Ok(()), [33, 33]));
    let (t, t2) = (&WIDE.t[2..], &WIDE.t2[2..]);
    let mut folded = [77; 4];
    let done = fold(FIELD, 2, 2, t, t2, &WIDE_BLOCK, WIDE_R[1], &mut folded);
    assert_eq!((done, folded), (Ok(()), WIDE_FOLDED));
    let mut folded = [77; 4];
    let refused = fold(FIELD, 2, 2, t, t2, &WIDE_BLOCK, P, &mut folded);
    let due = Err(high(Input::R, 0, P));
    assert_eq!((refused, folded), (due, [77; 4]));
}

#[test]
fn openings() {
    let opened = |z: u32, r: u32| {
        let (mut opening, mut work) = ([77; 6], [77; 4]);
        let question = Question { z: &[z], r: &[r] };
        let value = write_opening(&CODE, &[5, 7], &question, &mut opening, &mut work);
        assert_eq!(work, [0; 4]);
        (opening, value.unwrap())
    };
    let judged = |z: u32, y: u32, r: u32, queries: &[u32], opening: &[u32]| {
        let claim = Claim {
            z: &[z],
            y,
            r: &[r],
            queries,
        };
        verdict(&CODE, &BLOCK, &claim, opening)
    };
    let rejected = |failure| Ok(Verdict::Rejected(failure));
    assert_eq!(opened(3, 4), (OPENING, 26));
    assert_eq!(judged(3, 26, 4, &[0, 1], &OPENING), Ok(Verdict::Accepted));
    for y in [0, 25, 27, P - 1] {
        let sum = rejected(Failure::Sum(1));
        assert_eq!(judged(3, y, 4, &[0, 1], &OPENING), sum);
    }
    let refused = Err(high(Input::Y, 0, P));
    assert_eq!(judged(3, P, 4, &[0, 1], &OPENING), refused);
    for queries in [&[2][..], &[P], &[], &[0; 257]] {
        let refused = Err(Refusal::Queries);
        assert_eq!(judged(3, 26, 4, queries, &OPENING), refused);
    }
    let repeated = judged(3, 26, 4, &[1, 1], &OPENING);
    assert_eq!(repeated, Err(Refusal::Repeated));

    // Here eq is 0: the final check says nothing about the value at r, the folds still decide.
    let (mut opening, value) = opened(0, 1);
    assert_eq!((value, opening), (5, [5, 0, 2_013_265_902, 12, 12, 12]));
    assert_eq!(judged(0, 5, 1, &[0], &opening), Ok(Verdict::Accepted));
    opening[3..].fill(13);
    let fold = Failure::Fold { query: 0, level: 0 };
    assert_eq!(judged(0, 5, 1, &[0], &opening), rejected(fold));
}

#[test]
fn an_opening_of_wide_words() {
    let (mut opening, mut work) = ([77; 13], [77; 8]);
    let question = Question {
        z: &WIDE_Z,
        r: &WIDE_R,
    };
    let value = write_opening(&WIDE, &WIDE_MESSAGE, &question, &mut opening, &mut work);
    assert_eq!((value, work), (Ok(WIDE_VALUE), [0; 8]));
    assert_eq!(opening, WIDE_OPENING);
    let claim = Claim {
        z: &WIDE_Z,
        y: WIDE_VALUE,
        r: &WIDE_R,
        queries: &[0, 1, 2, 3],
    };
    let judged = |claim: &Claim<'_>, opening: &[u32]| verdict(&WIDE, &WIDE_BLOCK, claim, opening);
    assert_eq!(judged(&claim, &WIDE_OPENING), Ok(Verdict::Accepted));
    let forged = Claim {
        y: WIDE_VALUE + 1,
        ..claim
    };
    let rejected = |failure| Ok(Verdict::Rejected(failure));
    assert_eq!(judged(&forged, &WIDE_OPENING), rejected(Failure::Sum(2)));
    // Another word in each part of the opening, each found by the check of that part.
    for (place, failure) in [
        (0, Failure::Sum(2)),
        (2, Failure::Sum(1)),
        (3, Failure::Sum(1)),
        (5, Failure::Final),
        (6, Failure::Final),
        (7, Failure::Fold { query: 0, level: 1 }),
        (10, Failure::Fold { query: 3, level: 1 }),
        (11, Failure::Base(0)),
        (12, Failure::Base(1)),
    ] {
        let mut other = WIDE_OPENING;
        other[place] += 1;
        let found = judged(&claim, &other);
        assert_eq!(found, rejected(failure), "word {place}");
    }
}

#[test]
fn openings_at_depth_0() {
    let judged = |y| {
        let claim = Claim {
            z: &[],
            y,
            r: &[],
            queries: &[],
        };
        verdict(&DEPTH_0, &[9, 9], &claim, &[9])
    };
    assert_eq!(judged(9), Ok(Verdict::Accepted));
    assert_eq!(judged(8), Ok(Verdict::Rejected(Failure::Final)));
    assert_eq!(judged(P), Err(high(Input::Y, 0, P)));
}
