//! The order's numbers to try, over the first field, through the forms that write into lent buffers:
//! every answer, and every buffer after it. `babybear` has numbers for the second.

use tvarchula::*;

const FIELD: Field = Field::Mersenne31;
const P: u32 = 2_147_483_647;
const CODE: Code<'static> = Code::new(
    FIELD,
    1,
    2,
    &[1, 1],
    &[2, 3],
    &[2_147_483_645, 2_147_483_644],
);
const DEPTH_0: Code<'static> = Code::new(FIELD, 0, 2, &[1, 1], &[], &[]);
const BLOCK: [u32; 4] = [19, 26, 2_147_483_638, 2_147_483_631];
const OPENING: [u32; 6] = [2_147_483_637, 36, 152, 33, 33, 33];

/// 4, at the word of an input.
fn high(input: Input, index: usize, word: u32) -> Refusal {
    Refusal::Word {
        field: FIELD,
        input,
        index,
        word,
    }
}

/// What a job left in buffers that held 77 everywhere.
type Left<const N: usize, const W: usize> = (Result<(), Refusal>, [u32; N], [u32; W]);

fn to_coefficients<const N: usize>(table: [i32; N]) -> Left<N, 0> {
    let mut message = [77; N];
    let done = table_to_coefficients(FIELD, &table, &mut message);
    (done, message, [])
}

#[test]
fn clearances_and_tables() {
    assert_eq!(to_coefficients([-1]), (Ok(()), [2_147_483_646], []));
    let refused = (Err(Refusal::Clearance { field: FIELD }), [77], []);
    assert_eq!(to_coefficients([1_073_741_824]), refused);
    assert_eq!(to_coefficients([-1_073_741_824]), refused);
    assert_eq!(to_coefficients([3, 5, 4, 10]), (Ok(()), [3, 2, 1, 4], []));
    assert_eq!(to_coefficients([1, 2, 3]).0, Err(Refusal::Depth));
    assert_eq!(to_coefficients([]).0, Err(Refusal::Depth));
    let other_length = table_to_coefficients(FIELD, &[1, 2], &mut [77; 3]);
    assert_eq!(other_length, Err(Refusal::Length));

    let farthest = 1_073_741_823;
    assert_eq!(read_clearance(FIELD, 0), Ok(Reading::Contact));
    assert_eq!(read_clearance(FIELD, 1), Ok(Reading::Free(1)));
    assert_eq!(read_clearance(FIELD, P - 1), Ok(Reading::Overlap(1)));
    assert_eq!(read_clearance(FIELD, farthest), Ok(Reading::Free(farthest)));
    let overlap = Reading::Overlap(farthest);
    assert_eq!(read_clearance(FIELD, farthest + 1), Ok(overlap));
    for word in [P, P + 1, u32::MAX] {
        let refused = Err(high(Input::Block, 0, word));
        assert_eq!(read_clearance(FIELD, word), refused);
    }

    let (mut table, mut work) = ([77; 4], [77; 4]);
    let done = coefficients_to_table(FIELD, &[3, 2, 1, 4], &mut table, &mut work);
    assert_eq!((done, table, work), (Ok(()), [3, 5, 4, 10], [0; 4]));
    let (mut table, mut work) = ([77], [77]);
    let done = coefficients_to_table(FIELD, &[1_073_741_824], &mut table, &mut work);
    assert_eq!((done, table, work), (Ok(()), [-1_073_741_823], [0]));
    let (mut table, mut work) = ([77; 4], [77; 4]);
    let refused = coefficients_to_table(FIELD, &[3, 2, P, P + 4], &mut table, &mut work);
    let due = Err(high(Input::Block, 2, P));
    assert_eq!((refused, table, work), (due, [77; 4], [77; 4]));
}

#[test]
fn evaluation() {
    assert_eq!(evaluate(FIELD, 1, &[5, 7], &[3]), Ok(26));
    assert_eq!(evaluate(FIELD, 1, &[5, 7], &[P - 1]), Ok(P - 2));
    let z = Err(high(Input::Z, 0, P));
    assert_eq!(evaluate(FIELD, 1, &[5, 7], &[P]), z);
    let message = Err(high(Input::Block, 1, u32::MAX));
    assert_eq!(evaluate(FIELD, 1, &[5, u32::MAX], &[P]), message);
    assert_eq!(evaluate(FIELD, 1, &[5, 7], &[]), Err(Refusal::Length));
    assert_eq!(evaluate(FIELD, 17, &[5, 7], &[3]), Err(Refusal::Length));
    assert_eq!(evaluate(FIELD, 20, &[5, 7], &[3]), Err(Refusal::Length));
    assert_eq!(evaluate(FIELD, 21, &[5, 7], &[3]), Err(Refusal::Depth));
}

fn encoded<const N: usize>(code: &Code<'_>, message: &[u32]) -> Left<N, 0> {
    let mut block = [77; N];
    (encode(code, message, &mut block), block, [])
}

fn decoded(block: [u32; 4]) -> Left<2, 4> {
    let (mut message, mut work) = ([77; 2], [77; 4]);
    let done = decode(&CODE, &block, &mut message, &mut work);
    (done, message, work)
}

fn folded(level: u32) -> Left<2, 0> {
    let mut folded = [77; 2];
    let done = fold(FIELD, level, 2, CODE.t, CODE.t2, &BLOCK, 4, &mut folded);
    (done, folded, [])
}

/// The refusal of a fold from level 1.
fn unfolded(t: &[u32], t2: &[u32], block: &[u32], challenge: u32) -> Refusal {
    let mut folded = [77; 2];
    let refused = fold(FIELD, 1, 2, t, t2, block, challenge, &mut folded);
    assert_eq!(folded, [77; 2]);
    refused.unwrap_err()
}

#[test]
fn code() {
    assert_eq!(encoded(&CODE, &[5, 7]), (Ok(()), BLOCK, []));
    assert_eq!(encoded(&DEPTH_0, &[9]), (Ok(()), [9, 9], []));
    assert_eq!(decoded(BLOCK), (Ok(()), [5, 7], [0; 4]));
    let damaged = [BLOCK[0], BLOCK[1], BLOCK[2], 2_147_483_632];
    let refused = (Err(Refusal::NoCodeword), [77; 2], [0; 4]);
    assert_eq!(decoded(damaged), refused);
    let no_residue = [BLOCK[0], BLOCK[1], BLOCK[2], P];
    let refused = (Err(high(Input::Block, 3, P)), [77; 2], [77; 4]);
    assert_eq!(decoded(no_residue), refused);
    assert_eq!(folded(1), (Ok(()), [33, 33], []));
    for level in [0, 21, u32::MAX] {
        assert_eq!(folded(level), (Err(Refusal::Depth), [77; 2], []));
    }
    assert_eq!(folded(20), (Err(Refusal::Length), [77; 2], []));

    let refused = unfolded(CODE.t, CODE.t2, &BLOCK, P);
    assert_eq!(refused, high(Input::R, 0, P));
    let refused = unfolded(CODE.t, CODE.t2, &[19, 26, P, 5], P);
    assert_eq!(refused, high(Input::Block, 2, P));
    let refused = unfolded(CODE.t, &[5, P + 1], &[P; 4], P);
    assert_eq!(refused, high(Input::T2, 1, P + 1));
    assert_eq!(unfolded(&[P; 2], &[P; 2], &[P; 4], P), high(Input::T, 0, P));
    let refused = unfolded(CODE.t, &[5, 3], &BLOCK, 4);
    assert_eq!(refused, Refusal::Diagonals { index: 1 });
}

#[test]
fn refusals() {
    let refused = |change: fn(&mut Code<'_>)| {
        let mut code = CODE;
        change(&mut code);
        let (result, block, []) = encoded::<4>(&code, &[5, 7]);
        assert_eq!(block, [77; 4]);
        result.unwrap_err()
    };
    assert_eq!(refused(|code| code.depth = 20), Refusal::Length);
    assert_eq!(refused(|code| code.depth = 21), Refusal::Depth);
    assert_eq!(refused(|code| code.rate = 1), Refusal::Rate);
    assert_eq!(refused(|code| code.rate = 17), Refusal::Rate);
    assert_eq!(refused(|code| code.g = &[1]), Refusal::Length);
    assert_eq!(refused(|code| code.g = &[1, P]), high(Input::G, 1, P));
    assert_eq!(refused(|code| code.t = &[P, P]), high(Input::T, 0, P));
    let g_and_t2 = |code: &mut Code<'_>| (code.g, code.t2) = (&[0, P + 2], &[P, 5]);
    assert_eq!(refused(g_and_t2), high(Input::G, 1, P + 2));
    let pair = |code: &mut Code<'_>| code.t2 = &[2_147_483_645, 3];
    assert_eq!(refused(pair), Refusal::Diagonals { index: 1 });
    assert_eq!(
        refused(|code| code.t2 = &[2, 3]),
        Refusal::Diagonals { index: 0 }
    );
    let zero_and_pair = |code: &mut Code<'_>| (code.g, code.t2) = (&[1, 0], &[5, 3]);
    assert_eq!(refused(zero_and_pair), Refusal::BaseRow { index: 1 });
    assert_eq!(
        refused(|code| code.g = &[0, 0]),
        Refusal::BaseRow { index: 0 }
    );
    let numbers = [
        (Refusal::Depth, 1),
        (Refusal::Rate, 2),
        (Refusal::Length, 3),
        (high(Input::Z, 5, P), 4),
        (Refusal::BaseRow { index: 5 }, 5),
        (Refusal::Diagonals { index: 5 }, 6),
        (Refusal::Queries, 7),
        (Refusal::NoCodeword, 8),
        (Refusal::Clearance { field: FIELD }, 9),
        (Refusal::Repeated, 11),
        (Refusal::NoPowerOfTwo, 12),
    ];
    for (refusal, number) in numbers {
        assert_eq!(refusal.number(), number);
        assert!(!refusal.to_string().is_empty());
    }
}

/// At depth 2 level 1 of the diagonals begins at word 2: an index counts over all levels.
#[test]
fn places_at_depth_2() {
    let code = Code::new(
        FIELD,
        2,
        2,
        &[1, 1],
        &[2, 3, 4, 5, 6, 7],
        &[8, 9, 10, 11, 12, 13],
    );
    let message = [5, 7, 11, 13];
    let (t, t2) = ([2, 3, 4, 5, P, 7], [8, 9, 10, 5, 6, 13]);
    let refused = |code: Code<'_>| {
        let (result, block, []) = encoded::<8>(&code, &message);
        assert_eq!(block, [77; 8]);
        result.unwrap_err()
    };
    let mut other = code;
    other.t2 = &t2;
    let refusal = refused(other);
    assert_eq!(refusal, Refusal::Diagonals { index: 3 });
    assert_eq!(refusal.to_string(), "word 3 of T and of T' are equal");
    other.g = &[1, 0];
    let refusal = refused(other);
    assert_eq!(refusal, Refusal::BaseRow { index: 1 });
    assert_eq!(refusal.to_string(), "word 1 of the base row is 0");
    other.t = &t;
    let refusal = refused(other);
    assert_eq!(refusal, high(Input::T, 4, P));
    let sentence = "word 4 of T is 2147483647, not below 2147483647";
    assert_eq!(refusal.to_string(), sentence);

    let opened = |z: &[u32], r: &[u32], message: &[u32]| {
        let (mut opening, mut work) = ([77; 13], [77; 8]);
        let question = Question { z, r };
        let refused = write_opening(&code, message, &question, &mut opening, &mut work);
        assert_eq!((opening, work), ([77; 13], [77; 8]));
        refused.unwrap_err()
    };
    assert_eq!(opened(&[3, 4], &[5, P], &message), high(Input::R, 1, P));
    assert_eq!(opened(&[P, P], &[P, P], &message), high(Input::Z, 0, P));
    let refused = opened(&[P, P], &[5, 6], &[5, 7, P + 3, P]);
    assert_eq!(refused, high(Input::Block, 2, P + 3));
}

/// All that a verifier is lent is spoiled, then put right, input by input in the order of refusals.
#[test]
fn places_of_a_claim() {
    let (g, t, t2) = ([1, P], [P + 1, 3], [2_147_483_645, P + 2]);
    let (block, opening) = ([19, 26, P + 3, P], [36, 36, 36, 36, P + 7, P]);
    let (z, y, r) = ([P + 4], P + 5, [P + 6]);
    let mut code = Code::new(FIELD, 1, 2, &g, &t, &t2);
    // A list that is refused too, after all of these.
    let mut claim = Claim {
        z: &z,
        y,
        r: &r,
        queries: &[P],
    };
    let refused = |code: &Code<'_>, block: &[u32], claim: &Claim<'_>, opening: &[u32]| {
        verdict(code, block, claim, opening).unwrap_err()
    };
    let found = refused(&code, &block, &claim, &opening);
    assert_eq!(found, high(Input::G, 1, P));
    code.g = CODE.g;
    let found = refused(&code, &block, &claim, &opening);
    assert_eq!(found, high(Input::T, 0, P + 1));
    code.t = CODE.t;
    let found = refused(&code, &block, &claim, &opening);
    assert_eq!(found, high(Input::T2, 1, P + 2));
    code.t2 = CODE.t2;
    let found = refused(&code, &block, &claim, &opening);
    assert_eq!(found, high(Input::Block, 2, P + 3));
    let found = refused(&code, &BLOCK, &claim, &opening);
    assert_eq!(found, high(Input::Z, 0, P + 4));
    claim.z = &[3];
    let found = refused(&code, &BLOCK, &claim, &opening);
    assert_eq!(found, high(Input::Y, 0, P + 5));
    claim.y = 26;
    let found = refused(&code, &BLOCK, &claim, &opening);
    assert_eq!(found, high(Input::R, 0, P + 6));
    claim.r = &[4];
    let found = refused(&code, &BLOCK, &claim, &opening);
    assert_eq!(found, high(Input::Opening, 4, P + 7));
    let found = refused(&code, &BLOCK, &claim, &OPENING);
    assert_eq!(found, Refusal::Queries);
}

/// An opening of 5 + 7 X at z under r, and the value.
fn opened(z: u32, r: u32) -> ([u32; 6], u32) {
    let (mut opening, mut work) = ([77; 6], [77; 4]);
    let question = Question { z: &[z], r: &[r] };
    let value = write_opening(&CODE, &[5, 7], &question, &mut opening, &mut work);
    assert_eq!(work, [0; 4]);
    (opening, value.unwrap())
}

/// The verdict on an opening of that polynomial at z under r.
fn judged(z: u32, y: u32, r: u32, queries: &[u32], opening: &[u32]) -> Result<Verdict, Refusal> {
    let claim = Claim {
        z: &[z],
        y,
        r: &[r],
        queries,
    };
    let verdict = verdict(&CODE, &BLOCK, &claim, opening);
    let result = verify_opening(&CODE, &BLOCK, &claim, opening);
    assert_eq!(result.is_ok(), verdict == Ok(Verdict::Accepted));
    verdict
}

#[test]
fn openings() {
    let rejected = |failure| Ok(Verdict::Rejected(failure));
    assert_eq!(opened(3, 4), (OPENING, 26));
    assert_eq!(judged(3, 26, 4, &[0, 1], &OPENING), Ok(Verdict::Accepted));
    let sum = rejected(Failure::Sum(1));
    assert_eq!(judged(3, 27, 4, &[0, 1], &OPENING), sum);
    // The length of the query list and its words are judged by 7, not by 3 and 4.
    for queries in [&[2][..], &[P], &[u32::MAX], &[], &[0; 257]] {
        let refused = Err(Refusal::Queries);
        assert_eq!(judged(3, 26, 4, queries, &OPENING), refused);
    }
    let with = |place: usize, word| {
        let mut opening = OPENING;
        opening[place] = word;
        judged(3, 26, 4, &[0], &opening)
    };
    assert_eq!(with(3, 34), rejected(Failure::Final));
    assert_eq!(with(5, 34), rejected(Failure::Base(1)));

    // Here eq is 0: the final check says nothing about the value at r, the folds still decide.
    let (mut opening, value) = opened(0, 1);
    assert_eq!((value, opening), (5, [5, 0, 2_147_483_628, 12, 12, 12]));
    assert_eq!(judged(0, 5, 1, &[0], &opening), Ok(Verdict::Accepted));
    opening[3..].fill(13);
    let fold = Failure::Fold { query: 0, level: 0 };
    assert_eq!(judged(0, 5, 1, &[0], &opening), rejected(fold));
}

/// A place too large is 7 wherever it stands; else a repeat is 11, before any check.
#[test]
fn repeated_queries() {
    let judged = |queries: &[u32]| {
        let verdict = judged(3, 26, 4, queries, &OPENING);
        // The same with a value that a check would reject.
        assert_eq!(judged(3, 27, 4, queries, &OPENING), verdict);
        verdict
    };
    for queries in [&[0, 0][..], &[1, 0, 1], &[0, 1, 1], &[1; 256]] {
        assert_eq!(judged(queries), Err(Refusal::Repeated));
    }
    for queries in [&[0, 0, 2][..], &[2, 0, 0], &[0, 2, 0], &[2, 2], &[0; 257]] {
        assert_eq!(judged(queries), Err(Refusal::Queries));
    }
    let refused = |code: &Code<'_>, block: &[u32]| {
        let claim = Claim {
            z: &[3],
            y: 26,
            r: &[4],
            queries: &[0, 0],
        };
        verdict(code, block, &claim, &OPENING).unwrap_err()
    };
    assert_eq!(refused(&CODE, &BLOCK), Refusal::Repeated);
    let word = high(Input::Block, 2, P);
    assert_eq!(refused(&CODE, &[19, 26, P, 5]), word);
    assert_eq!(refused(&CODE, &BLOCK[1..]), Refusal::Length);
    let mut zero = CODE;
    zero.g = &[1, 0];
    assert_eq!(refused(&zero, &BLOCK), Refusal::BaseRow { index: 1 });
}

#[test]
fn openings_at_depth_0() {
    let judged = |y, queries: &[u32]| {
        let claim = Claim {
            z: &[],
            y,
            r: &[],
            queries,
        };
        verdict(&DEPTH_0, &[9, 9], &claim, &[9])
    };
    let (mut opening, mut work) = ([77], [77; 2]);
    let question = Question { z: &[], r: &[] };
    let value = write_opening(&DEPTH_0, &[9], &question, &mut opening, &mut work);
    assert_eq!((value, opening, work), (Ok(9), [9], [0; 2]));
    assert_eq!(judged(9, &[]), Ok(Verdict::Accepted));
    assert_eq!(judged(8, &[]), Ok(Verdict::Rejected(Failure::Final)));
    assert_eq!(judged(9, &[0]), Err(Refusal::Queries));
    assert_eq!(judged(9, &[0, 0]), Err(Refusal::Queries));
}

/// At depth 2 the second query, 2, goes on at place 0 of level 1, where a word is wrong.
#[test]
fn query_and_level_of_a_wrong_fold() {
    let (t, t2) = ([2, 3, 4, 5, 6, 7], [8, 9, 10, 11, 12, 13]);
    let code = Code::new(FIELD, 2, 2, &[1, 1], &t, &t2);
    let message = [5, 7, 11, 13];
    let (z, r) = ([3, 4], [5, 6]);
    let (done, block, []) = encoded::<8>(&code, &message);
    assert_eq!(done, Ok(()));
    assert_eq!(block, [167, 276, 751, 964, 389, 576, 1441, 1732]);
    let (mut opening, mut work) = ([77; 13], [77; 8]);
    let question = Question { z: &z, r: &r };
    let y = write_opening(&code, &message, &question, &mut opening, &mut work).unwrap();
    assert_eq!(y, 226);
    opening[7] += 1; // place 0 of block 1
    let judged = |queries: &[u32]| {
        let claim = Claim {
            z: &z,
            y,
            r: &r,
            queries,
        };
        verdict(&code, &block, &claim, &opening).unwrap()
    };
    let wrong = |query, level| Verdict::Rejected(Failure::Fold { query, level });
    assert_eq!(judged(&[3]), Verdict::Accepted);
    assert_eq!(judged(&[3, 2]), wrong(1, 0));
    assert_eq!(judged(&[3, 1, 0]), wrong(2, 1));
    assert_eq!(judged(&[0]).number(), 23);
}
