//! Base messages of two and four words: their words by hand and by plain integers, what is refused, and in
//! which order.

use tvarchula::*;

const FIELD: Field = Field::Mersenne31;
const P: u32 = 2_147_483_647;
/// Two rows, 1 0 1 1 and 0 1 1 2: a base message a, b has the codeword a, b, a + b, a + 2 b.
const TWO: Code<'static> = Code::new(
    FIELD,
    1,
    2,
    &[1, 0, 1, 1, 0, 1, 1, 2],
    &[1, 2, 3, 4],
    &[5, 6, 7, 8],
)
.with_base_words(2);
/// f is 1 + 2 X_0 + 3 X_1 + 4 X_0 X_1.
const MESSAGE: [u32; 4] = [1, 2, 3, 4];
/// The halves' codewords are 1 2 3 5 and 3 4 7 11.
const BLOCK: [u32; 8] = [4, 10, 24, 49, 16, 26, 52, 93];
/// The round is (7 + 15 X)(7 X - 3), by the challenge 2.
const OPENING: [u32; 9] = [P - 21, 88, 407, 7, 10, 7, 10, 17, 27];
const CLAIM: Claim<'static> = Claim {
    z: &[3, 4],
    y: 67,
    r: &[2],
    queries: &[0, 1, 2, 3],
};

fn verified(code: &Code<'_>, claim: &Claim<'_>, opening: &[u32]) -> Result<(), VerifyError> {
    verify_opening(code, &BLOCK, claim, opening)
}

#[test]
fn one_is_the_default() {
    let code = Code::new(FIELD, 1, 2, &[1, 1], &[2, 3], &[4, 5]);
    assert_eq!(code.k0, 1);
    assert_eq!(code.with_base_words(1), code);
    assert_eq!(code.parameters(), Parameters::new(1, 2));
    let four = code.with_base_words(4);
    assert_eq!((four.k0, four.depth, four.g), (4, 1, code.g));
    let due = Parameters::new(1, 2).with_base_words(4);
    assert_eq!(four.parameters(), due);
}

#[test]
fn two_words_by_hand() {
    let mut block = [77; 8];
    assert_eq!(encode(&TWO, &MESSAGE, &mut block), Ok(()));
    assert_eq!(block, BLOCK);
    let (mut message, mut work) = ([77; 4], [77; 8]);
    let done = decode(&TWO, &BLOCK, &mut message, &mut work);
    assert_eq!((done, message, work), (Ok(()), MESSAGE, [0; 8]));
    let mut folded = [77; 4];
    assert_eq!(TWO.fold(1, &BLOCK, 2, &mut folded), Ok(()));
    assert_eq!(folded, [7, 10, 17, 27]);
    assert_eq!(TWO.evaluate(&MESSAGE, &[3, 4]), Ok(67));
    let (mut table, mut work) = ([77; 4], [77; 4]);
    let done = TWO.coefficients_to_table(&MESSAGE, &mut table, &mut work);
    assert_eq!((done, table, work), (Ok(()), [1, 3, 4, 10], [0; 4]));
    let mut message = [77; 4];
    assert_eq!(TWO.table_to_coefficients(&table, &mut message), Ok(()));
    assert_eq!(message, MESSAGE);
}

#[test]
fn an_opening_by_hand() {
    let question = Question {
        z: CLAIM.z,
        r: CLAIM.r,
    };
    let (mut opening, mut work) = ([77; 9], [77; 8]);
    let y = write_opening(&TWO, &MESSAGE, &question, &mut opening, &mut work);
    assert_eq!((y, opening, work), (Ok(67), OPENING, [0; 8]));
    assert_eq!(verified(&TWO, &CLAIM, &OPENING), Ok(()));
    let rejected = |failure| Err(VerifyError::Rejected(failure));
    let other = Claim { y: 66, ..CLAIM };
    assert_eq!(verified(&TWO, &other, &OPENING), rejected(Failure::Sum(1)));
    // The last sum counts the first coefficient once and the second three times: -3 and 1 leave it as it is.
    let with = |v: [u32; 2]| {
        let mut opening = OPENING;
        opening[3..5].copy_from_slice(&v);
        verified(&TWO, &CLAIM, &opening)
    };
    assert_eq!(with([8, 10]), rejected(Failure::Final));
    assert_eq!(with([7, 11]), rejected(Failure::Final));
    assert_eq!(with([4, 11]), rejected(Failure::Base(0)));
    for j in 0..4 {
        let mut opening = OPENING;
        opening[5 + j] += 1;
        let base = rejected(Failure::Base(j as u32));
        assert_eq!(verified(&TWO, &CLAIM, &opening), base);
    }
    for place in 0..8 {
        let mut block = BLOCK;
        block[place] += 1;
        let found = verify_opening(&TWO, &block, &CLAIM, &OPENING);
        let query = place as u32 % 4;
        let fold = Failure::Fold { query, level: 0 };
        // The challenge stands in T at place 1, where the second half does not count.
        let due = if place == 5 { Ok(()) } else { rejected(fold) };
        assert_eq!(found, due);
    }
    let places = [4, 0];
    let refused = Err(VerifyError::Refused(Refusal::Queries));
    let claim = Claim {
        queries: &places,
        ..CLAIM
    };
    assert_eq!(verified(&TWO, &claim, &OPENING), refused);
}

/// Of several reasons the first in the order 1, 2, 13, 3 is given; an illegal k0 counts as 1 for 1.
#[test]
fn refusals_in_their_order() {
    let refused = |depth, rate, k0| {
        let mut code = TWO.with_base_words(k0);
        (code.depth, code.rate) = (depth, rate);
        let (mut out, mut work) = ([77; 3], [77; 3]);
        let question = Question { z: &[1], r: &[1] };
        let claim = Claim { z: &[1], ..CLAIM };
        let answers = [
            encode(&code, &[1; 3], &mut out),
            decode(&code, &[1; 3], &mut out, &mut work),
            write_opening(&code, &[1; 3], &question, &mut out, &mut work).map(drop),
            verdict(&code, &[1; 3], &claim, &[1; 3]).map(|_| ()),
        ];
        assert_eq!((out, work), ([77; 3], [77; 3]));
        assert!(answers.iter().all(|answer| *answer == answers[0]));
        answers[0].unwrap_err()
    };
    for k0 in [0, 3, 5, 8, u32::MAX] {
        assert_eq!(refused(21, 1, k0), Refusal::Depth);
        assert_eq!(refused(20, 1, k0), Refusal::Rate);
        assert_eq!(refused(20, 2, k0), Refusal::BaseWords);
        assert_eq!(refused(0, 16, k0), Refusal::BaseWords);
        let code = TWO.with_base_words(k0);
        assert_eq!(code.evaluate(&[1; 3], &[1]), Err(Refusal::BaseWords));
        let table = code.table_to_coefficients(&[1; 2], &mut [77; 3]);
        assert_eq!(table, Err(Refusal::BaseWords));
        let table = code.table_to_coefficients(&[1; 3], &mut [77; 3]);
        assert_eq!(table, Err(Refusal::Depth));
        let back = code.coefficients_to_table(&[P; 2], &mut [77; 2], &mut [77; 2]);
        assert_eq!(back, Err(Refusal::BaseWords));
        let fold = code.fold(1, &BLOCK, 2, &mut [77; 4]);
        assert_eq!(fold, Err(Refusal::BaseWords));
        assert_eq!(refused(0, 2, k0).number(), 13);
    }
    for (k0, deep) in [(1, 21), (2, 20), (4, 19)] {
        assert_eq!(refused(deep, 1, k0), Refusal::Depth);
        assert_eq!(refused(deep - 1, 1, k0), Refusal::Rate);
        assert_eq!(refused(deep - 1, 2, k0), Refusal::Length);
        let code = TWO.with_base_words(k0);
        assert_eq!(code.fold(0, &BLOCK, 2, &mut []), Err(Refusal::Depth));
        assert_eq!(code.fold(deep, &BLOCK, 2, &mut []), Err(Refusal::Depth));
        // The code has diagonals of one level.
        assert_eq!(code.fold(2, &BLOCK, 2, &mut []), Err(Refusal::Length));
    }
    // Fewer entries than a base message has words.
    let four = TWO.with_base_words(4);
    let table = four.table_to_coefficients(&[1; 2], &mut [77; 2]);
    assert_eq!(table, Err(Refusal::Depth));
    assert_eq!(four.evaluate(&[1; 8], &[1; 2]), Err(Refusal::Length));
    assert_eq!(four.evaluate(&[1; 8], &[1; 3]), Ok(8));
}

/// 5 is about the first columns, and a zero alone is no reason.
#[test]
fn rows_without_an_inverse() {
    let encoded = |g| {
        let mut code = TWO;
        code.g = g;
        encode(&code, &MESSAGE, &mut [77; 8])
    };
    assert_eq!(encoded(&[1, 2, 1, 0, 2, 4, 0, 1]), Err(Refusal::BaseRows));
    assert_eq!(encoded(&[0, 0, 1, 0, 0, 0, 0, 1]), Err(Refusal::BaseRows));
    assert_eq!(encoded(&[0, 1, 0, 0, 1, 0, 0, 0]), Ok(()));
    assert_eq!(Refusal::BaseRows.number(), 5);
    let high = Refusal::Word {
        field: FIELD,
        input: Input::G,
        index: 5,
        word: P,
    };
    assert_eq!(encoded(&[1, 2, 1, 0, 2, P, 0, P]), Err(high));
}

/// A number below p, from a seeded generator (splitmix64).
fn drawn(seed: &mut u64, p: u32) -> u32 {
    *seed = seed.wrapping_add(0x9e37_79b9_7f4a_7c15);
    let mut z = *seed;
    z = (z ^ (z >> 30)).wrapping_mul(0xbf58_476d_1ce4_e5b9);
    z = (z ^ (z >> 27)).wrapping_mul(0x94d0_49bb_1331_11eb);
    ((z ^ (z >> 31)) % u64::from(p)) as u32
}

/// The codeword of a message: by halves down to base messages, each times the rows.
fn codeword(code: &Code<'_>, level: u32, message: &[u32]) -> Vec<u64> {
    let p = u64::from(code.field.modulus());
    let sizes = code.parameters();
    let n = sizes.block_len(0);
    if level == 0 {
        let word = |j: usize| {
            let terms = message.iter().enumerate();
            terms.fold(0, |sum, (b, &word)| {
                (sum + u64::from(word) * u64::from(code.g[b * n + j])) % p
            })
        };
        return (0..n).map(word).collect();
    }
    let (left, right) = message.split_at(message.len() / 2);
    let [left, right] = [left, right].map(|half| codeword(code, level - 1, half));
    let start = n * ((1 << (level - 1)) - 1);
    let half = |diagonal: &[u32]| -> Vec<u64> {
        let words = left.iter().zip(&right).zip(&diagonal[start..]);
        words
            .map(|((l, r), &t)| (l + r * u64::from(t)) % p)
            .collect()
    };
    [half(code.t), half(code.t2)].concat()
}

#[test]
fn codewords_folds_and_openings_by_plain_integers() {
    for field in [Field::Mersenne31, Field::BabyBear] {
        let p = field.modulus();
        let mut seed = u64::from(p);
        for k0 in [2, 4] {
            for (depth, rate) in [(0, 2), (1, 3), (2, 2), (3, 16), (5, 4)] {
                let sizes = Parameters::new(depth, rate).with_base_words(k0);
                let mut words =
                    |len| -> Vec<u32> { (0..len).map(|_| drawn(&mut seed, p)).collect() };
                let g = words(sizes.rows_len());
                let t = words(sizes.diagonals_len());
                let t2: Vec<u32> = t.iter().map(|word| (word + 1) % p).collect();
                let code = Code::new(field, depth, rate, &g, &t, &t2).with_base_words(k0);
                let message = words(sizes.message_len());
                let (z, r) = (words(sizes.point_len()), words(depth as usize));
                let mut block = vec![77; sizes.block_len(depth)];
                assert_eq!(encode(&code, &message, &mut block), Ok(()));
                let due = codeword(&code, depth, &message);
                assert!(block
                    .iter()
                    .zip(&due)
                    .all(|(&word, &due)| u64::from(word) == due));
                opened(&code, &message, &block, &z, &r);
            }
        }
    }
}

/// Decoded, folded down to the base, opened and verified.
fn opened(code: &Code<'_>, message: &[u32], block: &[u32], z: &[u32], r: &[u32]) {
    let (sizes, depth) = (code.parameters(), code.depth);
    let (mut decoded, mut work) = (vec![77; message.len()], vec![77; block.len()]);
    assert_eq!(decode(code, block, &mut decoded, &mut work), Ok(()));
    assert_eq!(decoded, message);
    let mut opening = vec![77; sizes.opening_len()];
    let mut work = vec![77; 2 * message.len()];
    let question = Question { z, r };
    let y = write_opening(code, message, &question, &mut opening, &mut work).unwrap();
    assert_eq!(code.evaluate(message, z), Ok(y));
    // Each lower block is the fold of the one above it.
    let (mut upper, mut place) = (block.to_vec(), 3 * depth as usize + code.k0 as usize);
    for level in (0..depth).rev() {
        let mut folded = vec![77; sizes.block_len(level)];
        let challenge = r[level as usize];
        assert_eq!(code.fold(level + 1, &upper, challenge, &mut folded), Ok(()));
        assert_eq!(opening[place..place + folded.len()], folded);
        place += folded.len();
        upper = folded;
    }
    assert_eq!(place, opening.len());
    let places = sizes.block_len(depth) as u32 / 2;
    let queries: Vec<u32> = (0..places.min(256)).rev().collect();
    let queries = if depth == 0 { &[] } else { &queries[..] };
    let verify = |y| verify_opening(code, block, &Claim { z, y, r, queries }, &opening);
    assert_eq!(verify(y), Ok(()));
    let failure = match depth {
        0 => Failure::Final,
        _ => Failure::Sum(depth),
    };
    let other = (y + 1) % code.field.modulus();
    assert_eq!(verify(other), Err(VerifyError::Rejected(failure)));
}

/// The forms with vectors take the same code.
#[cfg(feature = "alloc")]
#[test]
fn vectors() {
    assert_eq!(encode_vec(&TWO, &MESSAGE), Ok(BLOCK.to_vec()));
    assert_eq!(decode_vec(&TWO, &BLOCK), Ok(MESSAGE.to_vec()));
    let question = Question {
        z: CLAIM.z,
        r: CLAIM.r,
    };
    let opened = write_opening_vec(&TWO, &MESSAGE, &question);
    assert_eq!(opened, Ok((OPENING.to_vec(), 67)));
    for k0 in [0, 3, 8, u32::MAX] {
        let code = TWO.with_base_words(k0);
        assert_eq!(encode_vec(&code, &MESSAGE), Err(Refusal::BaseWords));
        assert_eq!(decode_vec(&code, &BLOCK), Err(Refusal::BaseWords));
        let refused = write_opening_vec(&code, &MESSAGE, &question);
        assert_eq!(refused, Err(Refusal::BaseWords));
    }
    let mut deep = TWO;
    deep.depth = 20;
    assert_eq!(encode_vec(&deep, &MESSAGE), Err(Refusal::Depth));
}

/// The largest message, at the smallest rate.
#[cfg(feature = "alloc")]
#[test]
fn largest() {
    for (k0, depth) in [(2, 19), (4, 18)] {
        let sizes = Parameters::new(depth, 2).with_base_words(k0);
        let n = sizes.block_len(0);
        // Ones in the first row, and a one in its own column in each other.
        let word = |j: usize| u32::from(j < n || j / n == j % n);
        let g: Vec<u32> = (0..sizes.rows_len()).map(word).collect();
        let (t, t2) = (
            vec![2; sizes.diagonals_len()],
            vec![3; sizes.diagonals_len()],
        );
        let code = Code::new(Field::BabyBear, depth, 2, &g, &t, &t2).with_base_words(k0);
        let message: Vec<u32> = (0..sizes.message_len() as u32).collect();
        assert_eq!(message.len(), MAX_TABLE_LEN);
        let block = encode_vec(&code, &message).unwrap();
        assert_eq!(decode_vec(&code, &block).as_ref(), Ok(&message));
        let (z, r) = (vec![7; 20], vec![5; depth as usize]);
        let (opening, y) = write_opening_vec(&code, &message, &Question { z: &z, r: &r }).unwrap();
        let verify = |queries: &[u32]| {
            let (z, r) = (&z, &r);
            verify_opening(&code, &block, &Claim { z, y, r, queries }, &opening)
        };
        let half = sizes.block_len(depth) as u32 / 2;
        assert_eq!(verify(&[0, half / 2, half - 1]), Ok(()));
        let refused = Err(VerifyError::Refused(Refusal::Queries));
        assert_eq!(verify(&[0, half]), refused);
    }
}
