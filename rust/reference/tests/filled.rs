//! What follows for a code that was filled: it is legal, and its codewords are lists of values of one
//! polynomial. These are computed here word by word, from the order's text alone.

use tvarchula_reference::sample::{Rng, STYLES};
use tvarchula_reference::{Answer, CodeJobs, Field, Layout, LentCode, OpeningJobs, Reference};

const P: u64 = 2_013_265_921;

fn power(base: u64, exponent: u64) -> u64 {
    (0..exponent).fold(1, |product, _| product * base % P)
}

/// The root of unity of an order that is a power of two, by squares of 31^15.
fn root(order: usize) -> u64 {
    let mut root = power(31, 15);
    let mut found = 1 << 27;
    while found > order {
        root = root * root % P;
        found /= 2;
    }
    root
}

/// The bits of a number, of which there are so many, in reversed order.
fn reversed(number: usize, bits: usize) -> usize {
    (0..bits).fold(0, |reversed, i| 2 * reversed + (number >> i) % 2)
}

/// The value at x of the polynomial with these coefficients, from the highest down.
fn horner(coefficients: &[u64], x: u64) -> u64 {
    let highest_first = coefficients.iter().rev();
    highest_first.fold(0, |value, coefficient| (value * x + coefficient) % P)
}

/// What filling writes, where it is done.
fn filled(sizes: Layout) -> [Vec<u32>; 3] {
    let lengths = [sizes.rate, sizes.diagonals(), sizes.diagonals()];
    let mut rows = lengths.map(|length| vec![u32::MAX; length]);
    let [g, t, t2] = &mut rows;
    let answer = Reference::fill_roots(sizes.parameters(), g, t, t2);
    assert_eq!(answer, Answer::DONE);
    rows
}

fn lent(sizes: Layout, [g, t, t2]: &[Vec<u32>; 3]) -> LentCode<'_> {
    LentCode {
        field: Field::Second,
        parameters: sizes.parameters(),
        g,
        t,
        t2,
    }
}

/// Every size with a block of at most 2048 words.
fn sizes() -> impl Iterator<Item = Layout> {
    let every = (0..=10).flat_map(|depth| [2, 4, 8, 16].map(|rate| Layout::one(depth, rate)));
    every.filter(|sizes| sizes.top_block() <= 2048)
}

#[test]
fn codewords_are_values_of_one_polynomial() {
    let mut rng = Rng::new(Field::Second, 30);
    for sizes in sizes() {
        let rows = filled(sizes);
        for style in STYLES {
            let message = rng.words(sizes.message(), style);
            let mut block = vec![u32::MAX; sizes.top_block()];
            let answer = Reference::encode(lent(sizes, &rows), &message, &mut block);
            assert_eq!(answer, Answer::DONE);
            let degree = |j| u64::from(message[reversed(j, sizes.depth)]);
            let coefficients: Vec<u64> = (0..message.len()).map(degree).collect();
            let (root, mut x) = (root(block.len()), 1);
            for (j, &word) in block.iter().enumerate() {
                let value = horner(&coefficients, x);
                assert_eq!(u64::from(word), value, "{sizes:?} word {j}");
                x = x * root % P;
            }
        }
    }
}

/// Every word by running products, where the reference takes powers; and T and T' differ.
#[test]
fn words_of_the_diagonals() {
    for sizes in sizes() {
        let [g, t, t2] = filled(sizes);
        assert!(g.iter().all(|&word| word == 1));
        for level in 0..sizes.depth {
            let (root, mut x) = (root(2 * sizes.block(level)), 1);
            for j in sizes.diagonal(level) {
                assert_eq!([t[j], t2[j]].map(u64::from), [x, P - x]);
                x = x * root % P;
            }
        }
    }
}

#[test]
fn a_filled_code_opens() {
    let mut rng = Rng::new(Field::Second, 31);
    for sizes in sizes().filter(|sizes| sizes.depth > 0) {
        let rows = filled(sizes);
        let code = lent(sizes, &rows);
        let style = rng.pick(&STYLES);
        let message = rng.words(sizes.message(), style);
        let [z, r] = [0; 2].map(|_| rng.words(sizes.depth, style));
        let mut block = vec![0; sizes.top_block()];
        let (mut opening, mut y) = (vec![0; sizes.opening()], 0);
        let mut work = vec![0; 2 * sizes.message()];
        assert_eq!(Reference::encode(code, &message, &mut block), Answer::DONE);
        let written =
            Reference::write_opening(code, &message, &z, &r, &mut opening, &mut work, &mut y);
        assert_eq!(written, Answer::DONE);
        let queries = [rng.below(sizes.top_block() / 2) as u32];
        let verdict = Reference::verify_opening(code, &block, &z, y, &r, &queries, &opening);
        assert_eq!(verdict, Answer::DONE);
    }
}
