//! Filling by rule: both sides write the same words, and these are what the rule says.

use super::*;

/// Base row and diagonals before a call.
#[derive(Clone, PartialEq, Eq, Debug)]
struct Rows {
    g: Vec<u32>,
    t: Vec<u32>,
    t2: Vec<u32>,
}

impl Rows {
    /// Of these lengths, with words that mean nothing.
    fn of(g: usize, t: usize, t2: usize) -> Rows {
        let [g, t, t2] = [g, t, t2].map(|len| vec![0xfeed_beef; len]);
        Rows { g, t, t2 }
    }

    fn filled<S: Filling>(&self, depth: u32, rate: u32) -> (Answer, Rows) {
        let mut rows = self.clone();
        let Rows { g, t, t2 } = &mut rows;
        let answer = S::fill_roots(depth, rate, Filled { g, t, t2 });
        (answer, rows)
    }

    /// What both sides answer and write.
    fn by_both(&self, depth: u32, rate: u32) -> (u32, Rows) {
        let found = self.filled::<Library<TV_FIELD_2>>(depth, rate);
        assert!(found == self.filled::<Plain<Barrett>>(depth, rate));
        let (answer, rows) = found;
        assert_eq!((answer.first, answer.second), (0, 0));
        if answer.number != 0 {
            assert!(rows == *self, "a refusal writes nothing");
        }
        (answer.number, rows)
    }
}

/// a b modulo p, by a division.
fn times(a: u32, b: u32) -> u32 {
    (u64::from(a) * u64::from(b) % u64::from(SECOND)) as u32
}

/// Ones; the powers of a root, which makes -1 of half its order and so has that order; their negatives.
fn check_rule(sizes: Sizes, rows: &Rows) {
    assert!(rows.g.iter().all(|&word| word == 1));
    for level in 0..sizes.depth {
        let t = &rows.t[sizes.diagonal(level)];
        assert_eq!(t[0], 1);
        let root = t[1];
        assert!(t.windows(2).all(|pair| pair[1] == times(pair[0], root)));
        assert_eq!(times(t[t.len() - 1], root), SECOND - 1);
    }
    // One system of roots: that of a level is the square of the next level's.
    for level in 1..sizes.depth {
        let [lower, upper] = [level - 1, level].map(|at| rows.t[sizes.diagonal(at)][1]);
        assert_eq!(times(upper, upper), lower);
    }
    let negative = |(&t, &t2): (&u32, &u32)| t + t2 == SECOND;
    assert!(rows.t.iter().zip(&rows.t2).all(negative));
}

#[test]
fn by_rule() {
    for depth in 0..=8 {
        for rate in [2, 4, 8, 16] {
            let sizes = Sizes { depth, rate };
            let due = sizes.diagonals();
            let (number, rows) = Rows::of(rate, due, due).by_both(depth as u32, rate as u32);
            assert_eq!(number, 0);
            check_rule(sizes, &rows);
        }
    }
}

/// The largest depth. The system of roots is that of 31^15, of order 2^27.
#[test]
fn largest_depth() {
    let sizes = Sizes { depth: 20, rate: 4 };
    let due = sizes.diagonals();
    let (number, rows) = Rows::of(4, due, due).by_both(20, 4);
    assert_eq!(number, 0);
    check_rule(sizes, &rows);
    let generator = (0..15).fold(1, |power, _| times(power, 31));
    // The highest level has 2^21 places, its root the order 2^22.
    let root = (22..27).fold(generator, |root, _| times(root, root));
    assert_eq!(rows.t[sizes.diagonal(19)][1], root);
}

#[test]
fn refusals() {
    let both = |rows: Rows, depth, rate| rows.by_both(depth, rate).0;
    assert_eq!(both(Rows::of(2, 2, 2), 21, 17), 1);
    for rate in [0, 1, 17, u32::MAX] {
        assert_eq!(both(Rows::of(2, 2, 2), 1, rate), 2);
    }
    for (g, t, t2) in [(3, 6, 6), (2, 5, 6), (2, 6, 7), (0, 0, 0)] {
        assert_eq!(both(Rows::of(g, t, t2), 2, 2), 3);
    }
    // A length that is not due comes before a rate that is no power of two.
    assert_eq!(both(Rows::of(3, 9, 8), 2, 3), 3);
    for rate in (2..=16u32).filter(|rate| !rate.is_power_of_two()) {
        let due = 3 * rate as usize;
        assert_eq!(both(Rows::of(rate as usize, due, due), 2, rate), 12);
    }
}

/// All jobs over what was filled.
#[test]
fn jobs_over_filled_rows() {
    let [_, field] = FIELDS;
    let mut numbers = Numbers::new();
    for (depth, rate) in [(1, 2), (5, 4), (9, 8), (4, 16)] {
        let sizes = Sizes { depth, rate };
        let due = sizes.diagonals();
        let (_, rows) = Rows::of(rate, due, due).by_both(depth as u32, rate as u32);
        let mut inputs = (field.drawn)(sizes, 10);
        let highest = sizes.diagonal(depth - 1);
        inputs.fold_t = rows.t[highest.clone()].to_vec();
        inputs.fold_t2 = rows.t2[highest].to_vec();
        (inputs.g, inputs.t, inputs.t2) = (rows.g, rows.t, rows.t2);
        inputs.block = written(&field, Job::Encode, &inputs).result;
        inputs.opening = written(&field, Job::Write, &inputs).result;
        compare(&field, &inputs, &[], &mut numbers);
    }
    assert_eq!(numbers, Numbers::from([0]));
}

fn written(field: &Field, job: Job, inputs: &Inputs) -> Buffers {
    run(field.plain[0], job, inputs, &Buffers::of(job, inputs)).1
}
