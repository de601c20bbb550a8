//! k0 * 2^d is at most 1048576: what is done there, and what is refused one further on though its slices
//! fit.
//!
//! The message 9 0 0 .. is the polynomial 9, and with first columns 1 0 .. each of its codewords holds
//! 9 times the first row: here 9 everywhere.

use tvarchula_reference::{Answer, Field, Layout, LentCode, LentLevel, Reference};
use tvarchula_reference::{CodeJobs, GroundJobs, OpeningJobs};

const FIELD: Field = Field::First;

/// k0, and the largest depth.
const LIMITS: [(usize, usize); 3] = [(1, 20), (2, 19), (4, 18)];
/// Those above 1; what is done with k0 = 1 at depth 20 is among the order's numbers.
const SEVERAL: [(usize, usize); 2] = [(2, 19), (4, 18)];

/// A size and its slices at rate 2: the rows, T and T' are 2 and 3 everywhere.
struct Case {
    layout: Layout,
    code: [Vec<u32>; 3],
    message: Vec<u32>,
    block: Vec<u32>,
}

impl Case {
    fn new(k0: usize, depth: usize) -> Case {
        let layout = Layout { depth, rate: 2, k0 };
        let mut message = vec![0; k0 << depth];
        message[0] = 9;
        let diagonal = |word| vec![word; 2 * k0 * ((1 << depth) - 1)];
        Case {
            layout,
            code: [rows(k0), diagonal(2), diagonal(3)],
            message,
            block: vec![9; 2 * (k0 << depth)],
        }
    }

    fn lent(&self) -> LentCode<'_> {
        LentCode {
            field: FIELD,
            parameters: self.layout.parameters(),
            g: &self.code[0],
            t: &self.code[1],
            t2: &self.code[2],
        }
    }

    fn fold(&self) -> Answer {
        let half = self.block.len() / 2;
        let [t, t2] = [2, 3].map(|word| vec![word; half]);
        let lent = LentLevel {
            field: FIELD,
            parameters: self.layout.parameters(),
            t: &t,
            t2: &t2,
        };
        let mut out = vec![77; half];
        let answer = Reference::fold(lent, &self.block, 4, &mut out);
        let due = if answer == Answer::DONE { 9 } else { 77 };
        assert!(out.iter().all(|&word| word == due));
        answer
    }
}

/// The first row is ones; each further one has a one in its own column alone.
fn rows(k0: usize) -> Vec<u32> {
    let word = |b: usize, j: usize| u32::from(b == 0 || b == j);
    let row = |b: usize| (0..2 * k0).map(move |j| word(b, j));
    (0..k0).flat_map(row).collect()
}

#[test]
fn the_largest_code() {
    for (k0, depth) in SEVERAL {
        let case = Case::new(k0, depth);
        let mut block = vec![77; case.block.len()];
        let done = Reference::encode(case.lent(), &case.message, &mut block);
        assert_eq!(done, Answer::DONE);
        assert!(block == case.block);
        let (mut message, mut work) = (vec![77; case.message.len()], block);
        let done = Reference::decode(case.lent(), &case.block, &mut message, &mut work);
        assert_eq!(done, Answer::DONE);
        assert!(message == case.message && work.iter().all(|&word| word == 0));
        assert_eq!(case.fold(), Answer::DONE);
    }
}

#[test]
fn the_largest_opening() {
    for (k0, depth) in SEVERAL {
        let case = Case::new(k0, depth);
        let (z, r) = (vec![3; 20], vec![4; depth]);
        let mut opening = vec![77; 3 * depth + k0 + 2 * k0 * ((1 << depth) - 1)];
        let (mut work, mut y) = (vec![77; 2 << 20], 77);
        let (lent, message) = (case.lent(), &case.message);
        let done = Reference::write_opening(lent, message, &z, &r, &mut opening, &mut work, &mut y);
        assert_eq!((done, y), (Answer::DONE, 9));
        let (v, blocks) = opening[3 * depth..].split_at(k0);
        assert_eq!(v, &[9, 0, 0, 0][..k0]);
        assert!(blocks.iter().all(|&word| word == 9));
        let verify =
            |y, query| Reference::verify_opening(lent, &case.block, &z, y, &r, &[query], &opening);
        assert_eq!(verify(9, (1 << 20) - 1), Answer::DONE);
        assert_eq!(verify(9, 1 << 20), Answer::plain(7));
        assert_eq!(verify(8, 0).number, 20);
    }
}

#[test]
fn the_largest_table() {
    for (k0, depth) in SEVERAL {
        let Case {
            layout, message, ..
        } = Case::new(k0, depth);
        let parameters = layout.parameters();
        let mut value = 77;
        let done = Reference::evaluate(FIELD, parameters, &message, &[3; 20], &mut value);
        assert_eq!((done, value), (Answer::DONE, 9));
        let (mut table, mut work) = (vec![77; 1 << 20], vec![77; 1 << 20]);
        let done =
            Reference::coefficients_to_table(FIELD, parameters, &message, &mut table, &mut work);
        assert_eq!(done, Answer::DONE);
        assert!(table.iter().all(|&x| x == 9) && work.iter().all(|&word| word == 0));
        let done = Reference::table_to_coefficients(FIELD, parameters, &table, &mut work);
        assert_eq!(done, Answer::DONE);
        assert!(work == message);
    }
}

#[test]
fn one_further_on() {
    for (k0, depth) in LIMITS {
        let case = Case::new(k0, depth + 1);
        let lent = case.lent();
        let mut block = vec![77; case.block.len()];
        let encoded = Reference::encode(lent, &case.message, &mut block);
        let mut message = vec![77; case.message.len()];
        let mut work = vec![77; case.block.len()];
        let decoded = Reference::decode(lent, &case.block, &mut message, &mut work);
        let (z, r) = (vec![3; 21], vec![4; depth + 1]);
        let (mut opening, mut y) = (vec![77; case.layout.opening()], 77);
        let written =
            Reference::write_opening(lent, &case.message, &z, &r, &mut opening, &mut work, &mut y);
        let verified = Reference::verify_opening(lent, &case.block, &z, 9, &r, &[0], &opening);
        let evaluated = Reference::evaluate(FIELD, lent.parameters, &case.message, &z, &mut y);
        let answers = [encoded, decoded, written, verified, evaluated, case.fold()];
        assert_eq!(answers, [Answer::plain(1); 6]);
        let left = [block, message, work, opening, vec![y]].concat();
        assert!(left.iter().all(|&word| word == 77));
    }
}

#[test]
fn one_further_on_for_tables() {
    for (k0, depth) in LIMITS {
        let Case {
            layout, message, ..
        } = Case::new(k0, depth + 1);
        let (mut table, mut work) = (vec![9; 1 << 21], vec![77; 1 << 21]);
        let p = layout.parameters();
        let to = Reference::table_to_coefficients(FIELD, p, &table, &mut work);
        let back = Reference::coefficients_to_table(FIELD, p, &message, &mut table, &mut work);
        assert_eq!([to, back], [Answer::plain(1); 2]);
        assert!(table.iter().all(|&x| x == 9) && work.iter().all(|&word| word == 77));
    }
}
