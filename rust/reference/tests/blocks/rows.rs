//! Refusal 5: of several rows the first k0 columns have no inverse, of one row some word is zero.

use tvarchula_reference::sample::{Rng, Style, STYLES};
use tvarchula_reference::{over_both, Answer, Field, Layout, LentCode, Reference};
use tvarchula_reference::{CodeJobs, OpeningJobs};

over_both!(every_rank every_job two_rows four_rows_of_zeros_and_ones one_row);

const DONE: (u32, u32, u32) = (0, 0, 0);
const REFUSED: (u32, u32, u32) = (5, 0, 0);

fn places(answer: Answer) -> (u32, u32, u32) {
    (answer.number, answer.first, answer.second)
}

/// Encoding zeros at depth 0 under these rows.
fn encode<const P: u32>(layout: Layout, g: &[u32]) -> (u32, u32, u32) {
    let lent = LentCode {
        field: Field::of(P),
        parameters: layout.parameters(),
        g,
        t: &[],
        t2: &[],
    };
    let mut block = vec![0; layout.top_block()];
    places(Reference::encode(
        lent,
        &vec![0; layout.message()],
        &mut block,
    ))
}

/// At depth 0, two or four rows.
fn of(k0: usize, rate: usize) -> Layout {
    Layout { depth: 0, rate, k0 }
}

fn every_rank<const P: u32>() {
    let mut rng = Rng::new(Field::of(P), 60);
    for k0 in [2, 4] {
        for rank in 0..=k0 {
            for rate in 2..=16 {
                for style in STYLES {
                    let g = rng.base_rows(&of(k0, rate), rank, style);
                    let due = if rank == k0 { DONE } else { REFUSED };
                    assert_eq!(encode::<P>(of(k0, rate), &g), due, "rank {rank} of {g:?}");
                }
            }
        }
    }
}

/// All four jobs that are lent the rows; with an equal pair too, which is 6 and comes later.
fn every_job<const P: u32>() {
    let mut rng = Rng::new(Field::of(P), 61);
    for k0 in [2, 4] {
        let layout = Layout {
            depth: 1,
            rate: 2,
            k0,
        };
        for rank in 0..k0 {
            let [_, t, _] = rng.code(&layout, Style::Random);
            let g = rng.base_rows(&layout, rank, Style::Random);
            let lent = LentCode {
                field: Field::of(P),
                parameters: layout.parameters(),
                g: &g,
                t: &t,
                t2: &t,
            };
            let [message, block] = [layout.message(), layout.top_block()].map(|n| vec![1; n]);
            let (mut out, mut work) = (block.clone(), block.clone());
            let (z, mut opening) = (vec![1; layout.point()], vec![1; layout.opening()]);
            let answers = [
                Reference::verify_opening(lent, &block, &z, 1, &[1], &[0], &opening),
                Reference::encode(lent, &message, &mut out),
                Reference::decode(lent, &block, &mut out[..message.len()], &mut work),
                Reference::write_opening(
                    lent,
                    &message,
                    &z,
                    &[1],
                    &mut opening,
                    &mut work[..2 * message.len()],
                    &mut 1,
                ),
            ];
            assert_eq!(answers.map(places), [REFUSED; 4]);
            assert!([out, work, opening].concat().iter().all(|&word| word == 1));
        }
    }
}

/// Every two rows that begin with 0, 1, 2, p - 1 or the half: legal just when a d and b c differ. The
/// words that follow are no matter.
fn two_rows<const P: u32>() {
    let words = [0, 1, 2, P - 1, P / 2 + 1];
    let product = |a: u32, b: u32| u64::from(a) * u64::from(b) % u64::from(P);
    for number in 0..625 {
        let [a, b, c, d] = [1, 5, 25, 125].map(|power| words[number / power % 5]);
        let due = if product(a, d) == product(b, c) {
            REFUSED
        } else {
            DONE
        };
        assert_eq!(encode::<P>(of(2, 2), &[a, b, 0, 0, c, d, 0, 0]), due);
        assert_eq!(encode::<P>(of(2, 2), &[a, b, 1, 0, c, d, 0, 1]), due);
    }
}

/// The determinant by the first row; of zeros and ones it is small, and 0 or not in every field.
fn determinant(rows: &[Vec<i32>]) -> i32 {
    let Some((first, below)) = rows.split_first() else {
        return 1;
    };
    let term = |j: usize| {
        let without = |row: &Vec<i32>| [&row[..j], &row[j + 1..]].concat();
        let minor: Vec<Vec<i32>> = below.iter().map(without).collect();
        let sign = if j % 2 == 0 { 1 } else { -1 };
        sign * first[j] * determinant(&minor)
    };
    (0..first.len()).map(term).sum()
}

fn four_rows_of_zeros_and_ones<const P: u32>() {
    let mut legal = 0;
    for number in 0..65_536_usize {
        let word = |k: usize| (number >> k & 1) as i32;
        let rows: Vec<Vec<i32>> = (0..4)
            .map(|b| (4 * b..4 * b + 4).map(word).collect())
            .collect();
        let g: Vec<u32> = rows
            .iter()
            .flat_map(|row| row.iter().map(|&word| word as u32).chain([1; 4]))
            .collect();
        let due = if determinant(&rows) == 0 {
            REFUSED
        } else {
            DONE
        };
        assert_eq!(encode::<P>(of(4, 2), &g), due, "{rows:?}");
        legal += usize::from(due == DONE);
    }
    // How many 4 by 4 matrices of zeros and ones have an inverse over the rationals.
    assert_eq!(legal, 22_560);
}

/// At k0 = 1 a zero anywhere, with its index.
fn one_row<const P: u32>() {
    for rate in 2..=16 {
        let row = vec![3; rate];
        assert_eq!(encode::<P>(of(1, rate), &row), DONE);
        for index in 0..rate {
            let mut row = row.clone();
            row[index..].fill(0);
            assert_eq!(encode::<P>(of(1, rate), &row), (5, index as u32, 0));
        }
    }
}
