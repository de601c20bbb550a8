//! Whether the place that a refusal names is the first which offends, looked up in the call as lent and
//! not in what any side says.

use crate::call::{Input, Lent};
use tvarchula_reference::Answer;

/// Of 4, 5 and 6: something offends at the named place, and nothing does before it.
pub fn is_first(lent: &Lent, answer: Answer) -> bool {
    let index = answer.first as usize;
    match (answer.number, answer.second) {
        (4, input) => is_first_word(lent, input, index),
        (5, 0) if lent.k0() > 1 => index == 0 && is_singular(lent),
        (5, 0) => ends_at(lent, Input::G, index, |word, _| word == 0),
        (6, 0) => ends_at(lent, Input::T, index, |word, j| {
            lent.words(Input::T2).get(j) == Some(&word)
        }),
        _ => false,
    }
}

/// Whether the word is the modulus of the lent field or more, and every word before it in its input and in those before is not.
fn is_first_word(lent: &Lent, number: u32, index: usize) -> bool {
    let judged = || {
        let inputs = lent.words.keys();
        inputs.filter_map(|&input| Some((input, input.number()?)))
    };
    let Some((named, _)) = judged().find(|(_, other)| *other == number) else {
        return false;
    };
    let mut before = judged().filter(|(_, other)| *other < number);
    let high = |word: &u32| *word >= lent.field.modulus();
    before.all(|(input, _)| !lent.words(input).iter().any(high))
        && ends_at(lent, named, index, |word, _| high(&word))
}

/// Whether the first k0 columns of the base rows have the determinant 0.
fn is_singular(lent: &Lent) -> bool {
    let (k0, g) = (lent.k0() as usize, lent.words(Input::G));
    let rows: Vec<&[u32]> = g.chunks(g.len() / k0).collect();
    let columns: Vec<usize> = (0..k0).collect();
    determinant(&rows, &columns, lent.field.modulus().into()) == 0
}

/// By the minors of the first row.
fn determinant(rows: &[&[u32]], columns: &[usize], p: u64) -> u64 {
    let Some((first, rest)) = rows.split_first() else {
        return 1;
    };
    let mut sum = 0;
    for (k, &column) in columns.iter().enumerate() {
        let others = [&columns[..k], &columns[k + 1..]].concat();
        let product = u64::from(first[column]) * determinant(rest, &others, p) % p;
        sum = (sum + if k % 2 == 0 { product } else { p - product }) % p;
    }
    sum
}

/// Whether the first word of an input that offends stands at this index.
fn ends_at(lent: &Lent, input: Input, index: usize, offends: impl Fn(u32, usize) -> bool) -> bool {
    let Some(words) = lent.words.get(&input) else {
        return false;
    };
    let offends = |j: usize| offends(words[j], j);
    index < words.len() && offends(index) && !(0..index).any(offends)
}

#[cfg(test)]
mod tests {
    use super::*;
    use tvarchula_reference::{over_both, Field};

    over_both!(the_first_word_of_the_first_input the_first_zero_and_the_first_pair several_rows);

    fn lent<const P: u32>(inputs: &[(Input, &[u32])]) -> Lent {
        let words = inputs.iter().map(|(input, words)| (*input, words.to_vec()));
        Lent {
            field: Field::of(P),
            words: words.collect(),
            ..Lent::default()
        }
    }

    fn named(lent: &Lent, number: u32, first: u32, second: u32) -> bool {
        let answer = Answer {
            number,
            first,
            second,
        };
        is_first(lent, answer)
    }

    /// The only answer of all that is right.
    fn only(lent: &Lent, number: u32, due: (u32, u32)) {
        for first in 0..6 {
            for second in 0..10 {
                let right = named(lent, number, first, second);
                assert_eq!(right, (first, second) == due, "{first} {second}");
            }
        }
    }

    fn the_first_word_of_the_first_input<const P: u32>() {
        let all: [(Input, &[u32]); 5] = [
            (Input::G, &[1, 2]),
            (Input::Block, &[0, P, 3, P]),
            (Input::Z, &[P]),
            (Input::Queries, &[P]),
            (Input::Opening, &[P, P]),
        ];
        only(&lent::<P>(&all), 4, (1, 4));
        only(&lent::<P>(&all[2..]), 4, (0, 5));
        only(&lent::<P>(&all[3..]), 4, (0, 8));
        assert!(!named(&lent::<P>(&all[3..4]), 4, 0, 0));
        only(&lent::<P>(&[(Input::Word, &[P + 1])]), 4, (0, 4));
        only(&lent::<P>(&[(Input::Message, &[P - 1, P])]), 4, (1, 4));
        let folded: [(Input, &[u32]); 2] = [(Input::Block, &[1]), (Input::Challenge, &[P])];
        only(&lent::<P>(&folded), 4, (0, 7));
    }

    /// Of several rows index 0 is named, and only where the first columns have no inverse.
    fn several_rows<const P: u32>() {
        let of = |k0, g: &[u32]| {
            let mut lent = lent::<P>(&[(Input::G, g)]);
            lent.parameters.k0 = k0;
            lent
        };
        // Rows 1 2 and 2 4, 0 1 and 1 0, 0 0 and 0 0, with two columns more.
        only(&of(2, &[1, 2, 3, 4, 2, 4, 0, 1]), 5, (0, 0));
        only(&of(2, &[0, 1, 0, 0, 1, 0, 0, 0]), 5, (u32::MAX, 0));
        only(&of(2, &[0, 0, 0, 1, 0, 0, 1, 0]), 5, (0, 0));
        // Two blocks, of the determinants -2 and 5 x - 42: there is no inverse where x is 42 / 5.
        let four = |x: u32| {
            let rows = [[1, 2, 0, 0], [3, 4, 0, 0], [0, 0, 5, 6], [0, 0, 7, x]];
            rows.map(|row| [row, [9; 4]].concat()).concat()
        };
        let root = (1..=5).find_map(|k| {
            let multiple = u64::from(P) * k + 42;
            (multiple % 5 == 0).then_some((multiple / 5) as u32 % P)
        });
        only(&of(4, &four(root.expect("5 has an inverse"))), 5, (0, 0));
        only(&of(4, &four(9)), 5, (u32::MAX, 0));
    }

    fn the_first_zero_and_the_first_pair<const P: u32>() {
        let row = lent::<P>(&[(Input::G, &[1, 1, 0, 2, 0])]);
        only(&row, 5, (2, 0));
        let pair = lent::<P>(&[(Input::T, &[1, 0, 3, 4]), (Input::T2, &[2, 1, 3, 4])]);
        only(&pair, 6, (2, 0));
        let none: [(Input, &[u32]); 3] =
            [(Input::G, &[1]), (Input::T, &[1, 2]), (Input::T2, &[2, 1])];
        for number in [4, 5, 6] {
            only(&lent::<P>(&none), number, (u32::MAX, 0));
        }
    }
}
