//! Encoding, decoding and folding at small sizes.

use crate::plain::{generator, narrow, product, wide};
use crate::small_layouts;
use tvarchula_reference::sample::{Rng, Style, STYLES};
use tvarchula_reference::CodeJobs;
use tvarchula_reference::{over_both, Answer, Field, Layout, LentCode, LentLevel, Reference};

over_both!(
    a_codeword_is_the_message_times_the_block_matrix
    decoding_undoes_encoding
    a_block_with_one_other_word_is_no_codeword
    a_sum_of_codewords_decodes_to_the_sum
    a_fold_is_the_line
);

fn lent<'a, const P: u32>(layout: Layout, [g, t, t2]: &'a [Vec<u32>; 3]) -> LentCode<'a> {
    LentCode {
        field: Field::of(P),
        parameters: layout.parameters(),
        g,
        t,
        t2,
    }
}

fn encoded(lent: LentCode, layout: Layout, message: &[u32]) -> Vec<u32> {
    let mut block = vec![u32::MAX; layout.top_block()];
    assert_eq!(Reference::encode(lent, message, &mut block), Answer::DONE);
    block
}

/// The number, and the message that stands in the buffer. The work buffer is zero.
fn decoded(lent: LentCode, layout: Layout, block: &[u32]) -> (u32, Vec<u32>) {
    let mut message = vec![u32::MAX; layout.message()];
    let mut work = vec![u32::MAX; layout.top_block()];
    let answer = Reference::decode(lent, block, &mut message, &mut work);
    assert_eq!((answer.first, answer.second), (0, 0));
    assert!(work.iter().all(|&word| word == 0));
    (answer.number, message)
}

fn a_codeword_is_the_message_times_the_block_matrix<const P: u32>() {
    let mut rng = Rng::new(Field::of(P), 50);
    for layout in small_layouts() {
        for style in STYLES {
            let code = rng.code(&layout, style);
            let matrix = generator(P.into(), &layout, &code);
            let message = rng.words(layout.message(), style);
            let due = narrow(&product(P.into(), &wide(&message), &matrix));
            assert_eq!(encoded(lent::<P>(layout, &code), layout, &message), due);
        }
    }
}

fn decoding_undoes_encoding<const P: u32>() {
    let mut rng = Rng::new(Field::of(P), 51);
    for layout in small_layouts() {
        for style in STYLES {
            let code = rng.code(&layout, style);
            let matrix = generator(P.into(), &layout, &code);
            let message = rng.words(layout.message(), style);
            let block = narrow(&product(P.into(), &wide(&message), &matrix));
            let found = decoded(lent::<P>(layout, &code), layout, &block);
            assert_eq!(found, (0, message));
        }
    }
}

/// Base rows M and M*A side by side, where M has an inverse and A no zero. They generate what the
/// identity and A do, so that no codeword of level 0 has only one word that is not zero; and then none
/// of a higher level has, since T and T' differ.
fn two_apart<const P: u32>(rng: &mut Rng, layout: &Layout) -> Vec<u32> {
    let p = u64::from(P);
    let g = rng.base_rows(layout, layout.k0, Style::Small);
    let rest = layout.block(0) - layout.k0;
    let a: Vec<Vec<u64>> = (0..layout.k0)
        .map(|_| (0..rest).map(|_| 1 + rng.bits() % (p - 1)).collect())
        .collect();
    let rows = g.chunks(layout.block(0)).map(|row| {
        let m = wide(&row[..layout.k0]);
        [narrow(&m), narrow(&product(p, &m, &a))].concat()
    });
    rows.collect::<Vec<_>>().concat()
}

fn a_block_with_one_other_word_is_no_codeword<const P: u32>() {
    let mut rng = Rng::new(Field::of(P), 52);
    for layout in small_layouts().filter(|layout| layout.k0 > 1) {
        let style = rng.pick(&STYLES);
        let mut code = rng.code(&layout, style);
        code[0] = two_apart::<P>(&mut rng, &layout);
        let lent = lent::<P>(layout, &code);
        let message = rng.words(layout.message(), style);
        let block = encoded(lent, layout, &message);
        for j in 0..block.len() {
            let mut moved = block.clone();
            moved[j] = ((u64::from(moved[j]) + 1 + rng.bits() % 9) % u64::from(P)) as u32;
            let refused = (8, vec![u32::MAX; layout.message()]);
            assert_eq!(decoded(lent, layout, &moved), refused);
        }
        assert_eq!(decoded(lent, layout, &block), (0, message));
    }
}

fn a_sum_of_codewords_decodes_to_the_sum<const P: u32>() {
    let mut rng = Rng::new(Field::of(P), 53);
    let sum = |a: &[u32], b: &[u32]| -> Vec<u32> {
        let words = a.iter().zip(b);
        let sums = words.map(|(&a, &b)| (u64::from(a) + u64::from(b)) % u64::from(P));
        sums.map(|word| word as u32).collect()
    };
    for layout in small_layouts() {
        let code = rng.code(&layout, Style::Extreme);
        let lent = lent::<P>(layout, &code);
        let messages = [0; 2].map(|_| rng.words(layout.message(), Style::Random));
        let [a, b] = [0, 1].map(|k: usize| encoded(lent, layout, &messages[k]));
        let found = decoded(lent, layout, &sum(&a, &b));
        assert_eq!(found, (0, sum(&messages[0], &messages[1])));
    }
}

/// (T' - T) times the fold is the fold's line without a division: (T' - a) w + (a - T) w'.
fn a_fold_is_the_line<const P: u32>() {
    let p = u64::from(P);
    let mut rng = Rng::new(Field::of(P), 54);
    for layout in small_layouts().filter(|layout| layout.depth > 0) {
        let lower = layout.block(layout.depth - 1);
        let (t, t2) = rng.diagonals(lower, Style::Extreme);
        let block = rng.words(2 * lower, Style::Random);
        let a = rng.words(1, Style::Extreme)[0];
        let lent = LentLevel {
            field: Field::of(P),
            parameters: layout.parameters(),
            t: &t,
            t2: &t2,
        };
        let mut out = vec![u32::MAX; lower];
        assert_eq!(Reference::fold(lent, &block, a, &mut out), Answer::DONE);
        for j in 0..lower {
            let [t, t2, a, w, w2, out] =
                [t[j], t2[j], a, block[j], block[lower + j], out[j]].map(u64::from);
            let left = (t2 + p - t) % p * out % p;
            let right = (t2 + p - a) % p * w % p + (a + p - t) % p * w2 % p;
            assert_eq!(left, right % p);
        }
    }
}
