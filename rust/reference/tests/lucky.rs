//! How many lists of challenges fold a block that is no codeword into a codeword of level 0, counted
//! one by one: at most p^d - (p-1)^d of the p^d, none at depth 0, and some block has just as many.
//! The primes are small, so that all lists can be tried; nothing of the code depends on the prime.

use tvarchula_reference::code::Code;
use tvarchula_reference::decode::message_of;
use tvarchula_reference::encode::by_matrix;
use tvarchula_reference::fold::fold_block;
use tvarchula_reference::linear::inverse;
use tvarchula_reference::sample::Rng;
use tvarchula_reference::{Field, Layout, Residue};

macro_rules! over_small_primes {
    ($($law:ident)*) => {
        $(
            mod $law {
                #[test]
                fn of_3() { super::$law::<3>(); }
                #[test]
                fn of_5() { super::$law::<5>(); }
                #[test]
                fn of_7() { super::$law::<7>(); }
            }
        )*
    };
}

over_small_primes!(
    no_block_has_more
    some_block_has_as_many
    every_list_is_lucky_for_a_codeword
);

/// Depth, rate and k0.
const SIZES: [(usize, usize, usize); 10] = [
    (0, 2, 1),
    (0, 3, 4),
    (1, 2, 1),
    (1, 2, 2),
    (1, 2, 4),
    (2, 2, 1),
    (2, 3, 2),
    (2, 2, 4),
    (3, 2, 1),
    (3, 2, 2),
];

fn layouts() -> impl Iterator<Item = Layout> {
    let layout = |&(depth, rate, k0): &(usize, usize, usize)| Layout { depth, rate, k0 };
    SIZES.iter().map(layout)
}

/// p^d - (p-1)^d.
fn bound<const P: u32>(depth: usize) -> usize {
    let power = |base: u32| (base as usize).pow(depth as u32);
    power(P) - power(P - 1)
}

/// All lists of d residues.
fn lists<const P: u32>(depth: usize) -> Vec<Vec<Residue<P>>> {
    let mut all = vec![Vec::new()];
    for _ in 0..depth {
        let longer = |list: &Vec<Residue<P>>| {
            let with = |word| [&list[..], &[Residue::new(word).unwrap()]].concat();
            (0..P).map(with).collect::<Vec<_>>()
        };
        all = all.iter().flat_map(longer).collect();
    }
    all
}

fn residues<const P: u32>(rng: &mut Rng, count: usize) -> Vec<Residue<P>> {
    let mut residue = || Residue::new(rng.below(P as usize) as u32).unwrap();
    (0..count).map(|_| residue()).collect()
}

/// The first that is wanted, by drawing again.
fn drawn<T>(mut draw: impl FnMut() -> T, wanted: impl Fn(&T) -> bool) -> T {
    let mut value = draw();
    while !wanted(&value) {
        value = draw();
    }
    value
}

/// A legal code: one base row without a zero, or rows whose first columns have an inverse; T and T'
/// differ everywhere.
fn code<const P: u32>(rng: &mut Rng, sizes: Layout) -> Code<P> {
    let (t, t2) = (0..sizes.diagonals())
        .map(|_| drawn(|| residues(rng, 2), |pair| pair[0] != pair[1]))
        .map(|pair| (pair[0], pair[1]))
        .unzip();
    let made = |g: Vec<Residue<P>>| Code {
        sizes,
        g,
        t: Vec::clone(&t),
        t2: Vec::clone(&t2),
    };
    let legal = |code: &Code<P>| match sizes.k0 {
        1 => code.g.iter().all(|&word| word != Residue::ZERO),
        _ => inverse(&code.leading()).is_some(),
    };
    drawn(|| made(residues(rng, sizes.rows())), legal)
}

/// The code of the levels below a level.
fn below<const P: u32>(code: &Code<P>, level: usize) -> Code<P> {
    let sizes = Layout {
        depth: level,
        ..code.sizes
    };
    let cut = |diagonals: &[Residue<P>]| diagonals[..sizes.diagonals()].to_vec();
    Code {
        sizes,
        g: code.g.clone(),
        t: cut(&code.t),
        t2: cut(&code.t2),
    }
}

fn is_codeword<const P: u32>(code: &Code<P>, level: usize, block: &[Residue<P>]) -> bool {
    message_of(&below(code, level), block).is_some()
}

fn codeword<const P: u32>(rng: &mut Rng, code: &Code<P>, level: usize) -> Vec<Residue<P>> {
    let message = residues(rng, code.sizes.k0 << level);
    by_matrix(code, level, &message)
}

/// Whether a list of challenges folds a block into a codeword of level 0, the last challenge first.
fn is_lucky<const P: u32>(code: &Code<P>, block: &[Residue<P>], list: &[Residue<P>]) -> bool {
    let mut left = block.to_vec();
    for i in (0..code.sizes.depth).rev() {
        left = fold_block(code.t(i), code.t2(i), &left, list[i]);
    }
    is_codeword(code, 0, &left)
}

fn lucky<const P: u32>(code: &Code<P>, block: &[Residue<P>]) -> usize {
    let lists = lists(code.sizes.depth);
    lists
        .iter()
        .filter(|list| is_lucky(code, block, list))
        .count()
}

/// A block of a level that is a codeword when folded by `challenges[i]` at some level i, and else is
/// none at level 0: in every place a line whose value at the challenge is that of a codeword, and
/// whose slope is that of such a block of the level below.
fn slipping<const P: u32>(
    rng: &mut Rng,
    code: &Code<P>,
    challenges: &[Residue<P>],
) -> Vec<Residue<P>> {
    let Some((&challenge, lower)) = challenges.split_last() else {
        let base = code.sizes.block(0);
        return drawn(|| residues(rng, base), |block| !is_codeword(code, 0, block));
    };
    let level = lower.len();
    let value = codeword(rng, code, level);
    let slope = slipping(rng, code, lower);
    let half = |diagonal: &[Residue<P>]| -> Vec<Residue<P>> {
        let at = |j: usize| value[j] + (diagonal[j] - challenge) * slope[j];
        (0..diagonal.len()).map(at).collect()
    };
    [half(code.t(level)), half(code.t2(level))].concat()
}

/// Words drawn freely, and codewords with one word moved.
fn no_block_has_more<const P: u32>() {
    let mut rng = Rng::new(Field::First, 130);
    for sizes in layouts() {
        for _ in 0..20 {
            let code = code::<P>(&mut rng, sizes);
            let free = residues(&mut rng, sizes.top_block());
            let mut moved = codeword(&mut rng, &code, sizes.depth);
            let place = rng.below(moved.len());
            moved[place] = moved[place] + Residue::ONE;
            for block in [free, moved] {
                let bad = !is_codeword(&code, sizes.depth, &block);
                assert!(!bad || lucky(&code, &block) <= bound::<P>(sizes.depth));
            }
        }
    }
}

/// Which lists these are is known: those that have the block's own challenge in some place.
fn some_block_has_as_many<const P: u32>() {
    let mut rng = Rng::new(Field::First, 131);
    for sizes in layouts() {
        let code = code::<P>(&mut rng, sizes);
        let challenges = residues(&mut rng, sizes.depth);
        let block = slipping(&mut rng, &code, &challenges);
        assert!(!is_codeword(&code, sizes.depth, &block));
        assert_eq!(lucky(&code, &block), bound::<P>(sizes.depth));
        for list in lists(sizes.depth) {
            let meets = list.iter().zip(&challenges).any(|(a, b)| a == b);
            assert_eq!(is_lucky(&code, &block, &list), meets);
        }
    }
}

fn every_list_is_lucky_for_a_codeword<const P: u32>() {
    let mut rng = Rng::new(Field::First, 132);
    for sizes in layouts() {
        let code = code::<P>(&mut rng, sizes);
        let block = codeword(&mut rng, &code, sizes.depth);
        assert_eq!(lucky(&code, &block), (P as usize).pow(sizes.depth as u32));
    }
}

/// Every block over the integers modulo 3: the largest number among those that are no codewords.
#[test]
fn every_block_of_small_codes() {
    let mut rng = Rng::new(Field::First, 134);
    for depth in 0..=2 {
        let code = code::<3>(&mut rng, Layout::one(depth, 2));
        let blocks = lists::<3>(code.sizes.top_block());
        let bad = blocks
            .iter()
            .filter(|block| !is_codeword(&code, depth, block));
        let most = bad.map(|block| lucky(&code, block)).max();
        assert_eq!(most, Some(bound::<3>(depth)));
    }
}

/// A codeword is what some message has as its product with the generator matrix: all messages tried.
#[test]
fn codewords_are_products() {
    let mut rng = Rng::new(Field::First, 135);
    for (depth, k0) in [(0, 1), (0, 2), (1, 1)] {
        let sizes = Layout { depth, rate: 2, k0 };
        let code = code::<3>(&mut rng, sizes);
        let messages = lists::<3>(sizes.message());
        let products: Vec<_> = messages
            .iter()
            .map(|m| by_matrix(&code, depth, m))
            .collect();
        for block in lists::<3>(sizes.top_block()) {
            assert_eq!(is_codeword(&code, depth, &block), products.contains(&block));
        }
    }
}
