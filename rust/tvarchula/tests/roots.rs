//! Filled rows and diagonals: their words, their refusals, and that the codeword they make is the list
//! of values of one polynomial. All that is due is computed here, from 31^15 by `%`.

use tvarchula::*;

const P: u64 = 2_013_265_921;

/// What filling left in buffers that held 77 everywhere.
fn filled(depth: u32, rate: u32, lens: [usize; 3]) -> (Result<(), Refusal>, [Vec<u32>; 3]) {
    let [mut g, mut t, mut t2] = lens.map(|len| vec![77; len]);
    let done = fill_roots(depth, rate, &mut g, &mut t, &mut t2);
    (done, [g, t, t2])
}

#[test]
fn words_at_depth_2() {
    let (done, [g, t, t2]) = filled(2, 2, [2, 6, 6]);
    assert_eq!(done, Ok(()));
    assert_eq!(g, [1, 1]);
    // The powers of the root of order 4, then those of the root of order 8.
    let due = [
        1,
        1_728_404_513,
        1,
        1_592_366_214,
        1_728_404_513,
        211_723_194,
    ];
    assert_eq!(t, due);
    let due = [
        2_013_265_920,
        284_861_408,
        2_013_265_920,
        420_899_707,
        284_861_408,
        1_801_542_727,
    ];
    assert_eq!(t2, due);
}

#[test]
fn words_at_depth_0() {
    for rate in [2, 4, 8, 16] {
        let (done, [g, t, t2]) = filled(0, rate, [rate as usize, 0, 0]);
        assert_eq!(done, Ok(()));
        assert_eq!(g, vec![1; rate as usize]);
        assert!(t.is_empty() && t2.is_empty());
    }
}

/// Of several reasons the first is given, and a refused call leaves all as it was.
#[test]
fn refusals_in_their_order() {
    let refused = |depth, rate, lens| {
        let (done, left) = filled(depth, rate, lens);
        assert!(left.iter().flatten().all(|&word| word == 77));
        done.unwrap_err()
    };
    // 1 before 2, 3 and 12.
    for (depth, rate) in [(21, 1), (21, 3), (21, 2), (u32::MAX, u32::MAX)] {
        assert_eq!(refused(depth, rate, [2, 6, 6]), Refusal::Depth);
    }
    // 2 before 3 and 12.
    for rate in [0, 1, 17, 32, u32::MAX] {
        assert_eq!(refused(2, rate, [2, 6, 6]), Refusal::Rate);
    }
    // 3 before 12, for each of the three; a longer slice is refused too.
    for lens in [
        [1, 6, 6],
        [3, 6, 6],
        [2, 5, 6],
        [2, 7, 6],
        [2, 6, 5],
        [2, 6, 7],
    ] {
        assert_eq!(refused(2, 2, lens), Refusal::Length);
    }
    for lens in [[2, 9, 9], [3, 8, 9], [3, 9, 10], [0, 0, 0]] {
        assert_eq!(refused(2, 3, lens), Refusal::Length);
    }
    assert_eq!(refused(20, 2, [2, 6, 6]), Refusal::Length);
    // 12, for every legal rate that is no power of two.
    for rate in [3, 5, 6, 7, 9, 10, 11, 12, 13, 14, 15] {
        let len = rate as usize;
        for depth in 0..3 {
            let diagonal = len * ((1 << depth) - 1);
            let refusal = refused(depth, rate, [len, diagonal, diagonal]);
            assert_eq!(refusal, Refusal::NoPowerOfTwo);
            assert_eq!(refusal.number(), 12);
            assert_eq!(refusal.to_string(), "the rate is no power of two");
        }
    }
}

/// The root of unity of an order that is a power of two, up to 2^27.
fn root(order: u64) -> u64 {
    let mut root = (0..15).fold(1, |product, _| product * 31 % P);
    let mut its_order = 1 << 27;
    while its_order > order {
        root = root * root % P;
        its_order /= 2;
    }
    assert_eq!(its_order, order);
    root
}

/// The value of a polynomial, the coefficient of degree 0 first.
fn horner(coefficients: &[u32], x: u64) -> u64 {
    let from_the_top = coefficients.iter().rev();
    from_the_top.fold(0, |value, &word| (value * x + u64::from(word)) % P)
}

/// The lowest bits of a number, in reversed order.
fn reversed(bits: u32, number: usize) -> usize {
    (0..bits).fold(0, |all, bit| all << 1 | number >> bit & 1)
}

/// A number from 0 to 2^32 - 1, from a seeded generator (splitmix64).
fn drawn(seed: &mut u64) -> u32 {
    *seed = seed.wrapping_add(0x9e37_79b9_7f4a_7c15);
    let mut z = *seed;
    z = (z ^ (z >> 30)).wrapping_mul(0xbf58_476d_1ce4_e5b9);
    z = (z ^ (z >> 27)).wrapping_mul(0x94d0_49bb_1331_11eb);
    ((z ^ (z >> 31)) >> 32) as u32
}

/// A word of the second field, the ends more often than others.
fn word(seed: &mut u64) -> u32 {
    match drawn(seed) % 8 {
        0 => 0,
        1 => P as u32 - 1,
        _ => (u64::from(drawn(seed)) % P) as u32,
    }
}

#[test]
fn every_level_is_powers_of_its_root() {
    for rate in [2, 4, 8, 16] {
        let depth = 12;
        let len = diagonals_len(depth, rate);
        let (done, [g, t, t2]) = filled(depth, rate, [rate as usize, len, len]);
        assert_eq!(done, Ok(()));
        assert!(g.iter().all(|&word| word == 1));
        for level in 0..depth {
            let from = rate as usize * ((1 << level) - 1);
            let n = u64::from(rate) << level;
            let root = root(2 * n);
            let mut power = 1;
            for place in from..from + n as usize {
                assert_eq!(u64::from(t[place]), power);
                assert_eq!(u64::from(t2[place]), P - power);
                power = power * root % P;
            }
            // After half its order the root has come to -1.
            assert_eq!(power, P - 1);
        }
    }
}

#[test]
fn a_codeword_is_the_values_of_one_polynomial() {
    let mut seed = 2024;
    for depth in 0..=8 {
        for rate in [2, 4, 8, 16] {
            let len = diagonals_len(depth, rate);
            let (done, [g, t, t2]) = filled(depth, rate, [rate as usize, len, len]);
            assert_eq!(done, Ok(()));
            let code = Code::new(Field::BabyBear, depth, rate, &g, &t, &t2);
            for _ in 0..4 {
                let message: Vec<u32> = (0..1 << depth).map(|_| word(&mut seed)).collect();
                let degrees = 0..message.len();
                let coefficients: Vec<u32> = degrees
                    .map(|degree| message[reversed(depth, degree)])
                    .collect();
                let n = (rate as usize) << depth;
                let root = root(n as u64);
                let mut block = vec![77; n];
                assert_eq!(encode(&code, &message, &mut block), Ok(()));
                let mut x = 1;
                for (place, &found) in block.iter().enumerate() {
                    let due = horner(&coefficients, x);
                    assert_eq!(u64::from(found), due, "depth {depth}, rate {rate}, {place}");
                    x = x * root % P;
                }
                assert_eq!(x, 1);
            }
        }
    }
}
