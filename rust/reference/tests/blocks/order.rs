//! Among 1, 2, 13 and 3 the first in this order is given, however many apply; with an illegal k0 depth
//! 20 is no reason for 1.

use tvarchula_reference::{CodeJobs, GroundJobs, OpeningJobs};
use tvarchula_reference::{Field, LentCode, LentLevel, Parameters, Reference};

const FIELD: Field = Field::Second;

/// Neither has a legal one that it could be taken for.
const ILLEGAL: [u32; 7] = [0, 3, 5, 6, 8, 16, u32::MAX];
/// k0, and the first depth that is too large.
const DEEP: [(u32, u32); 3] = [(1, 21), (2, 20), (4, 19)];

/// What encoding, decoding, writing, verifying and folding answer to these numbers and to slices whose
/// lengths never fit.
fn coded(parameters: Parameters) -> [u32; 5] {
    let (g, t) = (&[1; 3], &[1; 3]);
    let code = LentCode {
        field: FIELD,
        parameters,
        g,
        t,
        t2: t,
    };
    let level = LentLevel {
        field: FIELD,
        parameters,
        t,
        t2: t,
    };
    let (mut out, mut work, mut y) = ([7; 3], [7; 3], 7);
    let answers = [
        Reference::encode(code, &[1; 3], &mut out),
        Reference::decode(code, &[1; 3], &mut out, &mut work),
        Reference::write_opening(code, &[1; 3], &[1], &[1], &mut out, &mut work, &mut y),
        Reference::verify_opening(code, &[1; 3], &[1], 1, &[1], &[0], &[1; 3]),
        Reference::fold(level, &[1; 3], 1, &mut out),
    ];
    assert_eq!((out, work, y), ([7; 3], [7; 3], 7));
    answers.map(|answer| answer.number)
}

fn evaluated(parameters: Parameters) -> u32 {
    Reference::evaluate(FIELD, parameters, &[1; 3], &[1], &mut 7).number
}

fn filled(parameters: Parameters) -> u32 {
    Reference::fill_roots(parameters, &mut [7], &mut [7], &mut [7]).number
}

#[test]
fn all_of_them() {
    for k0 in ILLEGAL {
        for (depth, rate, due) in [
            (21, 1, 1),
            (21, 2, 1),
            (u32::MAX, 17, 1),
            (20, 1, 2),
            (1, 17, 2),
            (20, 2, 13),
            (1, 16, 13),
        ] {
            let lent = Parameters { depth, rate, k0 };
            assert_eq!(coded(lent), [due; 5], "{lent:?}");
            assert_eq!(filled(lent), due, "{lent:?}");
            // The rate is no number of evaluation.
            assert_eq!(evaluated(lent), if due == 2 { 13 } else { due }, "{lent:?}");
        }
    }
    for (k0, deep) in DEEP {
        for (depth, rate, due) in [
            (deep, 1, 1),
            (deep, 2, 1),
            (u32::MAX, 17, 1),
            (deep - 1, 1, 2),
            (1, 17, 2),
            (deep - 1, 2, 3),
            (1, 16, 3),
        ] {
            let lent = Parameters { depth, rate, k0 };
            assert_eq!(coded(lent), [due; 5], "{lent:?}");
            assert_eq!(evaluated(lent), if due == 2 { 3 } else { due }, "{lent:?}");
        }
    }
}

/// Level 0 has none below it; this is 1, before everything.
#[test]
fn upper_level_0() {
    for k0 in [0, 1, 2, 3, 4] {
        for rate in [1, 2] {
            let depth = 0;
            assert_eq!(coded(Parameters { depth, rate, k0 })[4], 1);
        }
    }
}

/// Filling takes no k0 but 1: 2 and 4 are judged as the illegal ones are, before lengths and before 12.
#[test]
fn filling() {
    for k0 in [2, 4] {
        for (depth, rate, due) in [(21, 1, 1), (20, 1, 2), (20, 2, 13), (20, 3, 13), (0, 2, 13)] {
            let lent = Parameters { depth, rate, k0 };
            assert_eq!(filled(lent), due, "{lent:?}");
        }
    }
    for (depth, rate, due) in [(21, 1, 1), (20, 1, 2), (20, 3, 3), (1, 2, 3)] {
        assert_eq!(filled(Parameters::one(depth, rate)), due);
    }
    let (mut g, mut t, mut t2) = ([7; 2], [7; 2], [7; 2]);
    let fill = |k0, g: &mut [u32], t: &mut [u32], t2: &mut [u32]| {
        let lent = Parameters {
            depth: 1,
            rate: 2,
            k0,
        };
        Reference::fill_roots(lent, g, t, t2).number
    };
    for k0 in [0, 2, 3, 4, 8] {
        assert_eq!(fill(k0, &mut g, &mut t, &mut t2), 13);
        assert_eq!((g, t, t2), ([7; 2], [7; 2], [7; 2]));
    }
    assert_eq!(fill(1, &mut g, &mut t, &mut t2), 0);
    assert_eq!(g, [1; 2]);
}

/// Both table jobs, with that many entries and a result of another length. Depth and rate are illegal.
fn tabled(k0: u32, length: usize) -> [u32; 2] {
    let lent = Parameters {
        depth: 99,
        rate: 99,
        k0,
    };
    let (mut message, mut table, mut work) = (vec![7; 5], vec![7; 5], vec![7; length]);
    let to = Reference::table_to_coefficients(FIELD, lent, &vec![1; length], &mut message);
    let back =
        Reference::coefficients_to_table(FIELD, lent, &vec![1; length], &mut table, &mut work);
    assert!(message.iter().chain(&work).all(|&word| word == 7));
    assert!(table.iter().all(|&x| x == 7));
    [to.number, back.number]
}

/// A table has k0 * 2^d entries: fewer than k0 are 1, as are 0 and 3 and more than 1048576.
#[test]
fn tables() {
    for k0 in [1, 2, 4] {
        for bits in 0..=21 {
            let length = 1 << bits;
            let legal = (k0 as usize..=1_048_576).contains(&length);
            assert_eq!(tabled(k0, length), [if legal { 3 } else { 1 }; 2]);
        }
        for length in [0, 3, 6, 12, 1_048_577] {
            assert_eq!(tabled(k0, length), [1; 2]);
        }
    }
    for k0 in ILLEGAL {
        for (length, due) in [
            (0, 1),
            (1, 13),
            (2, 13),
            (3, 1),
            (4, 13),
            (1 << 20, 13),
            (1 << 21, 1),
        ] {
            assert_eq!(tabled(k0, length), [due; 2]);
        }
    }
}
