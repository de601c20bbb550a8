//! Plain Rust and the library give the same answer over both fields, places included, and write the same words,
//! whatever is lent: what the program times is the same work.

mod damage;
mod filling;

use damage::Damage;
use std::collections::BTreeSet;
use tvarchula_bench::plain::{
    Barrett, Filled, Mersenne, OneChain, Remainder, SixteenChains, FIRST, SECOND,
};
use tvarchula_bench::{
    call, Answer, Buffers, Call, Filling, Inputs, Job, Library, Plain, Products, Sizes, TV_FIELD_1,
    TV_FIELD_2,
};

/// A field: legal inputs, the library, and every form of plain Rust.
struct Field {
    drawn: fn(Sizes, usize) -> Inputs,
    library: Call,
    plain: [Call; 4],
}

const FIELDS: [Field; 2] = [
    Field {
        drawn: Inputs::drawn::<Mersenne>,
        library: call::<Library<TV_FIELD_1>>,
        plain: [
            call::<Plain<Mersenne, OneChain>>,
            call::<Plain<Mersenne, SixteenChains>>,
            call::<Plain<Remainder<FIRST>, OneChain>>,
            call::<Plain<Remainder<FIRST>, SixteenChains>>,
        ],
    },
    Field {
        drawn: Inputs::drawn::<Barrett>,
        library: call::<Library<TV_FIELD_2>>,
        plain: [
            call::<Plain<Barrett, OneChain>>,
            call::<Plain<Barrett, SixteenChains>>,
            call::<Plain<Remainder<SECOND>, OneChain>>,
            call::<Plain<Remainder<SECOND>, SixteenChains>>,
        ],
    },
];

/// The numbers that came.
type Numbers = BTreeSet<u32>;
/// The places that came with 4, 5 and 6: the number, and for 4 the input.
type Named = BTreeSet<(u32, u32)>;

/// Calls all jobs of a field on inputs that are spoiled by each damage, one after the other.
fn compare(field: &Field, inputs: &Inputs, damages: &[Damage], numbers: &mut Numbers) {
    compare_named(field, inputs, damages, numbers, &mut Named::new());
}

/// The same, and keeps what is named behind the first place of an input.
fn compare_named(
    field: &Field,
    inputs: &Inputs,
    damages: &[Damage],
    numbers: &mut Numbers,
    named: &mut Named,
) {
    for job in Job::ALL {
        let mut spoiled = inputs.clone();
        let mut buffers = Buffers::of(job, inputs);
        for damage in damages {
            damage(&mut spoiled, &mut buffers);
        }
        let (answer, written) = run(field.library, job, &spoiled, &buffers);
        numbers.insert(answer.number);
        if matches!(answer.number, 4..=6) && answer.first > 0 {
            named.insert((answer.number, answer.second));
        }
        for plain in field.plain {
            let (found, words) = run(plain, job, &spoiled, &buffers);
            let sizes = (inputs.p, inputs.depth, inputs.rate);
            assert_eq!(
                found, answer,
                "{job:?} of modulus, depth and rate {sizes:?}"
            );
            assert!(
                words == written,
                "{job:?} of modulus, depth and rate {sizes:?} writes other words"
            );
        }
    }
}

fn run(side: Call, job: Job, inputs: &Inputs, buffers: &Buffers) -> (Answer, Buffers) {
    let mut buffers = buffers.clone();
    let answer = side(job, inputs, &mut buffers);
    (answer, buffers)
}

fn all_numbers() -> Numbers {
    (0..=9).chain([11, 13]).chain(20..=23).collect()
}

#[test]
fn small_sizes_with_every_two_damages() {
    for field in FIELDS {
        let mut numbers = Numbers::new();
        for (depth, rate) in [(0, 2), (1, 2), (2, 3), (3, 8)] {
            let inputs = (field.drawn)(Sizes { depth, rate }, 3);
            compare(&field, &inputs, &[], &mut numbers);
            for &first in damage::ALL {
                compare(&field, &inputs, &[first], &mut numbers);
                for &second in damage::ALL {
                    compare(&field, &inputs, &[first, second], &mut numbers);
                }
            }
        }
        assert_eq!(numbers, all_numbers(), "every answer has to come");
    }
}

#[test]
fn all_depths_and_rates_undamaged() {
    for field in FIELDS {
        let mut numbers = Numbers::new();
        for depth in 0..=7 {
            for rate in 2..=16 {
                let inputs = (field.drawn)(Sizes { depth, rate }, 40);
                compare(&field, &inputs, &[], &mut numbers);
            }
        }
        // A block of depth 0 cannot be folded.
        assert_eq!(numbers, Numbers::from([0, 1]));
    }
}

#[test]
fn bench_sizes_with_every_damage() {
    for field in FIELDS {
        let mut numbers = Numbers::new();
        let mut named = Named::new();
        for depth in [10, 14] {
            let inputs = (field.drawn)(Sizes { depth, rate: 8 }, 32);
            compare(&field, &inputs, &[], &mut numbers);
            for &damage in damage::ALL {
                compare_named(&field, &inputs, &[damage], &mut numbers, &mut named);
            }
        }
        assert_eq!(numbers, all_numbers(), "every answer has to come");
        // A single value, y, has no index but 0.
        let inputs = [1, 2, 3, 4, 5, 7, 8].map(|input| (4, input));
        let all = inputs.into_iter().chain([(5, 0), (6, 0)]);
        assert_eq!(named, all.collect(), "every input has to be named");
    }
}

/// What is legal over the first field and refused over the second: its own modulus, and a clearance.
#[test]
fn words_between_the_moduli() {
    let [first, second] = FIELDS;
    // Drawn over the second field, all other words are legal over both.
    let mut inputs = (second.drawn)(Sizes { depth: 3, rate: 2 }, 0);
    inputs.message[5] = SECOND;
    inputs.clearances[2] = (SECOND / 2) as i32 + 1;
    let answer = |field: &Field, job| {
        let sides = [field.library, field.plain[0]];
        let answers = sides.map(|side| run(side, job, &inputs, &Buffers::of(job, &inputs)).0);
        assert_eq!(answers[0], answers[1]);
        (answers[0].number, answers[0].first, answers[0].second)
    };
    assert_eq!(answer(&first, Job::ToTable), (0, 0, 0));
    assert_eq!(answer(&second, Job::ToTable), (4, 5, 4));
    assert_eq!(answer(&first, Job::ToCoefficients), (0, 0, 0));
    assert_eq!(answer(&second, Job::ToCoefficients), (9, 0, 0));
}

/// A place that repeats: at every two positions of short lists, at some of the longest.
#[test]
fn repeated_places() {
    for field in FIELDS {
        let mut inputs = (field.drawn)(Sizes { depth: 6, rate: 8 }, 0);
        for (count, step) in (1..=20)
            .map(|count| (count, 1))
            .chain([(255, 97), (256, 97)])
        {
            inputs.draw_queries(count);
            assert_eq!(verified(&field, &inputs), 0);
            let pairs = (1..count).flat_map(|k| (0..k).map(move |j| (j, k)));
            for (j, k) in pairs.step_by(step) {
                let kept = inputs.queries[k];
                inputs.queries[k] = inputs.queries[j];
                assert_eq!(verified(&field, &inputs), 11, "{count} places, {j} and {k}");
                inputs.queries[k] = kept;
            }
        }
    }
}

/// What the library and plain Rust answer.
fn verified(field: &Field, inputs: &Inputs) -> u32 {
    let sides = [field.library, field.plain[0]];
    let answers = sides.map(|side| run(side, Job::Verify, inputs, &Buffers::default()).0);
    assert_eq!(answers[0], answers[1]);
    answers[0].number
}

#[test]
fn largest_bench_size() {
    for field in FIELDS {
        let inputs = (field.drawn)(Sizes { depth: 16, rate: 8 }, 256);
        compare(&field, &inputs, &[], &mut Numbers::new());
        compare(
            &field,
            &inputs,
            &[|i, _| i.block[5] ^= 1],
            &mut Numbers::new(),
        );
    }
}

#[test]
fn products_of_all_lengths() {
    for len in (0..40).chain([1000]) {
        let factors: Vec<u32> = (0..len).map(|i| FIRST - 1 - 7919 * i).collect();
        let values: Vec<u32> = (0..len).map(|i| FIRST / 3 + 104_729 * i).collect();
        for rounds in 0..4 {
            compare_products(rounds, &factors, &values);
            if let Some((_, rest)) = factors.split_last() {
                compare_products(rounds, rest, &values);
                compare_products(rounds, &[rest, &[FIRST]].concat(), &values);
                compare_products(rounds, &factors, &[&[FIRST], &values[1..]].concat());
            }
        }
    }
}

/// Calls every side's products on the same words.
fn compare_products(rounds: u32, factors: &[u32], values: &[u32]) {
    let library = products::<Library<TV_FIELD_1>>(rounds, factors, values);
    let expected = products::<Plain<Mersenne>>(rounds, factors, values);
    let by_division = products::<Plain<Remainder<FIRST>>>(rounds, factors, values);
    assert_eq!(library, expected);
    assert_eq!(by_division, expected);
}

/// Whether the values are multiplied, what they are then, and the product of the chain.
fn products<S: Products>(rounds: u32, factors: &[u32], values: &[u32]) -> (bool, Vec<u32>, u32) {
    let mut values = values.to_vec();
    let done = S::side_by_side(rounds, factors, &mut values);
    (done, values, S::in_chain(rounds, factors))
}
