//! Openings as they are written.

use crate::honest::Honest;
use crate::plain;
use crate::small_layouts;
use tvarchula_reference::sample::{Rng, Style, STYLES};
use tvarchula_reference::GroundJobs;
use tvarchula_reference::{over_both, Answer, Field, Layout, Reference};

over_both!(
    every_word_of_an_opening
    accepted_and_no_other_value
    every_query_accepts
    the_first_query_too_large
    larger_sizes
);

fn every_word_of_an_opening<const P: u32>() {
    let mut rng = Rng::new(Field::of(P), 70);
    for layout in small_layouts() {
        for style in STYLES {
            let honest = Honest::<P>::new(&mut rng, layout, style);
            let [message, z, r] =
                [&honest.message, &honest.z, &honest.r].map(|words| plain::wide(words));
            let due = plain::opening(P.into(), &layout, &honest.code, &message, &z, &r);
            assert_eq!(honest.opening, plain::narrow(&due));
            let y = plain::value(P.into(), &message, &z);
            assert_eq!(u64::from(honest.y), y);
        }
    }
}

/// The value that evaluation gives is accepted, and others fail in the first sum, or at depth 0 in the
/// final check.
fn accepted_and_no_other_value<const P: u32>() {
    let mut rng = Rng::new(Field::of(P), 71);
    for layout in small_layouts() {
        for style in STYLES {
            let mut honest = Honest::<P>::new(&mut rng, layout, style);
            let (parameters, mut value) = (layout.parameters(), 0);
            let (message, z) = (&honest.message, &honest.z);
            let done = Reference::evaluate(Field::of(P), parameters, message, z, &mut value);
            assert_eq!((done, value), (Answer::DONE, honest.y));
            assert_eq!(honest.verdict(), (0, 0, 0));
            let due = match layout.depth {
                0 => (21, 0, 0),
                depth => (20, depth as u32, 0),
            };
            let any = rng.words(1, Style::Random)[0];
            for other in [(value + 1) % P, (value + P - 1) % P, 0, any] {
                honest.y = other;
                assert_eq!(
                    honest.verdict(),
                    if other == value { (0, 0, 0) } else { due }
                );
            }
        }
    }
}

fn every_query_accepts<const P: u32>() {
    let mut rng = Rng::new(Field::of(P), 72);
    for layout in small_layouts().filter(|layout| layout.depth > 0) {
        let mut honest = Honest::<P>::new(&mut rng, layout, Style::Random);
        for query in 0..(layout.top_block() / 2) as u32 {
            honest.queries = vec![query];
            assert_eq!(honest.verdict(), (0, 0, 0));
        }
    }
}

/// n_(d-1) is c * k0 * 2^(d-1).
fn the_first_query_too_large<const P: u32>() {
    let mut rng = Rng::new(Field::of(P), 73);
    for (depth, rate, k0, places) in [(1, 2, 2, 4), (1, 3, 4, 12), (3, 2, 2, 16), (2, 16, 4, 128)] {
        let layout = Layout { depth, rate, k0 };
        let mut honest = Honest::<P>::new(&mut rng, layout, Style::Random);
        for (query, due) in [(places - 1, 0), (places, 7), (u32::MAX, 7)] {
            honest.queries = vec![query];
            assert_eq!(honest.verdict(), (due, 0, 0));
        }
        honest.queries = vec![places - 1, 0, places - 1];
        assert_eq!(honest.verdict(), (11, 0, 0));
    }
}

fn larger_sizes<const P: u32>() {
    let mut rng = Rng::new(Field::of(P), 74);
    for (depth, rate, k0) in [(9, 3, 2), (8, 5, 4), (13, 2, 2), (12, 2, 4)] {
        let layout = Layout { depth, rate, k0 };
        let mut honest = Honest::<P>::new(&mut rng, layout, Style::Random);
        assert_eq!(honest.verdict(), (0, 0, 0));
        honest.y = (honest.y + 1) % P;
        assert_eq!(honest.verdict(), (20, depth as u32, 0));
    }
}
