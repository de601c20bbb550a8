//! Lengths and words of p or more: of every input the length off by one is 3, and the last word is named
//! by 4 with its index.

use tvarchula_reference::sample::{Rng, Style};
use tvarchula_reference::{
    over_both, Answer, Field, Layout, LentCode, LentLevel, Parameters, Reference,
};
use tvarchula_reference::{CodeJobs, GroundJobs, OpeningJobs};

over_both!(the_last_word_of_every_input one_word_more_or_less folding evaluating);

const LAYOUTS: [(usize, usize, usize); 4] = [(2, 3, 2), (1, 2, 4), (3, 2, 2), (0, 5, 4)];

/// The inputs' lengths in the order of the numbers by which 4 names them: g, T, T', block, z, y, r and
/// opening; and the message's.
fn lengths((depth, rate, k0): (usize, usize, usize)) -> ([usize; 8], usize) {
    let low = match k0 {
        2 => 1,
        _ => 2,
    };
    let diagonal = rate * k0 * ((1 << depth) - 1);
    let block = rate * k0 * (1 << depth);
    let opening = 3 * depth + k0 + diagonal;
    let (rows, point) = (k0 * rate * k0, depth + low);
    let inputs = [rows, diagonal, diagonal, block, point, 1, depth, opening];
    (inputs, k0 << depth)
}

/// Legal inputs, and those of the three other jobs with the code: message, and all results.
struct Inputs {
    layout: Layout,
    words: [Vec<u32>; 8],
    message: Vec<u32>,
}

impl Inputs {
    fn new<const P: u32>(rng: &mut Rng, numbers: (usize, usize, usize)) -> Inputs {
        let (depth, rate, k0) = numbers;
        let layout = Layout { depth, rate, k0 };
        let (lengths, message) = lengths(numbers);
        let mut words = lengths.map(|length| rng.words(length, Style::Random));
        for (lent, legal) in words.iter_mut().zip(rng.code(&layout, Style::Random)) {
            assert_eq!(legal.len(), lent.len());
            *lent = legal;
        }
        let message = rng.words(message, Style::Random);
        Inputs {
            layout,
            words,
            message,
        }
    }

    fn lent<const P: u32>(&self) -> LentCode<'_> {
        LentCode {
            field: Field::of(P),
            parameters: self.layout.parameters(),
            g: &self.words[0],
            t: &self.words[1],
            t2: &self.words[2],
        }
    }

    fn verify<const P: u32>(&self) -> Answer {
        let [_, _, _, block, z, y, r, opening] = &self.words;
        let queries = &[0][..self.layout.depth.min(1)];
        Reference::verify_opening(self.lent::<P>(), block, z, y[0], r, queries, opening)
    }

    fn decode<const P: u32>(&self, message: usize, work: usize) -> Answer {
        let (mut message, mut work) = (vec![7; message], vec![7; work]);
        Reference::decode(self.lent::<P>(), &self.words[3], &mut message, &mut work)
    }

    fn encode<const P: u32>(&self, block: usize) -> Answer {
        Reference::encode(self.lent::<P>(), &self.message, &mut vec![7; block])
    }

    fn write<const P: u32>(&self, opening: usize, work: usize) -> Answer {
        let (mut opening, mut work) = (vec![7; opening], vec![7; work]);
        let [_, _, _, _, z, _, r, _] = &self.words;
        let (lent, message) = (self.lent::<P>(), &self.message);
        Reference::write_opening(lent, message, z, r, &mut opening, &mut work, &mut 7)
    }
}

fn the_last_word_of_every_input<const P: u32>() {
    let mut rng = Rng::new(Field::of(P), 90);
    for numbers in LAYOUTS {
        let (lengths, message) = lengths(numbers);
        for input in 0..8 {
            let mut inputs = Inputs::new::<P>(&mut rng, numbers);
            let Some(index) = lengths[input].checked_sub(1) else {
                continue;
            };
            inputs.words[input][index] = P;
            let due = Answer {
                number: 4,
                first: index as u32,
                second: input as u32 + 1,
            };
            assert_eq!(inputs.verify::<P>(), due);
            let (block, opening) = (lengths[3], lengths[7]);
            if input < 3 {
                assert_eq!(inputs.encode::<P>(block), due);
            }
            if input < 4 {
                assert_eq!(inputs.decode::<P>(message, block), due);
            }
            if ![3, 5, 7].contains(&input) {
                assert_eq!(inputs.write::<P>(opening, 2 * message), due);
            }
        }
        let mut inputs = Inputs::new::<P>(&mut rng, numbers);
        inputs.message[message - 1] = P;
        let due = Answer {
            number: 4,
            first: message as u32 - 1,
            second: 4,
        };
        assert_eq!(inputs.encode::<P>(lengths[3]), due);
        assert_eq!(inputs.write::<P>(lengths[7], 2 * message), due);
    }
}

/// Every length is exact; y is a single word and has none.
fn one_word_more_or_less<const P: u32>() {
    let mut rng = Rng::new(Field::of(P), 91);
    let three = Answer::plain(3);
    for numbers in LAYOUTS {
        let (lengths, message) = lengths(numbers);
        let (block, opening) = (lengths[3], lengths[7]);
        let exact = Inputs::new::<P>(&mut rng, numbers);
        assert_eq!(exact.encode::<P>(block), Answer::DONE);
        assert_eq!(exact.decode::<P>(message, block), Answer::plain(8));
        assert_eq!(exact.write::<P>(opening, 2 * message), Answer::DONE);
        assert!(exact.verify::<P>().number >= 20);
        for off in [-1, 1] {
            let off = |length: usize| length.wrapping_add_signed(off);
            assert_eq!(exact.encode::<P>(off(block)), three);
            assert_eq!(exact.decode::<P>(off(message), block), three);
            assert_eq!(exact.decode::<P>(message, off(block)), three);
            assert_eq!(exact.write::<P>(off(opening), 2 * message), three);
            assert_eq!(exact.write::<P>(opening, off(2 * message)), three);
            for input in [0, 1, 2, 3, 4, 6, 7] {
                let mut inputs = Inputs::new::<P>(&mut rng, numbers);
                if lengths[input] > 0 {
                    inputs.words[input].resize(off(lengths[input]), 1);
                    assert_eq!(inputs.verify::<P>(), three);
                }
            }
        }
    }
}

/// T and T' of the level below, c * k0 * 2^(i) words.
fn folding<const P: u32>() {
    for (depth, rate, k0, lower) in [(1, 2, 2, 4), (2, 3, 4, 24), (3, 2, 1, 8)] {
        let fold = |t: usize, t2: usize, block: usize, out: usize, challenge: u32| {
            let (t, t2) = (vec![2; t], vec![3; t2]);
            let parameters = Parameters { depth, rate, k0 };
            let lent = LentLevel {
                field: Field::of(P),
                parameters,
                t: &t,
                t2: &t2,
            };
            let mut out = vec![7; out];
            let answer = Reference::fold(lent, &vec![1; block], challenge, &mut out);
            (answer.number, answer.first, answer.second)
        };
        assert_eq!(fold(lower, lower, 2 * lower, lower, 5), (0, 0, 0));
        assert_eq!(fold(lower, lower, 2 * lower, lower, P), (4, 0, 7));
        assert_eq!(fold(lower + 1, lower, 2 * lower, lower, P), (3, 0, 0));
        assert_eq!(fold(lower, lower - 1, 2 * lower, lower, P), (3, 0, 0));
        assert_eq!(fold(lower, lower, 2 * lower + 1, lower, P), (3, 0, 0));
        assert_eq!(fold(lower, lower, 2 * lower, lower - 1, P), (3, 0, 0));
    }
}

fn evaluating<const P: u32>() {
    for (depth, k0, words, point) in [(0, 2, 2, 1), (0, 4, 4, 2), (2, 2, 8, 3), (3, 4, 32, 5)] {
        let evaluate = |message: &[u32], z: &[u32]| {
            let lent = Parameters { depth, rate: 0, k0 };
            let answer = Reference::evaluate(Field::of(P), lent, message, z, &mut 7);
            (answer.number, answer.first, answer.second)
        };
        let (mut message, mut z) = (vec![1; words], vec![1; point]);
        assert_eq!(evaluate(&message, &z), (0, 0, 0));
        assert_eq!(evaluate(&message[1..], &z), (3, 0, 0));
        assert_eq!(evaluate(&message, &z[1..]), (3, 0, 0));
        z[point - 1] = P;
        assert_eq!(evaluate(&message, &z), (4, point as u32 - 1, 5));
        message[words - 1] = P;
        assert_eq!(evaluate(&message, &z), (4, words as u32 - 1, 4));
    }
}
