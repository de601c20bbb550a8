//! Well-formed calls: every slice of its exact length, every word a residue, nothing to refuse.

use crate::buffer::Buffer;
use crate::call::{Call, Input};
use crate::job::Job;
use crate::run;
use tvarchula_reference::clearance::from_residue;
use tvarchula_reference::sample::{Rng, Style, STYLES};
use tvarchula_reference::sizes::MAX_QUERIES;
use tvarchula_reference::{over, Answer, CodeJobs, Layout, Reference};

/// Sizes and styles of a call. Its field is that of the generator which makes it.
#[derive(Clone, Copy, Debug)]
pub struct Shape {
    /// Depth (for folding the upper level, at least 1), rate and k0, legal or not.
    pub sizes: Layout,
    /// Style of base rows and diagonals.
    pub code: Style,
    /// Style of everything else.
    pub words: Style,
}

impl Shape {
    /// A shape with any styles and base messages of one word.
    pub fn any(depth: usize, rate: usize, rng: &mut Rng) -> Shape {
        Shape {
            sizes: Layout::one(depth, rate),
            code: rng.pick(&STYLES),
            words: rng.pick(&STYLES),
        }
    }

    /// A shape with a filled code, of the second field.
    pub fn filled(depth: usize, rate: usize) -> Shape {
        Shape {
            code: Style::Roots,
            ..Shape::random(depth, rate)
        }
    }

    /// A shape with any residues, where coincidences are unlikely, and base messages of one word.
    pub fn random(depth: usize, rate: usize) -> Shape {
        Shape {
            sizes: Layout::one(depth, rate),
            code: Style::Random,
            words: Style::Random,
        }
    }

    /// The same with base messages of so many words.
    pub fn with(mut self, k0: usize) -> Shape {
        self.sizes.k0 = k0;
        self
    }
}

/// A call with nothing to refuse: a block to decode is a codeword, an opening to verify is honest.
pub fn call(job: Job, shape: Shape, rng: &mut Rng) -> Call {
    let mut call = formed(job, shape, rng);
    complete(&mut call, shape, rng);
    call
}

/// Makes of a call that is well formed one with nothing to refuse, under the code that it lends.
pub fn complete(call: &mut Call, shape: Shape, rng: &mut Rng) {
    match call.job {
        Job::Decode => make_codeword(call, shape, rng),
        Job::VerifyOpening => make_honest(call, shape, rng),
        // Half the folded blocks are codewords, the others any block.
        Job::Fold if rng.one_in(2) => make_codeword_to_fold(call, shape, rng),
        _ => (),
    }
}

/// A call whose slices have the lengths that its record asks for, legal or not; a block or an opening
/// holds any residues.
pub fn formed(job: Job, shape: Shape, rng: &mut Rng) -> Call {
    let Shape { sizes, words, .. } = shape;
    let depth = sizes.depth;
    let mut call = Call::new(job, rng.field());
    call.add_note(&format!("{:?} code, {words:?} words", shape.code));
    call.out.value = rng.word();
    let [message, block, opening] = [sizes.message(), sizes.top_block(), sizes.opening()];
    let (mut inputs, mut result, mut work) = (Vec::new(), None, None);
    match job {
        Job::ReadClearance => inputs.push((Input::Word, 1)),
        Job::TableToCoefficients => {
            let table = over!(rng.field(), P => {
                let residues = rng.residues::<P>(message, words);
                residues.into_iter().map(from_residue).collect()
            });
            call.lent.table = Some(table);
            result = Some(message);
        }
        Job::CoefficientsToTable => {
            inputs.push((Input::Message, message));
            call.out.table = Some(Buffer::garbage(message, rng, |word| word as i32));
            work = Some(message);
        }
        Job::Evaluate => {
            inputs.extend([(Input::Message, message), (Input::Z, sizes.point())]);
        }
        Job::Encode => {
            inputs.push((Input::Message, message));
            result = Some(block);
        }
        Job::Decode => {
            inputs.push((Input::Block, block));
            (result, work) = (Some(message), Some(block));
        }
        Job::Fold => {
            inputs.extend([(Input::Block, block), (Input::Challenge, 1)]);
            result = Some(sizes.block(depth - 1));
        }
        Job::WriteOpening => {
            inputs.extend([
                (Input::Message, message),
                (Input::Z, sizes.point()),
                (Input::R, depth),
            ]);
            (result, work) = (Some(opening), Some(2 * message));
        }
        Job::VerifyOpening => inputs.extend([
            (Input::Block, block),
            (Input::Z, sizes.point()),
            (Input::Y, 1),
            (Input::R, depth),
            (Input::Opening, opening),
        ]),
        Job::FillRoots => {
            let diagonal = sizes.diagonals();
            let row = |length| Buffer::garbage(length, rng, |word| word);
            call.out.rows = Some([sizes.rows(), diagonal, diagonal].map(row));
        }
    }
    for (input, length) in inputs {
        call.lent.words.insert(input, rng.words(length, words));
    }
    call.out.result = result.map(|length| Buffer::garbage(length, rng, |word| word));
    call.out.work = work.map(|length| Buffer::garbage(length, rng, |word| word));
    lend_code(&mut call, shape, rng);
    call
}

/// Lends record, base rows, diagonals and queries to the jobs that have them. A number of the record that
/// the job does not judge is any word.
fn lend_code(call: &mut Call, shape: Shape, rng: &mut Rng) {
    let sizes = shape.sizes;
    let lent = &mut call.lent;
    if call.job.has_record() {
        lent.parameters = sizes.parameters();
    }
    if call.job.has_record() && !call.job.judges_rate() {
        lent.parameters.rate = rng.word();
    }
    if call.job.has_record() && !call.job.judges_depth() {
        lent.parameters.depth = rng.word();
    }
    if (Job::Encode..Job::FillRoots).contains(&call.job) {
        let [g, mut t, mut t2] = rng.code(&sizes, shape.code);
        if call.job == Job::Fold {
            t = t.split_off(sizes.diagonal(sizes.depth - 1).start);
            t2 = t2.split_off(sizes.diagonal(sizes.depth - 1).start);
        } else {
            lent.words.insert(Input::G, g);
        }
        lent.words.insert(Input::T, t);
        lent.words.insert(Input::T2, t2);
    }
    if call.job == Job::VerifyOpening {
        lent.words.insert(Input::Queries, queries(&sizes, rng));
    }
}

/// A legal query list, no place twice: mostly short, with the ends and the starts of the second halves
/// among it.
pub fn queries(sizes: &Layout, rng: &mut Rng) -> Vec<u32> {
    if sizes.depth == 0 || sizes.block(0) == 0 {
        return Vec::new();
    }
    let count = match rng.below(20) {
        0 => MAX_QUERIES,
        1 => 1 + rng.below(MAX_QUERIES),
        2..=7 => 1,
        _ => 1 + rng.below(8),
    };
    let below = sizes.block(sizes.depth - 1);
    let place = || match rng.below(6) {
        0 => 0,
        1 => below - 1,
        2 => sizes.block(rng.below(sizes.depth)) % below,
        3 => (sizes.block(rng.below(sizes.depth)) - 1) % below,
        _ => rng.below(below),
    };
    different(count.min(below), std::iter::repeat_with(place))
}

/// As many different queries as are legal, at most 256: the ends, the starts and ends of the second
/// halves, and any others.
pub fn most_queries(sizes: &Layout, rng: &mut Rng) -> Vec<u32> {
    if sizes.depth == 0 {
        return Vec::new();
    }
    let below = sizes.block(sizes.depth - 1);
    let starts = (0..sizes.depth).map(|level| sizes.block(level));
    let edges = starts.flat_map(|start| [start - 1, start % below]);
    let places = edges.chain(std::iter::repeat_with(|| rng.below(below)));
    different(below.min(MAX_QUERIES), places)
}

/// So many of the places, but those that came before left out.
fn different(count: usize, places: impl Iterator<Item = usize>) -> Vec<u32> {
    let mut queries = Vec::with_capacity(count);
    for place in places.map(|place| place as u32) {
        if queries.len() == count {
            break;
        }
        if !queries.contains(&place) {
            queries.push(place);
        }
    }
    queries
}

fn make_codeword(call: &mut Call, shape: Shape, rng: &mut Rng) {
    let message = rng.words(shape.sizes.message(), shape.words);
    let mut block = call.lent.words(Input::Block).to_vec();
    let answer = Reference::encode(call.lent.code(), &message, &mut block);
    assert_eq!(answer, Answer::DONE);
    call.lent.words.insert(Input::Block, block);
}

/// Lends a codeword whose top level is the one level that folding is lent.
fn make_codeword_to_fold(call: &mut Call, shape: Shape, rng: &mut Rng) {
    let mut encoding = formed(Job::Encode, shape, rng);
    for input in [Input::T, Input::T2] {
        let level = shape.sizes.diagonal(shape.sizes.depth - 1);
        let words = encoding.lent.words(input)[level].to_vec();
        call.lent.words.insert(input, words);
    }
    let parts = encoding.out.parts();
    let message = encoding.lent.words(Input::Message);
    let answer = Reference::encode(encoding.lent.code(), message, parts.result);
    assert_eq!(answer, Answer::DONE);
    call.lent.words.insert(Input::Block, parts.result.to_vec());
    call.add_note("a codeword");
}

/// Makes a claim honest: the codeword, the opening and the value of any message.
fn make_honest(call: &mut Call, shape: Shape, rng: &mut Rng) {
    let mut writing = formed(Job::WriteOpening, shape, rng);
    for input in [Input::G, Input::T, Input::T2, Input::Z, Input::R] {
        let words = call.lent.words(input).to_vec();
        writing.lent.words.insert(input, words);
    }
    let honest = honest(&writing, shape, rng);
    for input in [Input::Block, Input::Opening, Input::Y] {
        let words = honest.lent.words(input).to_vec();
        call.lent.words.insert(input, words);
    }
    call.add_note("honest");
}

/// The claim that a call which writes an opening leads to, with any legal queries.
pub fn honest(writing: &Call, shape: Shape, rng: &mut Rng) -> Call {
    let mut writing = writing.clone();
    let mut call = Call::new(Job::VerifyOpening, writing.lent.field);
    call.lent = writing.lent.clone();
    let message = call.lent.words.remove(&Input::Message).expect("a message");
    let mut block = vec![0; shape.sizes.top_block()];
    let answer = Reference::encode(writing.lent.code(), &message, &mut block);
    assert_eq!(answer, Answer::DONE);
    assert_eq!(run::opening::<Reference>(&mut writing), Answer::DONE);
    let opening = writing.out.parts().result.to_vec();
    let queries = queries(&shape.sizes, rng);
    let value = vec![writing.out.value];
    let lent = [
        (Input::Block, block),
        (Input::Y, value),
        (Input::Queries, queries),
        (Input::Opening, opening),
    ];
    call.lent.words.extend(lent);
    call
}
