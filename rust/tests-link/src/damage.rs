//! Damages: each spoils a call in one way, legal words moved by one included.

use crate::buffer::Buffer;
use crate::call::{Call, Input, Lent};
use tvarchula_reference::field::{FIRST, SECOND};
use tvarchula_reference::sample::Rng;
use tvarchula_reference::sizes::{K0S, MAX_DEPTH};
use tvarchula_reference::Field;

/// A lent slice whose length can be wrong.
#[derive(Clone, Copy, PartialEq, Eq, Debug)]
pub enum Slice {
    /// Words that are read.
    Read(Input),
    /// Clearances that are read.
    Table,
    /// The result.
    Result,
    /// The table that is written.
    TableResult,
    /// One of the rows that filling writes.
    Row(usize),
    /// The work buffer.
    Work,
}

/// A wrong length.
#[derive(Clone, Copy, PartialEq, Eq, Debug)]
pub enum Length {
    /// One word too many.
    Longer,
    /// One word too few.
    Shorter,
    /// No word.
    Empty,
}

/// A place in a slice.
#[derive(Clone, Copy, PartialEq, Eq, Debug)]
pub enum Place {
    /// The first.
    First,
    /// The middle one.
    Middle,
    /// The last.
    Last,
    /// Any.
    Any,
}

/// One way to spoil a call.
#[derive(Clone, Copy, PartialEq, Eq, Debug)]
pub enum Damage {
    /// Another depth or upper level.
    Depth(u32),
    /// Another rate.
    Rate(u32),
    /// Another k0.
    BaseWords(u32),
    /// A slice of a wrong length.
    Length(Slice, Length),
    /// A word, or a single value, mostly of p or more.
    Word(Input, u32, Place),
    /// A word moved by one, still a residue.
    Moved(Input, Place),
    /// A zero in the base rows. Where there are several, that alone is no reason to refuse.
    ZeroInRow(Place),
    /// The second base row like the first.
    RowCopied,
    /// The last of the first k0 columns like the one before it.
    ColumnCopied,
    /// Zeros in the last of the first k0 columns.
    ColumnCleared,
    /// The first two base rows swapped: another code, but as legal.
    RowsSwapped,
    /// T' like T in a place.
    EqualPair(Place),
    /// A query list of this length, cut or filled with zeros.
    QueryCount(usize),
    /// A query that is this much above the largest legal place.
    QueryAbove(u32, Place),
    /// A query that is the largest word.
    QueryMax(Place),
    /// The first query once more, at the end of the list.
    QueryRepeated,
    /// The last query like the first.
    QueryCopied,
    /// The list filled up to this length with other places, as far as there are some: no repeat.
    QueryFilled(usize),
    /// Another clearance.
    Clearance(i32, Place),
}

const PLACES: [Place; 3] = [Place::First, Place::Last, Place::Any];
/// Where a refusal names the place.
const NAMED: [Place; 4] = [Place::First, Place::Middle, Place::Last, Place::Any];

/// Every damage that a call can take.
pub fn all(call: &Call) -> Vec<Damage> {
    let lent = &call.lent;
    let p = lent.field.modulus();
    // A residue of the first field and none of the second.
    let between = match lent.field {
        Field::First => SECOND,
        Field::Second => FIRST - 1,
    };
    let mut damages = Vec::new();
    damages.extend(numbers(call));
    for slice in slices(call) {
        let lengths = [Length::Longer, Length::Shorter, Length::Empty];
        damages.extend(lengths.map(|length| Damage::Length(slice, length)));
    }
    for &input in lent.words.keys().filter(|&&input| input != Input::Queries) {
        damages.extend(NAMED.map(|place| Damage::Word(input, p, place)));
        damages.extend(PLACES.map(|place| Damage::Moved(input, place)));
        let words = [p + 1, 2 * p, u32::MAX, between];
        damages.extend(words.map(|word| Damage::Word(input, word, Place::Any)));
    }
    if lent.words.contains_key(&Input::G) {
        damages.extend(NAMED.map(Damage::ZeroInRow));
        if lent.k0() > 1 {
            damages.extend([Damage::RowCopied, Damage::RowsSwapped]);
            damages.extend([Damage::ColumnCopied, Damage::ColumnCleared]);
        }
    }
    if lent.words.contains_key(&Input::T) {
        damages.extend(NAMED.map(Damage::EqualPair));
    }
    if lent.words.contains_key(&Input::Queries) {
        damages.extend([0, 1, 256, 257, 300].map(Damage::QueryCount));
        damages.extend(PLACES.map(|place| Damage::QueryAbove(0, place)));
        damages.extend(PLACES.map(|place| Damage::QueryAbove(1, place)));
        damages.extend(PLACES.map(Damage::QueryMax));
        damages.extend([Damage::QueryRepeated, Damage::QueryCopied]);
        damages.push(Damage::QueryFilled(256));
    }
    if lent.table.is_some() {
        let edge = lent.field.max_clearance();
        let words = [edge, -edge, edge + 1, -edge - 1, i32::MAX, i32::MIN];
        for word in words {
            damages.extend(PLACES.map(|place| Damage::Clearance(word, place)));
        }
        // Clearances of the first field and none of the second.
        for word in [1_006_632_961, 1_073_741_823]
            .map(|word| [word, -word])
            .concat()
        {
            damages.push(Damage::Clearance(word, Place::Any));
        }
    }
    damages
}

/// Other numbers in the record, those that the job does not judge too.
fn numbers(call: &Call) -> Vec<Damage> {
    let (job, lent) = (call.job, &call.lent);
    let mut damages = Vec::new();
    if !job.has_record() {
        return damages;
    }
    if job.judges_depth() {
        let depth = lent.depth();
        let others = [20, 21, 31, 32, 33, 64, u32::MAX, 0, depth + 1];
        damages.extend(others.map(Damage::Depth));
        damages.extend(depth.checked_sub(1).map(Damage::Depth));
        if lent.k0() > 1 {
            damages.extend([18, 19].map(Damage::Depth));
        }
    } else {
        damages.extend([0, 21, u32::MAX].map(Damage::Depth));
    }
    if job.judges_rate() {
        let rate = lent.rate();
        let others = [0, 1, 17, 18, u32::MAX, rate + 1, rate - 1];
        damages.extend(others.map(Damage::Rate));
    } else {
        damages.extend([0, 17].map(Damage::Rate));
    }
    let legal = K0S.into_iter().filter(|&k0| k0 != lent.k0());
    let others = [0, 3, 5, 8, u32::MAX].into_iter().chain(legal);
    damages.extend(others.map(Damage::BaseWords));
    damages
}

/// The slices whose length is judged. The query list's length is no slice's length.
fn slices(call: &Call) -> Vec<Slice> {
    let inputs = call.lent.words.keys().copied();
    let judged = inputs.filter(|&input| !input.is_single() && input != Input::Queries);
    let mut slices: Vec<Slice> = judged.map(Slice::Read).collect();
    let others = [
        (call.lent.table.is_some(), Slice::Table),
        (call.out.result.is_some(), Slice::Result),
        (call.out.table.is_some(), Slice::TableResult),
        (call.out.work.is_some(), Slice::Work),
    ];
    slices.extend(
        others
            .iter()
            .filter(|(lent, _)| *lent)
            .map(|(_, slice)| slice),
    );
    let rows = call.out.rows.iter().flatten().enumerate();
    slices.extend(rows.map(|(row, _)| Slice::Row(row)));
    slices
}

/// Words that are no residues of a field: around the ends of either.
pub fn refused_words(field: Field) -> Vec<u32> {
    let ends = [FIRST, SECOND, 2 * FIRST, 2 * SECOND];
    let around = ends.iter().flat_map(|&end| [end - 1, end, end + 1]);
    let words = around.chain([u32::MAX]);
    words.filter(|&word| word >= field.modulus()).collect()
}

/// The next residue after a word.
pub fn moved(field: Field, word: u32) -> u32 {
    let p = field.modulus();
    (word % p + 1) % p
}

/// The residue before a word.
pub fn moved_back(field: Field, word: u32) -> u32 {
    let p = field.modulus();
    (word % p + p - 1) % p
}

/// Spoils a call. A damage that finds no word to change does nothing.
pub fn apply(call: &mut Call, damage: Damage, rng: &mut Rng) {
    call.add_note(&format!("{damage:?}"));
    let legal = legal_places(call);
    let lent = &mut call.lent;
    match damage {
        Damage::Depth(depth) => lent.parameters.depth = depth,
        Damage::Rate(rate) => lent.parameters.rate = rate,
        Damage::BaseWords(k0) => lent.parameters.k0 = k0,
        Damage::Length(slice, length) => resize(call, slice, length),
        Damage::Word(input, word, place) => change(lent.words_mut(input), place, rng, |_| word),
        Damage::Moved(input, place) => {
            let field = lent.field;
            change(lent.words_mut(input), place, rng, |word| moved(field, word));
        }
        Damage::ZeroInRow(place) => change(lent.words_mut(Input::G), place, rng, |_| 0),
        Damage::RowCopied => rows(lent, |g, n, _| g.copy_within(..n, n)),
        Damage::RowsSwapped => rows(lent, |g, n, _| g[..2 * n].rotate_left(n)),
        Damage::ColumnCopied => columns(lent, |row, last| row[last] = row[last - 1]),
        Damage::ColumnCleared => columns(lent, |row, last| row[last] = 0),
        Damage::EqualPair(place) => {
            let t = lent.words(Input::T).to_vec();
            let both = t.len().min(lent.words(Input::T2).len());
            if both > 0 {
                let j = index(both, place, rng);
                lent.words_mut(Input::T2)[j] = t[j];
            }
        }
        Damage::QueryCount(count) => lent.words_mut(Input::Queries).resize(count, 0),
        Damage::QueryAbove(above, place) => {
            change(lent.words_mut(Input::Queries), place, rng, |_| {
                legal + above
            });
        }
        Damage::QueryMax(place) => {
            change(lent.words_mut(Input::Queries), place, rng, |_| u32::MAX);
        }
        Damage::QueryRepeated => {
            let queries = lent.words_mut(Input::Queries);
            queries.extend(queries.first().copied());
        }
        Damage::QueryCopied => {
            let queries = lent.words_mut(Input::Queries);
            if let [first, .., last] = &mut queries[..] {
                *last = *first;
            }
        }
        Damage::QueryFilled(count) => fill(lent.words_mut(Input::Queries), count, legal),
        Damage::Clearance(word, place) => {
            change(lent.table.as_mut().expect("a table"), place, rng, |_| word);
        }
    }
}

/// How many places are legal for a query of this call, as its record now is.
fn legal_places(call: &Call) -> u32 {
    let lent = &call.lent;
    match lent.depth() {
        depth @ 1..=MAX_DEPTH if lent.rate() <= 16 && lent.k0() <= 8 => {
            (lent.rate() * lent.k0()) << (depth - 1)
        }
        _ => 0,
    }
}

/// Changes base rows of n words, where there are at least two as the record says.
fn rows(lent: &mut Lent, change: impl FnOnce(&mut [u32], usize, usize)) {
    let k0 = lent.k0() as usize;
    let g = lent.words_mut(Input::G);
    if (2..=4).contains(&k0) && g.len() >= k0 * k0 {
        let n = g.len() / k0;
        change(g, n, k0);
    }
}

/// Changes the first k0 columns, row by row.
fn columns(lent: &mut Lent, change: impl Fn(&mut [u32], usize)) {
    rows(lent, |g, n, k0| {
        for row in g.chunks_exact_mut(n) {
            change(row, k0 - 1);
        }
    });
}

/// The smallest places that are not in the list yet, behind it.
fn fill(queries: &mut Vec<u32>, count: usize, legal: u32) {
    let missing = count.saturating_sub(queries.len());
    let others = (0..legal).filter(|place| !queries.contains(place));
    let others: Vec<u32> = others.take(missing).collect();
    queries.extend(others);
}

fn resize(call: &mut Call, slice: Slice, length: Length) {
    fn resize_words<T: Default>(words: &mut Vec<T>, length: Length) {
        match length {
            Length::Longer => words.push(T::default()),
            Length::Shorter => drop(words.pop()),
            Length::Empty => words.clear(),
        }
    }
    fn resize_buffer<T: Copy + PartialEq>(buffer: Option<&mut Buffer<T>>, length: Length) {
        let buffer = buffer.expect("a buffer");
        match length {
            Length::Longer => buffer.lengthen(),
            Length::Shorter => buffer.shorten(),
            Length::Empty => buffer.empty(),
        }
    }
    match slice {
        Slice::Read(input) => resize_words(call.lent.words_mut(input), length),
        Slice::Table => resize_words(call.lent.table.as_mut().expect("a table"), length),
        Slice::Result => resize_buffer(call.out.result.as_mut(), length),
        Slice::TableResult => resize_buffer(call.out.table.as_mut(), length),
        Slice::Work => resize_buffer(call.out.work.as_mut(), length),
        Slice::Row(row) => resize_buffer(call.out.rows.as_mut().map(|rows| &mut rows[row]), length),
    }
}

fn index(length: usize, place: Place, rng: &mut Rng) -> usize {
    match place {
        Place::First => 0,
        Place::Middle => length / 2,
        Place::Last => length - 1,
        Place::Any => rng.below(length),
    }
}

fn change<T: Copy>(words: &mut [T], place: Place, rng: &mut Rng, to: impl Fn(T) -> T) {
    if !words.is_empty() {
        let j = index(words.len(), place, rng);
        words[j] = to(words[j]);
    }
}
