//! Ways to spoil a call over either field. A job that does not take what is spoiled answers as before.

use tvarchula_bench::plain::{FIRST, SECOND};
use tvarchula_bench::{Buffers, Inputs, MAX_DEPTH, MAX_QUERIES};

/// One way to spoil a call.
pub type Damage = fn(&mut Inputs, &mut Buffers);

/// All of them, by the refusals and failures that they aim at.
pub const ALL: &[Damage] = &[
    // 1 and 2
    |i, _| i.depth = MAX_DEPTH + 1,
    |i, _| i.depth = 0,
    |i, _| i.rate = 1,
    |i, _| i.rate = 17,
    // 13: plain Rust takes no 2 or 4 either, and is not asked
    |i, _| i.k0 = 0,
    |i, _| i.k0 = 3,
    |i, _| i.k0 = u32::MAX,
    // 3, and 1 where a length tells the depth
    |i, _| i.g.push(1),
    |i, _| longer(&mut i.t),
    |i, _| shorter(&mut i.t2),
    |i, _| longer(&mut i.fold_t),
    |i, _| shorter(&mut i.fold_t2),
    |i, _| shorter(&mut i.clearances),
    |i, _| longer(&mut i.message),
    |i, _| i.message.clear(),
    |i, _| shorter(&mut i.block),
    |i, _| longer(&mut i.z),
    |i, _| shorter(&mut i.r),
    |i, _| longer(&mut i.opening),
    |_, b| longer(&mut b.result),
    |_, b| shorter(&mut b.result),
    |_, b| longer(&mut b.table),
    |_, b| shorter(&mut b.work),
    // 4
    |i, _| set(i.g.last_mut(), i.p),
    |i, _| set(i.t.last_mut(), u32::MAX),
    |i, _| set(i.t2.last_mut(), i.p),
    |i, _| set(i.fold_t.last_mut(), i.p + 1),
    |i, _| set(i.fold_t2.last_mut(), i.p),
    |i, _| set(i.message.last_mut(), i.p),
    |i, _| set(i.block.last_mut(), u32::MAX),
    |i, _| set(i.z.last_mut(), i.p),
    |i, _| i.y = i.p,
    |i, _| set(i.r.last_mut(), i.p),
    |i, _| set(i.opening.last_mut(), i.p),
    |i, _| i.challenge = i.p,
    // The same at other places, and at two
    |i, _| set(i.g.first_mut(), i.p),
    |i, _| set(middle(&mut i.t), i.p),
    |i, _| set(middle(&mut i.t2), i.p),
    |i, _| set(middle(&mut i.fold_t), i.p),
    |i, _| set(middle(&mut i.message), i.p),
    |i, _| set(middle(&mut i.block), i.p),
    |i, _| set(i.z.first_mut(), u32::MAX),
    |i, _| set(i.r.first_mut(), i.p),
    |i, _| behind_middle(&mut i.opening).fill(i.p),
    |i, _| behind_middle(&mut i.block).fill(i.p),
    // 5, 6, 7 and 11
    |i, _| set(i.g.last_mut(), 0),
    |i, _| behind_middle(&mut i.g).fill(0),
    |i, _| equal_pair(&i.t, &mut i.t2),
    |i, _| equal_pair(&i.fold_t, &mut i.fold_t2),
    |i, _| i.t2.clone_from(&i.t),
    |i, _| equal_pairs(&mut i.t, &mut i.t2),
    |i, _| equal_pairs(&mut i.fold_t, &mut i.fold_t2),
    |i, _| i.queries.clear(),
    |i, _| i.queries.resize(MAX_QUERIES, 0),
    |i, _| i.queries.resize(MAX_QUERIES + 1, 0),
    |i, _| set(i.queries.last_mut(), i.fold_t.len() as u32),
    |i, _| i.queries.extend_from_within(..1.min(i.queries.len())),
    |i, _| first_again(&mut i.queries),
    // 8 and 23
    |i, _| moved(i.p, i.block.first_mut()),
    |i, _| moved(i.p, i.block.last_mut()),
    |i, _| queried(i),
    // 9
    |i, _| set(i.clearances.last_mut(), (i.p / 2) as i32 + 1),
    |i, _| set(i.clearances.last_mut(), i32::MIN),
    // 4 and 9 over the second field, nothing to refuse over the first
    |i, _| set(i.t.first_mut(), FIRST - 1),
    |i, _| set(middle(&mut i.opening), SECOND),
    |i, _| set(i.clearances.first_mut(), -((FIRST / 2) as i32)),
    // 20 to 23
    |i, _| i.y = (i.y + 1) % i.p,
    |i, _| moved(i.p, i.opening.first_mut()),
    |i, _| moved(i.p, i.opening.get_mut(3 * i.depth as usize)),
    |i, _| moved(i.p, i.opening.last_mut()),
    |i, _| moved(i.p, middle(&mut i.opening)),
    |i, _| moved(i.p, middle(&mut i.g)),
    // Other words, but nothing to refuse
    |i, _| i.message.fill(i.p - 1),
    |i, _| i.clearances.fill(-((i.p / 2) as i32)),
    |i, _| i.draw_queries(MAX_QUERIES),
];

fn longer<T: Default>(slice: &mut Vec<T>) {
    slice.push(T::default());
}

fn shorter<T>(slice: &mut Vec<T>) {
    slice.pop();
}

fn set<T>(place: Option<&mut T>, word: T) {
    if let Some(place) = place {
        *place = word;
    }
}

fn equal_pair(t: &[u32], t2: &mut [u32]) {
    if let Some(&t) = t.last() {
        set(t2.last_mut(), t);
    }
}

/// All places from the middle one on.
fn equal_pairs(t: &mut [u32], t2: &mut [u32]) {
    let (t, t2) = (behind_middle(t), behind_middle(t2));
    t2.iter_mut().zip(t).for_each(|(b, a)| *b = *a);
}

/// The last place like the first, where there are two.
fn first_again(queries: &mut [u32]) {
    if let [first, .., last] = queries {
        *last = *first;
    }
}

/// Another residue modulo p in a place, where there is such a place.
fn moved(p: u32, place: Option<&mut u32>) {
    if let Some(word) = place {
        *word = word.wrapping_add(1) % p;
    }
}

/// Another word where the last query looks first.
fn queried(inputs: &mut Inputs) {
    if let Some(&query) = inputs.queries.last() {
        moved(inputs.p, inputs.block.get_mut(query as usize));
    }
}

fn middle(slice: &mut [u32]) -> Option<&mut u32> {
    behind_middle(slice).first_mut()
}

fn behind_middle(slice: &mut [u32]) -> &mut [u32] {
    let half = slice.len() / 2;
    &mut slice[half..]
}
