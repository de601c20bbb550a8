//! Readings, tables and evaluation.

use super::{blocks, good, illegal_sizes, once_deep, pairs, places, random, singles, Swept};
use crate::buffer::Buffer;
use crate::call::{Call, Input};
use crate::compare::Comparison;
use crate::good::{formed, Shape};
use crate::job::Job;
use tvarchula_reference::sample::Rng;
use tvarchula_reference::Field;

const TABLES: [Job; 2] = [Job::TableToCoefficients, Job::CoefficientsToTable];
const ALL: [Job; 3] = [TABLES[0], TABLES[1], Job::Evaluate];

/// All calls of the ground group to depth 12, and table lengths to the largest and above.
pub fn run(c: &mut Comparison, field: Field, scale: usize) -> Swept {
    let mut rng = Rng::new(field, 100);
    readings(c, 20_000 * scale, &mut rng)?;
    for job in ALL {
        for depth in 0..=12 {
            singles(c, job, Shape::any(depth, 2, &mut rng), &mut rng)?;
        }
        for depth in [0, 1, 2, 3] {
            pairs(c, job, Shape::any(depth, 2, &mut rng), &mut rng)?;
        }
        illegal_sizes(c, job, &mut rng)?;
        blocks::run(c, job, &mut rng)?;
        random(c, job, 2_000 * scale, 12, &mut rng)?;
    }
    for job in TABLES {
        lengths(c, job, &mut rng)?;
        lengths_with(c, job, &mut rng)?;
    }
    for job in [Job::ReadClearance, Job::CoefficientsToTable, Job::Evaluate] {
        places::run(c, job, &mut rng)?;
    }
    corners(c, &mut rng)
}

/// Depth 16, good and with every damage.
pub fn sixteen(c: &mut Comparison, field: Field) -> Swept {
    let mut rng = Rng::new(field, 101);
    for job in ALL {
        good(c, job, Shape::any(16, 2, &mut rng), &mut rng)?;
        singles(c, job, Shape::random(16, 2), &mut rng)?;
    }
    Ok(())
}

/// The deepest calls of every run.
pub fn deep(c: &mut Comparison, field: Field) -> Swept {
    once_deep(c, &ALL, &mut Rng::new(field, 102))?;
    blocks::limits(c, &ALL, field)
}

/// Words around every edge of both fields, and any words.
fn readings(c: &mut Comparison, count: usize, rng: &mut Rng) -> Swept {
    let moduli = Field::ALL.map(Field::modulus);
    let edges = moduli.map(|p| [p / 2, p / 2 + 1, p, 2 * p]).concat();
    let edges = edges.into_iter().chain([0, u32::MAX]);
    let near =
        |edge: u32| (0..100_u32).flat_map(move |k| [edge.wrapping_add(k), edge.wrapping_sub(k)]);
    let words: Vec<u32> = edges.flat_map(near).collect();
    let field = rng.field();
    let any = (0..count).map(|_| rng.word());
    for word in words.into_iter().chain(any) {
        let mut call = Call::new(Job::ReadClearance, field);
        call.add_note(&format!("word {word}"));
        call.lent.words.insert(Input::Word, vec![word]);
        c.check(&call)?;
    }
    Ok(())
}

/// Tables of every small length and around the largest, all slices of that same length.
fn lengths(c: &mut Comparison, job: Job, rng: &mut Rng) -> Swept {
    let large = [127, 128, 129, 1000, 65_535, 65_536, 65_537, 131_072];
    let largest = [1_048_575, 1_048_576, 1_048_577, 1_572_864, 2_097_152];
    for length in (0..=70).chain(large).chain(largest) {
        c.check(&of_length(job, length, 1, rng))?;
    }
    Ok(())
}

/// Tables of some lengths with another k0: k0 itself is the least, and one that is not legal counts as 1.
fn lengths_with(c: &mut Comparison, job: Job, rng: &mut Rng) -> Swept {
    for k0 in [2, 4, 0, 3, 5, 8, 16, 64, 1 << 20, 1 << 31, u32::MAX] {
        for length in (0..=20).chain([32, 48, 64, 1024, 1025]) {
            c.check(&of_length(job, length, k0, rng))?;
        }
    }
    for k0 in [0, 3, u32::MAX] {
        for length in [1_048_575, 1_048_576, 1_048_577, 2_097_152] {
            c.check(&of_length(job, length, k0, rng))?;
        }
    }
    Ok(())
}

/// A call with all slices of one length.
fn of_length(job: Job, length: usize, k0: u32, rng: &mut Rng) -> Call {
    let mut call = formed(job, Shape::any(0, 2, rng), rng);
    call.lent.parameters.k0 = k0;
    call.add_note(&format!("length {length}"));
    if job == Job::TableToCoefficients {
        call.lent.table = Some(vec![-1; length]);
        call.out.result = Some(Buffer::garbage(length, rng, |word| word));
    } else {
        call.lent.words.insert(Input::Message, vec![1; length]);
        call.out.table = Some(Buffer::garbage(length, rng, |word| word as i32));
        call.out.work = Some(Buffer::garbage(length, rng, |word| word));
    }
    call
}

/// Every message with one word set, at every corner and back to its table: one monomial each, so a
/// wrong order of variables shows. The low variables of a base message are variables like others.
fn corners(c: &mut Comparison, rng: &mut Rng) -> Swept {
    for variables in 0..=4_usize {
        for k0 in [1, 2, 4].into_iter().filter(|k0| k0 >> variables <= 1) {
            let depth = variables - k0 / 2;
            let shape = Shape::any(depth, 2, rng).with(k0);
            for b in 0..1_usize << variables {
                let unit: Vec<u32> = (0..1 << variables).map(|k| u32::from(k == b)).collect();
                let mut back = formed(Job::CoefficientsToTable, shape, rng);
                back.lent.words.insert(Input::Message, unit.clone());
                c.check(&back)?;
                let mut there = formed(Job::TableToCoefficients, shape, rng);
                there.lent.table = Some(unit.iter().map(|&word| word as i32).collect());
                c.check(&there)?;
                for corner in 0..1_usize << variables {
                    let mut call = formed(Job::Evaluate, shape, rng);
                    call.lent.words.insert(Input::Message, unit.clone());
                    let point = (0..variables).map(|i| (corner >> i & 1) as u32).collect();
                    call.lent.words.insert(Input::Z, point);
                    c.check(&call)?;
                }
            }
        }
    }
    Ok(())
}
