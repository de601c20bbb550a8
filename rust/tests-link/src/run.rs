//! Runs a call on an implementation of its job.

use crate::call::{Call, Input};
use crate::job::Job;
use tvarchula_reference::{Answer, CodeJobs, GroundJobs, OpeningJobs};

/// Runs a call of any group.
pub fn any<J: GroundJobs + CodeJobs + OpeningJobs>(call: &mut Call) -> Answer {
    match call.job {
        Job::Encode | Job::Decode | Job::Fold | Job::FillRoots => code::<J>(call),
        Job::WriteOpening | Job::VerifyOpening => opening::<J>(call),
        _ => ground::<J>(call),
    }
}

/// Runs a call of the ground group.
pub fn ground<J: GroundJobs>(call: &mut Call) -> Answer {
    let (lent, out) = (&call.lent, call.out.parts());
    match call.job {
        Job::ReadClearance => {
            let reading = J::read_clearance(lent.field, lent.single(Input::Word));
            *out.reading = (reading.kind, reading.amount);
            reading.answer
        }
        Job::TableToCoefficients => {
            let table = lent.table.as_ref().expect("a table");
            J::table_to_coefficients(lent.field, lent.parameters, table, out.result)
        }
        Job::CoefficientsToTable => J::coefficients_to_table(
            lent.field,
            lent.parameters,
            lent.words(Input::Message),
            out.table,
            out.work,
        ),
        Job::Evaluate => J::evaluate(
            lent.field,
            lent.parameters,
            lent.words(Input::Message),
            lent.words(Input::Z),
            out.value,
        ),
        other => unreachable!("{other:?} is of another group"),
    }
}

/// Runs a call of the code group.
pub fn code<J: CodeJobs>(call: &mut Call) -> Answer {
    let (lent, out) = (&call.lent, call.out.parts());
    match call.job {
        Job::Encode => J::encode(lent.code(), lent.words(Input::Message), out.result),
        Job::Decode => J::decode(lent.code(), lent.words(Input::Block), out.result, out.work),
        Job::Fold => J::fold(
            lent.level(),
            lent.words(Input::Block),
            lent.single(Input::Challenge),
            out.result,
        ),
        Job::FillRoots => {
            let [g, t, t2] = out.rows;
            J::fill_roots(lent.parameters, g, t, t2)
        }
        other => unreachable!("{other:?} is of another group"),
    }
}

/// Runs a call of the opening group.
pub fn opening<J: OpeningJobs>(call: &mut Call) -> Answer {
    let (lent, out) = (&call.lent, call.out.parts());
    match call.job {
        Job::WriteOpening => J::write_opening(
            lent.code(),
            lent.words(Input::Message),
            lent.words(Input::Z),
            lent.words(Input::R),
            out.result,
            out.work,
            out.value,
        ),
        Job::VerifyOpening => J::verify_opening(
            lent.code(),
            lent.words(Input::Block),
            lent.words(Input::Z),
            lent.single(Input::Y),
            lent.words(Input::R),
            lent.words(Input::Queries),
            lent.words(Input::Opening),
        ),
        other => unreachable!("{other:?} is of another group"),
    }
}
