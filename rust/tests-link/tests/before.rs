//! The linked library beside an older one, call by call with all buffers: with base messages of one word every
//! answer and every buffer is as before. Calls with another k0, which the older one cannot be lent, are compared
//! with the reference and not counted.

use std::io::Write;
use std::sync::atomic::{AtomicUsize, Ordering};
use tvarchula_compare::linked::{Before, Linked};
use tvarchula_compare::{run, scale, sweep, Call, Comparison, Runner};
use tvarchula_reference::{Answer, Field, Reference};

/// Calls of the older library.
static CALLS: AtomicUsize = AtomicUsize::new(0);

fn before(call: &mut Call) -> Answer {
    if call.job.has_record() && call.lent.k0() != 1 {
        return run::any::<Reference>(call);
    }
    CALLS.fetch_add(1, Ordering::Relaxed);
    run::any::<Before>(call)
}

type Sweep = fn(&mut Comparison, Field) -> sweep::Swept;

const SWEEPS: [Sweep; 9] = [
    |c, field| sweep::ground::run(c, field, scale()),
    sweep::ground::sixteen,
    sweep::ground::deep,
    |c, field| sweep::code::run(c, field, scale()),
    sweep::code::sixteen,
    sweep::code::deep,
    |c, field| sweep::opening::run(c, field, scale()),
    sweep::opening::sixteen,
    sweep::opening::deep,
];

fn compared(title: &str, sweep: impl Fn(&mut Comparison) -> sweep::Swept) {
    let sides: [Runner; 2] = [run::any::<Linked>, before];
    let mut comparison = Comparison::new(sides[0], sides[1]);
    if let Err(difference) = sweep(&mut comparison) {
        panic!("the library and the one before differ:\n{difference}");
    }
    comparison.tally.print(title);
}

/// All sweeps of the comparison with the reference, then how many calls the older library has run.
#[test]
fn as_before() {
    for field in Field::ALL {
        for sweep in SWEEPS {
            let title = format!("{field:?} field, all k0");
            compared(&title, |c| sweep(c, field));
        }
    }
    compared("filling", |c| {
        sweep::fill::run(c, scale())?;
        sweep::fill::deep(c)
    });
    let calls = CALLS.load(Ordering::Relaxed);
    let line = format!("as before: {calls} calls with base messages of one word, no difference\n");
    std::io::stderr()
        .write_all(line.as_bytes())
        .expect("stderr");
    assert!(calls > 100_000);
}

/// A difference would be found: the older library with another answer in one call of a thousand.
#[test]
fn another_answer_is_found() {
    fn wrong(call: &mut Call) -> Answer {
        static TURN: AtomicUsize = AtomicUsize::new(0);
        let answer = run::any::<Before>(call);
        match TURN.fetch_add(1, Ordering::Relaxed) % 1000 {
            999 => Answer::plain(answer.number + 1),
            _ => answer,
        }
    }
    let mut comparison = Comparison::new(run::any::<Linked>, wrong);
    let swept = sweep::fill::deep(&mut comparison);
    assert!(swept.is_ok(), "fewer calls than a thousand");
    let field = Field::First;
    let swept = sweep::ground::run(&mut comparison, field, 1);
    assert!(swept.is_err_and(|found| found.what.starts_with("answers")));
}
