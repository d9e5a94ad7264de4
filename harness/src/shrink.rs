//! A list of steps that fails, cut down to a short one and told as lines of a case.

use std::cell::Cell;
use std::panic::{self, AssertUnwindSafe};

use crate::books::Everyday;
use crate::calls::Step;
use crate::cases::line;

thread_local! {
    /// While a list is cut down its panics are of no interest; those of other tests are.
    static IS_QUIET: Cell<bool> = const { Cell::new(false) };
}

/// Runs a list, and where it fails cuts it down before it is shown. A panic is a
/// failure too.
pub fn expect_all(
    origin: &str,
    steps: &[Step],
    mut run: impl FnMut(&[Step]) -> Result<(), String>,
) {
    if failure(steps, &mut run).is_none() {
        return;
    }
    let usual = panic::take_hook();
    panic::set_hook(Box::new(move |panic| {
        if !IS_QUIET.get() {
            usual(panic);
        }
    }));
    IS_QUIET.set(true);
    let steps = shortest(steps, |steps| failure(steps, &mut run).is_some());
    let difference = failure(&steps, &mut run).unwrap_or_default();
    let lines = told_as_case(&steps);
    IS_QUIET.set(false);
    panic!(
        "{origin}: {difference}\ncut down to {} steps:\n{lines}",
        steps.len()
    );
}

fn failure(steps: &[Step], run: &mut impl FnMut(&[Step]) -> Result<(), String>) -> Option<String> {
    match panic::catch_unwind(AssertUnwindSafe(|| run(steps))) {
        Ok(result) => result.err(),
        Err(_) => Some("a panic".to_string()),
    }
}

/// Leaves out parts of a failing list, smaller and smaller ones, as long as what is
/// left still fails; in the end no single step can be left out.
pub fn shortest(steps: &[Step], mut fails: impl FnMut(&[Step]) -> bool) -> Vec<Step> {
    let mut steps = steps.to_vec();
    let mut size = steps.len();
    while size > 0 {
        let before = steps.len();
        let mut from = 0;
        while from < steps.len() {
            let to = steps.len().min(from + size);
            let rest = [&steps[..from], &steps[to..]].concat();
            match fails(&rest) {
                true => steps = rest,
                false => from = to,
            }
        }
        if size > 1 || steps.len() == before {
            size /= 2;
        }
    }
    steps
}

/// The lines of a case, with the answers of the everyday register.
fn told_as_case(steps: &[Step]) -> String {
    let mut books = Everyday::default();
    let told = steps.iter().map(|step| match step {
        Step::Call(call) => {
            let answer = panic::catch_unwind(AssertUnwindSafe(|| books.run(call)));
            line(step, answer.ok().as_ref())
        }
        Step::Set(field, value) => {
            books.set(*field, *value);
            line(step, None)
        }
        Step::Repeat(lines) => {
            books.repeat(*lines);
            line(step, None)
        }
    });
    let lines: Vec<String> = told.collect();
    lines.join("\n")
}
