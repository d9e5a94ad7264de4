//! Puts random calls to the proved register, over all thermal years in one process, and checks the
//! sums, commitments and cuts of demand 3 from their fields and answers alone. Of the reference it
//! takes the calendar and nothing else.

mod caller;
mod reckoning;

use caller::{ends, Caller};
use reckoning::{Answer, Call, Reckoning, POINTS, USERS};
use reference::calendar::THERMAL_YEARS;
use std::{collections::BTreeSet, env, fmt::Debug, process::ExitCode, time::Instant};
use ylgrandi::{Refusal, Register};

struct Run {
    calls: u64,
    register: Register,
    reckoning: Reckoning,
    caller: Caller,
    tally: Tally,
}

impl Run {
    /// Makes all calls, or those up to the first difference. A round goes from a fresh register of
    /// the first year to the last; the first round leaves out no year.
    fn run(&mut self) -> Result<(), String> {
        while self.tally.calls < self.calls {
            self.year()?;
            let skips = self.tally.rounds > 0 && self.caller.one_in(8);
            let year = self.reckoning.year + 1 + u16::from(skips);
            if year > *THERMAL_YEARS.end() {
                (self.register, self.reckoning) = fresh();
                self.tally.rounds += 1;
            } else if self.tally.calls < self.calls {
                self.put(&Call::Turn { year }, false)?;
            }
        }
        Ok(())
    }

    /// The calls of a year. The first round shares out what there is, so as to come to all years;
    /// later ones have enough to fill the ledger.
    fn year(&mut self) -> Result<(), String> {
        self.tally.visited.insert(self.reckoning.year);
        let left = self.calls - self.tally.calls;
        let years = u64::from(THERMAL_YEARS.end() - self.reckoning.year) + 1;
        let first = self.tally.rounds == 0;
        let usual = if first { left / years } else { 2_000 };
        let calls = self.caller.between(usual / 2, usual * 3 / 2);
        let calls = calls.clamp(1, left.min(3_000));
        for call in 1..=calls {
            let full = call == calls || call % 2_000 == 0;
            let call = self.caller.call(&self.reckoning);
            self.put(&call, full)?;
        }
        Ok(())
    }

    /// Puts a call, and checks its answer and what it did or, if refused, did not do.
    fn put(&mut self, call: &Call, full: bool) -> Result<(), String> {
        self.tally.calls += 1;
        let given = self.answer(call)?;
        self.tally.count(call, &given);
        if self.tally.calls.is_multiple_of(1_000_000) {
            println!("{} calls, year {}", self.tally.calls, self.reckoning.year);
        }
        let checked = self.check(full);
        checked.map_err(|difference| format!("after {call:?}\n{difference}"))
    }

    /// The answer to a call, if it is the one due.
    fn answer(&mut self, call: &Call) -> Result<Answer, String> {
        let given = call.put_to(&mut self.register);
        let due = self.reckoning.book(call, &given);
        same(call, due, Some(given.clone()))?;
        Ok(given)
    }

    /// The year, the ledger's lines, all accounts and points, and two reports; in a full check the
    /// reports of every point and gas-day, and of the days about the year.
    fn check(&mut self, full: bool) -> Result<(), String> {
        let (reckoning, register) = (&self.reckoning, &self.register);
        same("year", reckoning.year, register.year())?;
        same("ledger lines", reckoning.lines, register.ledger().len())?;
        for user in 0..USERS {
            let given = register.account(user);
            let given = given.map(|account| (account.guarantee, account.commitment));
            same(("account", user), reckoning.user(user), given)?;
            let covered = given.is_none_or(|(guarantee, commitment)| commitment <= guarantee);
            same(("commitment covered", user), true, covered)?;
        }
        for point in 0..POINTS {
            let (due, given) = (reckoning.point(point), register.point(point));
            same(("point", point), due, given)?;
        }
        let mut reports = vec![self.caller.report(reckoning), self.caller.report(reckoning)];
        let (first, last) = ends(&reckoning.thermal.days());
        let points = if full { POINTS } else { 0 };
        for point in 0..points {
            reports.extend((first - 1..=last + 1).map(|day| Call::Report { point, day }));
        }
        self.tally.full_checks += u64::from(full);
        for report in &reports {
            self.tally.free_amounts += u64::from(self.answer(report)?.is_ok());
        }
        Ok(())
    }
}

const HEAD: &str =
    "number      open guarantee   request     batch its lines   cession      turn    report";

/// What a run counts.
#[derive(Default)]
struct Tally {
    calls: u64,
    /// By column, how often each number was the answer. 0 is accepted.
    answers: [[u64; 16]; 8],
    /// By column, the calls with less granted than asked.
    cut: [u64; 8],
    visited: BTreeSet<u16>,
    rounds: u64,
    full_checks: u64,
    free_amounts: u64,
}

impl Tally {
    fn count(&mut self, call: &Call, answer: &Answer) {
        let (column, asked) = match call {
            Call::Open { .. } => (0, vec![]),
            Call::Guarantee { .. } => (1, vec![]),
            Call::Request(request) => (2, vec![request.amount]),
            Call::Batch { lines, .. } => (3, lines.iter().map(|line| line.asked).collect()),
            Call::Cession(_) => (5, vec![]),
            Call::Turn { .. } => (6, vec![]),
            Call::Report { .. } => (7, vec![]),
        };
        let number = |no: Option<&Refusal>| no.map_or(0, |no| usize::from(no.number()));
        self.answers[column][number(answer.as_ref().err())] += 1;
        let mut cut = false;
        for (&asked, share) in asked.iter().zip(answer.iter().flatten()) {
            self.answers[4][number(share.as_ref().err())] += u64::from(column == 3);
            cut |= share.is_ok_and(|share| u64::from(share) < asked);
        }
        self.cut[column] += u64::from(cut);
    }

    fn print(&self) {
        println!("{HEAD}");
        for number in 0..16 {
            let counts = self.answers.map(|counts| format!("{:>10}", counts[number]));
            println!("{number:>6}{}", counts.concat());
        }
        println!("requests cut {}, batches cut {}", self.cut[2], self.cut[3]);
        println!("years visited {} of 99", self.visited.len());
        println!("full checks {}", self.full_checks);
        println!("points and gas-days checked {}", self.free_amounts);
        println!("accounts checked {}", self.calls * u64::from(USERS));
    }
}

fn fresh() -> (Register, Reckoning) {
    let year = *THERMAL_YEARS.start();
    let fresh = Register::fresh(year).ok().zip(Reckoning::fresh(year));
    fresh.expect("the year is within limits")
}

fn same<T: Debug + PartialEq>(what: impl Debug, due: T, given: T) -> Result<(), String> {
    let difference = || format!("{what:?}\nexpected {due:?}\ngiven    {given:?}");
    (due == given).then_some(()).ok_or_else(difference)
}

fn main() -> ExitCode {
    let arguments = env::args().skip(1).map(|argument| argument.parse());
    let (calls, seed) = match arguments.collect::<Result<Vec<u64>, _>>().as_deref() {
        Ok(&[calls]) if calls > 0 => (calls, 1),
        Ok(&[calls, seed]) if calls > 0 => (calls, seed),
        _ => {
            eprintln!("usage: soak CALLS [SEED], whole numbers, from one call on, seed 1 if none");
            return ExitCode::from(2);
        }
    };
    let (begun, (register, reckoning)) = (Instant::now(), fresh());
    let mut run = Run {
        calls,
        register,
        reckoning,
        caller: Caller::new(seed),
        tally: Tally::default(),
    };
    if let Err(difference) = run.run() {
        let (position, year) = (run.tally.calls, run.reckoning.year);
        println!("difference: seed {seed}, position {position}, year {year}\n{difference}");
        return ExitCode::FAILURE;
    }
    println!("seed {seed}, {calls} calls, no difference");
    run.tally.print();
    println!("{:.1} s", begun.elapsed().as_secs_f64());
    ExitCode::SUCCESS
}
