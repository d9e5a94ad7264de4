//! Cases in text, one a line: a step and, behind `->`, what it is answered.
//!
//! `reference/cases/register.txt` says at its head what the words mean. A file
//! starts from a host without a register.

use std::fmt::Display;
use std::str::{FromStr, SplitWhitespace};

use reference::calendar::ThermalYear;
use reference::cession::{Cession, Holding};
use reference::register::{Opening, DAYS_IN_ROW, NUMBERS_IN_LINE};
use reference::request::{Product, Request};

use crate::books::Everyday;
use crate::calls::{Answer, Batch, Call, Field, Step, LINE_PARTS};
use crate::sides::Sides;

/// A number that is written, and its field.
pub type Change = (Field, u64);

/// What a line says.
#[derive(Debug, Clone, PartialEq, Eq)]
pub enum Case {
    /// A call, and its answer.
    Call(Call, Answer),
    /// A number or a line is written.
    Write(Step),
    /// Numbers that question 1 finds, in every call. Then what they were is put
    /// back.
    Damaged(Vec<Change>),
    /// Numbers that leave the register in order. Then what they were is put back.
    Harmless(Vec<Change>),
}

/// The cases of a file, each with the number of its line.
pub fn read(text: &str) -> Result<Vec<(usize, Case)>, String> {
    let lines = (1..).zip(text.lines());
    let said = lines.map(|(number, line)| (number, line.split('#').next().unwrap_or("").trim()));
    said.filter(|(_, line)| !line.is_empty())
        .map(|(number, line)| match Case::from_str(line) {
            Ok(case) => Ok((number, case)),
            Err(error) => Err(format!("line {number}, `{line}`: {error}")),
        })
        .collect()
}

/// The line of a step.
pub fn line(step: &Step, answer: Option<&Answer>) -> String {
    match (step, answer) {
        (Step::Call(call), Some(answer)) => format!("{call} -> {}", answer_text(call, answer)),
        _ => step.to_string(),
    }
}

/// Whether a call's answer has an amount, or a gas-day, beside the number.
fn has_amount(call: &Call) -> bool {
    matches!(
        call,
        Call::Request(_)
            | Call::OfNoKind(..)
            | Call::Cession(_)
            | Call::Report { .. }
            | Call::ShortDay(_)
    )
}

fn answer_text(call: &Call, answer: &Answer) -> String {
    let mut text = answer.number.to_string();
    if has_amount(call) {
        text += &format!(" {}", answer.amount);
    }
    for (share, number) in &answer.lines {
        text += &format!(" {share}:{number}");
    }
    text
}

impl FromStr for Case {
    type Err = String;

    fn from_str(line: &str) -> Result<Case, String> {
        let (step, answer) = match line.split_once("->") {
            Some((step, answer)) => (step.trim(), Some(answer)),
            None => (line, None),
        };
        let (word, rest) = step.split_once(' ').unwrap_or((step, ""));
        let case = match word {
            "damaged" => Case::Damaged(read_changes(rest)?),
            "harmless" => Case::Harmless(read_changes(rest)?),
            "set" | "repeat" => Case::Write(read_write(word, rest)?),
            _ => {
                let call = read_call(word, rest)?;
                let answer = read_answer(&call, answer.ok_or("no answer")?)?;
                return Ok(Case::Call(call, answer));
            }
        };
        match answer {
            None => Ok(case),
            Some(_) => Err("it has no answer".to_string()),
        }
    }
}

/// The words of a line, one after another.
struct Words<'a>(SplitWhitespace<'a>);

impl<'a> Words<'a> {
    fn new(text: &'a str) -> Words<'a> {
        Words(text.split_whitespace())
    }

    fn word(&mut self) -> Result<&'a str, String> {
        self.0.next().ok_or("a word is missing".to_string())
    }

    fn number<T: FromStr<Err: Display>>(&mut self) -> Result<T, String> {
        number(self.word()?)
    }

    fn end(mut self) -> Result<(), String> {
        match self.0.next() {
            None => Ok(()),
            Some(word) => Err(format!("`{word}` is too much")),
        }
    }
}

fn number<T: FromStr<Err: Display>>(word: &str) -> Result<T, String> {
    word.parse().map_err(|error| format!("`{word}`: {error}"))
}

/// A number, or `-` where a list has ended.
fn entry<T: FromStr<Err: Display>>(word: &str) -> Result<Option<T>, String> {
    match word {
        "-" => Ok(None),
        _ => number(word).map(Some),
    }
}

fn pair(word: &str) -> Result<(&str, &str), String> {
    word.split_once(':').ok_or(format!("`{word}` is no pair"))
}

fn read_call(word: &str, rest: &str) -> Result<Call, String> {
    let mut words = Words::new(rest);
    let call = match word {
        "fresh" => Call::Fresh {
            year: words.number()?,
        },
        "open" => Call::Open(Opening {
            point: words.number()?,
            kind: words.number()?,
            total: words.number()?,
            rate: words.number()?,
        }),
        "guarantee" => Call::Place {
            user: words.number()?,
            guarantee: words.number()?,
        },
        "request" => read_request(&mut words)?,
        "batch" => return read_batch(words).map(Call::Batch),
        "cession" => Call::Cession(read_cession(&mut words)?),
        "turn" => Call::Turn {
            year: words.number()?,
        },
        "report" => Call::Report {
            point: words.number()?,
            day: words.number()?,
        },
        "in-order" => Call::InOrder,
        "short-day" => Call::ShortDay(read_holding(&mut words)?),
        _ => return Err(format!("`{word}` is no step")),
    };
    words.end()?;
    Ok(call)
}

fn read_request(words: &mut Words) -> Result<Call, String> {
    let (user, point) = (words.number()?, words.number()?);
    let (kind, product) = match words.word()? {
        "annual" => (None, Product::Annual),
        "month" => (None, Product::Month(words.number()?)),
        "day" => (None, Product::Day(words.number()?)),
        "kind" => (Some(words.number()?), Product::Annual),
        word => return Err(format!("`{word}` is no product")),
    };
    let request = Request {
        user,
        point,
        product,
        arrival: words.number()?,
        amount: words.number()?,
    };
    match kind {
        None => Ok(Call::Request(request)),
        Some(1..=3) => Err("a kind that has a name".to_string()),
        Some(kind) => Ok(Call::OfNoKind(kind, request)),
    }
}

fn read_cession(words: &mut Words) -> Result<Cession, String> {
    Ok(Cession {
        giver: words.number()?,
        receiver: words.number()?,
        point: words.number()?,
        arrival: words.number()?,
        amount: words.number()?,
    })
}

fn read_holding(words: &mut Words) -> Result<Holding, String> {
    Ok(Holding {
        user: words.number()?,
        point: words.number()?,
        first: words.number()?,
        last: words.number()?,
        amount: words.number()?,
    })
}

fn read_batch(mut words: Words) -> Result<Batch, String> {
    let mut batch = Batch::new(words.number()?, Vec::new(), Vec::new());
    let (mut shares, mut numbers) = (None, None);
    while let Some(word) = words.0.next() {
        match word {
            "shares" => shares = Some(words.number()?),
            "numbers" => numbers = Some(words.number()?),
            _ => {
                let (user, asked) = pair(word)?;
                batch.users.extend(entry::<u8>(user)?);
                batch.asked.extend(entry::<u64>(asked)?);
            }
        }
    }
    batch.shares = shares.unwrap_or(batch.users.len());
    batch.numbers = numbers.unwrap_or(batch.users.len());
    Ok(batch)
}

fn read_answer(call: &Call, text: &str) -> Result<Answer, String> {
    let mut words = Words::new(text);
    let mut answer = Answer::new(words.number()?, 0);
    if has_amount(call) {
        answer.amount = words.number()?;
    }
    if let (Call::Batch(_), 0) = (call, answer.number) {
        for word in words.0.by_ref() {
            let (share, line) = pair(word)?;
            answer.lines.push((number(share)?, number(line)?));
        }
    }
    words.end()?;
    Ok(answer)
}

fn read_write(word: &str, rest: &str) -> Result<Step, String> {
    let mut words = Words::new(rest);
    let step = match word {
        "set" => {
            let (field, value) = read_change(&mut words)?;
            Step::Set(field, value)
        }
        _ => Step::Repeat(words.number()?),
    };
    words.end()?;
    Ok(step)
}

fn read_changes(text: &str) -> Result<Vec<Change>, String> {
    text.split(',')
        .map(|change| {
            let mut words = Words::new(change);
            let change = read_change(&mut words)?;
            words.end()?;
            Ok(change)
        })
        .collect()
}

fn read_change(words: &mut Words) -> Result<Change, String> {
    let field = match words.word()? {
        "year" => Field::Year,
        "lines" => Field::Lines,
        "kind" => Field::Kind(words.number()?),
        "total" => Field::Total(words.number()?),
        "rate" => Field::Rate(words.number()?),
        "on-file" => Field::OnFile(words.number()?),
        "guarantee" => Field::Guarantee(words.number()?),
        "commitment" => Field::Commitment(words.number()?),
        "free" => {
            let (point, place): (u16, u16) = (words.number()?, words.number()?);
            Field::Free(DAYS_IN_ROW as u16 * point + place)
        }
        "line" => {
            let (line, part): (u16, _) = (words.number()?, words.word()?);
            let place = (0..).zip(LINE_PARTS).find(|(_, name)| *name == part);
            let (place, _) = place.ok_or(format!("`{part}` is no part of a line"))?;
            Field::Ledger(NUMBERS_IN_LINE as u16 * line + place)
        }
        "table-length" => Field::TableLength,
        "ledger-length" => Field::LedgerLength,
        word => return Err(format!("`{word}` is no field")),
    };
    let value = match field.is_signed() {
        true => words.number::<i32>()?.cast_unsigned().into(),
        false => words.number()?,
    };
    Ok((field, value))
}

/// Runs a case on both sides; each call that is made is shown with its answer.
/// Where a side is not as the case says, or the sides differ, that is said.
pub fn run(sides: &mut Sides, case: &Case, seen: &mut impl Seen) -> Result<(), String> {
    match case {
        Case::Call(call, expected) => {
            let answer = ask(sides, call, seen)?;
            if answer != *expected {
                return Err(format!("answered {}", answer_text(call, &answer)));
            }
            Ok(())
        }
        Case::Write(step) => sides.run(step).map(|_| ()),
        Case::Damaged(changes) => {
            let calls = every_call(sides.everyday.register.year);
            altered(sides, changes, &calls, |number| number == 1, seen)
        }
        Case::Harmless(changes) => {
            let calls = every_call(sides.everyday.register.year);
            let questions = calls.iter().filter(|call| !call.is_changing());
            let questions: Vec<Call> = questions.cloned().collect();
            altered(sides, changes, &questions, |number| number != 1, seen)
        }
    }
}

/// Whoever is shown a call with its answer, and the books as they are after it.
pub trait Seen: FnMut(&Call, &Answer, &mut Everyday) {}

impl<F: FnMut(&Call, &Answer, &mut Everyday)> Seen for F {}

fn ask(sides: &mut Sides, call: &Call, seen: &mut impl Seen) -> Result<Answer, String> {
    let answer = sides.run(&Step::Call(call.clone()))?;
    let answer = answer.ok_or("a call has an answer")?;
    seen(call, &answer, &mut sides.everyday);
    Ok(answer)
}

/// Makes calls while numbers are altered; each answer must be of that kind. What
/// the numbers were is put back, and the register is in order again.
fn altered(
    sides: &mut Sides,
    changes: &[Change],
    calls: &[Call],
    is_right: impl Fn(u8) -> bool,
    seen: &mut impl Seen,
) -> Result<(), String> {
    let usual: Vec<Change> = changes
        .iter()
        .map(|&(field, _)| (field, sides.everyday.get(field)))
        .collect();
    for &(field, value) in changes {
        sides.run(&Step::Set(field, value))?;
    }
    for call in calls {
        let answer = ask(sides, call, seen)?;
        if !is_right(answer.number) {
            return Err(format!("{call} is answered {}", answer_text(call, &answer)));
        }
    }
    for &(field, value) in usual.iter().rev() {
        sides.run(&Step::Set(field, value))?;
    }
    match ask(sides, &Call::InOrder, seen)?.number {
        0 => Ok(()),
        _ => Err("not in order when what was altered is put back".to_string()),
    }
}

/// Every call, with fields within limits and days of the year.
fn every_call(year: u16) -> Vec<Call> {
    let day = ThermalYear::new(year).map_or(0, |year| *year.days().start() as u16 + 1);
    let (point, arrival, amount) = (0, day.saturating_sub(1), 1);
    let request = Request {
        user: 5,
        point,
        product: Product::Day(day),
        arrival,
        amount,
    };
    vec![
        Call::InOrder,
        Call::Report { point, day },
        Call::Open(Opening {
            point: 7,
            kind: 1,
            total: 50,
            rate: 60,
        }),
        Call::Place {
            user: 9,
            guarantee: 70,
        },
        Call::Request(request),
        Call::OfNoKind(0, request),
        Call::Batch(Batch::new(point, vec![5], vec![amount])),
        Call::Cession(Cession {
            giver: 5,
            receiver: 63,
            point,
            arrival,
            amount,
        }),
        Call::Turn { year: 2098 },
    ]
}
