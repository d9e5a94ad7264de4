//! Both registers on the same steps, with every number compared after each.

use crate::books::{proved_register, Everyday, Proved};
use crate::calls::{Answer, Call, Step};

/// The two sides. They have the same numbers before each step.
#[derive(Debug, Clone)]
pub struct Sides {
    pub proved: Proved,
    pub everyday: Everyday,
}

impl Default for Sides {
    fn default() -> Sides {
        let everyday = Everyday::default();
        Sides {
            proved: everyday.with(proved_register),
            everyday,
        }
    }
}

impl Sides {
    /// Runs a step on both sides. Where they differ it is said how.
    pub fn run(&mut self, step: &Step) -> Result<Option<Answer>, String> {
        match *step {
            Step::Call(ref call) => return self.call(call).map(Some),
            Step::Set(field, value) => self.everyday.set(field, value),
            Step::Repeat(lines) => self.everyday.repeat(lines),
        }
        self.proved = self.everyday.with(proved_register);
        Ok(None)
    }

    /// Puts a call to both sides: the answers and every number afterwards are
    /// alike, and a refused call leaves every number. Where it isn't said what
    /// users hold, question 10 is put to the proved side alone.
    fn call(&mut self, call: &Call) -> Result<Answer, String> {
        let before = self.proved.clone();
        let proved = self.proved.run(call);
        let is_said = !matches!(call, Call::ShortDay(_)) || self.everyday.has_known_holdings();
        if is_said {
            let everyday = self.everyday.run(call);
            let difference = self.difference();
            if proved != everyday || difference.is_some() {
                let difference = difference.unwrap_or("no number differs".to_string());
                return Err(format!(
                    "proved {proved:?}, everyday {everyday:?}; {difference}"
                ));
            }
        }
        match self.is_left(call, &proved, &before) {
            true => Ok(proved),
            false => Err(format!("{proved:?}, and something is altered")),
        }
    }

    /// Whether a call that may alter nothing has not. A refused fresh register
    /// leaves the lists; the places for a batch's lines were written before it.
    fn is_left(&self, call: &Call, answer: &Answer, before: &Proved) -> bool {
        let (left, was) = (&self.proved, before);
        let are_lists_left =
            left.lists.free == was.lists.free && left.lists.ledger == was.lists.ledger;
        match call {
            _ if answer.number == 0 && call.is_changing() => true,
            Call::Fresh { .. } => are_lists_left,
            _ => are_lists_left && left.register == was.register,
        }
    }

    /// The first number in which the sides differ, with both.
    fn difference(&self) -> Option<String> {
        let register = proved_register(&self.everyday.register);
        if self.proved.register == register && self.proved.lists == self.everyday.lists {
            return None;
        }
        let everyday = self.everyday.with(proved_register);
        let mut pairs = named(&self.proved).into_iter().zip(named(&everyday));
        let differing = pairs.find(|(one, two)| one != two);
        Some(match differing {
            Some(((name, proved), (_, everyday))) => {
                format!("{name}: proved {proved}, everyday {everyday}")
            }
            None => "a number without a name differs".to_string(),
        })
    }
}

/// Every number of the register and of the lists, with its name.
fn named(books: &Proved) -> Vec<(String, u64)> {
    let register = &books.register;
    let mut named = vec![
        ("year".to_string(), u64::from(register.year)),
        ("lines".to_string(), u64::from(register.lines)),
    ];
    for (index, point) in register.points.iter().enumerate() {
        named.push((format!("kind of point {index}"), point.kind.into()));
        named.push((format!("total of point {index}"), point.total.into()));
        named.push((format!("rate of point {index}"), point.rate.into()));
    }
    for (index, account) in register.accounts.iter().enumerate() {
        named.push((format!("on file, user {index}"), account.on_file.into()));
        named.push((format!("guarantee of user {index}"), account.guarantee));
        named.push((format!("commitment of user {index}"), account.commitment));
    }
    named.extend(named_list("free amount", &books.lists.free));
    named.extend(named_list("ledger number", &books.lists.ledger));
    named.extend(named_list("share", &books.lists.shares));
    named.extend(named_list("number of line", &books.lists.numbers));
    named
}

fn named_list<T: Copy + Into<u64>>(name: &str, list: &[T]) -> Vec<(String, u64)> {
    let numbers = list.iter().enumerate();
    numbers
        .map(|(place, &number)| (format!("{name} at {place}"), number.into()))
        .collect()
}
