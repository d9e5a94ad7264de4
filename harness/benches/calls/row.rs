//! A call that is timed on both registers.

use std::hint::black_box;
use std::ops::Range;

use harness::books::{proved_register, Books, Everyday, Proved};
use harness::calls::{Answer, Call, Step};
use harness::cases::Case;
use harness::sides::Sides;

use crate::timing::{timed, Stopwatch};

/// A call, and the books that it is made on.
pub struct Row {
    pub name: &'static str,
    pub books: Everyday,
    pub call: Call,
}

impl Row {
    /// A call that is said as a case. Both registers make it once, agree, and
    /// answer so; the shares of a batch are not said.
    pub fn new(name: &'static str, books: Everyday, case: &str) -> Row {
        let Ok(Case::Call(call, said)) = case.parse() else {
            panic!("{name}: `{case}` is no call with its answer");
        };
        let answer = agreed(&books, &call);
        assert_eq!(answer, (said.number, said.amount), "{name}");
        Row { name, books, call }
    }

    /// The proved register and the everyday one.
    pub fn versions(&self) -> Vec<Stopwatch<'_>> {
        vec![
            self.stopwatch(self.books.with(proved_register), Proved::call),
            self.stopwatch(self.books.clone(), Everyday::call),
        ]
    }

    /// Only what the call alters is put back: to copy the lists whole would take
    /// them through the caches.
    fn stopwatch<'a, R: Clone + 'a>(
        &'a self,
        before: Books<R>,
        make: impl Fn(&mut Books<R>, &Call) -> Answer + 'a,
    ) -> Stopwatch<'a> {
        let mut after = before.clone();
        make(&mut after, &self.call);
        let free = altered(&before.lists.free, &after.lists.free);
        let ledger = altered(&before.lists.ledger, &after.lists.ledger);
        let mut books = before.clone();
        Box::new(move || {
            let time = timed(|| make(black_box(&mut books), black_box(&self.call)));
            let (lists, were) = (&mut books.lists, &before.lists);
            lists.free[free.clone()].copy_from_slice(&were.free[free.clone()]);
            lists.ledger[ledger.clone()].copy_from_slice(&were.ledger[ledger.clone()]);
            lists.shares.copy_from_slice(&were.shares);
            lists.numbers.copy_from_slice(&were.numbers);
            books.register.clone_from(&before.register);
            time
        })
    }
}

/// Number and amount that both registers answer, every number afterwards alike.
pub fn agreed(books: &Everyday, call: &Call) -> (u8, u32) {
    let (proved, everyday) = (books.with(proved_register), books.clone());
    match (Sides { proved, everyday }).run(&Step::Call(call.clone())) {
        Ok(Some(answer)) => (answer.number, answer.amount),
        other => panic!("{call}: {other:?}"),
    }
}

/// From the first place that differs to the last.
fn altered(before: &[u32], after: &[u32]) -> Range<usize> {
    let differs = |place: &usize| before[*place] != after[*place];
    let first = (0..before.len()).find(differs).unwrap_or(0);
    let last = (0..before.len()).rfind(differs);
    first..last.map_or(first, |last| last + 1)
}
