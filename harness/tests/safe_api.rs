//! The register as one value, [`ylgrandi::Register`], against the everyday one on
//! random calls: what its functions give, what it shows of itself, and every number of
//! its parts.

use harness::books::{proved_register, Everyday};
use harness::calls::{Answer, Batch, Call, Step};
use harness::draws::shapes;
use harness::shrink::expect_all;
use harness::tally::Tally;
use reference::calendar::{Date, ThermalYear};
use reference::register::{DAYS_IN_ROW, LEDGER_LENGTH, TABLE_LENGTH};
use reference::request;
use ylgrandi::{
    Account, BatchLine, Cession, Line, LineKind, Point, PointKind, Product, Refusal, Register,
    Request,
};

/// How many sequences are run: enough that each answer is frequent.
const SEQUENCES: u64 = 200;

/// How often each answer is found in so many sequences, at least.
const LEAST: usize = 30;

/// What a call gives: an amount, or for a batch what each line gives.
type Given = Result<Vec<Result<u32, Refusal>>, Refusal>;

fn one(given: Result<u32, Refusal>) -> Given {
    given.map(|amount| vec![Ok(amount)])
}

fn result_of(number: u8, amount: u32) -> Result<u32, Refusal> {
    match number {
        0 => Ok(amount),
        _ => Err(Refusal::from_number(number).expect("the number of a question")),
    }
}

/// What an answer stands for.
fn given_by(call: &Call, answer: &Answer) -> Given {
    let amount = result_of(answer.number, answer.amount)?;
    let lines = answer.lines.iter();
    match call {
        Call::Batch(_) => Ok(lines
            .map(|&(share, number)| result_of(number, share))
            .collect()),
        _ => one(Ok(amount)),
    }
}

fn point_kind(kind: u8) -> Option<PointKind> {
    match kind {
        1 => Some(PointKind::Direct),
        2 => Some(PointKind::Thermoelectric),
        _ => None,
    }
}

/// Makes a call; `None` for one that cannot be said with these types.
fn call(register: &mut Register, call: &Call) -> Option<Given> {
    Some(match *call {
        Call::Open(o) => {
            let opened = register.open_point(o.point, point_kind(o.kind)?, o.total, o.rate);
            one(opened.map(|()| 0))
        }
        Call::Place { user, guarantee } => {
            one(register.place_guarantee(user, guarantee).map(|()| 0))
        }
        Call::Request(r) => one(register.request(Request {
            user: r.user,
            point: r.point,
            product: match r.product {
                request::Product::Annual => Product::Annual,
                request::Product::Month(month) => Product::Month(month),
                request::Product::Day(day) => Product::Day(day),
            },
            arrival: r.arrival,
            amount: r.amount,
        })),
        Call::Batch(ref batch) => confer(register, batch)?,
        Call::Cession(c) => one(register.cede(Cession {
            giver: c.giver,
            receiver: c.receiver,
            point: c.point,
            arrival: c.arrival,
            amount: c.amount,
        })),
        Call::Turn { year } => one(register.turn_year(year).map(|()| 0)),
        Call::Report { point, day } => one(register.report(point, day)),
        Call::Fresh { .. } | Call::OfNoKind(..) | Call::InOrder | Call::ShortDay(_) => return None,
    })
}

/// A batch whose lists are equally long.
fn confer(register: &mut Register, batch: &Batch) -> Option<Given> {
    let lengths = [batch.asked.len(), batch.shares, batch.numbers];
    let lines = batch.users.iter().zip(&batch.asked);
    let lines: Vec<BatchLine> = lines
        .map(|(&user, &asked)| BatchLine { user, asked })
        .collect();
    (lengths == [batch.users.len(); 3]).then(|| register.confer_batch(batch.point, &lines))
}

/// Runs calls on both sides. Before the first fresh register there is none to call; one
/// that is refused leaves the register that there is.
fn run_all(steps: &[Step], tally: &mut Tally) -> Result<(), String> {
    let mut register: Option<Register> = None;
    let mut books = Everyday::default();
    for step in steps {
        let Step::Call(made) = step else {
            panic!("{step} is no call");
        };
        if let Call::Fresh { year } = *made {
            let mut fresh = Everyday::default();
            let expected = result_of(fresh.run(made).number, 0);
            let given = Register::fresh(year);
            if given.as_ref().map(|_| 0).map_err(|&refusal| refusal) != expected {
                return Err(format!("fresh gives {given:?}, not {expected:?}"));
            }
            if let Ok(given) = given {
                (register, books) = (Some(given), fresh);
            }
        } else if let Some(register) = &mut register {
            let before = register.clone();
            if let Some(given) = call(register, made) {
                let answer = books.run(made);
                tally.add(made, &answer, &mut books);
                let expected = given_by(made, &answer);
                if given != expected || given.is_err() && *register != before {
                    return Err(format!("gives {given:?}, not {expected:?}"));
                }
            }
        }
        if let Some(register) = &register {
            shows_alike(register, &books)?;
        }
    }
    Ok(())
}

/// Everything that the register shows of itself is as the books have it; else what is
/// not.
fn shows_alike(register: &Register, books: &Everyday) -> Result<(), String> {
    let (numbers, free, ledger) = register.as_parts();
    let (known, lists) = (&books.register, &books.lists);
    let lines = lists.lines(known.lines).map(line);
    let is_alike = [
        ("year", register.year() == known.year),
        ("register", *numbers == proved_register(known)),
        ("table", *free == lists.free[..TABLE_LENGTH]),
        ("ledger", *ledger == lists.ledger[..LEDGER_LENGTH]),
        ("lines", register.ledger().eq(lines)),
        ("count", register.ledger().len() == usize::from(known.lines)),
        (
            "points",
            (0..=33).all(|point| shows_point(register, books, point)),
        ),
        (
            "accounts",
            (0..=65).all(|user| shows_account(register, books, user)),
        ),
    ];
    let differing = is_alike.iter().find(|(_, is_alike)| !is_alike);
    differing.map_or(Ok(()), |(what, _)| Err(format!("shows another {what}")))
}

fn shows_point(register: &Register, books: &Everyday, index: u8) -> bool {
    let point = books.register.points.get(usize::from(index));
    let open = point.and_then(|point| {
        Some(Point {
            kind: point_kind(point.kind)?,
            total: point.total,
            rate: point.rate,
        })
    });
    let year = ThermalYear::new(books.register.year).expect("a thermal year");
    let row = usize::from(index) * DAYS_IN_ROW;
    let amounts = open.and_then(|_| books.lists.free.get(row..row + year.day_count()));
    register.point(index) == open && register.free_amounts(index) == amounts
}

fn shows_account(register: &Register, books: &Everyday, user: u8) -> bool {
    let account = books.register.accounts.get(usize::from(user));
    let on_file = account.filter(|account| account.is_on_file());
    register.account(user)
        == on_file.map(|account| Account {
            guarantee: account.guarantee,
            commitment: account.commitment,
        })
}

/// The line that five numbers stand for.
fn line(numbers: &[u32]) -> Line {
    Line {
        user: u8::try_from(numbers[0]).expect("a user"),
        point: u8::try_from(numbers[1]).expect("a point"),
        kind: match numbers[2] {
            1 => LineKind::Annual,
            2 => LineKind::Month,
            3 => LineKind::Day,
            kind => panic!("a line of kind {kind}"),
        },
        first: u16::try_from(numbers[3]).expect("a gas-day"),
        amount: i32::from_le_bytes(numbers[4].to_le_bytes()),
    }
}

#[test]
fn random_calls_give_the_same() {
    let mut tally = Tally::default();
    for seed in 0..SEQUENCES {
        let run = |steps: &[Step]| run_all(steps, &mut tally);
        expect_all(&format!("seed {seed}"), &shapes::calls(seed), run);
    }
    let is_said =
        |name: &str| !["fresh", "request of no kind", "in-order", "short-day"].contains(&name);
    tally.expect(LEAST, |name, number| number != 1 && is_said(name));
    tally.expect_years();
}

/// Every date of the calendar, and such as do not exist or lie around it.
#[test]
fn dates_are_moved_alike() {
    let months = (1998..=2102).flat_map(|year| (0..=14).map(move |month| (year, month)));
    for (year, month) in months {
        for day in 0..=33 {
            let date = ylgrandi::Date { year, month, day };
            let known = Date::new(year, month, day);
            let next = known.and_then(|date| Date::from_day_number(date.day_number() + 1));
            let expected = next.map_or((Err(Refusal::OutOfLimits), date), |next| {
                let (year, month, day) = (next.year(), next.month(), next.day());
                (Ok(()), ylgrandi::Date { year, month, day })
            });
            let mut moved = date;
            let given = ylgrandi::next_day(&mut moved);
            assert_eq!((given, moved), expected, "{date:?}");
        }
    }
}
