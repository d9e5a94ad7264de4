//! What only the crate has: a register that is one value, results with names, and what a register
//! shows of itself. The rules of document 01 are tried by the cases in reference/cases.

use ylgrandi::{
    BatchLine, Cession, Line, LineKind, Point, PointKind, Product, Refusal, Register, Request,
};

type Answer = Result<u32, Refusal>;

/// A register of 2023, from day 8,674 to 9,039: point 0 is thermoelectric, with 1,000 at rate 100,
/// point 1 is direct, point 31 costs nothing, and users 5, 6 and 7 are on file.
fn books() -> Register {
    let mut books = Register::fresh(2023).expect("a year within limits");
    for (point, kind, total, rate) in [
        (0, PointKind::Thermoelectric, 1_000, 100),
        (1, PointKind::Direct, 1_000, 100),
        (31, PointKind::Thermoelectric, 9_999_999, 0),
    ] {
        assert_eq!(books.open_point(point, kind, total, rate), Ok(()));
    }
    for user in [5, 6, 7] {
        assert_eq!(books.place_guarantee(user, 1_000_000_000), Ok(()));
    }
    books
}

/// A request of user 5.
fn ask(r: &mut Register, point: u8, product: Product, arrival: u16, amount: u64) -> Answer {
    r.request(Request {
        user: 5,
        point,
        product,
        arrival,
        amount,
    })
}

/// A cession of user 5.
fn cede(r: &mut Register, receiver: u8, point: u8, arrival: u16, amount: u64) -> Answer {
    r.cede(Cession {
        giver: 5,
        receiver,
        point,
        arrival,
        amount,
    })
}

/// A batch at point 0, with a result for each line.
fn confer(r: &mut Register, users: &[u8], asked: &[u64]) -> Result<Vec<Answer>, Refusal> {
    let line = |(&user, &asked)| BatchLine { user, asked };
    r.confer_batch(0, &users.iter().zip(asked).map(line).collect::<Vec<_>>())
}

/// Empty, and then with the last point open.
#[test]
fn a_fresh_register_shows_its_year() {
    for (year, days) in [(2000, 365), (2022, 365), (2023, 366), (2098, 365)] {
        let mut fresh = Register::fresh(year).expect("a year within limits");
        assert_eq!((fresh.year(), fresh.ledger().len()), (year, 0));
        for number in 0..=u8::MAX {
            assert_eq!((fresh.point(number), fresh.account(number)), (None, None));
            assert_eq!(fresh.free_amounts(number), None);
        }
        let (register, free, ledger) = fresh.as_parts();
        assert_eq!((register.year, register.lines), (year, 0));
        assert_eq!((free, ledger), (&[0; 11_712][..], &[0; 10_240][..]));

        let (kind, total, rate) = (PointKind::Direct, 9_999_999, 999_999);
        assert_eq!(fresh.open_point(31, kind, total.into(), rate), Ok(()));
        assert_eq!(fresh.point(31), Some(Point { kind, total, rate }));
        assert_eq!(fresh.free_amounts(31), Some(&vec![total; days][..]));
        assert_eq!((fresh.point(30), fresh.free_amounts(30)), (None, None));
    }
    for year in [0, 1999, 2099, u16::MAX] {
        assert_eq!(Register::fresh(year), Err(Refusal::OutOfLimits));
    }
}

/// A day, a month that has what that day leaves, the year from December on, and 20 of that ceded.
/// November has places 31 to 60 of the free amounts, day 8,710 place 36.
#[test]
fn calls_give_amounts_and_the_register_shows_them() {
    let fresh = books();
    let mut books = fresh.clone();
    assert_eq!(ask(&mut books, 0, Product::Day(8_710), 8_709, 400), Ok(400));
    assert_eq!(ask(&mut books, 0, Product::Month(2), 8_689, 700), Ok(600));
    assert_eq!(ask(&mut books, 0, Product::Annual, 8_720, 50), Ok(50));
    assert_eq!(cede(&mut books, 6, 0, 8_727, 20), Ok(20));
    assert_eq!(books.report(0, 8_705), Ok(400));
    assert_ne!(books, fresh);
    let shown = format!("{books:?}");
    assert_eq!(shown, "Register { year: 2023, lines: 5, .. }");
    let mut due = [vec![1_000; 31], vec![400; 30], vec![950; 305]].concat();
    due[36] = 0;
    assert_eq!(books.free_amounts(0), Some(&due[..]));
    let (_, free, ledger) = books.as_parts();
    assert_eq!(free[..366], due);
    assert_eq!(ledger[20..25], [6, 0, 1, 8_735, 20]);
    let line = |l: Line| (l.user, l.point, l.kind, l.first, l.amount);
    let due = [
        (5, 0, LineKind::Day, 8_710, 400),
        (5, 0, LineKind::Month, 8_705, 600),
        (5, 0, LineKind::Annual, 8_735, 50),
        (5, 0, LineKind::Annual, 8_735, -20),
        (6, 0, LineKind::Annual, 8_735, 20),
    ];
    assert!(books.ledger().map(line).eq(due));
    let account = |user| books.account(user).map(|a| (a.guarantee, a.commitment));
    assert_eq!(account(5), Some((1_000_000_000, 2_755_000)));
    assert_eq!(account(6), Some((1_000_000_000, 610_000)));

    assert_eq!(books.turn_year(2024), Ok(()));
    assert_eq!((books.year(), books.ledger().len()), (2024, 0));
    assert_eq!(books.point(0), fresh.point(0));
    assert_eq!(books.account(5), fresh.account(5));
    assert_eq!(books.free_amounts(0), Some(&[1_000; 365][..]));
}

/// Those that are accepted share 1,000 as if they were alone, and leave 1.
#[test]
fn lines_of_a_batch_have_results() {
    let mut books = books();
    assert_eq!(books.place_guarantee(9, 36_599), Ok(()));
    let (users, asked) = ([64, 5, 6, 5, 8, 9, 7], [1, 700, 500, 700, 1, 1, 300]);
    let refusals = [2, 0, 0, 14, 5, 11, 0].map(Refusal::from_number);
    let lines = refusals.into_iter().zip([0, 466, 333, 0, 0, 0, 200]);
    let due = lines.map(|(refusal, share)| refusal.map_or(Ok(share), Err));
    assert_eq!(confer(&mut books, &users, &asked), Ok(due.collect()));
    let before = books.clone();
    let nothing = vec![Err(Refusal::NothingFree); 2];
    assert_eq!(confer(&mut books, &[5, 6], &[1, 1]), Ok(nothing));
    assert_eq!(books, before);
}

type Refused = (u8, fn(&mut Register) -> Option<Refusal>);

/// Calls refused with each number but 1, which no `Register` gives, and 14, which is a line's.
const REFUSED: [Refused; 14] = [
    (2, |r| r.place_guarantee(64, 0).err()),
    (2, |r| confer(r, &[], &[]).err()),
    (3, |r| r.report(2, 8_674).err()),
    (4, |r| r.open_point(0, PointKind::Direct, 1, 0).err()),
    (5, |r| cede(r, 8, 0, 8_696, 1).err()),
    (6, |r| r.place_guarantee(5, 0).err()),
    (7, |r| ask(r, 1, Product::Month(2), 8_689, 1).err()),
    (8, |r| ask(r, 0, Product::Day(9_040), 8_700, 1).err()),
    (9, |r| ask(r, 0, Product::Annual, 8_690, 1).err()),
    (10, |r| cede(r, 6, 0, 8_696, 1).err()),
    (11, |r| ask(r, 0, Product::Annual, 8_689, 99_999).err()),
    (12, |r| ask(r, 0, Product::Day(8_710), 8_709, 1).err()),
    (13, |r| confer(r, &[5, 6, 7], &[1; 3]).err()),
    (15, |r| r.turn_year(2023).err()),
];

/// The ledger has two lines left, then none.
#[test]
fn a_refused_call_leaves_the_register_equal() {
    let mut books = books();
    let day = ask(&mut books, 0, Product::Day(8_710), 8_709, 1_000);
    assert_eq!(day, Ok(1_000));
    while books.ledger().len() < 2_046 {
        assert_eq!(ask(&mut books, 31, Product::Annual, 8_689, 1), Ok(1));
    }
    let before = books.clone();
    for (number, call) in REFUSED {
        assert_eq!(call(&mut books), Refusal::from_number(number));
        assert_eq!(books, before, "refused with {number}");
    }
    assert_eq!(cede(&mut books, 6, 31, 8_696, 2_045), Ok(2_045));
    assert_eq!(books.ledger().len(), 2_048);
    let full = ask(&mut books, 31, Product::Annual, 8_689, 1);
    assert_eq!(full, Err(Refusal::LedgerFull));
}

/// The questions of document 01 in their order.
const REFUSALS: &str = "\
NotInOrder: the register is not in order
OutOfLimits: a field is outside its limits
PointClosed: the point is not open
PointOpen: the point is open already
NotOnFile: a user named is not on file
BelowCommitment: the new guarantee is below the commitment
NotOffered: the kind of product is not offered at the point
OutsideYear: the arrival lies outside its limits, or the span outside the year
Late: not in time
NotHeld: the giver does not hold the amount on every day
NotCovered: the guarantee does not cover commitment plus charge
NothingFree: nothing is free on some day of the span
LedgerFull: too few ledger lines are left
UserRepeated: an earlier line of the batch names the user
YearNotLater: the new year is not later";

#[test]
fn refusals_have_names_numbers_and_texts() {
    for (number, due) in (1..=15).zip(REFUSALS.lines()) {
        let refusal = Refusal::from_number(number).expect("a question");
        assert_eq!(refusal.number(), number);
        assert_eq!(format!("{refusal:?}: {refusal}"), due);
    }
    for number in (16..=u8::MAX).chain([0]) {
        assert_eq!(Refusal::from_number(number), None);
    }
}
