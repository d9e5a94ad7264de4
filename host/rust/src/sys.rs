//! The calls as the archive has them: numbers, slices, and structs as C lays
//! them out.
//!
//! Nothing checks these declarations against the Rattle source: they stand as
//! crates/host_c/src has them, and as host/include/ylgrandi.h has them for C.
//! The functions below are safe, since no call has a `requires`: whatever the
//! register, the lists and the numbers are, it ends, stays inside the slices and
//! answers. [`crate::Register`] keeps a register and its lists together; these
//! functions are for a host that lays its memory out itself.

use std::mem::offset_of;

/// Points of a register.
pub const POINTS: usize = 32;

/// Users of a register.
pub const USERS: usize = 64;

/// The lines that a ledger has room for.
pub const LINES: usize = 2_048;

/// Free amounts of a point: one for each gas-day of the longest year.
pub const ROW: usize = 366;

/// How long the table of free amounts is.
pub const TABLE: usize = POINTS * ROW;

/// Numbers of a ledger line: user, point, kind, first day and amount, whose 32
/// bits are those of an `i32`.
pub const LINE: usize = 5;

/// How long the ledger is.
pub const LEDGER: usize = LINES * LINE;

/// The most lines that a batch has.
pub const BATCH_LINES: usize = 64;

/// A delivery point. Kind 0 is closed, 1 direct, 2 thermoelectric.
#[repr(C)]
#[derive(Debug, Clone, Copy, PartialEq, Eq, Default)]
pub struct Point {
    pub kind: u8,
    pub total: u32,
    pub rate: u32,
}

/// The account of a user, who is on file where `on_file` is 1.
#[repr(C)]
#[derive(Debug, Clone, Copy, PartialEq, Eq, Default)]
pub struct Account {
    pub on_file: u8,
    pub guarantee: u64,
    pub commitment: u64,
}

/// The register, without the two lists that are lent beside it. `lines` is how
/// many lines of the ledger are used.
#[repr(C)]
#[derive(Debug, Clone, Copy, PartialEq, Eq)]
pub struct Register {
    pub year: u16,
    pub points: [Point; POINTS],
    pub accounts: [Account; USERS],
    pub lines: u16,
}

/// What a changing call gives back: the register as it then is, the number (0
/// accepted), and the amount granted or ceded, else 0.
#[repr(C)]
#[derive(Debug, Clone, Copy, PartialEq, Eq)]
pub struct Answer {
    pub register: Register,
    pub number: u8,
    pub amount: u32,
}

/// What a report gives: the number (0 accepted), and the free amount, else 0.
#[repr(C)]
#[derive(Debug, Clone, Copy, PartialEq, Eq)]
pub struct Report {
    pub number: u8,
    pub amount: u32,
}

/// An amount that a user is to hold at a point, on each day from first to last.
#[repr(C)]
#[derive(Debug, Clone, Copy, PartialEq, Eq)]
pub struct Holding {
    pub user: u8,
    pub point: u8,
    pub first: u16,
    pub last: u16,
    pub amount: u32,
}

/// A date: the year, the month of the calendar and the day of the month. It need
/// not exist.
#[repr(C)]
#[derive(Debug, Clone, Copy, PartialEq, Eq, PartialOrd, Ord)]
pub struct Date {
    pub year: u16,
    pub month: u8,
    pub day: u8,
}

const _: () = assert!(size_of::<Point>() == 12);
const _: () = assert!(size_of::<Account>() == 24);
const _: () = assert!(size_of::<Register>() == 1936);
const _: () = assert!(size_of::<Answer>() == 1944);
const _: () = assert!(size_of::<Report>() == 8);
const _: () = assert!(size_of::<Holding>() == 12);
const _: () = assert!(size_of::<Date>() == 4);
const _: () = assert!(offset_of!(Point, total) == 4 && offset_of!(Point, rate) == 8);
const _: () = assert!(offset_of!(Account, guarantee) == 8 && offset_of!(Account, commitment) == 16);
const _: () = assert!(offset_of!(Register, points) == 4 && offset_of!(Register, accounts) == 392);
const _: () = assert!(offset_of!(Register, lines) == 1928);
const _: () = assert!(offset_of!(Answer, number) == 1936 && offset_of!(Answer, amount) == 1940);
const _: () = assert!(offset_of!(Report, amount) == 4);
const _: () = assert!(offset_of!(Holding, point) == 1 && offset_of!(Holding, first) == 2);
const _: () = assert!(offset_of!(Holding, last) == 4 && offset_of!(Holding, amount) == 8);
const _: () = assert!(offset_of!(Date, month) == 2 && offset_of!(Date, day) == 3);

mod raw {
    use super::{Answer, Date, Holding, Register, Report};

    // A slice is a pointer and then a length, a lent struct a pointer.
    extern "C" {
        pub fn ylgrandi_fresh(
            year: u16,
            free: *mut u32,
            free_len: usize,
            ledger: *mut u32,
            ledger_len: usize,
        ) -> Answer;

        pub fn ylgrandi_open_point(
            r: Register,
            free: *mut u32,
            free_len: usize,
            ledger: *const u32,
            ledger_len: usize,
            point: u8,
            kind: u8,
            total: u64,
            rate: u32,
        ) -> Answer;

        pub fn ylgrandi_place_guarantee(
            r: Register,
            free: *const u32,
            free_len: usize,
            ledger: *const u32,
            ledger_len: usize,
            user: u8,
            guarantee: u64,
        ) -> Answer;

        pub fn ylgrandi_request(
            r: Register,
            free: *mut u32,
            free_len: usize,
            ledger: *mut u32,
            ledger_len: usize,
            user: u8,
            point: u8,
            kind: u8,
            month: u8,
            day: u16,
            arrival: u16,
            amount: u64,
        ) -> Answer;

        pub fn ylgrandi_batch(
            r: Register,
            free: *mut u32,
            free_len: usize,
            ledger: *mut u32,
            ledger_len: usize,
            point: u8,
            users: *const u8,
            users_len: usize,
            asked: *const u64,
            asked_len: usize,
            shares: *mut u32,
            shares_len: usize,
            numbers: *mut u8,
            numbers_len: usize,
        ) -> Answer;

        pub fn ylgrandi_cession(
            r: Register,
            free: *mut u32,
            free_len: usize,
            ledger: *mut u32,
            ledger_len: usize,
            giver: u8,
            receiver: u8,
            point: u8,
            arrival: u16,
            amount: u64,
        ) -> Answer;

        pub fn ylgrandi_turn_year(
            r: Register,
            free: *mut u32,
            free_len: usize,
            ledger: *mut u32,
            ledger_len: usize,
            year: u16,
        ) -> Answer;

        pub fn ylgrandi_report(
            r: Register,
            free: *const u32,
            free_len: usize,
            ledger: *const u32,
            ledger_len: usize,
            point: u8,
            day: u16,
        ) -> Report;

        pub fn ylgrandi_next_day(date: *mut Date) -> u8;

        pub fn ylgrandi_in_order(
            r: Register,
            free: *const u32,
            free_len: usize,
            ledger: *const u32,
            ledger_len: usize,
        ) -> bool;

        pub fn ylgrandi_first_short_day(
            year: u16,
            lines: u16,
            ledger: *const u32,
            ledger_len: usize,
            h: Holding,
        ) -> u32;
    }
}

/// The fields of an opening, as wide as a record's.
#[derive(Debug, Clone, Copy, PartialEq, Eq)]
pub struct Opening {
    pub point: u8,
    pub kind: u8,
    pub total: u64,
    pub rate: u32,
}

/// The fields of a request. Kind 1 is annual, 2 for a month, 3 for a gas-day;
/// month and day are read where the kind has them.
#[derive(Debug, Clone, Copy, PartialEq, Eq)]
pub struct Request {
    pub user: u8,
    pub point: u8,
    pub kind: u8,
    pub month: u8,
    pub day: u16,
    pub arrival: u16,
    pub amount: u64,
}

/// The fields of a cession.
#[derive(Debug, Clone, Copy, PartialEq, Eq)]
pub struct Cession {
    pub giver: u8,
    pub receiver: u8,
    pub point: u8,
    pub arrival: u16,
    pub amount: u64,
}

/// The four lists of a batch: users and asked amounts are read, shares and
/// numbers written.
#[derive(Debug)]
pub struct Batch<'a> {
    pub point: u8,
    pub users: &'a [u8],
    pub asked: &'a [u64],
    pub shares: &'a mut [u32],
    pub numbers: &'a mut [u8],
}

// Safe, all of them: no call has a `requires`, each pointer goes with the length
// of its own slice, and what is lent by `&mut` is lent to nobody else.

/// A fresh register of a year.
pub fn fresh(year: u16, free: &mut [u32], ledger: &mut [u32]) -> Answer {
    unsafe {
        raw::ylgrandi_fresh(
            year,
            free.as_mut_ptr(),
            free.len(),
            ledger.as_mut_ptr(),
            ledger.len(),
        )
    }
}

/// Opens a point.
pub fn open_point(r: &Register, free: &mut [u32], ledger: &[u32], o: Opening) -> Answer {
    unsafe {
        raw::ylgrandi_open_point(
            *r,
            free.as_mut_ptr(),
            free.len(),
            ledger.as_ptr(),
            ledger.len(),
            o.point,
            o.kind,
            o.total,
            o.rate,
        )
    }
}

/// Puts a user on file, or replaces his guarantee.
pub fn place_guarantee(
    r: &Register,
    free: &[u32],
    ledger: &[u32],
    user: u8,
    guarantee: u64,
) -> Answer {
    unsafe {
        raw::ylgrandi_place_guarantee(
            *r,
            free.as_ptr(),
            free.len(),
            ledger.as_ptr(),
            ledger.len(),
            user,
            guarantee,
        )
    }
}

/// Requests an amount.
pub fn request(r: &Register, free: &mut [u32], ledger: &mut [u32], q: Request) -> Answer {
    unsafe {
        raw::ylgrandi_request(
            *r,
            free.as_mut_ptr(),
            free.len(),
            ledger.as_mut_ptr(),
            ledger.len(),
            q.user,
            q.point,
            q.kind,
            q.month,
            q.day,
            q.arrival,
            q.amount,
        )
    }
}

/// Confers a batch.
pub fn batch(r: &Register, free: &mut [u32], ledger: &mut [u32], b: Batch) -> Answer {
    unsafe {
        raw::ylgrandi_batch(
            *r,
            free.as_mut_ptr(),
            free.len(),
            ledger.as_mut_ptr(),
            ledger.len(),
            b.point,
            b.users.as_ptr(),
            b.users.len(),
            b.asked.as_ptr(),
            b.asked.len(),
            b.shares.as_mut_ptr(),
            b.shares.len(),
            b.numbers.as_mut_ptr(),
            b.numbers.len(),
        )
    }
}

/// Cedes an amount.
pub fn cession(r: &Register, free: &mut [u32], ledger: &mut [u32], c: Cession) -> Answer {
    unsafe {
        raw::ylgrandi_cession(
            *r,
            free.as_mut_ptr(),
            free.len(),
            ledger.as_mut_ptr(),
            ledger.len(),
            c.giver,
            c.receiver,
            c.point,
            c.arrival,
            c.amount,
        )
    }
}

/// Turns the register to a later year.
pub fn turn_year(r: &Register, free: &mut [u32], ledger: &mut [u32], year: u16) -> Answer {
    unsafe {
        raw::ylgrandi_turn_year(
            *r,
            free.as_mut_ptr(),
            free.len(),
            ledger.as_mut_ptr(),
            ledger.len(),
            year,
        )
    }
}

/// The free amount of a point and gas-day.
pub fn report(r: &Register, free: &[u32], ledger: &[u32], point: u8, day: u16) -> Report {
    unsafe {
        raw::ylgrandi_report(
            *r,
            free.as_ptr(),
            free.len(),
            ledger.as_ptr(),
            ledger.len(),
            point,
            day,
        )
    }
}

/// Moves a date on by one gas-day: 0, or 2 where it is left.
pub fn next_day(date: &mut Date) -> u8 {
    unsafe { raw::ylgrandi_next_day(date) }
}

/// Question 1: is the register in order?
pub fn in_order(r: &Register, free: &[u32], ledger: &[u32]) -> bool {
    unsafe { raw::ylgrandi_in_order(*r, free.as_ptr(), free.len(), ledger.as_ptr(), ledger.len()) }
}

/// Question 10: the first gas-day of the span on which the user holds less than
/// the amount. It is not asked whether the register is in order. Where it is not,
/// a line counts only where it begins in the year, none after the 2,048th does, a
/// line of an unknown kind counts as a day line, and lines that the ledger does not
/// have whole count nothing.
pub fn first_short_day(year: u16, lines: u16, ledger: &[u32], h: Holding) -> Option<u16> {
    let day =
        unsafe { raw::ylgrandi_first_short_day(year, lines, ledger.as_ptr(), ledger.len(), h) };
    // Where there is none the answer is 65,536, which 16 bits do not hold.
    u16::try_from(day).ok()
}
