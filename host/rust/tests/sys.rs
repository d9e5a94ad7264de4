//! The declarations of the archive's functions: a list goes with its own length, and of a request's
//! fields those are read that its kind has.

use ylgrandi::sys;

/// A request of user 5 at point 0 for 1, which arrives on 16 October 2023.
fn request(kind: u8, month: u8, day: u16) -> sys::Request {
    sys::Request {
        user: 5,
        point: 0,
        kind,
        month,
        day,
        arrival: 8_689,
        amount: 1,
    }
}

/// Lists that are parts of longer ones, whose other numbers stay 7.
#[test]
fn fields_of_another_kind_and_numbers_beside_the_lists_do_not_matter() {
    let (mut table, mut lines) = ([7; sys::TABLE + 2], [7; sys::LEDGER + 2]);
    let (free, ledger) = (&mut table[1..=sys::TABLE], &mut lines[1..=sys::LEDGER]);
    let mut register = sys::fresh(2023, free, ledger).register;
    (register.points[0].kind, register.points[0].total) = (2, 9);
    register.accounts[5].on_file = 1;
    free[..sys::ROW].fill(9);
    for (kind, month, day) in [(1, 99, u16::MAX), (2, 2, u16::MAX), (3, 99, 8_700)] {
        let granted = sys::request(&register, free, ledger, request(kind, month, day));
        assert_eq!((granted.number, granted.amount), (0, 1));
        register = granted.register;
    }
    assert!(sys::in_order(&register, free, ledger));
    assert_eq!(ledger[10..16], [5, 0, 3, 8_700, 1, 0]);
    assert_eq!([table[0], table[sys::TABLE + 1]], [7, 7]);
    assert_eq!([lines[0], lines[sys::LEDGER + 1]], [7, 7]);
}

/// A list of no numbers has no place in memory, and none is looked for.
#[test]
fn empty_lists_are_lent() {
    let fresh = sys::fresh(2023, &mut [], &mut []);
    let granted = sys::request(&fresh.register, &mut [], &mut [], request(3, 0, 8_700));
    let report = sys::report(&fresh.register, &[], &[], 0, 8_700);
    assert_eq!([fresh.number, granted.number, report.number], [2, 1, 1]);
    assert!(!sys::in_order(&fresh.register, &[], &[]));
}
