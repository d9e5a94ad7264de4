//! What the runner prints, against document 01.
//!
//! Thermal year 2023 runs from day 8,674 to 9,039, thermal year 2000 from day 274
//! to 638.

use reference::cession::Cession;
use reference::register::Opening;
use reference::request::{Product, Request};
use reference::runner::{call_of, record_of, run, Call, Record};

/// The worked example of document 01, byte by byte.
const EXAMPLE: [Record; 6] = [
    // 2023 is 7 * 256 + 231.
    [
        b'Y', 0, 0, 0, 0, 0, 0, 0, 0, 0, 231, 7, 0, 0, 0, 0, 0, 0, 0, 0, 0, 0, 0, 0,
    ],
    // Kind 2, rate 100, total 1,000 = 3 * 256 + 232.
    [
        b'P', 2, 0, 0, 0, 0, 0, 0, 0, 0, 0, 0, 100, 0, 0, 0, 232, 3, 0, 0, 0, 0, 0, 0,
    ],
    // User 5, guarantee 1,000,000,000 = 0x3b9aca00.
    [
        b'G', 0, 0, 5, 0, 0, 0, 0, 0, 0, 0, 0, 0, 0, 0, 0, 0, 0xca, 0x9a, 0x3b, 0, 0, 0, 0,
    ],
    REQUEST,
    REQUEST,
    REQUEST,
];

/// Kind 3, user 5; days 8,700 = 33 * 256 + 252 and 8,699; amount 600 = 2 * 256 + 88.
const REQUEST: Record = [
    b'R', 3, 0, 5, 0, 0, 252, 33, 251, 33, 0, 0, 0, 0, 0, 0, 88, 2, 0, 0, 0, 0, 0, 0,
];

const EXAMPLE_LINES: &str = "1 0 0\n2 0 0\n3 0 0\n4 0 600\n5 0 400\n6 12 0\n";

/// A record whose fields are put in their places by hand. Every other byte is 0.
fn record(letter: u8, fields: &[(usize, &[u8])]) -> Record {
    let mut record = [0; 24];
    record[0] = letter;
    for (first, bytes) in fields {
        record[*first..first + bytes.len()].copy_from_slice(bytes);
    }
    record
}

/// What is printed for some records.
fn printed(records: &[Record]) -> String {
    printed_for(records.as_flattened())
}

fn printed_for(input: &[u8]) -> String {
    String::from_utf8(run(input)).expect("text")
}

/// Letters and kinds, with a mark for each byte of the record that is read.
const READ: [(u8, u8, &[u8; 24]); 7] = [
    (b'P', 2, b"###.........############"),
    (b'G', 2, b"#..#............########"),
    (b'R', 1, b"####....##......########"),
    (b'R', 2, b"####.#..##......########"),
    (b'R', 3, b"####..####......########"),
    (b'C', 2, b"#.###...##......########"),
    (b'Y', 2, b"#.........##............"),
];

/// The calls of these letters where every other byte is one more than its place.
fn calls() -> [Call; 7] {
    let (point, user, arrival, amount) = (3, 4, 0x0a09, 0x1817_1615_1413_1211);
    let request = |product| {
        Call::Request(Request {
            user,
            point,
            product,
            arrival,
            amount,
        })
    };
    let open = Call::Open(Opening {
        point,
        kind: 2,
        total: amount,
        rate: 0x100f_0e0d,
    });
    let guarantee = amount;
    let place = Call::Place { user, guarantee };
    let cession = Cession {
        giver: user,
        receiver: 5,
        point,
        arrival,
        amount,
    };
    let [annual, month, day] =
        [Product::Annual, Product::Month(6), Product::Day(0x0807)].map(request);
    let turn = Call::Turn { year: 0x0c0b };
    [
        open,
        place,
        annual,
        month,
        day,
        Call::Cession(cession),
        turn,
    ]
}

/// Each record, the places of the bytes that are read, and the call.
fn letters() -> impl Iterator<Item = (Record, Vec<usize>, Call)> {
    READ.into_iter()
        .zip(calls())
        .map(|((letter, kind, read), call)| {
            let mut record: Record = std::array::from_fn(|place| place as u8 + 1);
            (record[0], record[1]) = (letter, kind);
            let used = (0..24).filter(|&place| read[place] == b'#').collect();
            (record, used, call)
        })
}

#[test]
fn worked_example() {
    assert_eq!(printed(&EXAMPLE), EXAMPLE_LINES);
}

#[test]
fn empty_input_prints_nothing() {
    assert_eq!(printed_for(b""), "");
}

#[test]
fn fields_stand_at_their_bytes() {
    for (record, _, call) in letters() {
        assert_eq!(call_of(&record), Some(call));
    }
}

#[test]
fn unused_bytes_are_not_read() {
    for (record, used, call) in letters() {
        for noise in 0..=u8::MAX {
            let mut noisy = [noise; 24];
            for &place in &used {
                noisy[place] = record[place];
            }
            assert_eq!(call_of(&noisy).as_ref(), Some(&call), "{noisy:?}");
        }
    }
}

#[test]
fn used_bytes_are_read() {
    for (record, used, call) in letters() {
        for place in used {
            let mut other = record;
            other[place] ^= 64;
            assert_ne!(call_of(&other).as_ref(), Some(&call), "byte {place}");
        }
    }
}

#[test]
fn records_are_written_as_they_are_read() {
    for (record, used, call) in letters() {
        for noise in [0, 0x5a, u8::MAX] {
            let written = record_of(&call, [noise; 24]);
            for place in 0..24 {
                let expected = match used.contains(&place) {
                    true => record[place],
                    false => noise,
                };
                assert_eq!(written[place], expected, "{call:?}, byte {place}");
            }
        }
    }
}

#[test]
fn worked_example_with_noise() {
    for noise in [1, 77, u8::MAX] {
        let noisy = EXAMPLE.map(|record| {
            let call = call_of(&record).expect("a call");
            record_of(&call, [noise; 24])
        });
        assert_ne!(noisy, EXAMPLE);
        assert_eq!(printed(&noisy), EXAMPLE_LINES);
    }
}

#[test]
fn only_five_letters_are_calls() {
    for letter in (0..=u8::MAX).filter(|letter| !b"PGRCY".contains(letter)) {
        // Fields that suit each of the five, and then whether any was made.
        let mut unknown = EXAMPLE[1];
        unknown[0] = letter;
        unknown[3] = 5;
        let lines = printed(&[EXAMPLE[0], unknown, REQUEST, EXAMPLE[1], REQUEST]);
        assert_eq!(lines, "1 0 0\n2 2 0\n3 3 0\n4 0 0\n5 5 0\n", "{letter}");
    }
}

#[test]
fn requests_of_another_kind_are_no_calls() {
    for kind in (0..=u8::MAX).filter(|kind| !(1..=3).contains(kind)) {
        let mut other = REQUEST;
        other[1] = kind;
        // Even where the point is closed, which has a number after that of fields.
        let lines = printed(&[other, EXAMPLE[0], EXAMPLE[1], EXAMPLE[2], other, REQUEST]);
        let expected = "1 2 0\n2 0 0\n3 0 0\n4 0 0\n5 2 0\n6 0 600\n";
        assert_eq!(lines, expected, "{kind}");
    }
}

#[test]
fn points_of_another_kind_are_out_of_limits() {
    for kind in (0..=u8::MAX).filter(|kind| !(1..=2).contains(kind)) {
        let mut other = EXAMPLE[1];
        other[1] = kind;
        assert_eq!(printed(&[other, EXAMPLE[1]]), "1 2 0\n2 0 0\n");
    }
}

#[test]
fn short_last_record_is_no_call() {
    let whole = EXAMPLE.as_flattened();
    for length in 1..24 {
        for records in 0..6 {
            let end = 24 * records + length;
            let lines = printed_for(&whole[..end]);
            let before = printed_for(&whole[..24 * records]);
            assert_eq!(lines, format!("{before}{} 2 0\n", records + 1));
        }
    }
}

#[test]
fn only_2000_records_are_looked_at() {
    // Point 0, kind 2, total 1,500 = 5 * 256 + 220; user 0; day 300 = 256 + 44.
    let open = record(b'P', &[(1, &[2]), (16, &[220, 5])]);
    let place = record(b'G', &[]);
    let request = record(b'R', &[(1, &[3]), (6, &[44, 1, 43, 1]), (16, &[1])]);
    let mut input = [open, place].concat();
    for _ in 2..2_000 {
        input.extend(request);
    }
    let expected: String = (1..=2_000)
        .map(|position| match position {
            1 | 2 => format!("{position} 0 0\n"),
            3..=1_502 => format!("{position} 0 1\n"),
            _ => format!("{position} 12 0\n"),
        })
        .collect();
    assert_eq!(printed_for(&input), expected);
    for behind in [&b"x"[..], &request[..23], &request, &[7; 5_000]] {
        let more = [&input, behind].concat();
        assert_eq!(printed_for(&more), expected);
    }
    let short = &input[..input.len() - 1];
    assert_eq!(printed_for(short), expected.replace("2000 12", "2000 2"));
}

#[test]
fn amounts_are_not_cut() {
    for place in 19..24 {
        let mut open = EXAMPLE[1];
        open[place] = 1;
        assert_eq!(printed(&[open]), "1 2 0\n", "byte {place}");
        let mut request = REQUEST;
        request[place] = 1;
        let lines = printed(&[EXAMPLE[0], EXAMPLE[1], EXAMPLE[2], request]);
        assert_eq!(lines, "1 0 0\n2 0 0\n3 0 0\n4 2 0\n", "byte {place}");
    }
    // 10^15 is 0x38d7ea4c68000; one more is too much.
    let most = [0x00, 0x80, 0xc6, 0xa4, 0x7e, 0x8d, 0x03, 0x00];
    let more = [0x01, 0x80, 0xc6, 0xa4, 0x7e, 0x8d, 0x03, 0x00];
    let records = [most, more, [0, 0, 0, 0, 0, 0, 0, 1]].map(|g| record(b'G', &[(16, &g)]));
    assert_eq!(printed(&records), "1 0 0\n2 2 0\n3 2 0\n");
}

#[test]
fn rates_are_not_cut() {
    // 999,999 is 0x0f423f; 0x0100_0064 is 100 but for its fourth byte.
    let rates = [[0x3f, 0x42, 0x0f, 0], [0x40, 0x42, 0x0f, 0], [100, 0, 0, 1]];
    let records = rates.map(|rate| record(b'P', &[(1, &[1]), (12, &rate), (16, &[1])]));
    assert_eq!(printed(&records), "1 0 0\n2 2 0\n3 2 0\n");
}

#[test]
fn annual_request_and_cession() {
    // User 5 gets 300 from 1 November 2023 (arrival 8,689 = 33 * 256 + 241) and cedes
    // 200 to user 6 (arrival 8,696 = 33 * 256 + 248); 101 are no longer his.
    let other = record(b'G', &[(3, &[6]), (17, &[0xca, 0x9a, 0x3b])]);
    let annual = record(
        b'R',
        &[(1, &[1]), (3, &[5]), (8, &[241, 33]), (16, &[44, 1])],
    );
    let cession = |giver, receiver, amount| {
        let fields: [(usize, &[u8]); 3] =
            [(3, &[giver, receiver]), (8, &[248, 33]), (16, &[amount])];
        record(b'C', &fields)
    };
    let lines = printed(&[
        EXAMPLE[0],
        EXAMPLE[1],
        EXAMPLE[2],
        other,
        annual,
        cession(6, 5, 200),
        cession(5, 6, 200),
        cession(5, 6, 101),
        cession(5, 5, 100),
        cession(5, 6, 100),
        cession(6, 5, 255),
    ]);
    let expected = "1 0 0\n2 0 0\n3 0 0\n4 0 0\n5 0 300\n6 10 0\n7 0 200\n8 10 0\n9 2 0\n\
                    10 0 100\n11 0 255\n";
    assert_eq!(lines, expected);
}

#[test]
fn years_are_turned_to_the_last() {
    let turn = |year: u16| record(b'Y', &[(10, &[(year % 256) as u8, (year / 256) as u8])]);
    let years: Vec<Record> = (2001..=2098).chain([2099, 2098, 2000]).map(turn).collect();
    let expected: String = (1..=101)
        .map(|position| match position {
            99 => "99 2 0\n".to_string(),
            100 | 101 => format!("{position} 15 0\n"),
            _ => format!("{position} 0 0\n"),
        })
        .collect();
    assert_eq!(printed(&years), expected);
}
