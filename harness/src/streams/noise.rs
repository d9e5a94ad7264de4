//! Streams that are noise, wholly or in part.

use reference::runner::{MOST_BYTES, RECORD_LENGTH};

use super::calls;
use crate::numbers::Generator;

/// The letters of the calls.
const LETTERS: [u8; 5] = *b"PGRCY";

/// Calls, of which every fourth record or so has a few other bytes. Its letter is
/// left, so that most of them are calls still.
pub(super) fn damaged(numbers: &mut Generator) -> Vec<u8> {
    let mut bytes = calls::some(numbers);
    for record in bytes.chunks_exact_mut(RECORD_LENGTH) {
        let places = numbers.pick(&[0, 0, 0, 0, 0, 0, 1, 2, 4]);
        for _ in 0..places {
            let place = 1 + numbers.below::<usize>(RECORD_LENGTH as u64 - 1);
            record[place] = numbers.below(256);
        }
    }
    bytes
}

/// Known letters, each with random bytes behind it, all of them or but for the
/// upper ones of its amount.
pub(super) fn letters(numbers: &mut Generator) -> Vec<u8> {
    let records = 1 + numbers.below::<usize>(200);
    let has_small_amounts = numbers.in_hundred(50);
    let mut bytes = random(numbers, records * RECORD_LENGTH);
    for record in bytes.chunks_exact_mut(RECORD_LENGTH) {
        record[0] = numbers.pick(&LETTERS);
        if has_small_amounts {
            record[18..].fill(0);
        }
    }
    bytes
}

/// Random bytes, sometimes more than are looked at.
pub(super) fn garbage(numbers: &mut Generator) -> Vec<u8> {
    let few = numbers.below::<usize>(2_000);
    let many = MOST_BYTES + numbers.below::<usize>(100_000);
    let length = numbers.pick(&[few, few, few, many]);
    random(numbers, length)
}

/// Nothing, or the beginning of some calls.
pub(super) fn few(numbers: &mut Generator) -> Vec<u8> {
    let mut bytes = calls::some(numbers);
    let length = numbers.below::<usize>(2 * RECORD_LENGTH as u64);
    bytes.truncate(numbers.pick(&[0, length]));
    bytes
}

fn random(numbers: &mut Generator, length: usize) -> Vec<u8> {
    (0..length).map(|_| numbers.below(256)).collect()
}
