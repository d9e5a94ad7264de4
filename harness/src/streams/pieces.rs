//! How a stream is handed over: chopped, whatever its records are.

use std::io::{self, Write};
use std::thread;
use std::time::Duration;

use crate::numbers::Generator;

/// Long enough for a reader to find that a piece is all there is.
const PAUSE: Duration = Duration::from_millis(2);

/// Pieces of a stream, in their order.
#[derive(Debug)]
pub struct Pieces {
    lengths: Vec<usize>,
    /// Whether the next piece is kept back for a while.
    has_pauses: bool,
}

impl Pieces {
    /// Pieces from single bytes to everything at once. Those of a few streams
    /// have pauses between them, and there are no more than a dozen of these.
    pub(super) fn pick(numbers: &mut Generator, length: usize) -> Pieces {
        let has_pauses = numbers.in_hundred(6);
        let most = match has_pauses {
            true => numbers.pick(&[length / 4, length / 6]).max(1),
            false => numbers.pick(&[1, 3, 30, 60, 5_000, length.max(1)]),
        };
        let least = if most == length {
            most
        } else {
            most.div_ceil(2)
        };
        let mut lengths = Vec::new();
        let mut left = length;
        while left > 0 {
            let piece = least + numbers.below::<usize>((most - least) as u64 + 1);
            lengths.push(piece.min(left));
            left -= piece.min(left);
        }
        Pieces {
            lengths,
            has_pauses,
        }
    }

    /// Writes a stream piece by piece.
    pub fn write(&self, stream: &[u8], out: &mut impl Write) -> io::Result<()> {
        let mut rest = stream;
        for &length in &self.lengths {
            let (piece, after) = rest.split_at(length);
            out.write_all(piece)?;
            out.flush()?;
            if self.has_pauses {
                thread::sleep(PAUSE);
            }
            rest = after;
        }
        Ok(())
    }
}
