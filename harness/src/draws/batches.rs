//! Batches: most are of users on file at an open point and within limits, with
//! some lines that are spoilt; the others are spoilt as a whole.

use reference::batch::BATCH_LINES;
use reference::register::LEDGER_LINES;

use super::{Sequence, MOST_AMOUNT};
use crate::books::BATCH_SPACE;
use crate::calls::{Batch, Call};

impl Sequence {
    /// A batch, sometimes after a guarantee of one of its users that just covers
    /// what he asks for or is one too little.
    pub(super) fn batch(&mut self) {
        let batch = self.some_batch();
        let line = self.numbers.below::<usize>(batch.users.len().max(1) as u64);
        let user = batch.users.get(line).copied().unwrap_or(0);
        let asked = batch.asked.get(line).copied().unwrap_or(0);
        let enough = self.just_enough(user, batch.point, asked, &self.thermal().days());
        let batch = self.with_other_lengths(batch);
        self.call_with_guarantee(Call::Batch(batch), user, enough);
    }

    /// A batch of which some lines are spoilt, or the point.
    fn some_batch(&mut self) -> Batch {
        let mut batch = self.good_batch();
        let chances = self.numbers.pick(&[0, 0, 10, 30]);
        for line in 0..batch.users.len() {
            if self.numbers.in_hundred(chances) {
                self.spoil_line(&mut batch, line);
            }
        }
        match self.numbers.below::<u8>(20) {
            0 => batch.point = self.numbers.pick(&[32, 33, 64, 255]),
            1 | 2 => batch.point = self.numbers.below(32),
            _ => {}
        }
        batch
    }

    /// Users on file, each once while there are others, at an open point. Of a few
    /// points it is the one with most to share out, since little is soon left.
    fn good_batch(&mut self) -> Batch {
        let year = self.thermal().days();
        let points = [self.open_point(), self.open_point(), self.open_point()];
        let free = |point: &u8| self.least_free(*point, &year);
        let point = points.into_iter().max_by_key(free).unwrap_or(0);
        let some = 2 + self.numbers.below::<usize>(9);
        let many = 1 + self.numbers.below::<usize>(64);
        let left = LEDGER_LINES.saturating_sub(self.books.register.lines.into());
        let lines = match left {
            0..=65 => [left, left + 1, left.saturating_sub(1), some].to_vec(),
            _ => [1, 2, some, some, some, some, many, 64].to_vec(),
        };
        let lines = self.numbers.pick(&lines).clamp(1, *BATCH_LINES.end());
        let users = self.users_of(lines);
        let asked = self.amounts_of(lines, self.least_free(point, &year));
        Batch::new(point, users, asked)
    }

    /// So many users in any order: first those on file, then others.
    fn users_of(&mut self, lines: usize) -> Vec<u8> {
        let accounts = self.books.register.accounts;
        let (mut users, mut others): (Vec<u8>, Vec<u8>) =
            (0..64).partition(|&user: &u8| accounts[usize::from(user)].is_on_file());
        self.shuffle(&mut users);
        self.shuffle(&mut others);
        users.append(&mut others);
        users.truncate(lines);
        self.shuffle(&mut users);
        users
    }

    fn shuffle(&mut self, list: &mut [u8]) {
        for end in (1..list.len()).rev() {
            list.swap(end, self.numbers.below(end as u64 + 1));
        }
    }

    /// Amounts of so many lines: alike, far apart, or any; or such that their sum
    /// is what is free, or nearly.
    fn amounts_of(&mut self, lines: usize, free: u64) -> Vec<u64> {
        let numbers = &mut self.numbers;
        let free = numbers.pick(&[free, free, free, free / 3 + 1]);
        let most = free.clamp(1, MOST_AMOUNT);
        let count = lines as u64;
        let tie = 1 + numbers.below::<u64>(2 * most / count + 2);
        let part = most / count + 1;
        let mode = numbers.pick(&[0, 0, 1, 1, 2, 2, 3]);
        let mut asked: Vec<u64> = (0..lines)
            .map(|_| match mode {
                0 => tie,
                1 => numbers.pick(&[1, 2, most, most, MOST_AMOUNT]),
                2 => 1 + numbers.below::<u64>(most),
                _ => 1 + numbers.below::<u64>(part),
            })
            .collect();
        if mode == 3 {
            let others: u64 = asked[1..].iter().sum();
            let sum = numbers.pick(&[free, free + 1, free + 1, free.saturating_sub(1)]);
            asked[0] = sum.saturating_sub(others);
        }
        let within = asked.iter().map(|&amount| amount.clamp(1, MOST_AMOUNT));
        within.collect()
    }

    /// The user of another line, one that is not on file or none at all; or an
    /// amount out of limits.
    fn spoil_line(&mut self, batch: &mut Batch, line: usize) {
        let lines = batch.users.len() as u64;
        match self.numbers.below::<u8>(5) {
            0 => batch.users[line] = self.numbers.pick(&[64, 65, 128, 255]),
            1 => batch.users[line] = self.numbers.below(64),
            2 => batch.asked[line] = self.bad_amount(),
            _ => batch.users[line] = batch.users[self.numbers.below::<usize>(lines)],
        }
    }

    /// Sometimes one of the four lists is longer or shorter, or all have too many
    /// lines or none.
    fn with_other_lengths(&mut self, mut batch: Batch) -> Batch {
        let mut length = batch.users.len();
        if self.numbers.in_hundred(5) {
            let lengths = [0, 0, 64, 65, 65, 66, 128, 255, 256, 257, 256 + length];
            length = self.numbers.pick(&lengths);
            batch.users.resize(length, 63);
            batch.asked.resize(length, 1);
            (batch.shares, batch.numbers) = (length, length);
        }
        let others = [length + 1, length.saturating_sub(1), 0, 64, length + 256];
        let other = self.numbers.pick(&others).min(BATCH_SPACE);
        match self.numbers.below::<u8>(60) {
            0 => batch.users.resize(other, 5),
            1 => batch.asked.resize(other, 1),
            2 => batch.shares = other,
            3 => batch.numbers = other,
            _ => {}
        }
        batch
    }
}
