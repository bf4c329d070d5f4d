//! Drawn chart files: whole ones, spoiled ones, harmed ones and bytes by themselves.

use super::files::File;
use super::spoils::{Draft, LIMIT};
use crate::dice::Dice;

/// The last coordinates that are written in one group and in two, and those next to them.
const BOUNDS: [i16; 8] = [-65, -64, 63, 64, -8193, -8192, 8191, 8192];

impl Dice {
    fn coordinate(&mut self) -> i16 {
        if self.roll(3) == 0 { *self.pick(&BOUNDS) } else { self.number() }
    }

    /// A whole file, mostly of few records.
    pub fn whole(&mut self) -> Draft {
        let records = match self.roll(50) {
            0 => LIMIT as u64 - self.roll(3),
            1..=3 => self.roll(100),
            _ => self.roll(9),
        };
        let number = |at: u64| if at % 5 < 4 { self.coordinate() } else { self.roll(2) as i16 };
        Draft::new(&(0..5 * records).map(number).collect::<Vec<i16>>())
    }

    /// An array for so many records: too short, just long enough or longer.
    fn room(&mut self, records: usize) -> usize {
        let enough = 5 * records.min(LIMIT);
        match self.roll(12) {
            0 => self.roll(enough as u64 + 1) as usize,
            1 => enough.saturating_sub(1),
            2 | 3 => enough + 1 + self.roll(9) as usize,
            4 => enough + self.roll(100) as usize,
            _ => enough,
        }
    }

    /// Bytes by themselves, most of them after a small count.
    fn thrown(&mut self) -> File {
        let count = self.roll(4);
        let counted = if self.roll(4) == 0 { vec![] } else { vec![count as u8] };
        File::new(&[counted, self.bytes(60)].concat(), self.room(count as usize))
    }

    /// A file with a byte or two gone wrong.
    fn harmed_file(&mut self, draft: &Draft) -> File {
        let mut bytes = draft.parts.concat();
        (0..1 + self.roll(2)).for_each(|_| self.harm_bytes(&mut bytes));
        File::new(&bytes, self.room(draft.count))
    }

    pub fn file(&mut self) -> File {
        let whole = self.whole();
        let spoiled = self.spoiled(&whole);
        match self.roll(20) {
            0..=3 => File::of(&whole, self.room(whole.count)),
            4..=11 => File::of(&spoiled, self.room(spoiled.count)),
            12 | 13 => self.thrown(),
            14..=16 => self.harmed_file(&whole),
            _ => self.harmed_file(&spoiled),
        }
    }
}
