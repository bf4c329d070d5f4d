//! What goes wrong with chart files: with one number of a file, so that the refusal is known from how it was spoiled,
//! and with single bytes.

use crate::dice::Dice;
use crate::rules::files::{groups_of, parts, written, Taken};

/// The most records that a file may have.
pub const LIMIT: usize = 512;

/// Bytes at which something changes: 0, marks, small counts, and the groups of the counts 512 and 513 and of the
/// coordinates at the grid's ends and next to them.
pub const EDGES: [u8; 11] = [0x00, 0x01, 0x02, 0x03, 0x04, 0x7f, 0x80, 0x81, 0x83, 0x84, 0xff];

/// Coordinates off the grid: next to it, some that sixteen bits would wrap to small ones, the last of three groups.
const OFF_GRID: [i128; 8] = [-32769, 32768, 65536, 65540, -65536, -65540, 1048575, -1048576];

/// Marks above 1, among them some that eight or sixteen bits would wrap to 0 or 1.
const NO_MARK: [i128; 8] = [2, 3, 127, 128, 256, 257, 65537, 2097151];

/// Counts above 512, among them some that eight or sixteen bits would wrap to small ones.
const NO_COUNT: [usize; 8] = [513, 514, 520, 768, 16383, 16384, 65544, 2097151];

/// Groups that are no number, whatever follows.
const NO_NUMBER: [&[u8]; 6] = [
    &[0x80, 0x80, 0x80],
    &[0xff, 0xff, 0xff],
    &[0x80, 0x80, 0x80, 0x00],
    &[0x81, 0x82, 0x84, 0x01],
    &[0x80, 0x00],
    &[0x80, 0x80, 0x00],
];

/// A file as it was made.
#[derive(Clone)]
pub struct Draft {
    /// what was written
    pub numbers: Vec<i16>,
    /// the bytes of the count, then of each number
    pub parts: Vec<Vec<u8>>,
    /// how many records the count says
    pub count: usize,
    /// the refusal's number, where the file is spoiled, and the part that it is at
    fault: Option<(u8, usize)>,
}

impl Draft {
    pub fn new(numbers: &[i16]) -> Self {
        Draft { numbers: numbers.to_vec(), parts: parts(numbers), count: numbers.len() / 5, fault: None }
    }

    pub fn length(&self) -> usize {
        self.place(self.parts.len())
    }

    fn place(&self, part: usize) -> usize {
        self.parts[..part].iter().map(Vec::len).sum()
    }

    /// What comes of it. An array too short is met after a fault of the count and before any other.
    pub fn answer(&self, room: usize) -> Taken {
        match self.fault {
            Some((number, 0)) => Err((number, 0)),
            _ if room < 5 * self.count => Err((36, 0)),
            Some((number, part)) => Err((number, self.place(part))),
            None => Ok(self.numbers.clone()),
        }
    }

    // ---- spoiled once

    /// It ends after so many bytes, fewer than it has.
    pub fn cut(&self, length: usize) -> Self {
        let (mut part, mut left) = (0, length);
        while left >= self.parts[part].len() {
            left -= self.parts[part].len();
            part += 1;
        }
        let mut spoiled = self.clone();
        spoiled.parts.truncate(part + 1);
        spoiled.parts[part].truncate(left);
        spoiled.fault = Some((31, part));
        spoiled
    }

    pub fn lengthened(&self, bytes: &[u8]) -> Self {
        let mut spoiled = self.clone();
        spoiled.parts.push(bytes.to_vec());
        spoiled.fault = Some((34, self.parts.len()));
        spoiled
    }

    /// Other bytes for one of its parts, which are refused.
    pub fn replaced(&self, part: usize, bytes: &[u8], refusal: u8) -> Self {
        let mut spoiled = self.clone();
        spoiled.parts[part] = bytes.to_vec();
        spoiled.fault = Some((refusal, part));
        spoiled
    }

    /// A group of zero more in one of its numbers. Where that is a fourth, the third now has its high bit set.
    fn padded(&self, part: usize) -> Self {
        let mut bytes = self.parts[part].clone();
        *bytes.last_mut().expect("a number has a group") += 128;
        bytes.push(0);
        self.replaced(part, &bytes, 32)
    }

    /// Another count before the same records.
    pub fn counted(&self, count: usize) -> Self {
        let mut spoiled = self.replaced(0, &groups_of(count as i128), 35);
        spoiled.count = count;
        if count <= LIMIT {
            spoiled.fault = match count {
                _ if count > self.count => Some((31, self.parts.len())),
                _ if count < self.count => Some((34, 1 + 5 * count)),
                _ => None,
            };
        }
        spoiled
    }

    /// One of its numbers is another that can not be taken.
    fn exceeded(&self, part: usize) -> Vec<Self> {
        let with = |n: i128| self.replaced(part, &groups_of(n), 33);
        match part {
            0 => NO_COUNT.iter().map(|&n| self.counted(n)).collect(),
            _ if part % 5 == 0 => NO_MARK.iter().map(|&n| with(n)).collect(),
            _ => OFF_GRID.iter().map(|&n| with(written(n))).collect(),
        }
    }

    /// One of its numbers spoiled in each way.
    pub fn spoiled(&self, part: usize) -> Vec<Self> {
        let no_number = NO_NUMBER.iter().map(|bytes| self.replaced(part, bytes, 32));
        [self.padded(part)].into_iter().chain(no_number).chain(self.exceeded(part)).collect()
    }

    /// Cut at every length, lengthened, with every count, and with each of its numbers spoiled in each way.
    pub fn all_spoiled(&self) -> Vec<Self> {
        let cut = (0..self.length()).map(|length| self.cut(length));
        let lengthened = EDGES.iter().flat_map(|&byte| [1, 2, 5, 6].map(|more| self.lengthened(&vec![byte; more])));
        let counted = (0..=LIMIT).map(|count| self.counted(count));
        let spoiled = (0..self.parts.len()).flat_map(|part| self.spoiled(part));
        cut.chain(lengthened).chain(counted).chain(spoiled).collect()
    }
}

// ---- drawn

impl Dice {
    fn byte(&mut self) -> u8 {
        if self.roll(3) == 0 { self.roll(256) as u8 } else { *self.pick(&EDGES) }
    }

    pub fn bytes(&mut self, most: u64) -> Vec<u8> {
        (0..self.roll(most + 1)).map(|_| self.byte()).collect()
    }

    /// Spoiled once.
    pub fn spoiled(&mut self, draft: &Draft) -> Draft {
        let part = self.roll(draft.parts.len() as u64) as usize;
        match self.roll(8) {
            0 | 1 => draft.cut(self.roll(draft.length() as u64) as usize),
            2 => draft.lengthened(&[vec![self.byte()], self.bytes(9)].concat()),
            3 => draft.counted(self.roll(LIMIT as u64 + 2) as usize),
            4 => draft.counted(draft.count + self.roll(4) as usize),
            5 => draft.counted(draft.count.saturating_sub(self.roll(4) as usize)),
            _ => self.pick(&draft.spoiled(part)).clone(),
        }
    }

    /// Bytes changed, added, taken away or moved.
    pub fn harm_bytes(&mut self, bytes: &mut Vec<u8>) {
        let at = self.roll(bytes.len() as u64 + 1) as usize;
        if at == bytes.len() {
            bytes.extend(self.bytes(3));
            return;
        }
        match self.roll(7) {
            0 => bytes[at] = self.byte(),
            1 => bytes[at] ^= 1 << self.roll(8),
            2 => bytes[at] ^= 128,
            3 => bytes.insert(at, self.byte()),
            4 => drop(bytes.remove(at)),
            5 => bytes.truncate(at),
            _ => bytes.swap(at, self.roll(at as u64 + 1) as usize),
        }
    }
}
