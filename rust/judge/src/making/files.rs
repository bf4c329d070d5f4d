//! Chart files to ask about, with the length of the array that is lent: document 01's own, and listed ones.

use super::spoils::{Draft, EDGES, LIMIT};
use crate::rules::files::{groups_of, written, Refusal, Taken};

/// A length of an array, and one of a file, that no chart needs.
const NUMBERS: usize = 4096;
const BYTES: usize = 8192;

/// A file, how many numbers the lent array has, and the answer where it is known.
pub struct File {
    pub bytes: Vec<u8>,
    pub room: usize,
    pub known: Option<Taken>,
}

impl File {
    pub fn new(bytes: &[u8], room: usize) -> Self {
        File { bytes: bytes.to_vec(), room, known: None }
    }

    pub fn of(draft: &Draft, room: usize) -> Self {
        File { bytes: draft.parts.concat(), room, known: Some(draft.answer(room)) }
    }

    fn read(bytes: &[u8], numbers: Vec<i16>) -> Self {
        File { bytes: bytes.to_vec(), room: numbers.len(), known: Some(Ok(numbers)) }
    }

    fn refused(bytes: &[u8], room: usize, refusal: Refusal) -> Self {
        File { bytes: bytes.to_vec(), room, known: Some(Err(refusal)) }
    }
}

// ---- the papers' own

/// Document 01's file of the square.
const SQUARE: [u8; 41] = [
    0x08, 0x00, 0x00, 0x08, 0x00, 0x01, 0x00, 0x00, 0x00, 0x08, 0x00, 0x00, 0x08, 0x00, 0x00, 0x00, 0x00, 0x08, 0x08,
    0x08, 0x00, 0x08, 0x00, 0x00, 0x00, 0x01, 0x08, 0x00, 0x08, 0x08, 0x01, 0x08, 0x08, 0x00, 0x08, 0x00, 0x08, 0x08,
    0x08, 0x00, 0x01,
];

/// The square's records: those at its left corners, then those at its right ones.
fn square() -> Vec<i16> {
    let left = [[0, 0, 4, 0, 1], [0, 0, 0, 4, 0], [0, 4, 0, 0, 0], [0, 4, 4, 4, 0]];
    let right = [[4, 0, 0, 0, 1], [4, 0, 4, 4, 1], [4, 4, 0, 4, 0], [4, 4, 4, 0, 1]];
    [left, right].concat().concat()
}

/// "The longest file that can be taken has 6,658" bytes: 512 records of coordinates that take three groups.
fn longest() -> Draft {
    let draft = Draft::new(&[-32768, 32767, 8192, -8193, 1].repeat(LIMIT));
    assert_eq!(draft.length(), 6658);
    draft
}

/// Document 01's own files, and the examples by which its unclear points are read.
pub fn examples() -> Vec<File> {
    let (read, refused) = (File::read, File::refused);
    vec![
        read(&SQUARE, square()),
        read(&[0x00], vec![]),
        // the third group's high bit is looked at before the end of the bytes
        refused(&[0x80, 0x80, 0x80], 5, (32, 0)),
        refused(&[0x80, 0x80], 5, (31, 0)),
        refused(&[0x80, 0x00], 5, (32, 0)),
        refused(&[0x80, 0x80, 0x00], 5, (32, 0)),
        // 33 is for a number of good form
        refused(&[0x01, 0x80, 0x80, 0x04, 0x00, 0x00, 0x00, 0x00], 5, (33, 1)),
        refused(&[0x01, 0x80, 0x80, 0x84, 0x00, 0x00, 0x00, 0x00], 5, (32, 1)),
        refused(&[0x01, 0x00, 0x00, 0x00, 0x00, 0x02], 5, (33, 5)),
        refused(&[0x01, 0x00, 0x00, 0x00, 0x00, 0x82, 0x00], 5, (32, 5)),
        // the bytes end before a number
        refused(&[], 5, (31, 0)),
        refused(&[0x01], 5, (31, 1)),
        // bytes left over
        refused(&[0x00, 0x00], 5, (34, 1)),
        // 35 and 36 directly after the count, whatever follows or fails to follow
        refused(&[0x81, 0x04], 0, (35, 0)),
        refused(&[0x81, 0x04, 0x80, 0x80, 0x80], 2565, (35, 0)),
        refused(&[0x80, 0x04], 2559, (36, 0)),
        refused(&[0x80, 0x04], 2560, (31, 2)),
        refused(&[0x01], 4, (36, 0)),
        refused(&[0x01, 0x80, 0x80, 0x80], 4, (36, 0)),
        // the mark is a plain number, the coordinates are signed
        read(&[0x01, 0x01, 0x02, 0x03, 0x04, 0x01], vec![-1, 1, -2, 2, 1]),
    ]
}

// ---- listed

/// The square, whole and spoiled, for arrays too short, just long enough and longer.
pub fn squares() -> impl Iterator<Item = File> {
    let whole = Draft::new(&square());
    let all = [whole.all_spoiled(), vec![whole]].concat();
    let rooms: Vec<usize> = (0..=45).chain([2559, 2560, NUMBERS]).collect();
    (0..rooms.len() * all.len()).map(move |n| File::of(&all[n % all.len()], rooms[n / all.len()]))
}

/// The square with every byte in each of its places, for arrays of up to 45 numbers.
pub fn changed_squares() -> impl Iterator<Item = File> {
    let changed = |at: usize, byte: u8| [&SQUARE[..at], &[byte], &SQUARE[at + 1..]].concat();
    let places = 0..256 * SQUARE.len();
    places.flat_map(move |n| {
        let file = changed(n / 256, n as u8);
        std::array::from_fn::<File, 46, _>(|room| File::new(&file, room))
    })
}

/// The longest file: whole, a byte or two shorter, longer by up to as many as can be asked about, with one less or one
/// more as its count, and with its last two numbers spoiled.
pub fn long() -> impl Iterator<Item = File> {
    let whole = longest();
    let (length, last) = (whole.length(), 5 * LIMIT);
    let cut = [1, 2].map(|less| whole.cut(length - less)).to_vec();
    let lengthened = [1, 2, BYTES - length].map(|more| whole.lengthened(&vec![0; more])).to_vec();
    let counted = [LIMIT - 1, LIMIT + 1].map(|count| whole.counted(count)).to_vec();
    let spoiled = [whole.spoiled(last - 1), whole.spoiled(last)].concat();
    let all = [vec![whole], cut, lengthened, counted, spoiled].concat();
    let rooms = [0, 2555, 2559, 2560, 2561, NUMBERS];
    all.into_iter().flat_map(move |draft| rooms.map(|room| File::of(&draft, room)))
}

/// A record whose coordinate n stands at one of the four places.
fn placed(n: i32) -> Draft {
    let at = n.rem_euclid(4) as usize;
    let mut numbers = [0; 5];
    match i16::try_from(n) {
        Ok(v) => {
            numbers[at] = v;
            Draft::new(&numbers)
        }
        Err(_) => Draft::new(&numbers).replaced(1 + at, &groups_of(written(n as i128)), 33),
    }
}

/// Every count, mark and coordinate up to some that can not be taken.
pub fn numbers() -> impl Iterator<Item = File> {
    let (none, one) = (Draft::new(&[]), Draft::new(&[0; 5]));
    let counts = (0..20_000).map(move |count| File::of(&none.counted(count), 10));
    let marks = (2..20_000).map(move |mark| File::of(&one.replaced(5, &groups_of(mark), 33), 5));
    let coordinates = (-33_000..33_000).map(|n| File::of(&placed(n), 5));
    counts.chain(marks).chain(coordinates)
}

/// Every string of bytes at which something changes, the shorter ones first.
fn string(mut n: usize) -> Vec<u8> {
    let mut bytes = vec![];
    while n > 0 {
        n -= 1;
        bytes.push(EDGES[n % EDGES.len()]);
        n /= EDGES.len();
    }
    bytes
}

/// How many of these strings have at most so many bytes.
fn strings(most: u32) -> usize {
    (0..=most).map(|length| EDGES.len().pow(length)).sum()
}

/// Every file of up to six such bytes; those of up to three for more arrays.
pub fn small() -> impl Iterator<Item = File> {
    let rooms = [0, 4, 5, 6, 9, 10, 20, 25, 2559, 2560, NUMBERS];
    let shorter = (0..strings(3)).flat_map(move |n| rooms.map(|room| File::new(&string(n), room)));
    let longer = (strings(3)..strings(6)).flat_map(|n| [5, 12].map(|room| File::new(&string(n), room)));
    shorter.chain(longer)
}
