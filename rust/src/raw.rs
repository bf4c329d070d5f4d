//! The functions of the archive as they are, and what the bits of their answers say. `include/berzulka.h` declares the
//! same for C and tells what is asked of a caller. The crate's own functions are safe, and answer the same.

use crate::Refusal;

extern "C" {
    /// Is this array a chart? The refusal and the index, or 0.
    pub fn bz_check(chart: *const i16, chart_len: usize) -> u64;

    /// Where does the point lie? The kind: 0 Outside, 1 Inside, 2 Edge; or the refusal and the index.
    pub fn bz_point(chart: *const i16, chart_len: usize, x: i16, y: i16) -> u64;

    /// Which records have the point as their dominating end? Where the run of them starts in bits 0 to 31, its length
    /// in bits 32 to 63, both in numbers; 0 where it is empty.
    pub fn bz_corner(chart: *const i16, chart_len: usize, x: i16, y: i16) -> u64;

    /// Which of two arrays has the smaller head? The kind: 0 neither, 1 the first, 2 the second.
    pub fn bz_head(a: *const i16, a_len: usize, b: *const i16, b_len: usize) -> u64;

    /// How large is it? The refusal and the index; or 0, with twice the area in `out`.
    pub fn bz_area2(chart: *const i16, chart_len: usize, out: *mut i64) -> u64;

    /// Which faces and holes does it have? How many cycles in bits 0 to 15, how many faces in bits 16 to 31; or the
    /// refusal and the index.
    pub fn bz_faces(
        chart: *const i16,
        chart_len: usize,
        labels: *mut u16,
        labels_len: usize,
        cycles: *mut u16,
        cycles_len: usize,
    ) -> u64;

    /// What lies in either chart? How many records were written; or the refusal, the index and the chart named.
    pub fn bz_union(a: *const i16, a_len: usize, b: *const i16, b_len: usize, out: *mut i16, out_len: usize) -> u64;

    /// What lies in both charts? As `bz_union` answers.
    pub fn bz_intersection(
        a: *const i16,
        a_len: usize,
        b: *const i16,
        b_len: usize,
        out: *mut i16,
        out_len: usize,
    ) -> u64;

    /// What lies in the first chart and not in the second? As `bz_union` answers.
    pub fn bz_difference(
        a: *const i16,
        a_len: usize,
        b: *const i16,
        b_len: usize,
        out: *mut i16,
        out_len: usize,
    ) -> u64;

    /// What does the sample read? Kind 0 is a spring (rate, pin), 1 a bridge (gain, zero). The refusal, or 0; pressure
    /// and row are always written.
    pub fn bz_gauge(kind: u8, first: f64, second: f64, sample: i16, pressure: *mut f64, row: *mut i16) -> u64;

    /// What records does the file hold? How many were read; or the refusal and the place.
    pub fn bz_read(bytes: *const u8, bytes_len: usize, out: *mut i16, out_len: usize) -> u64;
}

/// What the bits of an answer say.
#[derive(Clone, Copy)]
pub(crate) struct Answer(pub u64);

impl Answer {
    /// Bits 0 to 31: a value, the index of a record, or a place in a file.
    pub fn value(self) -> usize {
        self.0 as u32 as usize
    }

    /// Bits 32 to 47: the number of the refusal, 0 where the question is answered. Bits 48 to 55: the chart that the
    /// refusal names, 0 where it names none.
    pub fn answered(self) -> Result<Answer, Refusal> {
        match (self.0 >> 32) as u16 {
            0 => Ok(self),
            number => Err(Refusal { number, index: self.value(), chart: (self.0 >> 48) as u8 }),
        }
    }

    /// Bits 56 to 63: a kind.
    pub fn kind(self) -> u8 {
        (self.0 >> 56) as u8
    }

    /// Of `bz_faces`: how many cycles in bits 0 to 15, and how many faces in bits 16 to 31.
    pub fn counts(self) -> (usize, usize) {
        (self.0 as u16 as usize, (self.0 >> 16) as u16 as usize)
    }

    /// Of `bz_corner`: the start of the run in bits 0 to 31, and its length in bits 32 to 63.
    pub fn run(self) -> std::ops::Range<usize> {
        let start = self.value();
        start..start + (self.0 >> 32) as usize
    }
}
