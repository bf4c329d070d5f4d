//! Arrays as they are handed over: copies between margins, so that it shows where one is written that must not be, or
//! beside its ends.

use std::hint::black_box;

/// How many elements stand on either side, and what they are.
const MARGIN: usize = 3;
const EDGING: u8 = 0x5a;

pub struct Framed<T> {
    all: Vec<T>,
}

impl<T: Copy + PartialEq + From<u8>> Framed<T> {
    pub fn new(array: &[T]) -> Self {
        let margin = [T::from(EDGING); MARGIN];
        Framed { all: [&margin[..], array, &margin].concat() }
    }

    /// The array. The compiler must not conclude what it holds from who may write to it.
    pub fn array(&self) -> &[T] {
        let all = black_box(&self.all);
        &all[MARGIN..all.len() - MARGIN]
    }

    pub fn array_mut(&mut self) -> &mut [T] {
        let end = self.all.len() - MARGIN;
        &mut self.all[MARGIN..end]
    }

    /// Where the array begins, for a function that must not write to it.
    pub fn start(&mut self) -> *const T {
        self.array_mut().as_mut_ptr()
    }

    pub fn has_margins(&self) -> bool {
        let all = black_box(&self.all);
        let (front, back) = (&all[..MARGIN], &all[all.len() - MARGIN..]);
        front.iter().chain(back).all(|&v| v == T::from(EDGING))
    }

    /// Whether it still is what it was made of.
    pub fn is_as(&self, array: &[T]) -> bool {
        self.has_margins() && self.array() == array
    }
}
