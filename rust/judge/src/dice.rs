//! A small generator of our own, so that a seed gives the same questions everywhere.

pub struct Dice(pub u64);

impl Dice {
    pub fn roll(&mut self, n: u64) -> u64 {
        self.0 = self.0.wrapping_mul(6364136223846793005).wrapping_add(1442695040888963407);
        (self.0 >> 33) % n
    }

    pub fn pick<'a, T>(&mut self, all: &'a [T]) -> &'a T {
        &all[self.roll(all.len() as u64) as usize]
    }

    /// Numbers of a few kinds: the grid's ends and what lies beside them, small ones, any.
    pub fn number(&mut self) -> i16 {
        const EDGES: [i16; 9] = [-32768, -32767, -16384, -1, 0, 1, 16384, 32766, 32767];
        match self.roll(4) {
            0 => *self.pick(&EDGES),
            1 | 2 => self.roll(5) as i16 - 2,
            _ => self.roll(65536) as u16 as i16,
        }
    }

    pub fn bits(&mut self) -> u64 {
        (0..4).fold(0, |bits, _| bits << 16 | self.roll(65536))
    }
}
