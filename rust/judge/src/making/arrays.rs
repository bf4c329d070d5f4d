//! Arrays for the smaller head: of records that need be no chart's.

use crate::dice::Dice;

/// Every record whose coordinates are among three, with a mark that is another for each.
pub fn records(among: [i16; 3]) -> Vec<[i16; 5]> {
    let number = |n: usize, i: u32| among[n / 3usize.pow(i) % 3];
    (0..81).map(|n| [number(n, 0), number(n, 1), number(n, 2), number(n, 3), n as i16 - 40]).collect()
}

impl Dice {
    fn point(&mut self) -> [i16; 2] {
        [self.number(), self.number()]
    }

    /// A point on the line from p through q, where one on the grid is found.
    fn in_line(&mut self, p: [i16; 2], q: [i16; 2]) -> [i16; 2] {
        let step = self.roll(7) as i32 - 3;
        let along = |a: i16, b: i16| i16::try_from(a as i32 + step * (b as i32 - a as i32));
        match (along(p[0], q[0]), along(p[1], q[1])) {
            (Ok(x), Ok(y)) => [x, y],
            _ => q,
        }
    }

    /// An array of records that share corners and lines often enough for every case to come up.
    fn array(&mut self) -> [i16; 20] {
        let corner = self.point();
        let aim = self.point();
        let mut all = [0; 20];
        for record in all.chunks_mut(5) {
            let dominating = if self.roll(3) > 0 { corner } else { self.point() };
            let other = match self.roll(4) {
                0 => self.in_line(corner, aim),
                1 => dominating,
                2 => aim,
                _ => self.point(),
            };
            record.copy_from_slice(&[dominating[0], dominating[1], other[0], other[1], self.roll(2) as i16]);
        }
        all
    }

    /// Two arrays, the heads often at one corner, in one line, or the same; each cut to any length.
    pub fn arrays(&mut self) -> (Vec<i16>, Vec<i16>) {
        let a = self.array();
        let mut b = if self.roll(2) == 0 { self.array() } else { a };
        if self.roll(2) == 0 {
            b[..2].copy_from_slice(&a[..2]);
        }
        if self.roll(3) == 0 {
            let aimed = self.in_line([a[0], a[1]], [a[2], a[3]]);
            b[2..4].copy_from_slice(&aimed);
        }
        let (m, n) = (self.roll(21) as usize, self.roll(21) as usize);
        (a[..m].to_vec(), b[..n].to_vec())
    }
}
