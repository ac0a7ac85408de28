//! The field by tables, for the code written by hand.

/// Powers of 2, twice in a row, and logarithms, made once.
#[derive(Clone)]
pub struct Tables {
    powers: [u8; 512],
    logs: [u8; 256],
}

impl Default for Tables {
    fn default() -> Tables {
        let mut t = Tables { powers: [0; 512], logs: [0; 256] };
        let mut a = 1_u16;
        for k in 0..255 {
            t.powers[k] = a as u8;
            t.powers[k + 255] = a as u8;
            t.logs[a as usize] = k as u8;
            a <<= 1;
            if a & 256 != 0 {
                a ^= 0x11D;
            }
        }
        t
    }
}

impl Tables {
    fn log(&self, a: u8) -> usize {
        usize::from(self.logs[usize::from(a)])
    }

    /// The eight doublings of a weight that has this logarithm.
    pub fn doublings(&self, log: usize) -> [u8; 8] {
        std::array::from_fn(|k| self.powers[log + k])
    }

    /// The logarithm of what data block j weighs at a parity brick.
    pub fn weight(&self, m: u8, brick: u8, j: u8) -> usize {
        let others = (0..m).filter(|&i| i != j);
        others.map(|i| self.log(brick ^ i) + 255 - self.log(j ^ i)).sum::<usize>() % 255
    }

    /// The polynomials through the blocks of m bricks.
    pub fn through<'a>(&'a self, points: &'a [u8]) -> Through<'a> {
        let mut below = [0; 16];
        for (i, sum) in below.iter_mut().enumerate().take(points.len()) {
            let others = points.iter().enumerate().filter(|&(k, _)| k != i);
            *sum = others.map(|(_, &c)| 255 - self.log(points[i] ^ c)).sum::<usize>();
        }
        Through { tables: self, points, below }
    }
}

/// The points of m bricks, and the logarithm of the part of each one's weight that is the same for every other point.
pub struct Through<'a> {
    tables: &'a Tables,
    points: &'a [u8],
    below: [usize; 16],
}

impl Through<'_> {
    /// The block at a point from the blocks of the m bricks, which `block` finds by their places.
    pub fn block_at<'b>(&self, x: u8, block: impl Fn(usize) -> &'b [u8], out: &mut [u8]) {
        let Through { tables, points, below } = self;
        if let Some(k) = points.iter().position(|&b| b == x) {
            out.copy_from_slice(block(k));
            return;
        }
        let top: usize = points.iter().map(|&b| tables.log(x ^ b)).sum();
        out.fill(0);
        for (j, &b) in points.iter().enumerate() {
            let s = (top - tables.log(x ^ b) + below[j]) % 255;
            add_products(&tables.doublings(s), block(j), out);
        }
    }

    /// The blocks at points 0 to count - 1.
    pub fn blocks<'b>(&self, size: usize, block: impl Fn(usize) -> &'b [u8], out: &mut [u8]) {
        for (x, out) in out.chunks_exact_mut(size).enumerate() {
            self.block_at(x as u8, &block, out);
        }
    }
}

/// Adds the products of a weight, by its doublings, and each byte.
pub fn add_products(w: &[u8; 8], bytes: &[u8], out: &mut [u8]) {
    for (o, &byte) in out.iter_mut().zip(bytes) {
        let bit = |k: usize| (byte >> k & 1) * w[k];
        *o ^= bit(0) ^ bit(1) ^ bit(2) ^ bit(3) ^ bit(4) ^ bit(5) ^ bit(6) ^ bit(7);
    }
}
