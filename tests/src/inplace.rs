//! A brick that works on its image in place, as firmware would write it by hand: the yardstick for the proved one's speed.
//! It knows only good settings and blocks of the right length. It answers by the comparison that said no, `NONE` being a yes.

use crate::brick::{FULL, NEWER, NONE, PROMISE};
use crate::inplace_tables::{add_products, Tables};

const BLOCK: usize = 512;
const HEAD: u8 = 1;
const ENTRY: u8 = 2;
const MARK: u8 = 3;

pub struct Brick {
    n: u8,
    m: u8,
    size: usize,
    capacity: usize,
    brick: u8,
    /// Whether zeros are tested over a whole part at once, which the compiler turns into wide instructions, or byte by byte.
    wide: bool,
    /// What each data block weighs at this brick, by its doublings, if it is a parity brick.
    weights: [[u8; 8]; 16],
}

/// What an image says of its brick.
pub struct Opened {
    pub count: usize,
    pub promise: u64,
    pub times: [u64; 32],
    /// Which entries are marks, as bits.
    pub marks: u32,
}

impl Opened {
    fn newest(&self) -> u64 {
        self.times[self.count - 1]
    }

    /// The block of the image that holds what entry k means.
    fn held(&self, k: usize) -> usize {
        let below = !self.marks & (u32::MAX >> (31 - k));
        32 - below.leading_zeros() as usize
    }
}

fn check(block: &[u8]) -> u16 {
    let mut sum = 1_u32;
    for (k, &byte) in block[2..BLOCK].iter().enumerate() {
        sum += (k as u32 + 1) * u32::from(byte);
    }
    (sum % 65521) as u16
}

fn number(bytes: &[u8]) -> u64 {
    bytes.iter().rev().fold(0, |n, &b| n << 8 | u64::from(b))
}

fn log_time(t: u64) -> bool {
    t == 0 || (16..1 << 44).contains(&t)
}

impl Brick {
    pub fn new((n, m, size): (usize, usize, usize), capacity: usize, brick: usize, wide: bool) -> Brick {
        let tables = Tables::default();
        let mut weights = [[0; 8]; 16];
        if brick >= m {
            for (j, weight) in weights.iter_mut().enumerate().take(m) {
                *weight = tables.doublings(tables.weight(m as u8, brick as u8, j as u8));
            }
        }
        Brick { n: n as u8, m: m as u8, size, capacity, brick: brick as u8, wide, weights }
    }

    fn zero(&self, bytes: &[u8]) -> bool {
        if self.wide {
            bytes.iter().fold(0, |sum, &b| sum | b) == 0
        } else {
            bytes.iter().all(|&b| b == 0)
        }
    }

    pub fn open(&self, image: &[u8]) -> Option<Opened> {
        let mut opened = Opened { count: 0, promise: 0, times: [0; 32], marks: 0 };
        let mut fits = image.len() == BLOCK * (self.capacity + 1);
        for (k, block) in image.chunks_exact(BLOCK).enumerate() {
            if number(&block[..2]) != u64::from(check(block)) {
                return None;
            }
            if k == 0 {
                opened.count = number(&block[10..12]) as usize;
                opened.promise = number(&block[12..20]);
                fits &= block[2..8] == [HEAD, 0, self.n, self.m, self.brick, self.capacity as u8]
                    && number(&block[8..10]) == self.size as u64
                    && (1..=self.capacity).contains(&opened.count)
                    && log_time(opened.promise)
                    && self.zero(&block[20..]);
            } else if k <= opened.count {
                let (time, mark) = (number(&block[4..12]), block[2] == MARK && k > 1);
                let held = if mark { 0 } else { self.size };
                fits &= (block[2] == ENTRY || mark)
                    && block[3] == 0
                    && log_time(time)
                    && (k == 1 || opened.times[k - 2] < time)
                    && number(&block[12..14]) == self.size as u64
                    && self.zero(&block[14..16])
                    && self.zero(&block[16 + held..]);
                opened.times[k - 1] = time;
                opened.marks |= u32::from(mark) << (k - 1);
            } else {
                fits &= self.zero(&block[2..]);
            }
        }
        fits.then_some(opened)
    }

    fn seal(block: &mut [u8]) {
        let c = check(block);
        block[..2].copy_from_slice(&c.to_le_bytes());
    }

    fn write_head(&self, image: &mut [u8], count: usize, promise: u64) {
        let head = &mut image[..BLOCK];
        head.fill(0);
        head[2] = HEAD;
        head[4..8].copy_from_slice(&[self.n, self.m, self.brick, self.capacity as u8]);
        head[8..10].copy_from_slice(&(self.size as u16).to_le_bytes());
        head[10..12].copy_from_slice(&(count as u16).to_le_bytes());
        head[12..20].copy_from_slice(&promise.to_le_bytes());
        Self::seal(head);
    }

    /// An entry at a place, a mark if it has no data.
    fn write_entry(&self, image: &mut [u8], place: usize, time: u64, data: Option<&[u8]>) {
        let entry = &mut image[BLOCK * place..][..BLOCK];
        entry.fill(0);
        entry[2] = if data.is_some() { ENTRY } else { MARK };
        entry[4..12].copy_from_slice(&time.to_le_bytes());
        entry[12..14].copy_from_slice(&(self.size as u16).to_le_bytes());
        if let Some(data) = data {
            entry[16..16 + self.size].copy_from_slice(data);
        }
        Self::seal(entry);
    }

    fn append(&self, image: &mut [u8], opened: &Opened, time: u64, data: Option<&[u8]>) {
        self.write_entry(image, opened.count + 1, time, data);
        self.write_head(image, opened.count + 1, opened.promise);
    }

    /// The bytes that entry k means.
    fn meant<'a>(&self, image: &'a [u8], opened: &Opened, k: usize) -> &'a [u8] {
        &image[BLOCK * opened.held(k) + 16..][..self.size]
    }

    pub fn fresh(&self, image: &mut [u8]) {
        image.fill(0);
        for block in image.chunks_exact_mut(BLOCK) {
            Self::seal(block);
        }
        self.write_entry(image, 1, 0, Some(&vec![0; self.size]));
        self.write_head(image, 1, 0);
    }

    fn against_order(opened: &Opened, time: u64) -> u8 {
        if time <= opened.newest() {
            NEWER
        } else if time < opened.promise {
            PROMISE
        } else {
            NONE
        }
    }

    fn against_append(&self, opened: &Opened, time: u64) -> u8 {
        let said = Self::against_order(opened, time);
        if said == NONE && opened.count == self.capacity {
            FULL
        } else {
            said
        }
    }

    pub fn read(&self, image: &[u8], target: bool, out: &mut [u8]) -> (u8, u64) {
        let opened = self.open(image).unwrap();
        let said = if opened.newest() < opened.promise { PROMISE } else { NONE };
        if said == NONE && target {
            out.copy_from_slice(self.meant(image, &opened, opened.count - 1));
        }
        (said, opened.newest())
    }

    pub fn order(&self, image: &mut [u8], time: u64) -> u8 {
        let opened = self.open(image).unwrap();
        let said = Self::against_order(&opened, time);
        if said == NONE {
            self.write_head(image, opened.count, time);
        }
        said
    }

    /// With whether an entry was found.
    pub fn order_read(&self, image: &mut [u8], time: u64, max: u64, out: &mut [u8]) -> (u8, u64, bool) {
        let opened = self.open(image).unwrap();
        let said = Self::against_order(&opened, time);
        if said != NONE {
            return (said, 0, false);
        }
        self.write_head(image, opened.count, time);
        let Some(k) = (0..opened.count).rev().find(|&k| opened.times[k] < max) else { return (NONE, 0, false) };
        out.copy_from_slice(self.meant(image, &opened, k));
        (NONE, opened.times[k], true)
    }

    /// The first round of a write of block j.
    pub fn order_block(&self, image: &mut [u8], time: u64, j: usize, out: &mut [u8]) -> (u8, u64) {
        let opened = self.open(image).unwrap();
        let said = Self::against_order(&opened, time);
        if said != NONE {
            return (said, 0);
        }
        self.write_head(image, opened.count, time);
        if usize::from(self.brick) == j {
            out.copy_from_slice(self.meant(image, &opened, opened.count - 1));
        }
        (NONE, opened.newest())
    }

    pub fn write(&self, image: &mut [u8], time: u64, data: &[u8]) -> u8 {
        let opened = self.open(image).unwrap();
        let said = self.against_append(&opened, time);
        if said == NONE {
            self.append(image, &opened, time, Some(data));
        }
        said
    }

    /// Block j goes from old to new, over the entry of the old time.
    pub fn modify(&self, image: &mut [u8], time: u64, old_time: u64, j: usize, old: &[u8], new: &[u8]) -> u8 {
        let opened = self.open(image).unwrap();
        let said = if opened.newest() == old_time { self.against_append(&opened, time) } else { NEWER };
        if said != NONE {
            return said;
        }
        if usize::from(self.brick) == j {
            self.append(image, &opened, time, Some(new));
        } else if self.brick < self.m {
            self.append(image, &opened, time, None);
        } else {
            let (mut own, mut change) = ([0; 256], [0; 256]);
            own[..self.size].copy_from_slice(self.meant(image, &opened, opened.count - 1));
            for ((change, old), new) in change.iter_mut().zip(old).zip(new) {
                *change = old ^ new;
            }
            add_products(&self.weights[j], &change[..self.size], &mut own[..self.size]);
            self.append(image, &opened, time, Some(&own[..self.size]));
        }
        NONE
    }

    pub fn trim(&self, image: &mut [u8], time: u64) {
        let opened = self.open(image).unwrap();
        let drop = (0..opened.count - 1).take_while(|&k| opened.times[k] < time).count();
        if drop == 0 {
            return;
        }
        if opened.marks >> drop & 1 == 1 {
            // The lowest entry that stays is a mark.
            self.hold(image, &opened, drop);
        }
        self.remove(image, &opened, 0, drop);
    }

    pub fn drop_entry(&self, image: &mut [u8], time: u64) {
        let opened = self.open(image).unwrap();
        let Some(k) = (0..opened.count).find(|&k| opened.times[k] == time) else { return };
        if opened.count == 1 {
            return;
        }
        if k + 1 < opened.count && opened.marks >> k & 0b11 == 0b10 {
            // A block goes, and a mark stands right above it.
            self.hold(image, &opened, k + 1);
        }
        self.remove(image, &opened, k, 1);
    }

    /// Makes entry k, a mark, the block that it means.
    fn hold(&self, image: &mut [u8], opened: &Opened, k: usize) {
        let from = BLOCK * opened.held(k) + 16;
        image.copy_within(from..from + self.size, BLOCK * (k + 1) + 16);
        image[BLOCK * (k + 1) + 2] = ENTRY;
        Self::seal(&mut image[BLOCK * (k + 1)..][..BLOCK]);
    }

    /// Takes out so many entries from entry k on; the last blocks are unused then.
    fn remove(&self, image: &mut [u8], opened: &Opened, k: usize, count: usize) {
        let (kept, end) = (opened.count - count, BLOCK * (opened.count + 1));
        image.copy_within(BLOCK * (k + count + 1)..end, BLOCK * (k + 1));
        image[BLOCK * (kept + 1)..end].fill(0);
        for block in image[BLOCK * (kept + 1)..end].chunks_exact_mut(BLOCK) {
            block[0] = 1;
        }
        self.write_head(image, kept, opened.promise);
    }
}
