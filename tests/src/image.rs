//! The saved brick: capacity + 1 blocks of 512 bytes.

use crate::settings::{log_time, Refusal, Settings};

/// Bytes of one block of an image.
pub const BLOCK: usize = 512;

const HEAD: u8 = 1;
const ENTRY: u8 = 2;
const MARK: u8 = 3;

/// One entry of a log: a block, or a mark, which has none and means the block of
/// the entry below it.
#[derive(Clone, Debug, PartialEq, Eq)]
pub struct Entry {
    pub time: u64,
    pub block: Option<Vec<u8>>,
}

/// What an image holds: the promise, and the log in rising time.
#[derive(Clone, Debug, PartialEq, Eq)]
pub struct State {
    pub promise: u64,
    pub log: Vec<Entry>,
}

impl State {
    /// The state of a fresh brick.
    pub fn fresh(settings: Settings) -> State {
        let block = vec![0; settings.shape.size as usize];
        State {
            promise: 0,
            log: vec![Entry {
                time: 0,
                block: Some(block),
            }],
        }
    }

    /// The time of the last entry.
    pub fn newest(&self) -> u64 {
        self.log.last().map_or(0, |entry| entry.time)
    }

    /// The number of entries.
    pub fn count(&self) -> u64 {
        self.log.len() as u64
    }

    /// The entry at a place, or refusal 3.
    pub fn entry(&self, place: u64) -> Result<&Entry, Refusal> {
        if place < self.count() {
            Ok(&self.log[place as usize])
        } else {
            Err(3)
        }
    }

    /// The block that the entry at a place means: its own, or that of the
    /// nearest entry below which is no mark.
    pub fn meant(&self, place: usize) -> &[u8] {
        let below = self.log[..=place].iter().rev();
        let mut blocks = below.filter_map(|entry| entry.block.as_deref());
        blocks.next().expect("the lowest entry is no mark")
    }

    /// Whether some rule on the count, the promise, the times or the lowest entry
    /// is broken.
    fn breaks_a_rule(&self, settings: Settings) -> bool {
        let counted = (1..=settings.capacity).contains(&self.count());
        let timed = log_time(self.promise) && self.log.iter().all(|entry| log_time(entry.time));
        let rising = self.log.windows(2).all(|pair| pair[0].time < pair[1].time);
        let founded = self.log.first().is_some_and(|entry| entry.block.is_some());
        !(counted && timed && rising && founded)
    }
}

/// Bytes of an image; the settings are in range.
pub fn length(settings: Settings) -> usize {
    (settings.capacity as usize + 1) * BLOCK
}

/// The check of one block: of its bytes from 2 on.
pub fn check(block: &[u8]) -> u16 {
    let sum: u64 = (2..BLOCK)
        .map(|p| (p as u64 - 1) * u64::from(block[p]))
        .sum();
    ((1 + sum) % 65521) as u16
}

/// Opens an image. Refused: 1 settings, 2 length, 3 brick, 5 a check, 6 a rule.
pub fn parse(settings: Settings, brick: u64, image: &[u8]) -> Result<State, Refusal> {
    if settings.refusal().is_some() {
        return Err(1);
    }
    if image.len() != length(settings) {
        return Err(2);
    }
    if brick >= settings.shape.n {
        return Err(3);
    }
    if !image.chunks(BLOCK).all(check_holds) {
        return Err(5);
    }
    let count = u64::from(number16(image, 10));
    if !(1..=settings.capacity).contains(&count) {
        return Err(6);
    }
    let state = state_of(settings, image, count as usize);
    // A form that the state doesn't write back has a wrong kind, a wrong
    // setting or a byte that should be zero.
    if state.breaks_a_rule(settings) || bytes_of(settings, brick, &state) != image {
        return Err(6);
    }
    Ok(state)
}

/// The image of a state. Refused: 1 settings, 2 the length of a block, 3 brick,
/// 6 a rule.
pub fn write(settings: Settings, brick: u64, state: &State) -> Result<Vec<u8>, Refusal> {
    if settings.refusal().is_some() {
        return Err(1);
    }
    let size = settings.shape.size as usize;
    let mut blocks = state.log.iter().filter_map(|entry| entry.block.as_ref());
    if blocks.any(|block| block.len() != size) {
        return Err(2);
    }
    if brick >= settings.shape.n {
        return Err(3);
    }
    if state.breaks_a_rule(settings) {
        return Err(6);
    }
    Ok(bytes_of(settings, brick, state))
}

/// The image of a fresh brick. Refused: 1 settings, 3 brick.
pub fn fresh(settings: Settings, brick: u64) -> Result<Vec<u8>, Refusal> {
    if settings.refusal().is_some() {
        return Err(1);
    }
    write(settings, brick, &State::fresh(settings))
}

/// The images of a fresh brick of a volume, one a stripe, one after another.
/// Refused: 1 settings, 3 brick.
pub fn fresh_row(settings: Settings, brick: u64) -> Result<Vec<u8>, Refusal> {
    fresh(settings, brick).map(|image| image.repeat(settings.stripes as usize))
}

/// The times of an image's marks.
pub fn marks(image: &[u8]) -> Vec<u64> {
    let marks = image.chunks(BLOCK).filter(|block| block[2] == MARK);
    marks.map(|block| number64(block, 4)).collect()
}

/// The times of an image's entries, marks too.
pub fn times(image: &[u8]) -> Vec<u64> {
    let entries = image
        .chunks(BLOCK)
        .filter(|block| [ENTRY, MARK].contains(&block[2]));
    entries.map(|block| number64(block, 4)).collect()
}

/// The time of an image's lowest entry.
pub fn lowest(image: &[u8]) -> u64 {
    number64(image, BLOCK + 4)
}

fn check_holds(block: &[u8]) -> bool {
    number16(block, 0) == check(block)
}

fn number16(bytes: &[u8], at: usize) -> u16 {
    u16::from_le_bytes([bytes[at], bytes[at + 1]])
}

fn number64(bytes: &[u8], at: usize) -> u64 {
    (0..8)
        .rev()
        .fold(0, |number, i| number << 8 | u64::from(bytes[at + i]))
}

/// The promise and the first `count` entries, not checked.
fn state_of(settings: Settings, image: &[u8], count: usize) -> State {
    let size = settings.shape.size as usize;
    let entry_of = |block: &[u8]| Entry {
        time: number64(block, 4),
        block: (block[2] != MARK).then(|| block[16..16 + size].to_vec()),
    };
    State {
        promise: number64(image, 12),
        log: image
            .chunks(BLOCK)
            .skip(1)
            .take(count)
            .map(entry_of)
            .collect(),
    }
}

/// The image of a state that breaks no rule.
fn bytes_of(settings: Settings, brick: u64, state: &State) -> Vec<u8> {
    let mut image = head_of(settings, brick, state);
    for entry in &state.log {
        image.extend(entry_block_of(settings, entry));
    }
    while image.len() < length(settings) {
        image.extend(sealed([0; BLOCK]));
    }
    image
}

fn head_of(settings: Settings, brick: u64, state: &State) -> Vec<u8> {
    let mut block = [0; BLOCK];
    block[2] = HEAD;
    block[4] = settings.shape.n as u8;
    block[5] = settings.shape.m as u8;
    block[6] = brick as u8;
    block[7] = settings.capacity as u8;
    block[8..10].copy_from_slice(&(settings.shape.size as u16).to_le_bytes());
    block[10..12].copy_from_slice(&(state.count() as u16).to_le_bytes());
    block[12..20].copy_from_slice(&state.promise.to_le_bytes());
    sealed(block)
}

fn entry_block_of(settings: Settings, entry: &Entry) -> Vec<u8> {
    let mut block = [0; BLOCK];
    block[2] = MARK;
    block[4..12].copy_from_slice(&entry.time.to_le_bytes());
    block[12..14].copy_from_slice(&(settings.shape.size as u16).to_le_bytes());
    if let Some(held) = &entry.block {
        block[2] = ENTRY;
        block[16..16 + held.len()].copy_from_slice(held);
    }
    sealed(block)
}

/// The block with its check in front.
fn sealed(mut block: [u8; BLOCK]) -> Vec<u8> {
    let check = check(&block);
    block[..2].copy_from_slice(&check.to_le_bytes());
    block.to_vec()
}
