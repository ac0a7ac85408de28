//! A coordinator that works on its own fields in place, as firmware would write it by hand: the yardstick for the proved one's speed.
//! It makes the same checks of record and reply at every event, that the settings given are the record's too; it keeps sets of bricks as
//! bits, and knows only settings in range and good lengths.

use crate::brick::{stores, FULL, NEWER, NONE, PROMISE};
use crate::inplace_tables::Tables;

pub const READ: u8 = 1;
pub const ORDER: u8 = 2;
pub const ORDER_READ: u8 = 3;
pub const ORDER_BLOCK: u8 = 4;
pub const WRITE: u8 = 5;
pub const MODIFY: u8 = 6;
pub const TRIM: u8 = 7;
pub const DROP: u8 = 8;

const READING: u8 = 1;
const WRITING: u8 = 2;
const READING_BLOCK: u8 = 3;
const WRITING_BLOCK: u8 = 4;
/// n, m, the block size and the stripes, as every event gives them.
pub type Given = (usize, usize, usize, usize);

const LAST_COUNT: u64 = (1 << 40) - 1;
const NO_UPPER_END: u64 = 1 << 44;

/// A broadcast; targets as bits. A Write round's blocks stand in `coded`, the old block of a Modify in `blocks` and its new one in
/// `stripe`, both at its number.
#[derive(Clone, Copy)]
pub struct Message {
    pub kind: u8,
    pub stripe: usize,
    pub time: u64,
    pub round: u64,
    pub max: u64,
    pub targets: u16,
    /// The old time of a Modify, and the data block's number of that and of Order-block.
    pub old: u64,
    pub block: usize,
}

#[derive(Clone, Copy, Default)]
pub struct Reply {
    pub kind: u8,
    pub brick: usize,
    pub stripe: usize,
    pub time: u64,
    pub round: u64,
    pub yes: bool,
    pub found: u64,
    pub held: bool,
    /// The comparison that said no.
    pub said: u8,
}

/// What an event leads to; an end has its letter.
pub enum Act {
    Refused(u32),
    Waits,
    Sends(Message),
    /// Drops or early Trims, then a round.
    Clears(Message, Message),
    Written(Message, char),
    Read(Option<Message>, char),
    Aborted(char),
}

#[derive(Clone)]
pub struct Coordinator {
    n: usize,
    m: usize,
    size: usize,
    stripes: usize,
    number: u64,
    last: u64,
    kind: u8,
    phase: u8,
    stripe_number: usize,
    time: u64,
    round: u64,
    max: u64,
    first: usize,
    counted: u16,
    granted: u16,
    held: u16,
    /// Who said no by which comparison.
    newer: u16,
    promised: u16,
    full: u16,
    found: [u64; 16],
    bricks: [u8; 16],
    pub blocks: Vec<u8>,
    pub stripe: Vec<u8>,
    pub coded: Vec<u8>,
    tables: Tables,
}

fn valid(t: u64) -> bool {
    (16..NO_UPPER_END).contains(&t)
}

impl Coordinator {
    pub fn new((n, m, size, stripes): Given, number: u64) -> Coordinator {
        Coordinator {
            n,
            m,
            size,
            stripes,
            number,
            last: 0,
            kind: 0,
            phase: 0,
            stripe_number: 0,
            time: 0,
            round: 0,
            max: 0,
            first: 0,
            counted: 0,
            granted: 0,
            held: 0,
            newer: 0,
            promised: 0,
            full: 0,
            found: [0; 16],
            bricks: [0; 16],
            blocks: vec![0; n * size],
            stripe: vec![0; m * size],
            coded: vec![0; n * size],
            tables: Tables::default(),
        }
    }

    fn quorum(&self) -> u32 {
        (self.n - (self.n - self.m) / 2) as u32
    }

    fn all(&self) -> u16 {
        (0xFFFF_u32 >> (16 - self.n)) as u16
    }

    /// The m bricks counted upward from the first, wrapping at n; that of the block in a read of one.
    fn targets(&self) -> u16 {
        if self.kind == READING_BLOCK {
            return 1 << self.first;
        }
        let row = (1_u32 << self.m) - 1;
        let turned = row << self.first;
        (turned | turned >> self.n) as u16 & self.all()
    }

    /// Whether the record keeps every rule.
    fn sound(&self) -> bool {
        let op = match (self.kind, self.phase) {
            (0, 0) => self.round == 0 && self.max == 0 && self.first == 0 && self.stripe_number == 0,
            (READING | READING_BLOCK, READ) => self.round == 1 && self.max == 0,
            (WRITING, ORDER) => self.round == 1 && self.max == 0 && self.first == 0,
            (WRITING, WRITE) => self.round == 2 && self.max == 0 && self.first == 0,
            (WRITING_BLOCK, ORDER_BLOCK) => self.round == 1 && self.max == 0,
            (WRITING_BLOCK, MODIFY) => self.round == 2 && self.max == 0,
            (READING | READING_BLOCK | WRITING_BLOCK, ORDER_READ) if self.round == 2 => self.max == NO_UPPER_END,
            (READING | READING_BLOCK | WRITING_BLOCK, ORDER_READ) => (3..=1000).contains(&self.round) && valid(self.max),
            (READING | READING_BLOCK | WRITING_BLOCK, WRITE) => (3..=1000).contains(&self.round) && self.max == 0,
            _ => false,
        };
        let timed = if self.kind == 0 { self.time == 0 } else { self.last > 0 && self.time == self.last * 16 + self.number };
        let firsts = if self.kind >= READING_BLOCK { self.m } else { self.n };
        if !op || !timed || self.last > LAST_COUNT || self.first >= firsts || self.stripe_number >= self.stripes {
            return false;
        }
        let named = if self.reads() && self.phase == WRITE { self.m } else { 0 };
        let rising = self.bricks[..named].windows(2).all(|w| w[0] < w[1]) && self.bricks[..named].iter().all(|&b| usize::from(b) < self.n);
        if !rising || self.bricks[named..] != [0; 16][named..] {
            return false;
        }
        let within = self.counted & !self.all() == 0 && self.granted & !self.counted == 0 && self.held & !self.counted == 0;
        let held = match self.phase {
            READ => self.held == self.granted & self.targets(),
            ORDER_READ => self.held & !self.granted == 0,
            ORDER_BLOCK => self.held == self.granted & 1 << self.first,
            0 => self.counted == 0,
            _ => self.held == 0,
        };
        let shown = match self.phase {
            READ => self.counted,
            ORDER_BLOCK => self.granted,
            _ => self.held,
        };
        let times = (0..16).all(|b| self.found[b] == 0 || (shown >> b & 1 == 1 && valid(self.found[b])));
        within && held && self.nos_sound() && times && self.counted.count_ones() < self.quorum()
    }

    /// Whether every counted no has one comparison, which the round allows, and nothing else has one.
    fn nos_sound(&self) -> bool {
        let (nos, all) = (self.counted & !self.granted, self.newer | self.promised | self.full);
        let once = self.newer & self.promised == 0 && (self.newer | self.promised) & self.full == 0;
        let allowed = (self.newer == 0 || self.phase != READ) && (self.full == 0 || stores(self.phase));
        all == nos && once && allowed
    }

    /// Whether it reads, a stripe or a block.
    fn reads(&self) -> bool {
        self.kind == READING || self.kind == READING_BLOCK
    }

    fn refusal(&self, given: Given, stripe: usize, block: usize) -> u32 {
        if self.number > 15 {
            3
        } else if stripe >= given.3 {
            13
        } else if block >= given.1 {
            14
        } else if (self.n, self.m, self.size, self.stripes) == given && self.sound() {
            0
        } else {
            6
        }
    }

    fn begin(&mut self, given: Given, stripe: usize, reading: u64, kind: u8, phase: u8, first: usize) -> Act {
        let refusal = self.refusal(given, stripe, if kind >= READING_BLOCK { first } else { 0 });
        if refusal != 0 {
            return Act::Refused(refusal);
        }
        if reading > LAST_COUNT {
            return Act::Refused(7);
        }
        if self.last == LAST_COUNT {
            return Act::Refused(8);
        }
        if self.kind != 0 {
            return Act::Refused(9);
        }
        self.last = reading.max(self.last + 1);
        self.kind = kind;
        self.time = self.last * 16 + self.number;
        self.round = 0;
        self.first = first;
        self.stripe_number = stripe;
        self.open(phase, 0)
    }

    pub fn start_write(&mut self, given: Given, stripe: usize, reading: u64, data: &[u8]) -> Act {
        let act = self.begin(given, stripe, reading, WRITING, ORDER, 0);
        if let Act::Sends(_) = act {
            self.stripe.copy_from_slice(data);
        }
        act
    }

    pub fn start_read(&mut self, given: Given, stripe: usize, reading: u64, first: usize) -> Act {
        if first >= given.0 {
            return Act::Refused(3);
        }
        self.begin(given, stripe, reading, READING, READ, first)
    }

    pub fn start_write_block(&mut self, given: Given, stripe: usize, reading: u64, block: usize, data: &[u8]) -> Act {
        let act = self.begin(given, stripe, reading, WRITING_BLOCK, ORDER_BLOCK, block);
        if let Act::Sends(_) = act {
            self.stripe[block * self.size..][..self.size].copy_from_slice(data);
        }
        act
    }

    pub fn start_read_block(&mut self, given: Given, stripe: usize, reading: u64, block: usize) -> Act {
        self.begin(given, stripe, reading, READING_BLOCK, READ, block)
    }

    fn forget(&mut self) {
        self.counted = 0;
        self.granted = 0;
        self.held = 0;
        self.newer = 0;
        self.promised = 0;
        self.full = 0;
        self.found = [0; 16];
    }

    fn open(&mut self, phase: u8, max: u64) -> Act {
        if self.round == 1000 {
            return self.abort();
        }
        self.round += 1;
        self.phase = phase;
        self.max = max;
        self.forget();
        let targets = if phase == READ { self.targets() } else { 0 };
        let block = if phase == ORDER_BLOCK || phase == MODIFY { self.first } else { 0 };
        Act::Sends(Message { max, targets, block, ..self.message(phase) })
    }

    /// A message of the operation and its round that has nothing else.
    fn message(&self, kind: u8) -> Message {
        Message { kind, stripe: self.stripe_number, time: self.time, round: self.round, max: 0, targets: 0, old: 0, block: 0 }
    }

    fn end(&mut self) {
        self.kind = 0;
        self.phase = 0;
        self.time = 0;
        self.round = 0;
        self.max = 0;
        self.first = 0;
        self.stripe_number = 0;
        self.bricks = [0; 16];
        self.forget();
    }

    fn reply_refusal(&self, r: &Reply) -> u32 {
        let sense = (READ..=MODIFY).contains(&r.kind)
            && valid(r.time)
            && (1..=1000).contains(&r.round)
            && (r.found == 0 || valid(r.found))
            && match r.said {
                NONE => r.yes,
                NEWER => !r.yes && r.kind != READ,
                PROMISE => !r.yes,
                FULL => !r.yes && stores(r.kind),
                _ => false,
            };
        if !sense {
            return 10;
        }
        let ours = self.kind != 0
            && r.stripe == self.stripe_number
            && r.time == self.time
            && r.round == self.round
            && r.kind == self.phase;
        let bit = 1_u16 << r.brick;
        let fits = match r.kind {
            READ => r.held == (r.yes && self.targets() & bit != 0),
            ORDER_READ => {
                if r.held {
                    r.yes
                } else {
                    r.found == 0
                }
            }
            ORDER_BLOCK if r.yes => r.held == (r.brick == self.first),
            _ => !r.held && r.found == 0,
        };
        if ours && fits && self.counted & bit == 0 {
            0
        } else {
            11
        }
    }

    pub fn take(&mut self, given: Given, r: &Reply, block: &[u8]) -> Act {
        if r.held && block.len() != given.2 {
            return Act::Refused(2);
        }
        if r.brick >= given.0 {
            return Act::Refused(3);
        }
        let mut refusal = self.refusal(given, r.stripe, 0);
        if refusal == 0 {
            refusal = self.reply_refusal(r);
        }
        if refusal != 0 {
            return Act::Refused(refusal);
        }
        let bit = 1 << r.brick;
        self.counted |= bit;
        self.found[r.brick] = r.found;
        match r.said {
            NEWER => self.newer |= bit,
            PROMISE => self.promised |= bit,
            FULL => self.full |= bit,
            _ => self.granted |= bit,
        }
        if r.held {
            self.held |= bit;
            self.blocks[r.brick * self.size..][..self.size].copy_from_slice(block);
        }
        if self.counted.count_ones() < self.quorum() {
            return Act::Waits;
        }
        self.decide()
    }

    fn decide(&mut self) -> Act {
        let all_yes = self.granted == self.counted;
        match self.phase {
            READ => self.decide_read(all_yes),
            _ if !all_yes => self.abort(),
            ORDER => self.store(),
            ORDER_READ => self.decide_recovery(),
            ORDER_BLOCK => self.decide_order_block(),
            _ => {
                let (trim, read) = (self.message(TRIM), self.reads());
                let letter = if self.round == 3 { 'H' } else { 'L' };
                self.end();
                if read {
                    Act::Read(Some(trim), letter)
                } else {
                    Act::Written(trim, 'S')
                }
            }
        }
    }

    /// The end of an operation that is aborted, with the letter of its open round.
    fn abort(&mut self) -> Act {
        let others = self.newer | self.promised;
        let letter = if others | self.full == 0 {
            'X'
        } else if !stores(self.phase) {
            'O'
        } else if others == 0 {
            'G'
        } else {
            'W'
        };
        self.end();
        Act::Aborted(letter)
    }

    /// The time that all counted replies have found, if it is one.
    fn common(&self) -> Option<u64> {
        let newest = self.found[self.counted.trailing_zeros() as usize];
        (0..16).all(|b| self.counted >> b & 1 == 0 || self.found[b] == newest).then_some(newest)
    }

    fn decide_order_block(&mut self) -> Act {
        match self.common() {
            Some(old) if self.held >> self.first & 1 == 1 => match self.open(MODIFY, 0) {
                Act::Sends(message) => Act::Sends(Message { old, ..message }),
                act => act,
            },
            _ => self.open(ORDER_READ, NO_UPPER_END),
        }
    }

    fn decide_read(&mut self, all_yes: bool) -> Act {
        if !all_yes || self.common().is_none() || self.targets() & !self.counted != 0 {
            return self.open(ORDER_READ, NO_UPPER_END);
        }
        if self.kind == READING_BLOCK {
            let at = self.first * self.size;
            self.stripe[at..at + self.size].copy_from_slice(&self.blocks[at..at + self.size]);
            self.end();
            return Act::Read(None, 'F');
        }
        let mut bricks = [0; 16];
        for (i, brick) in bricks[..self.m].iter_mut().enumerate() {
            let b = self.first + i;
            *brick = if b < self.n { b } else { b - self.n } as u8;
        }
        self.decode(&bricks[..self.m]);
        self.end();
        Act::Read(None, 'F')
    }

    fn decide_recovery(&mut self) -> Act {
        let holds = |b: &usize| self.held >> b & 1 == 1;
        let highest = (0..self.n).filter(holds).map(|b| self.found[b]).max().unwrap_or(0);
        let mut bricks = [0; 16];
        let mut count = 0;
        for b in (0..self.n).filter(holds).filter(|&b| self.found[b] == highest) {
            bricks[count] = b as u8;
            count += 1;
        }
        if count >= self.m {
            if !self.recover(&bricks[..count]) {
                return self.abort();
            }
            if highest == 0 || count < self.counted.count_ones() as usize {
                return self.store();
            }
            let trim = Message { time: highest, ..self.message(TRIM) };
            return Self::after(trim, self.store());
        }
        if highest == 0 {
            return self.abort();
        }
        let drop = Message { time: highest, ..self.message(DROP) };
        Self::after(drop, self.open(ORDER_READ, highest))
    }

    /// A round with a message ahead of it, which isn't sent if no round is.
    fn after(ahead: Message, act: Act) -> Act {
        match act {
            Act::Sends(round) => Act::Clears(ahead, round),
            act => act,
        }
    }

    /// The stripe that was found on these bricks, with the block of a block write in its place; a block write names no bricks. Says whether
    /// their blocks agree; if not, nothing is changed.
    fn recover(&mut self, found: &[u8]) -> bool {
        let own = self.first * self.size..(self.first + 1) * self.size;
        let mut kept = [0; 256];
        if self.kind == WRITING_BLOCK {
            kept[..self.size].copy_from_slice(&self.stripe[own.clone()]);
        }
        if !self.decode(found) {
            return false;
        }
        if self.kind == WRITING_BLOCK {
            self.stripe[own].copy_from_slice(&kept[..self.size]);
        } else {
            self.bricks[..self.m].copy_from_slice(&found[..self.m]);
        }
        true
    }

    /// Decodes the blocks of m or more bricks: from the first m, if the others are on the same polynomials.
    fn decode(&mut self, bricks: &[u8]) -> bool {
        let (size, blocks) = (self.size, &self.blocks);
        let block_of = |b: u8| &blocks[usize::from(b) * size..][..size];
        let (points, further) = bricks.split_at(self.m);
        let through = self.tables.through(points);
        let mut made = [0; 256];
        for &b in further {
            through.block_at(b, |k| block_of(points[k]), &mut made[..size]);
            if made[..size] != *block_of(b) {
                return false;
            }
        }
        through.blocks(size, |k| block_of(points[k]), &mut self.stripe);
        true
    }

    fn store(&mut self) -> Act {
        let (size, stripe) = (self.size, &self.stripe);
        let points = [0, 1, 2, 3, 4, 5, 6, 7, 8, 9, 10, 11, 12, 13, 14, 15];
        self.tables.through(&points[..self.m]).blocks(size, |k| &stripe[k * size..][..size], &mut self.coded);
        self.open(WRITE, 0)
    }
}
