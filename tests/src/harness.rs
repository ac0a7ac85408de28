//! Random runs of a volume, for any implementation of the routines: operations on some of its stripes among faults, then reads in a row.

use crate::brick::{self, clears, stores, Message, Reply, DROP, FULL, MODIFY, ORDER_BLOCK, ORDER_READ, READ, TRIM, WRITE};
use crate::coordinator::{self, Ended, Kind, Outcome, Record, Step};
use crate::fixtures::{enough_blocks, givers};
use crate::order::{brute_order, by_stripe, has_order, End, Operation};
use crate::proved::{self, answer, record};
use crate::rng::Rng;
use crate::settings::{self, coordinator_of, count_of, Settings, Shape, Volume};
use crate::tally::Tally;
use crate::image;
use std::collections::{HashMap, HashSet};
use std::ops::Range;

/// The routines of bricks and coordinators, refused by number.
pub trait Routines {
    type Coordinator;
    /// The stripe and data block of a client block.
    fn place(settings: Settings, client: u64) -> Result<(u64, u64), u32>;
    /// The row of a fresh brick's images, one a stripe.
    fn images(settings: Settings, brick: u64) -> Vec<u8>;
    fn receive(settings: Settings, brick: u64, images: &mut [u8], message: &Message) -> Result<Option<Reply>, u32>;
    fn coordinator(settings: Settings, number: u64) -> Self::Coordinator;
    /// The time of the running operation.
    fn running(c: &Self::Coordinator) -> Option<u64>;
    fn write(settings: Settings, c: &mut Self::Coordinator, stripe: u64, reading: u64, data: &[u8]) -> Result<Step, u32>;
    fn read(settings: Settings, c: &mut Self::Coordinator, stripe: u64, reading: u64, first: u64) -> Result<Step, u32>;
    fn write_block(settings: Settings, c: &mut Self::Coordinator, at: BlockAt, data: &[u8]) -> Result<Step, u32>;
    fn read_block(settings: Settings, c: &mut Self::Coordinator, at: BlockAt) -> Result<Step, u32>;
    fn reply(settings: Settings, c: &mut Self::Coordinator, reply: &Reply) -> Result<Step, u32>;
    fn crash(settings: Settings, c: &mut Self::Coordinator) -> Result<Step, u32>;
    /// Other bytes in the buffers beside the record, as a crash may leave them; no where there are none.
    fn overwrite(c: &mut Self::Coordinator, rng: &mut Rng) -> bool;
}

/// Where and when an operation on one block starts: its stripe, its number there, and the clock's reading.
#[derive(Clone, Copy)]
pub struct BlockAt {
    pub stripe: u64,
    pub block: u64,
    pub reading: u64,
}

/// The independent implementation.
pub struct Independent;

impl Routines for Independent {
    type Coordinator = Record;

    fn place(settings: Settings, client: u64) -> Result<(u64, u64), u32> {
        settings::place(settings, client).map_err(u32::from)
    }

    fn images(settings: Settings, brick: u64) -> Vec<u8> {
        image::fresh_row(settings, brick).expect("settings in range")
    }

    fn receive(settings: Settings, brick: u64, images: &mut [u8], message: &Message) -> Result<Option<Reply>, u32> {
        brick::take_in_row(settings, brick, images, message).map_err(u32::from)
    }

    fn coordinator(settings: Settings, number: u64) -> Record {
        Record::fresh(settings.volume(), number)
    }

    fn running(c: &Record) -> Option<u64> {
        c.running.as_ref().map(|running| running.time)
    }

    fn write(settings: Settings, c: &mut Record, stripe: u64, reading: u64, data: &[u8]) -> Result<Step, u32> {
        coordinator::start_write(settings.volume(), c.number, c, stripe, reading, data).map_err(u32::from)
    }

    fn read(settings: Settings, c: &mut Record, stripe: u64, reading: u64, first: u64) -> Result<Step, u32> {
        coordinator::start_read(settings.volume(), c.number, c, stripe, reading, first).map_err(u32::from)
    }

    fn write_block(settings: Settings, c: &mut Record, at: BlockAt, data: &[u8]) -> Result<Step, u32> {
        let BlockAt { stripe, block, reading } = at;
        coordinator::start_write_block(settings.volume(), c.number, c, stripe, reading, block, data).map_err(u32::from)
    }

    fn read_block(settings: Settings, c: &mut Record, at: BlockAt) -> Result<Step, u32> {
        let BlockAt { stripe, block, reading } = at;
        coordinator::start_read_block(settings.volume(), c.number, c, stripe, reading, block).map_err(u32::from)
    }

    fn reply(settings: Settings, c: &mut Record, reply: &Reply) -> Result<Step, u32> {
        coordinator::take_reply(settings.volume(), c.number, c, reply).map_err(u32::from)
    }

    fn crash(settings: Settings, c: &mut Record) -> Result<Step, u32> {
        coordinator::crash(settings.volume(), c.number, c).map_err(u32::from)
    }

    fn overwrite(_: &mut Record, _: &mut Rng) -> bool {
        false
    }
}

/// The proved routines.
pub struct Proved;

impl Proved {
    pub fn five(settings: Settings) -> proved::Five {
        let (n, m, size, stripes) = Proved::four(settings.volume());
        (n, m, size, settings.capacity as usize, stripes)
    }

    pub fn four(volume: Volume) -> proved::Four {
        let shape = volume.shape;
        (shape.n as usize, shape.m as usize, shape.size as usize, volume.stripes as usize)
    }

    /// What the lent answer says, where it is none of a refusal.
    fn step(settings: Settings, c: &proved::Coordinator, number: u32) -> Result<Step, u32> {
        if number != 0 {
            return Err(number);
        }
        let (sent, shown) = (&c.lent.sent, &c.lent.shown);
        let step = Step { sent: Proved::messages(settings, c), ended: None };
        let kind = kind_of(shown[answer::SEEN_KIND]);
        let outcome = match shown[answer::SEEN] {
            proved::WROTE => Some(Outcome::Ok),
            proved::GAVE => {
                // What ends without a Trim took one round, and a block read in one round names its own brick.
                let of_block = kind == Kind::ReadBlock;
                let named = if of_block && step.sent.is_empty() { 1 } else { settings.shape.m as usize };
                let block = || settings.shape.block(&c.stripe, sent[answer::SEEN_BLOCK] as usize).to_vec();
                let data = if of_block { block() } else { c.stripe.clone() };
                Some(Outcome::Gave { data, bricks: c.lent.shown_row(answer::BRICKS)[..named].to_vec() })
            }
            proved::ABORTED => Some(Outcome::Abort),
            proved::CUT => Some(Outcome::Cut),
            _ => None,
        };
        let ended = outcome.map(|outcome| Ended {
            coordinator: c.lent.numbers[record::COORDINATOR],
            kind,
            stripe: sent[answer::SEEN_STRIPE],
            block: sent[answer::SEEN_BLOCK],
            time: sent[answer::SEEN_TIME],
            outcome,
            letter: char::from(shown[answer::LETTER]),
        });
        Ok(Step { ended, ..step })
    }

    /// The messages of a lent answer.
    fn messages(settings: Settings, c: &proved::Coordinator) -> Vec<Message> {
        c.lent.sent().iter().flat_map(|&at| Proved::broadcast(settings, c, at)).collect()
    }

    /// Those of a broadcast, with the blocks that stand in the lent buffers.
    fn broadcast(settings: Settings, c: &proved::Coordinator, at: answer::Message) -> Vec<Message> {
        let (sent, shape) = (&c.lent.sent, settings.shape);
        let kind = c.lent.shown[at.kind];
        let mut message = Message {
            stripe: sent[at.stripe],
            max: sent[at.max],
            targets: bricks_of(c.lent.shown_row(at.targets)),
            old_time: sent[at.old],
            number: sent[at.block],
            ..Message::plain(kind, sent[at.time], sent[at.round])
        };
        if kind == MODIFY {
            let j = message.number as usize;
            message.old_block = shape.block(&c.blocks, j).to_vec();
            message.block = shape.block(&c.stripe, j).to_vec();
        }
        let mut messages = vec![message; shape.n as usize];
        if kind == WRITE {
            for (b, message) in messages.iter_mut().enumerate() {
                message.block = shape.block(&c.coded, b).to_vec();
            }
        }
        messages
    }
}

/// The kind of an operation by its number.
fn kind_of(number: u8) -> Kind {
    match number {
        proved::READING => Kind::Read,
        proved::READING_BLOCK => Kind::ReadBlock,
        proved::WRITING_BLOCK => Kind::WriteBlock,
        _ => Kind::Write,
    }
}

/// The bricks of a row of flags.
fn bricks_of(flags: [u8; 16]) -> Vec<u8> {
    (0..16).filter(|&b| flags[usize::from(b)] == 1).collect()
}

impl Routines for Proved {
    type Coordinator = proved::Coordinator;

    fn place(settings: Settings, client: u64) -> Result<(u64, u64), u32> {
        let mut place = [0; 2];
        match proved::place(Proved::five(settings), client as usize, &mut place) {
            0 => Ok((place[0] as u64, place[1] as u64)),
            number => Err(number),
        }
    }

    fn images(settings: Settings, brick: u64) -> Vec<u8> {
        let mut images = vec![0; image::length(settings) * settings.stripes as usize];
        assert_eq!(proved::fresh_row(Proved::five(settings), brick as usize, &mut images), 0);
        images
    }

    fn receive(settings: Settings, brick: u64, images: &mut [u8], message: &Message) -> Result<Option<Reply>, u32> {
        let size = settings.shape.size as usize;
        let (mut out, mut r) = (vec![0; size], [0; 9]);
        let flags = proved::flags(&message.targets);
        let asked = proved::asked(u64::from(message.kind), message.time, message.round, message.max, message.stripe, flags);
        let asked = proved::of_block(asked, message.old_time, message.number);
        let spare = vec![0; size];
        let block = if message.holds_a_block() { &message.block } else { &spare };
        let old = if message.kind == MODIFY { &message.old_block } else { &spare };
        match proved::receive_in_row(Proved::five(settings), brick as usize, images, &asked, (block, old), &mut out, &mut r) {
            0 => Ok(Some(Reply {
                kind: r[0] as u8,
                brick: r[1],
                stripe: r[7],
                time: r[2],
                round: r[3],
                yes: r[4] == 1,
                found: r[5],
                block: (r[6] == 1).then_some(out),
                comparison: r[8] as u8,
            })),
            proved::SILENCE => Ok(None),
            number => Err(number),
        }
    }

    fn coordinator(settings: Settings, number: u64) -> proved::Coordinator {
        proved::Coordinator::fresh(Proved::four(settings.volume()), number)
    }

    fn running(c: &proved::Coordinator) -> Option<u64> {
        c.lent.running().then_some(c.lent.numbers[record::TIME])
    }

    fn write(settings: Settings, c: &mut proved::Coordinator, stripe: u64, reading: u64, data: &[u8]) -> Result<Step, u32> {
        let four = Proved::four(settings.volume());
        let number = proved::start_write(four, &mut c.lent, stripe as usize, reading, data, &mut c.stripe);
        Proved::step(settings, c, number)
    }

    fn read(settings: Settings, c: &mut proved::Coordinator, stripe: u64, reading: u64, first: u64) -> Result<Step, u32> {
        let four = Proved::four(settings.volume());
        let number = proved::start_read(four, &mut c.lent, stripe as usize, reading, first as usize);
        Proved::step(settings, c, number)
    }

    fn write_block(settings: Settings, c: &mut proved::Coordinator, at: BlockAt, data: &[u8]) -> Result<Step, u32> {
        let BlockAt { stripe, block, reading } = at;
        let four = Proved::four(settings.volume());
        let number = proved::start_write_block(four, &mut c.lent, stripe as usize, reading, block as usize, data, &mut c.stripe);
        Proved::step(settings, c, number)
    }

    fn read_block(settings: Settings, c: &mut proved::Coordinator, at: BlockAt) -> Result<Step, u32> {
        let BlockAt { stripe, block, reading } = at;
        let four = Proved::four(settings.volume());
        let number = proved::start_read_block(four, &mut c.lent, stripe as usize, reading, block as usize);
        Proved::step(settings, c, number)
    }

    fn reply(settings: Settings, c: &mut proved::Coordinator, reply: &Reply) -> Result<Step, u32> {
        let &Reply { kind, brick, stripe, time, round, yes, found, ref block, comparison } = reply;
        let fields = (kind, brick as usize, stripe as usize, time, round, yes, found, block.is_some(), comparison);
        let block = block.as_deref().unwrap_or(&[]);
        let proved::Coordinator { lent, blocks, stripe, coded } = c;
        let number = proved::take_reply(Proved::four(settings.volume()), lent, fields, block, blocks, stripe, coded);
        Proved::step(settings, c, number)
    }

    fn crash(settings: Settings, c: &mut proved::Coordinator) -> Result<Step, u32> {
        let number = proved::crash(Proved::four(settings.volume()), &mut c.lent);
        Proved::step(settings, c, number)
    }

    fn overwrite(c: &mut proved::Coordinator, rng: &mut Rng) -> bool {
        c.overwrite(rng);
        true
    }
}

/// What was sent: to a brick, or back.
#[derive(Clone, Debug, PartialEq)]
pub enum Sent {
    To(usize, Message),
    Back(Reply),
}

impl Sent {
    fn time(&self) -> u64 {
        match self {
            Sent::To(_, message) => message.time,
            Sent::Back(reply) => reply.time,
        }
    }
}

/// What goes wrong in a run: each is "once in so many", 0 for never.
#[derive(Clone, Debug)]
pub struct Faults {
    pub lost: u64,
    pub again: u64,
    pub crash: u64,
    pub down: u64,
    /// A coordinator that has sent a Write or Modify round crashes after a few of its messages.
    pub short: u64,
    /// A Trim of a finished store is lost, beside what is lost of all messages.
    pub trims: u64,
    /// The same of a Drop or an early Trim.
    pub drops: u64,
    /// A Drop or an early Trim is held back; it arrives some events later, now and then more than once.
    pub late: u64,
    /// The Drops or early Trims of an event arrive at once, ahead of all that is under way; a store that a Drop undid then comes again.
    pub first: u64,
    /// An operation is of one block.
    pub blocks: u64,
    /// A crash takes the bytes of the coordinator's lent buffers: they hold others then.
    pub buffers: u64,
    pub rising: bool,
    /// How many operations run beside each other at most.
    pub beside: usize,
    /// Coordinators that start operations.
    pub coordinators: u64,
    /// A break of the rules, to see the search fail.
    pub broken: Break,
}

impl Faults {
    pub fn none() -> Faults {
        Faults {
            lost: 0,
            again: 0,
            crash: 0,
            down: 0,
            short: 0,
            trims: 0,
            drops: 0,
            late: 0,
            first: 0,
            blocks: 0,
            buffers: 0,
            rising: true,
            beside: 1,
            coordinators: 16,
            broken: Break::Nothing,
        }
    }

    fn some(rng: &mut Rng) -> Faults {
        let pick = |rng: &mut Rng, list: &[u64]| list[rng.below(list.len() as u64) as usize];
        Faults {
            lost: pick(rng, &[0, 0, 40, 15, 6]),
            again: pick(rng, &[0, 20, 6, 3]),
            crash: pick(rng, &[0, 0, 300, 100]),
            down: pick(rng, &[0, 0, 60, 20]),
            short: pick(rng, &[0, 4, 2, 1]),
            trims: pick(rng, &[0, 0, 2, 1]),
            drops: pick(rng, &[0, 0, 3, 1]),
            late: pick(rng, &[0, 0, 3, 1]),
            first: pick(rng, &[0, 0, 3, 1]),
            blocks: pick(rng, &[0, 2, 2, 1]),
            buffers: pick(rng, &[0, 2, 1]),
            rising: !rng.once_in(4),
            beside: pick(rng, &[1, 1, 1, 2, 3, 16]) as usize,
            coordinators: pick(rng, &[1, 2, 3, 16, 16]),
            broken: Break::Nothing,
        }
    }
}

#[derive(Clone, Copy, Debug, PartialEq)]
pub enum Break {
    Nothing,
    /// A brick that comes up is fresh.
    BricksForget,
    /// A crash takes the clock's count.
    ClocksForget,
    /// A brick says yes to a Write or Modify and stores nothing, once in 3.
    Hollow,
    /// What a read recovers isn't stored: its Writes do nothing.
    NoWriteBack,
    /// A brick works on the image of stripe 0, whatever a message's stripe.
    OneImage,
    /// A coordinator has a clock for each stripe.
    ClockEach,
    /// The same, and it counts a reply whatever its stripe.
    AnyStripe,
    /// An Order-and-read finds the highest entry that has a block of its own, as document 001 has it.
    BlocksOnly,
    /// A Modify is taken whatever the newest time.
    AnyOldTime,
    /// A Modify leaves the bytes of a parity brick as they were.
    ParityStays,
    /// An operation's letter is the one that stands after its own in the list.
    NextLetter,
    /// A Drop takes the newest entry, whatever its time.
    DropsNewest,
    /// A Drop takes the promise back to the newest time.
    DropsPromise,
    /// An early Trim is taken as a Drop.
    DropsChosen,
}

fn once(rng: &mut Rng, calls: u64) -> bool {
    calls > 0 && rng.once_in(calls)
}

/// What a start asks for.
pub enum Start {
    Write(Vec<u8>),
    Read(u64),
    WriteBlock(u64, Vec<u8>),
    ReadBlock(u64),
}

impl Start {
    /// The number of the block, for an operation on one.
    fn block(&self) -> Option<usize> {
        match self {
            Start::WriteBlock(block, _) | Start::ReadBlock(block) => Some(*block as usize),
            Start::Write(_) | Start::Read(_) => None,
        }
    }

    /// The bytes of a write.
    fn bytes(self) -> Option<Vec<u8>> {
        match self {
            Start::Write(bytes) | Start::WriteBlock(_, bytes) => Some(bytes),
            Start::Read(_) | Start::ReadBlock(_) => None,
        }
    }
}

/// What a run notes of an operation beside its history.
#[derive(Clone, Debug, PartialEq)]
pub struct Noted {
    pub coordinator: usize,
    pub time: u64,
    /// The last round that was sent, and how many bricks said yes to its Write or Modify.
    pub round: u64,
    pub stored: usize,
    /// Whether a Modify went out.
    pub modified: bool,
    /// The bricks that gave the highest time in the last round of recovery, in rising order.
    pub givers: Vec<u8>,
    /// The letter of its end.
    pub letter: Option<char>,
}

/// Every letter.
pub const LETTERS: &str = "FHLSOGWXC";

/// Whether a letter fits how an operation ended: with this outcome, after so many rounds, with these replies counted in the last.
pub fn letter_fits(letter: char, outcome: &Outcome, rounds: u64, counted: &[Reply]) -> bool {
    let (gave, aborted) = (matches!(outcome, Outcome::Gave { .. }), *outcome == Outcome::Abort);
    let storing = counted.iter().any(|reply| stores(reply.kind));
    let mut nos = counted.iter().filter(|reply| !reply.yes);
    match letter {
        'F' => gave && rounds == 1,
        'H' => gave && rounds == 3,
        'L' => gave && rounds > 3,
        'S' => *outcome == Outcome::Ok,
        'O' => aborted && !storing && nos.next().is_some(),
        'G' => aborted && storing && nos.clone().next().is_some() && nos.all(|reply| reply.comparison == FULL),
        'W' => aborted && storing && nos.any(|reply| reply.comparison != FULL),
        'X' => aborted && nos.next().is_none(),
        'C' => *outcome == Outcome::Cut,
        _ => false,
    }
}

/// A run from a fresh set.
pub struct World<R: Routines> {
    pub settings: Settings,
    /// The stripes that operations are started on: all, or a few of many.
    stripes: Vec<u64>,
    /// The row of each brick's images, and as it was before the last event.
    pub images: Vec<Vec<u8>>,
    before: Vec<Vec<u8>>,
    /// Events that changed the image of another stripe than their own.
    pub strayed: usize,
    up: Vec<bool>,
    coordinators: Vec<R::Coordinator>,
    pub sent: Vec<Sent>,
    /// Places of what was sent and neither arrived nor was lost so far.
    pub fresh: Vec<usize>,
    pub operations: Vec<Operation>,
    /// By the same places.
    pub noted: Vec<Noted>,
    event: usize,
    clock: u64,
    /// What stood or was written at each place of a stripe.
    used: HashSet<(usize, Vec<u8>)>,
    /// What marks, Drops and early Trims did.
    did: Tally,
    /// The Drops and early Trims: places of what was sent, each with the place of its operation.
    ahead: HashMap<usize, usize>,
    /// Places of Drops and early Trims that are held back.
    late: Vec<usize>,
    /// Places of Drops that reached their brick.
    carried: HashSet<usize>,
    /// Times that were dropped: brick, stripe and time.
    dropped: HashSet<(usize, u64, u64)>,
    /// Crashes that took the bytes of the lent buffers.
    overwritten: usize,
    /// The replies that each coordinator counted in its open round.
    counted: Vec<Vec<Reply>>,
    /// Recoveries that were aborted though all said yes and m or more gave a block of the highest time: these disagree.
    pub disagreed: usize,
    /// Ends whose letter doesn't fit them.
    pub misled: usize,
    pub faults: Faults,
}

impl<R: Routines> World<R> {
    pub fn new(settings: Settings, stripes: Vec<u64>, faults: Faults) -> World<R> {
        let n = settings.shape.n;
        let images: Vec<Vec<u8>> = (0..n).map(|b| R::images(settings, b)).collect();
        World {
            settings,
            stripes,
            before: images.clone(),
            images,
            strayed: 0,
            up: vec![true; n as usize],
            coordinators: (0..16).map(|number| R::coordinator(settings, number)).collect(),
            sent: Vec::new(),
            fresh: Vec::new(),
            operations: Vec::new(),
            noted: Vec::new(),
            event: 0,
            clock: 0,
            used: (0..settings.shape.m as usize).map(|j| (j, vec![0; settings.shape.size as usize])).collect(),
            did: Tally::default(),
            ahead: HashMap::new(),
            late: Vec::new(),
            carried: HashSet::new(),
            dropped: HashSet::new(),
            overwritten: 0,
            counted: vec![Vec::new(); 16],
            disagreed: 0,
            misled: 0,
            faults,
        }
    }

    fn n(&self) -> usize {
        self.settings.shape.n as usize
    }

    fn idle(&self, c: usize) -> bool {
        R::running(&self.coordinators[c]).is_none()
    }

    fn running(&self) -> Vec<usize> {
        (0..16).filter(|&c| !self.idle(c)).collect()
    }

    /// Takes over what a coordinator sent and showed at an event that wasn't refused.
    fn after(&mut self, c: usize, step: Step) {
        let last = (0..self.noted.len()).rev().find(|&k| self.noted[k].coordinator == c);
        if let (Some(k), Some(message)) = (last, step.sent.last()) {
            self.noted[k].round = self.noted[k].round.max(message.round);
            self.noted[k].modified |= message.kind == MODIFY;
        }
        if let Some(k) = last {
            assert!(step.sent.iter().all(|message| message.stripe == self.operations[k].stripe));
        }
        let decided = !step.sent.is_empty() || step.ended.is_some();
        let counted = if decided { std::mem::take(&mut self.counted[c]) } else { Vec::new() };
        if let (Some(k), true) = (last, counted.iter().any(|reply| reply.kind == ORDER_READ)) {
            self.noted[k].givers = givers(&counted);
        }
        let (n, before, after) = (self.n(), self.sent.len(), self.sent.len() + step.sent.len());
        assert!([0, n, 2 * n].contains(&step.sent.len()));
        self.fresh.extend(before..after);
        // Of two broadcasts the first one clears.
        for place in (before..after).take(step.sent.len().saturating_sub(n)) {
            self.ahead.insert(place, last.expect("an operation of the coordinator"));
        }
        self.sent.extend(step.sent.into_iter().enumerate().map(|(k, message)| Sent::To(k % n, message)));
        if let Some(Ended { coordinator, kind, stripe, block, time, outcome, letter }) = step.ended {
            let k = last.expect("an operation of the coordinator");
            let letter = self.shown_letter(letter);
            self.misled += usize::from(!letter_fits(letter, &outcome, self.noted[k].round, &counted));
            self.noted[k].letter = Some(letter);
            let operation = &self.operations[k];
            assert_eq!((coordinator, stripe, time), (c as u64, operation.stripe, self.noted[k].time));
            assert_eq!((kind.reads(), kind.of_block()), (operation.write.is_none(), operation.block.is_some()));
            assert_eq!(block as usize, operation.block.unwrap_or(0));
            let end = match outcome {
                Outcome::Ok => End::Wrote,
                Outcome::Gave { data, bricks } => {
                    self.check_named(k, &data, &bricks);
                    End::Gave(data)
                }
                Outcome::Abort => End::Aborted,
                Outcome::Cut => End::Cut,
            };
            self.operations[k].ended = Some((self.event, end));
        }
    }

    /// The letter as it is shown, a rule broken or not.
    fn shown_letter(&self, letter: char) -> char {
        if self.faults.broken != Break::NextLetter {
            return letter;
        }
        let next = LETTERS.find(letter).map_or(0, |place| (place + 1) % LETTERS.len());
        char::from(LETTERS.as_bytes()[next])
    }

    /// What a finished read gave has the right length. In one round it names m different bricks, or the one of a block; after recovery the
    /// first m by number that gave the chosen time (E7).
    fn check_named(&self, k: usize, data: &[u8], bricks: &[u8]) {
        let (shape, block) = (self.settings.shape, self.operations[k].block);
        let givers = &self.noted[k].givers;
        assert_eq!(data.len(), block.map_or(shape.data_len(), |_| shape.size as usize));
        match block {
            _ if self.noted[k].round > 1 => assert_eq!(*bricks, givers[..shape.m as usize]),
            Some(block) => assert_eq!(*bricks, [block as u8]),
            None => assert!(shape.is_brick_set(bricks)),
        }
    }

    /// A write of these bytes, or a read whose targets are counted from a brick, on a stripe, or the same of one block, at a clock's
    /// reading. Refused, by 9, where one runs, on whatever stripe.
    pub fn start(&mut self, c: usize, stripe: u64, reading: u64, what: Start) {
        self.event += 1;
        let idle = self.idle(c);
        let reading = if idle && self.clock_each() { self.clock_of(c, stripe, reading) } else { reading };
        let coordinator = &mut self.coordinators[c];
        let at = |block: u64| BlockAt { stripe, block, reading };
        let step = match &what {
            Start::Write(data) => R::write(self.settings, coordinator, stripe, reading, data),
            Start::Read(first) => R::read(self.settings, coordinator, stripe, reading, *first),
            Start::WriteBlock(block, data) => R::write_block(self.settings, coordinator, at(*block), data),
            Start::ReadBlock(block) => R::read_block(self.settings, coordinator, at(*block)),
        };
        match step {
            Ok(step) => {
                assert!(idle);
                let time = R::running(coordinator).expect("an operation runs");
                self.operations.push(Operation { stripe, block: what.block(), write: what.bytes(), began: self.event, ended: None });
                self.noted.push(Noted { coordinator: c, time, round: 1, stored: 0, modified: false, givers: Vec::new(), letter: None });
                self.after(c, step);
            }
            Err(number) => assert_eq!((number, idle), (9, false)),
        }
    }

    fn clock_each(&self) -> bool {
        matches!(self.faults.broken, Break::ClockEach | Break::AnyStripe)
    }

    /// A coordinator whose last count is that of its last operation on the stripe: it forgets its own, and the reading is past that one.
    fn clock_of(&mut self, c: usize, stripe: u64, reading: u64) -> u64 {
        self.coordinators[c] = R::coordinator(self.settings, c as u64);
        let drawn = |(o, noted): (&Operation, &Noted)| (o.stripe == stripe && noted.coordinator == c).then(|| count_of(noted.time));
        let last = self.operations.iter().zip(&self.noted).filter_map(drawn).max().unwrap_or(0);
        reading.max(last + 1)
    }

    /// Bytes of one block of a stripe that no other write has there, on whatever stripe.
    fn new_block(&mut self, c: usize, place: usize, rng: &mut Rng) -> Vec<u8> {
        let size = self.settings.shape.size as usize;
        let mut block = rng.bytes(size);
        while self.used.contains(&(place, block.clone())) {
            block = rng.bytes(size);
        }
        if self.idle(c) {
            self.used.insert((place, block.clone()));
        }
        block
    }

    /// Some data block of a stripe, through the number that a client has for it.
    fn some_block(&self, stripe: u64, rng: &mut Rng) -> u64 {
        let client = rng.below(self.settings.shape.m) * self.settings.stripes + stripe;
        let (at, block) = R::place(self.settings, client).expect("a client block of the volume");
        assert_eq!(at, stripe);
        block
    }

    /// The same with bytes that no other write has, or some first target, or some block, at a reading as the faults have it.
    pub fn start_some(&mut self, c: usize, stripe: u64, kind: Kind, rng: &mut Rng) {
        self.clock = match self.faults.broken {
            Break::ClocksForget => 0,
            _ if self.faults.rising => self.clock + rng.below(3),
            // Each stripe's clock counts from 1, so that times meet.
            _ if self.clock_each() => 0,
            _ => rng.below(12),
        };
        let shape = self.settings.shape;
        let what = match kind {
            Kind::Write => Start::Write((0..shape.m as usize).flat_map(|j| self.new_block(c, j, rng)).collect()),
            Kind::Read => Start::Read(rng.below(shape.n)),
            Kind::WriteBlock => {
                let block = self.some_block(stripe, rng);
                Start::WriteBlock(block, self.new_block(c, block as usize, rng))
            }
            Kind::ReadBlock => Start::ReadBlock(self.some_block(stripe, rng)),
        };
        self.start(c, stripe, self.clock, what);
    }

    /// A crash: the coordinator is idle then and keeps its count.
    pub fn cut(&mut self, c: usize) {
        self.event += 1;
        let step = R::crash(self.settings, &mut self.coordinators[c]).expect("a crash is never refused");
        self.after(c, step);
    }

    /// The same among faults.
    fn crash(&mut self, c: usize, rng: &mut Rng) {
        self.cut(c);
        if once(rng, self.faults.buffers) {
            self.overwritten += usize::from(R::overwrite(&mut self.coordinators[c], rng));
        }
        if self.faults.broken == Break::ClocksForget {
            self.coordinators[c] = R::coordinator(self.settings, c as u64);
        }
    }

    /// A brick goes down or comes up.
    pub fn switch(&mut self, brick: usize, up: bool) {
        self.event += 1;
        if up && !self.up[brick] && self.faults.broken == Break::BricksForget {
            self.images[brick] = R::images(self.settings, brick as u64);
            self.before[brick].clone_from(&self.images[brick]);
        }
        self.up[brick] = up;
    }

    /// Something sent arrives.
    pub fn arrive(&mut self, which: usize) {
        self.event += 1;
        match self.sent[which].clone() {
            Sent::To(brick, message) if self.up[brick] => self.at_brick(which, brick, &message),
            Sent::To(..) => {}
            Sent::Back(mut reply) => {
                let c = coordinator_of(reply.time) as usize;
                if let (Break::AnyStripe, Some(k)) = (self.faults.broken, self.noted.iter().rposition(|noted| noted.coordinator == c)) {
                    reply.stripe = self.operations[k].stripe;
                }
                match R::reply(self.settings, &mut self.coordinators[c], &reply) {
                    Ok(step) => {
                        self.note_counted(c, reply, &step);
                        self.after(c, step);
                    }
                    Err(refusal) => assert_eq!(refusal, 11),
                }
            }
        }
    }

    /// Notes a reply that was counted, and whether it ended a recovery whose blocks disagree.
    fn note_counted(&mut self, c: usize, reply: Reply, step: &Step) {
        let counted = &mut self.counted[c];
        counted.push(reply);
        if step.ended.as_ref().is_some_and(|ended| ended.outcome == Outcome::Abort) {
            let all_yes = counted.iter().all(|reply| reply.kind == ORDER_READ && reply.yes);
            self.disagreed += usize::from(all_yes && enough_blocks(self.settings.shape.m, counted));
        }
    }

    /// A message, by its place among what was sent.
    fn at_brick(&mut self, which: usize, brick: usize, message: &Message) {
        let of_it = (0..self.noted.len()).find(|&k| (self.operations[k].stripe, self.noted[k].time) == (message.stripe, message.time));
        let given = self.given(which, brick, message);
        let reply = R::receive(self.settings, brick as u64, &mut self.images[brick], &given).expect("what was sent is never refused");
        assert_eq!(reply.as_ref().map(|reply| reply.stripe), (!clears(message.kind)).then_some(given.stripe));
        let reply = reply.map(|reply| self.replied(brick, message, reply));
        if message.kind == DROP && self.faults.broken == Break::DropsPromise {
            self.drop_promise(brick, message.stripe);
        }
        if message.holds_a_block() {
            let of_read = of_it.is_some_and(|k| self.operations[k].write.is_none());
            match self.faults.broken {
                Break::Hollow if self.event % 3 == 0 => self.images[brick].clone_from(&self.before[brick]),
                Break::NoWriteBack if of_read => self.images[brick].clone_from(&self.before[brick]),
                _ => {}
            }
        }
        self.note_marks(brick, message, reply.as_ref());
        self.note_clearing(which, brick, message);
        self.compare_others(brick, message.stripe);
        if let Some(reply) = reply {
            if let (WRITE | MODIFY, true, Some(k)) = (reply.kind, reply.yes, of_it) {
                self.noted[k].stored += 1;
                if self.dropped.remove(&(brick, message.stripe, message.time)) {
                    self.did.add("a dropped time was stored again", 1);
                }
            }
            self.fresh.push(self.sent.len());
            self.sent.push(Sent::Back(reply));
        }
    }

    /// Where the image of a stripe stands in a brick's row.
    fn own(&self, stripe: u64) -> Range<usize> {
        let length = image::length(self.settings);
        stripe as usize * length..(stripe as usize + 1) * length
    }

    /// What an image holds.
    pub fn state(&self, brick: usize, stripe: u64) -> image::State {
        image::parse(self.settings, brick as u64, &self.images[brick][self.own(stripe)]).expect("an image of the run")
    }

    /// The message as the brick takes it, a rule broken or not.
    fn given(&self, which: usize, brick: usize, message: &Message) -> Message {
        let mut given = message.clone();
        match self.faults.broken {
            Break::OneImage => given.stripe = 0,
            // A Drop has no time 0.
            Break::DropsNewest if message.kind == DROP => given.time = self.state(brick, message.stripe).newest().max(16),
            Break::DropsChosen if message.kind == TRIM && self.ahead.contains_key(&which) => given.kind = DROP,
            Break::AnyOldTime if message.kind == MODIFY => given.old_time = self.state(brick, message.stripe).newest(),
            Break::ParityStays if brick as u64 >= self.settings.shape.m => given.old_block.clone_from(&message.block),
            _ => {}
        }
        given
    }

    /// The reply as the brick sends it, a rule broken or not.
    fn replied(&self, brick: usize, message: &Message, reply: Reply) -> Reply {
        let mut reply = Reply { stripe: message.stripe, ..reply };
        if self.faults.broken == Break::BlocksOnly && message.kind == ORDER_READ && reply.yes {
            let state = self.state(brick, message.stripe);
            let entry = state.log.into_iter().rev().find(|entry| entry.block.is_some() && entry.time < message.max);
            (reply.found, reply.block) = entry.map_or((0, None), |entry| (entry.time, entry.block));
        }
        reply
    }

    /// Takes a promise that is ahead back to the newest time.
    fn drop_promise(&mut self, brick: usize, stripe: u64) {
        let (own, mut state) = (self.own(stripe), self.state(brick, stripe));
        state.promise = state.promise.min(state.newest());
        let image = image::write(self.settings, brick as u64, &state).expect("an image of the run");
        self.images[brick][own].copy_from_slice(&image);
    }

    /// Notes what a Drop or an early Trim did.
    fn note_clearing(&mut self, which: usize, brick: usize, message: &Message) {
        let Some(&sender) = self.ahead.get(&which) else { return };
        let own = self.own(message.stripe);
        let (before, after) = (&self.before[brick][own.clone()], &self.images[brick][own]);
        let (times, left) = (image::times(before), image::times(after));
        let freed = times.len() - left.len();
        let did = &mut self.did;
        if message.kind == TRIM {
            did.add("an early Trim reached a brick", 1);
            did.add("an early Trim freed entries", usize::from(freed > 0));
            return;
        }
        let marks = image::marks(before);
        did.add("a Drop reached a brick", 1);
        did.add("a Drop took an entry", freed);
        did.add("a Drop took the newest entry", usize::from(freed > 0 && times.last() == Some(&message.time)));
        did.add("a Drop took a mark", usize::from(freed > 0 && marks.contains(&message.time)));
        did.add("a Drop made a mark its block", usize::from(!marks.contains(&message.time) && image::marks(after).len() < marks.len()));
        did.add("a Drop met the only entry", usize::from(times == [message.time]));
        did.add("a Drop came again", usize::from(!self.carried.insert(which)));
        let ended = self.operations[sender].ended.as_ref().map(|(_, end)| end);
        did.add("a Drop came after its coordinator's crash", usize::from(ended == Some(&End::Cut)));
        did.add("a Drop came after its operation's end", usize::from(ended.is_some_and(|end| *end != End::Cut)));
        if freed > 0 {
            self.dropped.insert((brick, message.stripe, message.time));
        }
    }

    /// Notes what marks did at a message.
    fn note_marks(&mut self, brick: usize, message: &Message, reply: Option<&Reply>) {
        let own = self.own(message.stripe);
        let (before, after) = (&self.before[brick][own.clone()], &self.images[brick][own]);
        let marks = image::marks(before);
        let given = reply.is_some_and(|reply| reply.block.is_some() && marks.contains(&reply.found));
        let what = match message.kind {
            TRIM if marks.contains(&image::lowest(after)) => "a Trim made a mark its block",
            MODIFY if image::marks(after).len() > marks.len() => "a Modify stored a mark",
            READ if given => "a Read gave a mark's block",
            ORDER_READ if given => "an Order-and-read gave a mark's block",
            ORDER_BLOCK if given => "the first round of a block write gave a mark's block",
            _ => return,
        };
        self.did.add(what, 1);
    }

    /// After an event on a stripe: the bytes of all other stripes' images are those before it.
    fn compare_others(&mut self, brick: usize, stripe: u64) {
        let own = self.own(stripe);
        let (row, before) = (&self.images[brick], &mut self.before[brick]);
        if row[..own.start] != before[..own.start] || row[own.end..] != before[own.end..] {
            self.strayed += 1;
            before.clone_from(row);
        } else {
            before[own.clone()].copy_from_slice(&row[own]);
        }
    }

    /// One of the stripes in use.
    fn some_stripe(&self, rng: &mut Rng) -> u64 {
        self.stripes[rng.below(self.stripes.len() as u64) as usize]
    }

    /// One of the things that may happen next.
    fn step(&mut self, most: usize, rng: &mut Rng) {
        let faults = self.faults.clone();
        let n = self.n();
        let running = self.running();
        if once(rng, faults.crash) {
            let c = if running.is_empty() || rng.once_in(8) {
                rng.below(16) as usize
            } else {
                running[rng.below(running.len() as u64) as usize]
            };
            self.crash(c, rng);
        }
        if once(rng, faults.down) {
            self.switch(rng.below(n as u64) as usize, false);
        }
        if once(rng, faults.down / 2) {
            self.switch(rng.below(n as u64) as usize, true);
        }
        if !self.late.is_empty() && rng.once_in(12) {
            self.arrive_late(rng);
        }
        if once(rng, faults.again) && !self.sent.is_empty() {
            // Anything sent so far: again, late, or though it was lost.
            self.arrive(rng.below(self.sent.len() as u64) as usize);
        }
        let room = self.operations.len() < most && running.len() < faults.beside;
        if room && (self.fresh.is_empty() || rng.once_in(if running.is_empty() { 6 } else { 25 })) {
            let c = rng.below(faults.coordinators) as usize;
            let kind = match (rng.once_in(2), once(rng, faults.blocks)) {
                (true, false) => Kind::Write,
                (false, false) => Kind::Read,
                (true, true) => Kind::WriteBlock,
                (false, true) => Kind::ReadBlock,
            };
            self.start_some(c, self.some_stripe(rng), kind, rng);
            return;
        }
        if self.fresh.is_empty() {
            return;
        }
        let which = self.fresh.swap_remove(rng.below(self.fresh.len() as u64) as usize);
        let ahead = self.ahead.contains_key(&which);
        let trim = !ahead && matches!(&self.sent[which], Sent::To(_, message) if message.kind == TRIM);
        if once(rng, faults.lost) || trim && once(rng, faults.trims) || ahead && once(rng, faults.drops) {
            return;
        }
        if ahead && once(rng, faults.late) {
            self.late.push(which);
            return;
        }
        let mut rounds = self.sent.len();
        self.arrive(which);
        if self.ahead.contains_key(&rounds) {
            if once(rng, faults.first) {
                for place in rounds..rounds + n {
                    self.fresh.retain(|&other| other != place);
                    self.arrive(place);
                    self.store_again(place);
                }
            }
            rounds += n;
        }
        let begun = match self.sent.get(rounds) {
            Some(Sent::To(_, message)) if message.holds_a_block() => Some(message.time),
            _ => None,
        };
        if let (Some(time), true) = (begun, begun.is_some() && once(rng, faults.short)) {
            // A few of its messages arrive, the others stay on their way or are lost.
            let count = match rng.below(3) {
                0 => self.settings.shape.m as usize,
                1 => rng.below(n as u64 + 1) as usize,
                _ => 1,
            };
            for b in rng.shuffled(n).into_iter().take(count) {
                self.fresh.retain(|&place| place != rounds + b);
                self.arrive(rounds + b);
            }
            if rng.once_in(2) {
                self.fresh.retain(|&place| !(rounds..rounds + n).contains(&place));
            }
            self.crash(coordinator_of(time) as usize, rng);
        }
    }

    /// A Drop or an early Trim that was held back arrives; half of them may come again.
    fn arrive_late(&mut self, rng: &mut Rng) {
        let k = rng.below(self.late.len() as u64) as usize;
        let which = if rng.once_in(2) { self.late.swap_remove(k) } else { self.late[k] };
        self.arrive(which);
    }

    /// The Write or Modify of a time that its brick just dropped comes again.
    fn store_again(&mut self, dropped: usize) {
        let Sent::To(brick, Message { stripe, time, .. }) = self.sent[dropped] else { return };
        let of_it = |sent: &Sent| match sent {
            Sent::To(to, message) => message.holds_a_block() && (*to, message.stripe, message.time) == (brick, stripe, time),
            Sent::Back(_) => false,
        };
        let again = self.sent.iter().position(of_it).filter(|_| self.dropped.contains(&(brick, stripe, time)));
        if let Some(which) = again {
            self.arrive(which);
        }
    }

    /// Operations that stand still go on by old messages or are cut.
    fn unstick(&mut self, rng: &mut Rng) {
        for c in self.running() {
            if rng.once_in(2) {
                self.crash(c, rng);
            } else {
                let time = R::running(&self.coordinators[c]);
                let places: Vec<usize> = (0..self.sent.len()).filter(|&k| Some(self.sent[k].time()) == time).collect();
                places.into_iter().for_each(|place| self.arrive(place));
            }
        }
    }

    /// A whole run: so many operations among faults, then reads of each stripe in a row with all bricks up.
    fn play(&mut self, most: usize, reads: usize, rng: &mut Rng) {
        let mut idle = 0;
        while idle < 6 {
            assert!(self.event < 200_000, "a run without an end");
            self.step(most, rng);
            let busy = self.running().len();
            if self.fresh.is_empty()
                && (self.operations.len() >= most || busy >= self.faults.beside || busy as u64 >= self.faults.coordinators)
            {
                self.unstick(rng);
                idle += 1;
            }
        }
        // Mostly all are cut that still run; some run on beside the last reads.
        for c in self.running() {
            if !rng.once_in(4) {
                self.crash(c, rng);
            }
        }
        (0..self.n()).for_each(|b| self.switch(b, true));
        for stripe in self.stripes.repeat(reads) {
            let Some(c) = rng.shuffled(16).into_iter().find(|&c| self.idle(c)) else { return };
            // A clock that is ahead of all others.
            self.clock += 40;
            self.faults.rising = true;
            let kind = if self.faults.blocks > 0 && rng.once_in(4) { Kind::ReadBlock } else { Kind::Read };
            self.start_some(c, stripe, kind, rng);
            while !self.idle(c) && !self.fresh.is_empty() {
                let which = self.fresh.swap_remove(rng.below(self.fresh.len() as u64) as usize);
                self.arrive(which);
                if !self.late.is_empty() && rng.once_in(4) {
                    self.arrive_late(rng);
                }
            }
            if rng.once_in(2) {
                self.fresh.clear();
            }
        }
    }

    /// Whether two operations have one time.
    pub fn shares_a_time(&self) -> bool {
        let times: HashSet<u64> = self.noted.iter().map(|noted| noted.time).collect();
        times.len() < self.noted.len()
    }

    /// What a run breaks of what is promised, if anything.
    pub fn fault(&self) -> Option<&'static str> {
        if self.strayed > 0 {
            Some("an event on one stripe changed another's image")
        } else if self.shares_a_time() {
            Some("two operations of one time")
        } else if by_stripe(&self.operations).iter().any(|operations| !has_order(operations, self.settings.shape)) {
            Some("no order")
        } else if self.disagreed > 0 {
            Some("blocks of one time that disagree")
        } else if self.misled > 0 {
            Some("a letter that doesn't fit")
        } else {
            None
        }
    }

    /// Counts what occurred.
    pub fn note(&self, tally: &mut Tally) {
        let all = &self.operations;
        tally.add("runs", 1);
        tally.add("operations", all.len());
        tally.add("crash with other bytes in the buffers", self.overwritten);
        let runs_at =
            |event: usize| all.iter().filter(|o| o.began <= event && o.ended.as_ref().is_none_or(|(end, _)| *end > event)).count();
        let at_once = all.iter().map(|o| runs_at(o.began)).max().unwrap_or(0);
        tally.add("run with 3 or more at once", usize::from(at_once >= 3));
        tally.add("run with 8 or more at once", usize::from(at_once >= 8));
        tally.add("run of 10 to 16 bricks", usize::from(self.n() >= 10));
        tally.add("run with m above 1", usize::from(self.settings.shape.m > 1));
        tally.add("run of 64 stripes", usize::from(self.settings.stripes == 64));
        let stripes = by_stripe(all);
        tally.add("run on 3 or more stripes", usize::from(stripes.len() >= 3));
        tally.add("run with 5 or more on each of two stripes", usize::from(stripes.iter().filter(|list| list.len() >= 5).count() >= 2));
        for (what, count) in &self.did.0 {
            tally.add(what.as_str(), *count);
        }
        for (o, noted) in all.iter().zip(&self.noted) {
            let of = if o.block.is_some() { "block " } else { "" };
            tally.add(format!("{of}{}", how_it_went(o, noted)), 1);
            if let Some(letter) = noted.letter {
                tally.add(format!("{of}letter {letter}"), 1);
            }
            if o.write.is_some() && !o.finished() {
                let meets = |r: &&Operation| r.stripe == o.stripe && (r.block.is_none() || o.block.is_none() || r.block == o.block);
                let mut reads = all.iter().filter(meets).filter(|r| r.gave().is_some());
                let looked = reads.clone().any(|r| o.ended_before(r)) && noted.stored > 0;
                let seen = reads.any(|r| o.may_be_seen_by(r, self.settings.shape));
                let cut = if matches!(o.ended, Some((_, End::Cut))) { "cut" } else { "other unfinished" };
                match (seen, looked) {
                    (true, _) => tally.add(format!("{cut} {of}write seen"), 1),
                    (false, true) => tally.add(format!("{cut} {of}write stored, stayed away"), 1),
                    _ => {}
                }
            }
        }
    }

    /// The run, told where it breaks a promise.
    pub fn story(&self, seed: u64) -> String {
        let rows: Vec<String> = self.operations.iter().zip(&self.noted).map(|row| format!("  {row:?}")).collect();
        format!("seed {seed}, {:?}, {:?}: {:?}\n{}", self.settings, self.faults, self.fault(), rows.join("\n"))
    }
}

/// Everything under way arrives, in the order of sending; a message that doesn't reach its brick is lost.
pub fn settle<R: Routines>(world: &mut World<R>, reaches: impl Fn(usize, &Message) -> bool) {
    settle_late(world, None, reaches);
}

/// The same, but what goes to one brick or comes from it waits until nothing else is under way.
pub fn settle_late<R: Routines>(world: &mut World<R>, late: Option<usize>, reaches: impl Fn(usize, &Message) -> bool) {
    while !world.fresh.is_empty() {
        let brick = |which: &usize| match &world.sent[*which] {
            Sent::To(brick, _) => *brick,
            Sent::Back(reply) => reply.brick as usize,
        };
        let first = world.fresh.iter().position(|which| Some(brick(which)) != late).unwrap_or(0);
        let which = world.fresh.remove(first);
        let lost = matches!(&world.sent[which], Sent::To(brick, message) if !reaches(*brick, message));
        if !lost {
            world.arrive(which);
        }
    }
}

/// How the operations ended, in the order of their starts.
pub fn ends<R: Routines>(world: &World<R>) -> Vec<&End> {
    world.operations.iter().map(|o| &o.ended.as_ref().expect("it ended").1).collect()
}

/// Their letters.
pub fn letters<R: Routines>(world: &World<R>) -> String {
    world.noted.iter().map(|noted| noted.letter.expect("it ended")).collect()
}

/// Of messages of one kind, how many rounds were sent.
pub fn rounds<R: Routines>(world: &World<R>, kind: u8) -> usize {
    world.sent.iter().filter(|sent| matches!(sent, Sent::To(0, message) if message.kind == kind)).count()
}

/// How an operation went, in words that are the same for stripes and blocks; of a block write also by which way.
fn how_it_went(o: &Operation, noted: &Noted) -> &'static str {
    match (&o.write, o.ended.as_ref().map(|(_, end)| end)) {
        (Some(_), Some(End::Wrote)) if o.block.is_some() && !noted.modified => "written by recovery",
        (Some(_), Some(End::Wrote)) => "written",
        (Some(_), Some(End::Aborted)) if noted.modified => "write aborted after Modify",
        (Some(_), Some(End::Aborted)) if o.block.is_some() && noted.round > 1 => "write aborted in recovery",
        (Some(_), Some(End::Aborted)) => "write aborted",
        (Some(_), Some(_)) => "write cut",
        (Some(_), None) => "write running",
        (None, Some(End::Gave(_))) if noted.round == 1 => "read in one round",
        (None, Some(End::Gave(_))) if noted.round == 3 => "read recovered",
        (None, Some(End::Gave(_))) => "read recovered by more rounds",
        (None, Some(End::Aborted)) => "read aborted",
        (None, Some(_)) => "read cut",
        (None, None) => "read running",
    }
}

/// What runs with operations on one block should show often.
pub const OFTEN_OF_BLOCKS: [&str; 26] = [
    "block written",
    "block written by recovery",
    "block write aborted",
    "block write aborted after Modify",
    "block write aborted in recovery",
    "block write cut",
    "block read in one round",
    "block read recovered",
    "block read aborted",
    "block read cut",
    "cut block write seen",
    "cut block write stored, stayed away",
    "other unfinished block write seen",
    "a Trim made a mark its block",
    "a Modify stored a mark",
    "a Read gave a mark's block",
    "an Order-and-read gave a mark's block",
    "the first round of a block write gave a mark's block",
    "block letter F",
    "block letter H",
    "block letter L",
    "block letter S",
    "block letter O",
    "block letter G",
    "block letter W",
    "block letter C",
];

/// What runs with cut writes and short logs should show often.
pub const OFTEN_OF_DROPS: [&str; 11] = [
    "a Drop reached a brick",
    "a Drop took an entry",
    "a Drop took the newest entry",
    "a Drop took a mark",
    "a Drop met the only entry",
    "a Drop came again",
    "a Drop came after its coordinator's crash",
    "a Drop came after its operation's end",
    "a dropped time was stored again",
    "an early Trim reached a brick",
    "an early Trim freed entries",
];

/// What every run of enough length should show often. X is rare: it takes a recovery that a later write overtakes.
pub const OFTEN: [&str; 20] = [
    "written",
    "write aborted",
    "write cut",
    "read in one round",
    "read recovered",
    "read recovered by more rounds",
    "read aborted",
    "read cut",
    "cut write seen",
    "cut write stored, stayed away",
    "other unfinished write seen",
    "other unfinished write stored, stayed away",
    "letter F",
    "letter H",
    "letter L",
    "letter S",
    "letter O",
    "letter G",
    "letter W",
    "letter C",
];

fn some_settings(rng: &mut Rng) -> Settings {
    let n = match rng.below(10) {
        0..=5 => rng.between(1, 5),
        6..=8 => rng.between(6, 9),
        _ => rng.between(10, 16),
    };
    // Mostly an m at which a quorum leaves out some bricks.
    let m = if rng.once_in(3) { rng.between(1, n) } else { rng.between(1, n.div_ceil(2)) };
    let size = if rng.once_in(12) { [16, 64, 256][rng.below(3) as usize] } else { rng.between(1, 4) };
    let stripes = match rng.below(40) {
        0..=19 => 1,
        20..=38 => rng.between(2, 5),
        _ => 64,
    };
    let capacity = match rng.below(10) {
        0 if stripes < 64 => rng.between(7, 32),
        _ => rng.between(2, 6),
    };
    Settings::new(n, m, size, capacity, stripes)
}

/// The stripes that a run works on: all of a few; of many the first, the last and another.
fn some_stripes(stripes: u64, rng: &mut Rng) -> Vec<u64> {
    if stripes <= 5 {
        return (0..stripes).collect();
    }
    vec![0, rng.between(1, stripes - 2), stripes - 1]
}

/// A run at some settings, with up to so many operations among some faults, both changed as asked, then so many reads.
pub fn some_run<R: Routines>(seed: u64, most: usize, reads: usize, change: impl Fn(&mut Faults, &mut Settings)) -> World<R> {
    let mut rng = Rng::new(seed);
    let mut settings = some_settings(&mut rng);
    let mut faults = Faults::some(&mut rng);
    change(&mut faults, &mut settings);
    let stripes = some_stripes(settings.stripes, &mut rng);
    let mut world = World::new(settings, stripes, faults);
    let most = rng.between(most.min(2) as u64, most as u64) as usize;
    world.play(most, reads, &mut rng);
    world
}

/// Faults and settings under which Drops go about: m above 1, logs of two entries (of some more in a few runs), stores that are mostly cut
/// after a few of their messages, and Drops and early Trims that come late, again or never.
pub fn cut_short(faults: &mut Faults, settings: &mut Settings) {
    let shape = &mut settings.shape;
    shape.n = shape.n.max(4);
    shape.m = shape.m.max(2);
    settings.capacity = if settings.capacity == 6 { 4 } else { 2 };
    faults.short = if faults.short == 0 { 1 } else { faults.short.min(2) };
    faults.again = if faults.again == 0 { 6 } else { faults.again };
    faults.first = if faults.first == 0 { 3 } else { faults.first };
}

/// Runs of up to so many operations on a set that breaks a rule: how many have a stripe without an order, which both searches say
/// alike; in how many an event changed another stripe's image; in how many two operations have one time; and in how many a recovery met
/// blocks that disagree.
pub fn broken_runs<R: Routines>(seeds: Range<u64>, most: usize, change: impl Fn(&mut Faults, &mut Settings)) -> [usize; 4] {
    let mut counts = [0; 4];
    for seed in seeds {
        let world = some_run::<R>(seed, most, 2, &change);
        let shape = world.settings.shape;
        let mut ordered = true;
        for operations in by_stripe(&world.operations) {
            let order = has_order(&operations, shape);
            if operations.len() <= 7 {
                assert_eq!(brute_order(&operations, shape).is_some(), order, "{}", world.story(seed));
            }
            ordered &= order;
        }
        for (count, noticed) in counts.iter_mut().zip([!ordered, world.strayed > 0, world.shares_a_time(), world.disagreed > 0]) {
            *count += usize::from(noticed);
        }
    }
    counts
}

/// Sets that break a rule of operations on one block, each in so many runs: how many of those have no order, and in how many blocks
/// disagree. With seven bricks, five of the data, a block written by Modify stands on fewer than m bricks as a block of its own; with ten,
/// four of the data, three bricks may have missed what was stored before. Trims don't arrive.
pub fn broken_block_runs<R: Routines>(runs: u64) -> [[usize; 2]; 3] {
    [(Break::BlocksOnly, 7, 5), (Break::AnyOldTime, 10, 4), (Break::ParityStays, 7, 5)].map(|(broken, n, m)| {
        let change = |faults: &mut Faults, settings: &mut Settings| {
            (faults.broken, faults.blocks, faults.trims, faults.down, faults.lost, faults.short) = (broken, 2, 1, 0, 15, 0);
            settings.shape = Shape { n, m, ..settings.shape };
        };
        let [without, strayed, shared, disagreed] = broken_runs::<R>(370_000..370_000 + runs, 5, change);
        assert_eq!((strayed, shared), (0, 0));
        [without, disagreed]
    })
}

/// Sets in which Drops take the newest entry, or early Trims the chosen time, each in so many runs: how many of those have no order.
pub fn broken_drop_runs<R: Routines>(runs: u64) -> [usize; 2] {
    [Break::DropsNewest, Break::DropsChosen].map(|broken| {
        let change = |faults: &mut Faults, settings: &mut Settings| {
            cut_short(faults, settings);
            (faults.broken, faults.drops) = (broken, 0);
        };
        let [without, strayed, shared, _] = broken_runs::<R>(380_000..380_000 + runs, 6, change);
        assert_eq!((strayed, shared), (0, 0));
        without
    })
}
