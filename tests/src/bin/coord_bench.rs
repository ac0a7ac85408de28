//! Whole operations through one coordinator and n bricks in memory: the proved entry points beside a coordinator and bricks written by
//! hand that work in place, in one run, in turn. Every message goes to all n bricks and every reply to the coordinator, those too that
//! come after a round is decided. Prints microseconds an operation, coordinator and bricks together, beside bricks that test zeros byte
//! by byte (as the brick's benchmark has them) and beside bricks that test them with wide instructions; then the coordinator's part alone.
//! Last what the proved operations on one block take of those on the stripe: time, and bytes of blocks in messages and replies.

use jilbagum_tests::brick::{clears, NONE};
use jilbagum_tests::inplace::Brick;
use jilbagum_tests::inplace_coordinator::{
    Act, Coordinator, Message, Reply, MODIFY, ORDER, ORDER_BLOCK, ORDER_READ, READ, TRIM, WRITE,
};
use jilbagum_tests::proved::{self, answer, Lent};
use std::time::{Duration, Instant};

const CAPACITY: usize = 4;
const STRIPES: usize = 1;
const STRIPE: usize = 0;
/// The data block of the operations on one block.
const NUMBER: usize = 1;
/// The clock's reading at each start.
const READING: u64 = 9;
/// How many operations a sample takes.
const TIMES: u32 = 10;

#[derive(Clone, Copy, PartialEq)]
enum Op {
    Write,
    Read,
    WriteBlock,
    ReadBlock,
}

impl Op {
    fn writes(self) -> bool {
        matches!(self, Op::Write | Op::WriteBlock)
    }
}

/// Writes that were begun later than the stored one and cut: the last was ordered alone, each before it was stored too, by one brick,
/// each by another, or by m - 1, the same ones. A recovery clears those stored.
#[derive(Clone, Copy, PartialEq)]
enum Cut {
    None,
    OnOne(usize),
    /// As many as fill the logs of these bricks: nothing can be stored there unless Drops clear them.
    OnSome,
}

impl Cut {
    fn count(self) -> usize {
        match self {
            Cut::None => 0,
            Cut::OnOne(count) => count,
            Cut::OnSome => CAPACITY,
        }
    }

    /// Those that stored the k-th of them.
    fn bricks(self, k: usize, m: usize) -> std::ops::Range<usize> {
        match self {
            _ if k + 1 >= self.count() => 0..0,
            Cut::OnSome => 0..m - 1,
            _ => k..k + 1,
        }
    }
}

/// Its name, what it does, the writes that were cut before it, the round of its last message, none where nothing is sent at the end, and
/// its letter.
type Case = (&'static str, Op, Cut, u64, char);
const CASES: [Case; 10] = [
    ("write", Op::Write, Cut::None, 2, 'S'),
    ("read in one round", Op::Read, Cut::None, 0, 'F'),
    ("read, one recovery round", Op::Read, Cut::OnOne(1), 3, 'H'),
    ("read, three recovery rounds", Op::Read, Cut::OnOne(3), 5, 'L'),
    ("block write", Op::WriteBlock, Cut::None, 2, 'S'),
    ("block read in one round", Op::ReadBlock, Cut::None, 0, 'F'),
    ("block read, one recovery", Op::ReadBlock, Cut::OnOne(1), 3, 'H'),
    ("block write, three recoveries", Op::WriteBlock, Cut::OnOne(3), 5, 'S'),
    ("read, Drops on full logs", Op::Read, Cut::OnSome, 6, 'L'),
    ("block write, Drops on full logs", Op::WriteBlock, Cut::OnSome, 6, 'S'),
];

/// The time of an operation, and the time spent in the coordinator.
#[derive(Clone, Copy)]
struct Spent {
    whole: Duration,
    coordinator: Duration,
}

/// Bytes of blocks that messages and replies carry, and those of them that the receiver looks at: of a Modify the brick of the block
/// looks at the new one alone, a parity brick at both, any other at none.
#[derive(Clone, Copy, Default)]
struct Moved {
    carried: usize,
    needed: usize,
}

impl Moved {
    /// A round's messages to n bricks, m of the data, and so many replies with a block.
    fn add(&mut self, kind: u8, (n, m, size, _): proved::Four, held: usize) {
        let (carried, needed) = match kind {
            WRITE => (n, n),
            MODIFY => (2 * n, 1 + 2 * (n - m)),
            _ => (0, 0),
        };
        self.carried += (carried + held) * size;
        self.needed += (needed + held) * size;
    }
}

struct Ours {
    four: proved::Four,
    images: Vec<Vec<u8>>,
    lent: Lent,
    blocks: Vec<u8>,
    stripe: Vec<u8>,
    coded: Vec<u8>,
    outs: Vec<Vec<u8>>,
    replies: Vec<proved::Replied>,
    moved: Moved,
}

impl Ours {
    fn start(&mut self, op: Op, data: &[u8]) {
        let Ours { four, lent, stripe, .. } = self;
        let number = match op {
            Op::Write => proved::start_write(*four, lent, STRIPE, READING, data, stripe),
            Op::Read => proved::start_read(*four, lent, STRIPE, READING, 1),
            Op::WriteBlock => proved::start_write_block(*four, lent, STRIPE, READING, NUMBER, block_of(data, four.2), stripe),
            Op::ReadBlock => proved::start_read_block(*four, lent, STRIPE, READING, NUMBER),
        };
        assert_eq!(number, 0);
    }

    /// What was sent reaches every brick, one broadcast after the other; the kind of the last.
    fn deliver(&mut self) -> u8 {
        let kinds = self.lent.sent().iter().map(|&at| self.deliver_one(at));
        kinds.last().expect("a message")
    }

    fn deliver_one(&mut self, at: answer::Message) -> u8 {
        let (n, m, size, stripes) = self.four;
        let kind = self.lent.shown[at.kind];
        let flags = self.lent.shown_row(at.targets).map(u64::from);
        let sent = &self.lent.sent;
        let asked = proved::asked(u64::from(kind), sent[at.time], sent[at.round], sent[at.max], sent[at.stripe], flags);
        let asked = proved::of_block(asked, sent[at.old], sent[at.block]);
        for b in 0..n {
            let coded = &self.coded[b * size..][..size];
            let lent = if kind == MODIFY { (block_of(&self.stripe, size), block_of(&self.blocks, size)) } else { (coded, coded) };
            let (out, reply) = (&mut self.outs[b], &mut self.replies[b]);
            let number = proved::receive((n, m, size, CAPACITY, stripes), b, &mut self.images[b], &asked, lent, out, reply);
            assert!(number == if clears(kind) { proved::SILENCE } else { 0 });
        }
        kind
    }

    /// One operation; `watch` also times the coordinator's calls.
    fn run(&mut self, op: Op, data: &[u8], watch: bool) -> Spent {
        let mut inside = Duration::ZERO;
        self.moved = Moved::default();
        let began = Instant::now();
        self.start(op, data);
        loop {
            let kind = self.deliver();
            let held = if kind == TRIM { 0 } else { self.replies.iter().filter(|reply| reply[6] == 1).count() };
            self.moved.add(kind, self.four, held);
            if kind == TRIM {
                break;
            }
            let (mut sent, mut ended) = (false, false);
            let started = watch.then(Instant::now);
            for b in 0..self.replies.len() {
                let fields = proved::taken(self.replies[b]);
                let Ours { lent, blocks, stripe, coded, .. } = self;
                let number = proved::take_reply(self.four, lent, fields, &self.outs[b], blocks, stripe, coded);
                assert!(number == 0 || (sent || ended) && number == 11);
                sent |= number == 0 && self.lent.sent[answer::SENT] > 0;
                ended |= number == 0 && self.lent.shown[answer::SEEN] != 0;
            }
            inside += started.map_or(Duration::ZERO, |t| t.elapsed());
            if !sent {
                assert!(ended);
                break;
            }
        }
        let whole = began.elapsed();
        assert!(self.lent.shown[answer::SEEN] == if op.writes() { proved::WROTE } else { proved::GAVE });
        Spent { whole, coordinator: inside }
    }
}

/// The operation's block in a buffer of blocks.
fn block_of(buffer: &[u8], size: usize) -> &[u8] {
    &buffer[NUMBER * size..][..size]
}

struct Hand {
    bricks: Vec<Brick>,
    images: Vec<Vec<u8>>,
    coordinator: Coordinator,
    outs: Vec<Vec<u8>>,
    replies: Vec<Reply>,
    /// The letter of the last operation's end.
    letter: char,
}

impl Hand {
    fn deliver(&mut self, message: &Message, size: usize) {
        let Hand { bricks, images, coordinator, outs, replies, .. } = self;
        let Message { kind, stripe, time, round, max, targets, old, block } = *message;
        for (b, brick) in bricks.iter().enumerate() {
            let (image, out) = (&mut images[b], &mut outs[b]);
            let (said, found, held) = match kind {
                READ => {
                    let target = targets >> b & 1 == 1;
                    let (said, found) = brick.read(image, target, out);
                    (said, found, said == NONE && target)
                }
                ORDER => (brick.order(image, time), 0, false),
                ORDER_READ => brick.order_read(image, time, max, out),
                ORDER_BLOCK => {
                    let (said, found) = brick.order_block(image, time, block, out);
                    (said, found, said == NONE && b == block)
                }
                WRITE => (brick.write(image, time, &coordinator.coded[b * size..][..size]), 0, false),
                MODIFY => {
                    let (old_block, new) = (block_of(&coordinator.blocks, size), block_of(&coordinator.stripe, size));
                    (brick.modify(image, time, old, block, old_block, new), 0, false)
                }
                TRIM => {
                    brick.trim(image, time);
                    continue;
                }
                _ => {
                    brick.drop_entry(image, time);
                    continue;
                }
            };
            replies[b] = Reply { kind, brick: b, stripe, time, round, yes: said == NONE, found, held, said };
        }
    }

    fn run(&mut self, op: Op, data: &[u8], four: proved::Four, watch: bool) -> Spent {
        let mut inside = Duration::ZERO;
        let began = Instant::now();
        let act = match op {
            Op::Write => self.coordinator.start_write(four, STRIPE, READING, data),
            Op::Read => self.coordinator.start_read(four, STRIPE, READING, 1),
            Op::WriteBlock => self.coordinator.start_write_block(four, STRIPE, READING, NUMBER, block_of(data, four.2)),
            Op::ReadBlock => self.coordinator.start_read_block(four, STRIPE, READING, NUMBER),
        };
        let Act::Sends(mut message) = act else { panic!("the operation starts") };
        let mut done = false;
        loop {
            self.deliver(&message, four.2);
            if message.kind == TRIM || done {
                break;
            }
            let (mut ahead, mut sent) = (None, None);
            let started = watch.then(Instant::now);
            for b in 0..self.replies.len() {
                match self.coordinator.take(four, &self.replies[b], &self.outs[b]) {
                    Act::Waits => {}
                    Act::Sends(m) => sent = Some(m),
                    Act::Clears(first, m) => (ahead, sent) = (Some(first), Some(m)),
                    Act::Written(m, letter) => (sent, done, self.letter) = (Some(m), op.writes(), letter),
                    Act::Read(m, letter) => (sent, done, self.letter) = (m, !op.writes(), letter),
                    Act::Refused(11) => assert!(sent.is_some() || done),
                    Act::Refused(_) | Act::Aborted(_) => panic!("the operation goes on"),
                }
            }
            inside += started.map_or(Duration::ZERO, |t| t.elapsed());
            if let Some(first) = ahead {
                self.deliver(&first, four.2);
            }
            match sent {
                Some(m) => message = m,
                None => break,
            }
        }
        let whole = began.elapsed();
        assert!(done);
        Spent { whole, coordinator: inside }
    }
}

/// Images of n bricks with one whole write, and with later ones that were cut.
fn start(bricks: &[Brick], (n, m, size, _): proved::Four, cut: Cut, stripe: &[u8]) -> Vec<Vec<u8>> {
    let mut coded = vec![0; n * size];
    assert_eq!(proved::encode(n, m, size, stripe, &mut coded), 0);
    let mut images: Vec<Vec<u8>> = bricks
        .iter()
        .enumerate()
        .map(|(b, brick)| {
            let mut image = vec![0; 512 * (CAPACITY + 1)];
            brick.fresh(&mut image);
            assert_eq!(brick.write(&mut image, 16, &coded[b * size..][..size]), NONE);
            brick.trim(&mut image, 16);
            image
        })
        .collect();
    for k in 0..cut.count() {
        let time = 32 + 16 * k as u64;
        for (b, brick) in bricks.iter().enumerate() {
            assert_eq!(brick.order(&mut images[b], time), NONE);
        }
        for b in cut.bricks(k, m) {
            assert_eq!(bricks[b].write(&mut images[b], time, &vec![7; size]), NONE);
        }
    }
    images
}

/// What the lent stripe, zeros at first, holds after an operation.
fn wanted((_, op, cut, ..): Case, data: &[u8], old: &[u8], size: usize) -> Vec<u8> {
    let block = match op {
        Op::Write => return data.to_vec(),
        Op::Read => return old.to_vec(),
        Op::WriteBlock => block_of(data, size),
        Op::ReadBlock => block_of(old, size),
    };
    // A recovery leaves the whole stripe there.
    let mut stripe = if cut == Cut::None { vec![0; old.len()] } else { old.to_vec() };
    stripe[NUMBER * size..][..size].copy_from_slice(block);
    stripe
}

/// A case at some settings, measured: ours, by hand, by hand with wide tests, in microseconds; then the coordinators of the first two.
fn measure(four: proved::Four, case: Case, samples: usize) -> ([f64; 5], Moved) {
    let (n, m, size, _) = four;
    let (_, op, cut, last_round, letter) = case;
    let bricks = |wide| -> Vec<Brick> { (0..n).map(|b| Brick::new((n, m, size), CAPACITY, b, wide)).collect() };
    let data: Vec<u8> = (0..m * size).map(|k| (k * 37 + k / 256) as u8).collect();
    let old: Vec<u8> = (0..m * size).map(|k| (k * 91 + 5) as u8).collect();
    let images = start(&bricks(false), four, cut, &old);
    let mut ours = Ours {
        four,
        images: images.clone(),
        lent: Lent::fresh(four, 3),
        blocks: vec![0; n * size],
        stripe: vec![0; m * size],
        coded: vec![0; n * size],
        outs: vec![vec![0; size]; n],
        replies: vec![[0; 9]; n],
        moved: Moved::default(),
    };
    let mut hands = [false, true].map(|wide| Hand {
        bricks: bricks(wide),
        images: images.clone(),
        coordinator: Coordinator::new(four, 3),
        outs: vec![vec![0; size]; n],
        replies: vec![Reply::default(); n],
        letter: ' ',
    });
    let (lent, coordinator) = (ours.lent.clone(), hands[0].coordinator.clone());
    let mut best = [f64::MAX; 5];
    for sample in 0..samples {
        let watch = sample % 2 == 1;
        let mut sum = [Duration::ZERO; 5];
        for _ in 0..TIMES {
            // The start again, not timed.
            ours.lent.clone_from(&lent);
            ours.stripe.fill(0);
            ours.images.clone_from(&images);
            for hand in &mut hands {
                hand.coordinator.clone_from(&coordinator);
                hand.images.clone_from(&images);
            }
            let a = ours.run(op, &data, watch);
            let [b, c] = &mut hands;
            let (b, c) = (b.run(op, &data, four, watch), c.run(op, &data, four, watch));
            let spent = [a.whole, b.whole, c.whole, a.coordinator, b.coordinator];
            for (sum, spent) in sum.iter_mut().zip(spent) {
                *sum += spent;
            }
        }
        for (k, sum) in sum.iter().enumerate() {
            if (k >= 3) == watch {
                best[k] = best[k].min(sum.as_nanos() as f64 / 1000.0 / f64::from(TIMES));
            }
        }
    }
    let wanted = wanted(case, &data, &old, size);
    for hand in &hands {
        assert!(ours.stripe == wanted && hand.coordinator.stripe == wanted, "the stripe");
        assert!(ours.images == hand.images, "the bricks");
        assert!([char::from(ours.lent.shown[answer::LETTER]), hand.letter] == [letter; 2], "the letter");
    }
    assert_eq!(ours.lent.sent[answer::MESSAGES[0].round], last_round, "the rounds");
    (best, ours.moved)
}

/// What an operation on one block takes, beside the operations on the stripe that do the same without it.
fn beside_the_stripe(name: &str, (time, moved): (f64, Moved), stripe: &[(f64, Moved)]) {
    let all = |of: fn(&Moved) -> usize| -> usize { stripe.iter().map(|(_, moved)| of(moved)).sum() };
    let (carried, needed) = (all(|moved| moved.carried), all(|moved| moved.needed));
    let whole: f64 = stripe.iter().map(|(time, _)| time).sum();
    println!(
        "{name:44} {:6.2}   {:6} {carried:6} {:6.2}   {:6} {needed:6} {:6.2}",
        time / whole,
        moved.carried,
        moved.carried as f64 / carried as f64,
        moved.needed,
        moved.needed as f64 / needed as f64
    );
}

/// Reading one block moves less than reading its stripe. A block write carries more than a write of the stripe: brick j's block, and in
/// Modify two blocks to each of n bricks, beside n. Writing one block without this operation takes a read and a write of the stripe; a
/// block write carries more than these two as well, but of what it carries less is looked at.
fn blocks_beside_stripes(four: proved::Four, found: &[(f64, Moved)]) {
    let [write, read, _, _, block_write, block_read, ..] = *found else { panic!("every case") };
    let (n, m, size, _) = four;
    let head = format!("n {n}, m {m}: of one block beside the stripe");
    println!("{head:44} {:>6}   {:>20}   {:>20}", "time", "bytes carried, ratio", "bytes needed, ratio");
    beside_the_stripe("block read beside read", block_read, &[read]);
    beside_the_stripe("block write beside write", block_write, &[write]);
    beside_the_stripe("block write beside read, then write", block_write, &[read, write]);
    assert!(block_read.1.carried < read.1.carried);
    assert_eq!((block_write.1.carried, write.1.carried), ((2 * n + 1) * size, n * size));
    assert!(block_write.1.needed < read.1.needed + write.1.needed);
}

fn main() {
    let samples: usize = std::env::args().nth(1).map_or(200, |a| a.parse().expect("a number of samples"));
    println!("                                               whole operation, us                       coordinator alone, us");
    println!("   n   m size  operation                           ours  by hand ratio     wide ratio       ours  by hand ratio");
    let mut most: [f64; 2] = [0.0; 2];
    let mut shapes = Vec::new();
    for (n, m, size) in [(5, 3, 256), (16, 8, 256)] {
        let four = (n, m, size, STRIPES);
        let mut found = Vec::new();
        for case in CASES {
            let ([a, b, c, d, e], moved) = measure(four, case, samples);
            println!(
                "{n:4} {m:3} {size:4}  {:31} {a:8.1} {b:8.1} {:5.2} {c:8.1} {:5.2} {d:10.1} {e:8.1} {:5.2}",
                case.0,
                a / b,
                a / c,
                d / e
            );
            most = [most[0].max(a / b), most[1].max(a / c)];
            found.push((a, moved));
        }
        shapes.push((four, found));
    }
    println!("greatest ratio of a whole operation {:.2}, beside wide tests of zeros {:.2}", most[0], most[1]);
    for (four, found) in shapes {
        blocks_beside_stripes(four, &found);
    }
}
