//! The proved coordinator against the independent one: records, answers, buffers and refusals, event by event.

use jilbagum_tests::brick::{self, Message, Reply, DROP, FULL, MODIFY, NEWER, NONE, ORDER, ORDER_BLOCK, ORDER_READ, PROMISE, READ, WRITE};
use jilbagum_tests::code;
use jilbagum_tests::coordinator::{self, Ended, Kind, Outcome, Record, Running, Step};
use jilbagum_tests::fixtures::{alter, enough_blocks, may_say};
use jilbagum_tests::harness::Proved;
use jilbagum_tests::proved::record::{
    BRICKS, COMPARISON, COUNTED, FIRST, FOUND, GRANTED, HELD, KIND, LAST, M, MAX, N, PHASE, ROUND, SIZE, STRIPE, STRIPES, TIME,
};
use jilbagum_tests::proved::{self, answer as at, record, Coordinator, Lent};
use jilbagum_tests::recovery::{Recovery, OTHER_CHOICES};
use jilbagum_tests::rng::Rng;
use jilbagum_tests::settings::{quorum, Refusal, Settings, Shape, Volume, LAST_COUNT, NO_UPPER_END};
use jilbagum_tests::image;
use jilbagum_tests::tally::Tally;

/// What happens at a coordinator. A start has its stripe and the clock's reading first, of one block then its number.
#[derive(Clone, Debug)]
enum Event {
    Write(u64, u64, Vec<u8>),
    Read(u64, u64, u64),
    WriteBlock(u64, u64, u64, Vec<u8>),
    ReadBlock(u64, u64, u64),
    Reply(Reply),
    Crash,
}

impl Event {
    fn stripe(&self) -> Option<u64> {
        match self {
            Event::Write(stripe, ..) | Event::Read(stripe, ..) => Some(*stripe),
            Event::WriteBlock(stripe, ..) | Event::ReadBlock(stripe, ..) => Some(*stripe),
            Event::Reply(reply) => Some(reply.stripe),
            Event::Crash => None,
        }
    }

    fn block(&self) -> Option<u64> {
        match self {
            Event::WriteBlock(_, _, block, _) | Event::ReadBlock(_, _, block) => Some(*block),
            _ => None,
        }
    }

    fn starts(&self) -> bool {
        !matches!(self, Event::Reply(_) | Event::Crash)
    }
}

/// The number of an operation's kind, and the kind of such a number.
fn number_of(kind: Kind) -> u8 {
    match kind {
        Kind::Read => proved::READING,
        Kind::Write => proved::WRITING,
        Kind::ReadBlock => proved::READING_BLOCK,
        Kind::WriteBlock => proved::WRITING_BLOCK,
    }
}

fn kind_of(number: u8) -> Option<Kind> {
    [Kind::Read, Kind::Write, Kind::ReadBlock, Kind::WriteBlock].into_iter().find(|&kind| number_of(kind) == number)
}

fn row(bricks: &[u8]) -> [u8; 16] {
    let mut row = [0; 16];
    row[..bricks.len()].copy_from_slice(bricks);
    row
}

/// The numbers and bytes of a record.
fn lay_out(record: &Record) -> (Vec<u64>, Vec<u8>) {
    let Lent { mut numbers, mut bytes, .. } = Lent::fresh(Proved::four(record.volume), record.number);
    numbers[LAST] = record.last;
    if let Some(running) = &record.running {
        let Running { stripe, time, round, max, first, .. } = *running;
        for (place, number) in [(STRIPE, stripe), (TIME, time), (ROUND, round), (MAX, max), (FIRST, first)] {
            numbers[place] = number;
        }
        bytes[KIND] = number_of(running.kind);
        bytes[PHASE] = running.open;
        for reply in &running.replies {
            let b = reply.brick as usize;
            numbers[FOUND + b] = reply.found;
            bytes[COUNTED + b] = 1;
            bytes[GRANTED + b] = u8::from(reply.yes);
            bytes[HELD + b] = u8::from(reply.block.is_some());
            bytes[COMPARISON + b] = reply.comparison;
        }
        bytes[BRICKS..COMPARISON].copy_from_slice(&row(&running.bricks));
    }
    (numbers, bytes)
}

/// The record of such numbers and bytes, with the settings that it names itself; none where they stand for none.
fn read_out(c: &Coordinator) -> Option<Record> {
    let (numbers, bytes) = (&c.lent.numbers, &c.lent.bytes);
    let volume = Volume::new(numbers[N], numbers[M], numbers[SIZE], numbers[STRIPES]);
    let shape = volume.shape;
    if volume.refusal().is_some() {
        return None;
    }
    let mut record = Record { volume, number: numbers[record::COORDINATOR], last: numbers[LAST], running: None };
    if bytes[KIND] == 0 {
        let unset = [STRIPE, TIME, ROUND, MAX, FIRST].iter().all(|&place| numbers[place] == 0) && numbers[FOUND..].iter().all(|&x| x == 0);
        return (unset && bytes.iter().all(|&x| x == 0)).then_some(record);
    }
    let (kind, open) = (kind_of(bytes[KIND])?, bytes[PHASE]);
    // The bricks that a read decoded from while it stores what it found.
    let named = if kind.reads() && open == WRITE { shape.m as usize } else { 0 };
    let (bricks, rest) = bytes[BRICKS..COMPARISON].split_at(named);
    if rest.iter().any(|&b| b != 0) || bricks.windows(2).any(|pair| pair[0] >= pair[1]) {
        return None;
    }
    let size = shape.size as usize;
    let mut replies = Vec::new();
    for b in 0..16 {
        let (counted, granted, held, found) = (bytes[COUNTED + b], bytes[GRANTED + b], bytes[HELD + b], numbers[FOUND + b]);
        let comparison = bytes[COMPARISON + b];
        if counted > 1 || granted > 1 || held > 1 || (counted == 0 && (granted, held, found, comparison) != (0, 0, 0, 0)) {
            return None;
        }
        let block = c.blocks.get(b * size..(b + 1) * size).map_or(vec![0; size], <[u8]>::to_vec);
        if counted == 1 {
            replies.push(Reply {
                kind: open,
                brick: b as u64,
                stripe: numbers[STRIPE],
                time: numbers[TIME],
                round: numbers[ROUND],
                yes: granted == 1,
                found,
                block: (held == 1).then_some(block),
                comparison,
            });
        }
    }
    // The stripe holds what a write keeps: all of it, or its block at its place.
    let stripe = if c.stripe.len() == shape.data_len() { c.stripe.clone() } else { vec![0; shape.data_len()] };
    let data = match kind {
        Kind::Write => stripe,
        _ if open == WRITE => stripe,
        Kind::WriteBlock if numbers[FIRST] < shape.m => shape.block(&stripe, numbers[FIRST] as usize).to_vec(),
        Kind::WriteBlock => vec![0; size],
        Kind::Read | Kind::ReadBlock => Vec::new(),
    };
    record.running = Some(Running {
        kind,
        stripe: numbers[STRIPE],
        time: numbers[TIME],
        round: numbers[ROUND],
        open,
        max: numbers[MAX],
        first: numbers[FIRST],
        data,
        bricks: bricks.to_vec(),
        replies,
    });
    Some(record)
}

/// What the independent coordinator makes of an event: a refusal, or the record that follows and its step.
fn judged(volume: Volume, c: &Coordinator, event: &Event) -> Result<(Record, Step), Refusal> {
    let shape = volume.shape;
    let number = c.lent.numbers.first().copied().unwrap_or(0);
    let lent = [c.lent.numbers.len(), c.lent.bytes.len(), c.lent.sent.len(), c.lent.shown.len()];
    if volume.refusal().is_some() {
        return Err(1);
    }
    if lent != [record::NUMBERS, record::BYTES, proved::answer::NUMBERS, proved::answer::BYTES] {
        return Err(2);
    }
    let stripe_fits = c.stripe.len() == shape.data_len();
    let blocks_fit = c.blocks.len() == shape.coded_len() && c.coded.len() == shape.coded_len();
    match event {
        Event::Write(..) | Event::WriteBlock(..) if !stripe_fits => return Err(2),
        Event::Reply(_) if !stripe_fits || !blocks_fit => return Err(2),
        _ => {}
    }
    let Some(mut record) = read_out(c) else {
        return Err(match event {
            Event::Write(.., data) if data.len() != shape.data_len() => 2,
            Event::WriteBlock(.., data) if data.len() as u64 != shape.size => 2,
            Event::Reply(reply) if reply.block.as_ref().is_some_and(|b| b.len() as u64 != shape.size) => 2,
            Event::Reply(reply) if reply.brick >= shape.n => 3,
            Event::Read(.., first) if *first >= shape.n => 3,
            _ if number > 15 => 3,
            _ if event.stripe().is_some_and(|stripe| volume.stripe_refusal(stripe).is_some()) => 13,
            _ if event.block().is_some_and(|block| shape.block_refusal(block).is_some()) => 14,
            _ => 6,
        });
    };
    let step = match event {
        Event::Write(stripe, reading, data) => coordinator::start_write(volume, number, &mut record, *stripe, *reading, data),
        Event::Read(stripe, reading, first) => coordinator::start_read(volume, number, &mut record, *stripe, *reading, *first),
        Event::WriteBlock(stripe, reading, block, data) => {
            coordinator::start_write_block(volume, number, &mut record, *stripe, *reading, *block, data)
        }
        Event::ReadBlock(stripe, reading, block) => {
            coordinator::start_read_block(volume, number, &mut record, *stripe, *reading, *block)
        }
        Event::Reply(reply) => coordinator::take_reply(volume, number, &mut record, reply),
        Event::Crash => coordinator::crash(volume, number, &mut record),
    };
    step.map(|step| (record, step))
}

/// The four buffers' answer: sixteen numbers and 53 bytes, with nothing in the places of a message that isn't sent. What ended has its
/// letter.
fn answer(shape: Shape, event: &Event, record: &Record, step: &Step) -> (Vec<u64>, Vec<u8>) {
    let (mut sent, mut shown) = (vec![0; at::NUMBERS], vec![0; at::BYTES]);
    let broadcasts = step.sent.chunks(shape.n as usize);
    sent[at::SENT] = broadcasts.len() as u64;
    for (broadcast, place) in broadcasts.zip(at::MESSAGES) {
        assert_eq!(broadcast.len() as u64, shape.n);
        let message = &broadcast[0];
        (sent[place.time], sent[place.round], sent[place.max]) = (message.time, message.round, message.max);
        (sent[place.stripe], sent[place.old], sent[place.block]) = (message.stripe, message.old_time, message.number);
        shown[place.kind] = message.kind;
        for &target in &message.targets {
            shown[place.targets + target as usize] = 1;
        }
    }
    if let Some(ended) = &step.ended {
        let (what, bricks) = match &ended.outcome {
            Outcome::Ok => (2, Vec::new()),
            Outcome::Gave { bricks, .. } => (3, bricks.clone()),
            Outcome::Abort => (4, Vec::new()),
            Outcome::Cut => (5, Vec::new()),
        };
        shown[1..3].copy_from_slice(&[what, number_of(ended.kind)]);
        shown[19..35].copy_from_slice(&row(&bricks));
        shown[52] = ended.letter as u8;
        (sent[at::SEEN_TIME], sent[at::SEEN_STRIPE], sent[at::SEEN_BLOCK]) = (ended.time, ended.stripe, ended.block);
    } else if let (true, Some(running)) = (event.starts(), &record.running) {
        shown[1..3].copy_from_slice(&[1, number_of(running.kind)]);
        (sent[at::SEEN_TIME], sent[at::SEEN_STRIPE]) = (running.time, running.stripe);
        sent[at::SEEN_BLOCK] = event.block().unwrap_or(0);
    }
    (sent, shown)
}

/// Why a recovery is aborted by a reply.
fn recovery_abort(shape: Shape, c: &Coordinator, reply: &Reply) -> &'static str {
    let counted = read_out(c).and_then(|record| record.running).map_or(Vec::new(), |running| running.replies);
    let replies = [&counted[..], std::slice::from_ref(reply)].concat();
    if replies.iter().any(|reply| !reply.yes) {
        "recovery aborted by a no"
    } else if replies.iter().all(|reply| reply.block.is_none()) {
        "recovery aborted without a block"
    } else if enough_blocks(shape.m, &replies) {
        "recovery aborted as blocks disagree"
    } else {
        "recovery aborted at time 0 on few bricks"
    }
}

/// What happened, in words that a tally counts.
fn what_happened(before: u8, c: &Coordinator, event: &Event, record: &Record, step: &Step) -> String {
    let shape = record.volume.shape;
    let sent = step.sent.last().map(|message| (message.kind, message.round));
    let ended = step.ended.as_ref();
    let running = record.running.as_ref().map(|running| running.kind);
    let kind = ended.map(|ended| ended.kind).or(running);
    let of = if kind.is_some_and(Kind::of_block) { "block " } else { "" };
    let what = match (event, sent, ended.map(|ended| &ended.outcome)) {
        (Event::Write(..) | Event::WriteBlock(..), ..) => "write begins".to_string(),
        (Event::Read(..) | Event::ReadBlock(..), ..) => "read begins".to_string(),
        (Event::Crash, _, Some(_)) => "cut".to_string(),
        (Event::Crash, _, None) => "idle crash".to_string(),
        (Event::Reply(_), None, None) => "waits".to_string(),
        (Event::Reply(_), Some((MODIFY, _)), None) => "modifies".to_string(),
        (Event::Reply(_), Some((ORDER_READ, round)), _) => format!("recovery round {}", round.min(5)),
        (Event::Reply(_), Some((WRITE, round)), _) => format!("write round {}", round.min(5)),
        (Event::Reply(r), _, Some(Outcome::Abort)) if r.round == 1000 => "abort at round 1000".to_string(),
        (Event::Reply(r), _, Some(Outcome::Abort)) if before == ORDER_READ => recovery_abort(shape, c, r).to_string(),
        (Event::Reply(_), _, Some(Outcome::Abort)) => format!("abort in phase {before}"),
        (Event::Reply(_), _, Some(Outcome::Ok)) if before == MODIFY => "written by Modify".to_string(),
        (Event::Reply(_), _, Some(Outcome::Ok)) => "written".to_string(),
        (Event::Reply(r), _, Some(Outcome::Gave { .. })) if r.kind == READ => "read in one round".to_string(),
        (Event::Reply(_), _, Some(Outcome::Gave { .. })) => "recovered".to_string(),
        other => format!("{other:?}"),
    };
    format!("{of}{what}")
}

/// What the lent stripe must be after an event: a write keeps its bytes there, a block write its block; a read leaves there what it gave, a
/// recovery the whole stripe.
fn stripe_after(shape: Shape, before: &[u8], event: &Event, record: &Record, step: &Step) -> Vec<u8> {
    let mut stripe = before.to_vec();
    match event {
        Event::Write(.., data) => stripe.clone_from(data),
        Event::WriteBlock(.., block, data) => shape.put_block(&mut stripe, *block as usize, data),
        _ => {}
    }
    if let Some(running) = record.running.as_ref().filter(|running| running.open == WRITE) {
        stripe.clone_from(&running.data);
    }
    if let Some(Ended { kind, block, outcome: Outcome::Gave { data, .. }, .. }) = &step.ended {
        match kind {
            Kind::ReadBlock => shape.put_block(&mut stripe, *block as usize, data),
            _ => stripe.clone_from(data),
        }
    }
    stripe
}

/// What the lent coordinator must be after an event, and the number returned.
fn expected(volume: Volume, c: &Coordinator, event: &Event, tally: &mut Tally) -> (Coordinator, u32, Step) {
    let mut after = c.clone();
    let before = c.lent.bytes.get(PHASE).copied().unwrap_or(0);
    let (record, step) = match judged(volume, c, event) {
        Err(number) => {
            tally.add(format!("refusal {number}"), 1);
            return (after, u32::from(number), Step::default());
        }
        Ok(done) => done,
    };
    (after.lent.numbers, after.lent.bytes) = lay_out(&record);
    (after.lent.sent, after.lent.shown) = answer(volume.shape, event, &record, &step);
    after.stripe = stripe_after(volume.shape, &c.stripe, event, &record, &step);
    if let Event::Reply(Reply { brick, block: Some(block), .. }) = event {
        let at = *brick as usize * block.len();
        after.blocks[at..at + block.len()].copy_from_slice(block);
    }
    let stores: Vec<&Message> = step.sent.iter().filter(|message| message.kind == WRITE).collect();
    if !stores.is_empty() {
        after.coded = stores.into_iter().flat_map(|message| message.block.clone()).collect();
    }
    tally.add(what_happened(before, c, event, &record, &step), 1);
    if let (Some(running), true) = (&record.running, step.sent.len() as u64 > volume.shape.n) {
        let of = if running.kind.of_block() { "block " } else { "" };
        let ahead = if step.sent[0].kind == DROP { "Drops" } else { "early Trims" };
        tally.add(format!("{of}{ahead} ahead"), 1);
    }
    if let Some(ended) = &step.ended {
        let of = if ended.kind.of_block() { "block " } else { "" };
        tally.add(format!("{of}letter {}", ended.letter), 1);
    }
    (after, 0, step)
}

/// Both coordinators at one event: every buffer and the number returned are compared.
fn compare(volume: Volume, c: &mut Coordinator, event: &Event, tally: &mut Tally) -> Step {
    let (after, number, step) = expected(volume, c, event, tally);
    let before = c.clone();
    let four = Proved::four(volume);
    let ours = match event {
        Event::Write(stripe, reading, data) => {
            proved::start_write(four, &mut c.lent, *stripe as usize, *reading, data, &mut c.stripe)
        }
        Event::Read(stripe, reading, first) => proved::start_read(four, &mut c.lent, *stripe as usize, *reading, *first as usize),
        Event::WriteBlock(stripe, reading, block, data) => {
            proved::start_write_block(four, &mut c.lent, *stripe as usize, *reading, *block as usize, data, &mut c.stripe)
        }
        Event::ReadBlock(stripe, reading, block) => {
            proved::start_read_block(four, &mut c.lent, *stripe as usize, *reading, *block as usize)
        }
        Event::Crash => proved::crash(four, &mut c.lent),
        Event::Reply(r) => {
            let held = r.block.is_some();
            let block = r.block.clone().unwrap_or_else(|| vec![0xEE; (r.round % 3) as usize]);
            let fields = (r.kind, r.brick as usize, r.stripe as usize, r.time, r.round, r.yes, r.found, held, r.comparison);
            let Coordinator { lent, blocks, stripe, coded } = c;
            proved::take_reply(four, lent, fields, &block, blocks, stripe, coded)
        }
    };
    assert_eq!(ours, number, "{volume:?} {event:?} at {before:?}");
    assert!(*c == after, "{volume:?} {event:?} at {before:?}\nours {c:?}\nexpected {after:?}");
    step
}

/// Bricks, coordinators and what is under way between them.
struct World {
    settings: Settings,
    /// The row of each brick's images.
    images: Vec<Vec<u8>>,
    coordinators: Vec<Coordinator>,
    messages: Vec<(usize, Message)>,
    replies: Vec<Reply>,
    old: Vec<Reply>,
    clock: u64,
    /// A reply's block is altered on its way once in so many.
    altered: u64,
}

fn fresh(volume: Volume, number: u64, rng: &mut Rng) -> Coordinator {
    let shape = volume.shape;
    let mut lent = Lent::fresh(Proved::four(volume), number);
    lent.sent.fill(77);
    lent.shown.fill(77);
    let (blocks, coded) = (rng.bytes(shape.coded_len()), rng.bytes(shape.coded_len()));
    Coordinator { lent, blocks, stripe: rng.bytes(shape.data_len()), coded }
}

fn some_volume(rng: &mut Rng) -> Volume {
    let pairs = [(1, 1), (3, 1), (5, 3), (7, 5), (16, 8), (16, 16), (4, 2), (6, 2), (9, 4), (2, 2), (16, 1)];
    let sizes = [1, 2, 3, 16, 64, 256];
    let (n, m) = pairs[rng.below(pairs.len() as u64) as usize];
    let stripes = [1, 1, 2, 3, 5, 64][rng.below(6) as usize];
    Volume::new(n, m, sizes[rng.below(if n > 9 { 4 } else { 6 }) as usize], stripes)
}

impl World {
    fn new(Volume { shape, stripes }: Volume, altered: u64, rng: &mut Rng) -> World {
        let settings = Settings { shape, capacity: if rng.once_in(2) { 2 } else { rng.between(3, 7) }, stripes };
        World {
            settings,
            images: (0..shape.n).map(|b| image::fresh_row(settings, b).unwrap()).collect(),
            coordinators: (0..3).map(|number| fresh(settings.volume(), number * 7, rng)).collect(),
            messages: Vec::new(),
            replies: Vec::new(),
            old: Vec::new(),
            clock: 0,
            altered,
        }
    }

    fn event(&mut self, at: usize, event: &Event, tally: &mut Tally) {
        let step = compare(self.settings.volume(), &mut self.coordinators[at], event, tally);
        let n = self.images.len();
        self.messages.extend(step.sent.into_iter().enumerate().map(|(k, message)| (k % n, message)));
    }

    /// A crash; half of them take the bytes of the lent buffers, which hold others then.
    fn crash(&mut self, at: usize, rng: &mut Rng, tally: &mut Tally) {
        self.event(at, &Event::Crash, tally);
        if rng.once_in(2) {
            self.coordinators[at].overwrite(rng);
            tally.add("buffers overwritten", 1);
        }
    }

    fn idle(&self, at: usize) -> bool {
        !self.coordinators[at].lent.running()
    }

    /// Mostly one of two stripes, so that operations meet.
    fn some_stripe(&self, rng: &mut Rng) -> u64 {
        let stripes = self.settings.stripes;
        if rng.once_in(4) {
            rng.below(stripes)
        } else {
            (stripes - 1) * rng.below(2)
        }
    }

    fn start(&mut self, at: usize, rng: &mut Rng, tally: &mut Tally) {
        self.clock += rng.below(3);
        let (stripe, reading, shape) = (self.some_stripe(rng), self.clock, self.settings.shape);
        let block = rng.below(shape.m);
        let event = match rng.below(4) {
            0 => Event::Read(stripe, reading, rng.below(shape.n)),
            1 => Event::Write(stripe, reading, rng.bytes(shape.data_len())),
            2 => Event::ReadBlock(stripe, reading, block),
            _ => Event::WriteBlock(stripe, reading, block, rng.bytes(shape.size as usize)),
        };
        self.event(at, &event, tally);
    }

    /// A message reaches its brick.
    fn deliver(&mut self, which: usize) {
        let (b, message) = self.messages.swap_remove(which);
        self.replies.extend(brick::take_in_row(self.settings, b as u64, &mut self.images[b], &message).unwrap());
    }

    /// A reply reaches the coordinator in its time.
    fn answer(&mut self, which: usize, rng: &mut Rng, tally: &mut Tally) {
        let mut reply = self.replies.swap_remove(which);
        if rng.once_in(self.altered) {
            alter(&mut reply, rng);
        }
        let at = (reply.time % 16 / 7) as usize;
        self.event(at, &Event::Reply(reply.clone()), tally);
        self.old.push(reply);
    }

    /// Everything under way arrives, in a random order; a message is lost once in so many.
    fn settle(&mut self, lost: u64, rng: &mut Rng, tally: &mut Tally) {
        while !self.messages.is_empty() || !self.replies.is_empty() {
            let k = rng.below((self.messages.len() + self.replies.len()) as u64) as usize;
            if k >= self.messages.len() {
                self.answer(k - self.messages.len(), rng, tally);
            } else if rng.once_in(lost) {
                self.messages.swap_remove(k);
            } else {
                self.deliver(k);
            }
        }
    }

    /// A write whose blocks reach a few bricks only, and that is cut.
    fn partial_write(&mut self, at: usize, rng: &mut Rng, tally: &mut Tally) {
        self.clock += 1;
        let (stripe, shape) = (self.some_stripe(rng), self.settings.shape);
        let write = match rng.below(3) {
            0 => Event::WriteBlock(stripe, self.clock, rng.below(shape.m), rng.bytes(shape.size as usize)),
            _ => Event::Write(stripe, self.clock, rng.bytes(shape.data_len())),
        };
        self.event(at, &write, tally);
        while !self.messages.is_empty() && !self.messages[0].1.holds_a_block() {
            self.deliver(0);
        }
        while !self.replies.is_empty() {
            self.answer(0, rng, tally);
        }
        let few = rng.below(self.settings.shape.m.max(2));
        for _ in 0..few {
            if !self.messages.is_empty() {
                let k = rng.below(self.messages.len() as u64) as usize;
                self.deliver(k);
            }
        }
        self.messages.clear();
        self.replies.clear();
        self.crash(at, rng, tally);
    }
}

/// So many schedules, with replies altered once in so many.
fn schedules(count: usize, altered: u64, rng: &mut Rng, tally: &mut Tally) {
    for _ in 0..count {
        let mut world = World::new(some_volume(rng), altered, rng);
        for _ in 0..12 {
            let at = rng.below(3) as usize;
            match rng.below(6) {
                0 | 1 if world.idle(at) => world.partial_write(at, rng, tally),
                2 => {
                    // Two operations at once.
                    for at in [at, (at + 1) % 3] {
                        if world.idle(at) {
                            world.start(at, rng, tally);
                        }
                    }
                    world.settle(12, rng, tally);
                }
                3 => world.crash(at, rng, tally),
                _ => {
                    if world.idle(at) {
                        world.start(at, rng, tally);
                    }
                    let lost = if rng.once_in(3) { 8 } else { u64::MAX };
                    world.settle(lost, rng, tally);
                }
            }
            if !world.old.is_empty() && rng.once_in(2) {
                let k = rng.below(world.old.len() as u64) as usize;
                let (late, to) = (world.old[k].clone(), rng.below(3) as usize);
                world.event(to, &Event::Reply(late), tally);
            }
            for at in 0..3 {
                if !world.idle(at) && rng.once_in(2) {
                    world.crash(at, rng, tally);
                }
            }
            world.messages.clear();
        }
    }
}

#[test]
fn schedules_with_bricks() {
    let mut rng = Rng::printed(31);
    let mut tally = Tally::default();
    schedules(2400, u64::MAX, &mut rng, &mut tally);
    // "In a run from a fresh set this is shown never to happen."
    assert!(tally.0.keys().all(|what| !what.contains("disagree")), "{:?}", tally.0);
    println!("{:?}", tally.0);
    tally.expect(
        20,
        &[
            "write begins", "read begins", "waits", "cut", "idle crash", "buffers overwritten", "written",
            "read in one round", "recovered", "recovery round 2", "recovery round 3", "recovery round 4", "recovery round 5", "write round 2",
            "write round 3", "write round 4", "write round 5", "abort in phase 2", "recovery aborted by a no",
            "abort in phase 5", "refusal 11",
            "block write begins", "block read begins", "block waits", "block cut", "block modifies", "block written by Modify",
            "block written", "block read in one round", "block recovered", "block recovery round 2", "block recovery round 3",
            "block write round 3", "block write round 4", "block abort in phase 4", "block abort in phase 6",
            "block recovery aborted by a no",
        ],
    );
    tally.expect(20, &LETTERS_OF_RUNS);
    tally.expect(20, &AHEAD);
}

/// Drops and early Trims, of operations on stripes and on blocks.
const AHEAD: [&str; 4] = ["Drops ahead", "early Trims ahead", "block Drops ahead", "block early Trims ahead"];

/// The letters that runs of bricks lead to, on stripes and on blocks; X is hardly among them.
const LETTERS_OF_RUNS: [&str; 16] = [
    "letter F", "letter H", "letter L", "letter S", "letter O", "letter G", "letter W", "letter C",
    "block letter F", "block letter H", "block letter L", "block letter S", "block letter O", "block letter G", "block letter W",
    "block letter C",
];

/// The same with blocks altered on their way: a read in one round gives what it decodes to, a recovery with more than m blocks aborts.
#[test]
fn schedules_with_altered_blocks() {
    let mut rng = Rng::printed(37);
    let mut tally = Tally::default();
    schedules(1200, 10, &mut rng, &mut tally);
    println!("{:?}", tally.0);
    let seen = ["recovery aborted as blocks disagree", "block recovery aborted as blocks disagree"];
    tally.expect(100, &seen);
    tally.expect(20, &["written", "recovered", "read in one round", "block written", "block recovered", "block read in one round"]);
}

/// A coordinator in the first recovery round of an operation: all said no to a read; of a block write times differ.
fn recovering(volume: Volume, kind: Kind, rng: &mut Rng, tally: &mut Tally) -> Coordinator {
    let Shape { n, m, size } = volume.shape;
    let mut c = fresh(volume, 3, rng);
    let block = rng.below(m);
    let begin = match kind {
        Kind::Read => Event::Read(1, 5, rng.below(n)),
        Kind::ReadBlock => Event::ReadBlock(1, 5, block),
        _ => Event::WriteBlock(1, 5, block, rng.bytes(size as usize)),
    };
    compare(volume, &mut c, &begin, tally);
    for brick in 0..quorum(n, m).unwrap() {
        let own = kind == Kind::WriteBlock && brick == block;
        let block = own.then(|| rng.bytes(size as usize));
        let (kind, yes) = (c.lent.bytes[PHASE], kind == Kind::WriteBlock);
        let comparison = if yes { NONE } else { PROMISE };
        let reply = Reply { kind, brick, stripe: 1, time: 83, round: 1, yes, found: 16 + brick % 2, block, comparison };
        compare(volume, &mut c, &Event::Reply(reply), tally);
    }
    assert_eq!((c.lent.bytes[PHASE], c.lent.numbers[ROUND]), (ORDER_READ, 2));
    c
}

/// A recovery's replies: those of the chosen time give blocks of one coded stripe, the others other bytes of a lower time. Each byte of
/// each block of the chosen time is altered in turn, of the first m by number and of all beyond them. With m of them the stripe is another
/// one; with more nothing is sent or named, the record is idle with its clock, the replies' blocks lie in their places, and stripe and
/// coded blocks keep their bytes.
#[test]
fn a_recovery_whose_blocks_disagree_is_aborted() {
    let mut rng = Rng::printed(38);
    let mut tally = Tally::default();
    for (n, m, size) in [(4, 2, 1), (3, 1, 2), (5, 3, 2), (7, 3, 3), (16, 8, 2), (16, 1, 1), (8, 6, 256)] {
        let volume = Volume::new(n, m, size, 3);
        let (shape, q, length) = (volume.shape, quorum(n, m).unwrap(), size as usize);
        let coded = code::encode(n, m, size, &rng.bytes(shape.data_len())).unwrap();
        for (kind, count) in [Kind::Read, Kind::ReadBlock, Kind::WriteBlock].into_iter().flat_map(|kind| [m, m + 1, q].map(|k| (kind, k))) {
            let mut begun = recovering(volume, kind, &mut rng, &mut tally);
            if rng.once_in(3) {
                // A later round.
                (begun.lent.numbers[ROUND], begun.lent.numbers[MAX]) = (7, 64);
            }
            let (round, number) = (begun.lent.numbers[ROUND], begun.lent.numbers[FIRST]);
            // The first q are counted, the first of these give the chosen time.
            let bricks = rng.shuffled(n as usize);
            let mut givers = bricks[..count as usize].to_vec();
            givers.sort_unstable();
            // Each byte of the blocks of the chosen time, and none; of long blocks some.
            let step = if length > 16 { 41 } else { 1 };
            for altered in (0..count as usize * length).step_by(step).map(Some).chain([None]) {
                let mut c = begun.clone();
                let mut given = begun.blocks.clone();
                // In any order, so that the decisive reply may hold the chosen time or not.
                for place in rng.shuffled(q as usize) {
                    let brick = bricks[place];
                    let chosen = (place as u64) < count;
                    let mut block = if chosen { shape.block(&coded, brick).to_vec() } else { rng.bytes(length) };
                    if let Some(at) = altered.filter(|at| at / length == place) {
                        block[at % length] ^= rng.between(1, 255) as u8;
                    }
                    shape.put_block(&mut given, brick, &block);
                    let found = if chosen { 40 } else { 16 * rng.below(2) };
                    let (kind, brick, block) = (ORDER_READ, brick as u64, Some(block));
                    let reply = Reply { kind, brick, stripe: 1, time: 83, round, yes: true, found, block, comparison: NONE };
                    compare(volume, &mut c, &Event::Reply(reply), &mut tally);
                }
                assert!(c.blocks == given);
                if altered.is_none() || count == m {
                    assert_eq!((c.lent.bytes[PHASE], c.lent.numbers[ROUND]), (WRITE, round + 1));
                    continue;
                }
                let altered = altered.map(|at| bricks[at / length]).unwrap();
                let named = givers[..m as usize].contains(&altered);
                tally.add(if named { "one of the first m altered" } else { "one beyond the first m altered" }, 1);
                // Nothing is named.
                let mut idle = Lent::fresh(Proved::four(volume), 3);
                idle.numbers[LAST] = 5;
                idle.shown[at::SEEN..=at::SEEN_KIND].copy_from_slice(&[proved::ABORTED, number_of(kind)]);
                idle.shown[at::LETTER] = b'X';
                (idle.sent[at::SEEN_TIME], idle.sent[at::SEEN_STRIPE]) = (83, 1);
                idle.sent[at::SEEN_BLOCK] = if kind.of_block() { number } else { 0 };
                assert!(c.lent == idle, "{:?}", c.lent);
                assert!(c.stripe == begun.stripe && c.coded == begun.coded);
            }
        }
    }
    println!("{:?}", tally.0);
    tally.expect(100, &["recovery aborted as blocks disagree", "block recovery aborted as blocks disagree"]);
    tally.expect(6, &["write round 3", "block write round 3"]);
    tally.expect(100, &["letter X", "block letter X"]);
    tally.expect(100, &["one of the first m altered", "one beyond the first m altered"]);
}

/// A read of one round decodes from its targets and looks at nothing else: altered blocks of m targets give other bytes and no abort.
#[test]
fn a_read_of_one_round_checks_nothing() {
    let mut rng = Rng::printed(39);
    let mut tally = Tally::default();
    let volume = Volume::new(5, 3, 2, 2);
    for first in 0..5 {
        for kind in [Kind::Read, Kind::ReadBlock] {
            let mut c = fresh(volume, 3, &mut rng);
            let first = if kind == Kind::Read { first } else { first % 3 };
            let begin = if kind == Kind::Read { Event::Read(1, 5, first) } else { Event::ReadBlock(1, 5, first) };
            compare(volume, &mut c, &begin, &mut tally);
            let targets = c.lent.shown_row(at::MESSAGES[0].targets);
            for k in 0..4 {
                let brick = (first + k) % 5;
                let block = (targets[brick as usize] == 1).then(|| rng.bytes(2));
                let reply = Reply { kind: READ, brick, stripe: 1, time: 83, round: 1, yes: true, found: 40, block, comparison: NONE };
                compare(volume, &mut c, &Event::Reply(reply), &mut tally);
            }
            assert_eq!((c.lent.shown[at::SEEN], c.lent.shown[at::LETTER]), (proved::GAVE, b'F'));
        }
    }
    tally.expect(5, &["read in one round", "block read in one round"]);
}

/// A start of a read of the stripe, or of one block, at a clock's reading, with this first target.
fn read_from(kind: Kind, stripe: u64, reading: u64, first: u64) -> Event {
    match kind {
        Kind::ReadBlock => Event::ReadBlock(stripe, reading, first),
        _ => Event::Read(stripe, reading, first),
    }
}

/// A coordinator whose read met all replies of a recovery, those after the q-th of a round too.
fn recovered(volume: Volume, number: u64, begin: &Event, found: &Recovery, rng: &mut Rng, tally: &mut Tally) -> Coordinator {
    let mut c = fresh(volume, number, rng);
    compare(volume, &mut c, begin, tally);
    let (stripe, time) = (c.lent.numbers[STRIPE], c.lent.numbers[TIME]);
    for reply in found.replies(stripe, time).into_iter().flatten() {
        compare(volume, &mut c, &Event::Reply(reply), tally);
    }
    assert_eq!((c.lent.running(), c.lent.shown[at::SEEN]), (false, proved::GAVE));
    c
}

/// E7: a recovered read, of the stripe or of one block, names the first m by number of those counted in the round that decided which gave
/// the highest time, and gives what was stored at that time; whatever the order of arrival, the first target, and the bricks that gave
/// another time, gave it in an earlier round or came too late.
#[test]
fn recovered_reads_name_the_first_m() {
    let mut rng = Rng::printed(46);
    let mut tally = Tally::default();
    for _ in 0..2000 {
        let volume = some_volume(&mut rng);
        let Shape { n, m, .. } = volume.shape;
        let found = Recovery::some(volume.shape, &mut rng);
        for (kind, of, targets) in [(Kind::Read, "", n), (Kind::ReadBlock, "block ", m)] {
            let first = rng.below(targets);
            let begin = read_from(kind, rng.below(volume.stripes), rng.below(99), first);
            let c = recovered(volume, rng.below(16), &begin, &found, &mut rng, &mut tally);
            let counted = &found.rounds[found.rounds.len() - 1][..quorum(n, m).unwrap() as usize];
            let holding = || counted.iter().filter(|reply| reply.block.is_some());
            let highest = holding().map(|reply| reply.found).max().unwrap();
            let givers = holding().filter(|reply| reply.found == highest);
            let mut named: Vec<u8> = givers.map(|reply| reply.brick as u8).collect();
            named.sort_unstable();
            tally.add("more than m givers", usize::from(named.len() as u64 > m));
            named.truncate(m as usize);
            assert_eq!(c.lent.shown_row(at::BRICKS), row(&named), "{begin:?} {found:?}");
            assert_eq!((c.lent.shown[at::SEEN_KIND], c.lent.shown[at::LETTER]), (number_of(kind), found.letter() as u8));
            // A block stands at its place in the stripe found.
            assert!(c.stripe == found.data, "{begin:?} {found:?}");
            tally.add(format!("{of}first m named, {}", found.letter()), 1);
            found.count_choices(first, &named, &mut tally);
        }
    }
    println!("{:?}", tally.0);
    tally.expect(200, &OTHER_CHOICES);
    tally.expect(200, &["more than m givers"]);
    tally.expect(200, &["first m named, H", "first m named, L", "block first m named, H", "block first m named, L"]);
}

/// E7: the same replies, at the first time tried and at a lower one, met in other orders, by other coordinators, at other readings of their
/// clocks and with other first targets, by reads of the stripe and of one block: the same bricks are named and the same stripe is found.
#[test]
fn same_replies_same_answer() {
    let mut rng = Rng::printed(47);
    let mut tally = Tally::default();
    for _ in 0..1000 {
        let volume = some_volume(&mut rng);
        let Shape { n, m, .. } = volume.shape;
        let found = Recovery::some(volume.shape, &mut rng);
        let (number, reading, first) = (rng.below(16), rng.between(1, 99), rng.below(n));
        let (mut answers, mut choices) = (Vec::new(), Vec::new());
        for (k, kind) in (0..).zip([Kind::Read, Kind::Read, Kind::ReadBlock, Kind::ReadBlock]) {
            let first = if kind == Kind::Read { (first + k) % n } else { (first + k) % m };
            let begin = read_from(kind, rng.below(volume.stripes), reading + k, first);
            let reordered = found.reordered(&mut rng);
            let c = recovered(volume, (number + k) % 16, &begin, &reordered, &mut rng, &mut tally);
            choices.push(reordered.other_choices(first));
            answers.push((c.lent.shown_row(at::BRICKS), c.stripe));
        }
        assert!(answers.iter().all(|answer| *answer == answers[0]), "{answers:?} {found:?}");
        tally.add(format!("same answer, {}", found.letter()), 1);
        // Those by the first target and by the order of arrival would differ.
        for k in 1..3 {
            tally.add(OTHER_CHOICES[k], usize::from(choices.iter().any(|choice| choice[k] != choices[0][k])));
        }
    }
    println!("{:?}", tally.0);
    tally.expect(200, &["same answer, H", "same answer, L"]);
    tally.expect(200, &OTHER_CHOICES[1..3]);
}

/// Every choice of what the q bricks of a recovery's round give (no block, or one of time 0, 16 or 40), in a first round, later ones and
/// the last two: Drops go ahead of a further round where the highest time other than 0 is on fewer than m, early Trims ahead of the store
/// where all q hold the chosen time, other than 0, and nothing else goes ahead of anything.
#[test]
fn drops_and_early_trims_of_every_round() {
    let mut rng = Rng::printed(45);
    let mut tally = Tally::default();
    for (n, m) in [(2, 2), (3, 1), (3, 2), (3, 3), (4, 2), (4, 4), (5, 3)] {
        let volume = Volume::new(n, m, 2, 3);
        let q = quorum(n, m).unwrap() as u32;
        let stored = stored(volume, [0, 16, 40], &mut rng);
        for kind in [Kind::Read, Kind::ReadBlock, Kind::WriteBlock] {
            let first = recovering(volume, kind, &mut rng, &mut tally);
            for (choice, round) in (0..4_usize.pow(q)).flat_map(|choice| [2, 3, 7, 999, 1000].map(|round| (choice, round))) {
                let mut c = first.clone();
                if round > 2 {
                    (c.lent.numbers[ROUND], c.lent.numbers[MAX]) = (round, 64);
                }
                let chosen: Vec<usize> = (0..q).map(|k| choice / 4_usize.pow(k) % 4).collect();
                let mut step = Step::default();
                for (brick, &which) in chosen.iter().enumerate() {
                    let (found, block) = match which {
                        0 => (0, None),
                        _ => (stored[which - 1].0, Some(volume.shape.block(&stored[which - 1].1, brick).to_vec())),
                    };
                    let (kind, brick) = (ORDER_READ, brick as u64);
                    let reply = Reply { kind, brick, stripe: 1, time: 83, round, yes: true, found, block, comparison: NONE };
                    step = compare(volume, &mut c, &Event::Reply(reply), &mut tally);
                }
                let highest = *chosen.iter().max().unwrap();
                let count = chosen.iter().filter(|&&which| which == highest).count() as u64;
                let found = highest >= 2 && round < 1000;
                let ahead = match count {
                    _ if !found => None,
                    _ if count < m => Some(DROP),
                    _ if count == u64::from(q) => Some(brick::TRIM),
                    _ => None,
                };
                let expected = ahead.map_or(vec![], |kind| vec![(kind, stored[highest - 1].0, round); n as usize]);
                let sent: Vec<(u8, u64, u64)> = step.sent.iter().map(|message| (message.kind, message.time, message.round)).collect();
                assert_eq!(sent[..sent.len().saturating_sub(n as usize)], expected, "{chosen:?} in round {round}");
            }
        }
    }
    println!("{:?}", tally.0);
    tally.expect(50, &AHEAD);
    tally.expect(100, &["abort at round 1000", "block abort at round 1000"]);
}

/// Times, each with the n coded blocks of a stripe.
type Stored = Vec<(u64, Vec<u8>)>;

fn stored(Volume { shape, .. }: Volume, times: impl IntoIterator<Item = u64>, rng: &mut Rng) -> Stored {
    let mut coded = || code::encode(shape.n, shape.m, shape.size, &rng.bytes(shape.data_len())).unwrap();
    times.into_iter().map(|time| (time, coded())).collect()
}

/// A reply to the open round, right by its rules; sometimes with one field changed. Its block is that of a stripe stored, or other bytes.
fn some_reply(Volume { shape, stripes }: Volume, c: &Coordinator, stored: &Stored, rng: &mut Rng) -> Reply {
    let (numbers, bytes) = (&c.lent.numbers, &c.lent.bytes);
    let kind = if bytes[PHASE] == 0 { 1 + rng.below(6) as u8 } else { bytes[PHASE] };
    let brick = rng.below(shape.n);
    let yes = !rng.once_in(24);
    let of_block = kind_of(bytes[KIND]).is_some_and(Kind::of_block);
    let targets = if of_block { 1 } else { shape.m };
    let target = (brick + shape.n - numbers[FIRST] % shape.n) % shape.n < targets;
    let (found, coded) = &stored[rng.below(stored.len() as u64) as usize];
    let held = match kind {
        READ => yes && target,
        // In some operations few bricks hold a block.
        ORDER_READ if numbers[LAST] % 4 == 0 => yes && rng.once_in(4),
        ORDER_READ => yes && !rng.once_in(8),
        ORDER_BLOCK => yes && brick == numbers[FIRST],
        _ => false,
    };
    let shown = kind == READ || held || kind == ORDER_BLOCK && yes;
    let mut reply = Reply {
        kind,
        brick,
        stripe: numbers[STRIPE],
        time: if numbers[TIME] == 0 { 16 + rng.below(64) } else { numbers[TIME] },
        round: numbers[ROUND].max(1),
        yes,
        found: if shown { *found } else { 0 },
        block: held.then(|| coded.chunks(shape.size as usize).nth(brick as usize).map(<[u8]>::to_vec)).flatten(),
        comparison: if yes { NONE } else { some_no(kind, rng) },
    };
    if held && (reply.block.is_none() || rng.once_in(16)) {
        reply.block = Some(rng.bytes(shape.size as usize));
    } else if rng.once_in(40) {
        alter(&mut reply, rng);
    }
    if rng.once_in(4) {
        match rng.below(13) {
            0 => reply.kind = [0, 1, 2, 3, 4, 5, 6, 7, 8, 9, 255][rng.below(11) as usize],
            1 => reply.time = [0, 15, 16, 1 << 44, (1 << 44) - 1, u64::MAX, reply.time ^ 1, reply.time + 16][rng.below(8) as usize],
            2 => reply.round = [0, 1, 2, 1000, 1001, reply.round + 1, reply.round - 1, u64::MAX][rng.below(8) as usize],
            3 => reply.brick = [shape.n, shape.n + 1, 16, 255, 1 << 32, u64::MAX][rng.below(6) as usize],
            4 => reply.block = None,
            5 => reply.block = Some(rng.bytes(shape.size as usize)),
            6 => {
                let less = 2 * rng.below(2) as usize;
                reply.block = Some(rng.bytes(shape.size as usize + 1 - less));
            }
            7 => reply.stripe = [stripes, stripes + 1, 64, 255, 1 << 32, u64::MAX][rng.below(6) as usize],
            8 => reply.stripe = rng.below(stripes),
            9 => reply.found = [0, 1, 15, 16, 17, (1 << 44) - 1, 1 << 44, u64::MAX][rng.below(8) as usize],
            10 => reply.comparison = [0, 1, 2, 3, 4, 5, 128, 255][rng.below(8) as usize],
            11 => reply.yes = !reply.yes,
            _ => (reply.yes, reply.comparison) = if reply.yes { (false, some_no(kind, rng)) } else { (true, NONE) },
        }
    }
    reply
}

/// A comparison that a no of this kind may name. A full log is the likeliest where it may be, so that some rounds have no other.
fn some_no(kind: u8, rng: &mut Rng) -> u8 {
    let comparison = [NEWER, PROMISE, FULL, FULL, FULL, FULL][rng.below(6) as usize];
    if may_say(kind, comparison) {
        comparison
    } else {
        PROMISE
    }
}

fn some_event(volume: Volume, c: &Coordinator, stored: &Stored, rng: &mut Rng) -> Event {
    let Volume { shape, stripes } = volume;
    let stripe = if rng.once_in(12) { stripes + rng.below(3) } else { rng.below(stripes) };
    let readings = [0, rng.below(50), LAST_COUNT - 1, LAST_COUNT, LAST_COUNT + 1, u64::MAX];
    let reading = readings[if rng.once_in(12) { rng.below(6) } else { rng.below(2) } as usize];
    let running = c.lent.bytes.first().is_some_and(|&kind| kind != 0);
    let block = if rng.once_in(12) { [shape.m, shape.n, 256, u64::MAX][rng.below(4) as usize] } else { rng.below(shape.m) };
    let wrong = usize::from(rng.once_in(12));
    match rng.below(if running { 36 } else { 6 }) {
        0 => Event::Write(stripe, reading, rng.bytes(shape.data_len() + wrong)),
        1 if rng.once_in(8) => Event::Read(stripe, reading, shape.n),
        1 => Event::Read(stripe, reading, rng.below(shape.n)),
        2 => Event::WriteBlock(stripe, reading, block, rng.bytes(shape.size as usize + wrong)),
        3 => Event::ReadBlock(stripe, reading, block),
        4 if rng.once_in(2) => Event::Crash,
        _ if c.lent.numbers.len() < record::NUMBERS || c.lent.bytes.len() < record::BYTES => Event::Crash,
        _ => Event::Reply(some_reply(volume, c, stored, rng)),
    }
}

/// Events that need no brick: replies of every sort, settings and lengths that do not fit, rounds near the last.
#[test]
fn events_of_every_sort() {
    let mut rng = Rng::printed(32);
    let mut tally = Tally::default();
    for _ in 0..2800 {
        let volume = some_volume(&mut rng);
        let mut c = fresh(volume, rng.below(16), &mut rng);
        let times: Vec<u64> = (0..1 + rng.below(3)).map(|k| if k == 0 && rng.once_in(2) { 0 } else { 16 + rng.below(9) }).collect();
        let stored = stored(volume, times, &mut rng);
        for _ in 0..60 {
            let event = some_event(volume, &c, &stored, &mut rng);
            compare(volume, &mut c, &event, &mut tally);
            let numbers = &mut c.lent.numbers;
            if c.lent.bytes[PHASE] == ORDER_READ && numbers[ROUND] >= 3 && rng.once_in(6) {
                // A sound record in its last round.
                numbers[ROUND] = 1000;
            }
            if c.lent.bytes[KIND] == 0 && rng.once_in(6) {
                numbers[LAST] = if rng.once_in(3) { LAST_COUNT - rng.below(2) } else { rng.below(9) };
            }
            if rng.once_in(10) {
                compare_lent_wrong(volume, &c, &event, &mut rng, &mut tally);
            }
            if rng.once_in(10) {
                compare_elsewhere(volume, &c, &stored, &mut rng, &mut tally);
            }
        }
    }
    println!("{:?}", tally.0);
    tally.expect(
        20,
        &[
            "write begins", "read begins", "waits", "cut", "idle crash", "read in one round", "recovered", "written",
            "recovery round 2", "recovery round 3", "write round 2", "write round 3", "abort at round 1000",
            "abort in phase 2", "abort in phase 5", "recovery aborted by a no", "recovery aborted without a block",
            "block write begins", "block read begins", "block waits", "block cut", "block modifies", "block written by Modify",
            "block written", "block read in one round", "block recovered", "block recovery round 2", "block recovery round 3",
            "block write round 3", "block abort at round 1000", "block abort in phase 4", "block abort in phase 5",
            "block abort in phase 6", "block recovery aborted by a no", "block recovery aborted without a block",
            "refusal 1", "refusal 2", "refusal 3", "refusal 13", "refusal 14", "refusal 6",
            "idle, under other settings", "running, under other settings",
            "refusal 7", "refusal 8", "refusal 9", "refusal 10", "refusal 11",
        ],
    );
    tally.expect(5, &LETTERS_OF_RUNS);
    tally.expect(20, &AHEAD);
    tally.expect(20, &["letter X", "block letter X"]);
    tally.expect(10, &["recovery aborted at time 0 on few bricks", "block recovery aborted at time 0 on few bricks"]);
    tally.expect(20, &["recovery aborted as blocks disagree", "block recovery aborted as blocks disagree"]);
}

/// Settings other than those given whose buffers have the same lengths, or other settings.
fn other_volume(volume: Volume, rng: &mut Rng) -> Volume {
    let Volume { shape: Shape { n, m, size }, stripes } = volume;
    let mut all = Vec::new();
    for k in 2..=16 {
        if n % k == 0 && m % k == 0 {
            all.push(Volume::new(n / k, m / k, size * k, stripes));
        }
        if size % k == 0 {
            all.push(Volume::new(n * k, m * k, size / k, stripes));
        }
    }
    all.retain(|volume| volume.refusal().is_none());
    let shapes = [Shape::new(n % 16 + 1, 1, size), Shape::new(n, m, size % 256 + 1), Shape::new(n, m % n + 1, size)];
    all.extend(shapes.map(|shape| Volume { shape, stripes }));
    all.extend([1, stripes % 64 + 1, 64].map(|stripes| Volume::new(n, m, size, stripes)));
    all.retain(|other| *other != volume);
    all[rng.below(all.len() as u64) as usize]
}

/// An event of other settings than the record's.
fn compare_elsewhere(volume: Volume, c: &Coordinator, stored: &Stored, rng: &mut Rng, tally: &mut Tally) {
    let other = other_volume(volume, rng);
    let event = some_event(other, c, stored, rng);
    let mut called = c.clone();
    let before = tally.0.get("refusal 6").copied();
    compare(other, &mut called, &event, tally);
    assert!(called == *c, "an event of other settings changed something: {volume:?} {other:?} {event:?}");
    if tally.0.get("refusal 6").copied() != before {
        tally.add(if c.lent.running() { "running, under other settings" } else { "idle, under other settings" }, 1);
    }
}

/// Refusal 6, "settings disagreeing with those given": a record made for one set of settings is called under another whose buffers have
/// the same lengths. Both coordinators say 6 to every event, idle or in any round, and go on under the record's own settings.
#[test]
fn records_of_other_settings() {
    let mut rng = Rng::printed(34);
    let mut tally = Tally::default();
    let volume = Volume::new;
    let pairs = [
        (volume(4, 2, 2, 1), volume(2, 1, 4, 1)),
        (volume(2, 1, 4, 64), volume(4, 2, 2, 64)),
        (volume(16, 8, 1, 5), volume(2, 1, 8, 5)),
        (volume(6, 3, 32, 2), volume(2, 1, 96, 2)),
        (volume(3, 3, 4, 1), volume(1, 1, 12, 1)),
        // Another stripe count alone.
        (volume(5, 3, 2, 3), volume(5, 3, 2, 2)),
        (volume(5, 3, 2, 3), volume(5, 3, 2, 4)),
        (volume(3, 1, 1, 1), volume(3, 1, 1, 64)),
    ];
    for (volume, other) in pairs {
        let lengths = |volume: Volume| (volume.shape.data_len(), volume.shape.coded_len());
        assert_eq!(lengths(volume), lengths(other));
        let elsewhere = |c: &Coordinator, tally: &mut Tally, rng: &mut Rng| {
            let numbers = &c.lent.numbers;
            let reply = Reply {
                kind: c.lent.bytes[PHASE].max(1),
                brick: 0,
                stripe: numbers[STRIPE],
                time: numbers[TIME].max(16),
                round: numbers[ROUND].max(1),
                yes: true,
                found: 0,
                block: None,
                comparison: NONE,
            };
            let held = Reply { block: Some(rng.bytes(other.shape.size as usize)), ..reply.clone() };
            let events = [
                Event::Write(0, 9, rng.bytes(other.shape.data_len())),
                Event::Read(0, 9, 0),
                Event::WriteBlock(0, 9, 0, rng.bytes(other.shape.size as usize)),
                Event::ReadBlock(0, 9, 0),
                Event::Reply(reply),
                Event::Reply(held),
                Event::Crash,
            ];
            for event in events {
                let mut called = c.clone();
                let step = compare(other, &mut called, &event, tally);
                assert!(called == *c && step == Step::default(), "{event:?}");
                assert!(matches!(judged(other, c, &event), Err(6)), "{event:?}");
                tally.add("under other settings", 1);
            }
        };
        for kind in [Kind::Write, Kind::Read, Kind::WriteBlock, Kind::ReadBlock] {
            let mut c = fresh(volume, 3, &mut rng);
            elsewhere(&c, &mut tally, &mut rng);
            // A stripe that both have, so that the record is what is refused.
            let stripe = volume.stripes.min(other.stripes) - 1;
            let Volume { shape, stripes } = volume;
            let begin = match kind {
                Kind::Write => Event::Write(stripe, 5, rng.bytes(shape.data_len())),
                Kind::Read => Event::Read(stripe, 5, 0),
                Kind::WriteBlock => Event::WriteBlock(stripe, 5, 0, rng.bytes(shape.size as usize)),
                Kind::ReadBlock => Event::ReadBlock(stripe, 5, 0),
            };
            let mut step = compare(volume, &mut c, &begin, &mut tally);
            elsewhere(&c, &mut tally, &mut rng);
            let settings = Settings { shape, capacity: 4, stripes };
            let mut images: Vec<Vec<u8>> = (0..shape.n).map(|b| image::fresh(settings, b).unwrap()).collect();
            while c.lent.running() {
                let sent = std::mem::take(&mut step.sent);
                for (b, message) in sent.iter().enumerate() {
                    let reply = brick::take(settings, b as u64, &mut images[b], message).unwrap();
                    if let (Some(reply), true) = (reply, step.sent.is_empty() && c.lent.running()) {
                        step = compare(volume, &mut c, &Event::Reply(reply), &mut tally);
                        elsewhere(&c, &mut tally, &mut rng);
                    }
                }
            }
        }
    }
    println!("{:?}", tally.0);
    tally.expect(pairs.len(), &["written", "read in one round", "block written by Modify", "block read in one round"]);
    tally.expect(200, &["under other settings", "refusal 6"]);
}

/// A write of one block names no bricks while it stores the stripe found, nor at its end; with bricks named its record is refused by 6. A
/// read of one block names the m that it decoded from, and its record without them is refused.
#[test]
fn a_block_write_names_no_bricks() {
    let mut rng = Rng::printed(36);
    let volume = Volume::new(4, 2, 1, 3);
    let mut tally = Tally::default();
    let kinds = [
        (Event::WriteBlock(1, 5, 1, vec![7]), row(&[]), [row(&[1, 2]), row(&[0, 1]), row(&[1])], [5, 7]),
        (Event::ReadBlock(1, 5, 1), row(&[1, 2]), [row(&[]), row(&[1]), row(&[2, 1])], [5, 9]),
    ];
    for (begin, named, others, stored) in kinds {
        let mut c = fresh(volume, 3, &mut rng);
        compare(volume, &mut c, &begin, &mut tally);
        let answer = |c: &Coordinator, brick: u64, found: u64, block: Option<u8>| {
            let (kind, round, time) = (c.lent.bytes[PHASE], c.lent.numbers[ROUND], c.lent.numbers[TIME]);
            let block = block.map(|byte| vec![byte]);
            Event::Reply(Reply { kind, brick, stripe: 1, time, round, yes: true, found, block, comparison: NONE })
        };
        // Brick 1 is missing; then blocks 5, 9 coded are found at time 40.
        for brick in [0, 2, 3] {
            let event = answer(&c, brick, 40, None);
            compare(volume, &mut c, &event, &mut tally);
        }
        for (brick, byte) in [(3, 17), (2, 29), (1, 9)] {
            let event = answer(&c, brick, 40, Some(byte));
            compare(volume, &mut c, &event, &mut tally);
        }
        assert_eq!((c.lent.bytes[PHASE], c.lent.numbers[ROUND], &c.stripe[..]), (WRITE, 3, &stored[..]));
        assert_eq!(c.lent.bytes[BRICKS..COMPARISON], named);
        for other in others {
            let mut broken = c.clone();
            broken.lent.bytes[BRICKS..COMPARISON].copy_from_slice(&other);
            let reply = answer(&c, 0, 0, None);
            let block = vec![0];
            for event in [reply, Event::Crash, Event::Read(1, 9, 0), Event::ReadBlock(1, 9, 0), Event::WriteBlock(1, 9, 0, block)] {
                assert!(matches!(judged(volume, &broken, &event), Err(6)), "{event:?}");
                compare(volume, &mut broken.clone(), &event, &mut tally);
            }
        }
        for brick in [0, 2, 3] {
            let event = answer(&c, brick, 0, None);
            compare(volume, &mut c, &event, &mut tally);
        }
        assert!(!c.lent.running());
        assert_eq!(c.lent.shown_row(at::BRICKS), named);
    }
    tally.expect(1, &["block written", "block recovered"]);
    tally.expect(30, &["refusal 6"]);
}

/// Each refusal with all that come after it: 1, 2, 3, 13, of a start on one block 14, then 6, then of starts 7, 8, 9 and of replies 10, 11.
#[test]
fn refused_in_order() {
    let mut rng = Rng::printed(35);
    let (good, wrong) = (Volume::new(4, 2, 1, 3), Volume::new(4, 2, 1, 65));
    let refused = |volume: Volume, c: &Coordinator, event: Event| {
        let mut called = c.clone();
        compare(volume, &mut called, &event, &mut Tally::default());
        assert!(called == *c, "{event:?}");
        judged(volume, c, &event).expect_err("refused")
    };
    // A read of stripe 1 runs that took the last time; then the record is broken; then its number is.
    let mut running = fresh(good, 15, &mut rng);
    compare(good, &mut running, &Event::Read(1, LAST_COUNT, 0), &mut Tally::default());
    assert!(running.lent.running());
    let mut broken = running.clone();
    broken.lent.numbers[STRIPE] = 3;
    let mut none = broken.clone();
    none.lent.numbers[record::COORDINATOR] = 16;
    let mut short = none.clone();
    short.lent.sent.pop();
    let late = LAST_COUNT + 1;
    let rows = [(wrong, &short, 3, late, 1), (good, &short, 3, late, 2), (good, &none, 3, late, 3), (good, &broken, 3, late, 13)];
    let own = [(good, &broken, 2, late, 6), (good, &running, 2, late, 7), (good, &running, 2, 0, 8)];
    for (volume, c, stripe, reading, number) in rows.into_iter().chain(own) {
        assert_eq!(refused(volume, c, Event::Read(stripe, reading, 0)), number);
        assert_eq!(refused(volume, c, Event::Write(stripe, reading, vec![0; 2])), number);
        assert_eq!(refused(volume, c, Event::ReadBlock(stripe, reading, 1)), number);
        assert_eq!(refused(volume, c, Event::WriteBlock(stripe, reading, 1, vec![0])), number);
        // A block that is none is told after the stripe and before the record.
        for block in [2, 256, u64::MAX] {
            let number = if [1, 2, 3, 13].contains(&number) { number } else { 14 };
            assert_eq!(refused(volume, c, Event::ReadBlock(stripe, reading, block)), number);
            assert_eq!(refused(volume, c, Event::WriteBlock(stripe, reading, block, vec![0])), number);
        }
    }
    // A first target that is no brick, and data of another length.
    assert_eq!(refused(good, &broken, Event::Read(3, late, 4)), 3);
    assert_eq!(refused(good, &none, Event::Write(3, late, vec![0; 3])), 2);
    for length in [0, 2] {
        assert_eq!(refused(good, &none, Event::WriteBlock(3, late, 2, vec![0; length])), 2);
    }
    let mut no_stripe = none.clone();
    no_stripe.stripe.pop();
    assert_eq!(refused(good, &no_stripe, Event::WriteBlock(3, late, 2, vec![0])), 2);
    assert_eq!(refused(good, &no_stripe, Event::ReadBlock(3, late, 2)), 3);
    // A start on the running operation's stripe, and on another.
    let mut busy = fresh(good, 15, &mut rng);
    compare(good, &mut busy, &Event::Write(1, 0, vec![5, 9]), &mut Tally::default());
    for stripe in 0..3 {
        assert_eq!(refused(good, &busy, Event::Read(stripe, 0, 0)), 9);
        assert_eq!(refused(good, &busy, Event::Write(stripe, 0, vec![0; 2])), 9);
        assert_eq!(refused(good, &busy, Event::ReadBlock(stripe, 0, 1)), 9);
        assert_eq!(refused(good, &busy, Event::WriteBlock(stripe, 0, 1, vec![0])), 9);
    }
    // Of brick 3, which is no target.
    let said = |stripe: u64, kind: u8, comparison: u8| {
        let time = LAST_COUNT * 16 + 15;
        Event::Reply(Reply { kind, brick: 3, stripe, time, round: 1, yes: true, found: 0, block: None, comparison })
    };
    let reply = |stripe: u64, kind: u8| said(stripe, kind, NONE);
    for (volume, c, stripe, _, number) in rows {
        assert_eq!(refused(volume, c, reply(stripe, 9)), number);
    }
    assert_eq!(refused(good, &broken, reply(2, 9)), 6);
    assert_eq!(refused(good, &running, reply(2, 9)), 10);
    // A comparison in a yes, which is of another stripe too.
    assert_eq!(refused(good, &broken, said(2, READ, PROMISE)), 6);
    assert_eq!(refused(good, &running, said(2, READ, PROMISE)), 10);
    // Of another stripe than the running operation's: not counted; of its own it is.
    assert_eq!(refused(good, &running, reply(2, READ)), 11);
    assert_eq!(refused(good, &running, reply(0, READ)), 11);
    let mut tally = Tally::default();
    compare(good, &mut running, &reply(1, READ), &mut tally);
    tally.expect(1, &["waits"]);
    // A crash names no stripe.
    for (volume, c, number) in [(wrong, &short, 1), (good, &short, 2), (good, &none, 3), (good, &broken, 6)] {
        assert_eq!(refused(volume, c, Event::Crash), number);
    }
    // An idle record has stripe 0.
    let mut idle = fresh(good, 15, &mut rng);
    idle.lent.numbers[STRIPE] = 1;
    assert_eq!(refused(good, &idle, Event::Crash), 6);
    assert_eq!(refused(good, &idle, Event::Read(1, 0, 0)), 6);
}

/// A coordinator in each kind of round, the Write round of a write and that of a recovered read.
fn in_every_round(volume: Volume, rng: &mut Rng, tally: &mut Tally) -> Vec<Coordinator> {
    let Shape { n, m, size } = volume.shape;
    let q = quorum(n, m).unwrap();
    let mut all = Vec::new();
    for begin in [
        Event::Read(1, 5, 0),
        Event::Write(1, 5, rng.bytes(volume.shape.data_len())),
        Event::WriteBlock(1, 5, 0, rng.bytes(size as usize)),
    ] {
        let mut c = fresh(volume, 3, rng);
        compare(volume, &mut c, &begin, tally);
        all.push(c.clone());
        // The read is told no, then finds zeros.
        while c.lent.running() {
            let (kind, round) = (c.lent.bytes[PHASE], c.lent.numbers[ROUND]);
            let yes = kind != READ;
            for brick in 0..q {
                let holds = kind == ORDER_READ || kind == ORDER_BLOCK && brick == 0;
                let (block, comparison) = (holds.then(|| vec![0; size as usize]), if yes { NONE } else { PROMISE });
                let reply = Reply { kind, brick, stripe: 1, time: 83, round, yes, found: 0, block, comparison };
                compare(volume, &mut c, &Event::Reply(reply), tally);
            }
            if c.lent.running() {
                all.push(c.clone());
            }
        }
    }
    let rounds: Vec<(u8, u64)> = all.iter().map(|c| (c.lent.bytes[PHASE], c.lent.numbers[ROUND])).collect();
    assert_eq!(rounds, [(READ, 1), (ORDER_READ, 2), (WRITE, 3), (ORDER, 1), (WRITE, 2), (ORDER_BLOCK, 1), (MODIFY, 2)]);
    all
}

/// Every number as the comparison of a yes and of a no, in each kind of round: in a reply it is counted or refused by 10, in a record,
/// counted or not, it stands or is refused by 6.
#[test]
fn every_comparison_in_replies_and_records() {
    let mut rng = Rng::printed(40);
    let mut tally = Tally::default();
    let volume = Volume::new(5, 3, 2, 2);
    for c in in_every_round(volume, &mut rng, &mut tally) {
        let (kind, round) = (c.lent.bytes[PHASE], c.lent.numbers[ROUND]);
        // Brick 4 is no target, and holds no block that is written; an Order-and-read may find none.
        let reply = |yes: bool, comparison: u8| {
            Event::Reply(Reply { kind, brick: 4, stripe: 1, time: 83, round, yes, found: 0, block: None, comparison })
        };
        for comparison in 0..=255 {
            for yes in [true, false] {
                let fits = if yes { comparison == NONE } else { may_say(kind, comparison) };
                let mut called = c.clone();
                compare(volume, &mut called, &reply(yes, comparison), &mut tally);
                assert_eq!(called != c, fits, "kind {kind}, yes {yes}, comparison {comparison}");
                for counted in [true, false] {
                    let mut kept = c.clone();
                    let bytes = &mut kept.lent.bytes;
                    (bytes[COUNTED + 4], bytes[GRANTED + 4]) = (u8::from(counted), u8::from(counted && yes));
                    bytes[COMPARISON + 4] = comparison;
                    let sound = if counted { fits } else { comparison == NONE };
                    for event in [Event::Crash, Event::Read(1, 9, 0), reply(true, NONE)] {
                        let refusal = judged(volume, &kept, &event).err();
                        assert_eq!(refusal == Some(6), !sound, "kind {kind}, yes {yes}, comparison {comparison}");
                        compare(volume, &mut kept.clone(), &event, &mut tally);
                    }
                }
            }
        }
    }
    println!("{:?}", tally.0);
    tally.expect(3000, &["refusal 6", "refusal 10"]);
    tally.expect(10, &["waits", "block waits", "cut", "block cut"]);
}

/// Every answer of three bricks to the rounds of a set of four with m 2, by comparisons: the letters of all aborts.
#[test]
fn letters_of_every_answer() {
    let mut rng = Rng::printed(44);
    let mut tally = Tally::default();
    let volume = Volume::new(4, 2, 1, 2);
    for begun in in_every_round(volume, &mut rng, &mut tally) {
        let (kind, round) = (begun.lent.bytes[PHASE], begun.lent.numbers[ROUND]);
        for code in 0..64 {
            let said = [code % 4, code / 4 % 4, code / 16];
            if said.iter().any(|&said| said != NONE && !may_say(kind, said)) {
                continue;
            }
            let mut c = begun.clone();
            for (brick, comparison) in [3, 0, 2].into_iter().zip(said) {
                let yes = comparison == NONE;
                let holds = yes && (kind == ORDER_READ || brick == 0 && [READ, ORDER_BLOCK].contains(&kind));
                let reply = Reply { kind, brick, stripe: 1, time: 83, round, yes, found: 0, block: holds.then(|| vec![0]), comparison };
                compare(volume, &mut c, &Event::Reply(reply), &mut tally);
            }
        }
    }
    println!("{:?}", tally.0);
    tally.expect(7, &["letter G", "block letter G"]);
    tally.expect(20, &["letter O", "block letter O", "letter W", "block letter W"]);
    tally.expect(1, &["letter S", "letter H", "block letter S"]);
}

/// The same event where one lent buffer has another length, or at other settings.
fn compare_lent_wrong(volume: Volume, c: &Coordinator, event: &Event, rng: &mut Rng, tally: &mut Tally) {
    let mut other = c.clone();
    let Volume { mut shape, mut stripes } = volume;
    let grow = rng.once_in(2);
    fn change<T: Clone + Default>(list: &mut Vec<T>, grow: bool) {
        if grow {
            list.push(T::default());
        } else {
            list.pop();
        }
    }
    match rng.below(18) {
        0 => change(&mut other.lent.numbers, grow),
        1 => change(&mut other.lent.bytes, grow),
        2 => change(&mut other.lent.sent, grow),
        3 => change(&mut other.lent.shown, grow),
        4 => change(&mut other.blocks, grow),
        5 => change(&mut other.stripe, grow),
        6 => change(&mut other.coded, grow),
        7 => shape.n = [0, 17, u64::MAX][rng.below(3) as usize],
        8 => shape.m = [0, shape.n + 1, u64::MAX][rng.below(3) as usize],
        9 => shape.size = [0, 257, u64::MAX][rng.below(3) as usize],
        10 => shape.n = 16,
        11 => shape.m = shape.n,
        12 => shape.m = 1,
        13 => shape.n = shape.m,
        14 => shape.size = 1 + shape.size % 256,
        15 => stripes = [0, 65, u64::MAX][rng.below(3) as usize],
        16 => stripes = 1 + stripes % 64,
        _ => other.lent.numbers[0] = [16, 1 << 32, u64::MAX][rng.below(3) as usize],
    }
    compare(Volume { shape, stripes }, &mut other, event, tally);
}

/// Each field of a record changed, then an event.
#[test]
fn damaged_records() {
    let mut rng = Rng::printed(33);
    let mut tally = Tally::default();
    for _ in 0..1600 {
        let volume = some_volume(&mut rng);
        let mut c = fresh(volume, rng.below(16), &mut rng);
        let times: Vec<u64> = (0..1 + rng.below(3)).map(|_| 16 + rng.below(9)).collect();
        let stored = stored(volume, times, &mut rng);
        for _ in 0..rng.below(40) {
            let event = some_event(volume, &c, &stored, &mut rng);
            compare(volume, &mut c, &event, &mut tally);
        }
        let places = record::NUMBERS + record::BYTES;
        for place in 0..places {
            let mut damaged = c.clone();
            for k in 0..if rng.once_in(8) { 2 } else { 1 } {
                let place = if k == 0 { place } else { rng.below(places as u64) as usize };
                if place < record::NUMBERS {
                    let old = damaged.lent.numbers[place];
                    let values = [0, 1, 15, 16, 999, 1000, 1001, LAST_COUNT, NO_UPPER_END, old.wrapping_add(1), old.wrapping_sub(1), rng.number()];
                    damaged.lent.numbers[place] = values[rng.below(12) as usize];
                } else {
                    let old = damaged.lent.bytes[place - record::NUMBERS];
                    let values = [0, 1, 2, 3, 4, 5, 6, 7, old.wrapping_add(1), old.wrapping_sub(1), rng.byte()];
                    damaged.lent.bytes[place - record::NUMBERS] = values[rng.below(11) as usize];
                }
            }
            let brick = place.checked_sub(record::NUMBERS + COMPARISON);
            if brick.is_some_and(|b| c.lent.bytes[COUNTED + b] == 1 && c.lent.bytes[GRANTED + b] == 0) {
                tally.add("what a counted no said", 1);
            }
            let event = some_event(volume, &c, &stored, &mut rng);
            compare(volume, &mut damaged, &event, &mut tally);
        }
    }
    println!("{:?}", tally.0);
    tally.expect(50, &["what a counted no said"]);
    tally.expect(200, &["refusal 3", "refusal 6", "refusal 10", "refusal 11", "waits"]);
    tally.expect(20, &["recovery round 2", "write round 2", "written", "read in one round", "cut"]);
    tally.expect(20, &["block recovery round 2", "block modifies", "block written by Modify", "block read in one round", "block cut"]);
}
