//! One event at one coordinator: a start, a reply, a crash.

use crate::brick::{
    stores, Message, Reply, DROP, FULL, MODIFY, ORDER, ORDER_BLOCK, ORDER_READ, READ, TRIM, WRITE,
};
use crate::code;
use crate::settings::{
    coordinator_of, count_of, draw, quorum, valid_time, Refusal, Shape, Volume, LAST_COORDINATOR,
    LAST_COUNT, LAST_ROUND, NO_UPPER_END,
};

#[derive(Clone, Copy, Debug, PartialEq, Eq)]
pub enum Kind {
    Read,
    Write,
    ReadBlock,
    WriteBlock,
}

impl Kind {
    /// Whether it reads, a stripe or a block.
    pub fn reads(self) -> bool {
        matches!(self, Kind::Read | Kind::ReadBlock)
    }

    /// Whether it is of one block.
    pub fn of_block(self) -> bool {
        matches!(self, Kind::ReadBlock | Kind::WriteBlock)
    }
}

/// What a coordinator keeps. A crash leaves only the last count.
#[derive(Clone, Debug, PartialEq, Eq)]
pub struct Record {
    pub volume: Volume,
    pub number: u64,
    pub last: u64,
    pub running: Option<Running>,
}

/// The running operation and its open round.
#[derive(Clone, Debug, PartialEq, Eq)]
pub struct Running {
    pub kind: Kind,
    pub stripe: u64,
    pub time: u64,
    pub round: u64,
    /// The kind of the messages of the open round.
    pub open: u8,
    /// Of an Order-and-read round; 0 in others.
    pub max: u64,
    /// The first target of a read of the stripe, the number of the block in an
    /// operation on one; 0 in a write of the stripe.
    pub first: u64,
    /// The data of a write, the new block of a block write; in the Write round of
    /// a recovery the stripe that is stored.
    pub data: Vec<u8>,
    /// The bricks that a read in the Write round of its recovery decoded from.
    pub bricks: Vec<u8>,
    /// The replies counted in the open round.
    pub replies: Vec<Reply>,
}

/// How an operation ended.
#[derive(Clone, Debug, PartialEq, Eq)]
pub enum Outcome {
    /// A write that finished.
    Ok,
    /// A read that finished: the stripe or the block, and the bricks it names:
    /// the m decoded from, or that of a block read in one round. After recovery
    /// these are the first m by number that gave the chosen time (E7).
    Gave {
        data: Vec<u8>,
        bricks: Vec<u8>,
    },
    Abort,
    Cut,
}

/// An operation that ended.
#[derive(Clone, Debug, PartialEq, Eq)]
pub struct Ended {
    pub coordinator: u64,
    pub kind: Kind,
    pub stripe: u64,
    /// The number of the block in an operation on one, else 0.
    pub block: u64,
    pub time: u64,
    pub outcome: Outcome,
    /// Which rule ended it: a letter of E5's.
    pub letter: char,
}

/// What one event does besides changing the record: the messages sent, none, one
/// to each brick by its number or two such lists, and the operation that ended.
/// With two lists the first is of Drops or early Trims, the second a round.
#[derive(Clone, Debug, Default, PartialEq, Eq)]
pub struct Step {
    pub sent: Vec<Message>,
    pub ended: Option<Ended>,
}

impl Record {
    /// An idle coordinator that drew no time yet.
    pub fn fresh(volume: Volume, number: u64) -> Record {
        Record {
            volume,
            number,
            last: 0,
            running: None,
        }
    }

    /// Whether some rule is broken, under the settings and number given.
    fn breaks_a_rule(&self, volume: Volume, number: u64) -> bool {
        self.volume != volume
            || self.number != number
            || self.last > LAST_COUNT
            || self
                .running
                .as_ref()
                .is_some_and(|running| running.breaks_a_rule(volume, number, self.last))
    }
}

impl Running {
    fn breaks_a_rule(&self, volume: Volume, number: u64, last: u64) -> bool {
        let shape = volume.shape;
        let placed = volume.stripe_refusal(self.stripe).is_none();
        let timed = valid_time(self.time)
            && coordinator_of(self.time) == number
            && count_of(self.time) == last;
        let rounded = (1..=LAST_ROUND).contains(&self.round);
        let open = (self.replies.len() as u64) < quorum_of(shape);
        // Last, since targets are counted from a first brick that is in range only then.
        let counted = || (0..self.replies.len()).all(|i| self.counted_reply_fits(shape, i));
        !(placed && timed && rounded && self.round_fits(shape) && open && counted())
    }

    /// Whether the open round is one of the operation's, with the fields it needs.
    fn round_fits(&self, shape: Shape) -> bool {
        self.number_fits() && self.max_fits() && self.first_fits(shape) && self.kept_fits(shape)
    }

    /// Whether the operation may have such a round under this number.
    fn number_fits(&self) -> bool {
        match (self.kind, self.open) {
            (Kind::Write, ORDER) => self.round == 1,
            (Kind::Write, WRITE) => self.round == 2,
            (Kind::Read | Kind::ReadBlock, READ) => self.round == 1,
            (Kind::WriteBlock, ORDER_BLOCK) => self.round == 1,
            (Kind::WriteBlock, MODIFY) => self.round == 2,
            (_, ORDER_READ) => self.kind != Kind::Write && self.round >= 2,
            (_, WRITE) => self.round >= 3,
            _ => false,
        }
    }

    /// The first recovery round has no upper end, each later one a time found.
    fn max_fits(&self) -> bool {
        match (self.open, self.round) {
            (ORDER_READ, 2) => self.max == NO_UPPER_END,
            (ORDER_READ, _) => valid_time(self.max),
            _ => self.max == 0,
        }
    }

    fn first_fits(&self, shape: Shape) -> bool {
        match self.kind {
            Kind::Write => self.first == 0,
            Kind::Read => self.first < shape.n,
            Kind::ReadBlock | Kind::WriteBlock => shape.block_refusal(self.first).is_none(),
        }
    }

    /// Whether the data and the bricks are what the round needs.
    fn kept_fits(&self, shape: Shape) -> bool {
        let length = match self.kind {
            _ if self.open == WRITE => shape.data_len(),
            Kind::Write => shape.data_len(),
            Kind::WriteBlock => shape.size as usize,
            Kind::Read | Kind::ReadBlock => 0,
        };
        let named = if self.kind.reads() && self.open == WRITE {
            shape.is_brick_set(&self.bricks)
        } else {
            self.bricks.is_empty()
        };
        self.data.len() == length && named
    }

    fn counted_reply_fits(&self, shape: Shape, i: usize) -> bool {
        let reply = &self.replies[i];
        reply.brick < shape.n
            && self.replies[..i]
                .iter()
                .all(|other| other.brick != reply.brick)
            && block_length_fits(shape, reply)
            && reply.refusal().is_none()
            && self.answers(shape, reply)
    }

    /// The targets of a Read round: that of the block, or m bricks.
    fn targets(&self, shape: Shape) -> Vec<u8> {
        let count = if self.kind.of_block() { 1 } else { shape.m };
        (0..count)
            .map(|i| ((self.first + i) % shape.n) as u8)
            .collect()
    }

    /// Whether a reply is of this operation and round, with a block and a time
    /// as the round's rules have them. Its comparison is refusal 10's matter.
    fn answers(&self, shape: Shape, reply: &Reply) -> bool {
        let of_the_round = reply.stripe == self.stripe
            && reply.time == self.time
            && reply.round == self.round
            && reply.kind == self.open;
        let held = reply.block.is_some();
        let fits = match self.open {
            READ => {
                let target = self
                    .targets(shape)
                    .iter()
                    .any(|&b| u64::from(b) == reply.brick);
                held == (reply.yes && target)
            }
            ORDER_READ if reply.yes => held || reply.found == 0,
            ORDER_BLOCK if reply.yes => held == (reply.brick == self.first),
            _ => !held && reply.found == 0,
        };
        of_the_round && fits
    }

    /// Opens the next round; none is open after round 1,000.
    fn open_round(&mut self, shape: Shape, open: u8, max: u64) -> Option<Vec<Message>> {
        if self.round == LAST_ROUND {
            return None;
        }
        self.round += 1;
        self.open = open;
        self.max = max;
        self.replies.clear();
        Some(self.messages(shape))
    }

    /// The messages of the open round, by brick.
    fn messages(&self, shape: Shape) -> Vec<Message> {
        let mut message = self.message(self.open);
        match self.open {
            READ => message.targets = self.targets(shape),
            ORDER_READ => message.max = self.max,
            ORDER_BLOCK => message.number = self.first,
            MODIFY => {
                message.number = self.first;
                message.block = self.data.clone();
            }
            _ => {}
        }
        let mut messages = vec![message; shape.n as usize];
        if self.open == WRITE {
            let coded = encode(shape, &self.data);
            for (j, message) in messages.iter_mut().enumerate() {
                message.block = shape.block(&coded, j).to_vec();
            }
        }
        messages
    }

    /// Trims or Drops of a time, with the number of the open round.
    fn clearing(&self, shape: Shape, kind: u8, time: u64) -> Vec<Message> {
        let message = Message {
            time,
            ..self.message(kind)
        };
        vec![message; shape.n as usize]
    }

    /// A message of the operation and its round.
    fn message(&self, kind: u8) -> Message {
        Message {
            stripe: self.stripe,
            ..Message::plain(kind, self.time, self.round)
        }
    }
}

/// What the q-th reply of a round leads to.
enum Decision {
    Next(Vec<Message>),
    End(Outcome, Vec<Message>),
}

fn abort() -> Decision {
    Decision::End(Outcome::Abort, Vec::new())
}

fn next_or_abort(messages: Option<Vec<Message>>) -> Decision {
    messages.map_or_else(abort, Decision::Next)
}

/// The same with Drops or early Trims ahead, which aren't sent if no round follows.
fn clear_then_next(clearing: Vec<Message>, messages: Option<Vec<Message>>) -> Decision {
    next_or_abort(messages.map(|messages| [clearing, messages].concat()))
}

fn quorum_of(shape: Shape) -> u64 {
    quorum(shape.n, shape.m).expect("the shape is in range")
}

fn encode(shape: Shape, data: &[u8]) -> Vec<u8> {
    code::encode(shape.n, shape.m, shape.size, data).expect("the stripe has the settings' length")
}

fn block_length_fits(shape: Shape, reply: &Reply) -> bool {
    reply
        .block
        .as_ref()
        .is_none_or(|block| block.len() as u64 == shape.size)
}

/// Starts a write of a stripe. Refused: 1 settings, 2 the length of the data,
/// 3 coordinator, 13 stripe, 6 the record, 7 the reading, 8 no count left, 9 an
/// operation runs.
pub fn start_write(
    volume: Volume,
    number: u64,
    record: &mut Record,
    stripe: u64,
    reading: u64,
    data: &[u8],
) -> Result<Step, Refusal> {
    if volume.refusal().is_some() {
        return Err(1);
    }
    if data.len() != volume.shape.data_len() {
        return Err(2);
    }
    start(volume, number, record, stripe, reading, Kind::Write, 0, data)
}

/// Starts a write of data block `block` of a stripe. Refused: 1 settings, 2 the
/// length of the new block, 3 coordinator, 13 stripe, 14 block, 6 the record, 7
/// the reading, 8 no count left, 9 an operation runs.
pub fn start_write_block(
    volume: Volume,
    number: u64,
    record: &mut Record,
    stripe: u64,
    reading: u64,
    block: u64,
    data: &[u8],
) -> Result<Step, Refusal> {
    if volume.refusal().is_some() {
        return Err(1);
    }
    if data.len() as u64 != volume.shape.size {
        return Err(2);
    }
    start(volume, number, record, stripe, reading, Kind::WriteBlock, block, data)
}

/// Starts a read of data block `block` of a stripe. Refused: 1 settings, 3
/// coordinator, 13 stripe, 14 block, 6 the record, 7 the reading, 8 no count
/// left, 9 an operation runs.
pub fn start_read_block(
    volume: Volume,
    number: u64,
    record: &mut Record,
    stripe: u64,
    reading: u64,
    block: u64,
) -> Result<Step, Refusal> {
    if volume.refusal().is_some() {
        return Err(1);
    }
    start(volume, number, record, stripe, reading, Kind::ReadBlock, block, &[])
}

/// Starts a read of a stripe whose targets are counted from brick `first`.
/// Refused: 1 settings, 3 coordinator or brick, 13 stripe, 6 the record, 7 the
/// reading, 8 no count left, 9 an operation runs.
pub fn start_read(
    volume: Volume,
    number: u64,
    record: &mut Record,
    stripe: u64,
    reading: u64,
    first: u64,
) -> Result<Step, Refusal> {
    if volume.refusal().is_some() {
        return Err(1);
    }
    if first >= volume.shape.n {
        return Err(3);
    }
    start(volume, number, record, stripe, reading, Kind::Read, first, &[])
}

#[allow(clippy::too_many_arguments)]
fn start(
    volume: Volume,
    number: u64,
    record: &mut Record,
    stripe: u64,
    reading: u64,
    kind: Kind,
    first: u64,
    data: &[u8],
) -> Result<Step, Refusal> {
    let block = kind.of_block().then_some(first);
    check_record(volume, number, Some(stripe), block, record)?;
    let (time, last) = draw(number, record.last, reading)?;
    if record.running.is_some() {
        return Err(9);
    }
    let running = Running {
        kind,
        stripe,
        time,
        round: 1,
        open: match kind {
            Kind::Read | Kind::ReadBlock => READ,
            Kind::Write => ORDER,
            Kind::WriteBlock => ORDER_BLOCK,
        },
        max: 0,
        first,
        data: data.to_vec(),
        bricks: Vec::new(),
        replies: Vec::new(),
    };
    let sent = running.messages(volume.shape);
    record.last = last;
    record.running = Some(running);
    Ok(Step { sent, ended: None })
}

/// Takes a reply. Refused: 1 settings, 2 the length of the block, 3 coordinator
/// or brick, 13 stripe, 6 the record, 10 and 11 the reply.
pub fn take_reply(
    volume: Volume,
    number: u64,
    record: &mut Record,
    reply: &Reply,
) -> Result<Step, Refusal> {
    if volume.refusal().is_some() {
        return Err(1);
    }
    let shape = volume.shape;
    if !block_length_fits(shape, reply) {
        return Err(2);
    }
    if reply.brick >= shape.n {
        return Err(3);
    }
    check_record(volume, number, Some(reply.stripe), None, record)?;
    if let Some(refusal) = reply.refusal() {
        return Err(refusal);
    }
    let Some(running) = record.running.as_mut() else {
        return Err(11);
    };
    let counted = running
        .replies
        .iter()
        .any(|other| other.brick == reply.brick);
    if counted || !running.answers(shape, reply) {
        return Err(11);
    }
    running.replies.push(reply.clone());
    if (running.replies.len() as u64) < quorum_of(shape) {
        return Ok(Step::default());
    }
    match decide(shape, running) {
        Decision::Next(sent) => Ok(Step { sent, ended: None }),
        Decision::End(outcome, sent) => Ok(Step {
            sent,
            ended: end(record, outcome),
        }),
    }
}

/// A crash: the coordinator is idle and keeps its count; a running operation
/// is cut. Refused: 1 settings, 3 coordinator, 6 the record.
pub fn crash(volume: Volume, number: u64, record: &mut Record) -> Result<Step, Refusal> {
    if volume.refusal().is_some() {
        return Err(1);
    }
    check_record(volume, number, None, None, record)?;
    Ok(Step {
        sent: Vec::new(),
        ended: end(record, Outcome::Cut),
    })
}

/// Refusals 3 (coordinator), 13 and 14 (stripe and block, where the event names
/// one) and 6 (record).
fn check_record(
    volume: Volume,
    number: u64,
    stripe: Option<u64>,
    block: Option<u64>,
    record: &Record,
) -> Result<(), Refusal> {
    if number > LAST_COORDINATOR {
        return Err(3);
    }
    if let Some(refusal) = stripe.and_then(|stripe| volume.stripe_refusal(stripe)) {
        return Err(refusal);
    }
    if let Some(refusal) = block.and_then(|block| volume.shape.block_refusal(block)) {
        return Err(refusal);
    }
    if record.breaks_a_rule(volume, number) {
        return Err(6);
    }
    Ok(())
}

/// Ends the running operation, if there is one.
fn end(record: &mut Record, outcome: Outcome) -> Option<Ended> {
    let running = record.running.take()?;
    let letter = letter(&running, &outcome);
    Some(Ended {
        coordinator: record.number,
        kind: running.kind,
        stripe: running.stripe,
        block: if running.kind.of_block() { running.first } else { 0 },
        time: running.time,
        outcome,
        letter,
    })
}

/// The letter of an operation that ends in its open round.
fn letter(running: &Running, outcome: &Outcome) -> char {
    match outcome {
        Outcome::Ok => 'S',
        Outcome::Gave { .. } => match running.round {
            1 => 'F',
            // Stored after the first round of recovery.
            3 => 'H',
            _ => 'L',
        },
        Outcome::Abort => abort_letter(running),
        Outcome::Cut => 'C',
    }
}

/// The letter of an abort, by the replies counted in the open round alone.
fn abort_letter(running: &Running) -> char {
    let nos: Vec<&Reply> = running.replies.iter().filter(|reply| !reply.yes).collect();
    if nos.is_empty() {
        'X'
    } else if !stores(running.open) {
        'O'
    } else if nos.iter().all(|reply| reply.comparison == FULL) {
        'G'
    } else {
        'W'
    }
}

/// Decides a round in which q replies are counted.
fn decide(shape: Shape, running: &mut Running) -> Decision {
    let all_yes = running.replies.iter().all(|reply| reply.yes);
    match running.open {
        READ => decide_read(shape, running, all_yes),
        _ if !all_yes => abort(),
        ORDER => next_or_abort(running.open_round(shape, WRITE, 0)),
        ORDER_READ => decide_recovery(shape, running),
        ORDER_BLOCK => decide_order_block(shape, running),
        _ => {
            let trims = running.clearing(shape, TRIM, running.time);
            Decision::End(finished(shape, running), trims)
        }
    }
}

/// The outcome of an operation whose Write or Modify round is finished.
fn finished(shape: Shape, running: &Running) -> Outcome {
    let data = match running.kind {
        Kind::Write | Kind::WriteBlock => return Outcome::Ok,
        Kind::Read => running.data.clone(),
        Kind::ReadBlock => shape.block(&running.data, running.first as usize).to_vec(),
    };
    Outcome::Gave {
        data,
        bricks: running.bricks.clone(),
    }
}

/// The time that all replies have found, if it is one.
fn common_time(replies: &[Reply]) -> Option<u64> {
    let time = replies[0].found;
    replies
        .iter()
        .all(|reply| reply.found == time)
        .then_some(time)
}

fn recover_from_the_top(shape: Shape, running: &mut Running) -> Decision {
    next_or_abort(running.open_round(shape, ORDER_READ, NO_UPPER_END))
}

fn decide_read(shape: Shape, running: &mut Running, all_yes: bool) -> Decision {
    let same = common_time(&running.replies).is_some();
    let targets = running.targets(shape);
    let blocks: Option<Vec<&[u8]>> = targets
        .iter()
        .map(|&brick| block_of(&running.replies, brick))
        .collect();
    match blocks {
        Some(blocks) if all_yes && same => {
            let data = match running.kind {
                Kind::ReadBlock => blocks.concat(),
                _ => decode(shape, &targets, &blocks.concat()).expect("m blocks agree"),
            };
            let bricks = targets;
            Decision::End(Outcome::Gave { data, bricks }, Vec::new())
        }
        _ => recover_from_the_top(shape, running),
    }
}

fn decide_order_block(shape: Shape, running: &mut Running) -> Decision {
    let old = block_of(&running.replies, running.first as u8).map(<[u8]>::to_vec);
    match (old, common_time(&running.replies)) {
        (Some(old_block), Some(old_time)) => {
            let mut messages = running.open_round(shape, MODIFY, 0);
            for message in messages.iter_mut().flatten() {
                message.old_time = old_time;
                message.old_block.clone_from(&old_block);
            }
            next_or_abort(messages)
        }
        _ => recover_from_the_top(shape, running),
    }
}

fn decide_recovery(shape: Shape, running: &mut Running) -> Decision {
    let holding = running.replies.iter().filter(|reply| reply.block.is_some());
    let Some(highest) = holding.map(|reply| reply.found).max() else {
        return abort();
    };
    let chosen: Vec<Reply> = running
        .replies
        .iter()
        .filter(|reply| reply.block.is_some() && reply.found == highest)
        .cloned()
        .collect();
    if chosen.len() as u64 >= shape.m {
        let Some((bricks, mut data)) = recover(shape, &chosen) else {
            return abort();
        };
        // A write of a block names no bricks.
        if running.kind == Kind::WriteBlock {
            shape.put_block(&mut data, running.first as usize, &running.data);
        } else {
            running.bricks = bricks;
        }
        running.data = data;
        let trims = if highest != 0 && chosen.len() == running.replies.len() {
            running.clearing(shape, TRIM, highest)
        } else {
            Vec::new()
        };
        return clear_then_next(trims, running.open_round(shape, WRITE, 0));
    }
    if highest == 0 {
        return abort();
    }
    let drops = running.clearing(shape, DROP, highest);
    clear_then_next(drops, running.open_round(shape, ORDER_READ, highest))
}

/// The first m bricks by number (E7), and the stripe that all blocks of the
/// chosen time decode to; none if they disagree.
fn recover(shape: Shape, chosen: &[Reply]) -> Option<(Vec<u8>, Vec<u8>)> {
    let mut bricks: Vec<u8> = chosen.iter().map(|reply| reply.brick as u8).collect();
    bricks.sort_unstable();
    let blocks: Vec<&[u8]> = bricks
        .iter()
        .filter_map(|&brick| block_of(chosen, brick))
        .collect();
    let data = decode(shape, &bricks, &blocks.concat())?;
    bricks.truncate(shape.m as usize);
    Some((bricks, data))
}

/// The block in the reply of a brick.
fn block_of(replies: &[Reply], brick: u8) -> Option<&[u8]> {
    replies
        .iter()
        .find(|reply| reply.brick == u64::from(brick))?
        .block
        .as_deref()
}

/// The stripe of m or more blocks of different bricks; none if they disagree.
fn decode(shape: Shape, bricks: &[u8], blocks: &[u8]) -> Option<Vec<u8>> {
    let Shape { n, m, size } = shape;
    match code::decode(n, m, size, bricks, blocks, shape.data_len()) {
        Ok(data) => Some(data),
        Err(15) => None,
        Err(number) => panic!("m or more blocks of different bricks, refused {number}"),
    }
}
