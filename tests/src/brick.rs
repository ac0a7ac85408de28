//! One message at one brick: at the image of its stripe, or at the row of all
//! the images that the brick of a volume has.

use crate::code;
use crate::field::{add, mul};
use crate::image::{self, Entry, State};
use crate::settings::{log_time, valid_time, Refusal, Settings, Shape, LAST_ROUND, NO_UPPER_END};

/// Kinds of messages. A reply has the kind of its message; Trim and Drop have no
/// reply.
pub const READ: u8 = 1;
pub const ORDER: u8 = 2;
pub const ORDER_READ: u8 = 3;
/// The first round of a block write.
pub const ORDER_BLOCK: u8 = 4;
pub const WRITE: u8 = 5;
pub const MODIFY: u8 = 6;
pub const TRIM: u8 = 7;
pub const DROP: u8 = 8;

/// The comparison that said no, in a reply: none on a yes.
pub const NONE: u8 = 0;
/// The time isn't above newest; of a Modify also: newest isn't the old time.
pub const NEWER: u8 = 1;
/// The time is below the promise; of a Read: newest is.
pub const PROMISE: u8 = 2;
/// The log has no free entry.
pub const FULL: u8 = 3;

/// A message to a brick. A field that the kind has no use for isn't looked at.
#[derive(Clone, Debug, PartialEq, Eq)]
pub struct Message {
    pub kind: u8,
    pub stripe: u64,
    pub time: u64,
    pub round: u64,
    /// Order-and-read: entries under this time are looked for.
    pub max: u64,
    /// Read: the bricks that give their block.
    pub targets: Vec<u8>,
    /// Write: the block to store. Modify: the new block of brick `number`.
    pub block: Vec<u8>,
    /// Order-block, Modify: the data block's number.
    pub number: u64,
    /// Modify: the newest time that a brick must have.
    pub old_time: u64,
    /// Modify: the block that is replaced.
    pub old_block: Vec<u8>,
}

/// A reply of a brick, to the coordinator in its time.
#[derive(Clone, Debug, PartialEq, Eq)]
pub struct Reply {
    pub kind: u8,
    pub brick: u64,
    pub stripe: u64,
    pub time: u64,
    pub round: u64,
    pub yes: bool,
    /// Read, Order-block: the newest time. Order-and-read: the time of the entry
    /// found.
    pub found: u64,
    pub block: Option<Vec<u8>>,
    /// The first comparison that said no.
    pub comparison: u8,
}

impl Message {
    /// A message of stripe 0 with no max, no targets and no block.
    pub fn plain(kind: u8, time: u64, round: u64) -> Message {
        Message {
            kind,
            stripe: 0,
            time,
            round,
            max: 0,
            targets: Vec::new(),
            block: Vec::new(),
            number: 0,
            old_time: 0,
            old_block: Vec::new(),
        }
    }

    /// Whether it is of one data block, which it names.
    pub fn names_a_block(&self) -> bool {
        self.kind == ORDER_BLOCK || self.kind == MODIFY
    }

    /// Whether it brings a block.
    pub fn holds_a_block(&self) -> bool {
        stores(self.kind)
    }

    /// Refusal 10.
    pub fn refusal(&self, shape: Shape) -> Option<Refusal> {
        let fits = (READ..=DROP).contains(&self.kind)
            && valid_time(self.time)
            && round_fits(self.round)
            && (self.kind != ORDER_READ || self.max <= NO_UPPER_END)
            && (self.kind != READ || targets_fit(shape, &self.targets))
            && (self.kind != MODIFY || log_time(self.old_time));
        (!fits).then_some(10)
    }

    /// Whether its blocks have block size.
    fn lengths_fit(&self, shape: Shape) -> bool {
        let fits = |block: &[u8]| block.len() as u64 == shape.size;
        (!self.holds_a_block() || fits(&self.block))
            && (self.kind != MODIFY || fits(&self.old_block))
    }
}

impl Reply {
    /// Refusal 10.
    pub fn refusal(&self) -> Option<Refusal> {
        let fits = (READ..=MODIFY).contains(&self.kind)
            && valid_time(self.time)
            && round_fits(self.round)
            && log_time(self.found)
            && self.comparison_fits();
        (!fits).then_some(10)
    }

    /// Whether the kind and the answer allow the comparison.
    fn comparison_fits(&self) -> bool {
        match self.comparison {
            NONE => self.yes,
            NEWER => !self.yes && self.kind != READ,
            PROMISE => !self.yes,
            FULL => !self.yes && stores(self.kind),
            _ => false,
        }
    }
}

/// Whether messages of a kind append to the log.
pub fn stores(kind: u8) -> bool {
    kind == WRITE || kind == MODIFY
}

/// Whether messages of a kind free entries; these have no reply.
pub fn clears(kind: u8) -> bool {
    kind == TRIM || kind == DROP
}

/// Whether the targets are m different bricks, or the one that holds a data block.
fn targets_fit(shape: Shape, targets: &[u8]) -> bool {
    let single = matches!(targets, &[target] if u64::from(target) < shape.m);
    single || shape.is_brick_set(targets)
}

fn round_fits(round: u64) -> bool {
    (1..=LAST_ROUND).contains(&round)
}

/// Takes a message at a brick, on the image of its stripe: changes the image,
/// and gives the reply if the message has one. Refused: 1 settings, 2 the
/// length of the image or of a block, 3 brick, 13 the message's stripe, 14 its
/// data block, 5 and 6 the image, 10 the message.
pub fn take(
    settings: Settings,
    brick: u64,
    image: &mut [u8],
    message: &Message,
) -> Result<Option<Reply>, Refusal> {
    check_lent(settings, brick, image, 1, message)?;
    take_at(settings, brick, image, message)
}

/// The same at a brick of a volume, its images one after another: that of the
/// message's stripe alone is looked at and changed. Refused as above, 2 being
/// the length of the row.
pub fn take_in_row(
    settings: Settings,
    brick: u64,
    images: &mut [u8],
    message: &Message,
) -> Result<Option<Reply>, Refusal> {
    check_lent(settings, brick, images, settings.stripes, message)?;
    let length = image::length(settings);
    let at = message.stripe as usize * length;
    take_at(settings, brick, &mut images[at..at + length], message)
}

/// Refusals 1, 2, 3, 13 and 14, where so many images are lent.
fn check_lent(
    settings: Settings,
    brick: u64,
    lent: &[u8],
    images: u64,
    message: &Message,
) -> Result<(), Refusal> {
    if settings.refusal().is_some() {
        return Err(1);
    }
    let shape = settings.shape;
    if lent.len() != images as usize * image::length(settings) || !message.lengths_fit(shape) {
        return Err(2);
    }
    if brick >= shape.n {
        return Err(3);
    }
    if let Some(refusal) = settings.volume().stripe_refusal(message.stripe) {
        return Err(refusal);
    }
    match shape.block_refusal(message.number) {
        Some(refusal) if message.names_a_block() => Err(refusal),
        _ => Ok(()),
    }
}

/// Refusals 5, 6 and 10, else what the message does.
fn take_at(
    settings: Settings,
    brick: u64,
    image: &mut [u8],
    message: &Message,
) -> Result<Option<Reply>, Refusal> {
    let mut state = image::parse(settings, brick, image)?;
    if let Some(number) = message.refusal(settings.shape) {
        return Err(number);
    }
    let reply = act(settings, brick, &mut state, message);
    image.copy_from_slice(&image::write(settings, brick, &state)?);
    Ok(reply)
}

/// What a message does to the state of a brick, and its reply.
fn act(settings: Settings, brick: u64, state: &mut State, message: &Message) -> Option<Reply> {
    let (comparison, found, block) = match message.kind {
        READ => read(
            state,
            message
                .targets
                .iter()
                .any(|&target| u64::from(target) == brick),
        ),
        ORDER => (order(state, message.time), 0, None),
        ORDER_READ => order_and_read(state, message.time, message.max),
        ORDER_BLOCK => order_block(state, message.time, brick == message.number),
        WRITE => (store(settings, state, message), 0, None),
        MODIFY => (modify(settings, brick, state, message), 0, None),
        TRIM => {
            trim(state, message.time);
            return None;
        }
        _ => {
            drop_entry(state, message.time);
            return None;
        }
    };
    Some(Reply {
        kind: message.kind,
        brick,
        stripe: message.stripe,
        time: message.time,
        round: message.round,
        yes: comparison == NONE,
        found,
        block,
        comparison,
    })
}

/// What says no to the order of a time, which must be above newest and not
/// below the promise.
fn against_order(state: &State, time: u64) -> u8 {
    if time <= state.newest() {
        NEWER
    } else if time < state.promise {
        PROMISE
    } else {
        NONE
    }
}

/// The block that the newest entry means.
fn newest_block(state: &State) -> &[u8] {
    state.meant(state.log.len() - 1)
}

/// An answer: the comparison that said no, the time given and the block.
type Answer = (u8, u64, Option<Vec<u8>>);

fn read(state: &State, target: bool) -> Answer {
    let newest = state.newest();
    if newest < state.promise {
        return (PROMISE, newest, None);
    }
    let block = target.then(|| newest_block(state).to_vec());
    (NONE, newest, block)
}

fn order(state: &mut State, time: u64) -> u8 {
    let comparison = against_order(state, time);
    if comparison == NONE {
        state.promise = time;
    }
    comparison
}

fn order_and_read(state: &mut State, time: u64, max: u64) -> Answer {
    let comparison = order(state, time);
    if comparison != NONE {
        return (comparison, 0, None);
    }
    // The log rises, so the last entry under max is the highest, mark or block.
    let place = state.log.iter().rposition(|entry| entry.time < max);
    place.map_or((NONE, 0, None), |place| {
        let block = state.meant(place).to_vec();
        (NONE, state.log[place].time, Some(block))
    })
}

fn order_block(state: &mut State, time: u64, gives: bool) -> Answer {
    let comparison = order(state, time);
    if comparison != NONE {
        return (comparison, 0, None);
    }
    let block = gives.then(|| newest_block(state).to_vec());
    (NONE, state.newest(), block)
}

/// What says no to appending a time: the same, then a full log.
fn against_append(settings: Settings, state: &State, time: u64) -> u8 {
    match against_order(state, time) {
        NONE if state.count() >= settings.capacity => FULL,
        comparison => comparison,
    }
}

fn append(state: &mut State, time: u64, block: Option<Vec<u8>>) {
    state.log.push(Entry { time, block });
}

fn store(settings: Settings, state: &mut State, message: &Message) -> u8 {
    let comparison = against_append(settings, state, message.time);
    if comparison == NONE {
        append(state, message.time, Some(message.block.clone()));
    }
    comparison
}

fn modify(settings: Settings, brick: u64, state: &mut State, message: &Message) -> u8 {
    if state.newest() != message.old_time {
        return NEWER;
    }
    let comparison = against_append(settings, state, message.time);
    if comparison == NONE {
        let block = modified(settings.shape, brick, newest_block(state), message);
        append(state, message.time, block);
    }
    comparison
}

/// What a brick stores for a Modify: brick j the new block, a parity brick its
/// own recoded, any other a mark.
fn modified(shape: Shape, brick: u64, own: &[u8], message: &Message) -> Option<Vec<u8>> {
    if brick == message.number {
        return Some(message.block.clone());
    }
    if brick < shape.m {
        return None;
    }
    let weight = code::weight(shape.n, shape.m, brick, message.number);
    let changes = message.old_block.iter().zip(&message.block);
    let recoded = own
        .iter()
        .zip(changes)
        .map(|(&own, (&old, &new))| add(own, mul(weight, add(old, new))));
    Some(recoded.collect())
}

/// The log rises, so what is kept is an end of it. Its lowest entry becomes a
/// block if it is a mark.
fn trim(state: &mut State, time: u64) {
    let newest = state.log.len() - 1;
    let kept = state.log.iter().position(|entry| entry.time >= time);
    let lowest = kept.map_or(newest, |place| place.min(newest));
    let block = state.meant(lowest).to_vec();
    state.log.drain(..lowest);
    state.log[0].block = Some(block);
}

/// The entry of a time goes, unless it is the only one. If it had a block and the
/// entry right above it is a mark, that mark becomes the block.
fn drop_entry(state: &mut State, time: u64) {
    let place = state.log.iter().position(|entry| entry.time == time);
    let Some(place) = place.filter(|_| state.log.len() > 1) else {
        return;
    };
    let dropped = state.log.remove(place);
    if let (Some(block), Some(above)) = (dropped.block, state.log.get_mut(place)) {
        above.block.get_or_insert(block);
    }
}
