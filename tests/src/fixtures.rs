//! What several test files start from: two messages to a brick, and coordinator 1 of a set of four bricks with the replies to it.

use crate::brick::{Message, Reply, FULL, MODIFY, NEWER, NONE, ORDER_READ, PROMISE, READ, WRITE};
use crate::coordinator::{take_reply, Record, Step};
use crate::rng::Rng;
use crate::settings::Volume;

/// Read, round 1.
pub fn read(time: u64, targets: &[u8]) -> Message {
    Message {
        targets: targets.to_vec(),
        ..Message::plain(READ, time, 1)
    }
}

/// Order-and-read, round 2.
pub fn order_read(time: u64, max: u64) -> Message {
    Message {
        max,
        ..Message::plain(ORDER_READ, time, 2)
    }
}

/// Four bricks, two of the data, one-byte blocks, three stripes.
pub fn volume() -> Volume {
    Volume::new(4, 2, 1, 3)
}

/// The stripe of all operations there, if not said otherwise.
pub const STRIPE: u64 = 2;

/// Coordinator 1, idle.
pub fn fresh() -> Record {
    Record::fresh(volume(), 1)
}

/// A reply to coordinator 1 at time 17. A no is the promise's.
pub fn reply(kind: u8, round: u64, brick: u64, yes: bool, found: u64, block: Option<u8>) -> Reply {
    Reply {
        kind,
        brick,
        stripe: STRIPE,
        time: 17,
        round,
        yes,
        found,
        block: block.map(|byte| vec![byte]),
        comparison: if yes { NONE } else { PROMISE },
    }
}

/// The reply as a no of a comparison.
pub fn told(reply: &Reply, comparison: u8) -> Reply {
    Reply {
        yes: false,
        comparison,
        ..reply.clone()
    }
}

/// Whether a no to a message of a kind may name the comparison.
pub fn may_say(kind: u8, comparison: u8) -> bool {
    let allowed: &[u8] = match kind {
        READ => &[PROMISE],
        WRITE | MODIFY => &[NEWER, PROMISE, FULL],
        _ => &[NEWER, PROMISE],
    };
    allowed.contains(&comparison)
}

/// A reply that coordinator 1 counts.
pub fn take(record: &mut Record, reply: Reply) -> Step {
    take_reply(volume(), 1, record, &reply).unwrap()
}

/// The bricks that gave a block of the highest time in a recovery's round, in rising order.
pub fn givers(replies: &[Reply]) -> Vec<u8> {
    let holding = || replies.iter().filter(|reply| reply.block.is_some());
    let highest = holding().map(|reply| reply.found).max();
    let gave = holding().filter(|reply| Some(reply.found) == highest);
    let mut givers: Vec<u8> = gave.map(|reply| reply.brick as u8).collect();
    givers.sort_unstable();
    givers
}

/// Whether these replies of a recovery's round hold m or more blocks of the highest time among them.
pub fn enough_blocks(m: u64, replies: &[Reply]) -> bool {
    givers(replies).len() as u64 >= m
}

/// Changes one byte of the reply's block, if it holds one: a brick that gives another block of the same time.
pub fn alter(reply: &mut Reply, rng: &mut Rng) {
    if let Some(block) = &mut reply.block {
        let place = rng.below(block.len() as u64) as usize;
        block[place] ^= rng.between(1, 255) as u8;
    }
}
