//! The proved routines, through their C entry points. Nothing here computes: each function hands its arguments over.

use crate::rng::Rng;

mod c {
    extern "C" {
        pub fn probe_mul(a: u8, b: u8) -> u8;
        pub fn probe_inv(a: u8) -> u8;
        pub fn probe_div(a: u8, b: u8) -> u8;
        pub fn probe_power(k: usize) -> u8;
        pub fn probe_log(a: u8) -> u8;
        pub fn probe_quorum(n: usize, m: usize) -> usize;
        pub fn probe_time(t: u64) -> bool;
        pub fn probe_settings(n: usize, m: usize, size: usize, capacity: usize, stripes: usize) -> u32;
        pub fn probe_draw(coordinator: u64, last: u64, reading: u64, out: *mut u64, len: usize) -> u32;
    }

    /// Routines that take the same arguments first, then their own.
    macro_rules! routines {
        ($first:tt $($name:ident $own:tt)*) => { extern "C" { $(routine!($name $first $own);)* } };
    }
    macro_rules! routine {
        ($name:ident ($($first:ident: $type:ty),*) ($($own:ident: $kind:ty),*)) => {
            pub fn $name($($first: $type,)* $($own: $kind),*) -> u32;
        };
    }

    routines! {
        (n: usize, m: usize, size: usize)
        stripe_encode(data: *const u8, data_len: usize, coded: *mut u8, coded_len: usize)
        stripe_decode(
            bricks: *const u8, bricks_len: usize, blocks: *const u8, blocks_len: usize, data: *mut u8, data_len: usize
        )
    }

    routines! {
        (n: usize, m: usize, size: usize, capacity: usize, stripes: usize)
        volume_place(block: usize, place: *mut usize, place_len: usize)
    }

    routines! {
        (n: usize, m: usize, size: usize, capacity: usize, stripes: usize, brick: usize)
        brick_fresh(image: *mut u8, image_len: usize)
        brick_panel(image: *const u8, image_len: usize, times: *mut u64, times_len: usize)
        brick_entry(image: *const u8, image_len: usize, place: usize, found: *mut u64, found_len: usize)
        brick_receive(
            image: *mut u8, image_len: usize, asked: *const u64, asked_len: usize, block: *const u8, block_len: usize,
            old: *const u8, old_len: usize, out: *mut u8, out_len: usize, reply: *mut u64, reply_len: usize
        )
        volume_fresh(images: *mut u8, images_len: usize)
        volume_receive(
            images: *mut u8, images_len: usize, asked: *const u64, asked_len: usize, block: *const u8, block_len: usize,
            old: *const u8, old_len: usize, out: *mut u8, out_len: usize, reply: *mut u64, reply_len: usize
        )
    }

    routines! {
        (
            n: usize, m: usize, size: usize, stripes: usize, numbers: *mut u64, numbers_len: usize, bytes: *mut u8,
            bytes_len: usize, sent: *mut u64, sent_len: usize, shown: *mut u8, shown_len: usize
        )
        coord_start_write(
            stripe_number: usize, reading: u64, given: *const u8, given_len: usize, stripe: *mut u8, stripe_len: usize
        )
        coord_start_read(stripe_number: usize, reading: u64, first: usize)
        coord_start_write_block(
            stripe_number: usize, reading: u64, block: usize, given: *const u8, given_len: usize, stripe: *mut u8,
            stripe_len: usize
        )
        coord_start_read_block(stripe_number: usize, reading: u64, block: usize)
        coord_take_reply(
            kind: u8, brick: usize, stripe_number: usize, time: u64, round: u64, yes: bool, found: u64, has: bool,
            comparison: u8, block: *const u8, block_len: usize, blocks: *mut u8, blocks_len: usize, stripe: *mut u8, stripe_len: usize,
            coded: *mut u8, coded_len: usize
        )
        coord_crash()
    }
}

pub fn mul(a: u8, b: u8) -> u8 {
    unsafe { c::probe_mul(a, b) }
}

pub fn inv(a: u8) -> u8 {
    unsafe { c::probe_inv(a) }
}

pub fn div(a: u8, b: u8) -> u8 {
    unsafe { c::probe_div(a, b) }
}

pub fn power(k: usize) -> u8 {
    unsafe { c::probe_power(k) }
}

pub fn log(a: u8) -> u8 {
    unsafe { c::probe_log(a) }
}

pub fn quorum(n: usize, m: usize) -> usize {
    unsafe { c::probe_quorum(n, m) }
}

pub fn is_time(t: u64) -> bool {
    unsafe { c::probe_time(t) }
}

pub fn settings((n, m, size, capacity, stripes): Five) -> u32 {
    unsafe { c::probe_settings(n, m, size, capacity, stripes) }
}

pub fn draw(coordinator: u64, last: u64, reading: u64, out: &mut [u64]) -> u32 {
    unsafe { c::probe_draw(coordinator, last, reading, out.as_mut_ptr(), out.len()) }
}

pub fn encode(n: usize, m: usize, size: usize, data: &[u8], coded: &mut [u8]) -> u32 {
    unsafe { c::stripe_encode(n, m, size, data.as_ptr(), data.len(), coded.as_mut_ptr(), coded.len()) }
}

pub fn decode(n: usize, m: usize, size: usize, bricks: &[u8], blocks: &[u8], data: &mut [u8]) -> u32 {
    let (b, k) = (bricks.as_ptr(), blocks.as_ptr());
    unsafe { c::stripe_decode(n, m, size, b, bricks.len(), k, blocks.len(), data.as_mut_ptr(), data.len()) }
}

/// Five settings: n, m, block size, log capacity, stripes.
pub type Five = (usize, usize, usize, usize, usize);

/// The stripe and data block of a client block.
pub fn place((n, m, size, capacity, stripes): Five, block: usize, place: &mut [usize]) -> u32 {
    unsafe { c::volume_place(n, m, size, capacity, stripes, block, place.as_mut_ptr(), place.len()) }
}

pub fn fresh((n, m, size, capacity, stripes): Five, brick: usize, image: &mut [u8]) -> u32 {
    unsafe { c::brick_fresh(n, m, size, capacity, stripes, brick, image.as_mut_ptr(), image.len()) }
}

/// The same for the row of a brick's images, one a stripe.
pub fn fresh_row((n, m, size, capacity, stripes): Five, brick: usize, images: &mut [u8]) -> u32 {
    unsafe { c::volume_fresh(n, m, size, capacity, stripes, brick, images.as_mut_ptr(), images.len()) }
}

pub fn panel((n, m, size, capacity, stripes): Five, brick: usize, image: &[u8], times: &mut [u64]) -> u32 {
    let (i, t) = (image.as_ptr(), times.as_mut_ptr());
    unsafe { c::brick_panel(n, m, size, capacity, stripes, brick, i, image.len(), t, times.len()) }
}

/// The view's entry at a place: its time and the place of its block, 0 for a mark.
pub fn entry((n, m, size, capacity, stripes): Five, brick: usize, image: &[u8], place: usize, found: &mut [u64]) -> u32 {
    let (i, f) = (image.as_ptr(), found.as_mut_ptr());
    unsafe { c::brick_entry(n, m, size, capacity, stripes, brick, i, image.len(), place, f, found.len()) }
}

/// A message's numbers: kind, time, round, max, stripe, the old time and the data block's number, and a flag for each brick that a set
/// may have.
pub type Asked = [u64; 23];
const OLD: usize = 5;
const BLOCK: usize = 6;
const TARGETS: usize = 7;

/// A message that has neither an old time nor a data block's number.
pub fn asked(kind: u64, time: u64, round: u64, max: u64, stripe: u64, flags: [u64; 16]) -> Asked {
    let mut asked = [0; 23];
    asked[..OLD].copy_from_slice(&[kind, time, round, max, stripe]);
    asked[TARGETS..].copy_from_slice(&flags);
    asked
}

/// The message with its old time and data block's number.
pub fn of_block(mut asked: Asked, old: u64, block: u64) -> Asked {
    (asked[OLD], asked[BLOCK]) = (old, block);
    asked
}

/// A reply's numbers: kind, brick, time, round, yes, found, whether it holds a block, stripe, the comparison that said no.
pub type Replied = [u64; 9];

/// The flags of a list of bricks below 16: how often each stands in it.
pub fn flags(bricks: &[u8]) -> [u64; 16] {
    let mut flags = [0; 16];
    for &brick in bricks {
        flags[usize::from(brick)] += 1;
    }
    flags
}

/// The number that tells silence from a reply and from every refusal.
pub const SILENCE: u32 = 100;

/// A routine that takes a message on what a brick is lent: 0 a reply, `SILENCE`, else the refusal.
pub type Receive = fn(Five, usize, &mut [u8], &[u64], Blocks, &mut [u8], &mut [u64]) -> u32;

/// What is lent beside a message: its block, and the old block of a Modify.
pub type Blocks<'a> = (&'a [u8], &'a [u8]);

/// Calls a routine of a brick that takes a message.
macro_rules! receive {
    ($(#[$doc:meta])* $name:ident $routine:ident) => {
        $(#[$doc])*
        #[allow(clippy::too_many_arguments)]
        pub fn $name(
            (n, m, size, capacity, stripes): Five,
            brick: usize,
            lent: &mut [u8],
            asked: &[u64],
            (block, old): Blocks,
            out: &mut [u8],
            reply: &mut [u64],
        ) -> u32 {
            let (i, a, b, o, r) = (lent.as_mut_ptr(), asked.as_ptr(), block.as_ptr(), out.as_mut_ptr(), reply.as_mut_ptr());
            let (j, c, d, e, f) = (lent.len(), asked.len(), block.len(), out.len(), reply.len());
            let (p, q) = (old.as_ptr(), old.len());
            unsafe { c::$routine(n, m, size, capacity, stripes, brick, i, j, a, c, b, d, p, q, o, e, r, f) }
        }
    };
}

receive! {
    /// One message at one brick, on the image of its stripe.
    receive brick_receive
}
receive! {
    /// The same on the row of a brick's images, one a stripe.
    receive_in_row volume_receive
}

/// Four settings of a coordinator: n, m, block size, stripes.
pub type Four = (usize, usize, usize, usize);

/// A record's numbers and bytes: how many there are, and where each stands, or a row of sixteen begins.
pub mod record {
    pub const NUMBERS: usize = 27;
    pub const COORDINATOR: usize = 0;
    pub const LAST: usize = 1;
    pub const TIME: usize = 2;
    pub const ROUND: usize = 3;
    pub const MAX: usize = 4;
    pub const FIRST: usize = 5;
    pub const N: usize = 6;
    pub const M: usize = 7;
    pub const SIZE: usize = 8;
    pub const STRIPES: usize = 9;
    pub const STRIPE: usize = 10;
    pub const FOUND: usize = 11;

    pub const BYTES: usize = 82;
    pub const KIND: usize = 0;
    pub const PHASE: usize = 1;
    pub const COUNTED: usize = 2;
    pub const GRANTED: usize = 18;
    pub const HELD: usize = 34;
    pub const BRICKS: usize = 50;
    pub const COMPARISON: usize = 66;
}

/// The same of an answer.
pub mod answer {
    pub const NUMBERS: usize = 16;
    /// How many broadcasts there are.
    pub const SENT: usize = 0;
    pub const SEEN_TIME: usize = 4;
    pub const SEEN_STRIPE: usize = 9;
    pub const SEEN_BLOCK: usize = 15;

    pub const BYTES: usize = 53;
    pub const SEEN: usize = 1;
    pub const SEEN_KIND: usize = 2;
    pub const BRICKS: usize = 19;
    pub const LETTER: usize = 52;

    /// Where a broadcast's message stands: its numbers, then its kind and targets among the bytes.
    #[derive(Clone, Copy)]
    pub struct Message {
        pub time: usize,
        pub round: usize,
        pub max: usize,
        pub stripe: usize,
        pub old: usize,
        pub block: usize,
        pub kind: usize,
        pub targets: usize,
    }

    /// The messages in the order in which they are sent: a lone one is the first, of two the second is that of the round.
    pub const MESSAGES: [Message; 2] = [
        Message { time: 1, round: 2, max: 3, stripe: 8, old: 11, block: 12, kind: 0, targets: 3 },
        Message { time: 5, round: 6, max: 7, stripe: 10, old: 13, block: 14, kind: 51, targets: 35 },
    ];
}

/// Kinds of operations.
pub const READING: u8 = 1;
pub const WRITING: u8 = 2;
pub const READING_BLOCK: u8 = 3;
pub const WRITING_BLOCK: u8 = 4;

/// What is seen of an operation.
pub const BEGAN: u8 = 1;
pub const WROTE: u8 = 2;
pub const GAVE: u8 = 3;
pub const ABORTED: u8 = 4;
pub const CUT: u8 = 5;

/// What every routine of a coordinator is lent: the numbers and bytes of the record and of the answer.
#[derive(Clone, Debug, PartialEq, Eq)]
pub struct Lent {
    pub numbers: Vec<u64>,
    pub bytes: Vec<u8>,
    pub sent: Vec<u64>,
    pub shown: Vec<u8>,
}

impl Lent {
    /// An idle coordinator for these settings that drew no time yet.
    pub fn fresh((n, m, size, stripes): Four, coordinator: u64) -> Lent {
        let mut numbers = vec![0; record::NUMBERS];
        numbers[record::COORDINATOR] = coordinator;
        numbers[record::N..=record::STRIPES].copy_from_slice(&[n, m, size, stripes].map(|number| number as u64));
        Lent { numbers, bytes: vec![0; record::BYTES], sent: vec![0; answer::NUMBERS], shown: vec![0; answer::BYTES] }
    }

    /// The places of the messages that the answer sends.
    pub fn sent(&self) -> &'static [answer::Message] {
        &answer::MESSAGES[..self.sent[answer::SENT] as usize]
    }

    /// A row of an answer's bytes.
    pub fn shown_row(&self, at: usize) -> [u8; 16] {
        std::array::from_fn(|b| self.shown[at + b])
    }

    pub fn running(&self) -> bool {
        self.bytes[record::KIND] != 0
    }
}

/// A coordinator as it is lent: the four buffers, the blocks of replies, the stripe, the n coded blocks.
#[derive(Clone, Debug, PartialEq, Eq)]
pub struct Coordinator {
    pub lent: Lent,
    pub blocks: Vec<u8>,
    pub stripe: Vec<u8>,
    pub coded: Vec<u8>,
}

impl Coordinator {
    /// An idle coordinator that drew no time yet, with zeros in its buffers.
    pub fn fresh((n, m, size, stripes): Four, number: u64) -> Coordinator {
        let (blocks, coded) = (vec![0; n * size], vec![0; n * size]);
        Coordinator { lent: Lent::fresh((n, m, size, stripes), number), blocks, stripe: vec![0; m * size], coded }
    }

    /// Other bytes in the buffers beside the record, as a crash may leave them.
    pub fn overwrite(&mut self, rng: &mut Rng) {
        for buffer in [&mut self.blocks, &mut self.stripe, &mut self.coded] {
            *buffer = rng.bytes(buffer.len());
        }
    }
}

/// A reply as a coordinator takes it: kind, brick, stripe, time, round, yes, found, whether it holds a block, and the comparison that
/// said no.
pub type Taken = (u8, usize, usize, u64, u64, bool, u64, bool, u8);

/// A brick's reply as a coordinator takes it.
pub fn taken([kind, brick, time, round, yes, found, held, stripe, comparison]: Replied) -> Taken {
    (kind as u8, brick as usize, stripe as usize, time, round, yes == 1, found, held == 1, comparison as u8)
}

/// Calls a routine of a coordinator: on the settings, what is lent, and its own arguments.
macro_rules! call {
    ($routine:ident, $four:expr, $lent:expr $(, $own:expr)*) => {{
        let ((n, m, size, stripes), l): (Four, &mut Lent) = ($four, $lent);
        let (a, b, c, d) = (l.numbers.as_mut_ptr(), l.bytes.as_mut_ptr(), l.sent.as_mut_ptr(), l.shown.as_mut_ptr());
        let (e, f, g, h) = (l.numbers.len(), l.bytes.len(), l.sent.len(), l.shown.len());
        unsafe { c::$routine(n, m, size, stripes, a, e, b, f, c, g, d, h $(, $own)*) }
    }};
}

pub fn start_write(four: Four, lent: &mut Lent, number: usize, reading: u64, given: &[u8], stripe: &mut [u8]) -> u32 {
    call!(coord_start_write, four, lent, number, reading, given.as_ptr(), given.len(), stripe.as_mut_ptr(), stripe.len())
}

pub fn start_read(four: Four, lent: &mut Lent, number: usize, reading: u64, first: usize) -> u32 {
    call!(coord_start_read, four, lent, number, reading, first)
}

/// The block given has block size; it goes to its place in the stripe.
#[allow(clippy::too_many_arguments)]
pub fn start_write_block(
    four: Four,
    lent: &mut Lent,
    number: usize,
    reading: u64,
    block: usize,
    given: &[u8],
    stripe: &mut [u8],
) -> u32 {
    let (i, j) = (given.as_ptr(), stripe.as_mut_ptr());
    call!(coord_start_write_block, four, lent, number, reading, block, i, given.len(), j, stripe.len())
}

pub fn start_read_block(four: Four, lent: &mut Lent, number: usize, reading: u64, block: usize) -> u32 {
    call!(coord_start_read_block, four, lent, number, reading, block)
}

pub fn crash(four: Four, lent: &mut Lent) -> u32 {
    call!(coord_crash, four, lent)
}

#[allow(clippy::too_many_arguments)]
pub fn take_reply(
    four: Four,
    lent: &mut Lent,
    (kind, brick, number, time, round, yes, found, has, comparison): Taken,
    block: &[u8],
    blocks: &mut [u8],
    stripe: &mut [u8],
    coded: &mut [u8],
) -> u32 {
    let (i, j, k, l) = (block.as_ptr(), blocks.as_mut_ptr(), stripe.as_mut_ptr(), coded.as_mut_ptr());
    call!(
        coord_take_reply, four, lent, kind, brick, number, time, round, yes, found, has, comparison, i, block.len(), j,
        blocks.len(), k, stripe.len(), l, coded.len()
    )
}
