//! The proved brick against the independent one: images, replies and refusals, byte for byte, on one image and on the row of images that
//! a brick of a volume has.

use jilbagum_tests::fixtures::may_say;
use jilbagum_tests::settings::{Refusal, Settings};
use jilbagum_tests::{brick, image, proved, rng::Rng};
use std::collections::BTreeMap;

fn settings((n, m, size, capacity, stripes): proved::Five) -> Settings {
    Settings::new(n as u64, m as u64, size as u64, capacity as u64, stripes as u64)
}

/// A message as the boundary takes it. Each field is a number of 64 bits, so that values which the brick's own types cannot hold are
/// answered by the proved code too.
#[derive(Clone, Debug)]
struct Numbers {
    kind: u64,
    time: u64,
    round: u64,
    max: u64,
    stripe: u64,
    flags: [u64; 16],
    block: Vec<u8>,
    number: u64,
    old_time: u64,
    old_block: Vec<u8>,
}

impl Numbers {
    fn of(message: &brick::Message) -> Numbers {
        let brick::Message { kind, stripe, time, round, max, ref targets, ref block, number, old_time, ref old_block } = *message;
        let (flags, block, old_block) = (proved::flags(targets), block.clone(), old_block.clone());
        Numbers { kind: u64::from(kind), time, round, max, stripe, flags, block, number, old_time, old_block }
    }

    fn asked(&self) -> proved::Asked {
        let asked = proved::asked(self.kind, self.time, self.round, self.max, self.stripe, self.flags);
        proved::of_block(asked, self.old_time, self.number)
    }

    /// The same for the independent brick: a number that no byte holds is no kind, and a flag says how often its brick is named.
    fn message(&self) -> brick::Message {
        let named = |b: u8| vec![b; self.flags[usize::from(b)].min(3) as usize];
        brick::Message {
            kind: u8::try_from(self.kind).unwrap_or(0),
            stripe: self.stripe,
            time: self.time,
            round: self.round,
            max: self.max,
            targets: (0..16).flat_map(named).collect(),
            block: self.block.clone(),
            number: self.number,
            old_time: self.old_time,
            old_block: self.old_block.clone(),
        }
    }
}

/// The two bricks' routines that take a message: on the image of its stripe, or on the row of a brick's images.
type Take = fn(Settings, u64, &mut [u8], &brick::Message) -> Result<Option<brick::Reply>, Refusal>;
const ON_ONE_IMAGE: (proved::Receive, Take) = (proved::receive, brick::take);
const ON_A_ROW: (proved::Receive, Take) = (proved::receive_in_row, brick::take_in_row);

/// Both bricks on one message. Every buffer is compared, and a refusal or a reply without a block must leave the block's buffer.
fn compare_by((receive, take): (proved::Receive, Take), five: proved::Five, number: usize, bytes: &mut Vec<u8>, numbers: &Numbers) -> u32 {
    let message = numbers.message();
    let size = five.2.min(512);
    // Blocks of kinds that have none: of block size, and any bytes.
    let block = if message.holds_a_block() { message.block.clone() } else { vec![0xAA; size] };
    let old = if message.kind == brick::MODIFY { message.old_block.clone() } else { vec![0x55; size] };
    let (mut ours, mut theirs) = (bytes.clone(), bytes.clone());
    let (mut out, mut reply) = (vec![0xEE; size], [77; 9]);
    let answer = receive(five, number, &mut ours, &numbers.asked(), (&block, &old), &mut out, &mut reply);
    let seen = format!("{five:?} brick {number} {numbers:?}");
    let mut left = vec![0xEE; size];
    match take(settings(five), number as u64, &mut theirs, &message) {
        Err(refusal) => assert_eq!((answer, reply), (u32::from(refusal), [77; 9]), "{seen}"),
        Ok(None) => assert_eq!((answer, reply), (proved::SILENCE, [77; 9]), "{seen}"),
        Ok(Some(r)) => {
            let held = u64::from(r.block.is_some());
            let (yes, comparison) = (u64::from(r.yes), u64::from(r.comparison));
            let fields = [u64::from(r.kind), r.brick, r.time, r.round, yes, r.found, held, r.stripe, comparison];
            assert_eq!((answer, reply), (0, fields), "{seen}");
            left = r.block.unwrap_or(left);
        }
    }
    assert_eq!(out, left, "{seen}");
    assert!(ours == theirs, "images differ after {seen}");
    *bytes = ours;
    answer
}

fn compare(five: proved::Five, number: usize, bytes: &mut Vec<u8>, numbers: &Numbers) -> u32 {
    compare_by(ON_ONE_IMAGE, five, number, bytes, numbers)
}

fn fresh(five: proved::Five, number: usize) -> Vec<u8> {
    let mut bytes = vec![0xDD; 512 * (five.3 + 1)];
    assert_eq!(proved::fresh(five, number, &mut bytes), 0);
    assert_eq!(bytes, image::fresh(settings(five), number as u64).unwrap());
    bytes
}

fn fresh_row(five: proved::Five, number: usize) -> Vec<u8> {
    let mut bytes = vec![0xDD; 512 * (five.3 + 1) * five.4];
    assert_eq!(proved::fresh_row(five, number, &mut bytes), 0);
    assert_eq!(bytes, image::fresh_row(settings(five), number as u64).unwrap());
    bytes
}

/// Settings in range, and the number of a brick.
fn some_brick(rng: &mut Rng) -> (proved::Five, usize) {
    let n = 1 + rng.below(16) as usize;
    let sizes = [1, 2, 7, 64, 255, 256];
    let stripes = [1, 2, 3, 5, 63, 64][rng.below(6) as usize];
    let five = (n, 1 + rng.below(n as u64) as usize, sizes[rng.below(6) as usize], 2 + rng.below(31) as usize, stripes);
    (five, rng.below(n as u64) as usize)
}

/// A number that is no flag; three of them end in a byte that is one.
fn no_flag(rng: &mut Rng) -> u64 {
    [2, 3, 128, 255, 256, 257, 1 << 32, (1 << 32) + 1, u64::MAX][rng.below(9) as usize]
}

/// The promise of an image and the times of its entries, zeros where it is none.
fn times(five: proved::Five, number: usize, bytes: &[u8]) -> (u64, Vec<u64>) {
    let times = |state: image::State| (state.promise, state.log.iter().map(|entry| entry.time).collect());
    image::parse(settings(five), number as u64, bytes).map_or((0, vec![0]), times)
}

/// A message for an image.
fn message_for(rng: &mut Rng, five: proved::Five, number: usize, bytes: &[u8]) -> Numbers {
    let times = times(five, number, bytes);
    random_message(rng, five, |_| times.clone())
}

/// A message for a row of images.
fn message_for_row(rng: &mut Rng, five: proved::Five, number: usize, row: &[u8]) -> Numbers {
    let images: Vec<&[u8]> = row.chunks(512 * (five.3 + 1)).collect();
    random_message(rng, five, |stripe| images.get(stripe as usize).map_or((0, vec![0]), |image| times(five, number, image)))
}

/// A message, mostly sensible, sometimes not, for a brick whose promise and entries on a stripe are given.
fn random_message(rng: &mut Rng, (n, m, size, _, stripes): proved::Five, times: impl Fn(u64) -> (u64, Vec<u64>)) -> Numbers {
    let stripe = match rng.below(20) {
        0 => [stripes as u64, stripes as u64 + 1, 64, 256, 1 << 32, u64::MAX][rng.below(6) as usize],
        _ => rng.below(stripes as u64),
    };
    let (promise, log) = times(stripe);
    let newest = log[log.len() - 1];
    let kind = 1 + rng.below(u64::from(brick::DROP));
    let time = match rng.below(12) {
        0 => rng.number(),
        1 => rng.below(20),
        // Of an entry, 0 among them.
        2..=8 if kind == u64::from(brick::DROP) => log[rng.below(log.len() as u64) as usize],
        2..=6 => (promise.max(newest + 1) + rng.below(24)).max(16),
        _ => 16 + rng.below(60) * 8,
    };
    let count = match rng.below(10) {
        0 => rng.below(5) as usize,
        1..=3 => 1,
        _ => m,
    };
    let among = if rng.once_in(12) { 16 } else { n };
    let mut targets: Vec<u8> = rng.shuffled(among).into_iter().map(|b| b as u8).collect();
    targets.truncate(count);
    let mut flags = proved::flags(&targets);
    if rng.once_in(12) {
        flags[rng.below(16) as usize] = no_flag(rng);
    }
    Numbers {
        kind: match rng.below(30) {
            0 => u64::from(rng.byte()),
            1 => kind + 256 * (1 + rng.below(1 << 50)),
            _ => kind,
        },
        time,
        round: if rng.once_in(12) { rng.below(2) * 1001 } else { 1 + rng.below(1000) },
        max: match rng.below(5) {
            0 => 1 << 44,
            1 => (1 << 44) + rng.below(2),
            2 => 0,
            _ => 16 + rng.below(60) * 8,
        },
        stripe,
        flags,
        block: rng.bytes(size),
        number: match rng.below(16) {
            0 => [m as u64, m as u64 + 1, n as u64, 16, 256, 1 << 32, u64::MAX][rng.below(7) as usize],
            _ => rng.below(m as u64),
        },
        old_time: match rng.below(8) {
            0 => [0, 1, 15, 16, (1 << 44) - 1, 1 << 44, u64::MAX][rng.below(7) as usize],
            1 => 16 + rng.below(60) * 8,
            _ => newest,
        },
        old_block: rng.bytes(size),
    }
}

/// The paper's own figures: the checks of a fresh head and of its entry.
#[test]
fn checks_of_a_fresh_brick() {
    let bytes = fresh((3, 1, 1, 4, 1), 0);
    assert_eq!([&bytes[..2], &bytes[512..514]], [[55, 0], [14, 0]]);
}

/// A Modify of block 1 at each brick of a set of four with m 2: brick 1 stores the new block, brick 0 a mark, bricks 2 and 3 their blocks recoded.
/// Then a Trim under three marks of brick 0: the lowest that it keeps becomes its block, the others stay.
#[test]
fn a_modify_at_every_brick_and_a_trim_under_marks() {
    let five = (4, 2, 1, 4, 1);
    // The kind and the first block byte of each entry.
    let slots = |bytes: &[u8]| {
        let entries = bytes[512..].chunks(512).take(usize::from(bytes[10]));
        entries.map(|entry| (entry[2], entry[16])).collect::<Vec<_>>()
    };
    let modify = |time, old_time, old_byte, byte| {
        let blocks = brick::Message { block: vec![byte], old_block: vec![old_byte], ..brick::Message::plain(brick::MODIFY, time, 2) };
        Numbers::of(&brick::Message { number: 1, old_time, ..blocks })
    };
    let stored = [(3, 0), (2, 7), (2, 1), (2, 3)];
    for (number, (byte, slot)) in [5, 9, 29, 17].into_iter().zip(stored).enumerate() {
        let state = image::State { promise: 0, log: vec![image::Entry { time: 16, block: Some(vec![byte]) }] };
        let mut bytes = image::write(settings(five), number as u64, &state).unwrap();
        assert_eq!(compare(five, number, &mut bytes, &modify(32, 16, 9, 7)), 0);
        assert_eq!(slots(&bytes), [(2, byte), slot]);
        if number == 0 {
            assert_eq!(compare(five, 0, &mut bytes, &modify(48, 32, 7, 8)), 0);
            assert_eq!(compare(five, 0, &mut bytes, &modify(64, 48, 8, 9)), 0);
            assert_eq!(slots(&bytes), [(2, 5), (3, 0), (3, 0), (3, 0)]);
            let trim = Numbers::of(&brick::Message::plain(brick::TRIM, 32, 3));
            assert_eq!(compare(five, 0, &mut bytes, &trim), proved::SILENCE);
            assert_eq!(slots(&bytes), [(2, 5), (3, 0), (3, 0)]);
        }
    }
}

#[test]
fn long_runs_of_messages() {
    let mut rng = Rng::printed(21);
    let (mut answers, mut marks, mut trimmed) = ([0_usize; 128], 0, 0);
    let (mut dropped, mut made, mut only) = (0, 0, 0);
    for _ in 0..500 {
        let (five, number) = some_brick(&mut rng);
        let mut bytes = fresh(five, number);
        for _ in 0..60 {
            let message = message_for(&mut rng, five, number, &bytes);
            let (before, times_before) = (image::marks(&bytes), image::times(&bytes));
            let answer = compare(five, number, &mut bytes, &message);
            answers[answer as usize] += 1;
            marks += usize::from(image::marks(&bytes).len() > before.len());
            if (message.kind, answer) == (u64::from(brick::DROP), proved::SILENCE) {
                dropped += times_before.len() - image::times(&bytes).len();
                made += usize::from(!before.contains(&message.time) && image::marks(&bytes).len() < before.len());
                only += usize::from(times_before == [message.time]);
            } else {
                trimmed += usize::from(before.contains(&image::lowest(&bytes)));
            }
            let mut times = [0; 2];
            assert_eq!(proved::panel(five, number, &bytes, &mut times), 0);
            let state = image::parse(settings(five), number as u64, &bytes).unwrap();
            assert_eq!(times, [state.promise, state.newest()]);
        }
    }
    assert!(answers[0] > 5000 && answers[100] > 500 && answers[10] > 500 && answers[14] > 100, "{answers:?}");
    println!("{marks} marks stored, {trimmed} that a Trim made a block");
    println!("{dropped} entries dropped, {made} marks that a Drop made a block, {only} only entries");
    assert!(marks > 300 && trimmed > 50, "{marks} {trimmed}");
    assert!(dropped > 500 && made > 20 && only > 50, "{dropped} {made} {only}");
}

/// A Drop of each time, at every log of up to five entries of blocks and marks, with entries free and none, again and of a time that isn't
/// there.
#[test]
fn drops_at_every_small_log() {
    let (mut dropped, mut made) = (0, 0);
    for (count, capacity) in (1..=5).flat_map(|count| [count, 6].map(|capacity| (count, capacity.max(2)))) {
        let five = (4, 2, 3, capacity, 2);
        for pattern in 0..1 << (count - 1) {
            // Times 16, 32 and so on, or from 0 on; the lowest is no mark.
            for base in [0, 1] {
                let entry = |k: usize| {
                    let mark = k > 0 && pattern >> (k - 1) & 1 == 1;
                    image::Entry { time: 16 * (base + k as u64), block: (!mark).then(|| vec![k as u8 + 1; 3]) }
                };
                let state = image::State { promise: 40, log: (0..count).map(entry).collect() };
                let bytes = image::write(settings(five), 1, &state).unwrap();
                for time in (0..=7).map(|k| 16 * k).chain([1, 15, 17, 33, (1 << 44) - 1, 1 << 44]) {
                    let message = Numbers::of(&brick::Message { stripe: 1, ..brick::Message::plain(brick::DROP, time, 3) });
                    let mut left = bytes.clone();
                    let number = if (16..1 << 44).contains(&time) { proved::SILENCE } else { 10 };
                    for _ in 0..2 {
                        assert_eq!(compare(five, 1, &mut left, &message), number);
                    }
                    dropped += count - image::times(&left).len();
                    let mark = image::marks(&bytes).contains(&time);
                    made += usize::from(!mark && image::marks(&left).len() < image::marks(&bytes).len());
                }
            }
        }
    }
    println!("{dropped} entries dropped, {made} marks that a Drop made a block");
    assert!(dropped > 400 && made > 90, "{dropped} {made}");
}

/// What says no, to every kind of message, wherever its time lies beside newest and promise, with an entry free and with none: newer time
/// first, then promise, then full log; for a Modify another newest than the old time is newer too.
#[test]
fn comparisons_of_every_kind() {
    let mut seen = BTreeMap::<(u8, u64), usize>::new();
    for (capacity, promise) in [2, 3].into_iter().flat_map(|capacity| [0, 16, 64, 65, 80, 81, 96].map(|promise| (capacity, promise))) {
        for number in 0..4 {
            let five = (4, 2, 1, capacity, 1);
            let log = [0, 64].map(|time| image::Entry { time, block: Some(vec![time as u8]) }).to_vec();
            let bytes = image::write(settings(five), number as u64, &image::State { promise, log }).unwrap();
            for (kind, time, old_time) in (brick::READ..brick::TRIM)
                .flat_map(|kind| [16, 63, 64, 65, 80, 81, 96].map(|time| (kind, time)))
                .flat_map(|(kind, time)| [0, 64, 80].map(|old_time| (kind, time, old_time)))
            {
                let against_order = match (time, promise) {
                    (0..=64, _) => brick::NEWER,
                    _ if time < promise => brick::PROMISE,
                    _ => brick::NONE,
                };
                let against_append = if against_order == brick::NONE && capacity == 2 { brick::FULL } else { against_order };
                let expected = match kind {
                    brick::READ if promise > 64 => brick::PROMISE,
                    brick::READ => brick::NONE,
                    brick::WRITE => against_append,
                    brick::MODIFY if old_time != 64 => brick::NEWER,
                    brick::MODIFY => against_append,
                    _ => against_order,
                };
                let message = brick::Message {
                    targets: vec![0, 1],
                    max: 1 << 44,
                    block: vec![7],
                    old_time,
                    old_block: vec![9],
                    ..brick::Message::plain(kind, time, 1)
                };
                let numbers = Numbers::of(&message);
                assert_eq!(compare(five, number, &mut bytes.clone(), &numbers), 0);
                let mut reply = [77; 9];
                proved::receive(five, number, &mut bytes.clone(), &numbers.asked(), (&[7], &[9]), &mut [0], &mut reply);
                assert_eq!((reply[4], reply[8]), (u64::from(expected == brick::NONE), u64::from(expected)), "{numbers:?}");
                *seen.entry((kind, reply[8])).or_default() += 1;
            }
        }
    }
    println!("{seen:?}");
    for (kind, comparison) in (brick::READ..brick::TRIM).flat_map(|kind| [1, 2, 3].map(|comparison| (kind, comparison))) {
        assert_eq!(seen.contains_key(&(kind, u64::from(comparison))), may_say(kind, comparison), "{kind} {comparison}");
    }
}

/// Each field below, at and above its range, in messages of every kind: 10 where the kind looks at the field, and only there.
#[test]
fn fields_in_and_around_their_ranges() {
    let five = (5, 2, 4, 6, 3);
    let flags = proved::flags(&[1, 3]);
    let plain = Numbers::of(&brick::Message { block: vec![7; 4], old_block: vec![9; 4], ..brick::Message::plain(0, 160, 2) });
    let good = |kind: u64| Numbers { kind, max: 1 << 44, stripe: 1, flags, ..plain.clone() };
    let answer = |numbers: &Numbers| compare(five, 3, &mut fresh(five, 3), numbers);
    let passed = |kind: u64| if kind >= u64::from(brick::TRIM) { proved::SILENCE } else { 0 };
    for kind in [0, 9, 10, 255, 256, 257, 261, 263, 264, 512 + 4, 1 << 32, (1 << 32) + 1, u64::MAX] {
        assert_eq!(answer(&good(kind)), 10, "kind {kind}");
    }
    for kind in 1..=u64::from(brick::DROP) {
        assert_eq!(answer(&good(kind)), passed(kind));
        for time in [0, 1, 15, 1 << 44, (1 << 44) + 16, u64::MAX] {
            assert_eq!(answer(&Numbers { time, ..good(kind) }), 10, "kind {kind} time {time}");
        }
        for time in [16, (1 << 44) - 1] {
            assert_eq!(answer(&Numbers { time, ..good(kind) }), passed(kind));
        }
        for (round, number) in [(0, 10), (1, passed(kind)), (1000, passed(kind)), (1001, 10), (u64::MAX, 10)] {
            assert_eq!(answer(&Numbers { round, ..good(kind) }), number, "kind {kind} round {round}");
        }
        for (stripe, number) in [(0, passed(kind)), (2, passed(kind)), (3, 13), (64, 13), (256, 13), (1 << 32, 13), (u64::MAX, 13)] {
            assert_eq!(answer(&Numbers { stripe, ..good(kind) }), number, "kind {kind} stripe {stripe}");
        }
        for max in [(1 << 44) + 1, u64::MAX] {
            let number = if kind == u64::from(brick::ORDER_READ) { 10 } else { passed(kind) };
            assert_eq!(answer(&Numbers { max, ..good(kind) }), number, "kind {kind} max {max}");
        }
        let of_block = [brick::ORDER_BLOCK, brick::MODIFY].contains(&(kind as u8));
        for (number, refusal) in [(0, 0), (1, 0), (2, 14), (5, 14), (256, 14), (1 << 32, 14), (u64::MAX, 14)] {
            let expected = if of_block && refusal > 0 { refusal } else { passed(kind) };
            assert_eq!(answer(&Numbers { number, ..good(kind) }), expected, "kind {kind} block {number}");
        }
        let is_modify = kind == u64::from(brick::MODIFY);
        for (old_time, refusal) in [(0, 0), (1, 10), (15, 10), (16, 0), ((1 << 44) - 1, 0), (1 << 44, 10), (u64::MAX, 10)] {
            let expected = if is_modify && refusal > 0 { refusal } else { passed(kind) };
            assert_eq!(answer(&Numbers { old_time, ..good(kind) }), expected, "kind {kind} old time {old_time}");
        }
        let of_read = |number: u32| if kind == u64::from(brick::READ) { number } else { passed(kind) };
        for place in 0..16 {
            for flag in [0, 1, 2, 255, 256, 257, u64::MAX] {
                let mut flags = good(kind).flags;
                // Without target 3, brick 1 is the single target of a block read.
                let fits = flags[place] == flag || (place, flag) == (3, 0);
                flags[place] = flag;
                assert_eq!(answer(&Numbers { flags, ..good(kind) }), of_read(if fits { 0 } else { 10 }), "flag {flag} of {place}");
            }
            let single = Numbers { flags: proved::flags(&[place as u8]), ..good(kind) };
            assert_eq!(answer(&single), of_read(if place < 2 { 0 } else { 10 }), "single target {place}");
        }
        // As many targets as asked for, one of them no brick; then two other bricks.
        assert_eq!(answer(&Numbers { flags: proved::flags(&[1, 5]), ..good(kind) }), of_read(10));
        assert_eq!(answer(&Numbers { flags: proved::flags(&[0, 4]), ..good(kind) }), of_read(0));
    }
}

#[test]
fn every_changed_byte_of_a_small_image() {
    let five = (3, 2, 1, 3, 1);
    let mut bytes = fresh(five, 1);
    let write = brick::Message { block: vec![9], ..brick::Message::plain(brick::WRITE, 33, 2) };
    compare(five, 1, &mut bytes, &Numbers::of(&write));
    let modify = brick::Message { old_time: 33, block: vec![8], old_block: vec![7], ..brick::Message::plain(brick::MODIFY, 49, 2) };
    compare(five, 1, &mut bytes, &Numbers::of(&modify));
    assert_eq!(image::marks(&bytes), [49]);
    let read = brick::Message { targets: vec![1], ..brick::Message::plain(brick::READ, 49, 1) };
    for at in 0..bytes.len() {
        for change in 1..=255_u8 {
            let mut damaged = bytes.clone();
            damaged[at] ^= change;
            let (mut out, mut reply) = ([0], [0; 9]);
            let kept = damaged.clone();
            let answer = proved::receive(five, 1, &mut damaged, &Numbers::of(&read).asked(), (&[0], &[0]), &mut out, &mut reply);
            assert_eq!((answer, &damaged), (5, &kept), "byte {at} by {change}");
        }
    }
    assert_eq!(compare(five, 1, &mut bytes, &Numbers::of(&read)), 0);
}

/// The check of a block, made right again after damage, so that refusal 6 is reached.
fn reseal(block: &mut [u8]) {
    let sum: u64 = 1 + (2..512).map(|p| (p as u64 - 1) * u64::from(block[p])).sum::<u64>();
    block[..2].copy_from_slice(&((sum % 65521) as u16).to_le_bytes());
}

#[test]
fn damaged_images() {
    let mut rng = Rng::printed(22);
    let (mut answers, mut marked) = ([0_usize; 128], 0);
    for _ in 0..7000 {
        let five = (5, 3, [1, 64, 256][rng.below(3) as usize], 2 + rng.below(5) as usize, [1, 4][rng.below(2) as usize]);
        let mut bytes = fresh(five, 2);
        for _ in 0..rng.below(6) {
            let message = message_for(&mut rng, five, 2, &bytes);
            compare(five, 2, &mut bytes, &message);
        }
        marked += usize::from(!image::marks(&bytes).is_empty());
        for _ in 0..1 + rng.below(2) {
            let at = if rng.once_in(2) { rng.below(bytes.len() as u64) } else { rng.below(4) * 512 + rng.below(24) } as usize;
            let at = at % bytes.len();
            bytes[at] = if rng.once_in(2) { rng.byte() } else { bytes[at] ^ 1 };
            if !rng.once_in(4) {
                let block = at / 512 * 512;
                reseal(&mut bytes[block..block + 512]);
            }
        }
        if rng.once_in(20) {
            bytes.pop();
        }
        let message = message_for(&mut rng, five, 2, &bytes);
        let brick = if rng.once_in(10) { rng.below(8) as usize } else { 2 };
        answers[compare(five, brick, &mut bytes, &message) as usize] += 1;
    }
    for number in [0, 2, 3, 5, 6, 13, 14, 100] {
        assert!(answers[number] > 20, "{number}: {answers:?}");
    }
    assert!(marked > 500, "{marked} images with marks");
}

/// The lowest entry of an image made a mark, its block's bytes taken or left: refused by 6 whatever is asked, and by 5 where a check fails
/// too. A higher entry of zeros made a mark opens.
#[test]
fn images_with_a_lowest_mark() {
    let mut rng = Rng::printed(26);
    let (mut answers, mut opened) = ([0_usize; 128], 0);
    for _ in 0..1500 {
        let (mut five, number) = some_brick(&mut rng);
        five.3 = 2 + rng.below(4) as usize;
        let mut bytes = fresh(five, number);
        for _ in 0..rng.below(6) {
            let message = message_for(&mut rng, five, number, &bytes);
            compare(five, number, &mut bytes, &message);
        }
        let entry = if rng.once_in(3) { 1 + rng.below(five.3 as u64) as usize } else { 1 };
        let block = &mut bytes[512 * entry..512 * (entry + 1)];
        let was = block[2];
        block[2] = 3;
        if !rng.once_in(4) {
            block[16..].fill(0);
        }
        reseal(block);
        if rng.once_in(8) {
            bytes[512 * five.3 + 100] ^= 1;
        }
        opened += usize::from(entry > 1 && was == 2 && image::parse(settings(five), number as u64, &bytes).is_ok());
        for kind in 1..=u64::from(brick::DROP) {
            let message = Numbers { kind, stripe: 0, number: 0, ..message_for(&mut rng, five, number, &bytes) };
            let answer = compare(five, number, &mut bytes.clone(), &message);
            assert!(entry > 1 || [5, 6].contains(&answer));
            answers[answer as usize] += 1;
        }
        let mut times = [77; 2];
        let panel = proved::panel(five, number, &bytes, &mut times);
        let refusal = image::parse(settings(five), number as u64, &bytes).err().map_or(0, u32::from);
        assert_eq!((panel, times == [77; 2]), (refusal, refusal != 0));
        look_everywhere(five, number, &bytes, &mut [0; 7]);
    }
    assert!([0, 5, 6, 10].iter().all(|&number| answers[number] > 50) && opened > 20, "{opened} {answers:?}");
}

/// The proved view against the independent state at every place from 0 to capacity + 1 and at the last number; a refusal must leave the buffer.
fn look_everywhere(five: proved::Five, number: usize, bytes: &[u8], answers: &mut [usize; 7]) {
    let state = image::parse(settings(five), number as u64, bytes);
    for place in (0..=five.3 + 1).chain([usize::MAX]) {
        let mut found = [77; 2];
        let answer = proved::entry(five, number, bytes, place, &mut found);
        let seen = format!("{five:?} brick {number} place {place}");
        match state.as_ref().map_err(|&refusal| refusal).and_then(|s| s.entry(place as u64)) {
            Err(refusal) => assert_eq!((answer, found), (u32::from(refusal), [77; 2]), "{seen}"),
            Ok(entry) => {
                // The place of a block is that of its entry; a mark has none.
                let held = if entry.block.is_some() { place as u64 + 1 } else { 0 };
                assert_eq!((answer, found), (0, [entry.time, held]), "{seen}");
                if let Some(block) = &entry.block {
                    let at = held as usize * image::BLOCK + 16;
                    assert_eq!(bytes[at..at + five.2], *block, "{seen}");
                }
            }
        }
        answers[answer as usize] += 1;
    }
}

#[test]
fn views_of_every_place() {
    let mut rng = Rng::printed(23);
    let (mut whole, mut hurt, mut other) = ([0_usize; 7], [0_usize; 7], [0_usize; 7]);
    let mut full = 0;
    for run in 0..400 {
        let (five, number) = some_brick(&mut rng);
        let mut bytes = fresh(five, number);
        look_everywhere(five, number, &bytes, &mut whole);
        let mut time = 16;
        for _ in 0..4 {
            for _ in 0..rng.below(20) {
                // Every other run only writes, in rising time, so that logs grow long and full.
                time += 1 + rng.below(40);
                let rising = brick::Message { block: rng.bytes(five.2), ..brick::Message::plain(brick::WRITE, time, 1) };
                let message = if run % 2 == 0 { Numbers::of(&rising) } else { message_for(&mut rng, five, number, &bytes) };
                compare(five, number, &mut bytes, &message);
            }
            look_everywhere(five, number, &bytes, &mut whole);
            full += usize::from(image::parse(settings(five), number as u64, &bytes).unwrap().log.len() == five.3);
            // A changed byte, near the front of a block or anywhere; its check made right again or not.
            let mut damaged = bytes.clone();
            let block = rng.below(five.3 as u64 + 1) as usize * 512;
            let within = if rng.once_in(2) { 24 } else { 512 };
            let at = block + rng.below(within) as usize;
            damaged[at] ^= 1 + rng.below(255) as u8;
            if rng.once_in(2) {
                reseal(&mut damaged[block..block + 512]);
            }
            look_everywhere(five, number, &damaged, &mut hurt);
        }
        // Another brick, other settings, another length.
        let (n, m, size, capacity, stripes) = five;
        for brick in 0..=n + 1 {
            look_everywhere(five, brick, &bytes, &mut other);
        }
        for (n, m, size) in [(n + 1, m, size), (n, m + 1, size), (n, m, size + 1), (n, 0, size), (n, m, 257)] {
            look_everywhere((n, m, size, capacity, stripes), number, &bytes, &mut other);
        }
        for (capacity, stripes) in [(capacity + 1, stripes), (33, stripes), (capacity, 0), (capacity, 65)] {
            look_everywhere((n, m, size, capacity, stripes), number, &bytes, &mut other);
        }
        look_everywhere(five, number, &bytes[1..], &mut other);
        for length in [0, 1, 3] {
            let mut found = vec![77; length];
            assert_eq!(proved::entry(five, number, &bytes, 0, &mut found), 2);
            assert_eq!(found, vec![77; length]);
        }
    }
    assert!(full > 100 && whole[0] > 5000 && whole[3] > 5000, "{full} {whole:?}");
    assert_eq!(whole[0] + whole[3], whole.iter().sum::<usize>(), "{whole:?}");
    assert!([0, 3, 5, 6].iter().all(|&k| hurt[k] > 100), "{hurt:?}");
    assert!([1, 2, 3, 6].iter().all(|&k| other[k] > 1000), "{other:?}");
}

/// Settings for blocks of 4 bytes and a capacity of 3, one of them out of its range.
const WRONG: [proved::Five; 9] = [
    (0, 0, 4, 3, 2),
    (17, 1, 4, 3, 2),
    (3, 4, 4, 3, 2),
    (3, 1, 0, 3, 2),
    (3, 1, 257, 3, 2),
    (3, 1, 4, 1, 2),
    (3, 1, 4, 33, 2),
    (3, 1, 4, 3, 0),
    (3, 1, 4, 3, 65),
];

/// The order of the refusals, the boundary's own buffers included: 1, then 2, 3, 13, whatever else is wrong.
#[test]
fn settings_and_lengths() {
    let five = (3, 1, 4, 3, 2);
    let mut bytes = fresh(five, 0);
    let read = Numbers::of(&brick::Message { targets: vec![0], ..brick::Message::plain(brick::READ, 16, 1) });
    let asked = read.asked();
    let (mut out, mut reply) = ([0; 4], [0; 10]);
    for wrong in WRONG {
        assert_eq!(compare(wrong, 0, &mut bytes, &read), 1);
        assert_eq!(proved::receive(wrong, 9, &mut bytes, &asked[..22], (&[0; 3], &[0; 3]), &mut out, &mut reply[..8]), 1);
        assert_eq!(proved::panel(wrong, 9, &bytes, &mut [0; 3]), 1);
        assert_eq!(proved::entry(wrong, 9, &bytes, 9, &mut [0; 1]), 1);
        assert_eq!(proved::fresh(wrong, 9, &mut [0; 3]), 1);
    }
    // Of a brick that is none, with a stripe and a data block that are none, in the first round of a block write and in a Modify, at an old
    // time that is none, and in a kind that is none: the lengths come before.
    let block = [0; 4];
    let unknown = brick::DROP + 1;
    for kind in [brick::ORDER_BLOCK, brick::MODIFY, unknown] {
        let mut bad = proved::of_block(asked, 15, 1);
        (bad[0], bad[2], bad[4]) = (u64::from(kind), 0, 2);
        let mut longer = bad.to_vec();
        longer.push(0);
        for short in [&bad[..0], &bad[..21], &bad[..22], &longer[..]] {
            assert_eq!(proved::receive(five, 3, &mut bytes, short, (&block, &block), &mut out, &mut reply[..9]), 2);
        }
        for lent in [(&block[..3], &block[..]), (&block[..], &block[..3]), (&block[..], &[0; 5][..]), (&[][..], &block[..])] {
            assert_eq!(proved::receive(five, 3, &mut bytes, &bad, lent, &mut out, &mut reply[..9]), 2);
        }
        let lent = (&block[..], &block[..]);
        for length in [0, 7, 8, 10] {
            assert_eq!(proved::receive(five, 3, &mut bytes, &bad, lent, &mut out, &mut reply[..length]), 2);
        }
        let reply = &mut reply[..9];
        assert_eq!(proved::receive(five, 3, &mut bytes, &bad, lent, &mut out[..3], reply), 2);
        assert_eq!(proved::receive(five, 3, &mut bytes[1..], &bad, lent, &mut out, reply), 2);
        assert_eq!(proved::receive(five, 3, &mut bytes, &bad, lent, &mut out, reply), 3);
        assert_eq!(proved::receive(five, 0, &mut bytes, &bad, lent, &mut out, reply), 13);
        bad[4] = 1;
        let number = if kind == unknown { 10 } else { 14 };
        assert_eq!(proved::receive(five, 0, &mut bytes, &bad, lent, &mut out, reply), number);
        bad[6] = 0;
        assert_eq!(proved::receive(five, 0, &mut bytes, &bad, lent, &mut out, reply), 10);
    }
    assert_eq!(proved::receive(five, 0, &mut bytes, &asked, (&block, &block), &mut out, &mut reply[..9]), 0);
    for length in [0, 1, 3] {
        let mut pair = vec![77; length];
        assert_eq!(proved::panel(five, 3, &bytes, &mut pair), 2);
        assert_eq!(proved::entry(five, 3, &bytes, 9, &mut pair), 2);
        assert_eq!(pair, vec![77; length]);
    }
    assert_eq!((proved::panel(five, 3, &bytes, &mut [0; 2]), proved::entry(five, 3, &bytes, 9, &mut [0; 2])), (3, 3));
}

/// Long runs on the rows of bricks of volumes, some images damaged on the way: a damaged one is refused where it is meant, and stops
/// nothing elsewhere. That no byte of another image changes follows from the comparison; it is looked at for itself too.
#[test]
fn rows_of_images() {
    let mut rng = Rng::printed(24);
    let (mut answers, mut beside) = ([0_usize; 128], 0);
    for _ in 0..140 {
        let (mut five, number) = some_brick(&mut rng);
        five.3 = 2 + rng.below(3) as usize;
        let mut row = fresh_row(five, number);
        let length = 512 * (five.3 + 1);
        let mut damaged = None;
        for _ in 0..40 {
            if rng.once_in(30) {
                let stripe = rng.below(five.4 as u64) as usize;
                let block = stripe * length + 512 * rng.below(five.3 as u64 + 1) as usize;
                row[block + rng.below(512) as usize] ^= 1 + rng.below(255) as u8;
                if rng.once_in(2) {
                    reseal(&mut row[block..block + 512]);
                }
                damaged = Some(stripe as u64);
            }
            let message = message_for_row(&mut rng, five, number, &row);
            let before = row.clone();
            let answer = compare_by(ON_A_ROW, five, number, &mut row, &message);
            answers[answer as usize] += 1;
            beside += usize::from(answer == 0 && damaged.is_some_and(|stripe| stripe != message.stripe));
            let mut pairs = (0_u64..).zip(row.chunks(length).zip(before.chunks(length)));
            assert!(pairs.all(|(stripe, (after, before))| stripe == message.stripe || after == before), "{five:?} {message:?}");
        }
    }
    assert!(answers[0] > 2000 && [5, 6, 10, 13, 14, 100].iter().all(|&number| answers[number] > 50), "{answers:?}");
    assert!(beside > 300, "{beside}");
}

/// An image of the row, and the same message at that image alone: one and the same.
#[test]
fn a_row_is_its_images() {
    let mut rng = Rng::printed(25);
    let five = (4, 2, 8, 3, 6);
    let mut row = fresh_row(five, 2);
    let length = row.len() / five.4;
    let mut images: Vec<Vec<u8>> = (0..five.4).map(|_| fresh(five, 2)).collect();
    let mut replies = 0;
    for _ in 0..2000 {
        let stripe = rng.below(five.4 as u64);
        let message = Numbers { stripe, ..message_for(&mut rng, five, 2, &images[stripe as usize]) };
        let answer = compare_by(ON_A_ROW, five, 2, &mut row, &message);
        assert_eq!(compare(five, 2, &mut images[message.stripe as usize], &message), answer);
        assert!(row.chunks(length).eq(images.iter().map(Vec::as_slice)));
        replies += usize::from(answer == 0);
    }
    assert!(replies > 1000);
}

/// The order of the refusals on a row: 1, 2, 3, 13, then 5 and 6 of the message's own image, then 10; and of a fresh row 1, 2, 3.
#[test]
fn rows_refused_in_order() {
    let five = (3, 1, 4, 3, 2);
    let row = fresh_row(five, 0);
    let length = row.len() / 2;
    let senseless = Numbers { stripe: 2, number: 1, old_time: 15, ..Numbers::of(&brick::Message::plain(brick::MODIFY, 16, 1)) };
    let refused = |five: proved::Five, number: usize, row: &[u8], numbers: &Numbers, block: usize, out: usize| {
        let (mut lent, mut out, mut reply) = (row.to_vec(), vec![0xEE; out], [77; 9]);
        let blocks = (&vec![0; block][..], &vec![0; 4][..]);
        let answer = proved::receive_in_row(five, number, &mut lent, &numbers.asked(), blocks, &mut out, &mut reply);
        assert!(lent == row && out.iter().all(|&byte| byte == 0xEE) && reply == [77; 9]);
        answer
    };
    // In both images a byte that should be zero isn't; in that of stripe 1 the check of another block fails too.
    let mut torn = row.clone();
    for head in [0, length] {
        torn[head + 300] = 1;
        reseal(&mut torn[head..head + 512]);
    }
    torn[length + 600] ^= 1;
    for wrong in WRONG {
        assert_eq!(refused(wrong, 3, &torn[1..], &senseless, 3, 3), 1);
        assert_eq!(proved::fresh_row(wrong, 3, &mut torn.clone()[1..]), 1);
    }
    for lent in [&torn[..0], &torn[1..], &torn[..length], &[&torn[..], &[0]].concat()] {
        assert_eq!(refused(five, 3, lent, &senseless, 4, 4), 2);
        let mut kept = lent.to_vec();
        assert_eq!(proved::fresh_row(five, 3, &mut kept), 2);
        assert_eq!(kept, lent);
    }
    assert_eq!(refused(five, 3, &torn, &senseless, 3, 4), 2);
    assert_eq!(refused(five, 3, &torn, &senseless, 4, 5), 2);
    let short_old = proved::receive_in_row(five, 3, &mut torn.clone(), &senseless.asked(), (&[0; 4], &[0; 3]), &mut [0; 4], &mut [0; 9]);
    assert_eq!(short_old, 2);
    let mut kept = torn.clone();
    assert_eq!((proved::fresh_row(five, 3, &mut kept), kept == torn), (3, true));
    let at = |stripe: u64| Numbers { stripe, ..senseless.clone() };
    assert_eq!(refused(five, 3, &torn, &at(2), 4, 4), 3);
    assert_eq!(refused(five, 0, &torn, &at(2), 4, 4), 13);
    assert_eq!(refused(five, 0, &torn, &at(1), 4, 4), 14);
    let known = |stripe: u64| Numbers { number: 0, ..at(stripe) };
    assert_eq!(refused(five, 0, &torn, &known(1), 4, 4), 5);
    assert_eq!(refused(five, 0, &torn, &known(0), 4, 4), 6);
    assert_eq!(refused(five, 0, &row, &known(0), 4, 4), 10);
}
