//! Messages of operations on one block, and marks, at one brick.

use jilbagum_tests::brick::*;
use jilbagum_tests::fixtures::{order_read, read};
use jilbagum_tests::code::{encode, weight};
use jilbagum_tests::image::{fresh, marks, parse, write, Entry, State};
use jilbagum_tests::rng::Rng;
use jilbagum_tests::settings::{Refusal, Settings, NO_UPPER_END};

/// n 4, m 2, blocks of 1 byte, logs of 5 entries, 3 stripes.
fn settings() -> Settings {
    Settings::new(4, 2, 1, 5, 3)
}

/// A log: times, and bytes or marks.
type Log = Vec<(u64, Option<u8>)>;

/// The image of a brick with a promise and a log.
fn image(brick: u64, promise: u64, log: &[(u64, Option<u8>)]) -> Vec<u8> {
    let entry = |&(time, byte): &(u64, Option<u8>)| Entry {
        time,
        block: byte.map(|byte| vec![byte]),
    };
    let log = log.iter().map(entry).collect();
    write(settings(), brick, &State { promise, log }).unwrap()
}

fn state(brick: u64, image: &[u8]) -> (u64, Log) {
    let State { promise, log } = parse(settings(), brick, image).unwrap();
    let entry = |entry: Entry| (entry.time, entry.block.map(|block| block[0]));
    (promise, log.into_iter().map(entry).collect())
}

fn order_block(time: u64, number: u64) -> Message {
    Message {
        number,
        ..Message::plain(ORDER_BLOCK, time, 1)
    }
}

/// Block `number` goes from a byte to another, over the entry of an old time.
fn modify(time: u64, old_time: u64, number: u64, old: u8, new: u8) -> Message {
    Message {
        number,
        old_time,
        old_block: vec![old],
        block: vec![new],
        ..Message::plain(MODIFY, time, 2)
    }
}

/// The answer of a brick: the comparison that said no, the time given, the block's byte.
fn answer(brick: u64, image: &mut [u8], message: &Message) -> (u8, u64, Option<u8>) {
    let reply = take(settings(), brick, image, message).unwrap().unwrap();
    assert_eq!((reply.kind, reply.brick), (message.kind, brick));
    assert_eq!(reply.stripe, message.stripe);
    assert_eq!((reply.time, reply.round), (message.time, message.round));
    assert_eq!(reply.yes, reply.comparison == NONE);
    assert_eq!(reply.refusal(), None);
    (
        reply.comparison,
        reply.found,
        reply.block.map(|block| block[0]),
    )
}

fn trim(brick: u64, image: &mut [u8], time: u64) {
    let message = Message::plain(TRIM, time, 2);
    assert_eq!(take(settings(), brick, image, &message), Ok(None));
}

/// The message is refused and the image keeps its bytes.
fn refused(settings: Settings, brick: u64, image: &[u8], message: &Message) -> Refusal {
    let mut changed = image.to_vec();
    let refusal = take(settings, brick, &mut changed, message).unwrap_err();
    assert_eq!(changed, image);
    refusal
}

/// A log whose newest entry, and that below it, are marks.
const MARKED: [(u64, Option<u8>); 4] = [(0, Some(5)), (32, Some(6)), (48, None), (64, None)];

#[test]
fn read_gives_the_newest_entry_at_its_time_with_the_block_it_means() {
    for (promise, said) in [(0, NONE), (64, NONE), (65, PROMISE)] {
        let mut image = image(1, promise, &MARKED);
        let before = image.clone();
        for targets in [&[0, 1][..], &[1, 3], &[1]] {
            let given = answer(1, &mut image, &read(80, targets));
            assert_eq!(given, (said, 64, (said == NONE).then_some(6)));
        }
        for targets in [&[0, 3][..], &[0]] {
            assert_eq!(answer(1, &mut image, &read(80, targets)), (said, 64, None));
        }
        assert_eq!(image, before);
    }
}

#[test]
fn the_lookup_under_max_gives_the_highest_entry_mark_or_block() {
    for (max, found, byte) in [
        (NO_UPPER_END, 64, Some(6)),
        (65, 64, Some(6)),
        (64, 48, Some(6)),
        (49, 48, Some(6)),
        (48, 32, Some(6)),
        (32, 0, Some(5)),
        (0, 0, None),
    ] {
        let mut image = image(1, 0, &MARKED);
        let given = answer(1, &mut image, &order_read(80, max));
        assert_eq!(given, (NONE, found, byte), "max {max}");
        assert_eq!(state(1, &image), (80, MARKED.to_vec()));
    }
}

/// A promise, a time, and what a brick whose newest time is 64 says to that time.
const AFTER_64: [(u64, u64, u8); 9] = [
    (0, 64, NEWER),
    (0, 65, NONE),
    (0, 63, NEWER),
    (80, 79, PROMISE),
    (80, 65, PROMISE),
    (80, 80, NONE),
    (80, 81, NONE),
    (80, 64, NEWER),
    (80, 16, NEWER),
];

#[test]
fn order_block_gives_newest_and_brick_j_its_block() {
    for (promise, time, said) in AFTER_64 {
        for (brick, byte) in [(0, None), (1, Some(6)), (2, None), (3, None)] {
            let mut image = image(brick, promise, &MARKED);
            let given = answer(brick, &mut image, &order_block(time, 1));
            let expected = if said == NONE {
                (NONE, 64, byte)
            } else {
                (said, 0, None)
            };
            assert_eq!(given, expected, "brick {brick} time {time}");
            let promise = if said == NONE { time } else { promise };
            assert_eq!(state(brick, &image), (promise, MARKED.to_vec()));
        }
    }
    // A fresh brick: newest is 0, and its block zero.
    let mut image = fresh(settings(), 0).unwrap();
    let given = answer(0, &mut image, &order_block(16, 0));
    assert_eq!(given, (NONE, 0, Some(0)));
}

/// Data 5, 9; block 1 becomes 7: every brick then holds, or means, its block of
/// the encoding of 5, 7.
#[test]
fn modify_by_hand() {
    assert_eq!(encode(4, 2, 1, &[5, 9]), Ok(vec![5, 9, 29, 17]));
    assert_eq!(encode(4, 2, 1, &[5, 7]), Ok(vec![5, 7, 1, 3]));
    // At point 2 the line through (0, 0) and (1, 1) is 2, at point 3 it is 3;
    // 9 + 7 is 14, 2 * 14 is 28, 3 * 14 is 18.
    assert_eq!([2, 3].map(|brick| weight(4, 2, brick, 1)), [2, 3]);
    assert_eq!([29 ^ 28, 17 ^ 18], [1, 3]);
    let stored = [None, Some(7), Some(1), Some(3)];
    for (brick, byte) in [5, 9, 29, 17].into_iter().enumerate() {
        let mut image = image(brick as u64, 40, &[(0, Some(0)), (32, Some(byte))]);
        let given = answer(brick as u64, &mut image, &modify(48, 32, 1, 9, 7));
        assert_eq!(given, (NONE, 0, None));
        let log = vec![(0, Some(0)), (32, Some(byte)), (48, stored[brick])];
        assert_eq!(state(brick as u64, &image), (40, log));
    }
    // Block 0 becomes 4: the line through (0, 1) and (1, 0) is 3 and 2.
    assert_eq!([2, 3].map(|brick| weight(4, 2, brick, 0)), [3, 2]);
    assert_eq!(encode(4, 2, 1, &[4, 9]), Ok(vec![4, 9, 30, 19]));
    let stored = [Some(4), None, Some(30), Some(19)];
    for (brick, byte) in [5, 9, 29, 17].into_iter().enumerate() {
        let mut image = image(brick as u64, 0, &[(32, Some(byte))]);
        let given = answer(brick as u64, &mut image, &modify(48, 32, 0, 5, 4));
        assert_eq!(given, (NONE, 0, None));
        let log = vec![(32, Some(byte)), (48, stored[brick])];
        assert_eq!(state(brick as u64, &image), (0, log));
    }
}

/// A mark at a data brick after a mark; a parity brick recodes what its mark means.
#[test]
fn modify_over_marks() {
    let mut zero = image(0, 0, &MARKED);
    let given = answer(0, &mut zero, &modify(80, 64, 1, 9, 7));
    assert_eq!(given, (NONE, 0, None));
    assert_eq!(state(0, &zero).1[4], (80, None));
    assert_eq!(marks(&zero), [48, 64, 80]);
    let mut parity = image(2, 0, &MARKED);
    answer(2, &mut parity, &modify(80, 64, 1, 9, 7));
    assert_eq!(state(2, &parity).1[4], (80, Some(6 ^ 28)));
    let mut own = image(1, 0, &MARKED);
    answer(1, &mut own, &modify(80, 64, 1, 9, 7));
    assert_eq!(state(1, &own).1[4], (80, Some(7)));
}

#[test]
fn modify_says_yes_over_the_old_time_alone() {
    for (promise, time, said) in AFTER_64 {
        for old_time in [0, 16, 32, 48, 64, 65, 80] {
            let mut image = image(1, promise, &MARKED);
            let before = image.clone();
            let given = answer(1, &mut image, &modify(time, old_time, 1, 6, 7));
            // Another newest counts as newer, whatever else says no.
            let said = if old_time == 64 { said } else { NEWER };
            assert_eq!(given, (said, 0, None), "time {time} old {old_time}");
            if said == NONE {
                let log = [&MARKED[..], &[(time, Some(7))]].concat();
                assert_eq!(state(1, &image), (promise, log));
            } else {
                assert_eq!(image, before);
            }
        }
    }
    // Over a fresh brick: 0 is its newest.
    let mut image = fresh(settings(), 0).unwrap();
    assert_eq!(
        answer(0, &mut image, &modify(16, 0, 1, 0, 7)),
        (NONE, 0, None)
    );
    assert_eq!(state(0, &image), (0, vec![(0, Some(0)), (16, None)]));
}

#[test]
fn a_full_log_says_no_to_modify_until_a_trim() {
    let log = [&MARKED[..], &[(80, None)]].concat();
    for brick in 0..4 {
        let mut image = image(brick, 0, &log);
        let before = image.clone();
        let message = modify(96, 80, 1, 6, 7);
        assert_eq!(answer(brick, &mut image, &message), (FULL, 0, None));
        assert_eq!(image, before);
        trim(brick, &mut image, 32);
        assert_eq!(answer(brick, &mut image, &message), (NONE, 0, None));
    }
}

/// On a full log a Modify hears of another newest or a newer time first, then of the promise,
/// and of the log only where neither says no.
#[test]
fn modify_names_the_first_comparison() {
    let log = [&[(0, Some(3)), (16, Some(4))], &MARKED[1..]].concat();
    for (promise, time, said) in AFTER_64 {
        for (old_time, said) in [
            (64, if said == NONE { FULL } else { said }),
            (0, NEWER),
            (48, NEWER),
            (80, NEWER),
        ] {
            for brick in 0..4 {
                let mut image = image(brick, promise, &log);
                let before = image.clone();
                let given = answer(brick, &mut image, &modify(time, old_time, 1, 6, 7));
                assert_eq!(given, (said, 0, None), "time {time} old {old_time}");
                assert_eq!(image, before);
            }
        }
    }
}

#[test]
fn trim_makes_the_lowest_kept_mark_its_block() {
    let log = [&MARKED[..], &[(80, Some(9))]].concat();
    for (time, kept) in [
        (
            16,
            vec![(32, Some(6)), (48, None), (64, None), (80, Some(9))],
        ),
        (
            32,
            vec![(32, Some(6)), (48, None), (64, None), (80, Some(9))],
        ),
        (33, vec![(48, Some(6)), (64, None), (80, Some(9))]),
        (48, vec![(48, Some(6)), (64, None), (80, Some(9))]),
        (49, vec![(64, Some(6)), (80, Some(9))]),
        (64, vec![(64, Some(6)), (80, Some(9))]),
        (65, vec![(80, Some(9))]),
        (1000, vec![(80, Some(9))]),
    ] {
        let mut image = image(1, 40, &log);
        trim(1, &mut image, time);
        assert_eq!(state(1, &image), (40, kept), "trim {time}");
    }
    // The newest is a mark: it is kept, as its block.
    let mut image = image(1, 40, &MARKED);
    trim(1, &mut image, 1000);
    assert_eq!(state(1, &image), (40, vec![(64, Some(6))]));
}

fn drop_time(brick: u64, image: &mut [u8], time: u64) {
    let message = Message::plain(DROP, time, 2);
    assert_eq!(take(settings(), brick, image, &message), Ok(None));
}

/// The mark right above a dropped block becomes that block; one above a dropped mark, or
/// one that means another block, stays as it is.
#[test]
fn a_dropped_block_makes_the_mark_above_it_its_block() {
    let log = [&MARKED[..], &[(80, Some(9))]].concat();
    for (time, kept) in [
        (
            32,
            vec![(0, Some(5)), (48, Some(6)), (64, None), (80, Some(9))],
        ),
        (
            48,
            vec![(0, Some(5)), (32, Some(6)), (64, None), (80, Some(9))],
        ),
        (
            64,
            vec![(0, Some(5)), (32, Some(6)), (48, None), (80, Some(9))],
        ),
        (80, MARKED.to_vec()),
        (16, log.clone()),
        (79, log.clone()),
    ] {
        let mut image = image(1, 40, &log);
        for _ in 0..2 {
            drop_time(1, &mut image, time);
            assert_eq!(state(1, &image), (40, kept.clone()), "drop {time}");
        }
    }
    // The lowest entry of all: the next one is lowest then, so no mark.
    let low = [(16, Some(5)), (32, None), (48, None), (64, Some(9)), (80, None)];
    for (first, kept) in [
        (
            16,
            vec![(32, Some(5)), (48, None), (64, Some(9)), (80, None)],
        ),
        (
            64,
            vec![(16, Some(5)), (32, None), (48, None), (80, Some(9))],
        ),
    ] {
        let mut image = image(1, 40, &low);
        drop_time(1, &mut image, first);
        assert_eq!(state(1, &image), (40, kept));
    }
    let mut image = image(1, 40, &low);
    for time in [16, 32, 48, 64] {
        drop_time(1, &mut image, time);
    }
    assert_eq!(state(1, &image), (40, vec![(80, Some(9))]));
    drop_time(1, &mut image, 80);
    assert_eq!(state(1, &image), (40, vec![(80, Some(9))]));
}

/// Drops and Trims in any order leave the meaning of every entry that stays, and a lowest
/// entry that is no mark.
#[test]
fn what_stays_means_what_it_meant() {
    let mut rng = Rng::printed(11);
    let (mut dropped, mut made) = (0, 0);
    for _ in 0..3000 {
        let mut log: Log = vec![(16 * rng.below(2), Some(rng.byte()))];
        for k in 2..=rng.between(2, 5) {
            log.push((16 * k, (!rng.once_in(2)).then(|| rng.byte())));
        }
        let mut image = image(1, 0, &log);
        for _ in 0..4 {
            let before = parse(settings(), 1, &image).unwrap();
            let time = 16 * rng.between(1, 6);
            if rng.once_in(6) {
                trim(1, &mut image, time);
            } else {
                let marked = marks(&image);
                drop_time(1, &mut image, time);
                let is_mark = marked.contains(&time);
                made += usize::from(!is_mark && marks(&image).len() < marked.len());
                let there = before.log.iter().any(|entry| entry.time == time);
                let gone = there && before.log.len() > 1;
                assert_eq!(
                    parse(settings(), 1, &image).unwrap().log.len(),
                    before.log.len() - usize::from(gone)
                );
                dropped += usize::from(gone);
            }
            let after = parse(settings(), 1, &image).unwrap();
            assert_eq!(after.promise, before.promise);
            for (place, entry) in after.log.iter().enumerate() {
                let old = before.log.iter().position(|old| old.time == entry.time);
                assert_eq!(after.meant(place), before.meant(old.expect("an old entry")));
            }
        }
    }
    println!("{dropped} entries dropped, {made} marks made blocks");
    assert!(dropped > 1000 && made > 200);
}

#[test]
fn refused_10() {
    let image = image(1, 0, &MARKED);
    // A single target that holds parity, or is no brick.
    for targets in [&[2][..], &[3], &[4], &[255], &[], &[1, 1], &[0, 1, 2]] {
        let message = read(80, targets);
        assert_eq!(refused(settings(), 1, &image, &message), 10, "{targets:?}");
    }
    for old_time in [1, 15, 1 << 44, u64::MAX] {
        let message = modify(80, old_time, 1, 6, 7);
        assert_eq!(refused(settings(), 1, &image, &message), 10, "{old_time}");
        // Others don't look at it.
        let order = Message {
            old_time,
            ..order_block(80, 1)
        };
        assert!(take(settings(), 1, &mut image.clone(), &order).is_ok());
    }
    for old_time in [0, 16, (1 << 44) - 1] {
        let message = modify(80, old_time, 1, 6, 7);
        assert!(take(settings(), 1, &mut image.clone(), &message).is_ok());
    }
    for message in [order_block(80, 1), modify(80, 64, 1, 6, 7)] {
        for (time, round) in [(0, 1), (15, 1), (1 << 44, 1), (80, 0), (80, 1001)] {
            let message = Message {
                time,
                round,
                ..message.clone()
            };
            assert_eq!(refused(settings(), 1, &image, &message), 10);
        }
    }
    // With m 1 a set of targets has one member anyway, any brick of the set.
    let one = Settings::new(3, 1, 1, 5, 1);
    let image = fresh(one, 1).unwrap();
    for (target, number) in [(0, None), (1, None), (2, None), (3, Some(10))] {
        let taken = take(one, 1, &mut image.clone(), &read(16, &[target]));
        assert_eq!(taken.err(), number, "target {target}");
    }
}

/// 14 comes after 13 and before 5, and is of the kinds that name a data block.
#[test]
fn refused_14() {
    let torn = {
        let mut image = image(1, 0, &MARKED);
        image[600] ^= 1;
        image
    };
    for number in [2, 3, 64, u64::MAX] {
        for message in [order_block(0, number), modify(0, 1, number, 6, 7)] {
            assert_eq!(refused(settings(), 1, &torn, &message), 14);
            let below = Message {
                number: 1,
                ..message.clone()
            };
            assert_eq!(refused(settings(), 1, &torn, &below), 5);
            let elsewhere = Message {
                stripe: 3,
                ..message.clone()
            };
            assert_eq!(refused(settings(), 1, &torn, &elsewhere), 13);
            assert_eq!(refused(settings(), 4, &torn, &elsewhere), 3);
            assert_eq!(refused(settings(), 4, &torn[1..], &elsewhere), 2);
        }
        // Other kinds, unknown ones too, don't look at it.
        for kind in [0, READ, ORDER, ORDER_READ, TRIM, DROP, DROP + 1] {
            let message = Message {
                number,
                targets: vec![0, 1],
                ..Message::plain(kind, 80, 1)
            };
            let known = (READ..=DROP).contains(&kind);
            let taken = take(settings(), 1, &mut image(1, 0, &MARKED), &message);
            assert_eq!(taken.err(), (!known).then_some(10), "kind {kind}");
        }
    }
}

/// Both blocks of a Modify have block size.
#[test]
fn refused_2() {
    let image = image(1, 0, &MARKED);
    for (block, old_block) in [(0, 1), (2, 1), (1, 0), (1, 2), (0, 0)] {
        let message = Message {
            block: vec![0; block],
            old_block: vec![0; old_block],
            stripe: 3,
            ..modify(0, 1, 9, 6, 7)
        };
        assert_eq!(refused(settings(), 4, &image, &message), 2);
        let past = Settings::new(4, 2, 1, 33, 3);
        assert_eq!(refused(past, 4, &image, &message), 1);
    }
}

/// An image whose lowest entry is a mark is refused, by every message.
#[test]
fn images_with_a_lowest_mark_are_refused() {
    let mut image = image(1, 0, &[(0, Some(0)), (32, None)]);
    image[512 + 2] = 3;
    let sum = jilbagum_tests::image::check(&image[512..1024]);
    image[512..514].copy_from_slice(&sum.to_le_bytes());
    let messages = [
        read(80, &[0, 1]),
        read(80, &[1]),
        Message::plain(ORDER, 80, 1),
        order_read(80, NO_UPPER_END),
        order_block(80, 1),
        modify(80, 32, 1, 0, 7),
        Message::plain(TRIM, 80, 1),
        Message::plain(DROP, 32, 1),
        Message::plain(DROP + 1, 0, 0),
    ];
    for message in messages {
        assert_eq!(refused(settings(), 1, &image, &message), 6);
    }
}

/// Block writes one after another, by Modify, at every brick of random sets:
/// what all bricks mean is always the encoding of the data, whether Trims come
/// or not, and only data bricks hold marks.
#[test]
fn modifies_in_a_row_keep_the_code() {
    let mut rng = Rng::printed(9);
    let (mut marked, mut trimmed) = (0, 0);
    for _ in 0..300 {
        let n = rng.between(1, 16);
        let (m, size) = (rng.between(1, n), rng.between(1, 6));
        let settings = Settings::new(n, m, size, rng.between(2, 6), 1);
        let mut images: Vec<Vec<u8>> = (0..n).map(|b| fresh(settings, b).unwrap()).collect();
        let mut data = vec![0; settings.shape.data_len()];
        let mut newest = 0;
        for k in 1..20 {
            let (j, time) = (rng.below(m), 16 * k);
            let message = Message {
                number: j,
                old_time: newest,
                old_block: settings.shape.block(&data, j as usize).to_vec(),
                block: rng.bytes(size as usize),
                ..Message::plain(MODIFY, time, 2)
            };
            let trims = rng.once_in(2);
            let mut granted = 0;
            for (b, image) in (0..n).zip(&mut images) {
                let reply = take(settings, b, image, &message).unwrap().unwrap();
                granted += u64::from(reply.yes);
                marked += usize::from(marks(image).last() == Some(&time));
                if trims {
                    let lowest = marks(image);
                    take(settings, b, image, &Message::plain(TRIM, time, 2)).unwrap();
                    trimmed += usize::from(lowest.len() > marks(image).len());
                }
            }
            // All logs are equally long: all say yes or none.
            assert!(granted == 0 || granted == n);
            if granted == n {
                settings
                    .shape
                    .put_block(&mut data, j as usize, &message.block);
                newest = time;
            }
            let coded = encode(n, m, size, &data).unwrap();
            for (b, image) in (0..n).zip(&images) {
                let state = parse(settings, b, image).unwrap();
                assert_eq!(state.newest(), newest);
                let meant = state.meant(state.log.len() - 1);
                assert_eq!(meant, settings.shape.block(&coded, b as usize));
                assert!(b < m || marks(image).is_empty());
            }
        }
    }
    println!("{marked} marks, {trimmed} Trims that met one");
    assert!(marked > 1000 && trimmed > 500);
}
