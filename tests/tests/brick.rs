//! One message at one brick, on the image of its stripe and on the row of images.

use jilbagum_tests::brick::*;
use jilbagum_tests::fixtures::{order_read, read};
use jilbagum_tests::image::{fresh, fresh_row, length, parse, write, Entry, State, BLOCK};
use jilbagum_tests::rng::Rng;
use jilbagum_tests::settings::{Refusal, Settings, NO_UPPER_END};

fn settings() -> Settings {
    Settings::new(4, 2, 1, 3, 3)
}

/// The message, of another stripe.
fn of_stripe(stripe: u64, message: Message) -> Message {
    Message { stripe, ..message }
}

/// The image of brick 1 with a promise and entries (time, byte).
fn image(promise: u64, log: &[(u64, u8)]) -> Vec<u8> {
    let log = log
        .iter()
        .map(|&(time, byte)| Entry {
            time,
            block: Some(vec![byte]),
        })
        .collect();
    write(settings(), 1, &State { promise, log }).unwrap()
}

fn state(image: &[u8]) -> (u64, Vec<(u64, u8)>) {
    let state = parse(settings(), 1, image).unwrap();
    (
        state.promise,
        (0..state.log.len())
            .map(|place| (state.log[place].time, state.meant(place)[0]))
            .collect(),
    )
}

fn store(time: u64, byte: u8) -> Message {
    Message {
        block: vec![byte],
        ..Message::plain(WRITE, time, 2)
    }
}

/// The answer of brick 1: the comparison that said no, the time given, the block's byte.
fn answer(image: &mut [u8], message: &Message) -> (u8, u64, Option<u8>) {
    let reply = take(settings(), 1, image, message).unwrap().unwrap();
    assert_eq!((reply.kind, reply.brick), (message.kind, 1));
    assert_eq!(reply.stripe, message.stripe);
    assert_eq!((reply.time, reply.round), (message.time, message.round));
    assert_eq!(reply.yes, reply.comparison == NONE);
    // No brick gives a reply that is refused by 10.
    assert_eq!(reply.refusal(), None);
    (
        reply.comparison,
        reply.found,
        reply.block.map(|block| block[0]),
    )
}

/// The message is refused and the image keeps its bytes.
fn refused(settings: Settings, brick: u64, image: &[u8], message: &Message) -> Refusal {
    let mut changed = image.to_vec();
    let refusal = take(settings, brick, &mut changed, message).unwrap_err();
    assert_eq!(changed, image);
    refusal
}

#[test]
fn read_says_yes_unless_a_promise_is_ahead() {
    let log = [(0, 5), (32, 6)];
    for (promise, said) in [(0, NONE), (31, NONE), (32, NONE), (33, PROMISE)] {
        let mut image = image(promise, &log);
        let before = image.clone();
        let byte = (said == NONE).then_some(6);
        for targets in [&[0, 1], &[1, 3]] {
            assert_eq!(answer(&mut image, &read(64, targets)), (said, 32, byte));
        }
        // Its own time is no matter: 16 isn't above newest.
        assert_eq!(answer(&mut image, &read(16, &[3, 0])), (said, 32, None));
        assert_eq!(image, before);
    }
}

/// A promise, a time, and what a brick whose newest time is 32 says to that time. An equal
/// time counts as newer, and a newer time comes before the promise.
const AFTER_32: [(u64, u64, u8); 9] = [
    (0, 32, NEWER),
    (0, 33, NONE),
    (0, 31, NEWER),
    (40, 39, PROMISE),
    (40, 33, PROMISE),
    (40, 40, NONE),
    (40, 41, NONE),
    (40, 32, NEWER),
    (40, 16, NEWER),
];

#[test]
fn order_promises_a_time_above_newest_and_not_below_the_promise() {
    let log = [(0, 5), (32, 6)];
    for (promise, time, said) in AFTER_32 {
        let mut image = image(promise, &log);
        assert_eq!(
            answer(&mut image, &Message::plain(ORDER, time, 1)),
            (said, 0, None)
        );
        let promise = if said == NONE { time } else { promise };
        assert_eq!(state(&image), (promise, log.to_vec()));
    }
}

/// A full log says nothing to an Order, an Order-and-read and the first round of a block write.
#[test]
fn orders_do_not_look_for_a_free_entry() {
    let log = [(0, 5), (16, 4), (32, 6)];
    for (promise, time, said) in AFTER_32 {
        for message in [
            Message::plain(ORDER, time, 1),
            order_read(time, NO_UPPER_END),
            Message::plain(ORDER_BLOCK, time, 1),
        ] {
            assert_eq!(answer(&mut image(promise, &log), &message).0, said);
        }
    }
}

#[test]
fn order_and_read_finds_the_highest_entry_under_max() {
    let log = [(0, 5), (32, 6), (48, 7)];
    for (max, found, byte) in [
        (NO_UPPER_END, 48, Some(7)),
        (49, 48, Some(7)),
        (48, 32, Some(6)),
        (33, 32, Some(6)),
        (32, 0, Some(5)),
        (1, 0, Some(5)),
        (0, 0, None),
    ] {
        let mut image = image(40, &log);
        assert_eq!(
            answer(&mut image, &order_read(64, max)),
            (NONE, found, byte),
            "max {max}"
        );
        assert_eq!(state(&image), (64, log.to_vec()));
    }
    let mut trimmed = image(0, &[(32, 6)]);
    assert_eq!(answer(&mut trimmed, &order_read(64, 32)), (NONE, 0, None));
}

#[test]
fn order_and_read_gives_nothing_on_a_no() {
    for (promise, time, said) in [
        (0, 48, NEWER),
        (0, 47, NEWER),
        (65, 64, PROMISE),
        (65, 48, NEWER),
    ] {
        let mut image = image(promise, &[(0, 5), (48, 7)]);
        let before = image.clone();
        assert_eq!(
            answer(&mut image, &order_read(time, NO_UPPER_END)),
            (said, 0, None)
        );
        assert_eq!(image, before);
    }
}

#[test]
fn write_appends_and_leaves_the_promise() {
    for (promise, time, said) in AFTER_32 {
        let mut image = image(promise, &[(0, 5), (32, 6)]);
        assert_eq!(answer(&mut image, &store(time, 9)), (said, 0, None));
        let log = if said == NONE {
            vec![(0, 5), (32, 6), (time, 9)]
        } else {
            vec![(0, 5), (32, 6)]
        };
        assert_eq!(state(&image), (promise, log));
    }
}

#[test]
fn a_full_log_says_no_until_a_trim() {
    let mut image = image(0, &[(0, 5), (32, 6), (48, 7)]);
    let before = image.clone();
    assert_eq!(answer(&mut image, &store(64, 9)), (FULL, 0, None));
    assert_eq!(image, before);
    assert_eq!(
        take(settings(), 1, &mut image, &Message::plain(TRIM, 32, 2)),
        Ok(None)
    );
    assert_eq!(answer(&mut image, &store(64, 9)), (NONE, 0, None));
    assert_eq!(state(&image), (0, vec![(32, 6), (48, 7), (64, 9)]));
}

/// On a full log a Write hears of the newer time first, then of the promise, and of the log
/// only where neither says no.
#[test]
fn write_names_the_first_comparison() {
    let log = [(0, 5), (16, 4), (32, 6)];
    for (promise, time, said) in AFTER_32 {
        let mut image = image(promise, &log);
        let before = image.clone();
        let expected = if said == NONE { FULL } else { said };
        assert_eq!(answer(&mut image, &store(time, 9)), (expected, 0, None));
        assert_eq!(image, before);
    }
}

#[test]
fn trim_drops_what_is_under_its_time_but_never_the_newest() {
    let log = [(0, 5), (32, 6), (48, 7)];
    for (time, kept) in [(16, 1), (32, 1), (33, 2), (48, 2), (49, 2), (1000, 2)] {
        let mut image = image(40, &log);
        assert_eq!(
            take(settings(), 1, &mut image, &Message::plain(TRIM, time, 2)),
            Ok(None)
        );
        assert_eq!(state(&image), (40, log[kept..].to_vec()), "trim {time}");
    }
    // A freed block of the image is an unused block again.
    let mut image = image(40, &log);
    take(settings(), 1, &mut image, &Message::plain(TRIM, 48, 2)).unwrap();
    assert_eq!(image[2 * BLOCK..2 * BLOCK + 3], [1, 0, 0]);
}

/// A Drop of a time, at brick 1: it has no reply.
fn drop_time(image: &mut [u8], time: u64) {
    let message = Message::plain(DROP, time, 2);
    assert_eq!(take(settings(), 1, image, &message), Ok(None));
}

#[test]
fn drop_takes_the_entry_of_its_time_alone() {
    let log = [(0, 5), (32, 6), (48, 7)];
    for (time, dropped) in [
        (32, Some(1)),
        (48, Some(2)),
        // Not in the log.
        (16, None),
        (31, None),
        (33, None),
        (47, None),
        (49, None),
        (1000, None),
        (NO_UPPER_END - 1, None),
    ] {
        for promise in [0, 32, 40, 48, 1000] {
            let mut image = image(promise, &log);
            let before = image.clone();
            let mut kept = log.to_vec();
            if let Some(place) = dropped {
                kept.remove(place);
            }
            // A repeated Drop finds nothing more.
            for _ in 0..3 {
                drop_time(&mut image, time);
                assert_eq!(state(&image), (promise, kept.clone()), "drop {time}");
            }
            assert_eq!(image == before, dropped.is_none());
        }
    }
    // A freed block of the image is an unused block again, and the entries stand in a row.
    let mut image = image(40, &log);
    drop_time(&mut image, 32);
    assert_eq!(image[2 * BLOCK + 4], 48);
    assert_eq!(image[3 * BLOCK..3 * BLOCK + 3], [1, 0, 0]);
}

#[test]
fn drop_leaves_the_only_entry() {
    for log in [[(0, 5)], [(32, 6)], [(1 << 40, 7)]] {
        let mut image = image(40, &log);
        let before = image.clone();
        for time in [16, 32, 33, 1 << 40] {
            drop_time(&mut image, time);
            assert_eq!(image, before);
        }
    }
    // One after another: the last entry stays, whichever it is.
    for order in [[16, 32, 48], [48, 32, 16], [32, 48, 16]] {
        let mut image = image(40, &[(16, 5), (32, 6), (48, 7)]);
        order.iter().for_each(|&time| drop_time(&mut image, time));
        let last = order[2];
        assert_eq!(state(&image), (40, vec![(last, (last / 16 + 4) as u8)]));
    }
}

#[test]
fn a_full_log_says_no_until_a_drop() {
    let mut image = image(0, &[(0, 5), (32, 6), (48, 7)]);
    assert_eq!(answer(&mut image, &store(64, 9)), (FULL, 0, None));
    drop_time(&mut image, 33);
    assert_eq!(answer(&mut image, &store(64, 9)), (FULL, 0, None));
    drop_time(&mut image, 32);
    assert_eq!(answer(&mut image, &store(64, 9)), (NONE, 0, None));
    assert_eq!(state(&image), (0, vec![(0, 5), (48, 7), (64, 9)]));
}

/// Newest falls: a Read gives the entry below, and a late Write of the dropped time, or of
/// one between, is stored again unless the promise is ahead of it.
#[test]
fn a_dropped_time_may_be_stored_again() {
    for (promise, time, said) in [
        (0, 48, NONE),
        (48, 48, NONE),
        (49, 48, PROMISE),
        (1000, 48, PROMISE),
        (0, 33, NONE),
        (40, 39, PROMISE),
        (0, 32, NEWER),
        (49, 32, NEWER),
    ] {
        let mut image = image(promise, &[(0, 5), (32, 6), (48, 7)]);
        assert_eq!(answer(&mut image, &store(time, 8)), (NEWER, 0, None));
        drop_time(&mut image, 48);
        // A Read says yes or no by the newest time there is now.
        let fits = promise <= 32;
        let read = answer(&mut image, &read(64, &[0, 1]));
        assert_eq!(
            read,
            (if fits { NONE } else { PROMISE }, 32, fits.then_some(6))
        );
        assert_eq!(answer(&mut image, &store(time, 8)), (said, 0, None));
        let mut log = vec![(0, 5), (32, 6)];
        if said == NONE {
            log.push((time, 8));
        }
        assert_eq!(state(&image), (promise, log));
    }
    // An Order of the dropped time is taken as any above newest is.
    let mut image = image(48, &[(0, 5), (32, 6), (48, 7)]);
    drop_time(&mut image, 48);
    assert_eq!(
        answer(&mut image, &Message::plain(ORDER, 48, 1)),
        (NONE, 0, None)
    );
}

/// Whatever is wrong with it, a Drop is refused as a Trim is.
#[test]
fn drops_are_refused_as_trims() {
    let whole = image(40, &[(0, 5), (32, 6)]);
    let mut torn = whole.clone();
    torn[600] ^= 1;
    let ruled = fresh(settings(), 0).unwrap();
    let mut refusals = Vec::new();
    for lent in [&whole[..], &torn, &ruled, &whole[1..]] {
        for brick in [1, 4] {
            for (stripe, time, round) in [
                (2, 32, 1),
                (2, 32, 1000),
                (2, 0, 1),
                (2, 15, 1),
                (2, NO_UPPER_END, 1),
                (2, u64::MAX, 1),
                (2, 32, 0),
                (2, 32, 1001),
                (3, 32, 1),
                (3, 0, 0),
            ] {
                for wrong in [settings(), Settings::new(4, 2, 1, 33, 3)] {
                    let [trim, drop] = [TRIM, DROP].map(|kind| {
                        let message = of_stripe(stripe, Message::plain(kind, time, round));
                        let mut image = lent.to_vec();
                        let refusal = take(wrong, brick, &mut image, &message).err();
                        assert!(refusal.is_none() || image == lent);
                        refusal
                    });
                    assert_eq!(trim, drop, "time {time} round {round} stripe {stripe}");
                    refusals.extend(drop);
                }
            }
        }
    }
    refusals.sort_unstable();
    refusals.dedup();
    assert_eq!(refusals, [1, 2, 3, 5, 6, 10, 13]);
}

#[test]
fn refused_messages() {
    let image = image(0, &[(0, 5)]);
    let fine = read(64, &[0, 1]);
    let refused_10 = [
        Message {
            kind: 0,
            ..fine.clone()
        },
        Message {
            kind: DROP + 1,
            ..fine.clone()
        },
        Message {
            kind: 255,
            ..fine.clone()
        },
        Message {
            time: 0,
            ..fine.clone()
        },
        Message {
            time: 15,
            ..fine.clone()
        },
        Message {
            time: 1 << 44,
            ..fine.clone()
        },
        Message {
            round: 0,
            ..fine.clone()
        },
        Message {
            round: 1001,
            ..fine.clone()
        },
        Message {
            round: u64::MAX,
            ..fine.clone()
        },
        read(64, &[]),
        read(64, &[2]),
        read(64, &[0, 1, 2]),
        read(64, &[1, 1]),
        read(64, &[1, 4]),
        read(64, &[255, 0]),
        order_read(64, NO_UPPER_END + 1),
        order_read(64, u64::MAX),
        Message::plain(ORDER, 15, 1),
        Message::plain(TRIM, 0, 1),
        Message::plain(TRIM, 64, 0),
        Message::plain(DROP, 0, 1),
        Message::plain(DROP, 15, 1),
        Message::plain(DROP, NO_UPPER_END, 1),
        Message::plain(DROP, 64, 0),
        Message::plain(DROP, 64, 1001),
        Message {
            round: 1001,
            ..store(64, 1)
        },
    ];
    for message in &refused_10 {
        assert_eq!(refused(settings(), 1, &image, message), 10, "{message:?}");
    }
    for message in [
        Message {
            round: 1000,
            ..fine.clone()
        },
        read(16, &[3, 2]),
        order_read((1 << 44) - 1, NO_UPPER_END),
    ] {
        assert!(take(settings(), 1, &mut image.clone(), &message).is_ok());
    }
}

#[test]
fn refused_lowest_first() {
    let senseless = of_stripe(3, Message::plain(0, 0, 0));
    let below = of_stripe(2, senseless.clone());
    let ruled = fresh(settings(), 0).unwrap();
    assert_eq!(
        refused(settings(), 1, &fresh(settings(), 1).unwrap(), &below),
        10
    );
    assert_eq!(refused(settings(), 1, &ruled, &below), 6);
    let mut torn = ruled.clone();
    torn[600] ^= 1;
    assert_eq!(refused(settings(), 1, &torn, &below), 5);
    assert_eq!(refused(settings(), 1, &torn, &senseless), 13);
    assert_eq!(refused(settings(), 4, &torn, &senseless), 3);
    assert_eq!(refused(settings(), 4, &torn[1..], &senseless), 2);
    for wrong in [
        Settings::new(4, 2, 0, 3, 3),
        Settings::new(4, 2, 1, 3, 0),
        Settings::new(4, 2, 1, 3, 65),
    ] {
        assert_eq!(refused(wrong, 4, &torn[1..], &senseless), 1);
    }
    // A Write block of another length.
    for block in [vec![], vec![0; 2]] {
        let message = Message {
            block,
            ..of_stripe(3, Message::plain(WRITE, 0, 0))
        };
        assert_eq!(refused(settings(), 4, &torn, &message), 2);
        assert_eq!(refused(Settings::new(4, 5, 1, 3, 3), 4, &torn, &message), 1);
    }
}

/// The row of brick 1, refused and unchanged.
fn row_refused(settings: Settings, brick: u64, row: &[u8], message: &Message) -> Refusal {
    let mut changed = row.to_vec();
    let refusal = take_in_row(settings, brick, &mut changed, message).unwrap_err();
    assert_eq!(changed, row);
    refusal
}

#[test]
fn rows_refused_in_order() {
    let row = fresh_row(settings(), 1).unwrap();
    let length = length(settings());
    assert_eq!(row.len(), 3 * length);
    // A broken rule in stripes 0 and 1, in stripe 1 a broken check too, nothing in stripe 2.
    let mut hurt = row.clone();
    hurt[..2 * length].copy_from_slice(&fresh(settings(), 0).unwrap().repeat(2));
    hurt[length + 600] ^= 1;
    let senseless = |stripe| of_stripe(stripe, Message::plain(0, 0, 0));
    assert_eq!(row_refused(settings(), 1, &hurt, &senseless(2)), 10);
    assert_eq!(row_refused(settings(), 1, &hurt, &senseless(0)), 6);
    assert_eq!(row_refused(settings(), 1, &hurt, &senseless(1)), 5);
    assert_eq!(row_refused(settings(), 1, &hurt, &senseless(3)), 13);
    assert_eq!(row_refused(settings(), 1, &hurt, &senseless(u64::MAX)), 13);
    assert_eq!(row_refused(settings(), 4, &hurt, &senseless(3)), 3);
    for lent in [
        &hurt[1..],
        &hurt[..length],
        &[],
        &[&hurt[..], &[0]].concat(),
    ] {
        assert_eq!(row_refused(settings(), 4, lent, &senseless(3)), 2);
    }
    let short = Message {
        block: Vec::new(),
        ..of_stripe(3, Message::plain(WRITE, 0, 0))
    };
    assert_eq!(row_refused(settings(), 4, &hurt, &short), 2);
    for stripes in [0, 65, u64::MAX] {
        let wrong = Settings::new(4, 2, 1, 3, stripes);
        assert_eq!(row_refused(wrong, 4, &hurt[1..], &short), 1);
    }
    // One image is no row of three, and a row no image.
    assert_eq!(refused(settings(), 1, &row, &senseless(0)), 2);
    // A damaged image of another stripe stops nothing.
    let read = of_stripe(2, read(64, &[0, 1]));
    let reply = take_in_row(settings(), 1, &mut hurt, &read)
        .unwrap()
        .unwrap();
    assert_eq!((reply.stripe, reply.yes), (2, true));
}

#[test]
fn fresh_rows() {
    assert_eq!(
        fresh_row(settings(), 1),
        Ok(fresh(settings(), 1).unwrap().repeat(3))
    );
    assert_eq!(fresh_row(settings(), 4), Err(3));
    assert_eq!(fresh_row(Settings::new(4, 2, 1, 3, 0), 4), Err(1));
    assert_eq!(fresh_row(Settings::new(4, 2, 1, 3, 65), 4), Err(1));
}

/// A message changes the image of its stripe as it would change that image
/// alone, and no byte of another's.
#[test]
fn a_message_changes_its_own_image_alone() {
    let length = length(settings());
    let logs: [&[(u64, u8)]; 3] = [&[(0, 5)], &[(0, 6), (32, 7)], &[(16, 8), (32, 9)]];
    let images = logs.map(|log| image(20, log));
    let messages = [
        read(64, &[0, 1]),
        Message::plain(ORDER, 64, 1),
        order_read(64, 32),
        Message::plain(ORDER_BLOCK, 64, 1),
        store(64, 3),
        Message {
            old_time: 32,
            block: vec![3],
            old_block: vec![4],
            ..Message::plain(MODIFY, 64, 2)
        },
        Message::plain(TRIM, 32, 2),
        Message::plain(DROP, 32, 2),
    ];
    for message in messages {
        for stripe in 0..3 {
            let message = of_stripe(stripe as u64, message.clone());
            let mut row = images.concat();
            let reply = take_in_row(settings(), 1, &mut row, &message);
            let mut alone = images.clone();
            assert_eq!(reply, take(settings(), 1, &mut alone[stripe], &message));
            assert!(row.chunks(length).eq(alone.iter().map(Vec::as_slice)));
            // A Read changes nothing, nor does a Trim or a Drop that finds one entry, nor
            // a Modify over another time.
            let one = stripe == 0 && [TRIM, DROP, MODIFY].contains(&message.kind);
            let unchanged = message.kind == READ || one;
            assert_eq!(alone[stripe] == images[stripe], unchanged);
        }
    }
}

/// Random messages, many of them senseless: a refusal changes nothing, and what
/// is taken leaves an image that opens, with the newest time falling by its own
/// Drop alone.
#[test]
fn random_messages() {
    let mut rng = Rng::printed(5);
    let mut image = image(0, &[(0, 5)]);
    let mut fallen = 0;
    for _ in 0..20_000 {
        let before = image.clone();
        let newest = state(&before).1.last().unwrap().0;
        let message = Message {
            kind: rng.below(10) as u8,
            stripe: if rng.once_in(10) { 3 } else { rng.below(3) },
            time: match rng.below(20) {
                0 => rng.number(),
                1..=4 => newest,
                _ => rng.below(400),
            },
            round: rng.below(1003),
            max: if rng.once_in(3) {
                NO_UPPER_END + rng.below(2)
            } else {
                rng.below(400)
            },
            targets: (0..rng.between(1, 3)).map(|_| rng.below(5) as u8).collect(),
            block: vec![rng.byte(); if rng.once_in(10) { 2 } else { 1 }],
            number: rng.below(3),
            old_time: if rng.once_in(4) {
                rng.below(400)
            } else {
                state(&before).1.last().unwrap().0
            },
            old_block: vec![rng.byte(); if rng.once_in(10) { 0 } else { 1 }],
        };
        match take(settings(), 1, &mut image, &message) {
            Err(number) => {
                assert!([2, 10, 13, 14].contains(&number));
                assert_eq!(image, before);
            }
            Ok(reply) => {
                let falls = state(&image).1.last().unwrap().0 < newest;
                assert!(!falls || (message.kind, message.time) == (DROP, newest));
                fallen += usize::from(falls);
                assert_eq!(reply.is_none(), clears(message.kind));
                assert!(reply.is_none_or(|reply| reply.refusal().is_none()));
            }
        }
        if newest.max(state(&image).0) > 350 {
            image = crate::image(0, &[(0, 5)]);
        }
    }
    println!("newest fell {fallen} times");
    assert!(fallen > 20);
}
