//! Reads and writes of one block at one coordinator.

use jilbagum_tests::brick::*;
use jilbagum_tests::coordinator::*;
use jilbagum_tests::fixtures::{fresh, may_say, reply, take, told, volume, STRIPE};
use jilbagum_tests::recovery::{Recovery, OTHER_CHOICES};
use jilbagum_tests::rng::Rng;
use jilbagum_tests::settings::{Refusal, Volume, LAST_COUNT, NO_UPPER_END};
use jilbagum_tests::tally::Tally;

/// The block of all operations here, if not said otherwise.
const BLOCK: u64 = 1;

/// An idle coordinator that drew one time.
fn idle() -> Record {
    Record { last: 1, ..fresh() }
}

/// Coordinator 1 writing byte 7 as block 1 at time 17.
fn writing() -> Record {
    let mut record = fresh();
    start_write_block(volume(), 1, &mut record, STRIPE, 1, BLOCK, &[7]).unwrap();
    record
}

/// Coordinator 1 reading block 1 at time 17.
fn reading() -> Record {
    let mut record = fresh();
    start_read_block(volume(), 1, &mut record, STRIPE, 1, BLOCK).unwrap();
    record
}

/// Takes replies, the last of which decides; those before do nothing visible.
fn take_all(record: &mut Record, replies: impl IntoIterator<Item = Reply>) -> Step {
    let mut last = Step::default();
    for reply in replies {
        assert_eq!(last, Step::default());
        last = take(record, reply);
    }
    last
}

fn yes_from(kind: u8, round: u64, bricks: [u64; 3]) -> [Reply; 3] {
    bricks.map(|brick| reply(kind, round, brick, true, 0, None))
}

/// A message of the operation.
fn message(kind: u8, round: u64) -> Message {
    Message {
        stripe: STRIPE,
        ..Message::plain(kind, 17, round)
    }
}

/// The messages of a round: nothing has ended.
fn sent(step: Step) -> Vec<Message> {
    assert_eq!(step.ended, None);
    step.sent
}

/// The messages of an Order-and-read round.
fn order_reads(max: u64, round: u64) -> Vec<Message> {
    let message = Message {
        max,
        ..message(ORDER_READ, round)
    };
    vec![message; 4]
}

/// Drops or early Trims of a time, with the number of a recovery round.
fn clearing(kind: u8, time: u64, round: u64) -> Vec<Message> {
    let message = Message {
        time,
        ..message(kind, round)
    };
    vec![message; 4]
}

/// The blocks of a Write round that follows an early Trim of time 40, with its round.
fn stores_after_trim(messages: &[Message], round: u64) -> Vec<u8> {
    let (trims, stores) = messages.split_at(4);
    assert_eq!(trims, clearing(TRIM, 40, round));
    let plain = |message: &Message| (message.kind, message.time, message.round, message.number);
    assert!(stores
        .iter()
        .all(|message| plain(message) == (WRITE, 17, round + 1, 0)));
    stores.iter().map(|message| message.block[0]).collect()
}

/// How it ended, with its letter, and with block 1's number in its place.
fn outcome(step: &Step, kind: Kind) -> (char, Outcome) {
    let ended = step.ended.clone().expect("the operation ended");
    assert_eq!((ended.coordinator, ended.kind), (1, kind));
    assert_eq!((ended.stripe, ended.block, ended.time), (STRIPE, BLOCK, 17));
    (ended.letter, ended.outcome)
}

fn gave(byte: u8, bricks: &[u8]) -> Outcome {
    Outcome::Gave {
        data: vec![byte],
        bricks: bricks.to_vec(),
    }
}

/// The replies end the operation aborted, with a letter, and nothing is sent.
fn aborts(mut record: Record, kind: Kind, letter: char, replies: impl IntoIterator<Item = Reply>) {
    let step = take_all(&mut record, replies);
    assert_eq!(outcome(&step, kind), (letter, Outcome::Abort));
    assert!(step.sent.is_empty());
    assert_eq!(record, idle());
}

/// The first round of a block write, answered by bricks 3, 1 and 0: the newest
/// time is 40, and block 1 holds 9.
fn ordered() -> [Reply; 3] {
    [
        reply(ORDER_BLOCK, 1, 3, true, 40, None),
        reply(ORDER_BLOCK, 1, 1, true, 40, Some(9)),
        reply(ORDER_BLOCK, 1, 0, true, 40, None),
    ]
}

/// A block write in its Modify round.
fn modifying() -> Record {
    let mut record = writing();
    take_all(&mut record, ordered());
    record
}

/// A block write in its first recovery round: times differ.
fn recovering() -> Record {
    let mut record = writing();
    let mut replies = ordered();
    replies[2].found = 24;
    let step = take_all(&mut record, replies);
    assert_eq!(sent(step), order_reads(NO_UPPER_END, 2));
    record
}

/// A block read in its first recovery round: brick 1 is missing.
fn recovering_read() -> Record {
    let mut record = reading();
    let others = [0, 2, 3].map(|b| reply(READ, 1, b, true, 40, None));
    let step = take_all(&mut record, others);
    assert_eq!(sent(step), order_reads(NO_UPPER_END, 2));
    record
}

/// Blocks 5, 9 coded, as bricks 1, 2, 3 give them at time 40.
fn recovered(round: u64) -> [Reply; 3] {
    [(3, 17), (2, 29), (1, 9)].map(|(b, byte)| reply(ORDER_READ, round, b, true, 40, Some(byte)))
}

#[test]
fn a_block_write_orders_then_modifies_then_trims() {
    let mut record = fresh();
    let step = start_write_block(volume(), 1, &mut record, STRIPE, 1, BLOCK, &[7]).unwrap();
    let asked = Message {
        number: BLOCK,
        ..message(ORDER_BLOCK, 1)
    };
    assert_eq!(sent(step), vec![asked; 4]);
    let step = take_all(&mut record, ordered());
    let modify = Message {
        number: BLOCK,
        old_time: 40,
        old_block: vec![9],
        block: vec![7],
        ..message(MODIFY, 2)
    };
    assert_eq!(sent(step), vec![modify; 4]);
    let step = take_all(&mut record, yes_from(MODIFY, 2, [2, 3, 0]));
    assert_eq!(step.sent, vec![message(TRIM, 2); 4]);
    assert_eq!(outcome(&step, Kind::WriteBlock), ('S', Outcome::Ok));
    assert_eq!(record, idle());
}

/// Over the fresh stripe the old time is 0.
#[test]
fn a_block_write_over_time_0() {
    let mut record = writing();
    let replies = ordered().map(|reply| Reply { found: 0, ..reply });
    let sent = sent(take_all(&mut record, replies));
    assert!(sent.iter().all(|message| message.kind == MODIFY));
    assert_eq!((sent[0].old_time, sent[3].old_block[0]), (0, 9));
}

#[test]
fn a_no_in_either_round_aborts() {
    for place in 0..3 {
        for comparison in [NEWER, PROMISE] {
            let mut replies = ordered();
            let no = reply(ORDER_BLOCK, 1, replies[place].brick, false, 0, None);
            replies[place] = told(&no, comparison);
            aborts(writing(), Kind::WriteBlock, 'O', replies);
        }
        // After Modify went out there is no second way.
        for (comparison, letter) in [(NEWER, 'W'), (PROMISE, 'W'), (FULL, 'G')] {
            let mut replies = yes_from(MODIFY, 2, [1, 2, 3]);
            replies[place] = told(&replies[place], comparison);
            aborts(modifying(), Kind::WriteBlock, letter, replies);
        }
    }
    // A no aborts also where times differ and where brick j didn't reply.
    let no = reply(ORDER_BLOCK, 1, 3, false, 0, None);
    let other = |brick, found| reply(ORDER_BLOCK, 1, brick, true, found, None);
    let replies = [other(0, 40), no, other(2, 24)];
    aborts(writing(), Kind::WriteBlock, 'O', replies);
}

/// Every answer of three bricks to a Modify, and to the Write round of a recovered block write and of
/// a recovered block read: G where each no is a full log's, W where some no isn't.
#[test]
fn nos_of_a_modify_or_a_store() {
    let comparisons = [NONE, NEWER, PROMISE, FULL];
    let mut records = vec![(modifying(), MODIFY, ('S', Outcome::Ok))];
    for (mut record, finished) in [
        (recovering(), ('S', Outcome::Ok)),
        (recovering_read(), ('H', gave(9, &[1, 2]))),
    ] {
        take_all(&mut record, recovered(2));
        records.push((record, WRITE, finished));
    }
    for (begun, open, finished) in records {
        let running = begun.running.as_ref().unwrap();
        assert_eq!(running.open, open);
        for a in comparisons {
            for b in comparisons {
                for c in comparisons {
                    let said = [(3, a), (0, b), (2, c)].map(|(brick, comparison)| Reply {
                        yes: comparison == NONE,
                        comparison,
                        ..reply(open, running.round, brick, true, 0, None)
                    });
                    let nos: Vec<u8> = [a, b, c].into_iter().filter(|&k| k != NONE).collect();
                    let expected = match &nos[..] {
                        [] => finished.clone(),
                        nos if nos.iter().all(|&k| k == FULL) => ('G', Outcome::Abort),
                        _ => ('W', Outcome::Abort),
                    };
                    let mut record = begun.clone();
                    let step = take_all(&mut record, said);
                    assert_eq!(outcome(&step, running.kind), expected, "{nos:?}");
                    assert_eq!(record, idle());
                    // The fourth brick's no comes too late.
                    let late = told(&reply(open, running.round, 1, true, 0, None), PROMISE);
                    assert!(!counted(&record, &late));
                }
            }
        }
    }
}

#[test]
fn a_block_write_recovers_where_times_differ_or_j_is_missing() {
    let other = |brick, found| reply(ORDER_BLOCK, 1, brick, true, found, None);
    let own = |found| reply(ORDER_BLOCK, 1, 1, true, found, Some(9));
    for replies in [
        [other(0, 40), other(2, 40), other(3, 40)],
        [other(0, 0), other(2, 0), other(3, 0)],
        [other(0, 40), own(40), other(3, 24)],
        [other(0, 24), other(3, 40), own(40)],
        [own(24), other(0, 40), other(3, 40)],
        [other(0, 40), own(40), other(3, 0)],
    ] {
        let mut record = writing();
        let step = take_all(&mut record, replies);
        assert_eq!(sent(step), order_reads(NO_UPPER_END, 2));
    }
}

/// Data 5, 9 was found; block 1 becomes 7: what is stored is the encoding of 5, 7.
#[test]
fn a_recovered_block_write_stores_its_block_in_the_stripe_found() {
    let mut record = recovering();
    let step = take_all(&mut record, recovered(2));
    let running = record.running.as_ref().unwrap();
    assert_eq!(
        (&running.data[..], &running.bricks[..]),
        (&[5, 7][..], &[][..])
    );
    assert_eq!(stores_after_trim(&sent(step), 2), [5, 7, 1, 3]);
    let step = take_all(&mut record, yes_from(WRITE, 3, [0, 2, 3]));
    assert_eq!(outcome(&step, Kind::WriteBlock), ('S', Outcome::Ok));
    assert_eq!(step.sent, vec![message(TRIM, 3); 4]);
    assert_eq!(record, idle());
}

#[test]
fn a_recovered_block_write_looks_further_down() {
    let mut record = recovering();
    let few = [
        reply(ORDER_READ, 2, 0, true, 16, Some(5)),
        reply(ORDER_READ, 2, 1, true, 48, Some(8)),
        reply(ORDER_READ, 2, 2, true, 16, Some(29)),
    ];
    let expected = [clearing(DROP, 48, 2), order_reads(48, 3)].concat();
    assert_eq!(sent(take_all(&mut record, few)), expected);
    // It keeps its block meanwhile.
    assert_eq!(record.running.as_ref().unwrap().data, [7]);
    let messages = sent(take_all(&mut record, recovered(3)));
    assert_eq!(stores_after_trim(&messages, 3), [5, 7, 1, 3]);
    let step = take_all(&mut record, yes_from(WRITE, 4, [0, 2, 3]));
    assert_eq!(outcome(&step, Kind::WriteBlock), ('S', Outcome::Ok));
}

/// Times that differ in the first round of a block write, or a newest time of one brick only, drop
/// nothing: that is no round of recovery.
#[test]
fn the_first_round_of_a_block_write_drops_nothing() {
    let other = |brick, found| reply(ORDER_BLOCK, 1, brick, true, found, None);
    let own = |found| reply(ORDER_BLOCK, 1, 1, true, found, Some(9));
    for replies in [
        [other(0, 16), own(48), other(3, 16)],
        [other(0, 48), own(16), other(3, 16)],
        [other(0, 48), other(2, 16), other(3, 32)],
        [other(0, 40), other(2, 40), other(3, 40)],
    ] {
        let messages = sent(take_all(&mut writing(), replies));
        assert_eq!(messages, order_reads(NO_UPPER_END, 2));
    }
    // Nor is anything trimmed ahead of a Modify, where all hold one time.
    let messages = sent(take_all(&mut writing(), ordered()));
    assert!(messages.len() == 4 && messages.iter().all(|message| message.kind == MODIFY));
}

/// A block write's recovery trims early where all q hold the chosen time, and only there.
#[test]
fn early_trims_of_a_block_write() {
    for (record, blocks) in [
        (recovering(), [5, 7, 1, 3]),
        (recovering_read(), [5, 9, 29, 17]),
    ] {
        let messages = sent(take_all(&mut record.clone(), recovered(2)));
        assert_eq!(stores_after_trim(&messages, 2), blocks);
        for place in 0..3 {
            let mut replies = recovered(2);
            replies[place].found = 16;
            let messages = sent(take_all(&mut record.clone(), replies));
            let stored: Vec<u8> = messages.iter().map(|message| message.block[0]).collect();
            assert_eq!((messages[0].kind, stored), (WRITE, blocks.to_vec()));
        }
        let zeros = [0, 1, 2].map(|brick| reply(ORDER_READ, 2, brick, true, 0, Some(0)));
        let messages = sent(take_all(&mut record.clone(), zeros));
        assert!(messages.len() == 4 && messages[0].kind == WRITE);
    }
}

/// The same of a block read: L, where the first round would have been H.
#[test]
fn a_recovered_block_read_looks_further_down() {
    let mut record = recovering_read();
    let few = [
        reply(ORDER_READ, 2, 0, true, 16, Some(5)),
        reply(ORDER_READ, 2, 1, true, 48, Some(8)),
        reply(ORDER_READ, 2, 2, true, 16, Some(29)),
    ];
    let expected = [clearing(DROP, 48, 2), order_reads(48, 3)].concat();
    assert_eq!(sent(take_all(&mut record, few)), expected);
    let messages = sent(take_all(&mut record, recovered(3)));
    assert_eq!(stores_after_trim(&messages, 3), [5, 9, 29, 17]);
    let step = take_all(&mut record, yes_from(WRITE, 4, [0, 2, 3]));
    assert_eq!(outcome(&step, Kind::ReadBlock), ('L', gave(9, &[1, 2])));
}

#[test]
fn a_recovered_block_write_aborts_as_a_read_does() {
    let none = |brick| reply(ORDER_READ, 2, brick, true, 0, None);
    let zero = |brick| reply(ORDER_READ, 2, brick, true, 0, Some(0));
    let no = |brick| reply(ORDER_READ, 2, brick, false, 0, None);
    for (record, kind) in [
        (recovering(), Kind::WriteBlock),
        (recovering_read(), Kind::ReadBlock),
    ] {
        for (letter, replies) in [
            ('X', [none(0), none(1), none(2)]),
            ('X', [none(0), zero(1), none(2)]),
            ('O', [zero(0), zero(1), no(2)]),
        ] {
            aborts(record.clone(), kind, letter, replies);
        }
        // Round 1,000 is the last.
        let mut last = record;
        let running = last.running.as_mut().unwrap();
        (running.round, running.max) = (1000, 64);
        aborts(last, kind, 'X', recovered(1000));
    }
}

/// Three blocks of the chosen time, one of them off the line through the other
/// two: the block write, and a block read, end aborted.
#[test]
fn a_recovery_aborts_where_blocks_disagree() {
    for place in 0..3 {
        for bit in 0..8 {
            let mut replies = recovered(2);
            replies[place].block.as_mut().unwrap()[0] ^= 1 << bit;
            aborts(recovering(), Kind::WriteBlock, 'X', replies.clone());
            aborts(recovering_read(), Kind::ReadBlock, 'X', replies);
        }
    }
}

/// The block that is replaced is checked as the others are: brick 1 gives a
/// block 1 that was altered, and the write doesn't hide it.
#[test]
fn the_replaced_block_is_checked() {
    let replies =
        [(1, 8), (0, 5), (2, 29)].map(|(b, byte)| reply(ORDER_READ, 2, b, true, 40, Some(byte)));
    aborts(recovering(), Kind::WriteBlock, 'X', replies);
}

/// Replies with which a read of block 1 ends after one round.
fn fine() -> [Reply; 3] {
    [
        reply(READ, 1, 2, true, 40, None),
        reply(READ, 1, 1, true, 40, Some(9)),
        reply(READ, 1, 3, true, 40, None),
    ]
}

#[test]
fn a_block_read_of_one_round_names_its_brick_alone() {
    let mut record = fresh();
    let step = start_read_block(volume(), 1, &mut record, STRIPE, 1, BLOCK).unwrap();
    let asked = Message {
        targets: vec![1],
        ..message(READ, 1)
    };
    assert_eq!(sent(step), vec![asked; 4]);
    let step = take_all(&mut record, fine());
    assert_eq!(outcome(&step, Kind::ReadBlock), ('F', gave(9, &[1])));
    assert!(step.sent.is_empty());
    assert_eq!(record, idle());
}

#[test]
fn a_block_read_recovers_otherwise_and_gives_its_block() {
    let with = |place: usize, other: Reply| {
        let mut replies = fine();
        replies[place] = other;
        replies
    };
    for replies in [
        with(0, reply(READ, 1, 2, false, 40, None)),
        with(2, reply(READ, 1, 3, true, 24, None)),
        with(1, reply(READ, 1, 1, false, 40, None)),
        with(1, reply(READ, 1, 1, true, 24, Some(9))),
        with(1, reply(READ, 1, 0, true, 40, None)),
    ] {
        let mut record = reading();
        let step = take_all(&mut record, replies);
        assert_eq!(sent(step), order_reads(NO_UPPER_END, 2));
        let messages = sent(take_all(&mut record, recovered(2)));
        assert_eq!(stores_after_trim(&messages, 2), [5, 9, 29, 17]);
        let step = take_all(&mut record, yes_from(WRITE, 3, [0, 2, 3]));
        // It names the m bricks decoded from.
        assert_eq!(outcome(&step, Kind::ReadBlock), ('H', gave(9, &[1, 2])));
        assert_eq!(step.sent, vec![message(TRIM, 3); 4]);
    }
}

/// E7: as of the stripe, for every block: the first m that gave the chosen time, whether brick j is
/// among them or not.
#[test]
fn every_recovered_block_read_names_the_first_m() {
    let mut rng = Rng::printed(8);
    let mut tally = Tally::default();
    for found in Recovery::of_small_sets(&mut rng) {
        let (volume, named) = (found.volume(), found.named());
        for block in 0..found.shape.m {
            let mut record = Record::fresh(volume, 1);
            start_read_block(volume, 1, &mut record, STRIPE, 1, block).unwrap();
            let ended = found.play(&mut record).ended.expect("the read ended");
            let expected = Ended {
                coordinator: 1,
                kind: Kind::ReadBlock,
                stripe: STRIPE,
                block,
                time: 17,
                outcome: Outcome::Gave {
                    data: found.shape.block(&found.data, block as usize).to_vec(),
                    bricks: named.clone(),
                },
                letter: found.letter(),
            };
            assert_eq!(ended, expected, "{found:?}");
            let own = named.contains(&(block as u8));
            tally.add(format!("brick j named: {own}"), 1);
            tally.add(format!("letter {}", found.letter()), 1);
            found.count_choices(block, &named, &mut tally);
        }
    }
    println!("{:?}", tally.0);
    tally.expect(1000, &["letter H", "letter L"]);
    tally.expect(1000, &["brick j named: true", "brick j named: false"]);
    tally.expect(1000, &OTHER_CHOICES);
}

#[test]
fn crashes_cut_and_keep_the_count() {
    for mut record in [
        writing(),
        modifying(),
        recovering(),
        reading(),
        recovering_read(),
    ] {
        let kind = record.running.as_ref().unwrap().kind;
        let step = crash(volume(), 1, &mut record).unwrap();
        assert_eq!(outcome(&step, kind), ('C', Outcome::Cut));
        assert!(step.sent.is_empty());
        assert_eq!(record, idle());
    }
}

/// A reply is counted or refused by 11.
fn counted(record: &Record, reply: &Reply) -> bool {
    let mut changed = record.clone();
    match take_reply(volume(), 1, &mut changed, reply) {
        Ok(step) => {
            assert_eq!(step, Step::default());
            true
        }
        Err(number) => {
            assert_eq!((number, &changed), (11, record));
            false
        }
    }
}

/// The first round of a block write and its Modify: comparisons that they don't allow are 10.
#[test]
fn comparisons_refused_10() {
    for (record, fine) in [
        (writing(), reply(ORDER_BLOCK, 1, 1, true, 0, Some(9))),
        (modifying(), reply(MODIFY, 2, 1, true, 0, None)),
        (reading(), reply(READ, 1, 1, true, 40, Some(9))),
    ] {
        for comparison in [0, 1, 2, 3, 4, 128, 255] {
            let taken = |reply: Reply| take_reply(volume(), 1, &mut record.clone(), &reply).err();
            let yes = Reply {
                comparison,
                ..fine.clone()
            };
            assert_eq!(taken(yes), (comparison != NONE).then_some(10));
            let no = Reply {
                block: None,
                ..told(&fine, comparison)
            };
            let fits = may_say(fine.kind, comparison);
            assert_eq!(taken(no.clone()), (!fits).then_some(10), "{no:?}");
            // With a block, so that it is 11 as well: 10 comes first.
            let held = told(&fine, comparison);
            let with_block = held.block.is_some();
            let expected = if fits { 11 } else { 10 };
            assert_eq!(taken(held), (with_block || !fits).then_some(expected));
        }
    }
}

#[test]
fn blocks_of_order_block_replies() {
    for (brick, yes, found, block, fits) in [
        (1, true, 40, Some(9), true),
        (1, true, 0, Some(9), true),
        (1, true, 40, None, false),
        (1, true, 0, None, false),
        (0, true, 40, None, true),
        (0, true, 0, None, true),
        (0, true, 40, Some(9), false),
        (3, true, 0, Some(9), false),
        (1, false, 0, None, true),
        (0, false, 0, None, true),
        (1, false, 40, None, false),
        (0, false, 40, None, false),
        (1, false, 0, Some(9), false),
        (0, false, 0, Some(9), false),
    ] {
        let reply = reply(ORDER_BLOCK, 1, brick, yes, found, block);
        assert_eq!(counted(&writing(), &reply), fits, "{reply:?}");
        // Of another kind, round, stripe or time it isn't counted.
        for other in [
            Reply {
                kind: ORDER,
                ..reply.clone()
            },
            Reply {
                kind: ORDER_READ,
                ..reply.clone()
            },
            Reply {
                kind: READ,
                ..reply.clone()
            },
            Reply {
                round: 2,
                ..reply.clone()
            },
            Reply {
                stripe: 0,
                ..reply.clone()
            },
            Reply {
                time: 33,
                ..reply.clone()
            },
        ] {
            assert!(!counted(&writing(), &other), "{other:?}");
        }
        assert!(!counted(&fresh(), &reply));
    }
}

#[test]
fn blocks_of_modify_and_read_replies() {
    for brick in 0..4 {
        for yes in [true, false] {
            let fine = reply(MODIFY, 2, brick, yes, 0, None);
            assert!(counted(&modifying(), &fine));
            for other in [
                Reply {
                    found: 40,
                    ..fine.clone()
                },
                Reply {
                    block: Some(vec![9]),
                    ..fine.clone()
                },
                Reply {
                    kind: WRITE,
                    ..fine.clone()
                },
                Reply {
                    round: 1,
                    ..fine.clone()
                },
                Reply {
                    kind: ORDER_BLOCK,
                    round: 1,
                    ..fine
                },
            ] {
                assert!(!counted(&modifying(), &other), "{other:?}");
            }
            // Of a block read brick 1 alone is a target.
            for found in [0, 40] {
                let with = reply(READ, 1, brick, yes, found, Some(9));
                assert_eq!(counted(&reading(), &with), yes && brick == 1);
                let without = reply(READ, 1, brick, yes, found, None);
                assert_eq!(counted(&reading(), &without), !(yes && brick == 1));
            }
        }
    }
}

/// A start is refused and the record keeps its content.
fn refused(
    volume: Volume,
    number: u64,
    record: &Record,
    (stripe, reading, block): (u64, u64, u64),
    data: Option<&[u8]>,
) -> Refusal {
    let mut changed = record.clone();
    let step = match data {
        Some(data) => start_write_block(volume, number, &mut changed, stripe, reading, block, data),
        None => start_read_block(volume, number, &mut changed, stripe, reading, block),
    };
    assert_eq!(&changed, record);
    step.unwrap_err()
}

#[test]
fn starts_refused_lowest_first() {
    let late = 1 << 40;
    let mut spent = fresh();
    start_read_block(volume(), 1, &mut spent, STRIPE, LAST_COUNT, 0).unwrap();
    let broken = Record {
        last: late,
        ..spent.clone()
    };
    for data in [None, Some(&[7][..])] {
        for stripe in 0..3 {
            for record in [writing(), reading(), modifying(), recovering()] {
                assert_eq!(refused(volume(), 1, &record, (stripe, 0, 0), data), 9);
            }
        }
        assert_eq!(refused(volume(), 1, &spent, (0, 0, 1), data), 8);
        assert_eq!(refused(volume(), 1, &spent, (0, late, 1), data), 7);
        assert_eq!(refused(volume(), 1, &broken, (2, late, 1), data), 6);
        for block in [2, 3, 64, u64::MAX] {
            assert_eq!(refused(volume(), 1, &broken, (2, late, block), data), 14);
            assert_eq!(refused(volume(), 1, &fresh(), (2, 0, block), data), 14);
            assert_eq!(refused(volume(), 1, &broken, (3, late, block), data), 13);
            assert_eq!(refused(volume(), 16, &broken, (3, late, block), data), 3);
            for past in [Volume::new(4, 5, 1, 3), Volume::new(4, 2, 1, 65)] {
                assert_eq!(refused(past, 16, &broken, (3, late, block), data), 1);
                assert_eq!(
                    refused(past, 16, &broken, (3, late, block), data.and(Some(&[]))),
                    1
                );
            }
        }
    }
    // A block of another length, the stripe's too.
    for data in [&[][..], &[7, 8]] {
        assert_eq!(refused(volume(), 16, &broken, (3, late, 2), Some(data)), 2);
    }
    // Every block of the last stripe.
    for block in 0..2 {
        assert!(start_read_block(volume(), 1, &mut fresh(), 2, 0, block).is_ok());
        assert!(start_write_block(volume(), 1, &mut fresh(), 2, 0, block, &[7]).is_ok());
    }
}

/// The record is refused by every routine, and unchanged.
fn breaks_a_rule(record: &Record) -> bool {
    let mut changed = record.clone();
    let results = [
        start_read_block(volume(), 1, &mut changed, STRIPE, 0, 0),
        start_write_block(volume(), 1, &mut changed, STRIPE, 0, 0, &[0]),
        start_read(volume(), 1, &mut changed, STRIPE, 0, 0),
        take_reply(
            volume(),
            1,
            &mut changed,
            &reply(ORDER, 1, 0, true, 0, None),
        ),
        crash(volume(), 1, &mut changed.clone()),
    ];
    let count = results.iter().filter(|&result| *result == Err(6)).count();
    assert!(count == 0 || count == 5 && changed == *record);
    count == 5
}

/// The record with its running operation changed.
fn with(mut record: Record, change: impl FnOnce(&mut Running)) -> Record {
    change(record.running.as_mut().unwrap());
    record
}

#[test]
fn broken_records() {
    let storing = || {
        let mut record = recovering();
        take_all(&mut record, recovered(2));
        record
    };
    let restoring = || {
        with(storing(), |r| {
            r.kind = Kind::ReadBlock;
            r.bricks = vec![1, 2];
        })
    };
    let lower = || with(recovering(), |r| (r.round, r.max) = (3, 48));
    for record in [
        writing(),
        modifying(),
        recovering(),
        lower(),
        storing(),
        restoring(),
        reading(),
    ] {
        assert!(!breaks_a_rule(&record), "{record:?}");
    }
    let counted = |record, reply: Reply| with(record, |r| r.replies = vec![reply]);
    let broken = [
        with(writing(), |r| r.first = 2),
        with(writing(), |r| r.first = u64::MAX),
        with(modifying(), |r| r.first = 2),
        with(recovering(), |r| r.first = 3),
        with(storing(), |r| r.first = 2),
        with(reading(), |r| r.first = 2),
        with(writing(), |r| r.round = 2),
        with(writing(), |r| r.max = 16),
        with(writing(), |r| r.data.push(0)),
        with(writing(), |r| r.data.clear()),
        with(writing(), |r| r.bricks = vec![0, 1]),
        with(writing(), |r| r.kind = Kind::Write),
        with(writing(), |r| r.kind = Kind::Read),
        with(writing(), |r| r.kind = Kind::ReadBlock),
        with(writing(), |r| r.open = ORDER),
        with(writing(), |r| r.open = READ),
        with(writing(), |r| r.open = MODIFY),
        with(writing(), |r| r.open = WRITE),
        with(writing(), |r| r.open = TRIM),
        with(writing(), |r| r.open = DROP),
        with(modifying(), |r| r.round = 1),
        with(modifying(), |r| r.round = 3),
        with(modifying(), |r| r.max = NO_UPPER_END),
        with(modifying(), |r| r.open = WRITE),
        with(modifying(), |r| r.open = ORDER_READ),
        with(modifying(), |r| r.kind = Kind::ReadBlock),
        with(modifying(), |r| r.data = vec![5, 7]),
        with(modifying(), |r| r.bricks = vec![1]),
        with(recovering(), |r| r.round = 1),
        with(recovering(), |r| r.round = 3),
        with(recovering(), |r| r.max = 48),
        with(recovering(), |r| r.data = vec![5, 7]),
        with(recovering(), |r| r.data.clear()),
        with(recovering(), |r| r.kind = Kind::Write),
        with(lower(), |r| r.max = NO_UPPER_END),
        with(lower(), |r| r.round = 1001),
        with(storing(), |r| r.round = 2),
        with(storing(), |r| r.max = 16),
        with(storing(), |r| r.data = vec![7]),
        // A write of a block names no bricks, a read that stores what it found the m.
        with(storing(), |r| r.bricks = vec![1, 2]),
        with(storing(), |r| r.bricks = vec![1]),
        with(storing(), |r| r.kind = Kind::ReadBlock),
        with(restoring(), |r| r.kind = Kind::WriteBlock),
        with(restoring(), |r| r.bricks.clear()),
        with(restoring(), |r| r.bricks = vec![1, 1]),
        with(storing(), |r| r.open = MODIFY),
        with(reading(), |r| r.round = 2),
        with(reading(), |r| r.max = 16),
        with(reading(), |r| r.data = vec![7]),
        with(reading(), |r| r.bricks = vec![1]),
        with(reading(), |r| r.open = ORDER_BLOCK),
        with(reading(), |r| r.kind = Kind::WriteBlock),
        counted(writing(), reply(ORDER_BLOCK, 1, 1, true, 40, None)),
        counted(writing(), reply(ORDER_BLOCK, 1, 0, true, 40, Some(9))),
        counted(writing(), reply(ORDER_BLOCK, 1, 0, false, 40, None)),
        counted(writing(), reply(ORDER_BLOCK, 1, 0, true, 3, None)),
        counted(modifying(), reply(MODIFY, 2, 1, true, 40, None)),
        counted(modifying(), reply(MODIFY, 2, 1, true, 0, Some(9))),
        counted(reading(), reply(READ, 1, 1, true, 40, None)),
        counted(reading(), reply(READ, 1, 0, true, 40, Some(9))),
        with(writing(), |r| r.replies = ordered().to_vec()),
        with(modifying(), |r| {
            r.replies = yes_from(MODIFY, 2, [0, 1, 2]).to_vec()
        }),
    ];
    for record in &broken {
        assert!(breaks_a_rule(record), "{record:?}");
    }
    // A counted no keeps its comparison, a yes none; the first round knows no full log.
    for (record, fine) in [
        (writing(), reply(ORDER_BLOCK, 1, 0, true, 0, None)),
        (modifying(), reply(MODIFY, 2, 0, true, 0, None)),
        (reading(), reply(READ, 1, 0, true, 0, None)),
        (recovering(), reply(ORDER_READ, 2, 0, true, 0, None)),
        (recovering_read(), reply(ORDER_READ, 2, 0, true, 0, None)),
        (storing(), reply(WRITE, 3, 0, true, 0, None)),
        (restoring(), reply(WRITE, 3, 0, true, 0, None)),
    ] {
        for comparison in [0, 1, 2, 3, 4, 255] {
            let yes = Reply {
                comparison,
                ..fine.clone()
            };
            let kept = counted(record.clone(), yes);
            assert_eq!(breaks_a_rule(&kept), comparison != NONE, "{kept:?}");
            let kept = counted(record.clone(), told(&fine, comparison));
            let allowed = may_say(fine.kind, comparison);
            assert_eq!(breaks_a_rule(&kept), !allowed, "{kept:?}");
        }
    }
    // A read of the block in the rounds of a recovery has no data, as one of the stripe.
    let read = with(recovering(), |r| {
        r.kind = Kind::ReadBlock;
        r.data.clear();
    });
    assert!(!breaks_a_rule(&read));
}
