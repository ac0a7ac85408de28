//! Starts, replies and crashes at one coordinator.

use jilbagum_tests::brick::*;
use jilbagum_tests::code::encode;
use jilbagum_tests::coordinator::*;
use jilbagum_tests::fixtures::{fresh, may_say, reply, take, told, volume, STRIPE};
use jilbagum_tests::recovery::{Recovery, OTHER_CHOICES};
use jilbagum_tests::rng::Rng;
use jilbagum_tests::settings::{Refusal, Volume, LAST_COUNT, NO_UPPER_END};
use jilbagum_tests::tally::Tally;

/// Coordinator 1 writing bytes 5, 9 at time 17.
fn writing() -> Record {
    let mut record = fresh();
    start_write(volume(), 1, &mut record, STRIPE, 1, &[5, 9]).unwrap();
    record
}

/// Coordinator 1 reading at time 17 with targets 3 and 0.
fn reading() -> Record {
    let mut record = fresh();
    start_read(volume(), 1, &mut record, STRIPE, 1, 3).unwrap();
    record
}

/// The reply is refused and the record keeps its content.
fn refused(record: &Record, reply: &Reply) -> Refusal {
    let mut changed = record.clone();
    let refusal = take_reply(volume(), 1, &mut changed, reply).unwrap_err();
    assert_eq!(&changed, record);
    refusal
}

/// Takes replies, the last of which decides; those before do nothing visible.
fn take_all(record: &mut Record, replies: Vec<Reply>) -> Step {
    let count = replies.len();
    let steps: Vec<Step> = replies
        .into_iter()
        .map(|reply| take(record, reply))
        .collect();
    assert!(steps[..count - 1]
        .iter()
        .all(|step| *step == Step::default()));
    steps.into_iter().next_back().unwrap()
}

fn yes_from(kind: u8, round: u64, bricks: &[u64]) -> Vec<Reply> {
    bricks
        .iter()
        .map(|&brick| reply(kind, round, brick, true, 0, None))
        .collect()
}

/// How it ended, with its letter.
fn outcome(step: &Step) -> (char, Outcome) {
    let ended = step.ended.clone().expect("the operation ended");
    assert_eq!((ended.coordinator, ended.stripe, ended.time), (1, STRIPE, 17));
    (ended.letter, ended.outcome)
}

fn stripe(data: &[u8], bricks: &[u8]) -> Outcome {
    Outcome::Gave {
        data: data.to_vec(),
        bricks: bricks.to_vec(),
    }
}

/// Takes replies, the last of which ends the operation aborted, with a letter.
fn aborts(record: &mut Record, letter: char, replies: Vec<Reply>) {
    let step = take_all(record, replies);
    assert_eq!(outcome(&step), (letter, Outcome::Abort));
    assert!(step.sent.is_empty());
}

/// A message of the operation.
fn message(kind: u8, round: u64) -> Message {
    Message {
        stripe: STRIPE,
        ..Message::plain(kind, 17, round)
    }
}

/// The messages of an Order-and-read round.
fn order_reads(max: u64, round: u64) -> Vec<Message> {
    let message = Message {
        max,
        ..message(ORDER_READ, round)
    };
    vec![message; 4]
}

/// Drops or early Trims of a time, with the number of a recovery round.
fn clearing(kind: u8, time: u64, round: u64) -> Vec<Message> {
    let message = Message {
        time,
        ..message(kind, round)
    };
    vec![message; 4]
}

/// Drops of a time that a recovery round found, then the next round.
fn drops_and_order_reads(time: u64, round: u64) -> Vec<Message> {
    [clearing(DROP, time, round), order_reads(time, round + 1)].concat()
}

/// The messages of the Write round of data 5, 9.
fn stores_5_9(round: u64) -> Vec<Message> {
    let store = |byte| Message {
        block: vec![byte],
        ..message(WRITE, round)
    };
    [5, 9, 29, 17].map(store).to_vec()
}

/// Replies with which a read ends after one round.
fn fine() -> Vec<Reply> {
    vec![
        reply(READ, 1, 0, true, 40, Some(5)),
        reply(READ, 1, 2, true, 40, None),
        reply(READ, 1, 3, true, 40, Some(17)),
    ]
}

/// A read in its first recovery round.
fn recovering() -> Record {
    let mut record = reading();
    let step = take_all(
        &mut record,
        vec![
            reply(READ, 1, 0, false, 0, None),
            reply(READ, 1, 1, true, 0, None),
            reply(READ, 1, 2, true, 0, None),
        ],
    );
    assert_eq!(step.sent, order_reads(NO_UPPER_END, 2));
    assert_eq!(step.ended, None);
    record
}

#[test]
fn a_write_orders_then_writes_then_trims() {
    let mut record = fresh();
    let step = start_write(volume(), 1, &mut record, STRIPE, 1, &[5, 9]).unwrap();
    assert_eq!(
        step,
        Step {
            sent: vec![message(ORDER, 1); 4],
            ended: None
        }
    );
    assert_eq!(record.last, 1);

    let step = take_all(&mut record, yes_from(ORDER, 1, &[3, 0, 2]));
    let coded = encode(4, 2, 1, &[5, 9]).unwrap();
    let blocks: Vec<Message> = coded
        .iter()
        .map(|&byte| Message {
            block: vec![byte],
            ..message(WRITE, 2)
        })
        .collect();
    assert_eq!(
        step,
        Step {
            sent: blocks,
            ended: None
        }
    );

    let step = take_all(&mut record, yes_from(WRITE, 2, &[1, 3, 0]));
    assert_eq!(step.sent, vec![message(TRIM, 2); 4]);
    assert_eq!(outcome(&step), ('S', Outcome::Ok));
    assert_eq!(step.ended.unwrap().kind, Kind::Write);
    assert_eq!(record, Record { last: 1, ..fresh() });
}

#[test]
fn the_qth_reply_decides_an_abort() {
    for place in 0..3 {
        for comparison in [NEWER, PROMISE] {
            let mut replies = yes_from(ORDER, 1, &[3, 0, 2]);
            replies[place] = told(&replies[place], comparison);
            let mut record = writing();
            aborts(&mut record, 'O', replies);
            assert_eq!(record, Record { last: 1, ..fresh() });
        }
    }
}

/// A write in its Write round.
fn storing() -> Record {
    let mut record = writing();
    take_all(&mut record, yes_from(ORDER, 1, &[0, 1, 2]));
    record
}

/// A read that recovered zeros, after the first round of recovery, and stores them.
fn storing_back() -> Record {
    let mut record = recovering();
    let zeros = [0, 1, 2].map(|brick| reply(ORDER_READ, 2, brick, true, 0, Some(0)));
    take_all(&mut record, zeros.to_vec());
    record
}

/// Every answer of three bricks to a Write round, of a write and of a recovered read: G where each
/// no is a full log's, W where some no isn't, and the operation finishes where none says no.
#[test]
fn nos_of_a_write_round() {
    let comparisons = [NONE, NEWER, PROMISE, FULL];
    for (begun, round, finished) in [
        (storing(), 2, ('S', Outcome::Ok)),
        (storing_back(), 3, ('H', stripe(&[0, 0], &[0, 1]))),
    ] {
        for a in comparisons {
            for b in comparisons {
                for c in comparisons {
                    let replies = [(3, a), (0, b), (2, c)].map(|(brick, comparison)| Reply {
                        yes: comparison == NONE,
                        comparison,
                        ..reply(WRITE, round, brick, true, 0, None)
                    });
                    let mut record = begun.clone();
                    let step = take_all(&mut record, replies.to_vec());
                    let nos = [a, b, c].into_iter().filter(|&said| said != NONE);
                    let expected = if [a, b, c] == [NONE; 3] {
                        finished.clone()
                    } else if nos.clone().all(|said| said == FULL) {
                        ('G', Outcome::Abort)
                    } else {
                        ('W', Outcome::Abort)
                    };
                    assert_eq!(outcome(&step), expected, "{:?}", [a, b, c]);
                    assert_eq!(record, Record { last: 1, ..fresh() });
                }
            }
        }
    }
}

/// The letter is that of the q replies counted: what comes later is refused, whatever it says, and a
/// no to an Order isn't counted in the Write round.
#[test]
fn late_nos_do_not_change_the_letter() {
    let full = |brick| told(&reply(WRITE, 2, brick, true, 0, None), FULL);
    let mut record = storing();
    // The fourth brick's no to the Order comes now.
    let late = told(&reply(ORDER, 1, 3, true, 0, None), PROMISE);
    assert_eq!(refused(&record, &late), 11);
    aborts(&mut record, 'G', vec![full(0), full(3), reply(WRITE, 2, 1, true, 0, None)]);
    let late = told(&reply(WRITE, 2, 2, true, 0, None), NEWER);
    assert_eq!(refused(&record, &late), 11);
    // A second reply of a brick that was counted as a full log.
    let mut record = storing();
    take(&mut record, full(0));
    assert_eq!(refused(&record, &told(&full(0), PROMISE)), 11);
    assert_eq!(refused(&record, &reply(WRITE, 2, 0, true, 0, None)), 11);
    aborts(&mut record, 'G', vec![full(1), full(2)]);
}

/// A no to a Read doesn't abort and leaves no letter; the recovery's own nos do.
#[test]
fn nos_of_a_recovery() {
    for comparison in [NEWER, PROMISE] {
        for place in 0..3 {
            for mut record in [recovering(), recovering_in(3), recovering_in(1000)] {
                let round = record.running.as_ref().unwrap().round;
                let mut replies = [0, 1, 2].map(|b| reply(ORDER_READ, round, b, true, 0, None));
                replies[place] = told(&replies[place], comparison);
                aborts(&mut record, 'O', replies.to_vec());
            }
        }
    }
}

#[test]
fn a_read_of_one_round() {
    let mut record = fresh();
    let step = start_read(volume(), 1, &mut record, STRIPE, 1, 3).unwrap();
    assert_eq!(
        step.sent,
        vec![
            Message {
                targets: vec![3, 0],
                ..message(READ, 1)
            };
            4
        ]
    );
    let step = take_all(&mut record, fine());
    assert_eq!(outcome(&step), ('F', stripe(&[5, 9], &[3, 0])));
    assert!(step.sent.is_empty());
    assert_eq!(record, Record { last: 1, ..fresh() });
}

#[test]
fn a_read_recovers_otherwise() {
    let with = |other: Reply| {
        let mut replies = fine();
        let place = replies
            .iter()
            .position(|reply| reply.brick == other.brick)
            .unwrap_or(2);
        replies[place] = other;
        replies
    };
    for replies in [
        with(reply(READ, 1, 2, false, 40, None)),
        with(reply(READ, 1, 2, true, 24, None)),
        with(reply(READ, 1, 3, false, 40, None)),
        with(reply(READ, 1, 3, true, 24, Some(17))),
        with(reply(READ, 1, 1, true, 40, None)),
    ] {
        let mut record = reading();
        let step = take_all(&mut record, replies);
        assert_eq!(step.sent, order_reads(NO_UPPER_END, 2));
        assert_eq!(step.ended, None);
    }
}

#[test]
fn recovery_writes_back_what_it_found() {
    let mut record = recovering();
    let step = take_all(
        &mut record,
        vec![
            reply(ORDER_READ, 2, 3, true, 16, Some(17)),
            reply(ORDER_READ, 2, 2, true, 16, Some(29)),
            reply(ORDER_READ, 2, 1, true, 0, Some(0)),
        ],
    );
    let blocks: Vec<u8> = step.sent.iter().map(|message| message.block[0]).collect();
    assert_eq!(blocks, [5, 9, 29, 17]);
    assert!(step
        .sent
        .iter()
        .all(|message| (message.kind, message.time, message.round) == (WRITE, 17, 3)));
    let step = take_all(&mut record, yes_from(WRITE, 3, &[0, 1, 2]));
    assert_eq!(outcome(&step), ('H', stripe(&[5, 9], &[2, 3])));
    assert_eq!(step.sent, vec![message(TRIM, 3); 4]);
}

#[test]
fn recovery_names_the_first_m_bricks_by_number() {
    let mut record = recovering();
    let coded = encode(4, 2, 1, &[5, 9]).unwrap();
    let replies =
        [3, 1, 2].map(|brick| reply(ORDER_READ, 2, brick, true, 16, Some(coded[brick as usize])));
    take_all(&mut record, replies.to_vec());
    let step = take_all(&mut record, yes_from(WRITE, 3, &[0, 1, 2]));
    assert_eq!(outcome(&step), ('H', stripe(&[5, 9], &[1, 2])));
}

/// E7: whichever q bricks of a small set are counted, in several orders of arrival, and whichever m
/// or more of them gave the chosen time, a read recovered at the first time tried or at a lower one
/// names the first m of these by number, whatever its first target.
#[test]
fn every_recovered_read_names_the_first_m() {
    let mut rng = Rng::printed(7);
    let mut tally = Tally::default();
    for found in Recovery::of_small_sets(&mut rng) {
        let (volume, named) = (found.volume(), found.named());
        for first in 0..found.shape.n {
            let mut record = Record::fresh(volume, 1);
            start_read(volume, 1, &mut record, STRIPE, 1, first).unwrap();
            let step = found.play(&mut record);
            let expected = (found.letter(), stripe(&found.data, &named));
            assert_eq!(outcome(&step), expected, "first target {first}, {found:?}");
            tally.add(format!("letter {}", found.letter()), 1);
            found.count_choices(first, &named, &mut tally);
        }
    }
    println!("{:?}", tally.0);
    tally.expect(1000, &["letter H", "letter L"]);
    tally.expect(1000, &OTHER_CHOICES);
}

#[test]
fn recovery_looks_further_down() {
    let mut record = recovering();
    let step = take_all(
        &mut record,
        vec![
            reply(ORDER_READ, 2, 0, true, 0, Some(0)),
            reply(ORDER_READ, 2, 1, true, 16, Some(7)),
            reply(ORDER_READ, 2, 2, true, 0, Some(0)),
        ],
    );
    assert_eq!(step.sent, drops_and_order_reads(16, 2));
    let step = take_all(
        &mut record,
        vec![
            reply(ORDER_READ, 3, 1, true, 0, Some(0)),
            reply(ORDER_READ, 3, 2, true, 0, Some(0)),
            reply(ORDER_READ, 3, 3, true, 0, None),
        ],
    );
    assert_eq!((step.sent[0].kind, step.sent[0].round), (WRITE, 4));
    let step = take_all(&mut record, yes_from(WRITE, 4, &[0, 1, 2]));
    assert_eq!(outcome(&step), ('L', stripe(&[0, 0], &[1, 2])));
    assert_eq!(step.sent, vec![message(TRIM, 4); 4]);
}

/// A round whose highest time is on fewer than m of its q bricks: Drop of it, with the number of
/// that round, to all bricks, then the next round; whatever the others hold, and in each order of
/// the replies.
#[test]
fn a_time_on_too_few_bricks_is_dropped() {
    let found = |brick, time| reply(ORDER_READ, 2, brick, true, time, Some(7));
    for others in [
        [found(0, 0), found(3, 0)],
        [found(0, 32), found(3, 32)],
        [found(0, 16), found(3, 32)],
        [found(0, 16), reply(ORDER_READ, 2, 3, true, 0, None)],
        [0, 3].map(|brick| reply(ORDER_READ, 2, brick, true, 0, None)),
    ] {
        for place in 0..3 {
            let mut replies = others.to_vec();
            replies.insert(place, found(1, 48));
            let mut record = recovering();
            let step = take_all(&mut record, replies);
            let expected = Step {
                sent: drops_and_order_reads(48, 2),
                ended: None,
            };
            assert_eq!(step, expected);
            let running = record.running.as_ref().unwrap();
            assert_eq!((running.open, running.round, running.max), (ORDER_READ, 3, 48));
        }
    }
}

/// Round after round, each Drop has the time and the number of its own round; then the time found
/// below.
#[test]
fn drops_of_several_rounds() {
    let mut record = recovering();
    for (round, time) in [(2, 80), (3, 64), (4, 48)] {
        let replies = [
            reply(ORDER_READ, round, 2, true, time, Some(7)),
            reply(ORDER_READ, round, 0, true, 16, Some(5)),
            reply(ORDER_READ, round, 1, true, 16, Some(9)),
        ];
        let step = take_all(&mut record, replies.to_vec());
        assert_eq!(step.sent, drops_and_order_reads(time, round));
    }
    // An early Trim may follow Drops of earlier rounds.
    let found = |(brick, byte)| reply(ORDER_READ, 5, brick, true, 16, Some(byte));
    let all = [(2, 29), (0, 5), (1, 9)].map(found);
    let step = take_all(&mut record, all.to_vec());
    assert_eq!(step.sent, [clearing(TRIM, 16, 5), stores_5_9(6)].concat());
    let step = take_all(&mut record, yes_from(WRITE, 6, &[0, 1, 2]));
    assert_eq!(outcome(&step), ('L', stripe(&[5, 9], &[0, 1])));
    assert_eq!(step.sent, vec![message(TRIM, 6); 4]);
}

/// Nothing is dropped before the first recovery round, whatever the times of the Read round, nor
/// where the recovery aborts.
#[test]
fn what_drops_nothing() {
    let kinds = |step: &Step| step.sent.iter().map(|message| message.kind).collect::<Vec<_>>();
    for found in [[40, 24, 24], [40, 40, 24], [16, 0, 40]] {
        let mut replies = fine();
        for (reply, found) in replies.iter_mut().zip(found) {
            reply.found = found;
        }
        let mut record = reading();
        assert_eq!(kinds(&take_all(&mut record, replies)), [ORDER_READ; 4]);
    }
    // A no aborts, with a time on one brick only.
    let one = reply(ORDER_READ, 2, 0, true, 48, Some(7));
    let zero = reply(ORDER_READ, 2, 1, true, 0, Some(0));
    let no = reply(ORDER_READ, 2, 2, false, 0, None);
    aborts(&mut recovering(), 'O', vec![one.clone(), zero.clone(), no]);
    // Time 0 on few bricks is no time to drop.
    let none = |brick| reply(ORDER_READ, 2, brick, true, 0, None);
    aborts(&mut recovering(), 'X', vec![none(0), zero, none(2)]);
    // Two replies of three decide nothing.
    let mut record = recovering();
    take(&mut record, one);
    assert_eq!(take(&mut record, none(2)), Step::default());
    // A crash sends nothing.
    assert!(crash(volume(), 1, &mut record).unwrap().sent.is_empty());
}

/// An early Trim of the chosen time where each of the q replies holds it, and it isn't 0.
#[test]
fn an_early_trim_where_all_hold_the_chosen_time() {
    let coded = [5, 9, 29, 17];
    for round in [2, 3, 999] {
        for bricks in [[0, 1, 2], [3, 1, 2], [2, 0, 3]] {
            let found = |brick: u64, time| {
                reply(ORDER_READ, round, brick, true, time, Some(coded[brick as usize]))
            };
            let all = bricks.map(|brick| found(brick, 16));
            let mut record = recovering_in(round);
            let step = take_all(&mut record, all.to_vec());
            let expected = [clearing(TRIM, 16, round), stores_5_9(round + 1)].concat();
            assert_eq!((step.sent, step.ended), (expected, None));
            let running = record.running.as_ref().unwrap();
            assert_eq!((running.open, running.round), (WRITE, round + 1));
            // One of them has an older time, or none: the store alone.
            for place in 0..3 {
                let none = reply(ORDER_READ, round, bricks[place], true, 0, None);
                for other in [found(bricks[place], 0), none] {
                    let mut replies = all.to_vec();
                    replies[place] = other;
                    let step = take_all(&mut recovering_in(round), replies);
                    assert_eq!(step.sent, stores_5_9(round + 1));
                }
            }
            // Time 0 is on all of them.
            let zeros = bricks.map(|brick| reply(ORDER_READ, round, brick, true, 0, Some(0)));
            let step = take_all(&mut recovering_in(round), zeros.to_vec());
            assert!(step.sent.len() == 4 && step.sent[0].kind == WRITE);
            // Blocks that disagree: nothing is sent.
            let mut wrong = all.to_vec();
            wrong[2].block = Some(vec![1]);
            aborts(&mut recovering_in(round), 'X', wrong);
        }
    }
}

#[test]
fn recovery_aborts() {
    let none = |brick| reply(ORDER_READ, 2, brick, true, 0, None);
    let zero = |brick| reply(ORDER_READ, 2, brick, true, 0, Some(0));
    let no = |brick| reply(ORDER_READ, 2, brick, false, 0, None);
    for (letter, replies) in [
        ('X', vec![none(0), none(1), none(2)]),
        ('X', vec![none(0), zero(1), none(2)]),
        ('O', vec![zero(0), zero(1), no(2)]),
        ('O', vec![none(0), no(1), none(2)]),
    ] {
        aborts(&mut recovering(), letter, replies);
    }
}

/// Every block of the chosen time is looked at, in each order of the replies and
/// for each of the blocks: one that is off the line through the others ends the
/// read aborted, and nothing is sent.
#[test]
fn recovery_aborts_where_blocks_disagree() {
    let coded = [5, 9, 29, 17];
    for bricks in [[0, 1, 2], [3, 1, 2], [2, 0, 3], [1, 3, 0]] {
        let found =
            bricks.map(|brick| reply(ORDER_READ, 2, brick, true, 16, Some(coded[brick as usize])));
        for place in 0..3 {
            for bit in 0..8 {
                let mut replies = found.to_vec();
                replies[place].block = Some(vec![coded[bricks[place] as usize] ^ 1 << bit]);
                let mut record = recovering();
                aborts(&mut record, 'X', replies);
                assert_eq!(record, Record { last: 1, ..fresh() });
            }
        }
    }
    // Time 0 too.
    let at_0 = |byte| {
        [(0, 0), (1, byte), (2, 0)].map(|(b, byte)| reply(ORDER_READ, 2, b, true, 0, Some(byte)))
    };
    aborts(&mut recovering(), 'X', at_0(1).to_vec());
    let step = take_all(&mut recovering(), at_0(0).to_vec());
    assert_eq!((step.sent[0].kind, step.ended), (WRITE, None));
    // In a later round, and in the last one.
    for mut record in [recovering_in(3), recovering_in(1000)] {
        let round = record.running.as_ref().unwrap().round;
        let replies = [(0, 5), (1, 9), (2, 28)]
            .map(|(b, byte)| reply(ORDER_READ, round, b, true, 16, Some(byte)));
        aborts(&mut record, 'X', replies.to_vec());
    }
}

/// A block of a lower time isn't handed on, m blocks are on one line whatever
/// they are, and a read of one round doesn't look at more than its targets.
#[test]
fn what_recovery_does_not_check() {
    let mut record = recovering();
    let replies = vec![
        reply(ORDER_READ, 2, 0, true, 16, Some(5)),
        reply(ORDER_READ, 2, 1, true, 0, Some(200)),
        reply(ORDER_READ, 2, 2, true, 16, Some(29)),
    ];
    take_all(&mut record, replies.clone());
    assert_eq!(record.running.as_ref().unwrap().data, [5, 9]);
    let mut record = recovering();
    let mut altered = replies;
    altered[2].block = Some(vec![28]);
    let step = take_all(&mut record, altered);
    assert_eq!((step.sent[0].kind, step.sent[0].block[0]), (WRITE, 5));
    assert_ne!(record.running.as_ref().unwrap().data, [5, 9]);
    let mut record = reading();
    let mut replies = fine();
    replies[0].block = Some(vec![4]);
    let ('F', Outcome::Gave { data, bricks }) = outcome(&take_all(&mut record, replies)) else {
        panic!("the read ends in one round")
    };
    assert_eq!((data[0], &bricks[..]), (4, &[3, 0][..]));
}

/// A read whose recovery stands in the given round.
fn recovering_in(round: u64) -> Record {
    let mut record = recovering();
    let time = |round: u64| (1 << 20) - 16 * round;
    for round in 2..round {
        let single = |brick, found| reply(ORDER_READ, round, brick, true, found, Some(0));
        let step = take_all(
            &mut record,
            vec![single(0, time(round)), single(1, 0), single(2, 0)],
        );
        assert_eq!(step.sent, drops_and_order_reads(time(round), round));
    }
    record
}

#[test]
fn no_round_after_1000() {
    let last = recovering_in(1000);
    let single = |brick, found| reply(ORDER_READ, 1000, brick, true, found, Some(0));
    // Neither a further recovery round nor the Write round may be round 1,001; no Drop or early
    // Trim goes out then.
    for found in [16, 0] {
        let replies = vec![single(0, found), single(1, 0), single(2, 0)];
        aborts(&mut last.clone(), 'X', replies);
    }
    let all = [0, 1, 2].map(|brick| single(brick, 16));
    aborts(&mut last.clone(), 'X', all.to_vec());
    let mut record = recovering_in(999);
    let zeros = [0, 1, 2].map(|brick| reply(ORDER_READ, 999, brick, true, 0, Some(0)));
    let step = take_all(&mut record, zeros.to_vec());
    assert_eq!((step.sent[3].kind, step.sent[3].round), (WRITE, 1000));
    let step = take_all(&mut record, yes_from(WRITE, 1000, &[0, 1, 2]));
    assert_eq!(outcome(&step), ('L', stripe(&[0, 0], &[0, 1])));
    assert_eq!(step.sent, vec![message(TRIM, 1000); 4]);
}

#[test]
fn a_crash_cuts_and_keeps_the_count() {
    let mut told_no = storing();
    take(&mut told_no, told(&reply(WRITE, 2, 0, true, 0, None), FULL));
    for mut record in [
        writing(),
        storing(),
        told_no,
        reading(),
        recovering(),
        recovering_in(3),
        storing_back(),
    ] {
        let kind = record.running.as_ref().unwrap().kind;
        let step = crash(volume(), 1, &mut record).unwrap();
        assert_eq!(outcome(&step), ('C', Outcome::Cut));
        assert_eq!(step.ended.unwrap().kind, kind);
        assert!(step.sent.is_empty());
        assert_eq!(record, Record { last: 1, ..fresh() });
        assert_eq!(crash(volume(), 1, &mut record), Ok(Step::default()));
        assert_eq!(record, Record { last: 1, ..fresh() });
        let step = start_write(volume(), 1, &mut record, STRIPE, 0, &[0, 0]).unwrap();
        assert_eq!(step.sent[0].time, 2 * 16 + 1);
    }
}

#[test]
fn starts_refused_lowest_first() {
    let write = |volume, number, record: &Record, stripe, reading, data: &[u8]| {
        let mut changed = record.clone();
        let refusal = start_write(volume, number, &mut changed, stripe, reading, data).unwrap_err();
        assert_eq!(&changed, record);
        refusal
    };
    let read = |volume, number, record: &Record, stripe, reading, first| {
        let mut changed = record.clone();
        let refusal = start_read(volume, number, &mut changed, stripe, reading, first).unwrap_err();
        assert_eq!(&changed, record);
        refusal
    };
    let late = 1 << 40;
    // One operation at a time, on whatever stripe.
    let running = writing();
    for stripe in 0..3 {
        assert_eq!(write(volume(), 1, &running, stripe, 0, &[1, 2]), 9);
        assert_eq!(read(volume(), 1, &running, stripe, 0, 0), 9);
    }

    let mut spent = fresh();
    start_read(volume(), 1, &mut spent, STRIPE, LAST_COUNT, 0).unwrap();
    assert_eq!(write(volume(), 1, &spent, 0, 0, &[1, 2]), 8);
    assert_eq!(read(volume(), 1, &spent, 0, 0, 0), 8);
    assert_eq!(write(volume(), 1, &spent, 0, late, &[1, 2]), 7);
    assert_eq!(read(volume(), 1, &spent, 0, late, 0), 7);

    let broken = Record {
        last: late,
        ..spent.clone()
    };
    assert_eq!(write(volume(), 1, &broken, 2, late, &[1, 2]), 6);
    assert_eq!(read(volume(), 1, &broken, 2, late, 0), 6);
    for stripe in [3, 64, u64::MAX] {
        assert_eq!(write(volume(), 1, &broken, stripe, late, &[1, 2]), 13);
        assert_eq!(read(volume(), 1, &broken, stripe, late, 0), 13);
        assert_eq!(write(volume(), 16, &broken, stripe, late, &[1, 2]), 3);
        assert_eq!(read(volume(), 16, &broken, stripe, late, 0), 3);
        assert_eq!(read(volume(), 1, &broken, stripe, late, 4), 3);
        assert_eq!(write(volume(), 16, &broken, stripe, late, &[1]), 2);
        assert_eq!(write(volume(), 16, &broken, stripe, late, &[1, 2, 3]), 2);
        for past in [
            Volume::new(4, 5, 1, 3),
            Volume::new(4, 2, 1, 0),
            Volume::new(4, 2, 1, 65),
        ] {
            assert_eq!(write(past, 16, &broken, stripe, late, &[1]), 1);
            assert_eq!(read(past, 16, &broken, stripe, late, 4), 1);
        }
    }
    // 13 on a sound record too, and before 7.
    assert_eq!(write(volume(), 1, &fresh(), 3, 0, &[1, 2]), 13);
    assert_eq!(read(volume(), 1, &fresh(), 3, late, 0), 13);

    assert!(start_read(volume(), 1, &mut fresh(), STRIPE, LAST_COUNT, 3).is_ok());
    let mut last = Record::fresh(volume(), 15);
    assert!(start_read(volume(), 15, &mut last, STRIPE, 0, 0).is_ok());
}

/// The clock is one for all stripes: each operation has a later time than the
/// one before, on whatever stripe, also after a crash.
#[test]
fn one_clock_for_all_stripes() {
    let mut record = fresh();
    for (count, stripe) in [0, 1, 0, 2, 2, 1].into_iter().enumerate() {
        let step = start_read(volume(), 1, &mut record, stripe, 0, 0).unwrap();
        let time = 16 * (count as u64 + 1) + 1;
        let sent = |message: &Message| (message.stripe, message.time) == (stripe, time);
        assert!(step.sent.len() == 4 && step.sent.iter().all(sent));
        let ended = crash(volume(), 1, &mut record).unwrap().ended.unwrap();
        assert_eq!((ended.stripe, ended.time), (stripe, time));
    }
}

#[test]
fn crashes_refused_lowest_first() {
    let broken = Record {
        last: 1 << 40,
        ..fresh()
    };
    let refusal = |volume, number| {
        let mut changed = broken.clone();
        let refusal = crash(volume, number, &mut changed).unwrap_err();
        assert_eq!(changed, broken);
        refusal
    };
    assert_eq!(refusal(volume(), 1), 6);
    assert_eq!(refusal(volume(), 16), 3);
    assert_eq!(refusal(Volume::new(0, 0, 0, 1), 16), 1);
    assert_eq!(refusal(Volume::new(4, 2, 1, 65), 16), 1);
}

#[test]
fn replies_refused_lowest_first() {
    let mut record = writing();
    let fine = reply(ORDER, 1, 2, true, 0, None);
    // Of another stripe, so 11 as well.
    let senseless = Reply {
        kind: 9,
        stripe: 0,
        ..fine.clone()
    };
    assert_eq!(refused(&record, &senseless), 10);
    record.last = 1 << 40;
    assert_eq!(refused(&record, &senseless), 6);
    for stripe in [3, 64, u64::MAX] {
        let past_s = Reply {
            stripe,
            ..senseless.clone()
        };
        assert_eq!(refused(&record, &past_s), 13);
        assert_eq!(refused(&writing(), &Reply { stripe, ..fine.clone() }), 13);
        assert_eq!(refused(&fresh(), &Reply { stripe, ..fine.clone() }), 13);
        let past_n = Reply { brick: 4, ..past_s };
        assert_eq!(refused(&record, &past_n), 3);
        assert_eq!(
            take_reply(volume(), 16, &mut record, &Reply { stripe, ..fine.clone() }),
            Err(3)
        );
        for block in [vec![], vec![0; 2]] {
            let long = Reply {
                block: Some(block),
                ..past_n.clone()
            };
            assert_eq!(refused(&record, &long), 2);
            for past in [Volume::new(4, 2, 0, 3), Volume::new(4, 2, 1, 65)] {
                assert_eq!(take_reply(past, 1, &mut record, &long), Err(1));
            }
        }
    }
}

#[test]
fn replies_refused_10() {
    let fine = reply(ORDER, 1, 2, true, 0, None);
    let refused_10 = [
        Reply {
            kind: 0,
            ..fine.clone()
        },
        Reply {
            kind: TRIM,
            ..fine.clone()
        },
        Reply {
            kind: DROP,
            ..fine.clone()
        },
        Reply {
            kind: DROP + 1,
            ..fine.clone()
        },
        Reply {
            time: 0,
            ..fine.clone()
        },
        Reply {
            time: 15,
            ..fine.clone()
        },
        Reply {
            time: 1 << 44,
            ..fine.clone()
        },
        Reply {
            round: 0,
            ..fine.clone()
        },
        Reply {
            round: 1001,
            ..fine.clone()
        },
        Reply {
            found: 1,
            ..fine.clone()
        },
        Reply {
            found: 15,
            ..fine.clone()
        },
        Reply {
            found: 1 << 44,
            ..fine.clone()
        },
    ];
    for record in [writing(), reading(), fresh()] {
        for reply in &refused_10 {
            assert_eq!(refused(&record, reply), 10, "{reply:?}");
        }
    }
}

/// Every kind, answer and comparison: a yes has none, a no has one that its kind allows; any other is
/// 10, which comes before 11, and after 6.
#[test]
fn comparisons_refused_10() {
    for kind in READ..=MODIFY {
        for comparison in [0, 1, 2, 3, 4, 5, 16, 128, 255] {
            for yes in [true, false] {
                let fits = if yes { comparison == NONE } else { may_say(kind, comparison) };
                // Of brick 1, which is no target of the read below.
                let fine = reply(kind, 1, 1, true, 0, None);
                let given = Reply { yes, comparison, ..fine };
                assert_eq!(given.refusal(), (!fits).then_some(10), "{given:?}");
                for record in [writing(), reading(), fresh(), recovering(), storing()] {
                    let running = record.running.as_ref();
                    let counts = running.is_some_and(|r| (r.open, r.round) == (kind, 1));
                    let expected = if !fits {
                        Err(10)
                    } else if counts {
                        Ok(Step::default())
                    } else {
                        Err(11)
                    };
                    let taken = take_reply(volume(), 1, &mut record.clone(), &given);
                    assert_eq!(taken, expected, "{given:?} at {record:?}");
                }
                let broken = Record { last: 1 << 40, ..writing() };
                assert_eq!(refused(&broken, &given), 6);
            }
        }
    }
    // In later rounds: Order-and-read, and the Write round of a write and of a recovered read.
    for (record, kind, round) in [
        (recovering(), ORDER_READ, 2),
        (storing(), WRITE, 2),
        (storing_back(), WRITE, 3),
    ] {
        for comparison in [0, 1, 2, 3, 4, 255] {
            let given = told(&reply(kind, round, 1, true, 0, None), comparison);
            let expected = if may_say(kind, comparison) { Ok(Step::default()) } else { Err(10) };
            assert_eq!(take_reply(volume(), 1, &mut record.clone(), &given), expected);
            // From a brick that was counted: 10 still, else 11.
            let mut counted = record.clone();
            take(&mut counted, reply(kind, round, 1, true, 0, None));
            assert_eq!(refused(&counted, &given), if expected.is_ok() { 11 } else { 10 });
        }
    }
}

#[test]
fn replies_refused_11() {
    let fine = reply(ORDER, 1, 2, true, 0, None);
    assert_eq!(refused(&fresh(), &fine), 11);
    let mut record = writing();
    let of_another = [
        Reply {
            stripe: 0,
            ..fine.clone()
        },
        Reply {
            stripe: 1,
            ..fine.clone()
        },
        Reply {
            time: 33,
            ..fine.clone()
        },
        Reply {
            time: 16,
            ..fine.clone()
        },
        Reply {
            round: 2,
            ..fine.clone()
        },
        Reply {
            round: 1000,
            ..fine.clone()
        },
        Reply {
            kind: READ,
            ..fine.clone()
        },
        Reply {
            kind: ORDER_READ,
            ..fine.clone()
        },
        Reply {
            kind: WRITE,
            ..fine.clone()
        },
        Reply {
            kind: ORDER_BLOCK,
            ..fine.clone()
        },
        Reply {
            kind: MODIFY,
            ..fine.clone()
        },
        Reply {
            found: 16,
            ..fine.clone()
        },
        Reply {
            block: Some(vec![1]),
            ..fine.clone()
        },
        Reply {
            found: 16,
            ..told(&fine, PROMISE)
        },
    ];
    for reply in &of_another {
        assert_eq!(refused(&record, reply), 11, "{reply:?}");
    }
    take(&mut record, fine.clone());
    assert_eq!(refused(&record, &fine), 11);
    assert_eq!(refused(&record, &told(&fine, PROMISE)), 11);
    take(
        &mut record,
        Reply {
            brick: 0,
            ..fine.clone()
        },
    );
    take(
        &mut record,
        Reply {
            brick: 1,
            ..fine.clone()
        },
    );
    assert_eq!(
        refused(&record, &Reply { brick: 3, ..fine }),
        11,
        "late reply of round 1"
    );
    let stored = reply(WRITE, 2, 3, true, 0, None);
    assert_eq!(
        refused(
            &record,
            &Reply {
                found: 16,
                ..stored.clone()
            }
        ),
        11
    );
    assert_eq!(
        refused(
            &record,
            &Reply {
                block: Some(vec![1]),
                ..stored
            }
        ),
        11
    );
}

#[test]
fn blocks_of_read_replies() {
    // Targets are 3 and 0.
    for (brick, yes, block, fits) in [
        (0, true, Some(1), true),
        (0, true, None, false),
        (0, false, None, true),
        (0, false, Some(1), false),
        (1, true, None, true),
        (1, true, Some(1), false),
        (1, false, None, true),
        (1, false, Some(1), false),
    ] {
        for found in [0, 16] {
            let reply = reply(READ, 1, brick, yes, found, block);
            let taken = take_reply(volume(), 1, &mut reading(), &reply);
            assert_eq!(
                taken,
                if fits { Ok(Step::default()) } else { Err(11) },
                "{reply:?}"
            );
        }
    }
}

#[test]
fn blocks_of_order_and_read_replies() {
    for (yes, found, block, fits) in [
        (true, 16, Some(1), true),
        (true, 0, Some(1), true),
        (true, 0, None, true),
        (true, 16, None, false),
        (false, 0, None, true),
        (false, 0, Some(1), false),
        (false, 16, None, false),
        (false, 16, Some(1), false),
    ] {
        let reply = reply(ORDER_READ, 2, 1, yes, found, block);
        let taken = take_reply(volume(), 1, &mut recovering(), &reply);
        assert_eq!(
            taken,
            if fits { Ok(Step::default()) } else { Err(11) },
            "{reply:?}"
        );
    }
}

/// The record is refused by every routine, and unchanged.
fn breaks_a_rule(record: &Record) -> bool {
    let mut changed = record.clone();
    let results = [
        start_read(volume(), 1, &mut changed, STRIPE, 0, 0),
        start_write(volume(), 1, &mut changed, STRIPE, 0, &[0, 0]),
        take_reply(volume(), 1, &mut changed, &reply(ORDER, 1, 0, true, 0, None)),
        crash(volume(), 1, &mut changed.clone()),
    ];
    let count = results.iter().filter(|&result| *result == Err(6)).count();
    assert!(count == 0 || count == 4);
    assert!(count == 0 || changed == *record);
    count == 4
}

/// The record with its running operation changed.
fn with(mut record: Record, change: impl FnOnce(&mut Running)) -> Record {
    change(record.running.as_mut().unwrap());
    record
}

#[test]
fn broken_records() {
    let storing = storing_back;
    for record in [
        fresh(),
        writing(),
        reading(),
        recovering(),
        recovering_in(3),
        recovering_in(1000),
        storing(),
    ] {
        assert!(!breaks_a_rule(&record));
    }
    let order = |brick| reply(ORDER, 1, brick, true, 0, None);
    let counted = |record, replies: &[Reply]| with(record, |r| r.replies = replies.to_vec());
    let broken = [
        Record {
            volume: Volume::new(4, 1, 1, 3),
            ..fresh()
        },
        Record {
            volume: Volume::new(4, 2, 1, 2),
            ..fresh()
        },
        Record {
            volume: Volume::new(4, 2, 1, 4),
            ..writing()
        },
        Record {
            number: 2,
            ..fresh()
        },
        Record {
            last: LAST_COUNT + 1,
            ..fresh()
        },
        Record {
            last: 2,
            ..writing()
        },
        Record {
            last: 0,
            ..writing()
        },
        with(writing(), |r| r.stripe = 3),
        with(reading(), |r| r.stripe = 64),
        with(storing(), |r| r.stripe = u64::MAX),
        with(writing(), |r| r.time = 18),
        with(writing(), |r| r.time = 33),
        with(writing(), |r| r.time = 1),
        with(writing(), |r| r.round = 0),
        with(writing(), |r| r.round = 2),
        with(writing(), |r| r.open = READ),
        with(writing(), |r| r.open = WRITE),
        with(writing(), |r| r.open = 0),
        with(writing(), |r| r.open = TRIM),
        with(writing(), |r| r.open = DROP),
        with(writing(), |r| r.kind = Kind::Read),
        with(writing(), |r| r.max = 16),
        with(writing(), |r| r.first = 1),
        with(writing(), |r| r.data.push(0)),
        with(writing(), |r| r.data.clear()),
        with(writing(), |r| r.bricks = vec![0, 1]),
        counted(writing(), &[order(0), order(1), order(2)]),
        counted(writing(), &[order(0), order(0)]),
        counted(writing(), &[order(4)]),
        counted(writing(), &[Reply { stripe: 0, ..order(0) }]),
        counted(writing(), &[Reply { time: 33, ..order(0) }]),
        counted(writing(), &[Reply { round: 2, ..order(0) }]),
        counted(writing(), &[Reply { kind: WRITE, ..order(0) }]),
        counted(writing(), &[Reply { found: 3, ..order(0) }]),
        counted(writing(), &[Reply { block: Some(vec![0]), ..order(0) }]),
        with(reading(), |r| r.kind = Kind::Write),
        with(reading(), |r| r.first = 4),
        with(reading(), |r| r.round = 2),
        with(reading(), |r| r.max = NO_UPPER_END),
        with(reading(), |r| r.data = vec![0, 0]),
        counted(reading(), &[reply(READ, 1, 0, true, 0, None)]),
        counted(reading(), &[Reply { block: Some(vec![0, 0]), ..reply(READ, 1, 0, true, 0, Some(0)) }]),
        with(recovering(), |r| r.round = 1),
        with(recovering(), |r| r.round = 3),
        with(recovering(), |r| r.max = 16),
        with(recovering(), |r| r.max = NO_UPPER_END + 1),
        with(recovering(), |r| r.bricks = vec![0, 1]),
        with(recovering_in(1000), |r| r.round = 1001),
        with(recovering_in(3), |r| r.max = NO_UPPER_END),
        with(recovering_in(3), |r| r.max = 15),
        with(storing(), |r| r.round = 2),
        with(storing(), |r| r.max = 16),
        with(storing(), |r| r.first = 4),
        with(storing(), |r| r.data = vec![0]),
        with(storing(), |r| r.bricks = vec![0]),
        with(storing(), |r| r.bricks = vec![1, 1]),
        with(storing(), |r| r.bricks = vec![1, 4]),
    ];
    for record in &broken {
        assert!(breaks_a_rule(record), "{record:?}");
    }
    let two = counted(writing(), &[order(0), order(1)]);
    assert!(!breaks_a_rule(&two));
    let mixed = counted(writing(), &[told(&order(0), NEWER), order(1)]);
    assert!(!breaks_a_rule(&mixed));
    assert!(!breaks_a_rule(&with(writing(), |r| r.stripe = 0)));
}

/// What a counted reply said is kept: none on a yes, on a no one that the round's kind allows.
#[test]
fn comparisons_of_a_record() {
    for (record, kind, round) in [
        (writing(), ORDER, 1),
        (storing(), WRITE, 2),
        (reading(), READ, 1),
        (recovering(), ORDER_READ, 2),
        (recovering_in(3), ORDER_READ, 3),
        (storing_back(), WRITE, 3),
    ] {
        for comparison in [0, 1, 2, 3, 4, 128, 255] {
            for yes in [true, false] {
                // Brick 1 is no target of the read.
                let fine = reply(kind, round, 1, true, 0, None);
                let kept = Reply { yes, comparison, ..fine };
                let fits = if yes { comparison == NONE } else { may_say(kind, comparison) };
                let record = with(record.clone(), |r| r.replies = vec![kept]);
                assert_eq!(breaks_a_rule(&record), !fits, "{record:?}");
            }
        }
    }
}

/// Random replies, many of them senseless: a refusal changes nothing, and what
/// is taken leaves a record that breaks no rule.
#[test]
fn random_replies() {
    let mut rng = Rng::printed(6);
    let mut record = fresh();
    let (mut ended, mut drops, mut trims) = (0, 0, 0);
    for _ in 0..20_000 {
        if record.running.is_none() {
            let (stripe, block) = (rng.below(3), rng.below(2));
            let c = &mut record;
            let begun = match rng.below(4) {
                0 => start_read(volume(), 1, c, stripe, 0, rng.below(4)),
                1 => start_write(volume(), 1, c, stripe, 0, &rng.bytes(2)),
                2 => start_read_block(volume(), 1, c, stripe, 0, block),
                _ => start_write_block(volume(), 1, c, stripe, 0, block, &rng.bytes(1)),
            };
            begun.unwrap();
        }
        let running = record.running.clone().unwrap();
        let odd = rng.once_in(5);
        let yes = !rng.once_in(12);
        let reply = Reply {
            kind: if odd {
                rng.below(9) as u8
            } else {
                running.open
            },
            brick: rng.below(if odd { 6 } else { 4 }),
            stripe: if odd { rng.below(5) } else { running.stripe },
            time: if odd { rng.below(1000) } else { running.time },
            round: if odd { rng.below(1003) } else { running.round },
            yes,
            found: match rng.below(4) {
                0 => 0,
                1 | 2 if running.open == ORDER_READ => 16,
                1 | 2 => 0,
                _ => rng.below(200),
            },
            // Zeros agree.
            block: match rng.below(6) {
                0 | 1 => None,
                2 => Some(vec![rng.byte(); if odd { 2 } else { 1 }]),
                _ => Some(vec![0]),
            },
            comparison: match rng.below(16) {
                0 => rng.below(5) as u8,
                _ if yes => NONE,
                _ => rng.between(1, 3) as u8,
            },
        };
        let before = record.clone();
        match take_reply(volume(), 1, &mut record, &reply) {
            Err(number) => {
                assert!([2, 3, 10, 11, 13].contains(&number));
                assert_eq!(record, before);
            }
            Ok(step) => {
                assert!(!breaks_a_rule(&record));
                let (ahead, last) = step.sent.split_at(step.sent.len().saturating_sub(4));
                assert!(last.is_empty() || last.len() == 4);
                // Drops and early Trims stand ahead of a round, of the round before it.
                assert!(ahead.is_empty() || ahead.len() == 4 && step.ended.is_none());
                assert!(ahead.iter().all(|message| {
                    clears(message.kind) && message.round + 1 == last[0].round
                }));
                drops += usize::from(ahead.first().is_some_and(|m| m.kind == DROP));
                trims += usize::from(ahead.first().is_some_and(|m| m.kind == TRIM));
                ended += u64::from(step.ended.is_some());
            }
        }
    }
    println!("{drops} Drops, {trims} early Trims");
    assert!(ended > 100 && drops > 50 && trims > 5);
}
