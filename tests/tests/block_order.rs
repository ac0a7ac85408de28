//! Operations on one block in the order of their stripe: schedules played by hand, histories, and random runs of the independent bricks and
//! coordinators. Letters of ends, in runs and by hand.

use jilbagum_tests::brick::{DROP, FULL, MODIFY, NEWER, ORDER, ORDER_BLOCK, ORDER_READ, PROMISE, TRIM, WRITE};
use jilbagum_tests::coordinator::Outcome;
use jilbagum_tests::fixtures::{reply, told};
use jilbagum_tests::harness::{
    broken_block_runs, ends, letter_fits, letters, rounds, settle, settle_late, some_run, Break, Faults, Independent, Proved, Routines,
    Sent, Start, World, LETTERS, OFTEN_OF_BLOCKS,
};
use jilbagum_tests::order::{brute_order, by_stripe, has_order, is_order, End, Operation};
use jilbagum_tests::settings::{Settings, Shape};
use jilbagum_tests::tally::Tally;
use std::ops::Range;

/// Seven bricks, five of the data: the quorum is six. A stripe is written, then its block 2; that Modify reaches bricks 0 to 5, its Trims
/// are lost, brick 5 goes down, and a read of the stripe has to recover. Of the bricks that answer, 0 to 4 hold the finished block
/// write, all but brick 2 as a mark.
fn five_of_seven<R: Routines>(broken: Break) -> World<R> {
    let faults = Faults { broken, ..Faults::none() };
    let mut world = World::<R>::new(Settings::new(7, 5, 1, 4, 1), vec![0], faults);
    world.start(0, 0, 1, Start::Write(vec![1, 2, 3, 4, 5]));
    settle(&mut world, |_, _| true);
    world.start(0, 0, 2, Start::WriteBlock(2, vec![9]));
    settle(&mut world, |brick, message| message.kind != TRIM && (message.kind != MODIFY || brick < 6));
    world.switch(5, false);
    world.start(1, 0, 3, Start::Read(0));
    settle(&mut world, |_, _| true);
    world
}

/// The right lookup gives a mark at its own time: the finished block write stays.
fn stays<R: Routines>() {
    let world = five_of_seven::<R>(Break::Nothing);
    assert_eq!(ends(&world), [&End::Wrote, &End::Wrote, &End::Gave(vec![1, 2, 9, 4, 5])]);
    // One recovery round found time 32 on five bricks.
    assert_eq!((rounds(&world, ORDER_READ), rounds(&world, WRITE)), (1, 2));
    assert_eq!(letters(&world), "SSH");
    assert_eq!(world.fault(), None);
    assert_eq!(brute_order(&world.operations, world.settings.shape), Some(vec![0, 1, 2]));
}

/// Document 001's lookup counts entries with blocks: brick 2 alone has one of time 32, so the recovery goes on to time 16, stores that
/// stripe again, and the finished block write is undone.
fn is_undone<R: Routines>() {
    let world = five_of_seven::<R>(Break::BlocksOnly);
    assert_eq!(ends(&world), [&End::Wrote, &End::Wrote, &End::Gave(vec![1, 2, 3, 4, 5])]);
    assert_eq!((rounds(&world, ORDER_READ), rounds(&world, WRITE)), (2, 2));
    assert_eq!(letters(&world), "SSL");
    assert_eq!(world.fault(), Some("no order"));
    assert_eq!(brute_order(&world.operations, world.settings.shape), None);
}

#[test]
fn a_finished_block_write_stays_on_five_of_seven() {
    stays::<Independent>();
}

#[test]
fn a_lookup_of_blocks_only_undoes_it() {
    is_undone::<Independent>();
}

#[test]
fn the_same_with_the_proved_routines() {
    stays::<Proved>();
    is_undone::<Proved>();
    client_blocks::<Proved>();
    finds_too_little::<Proved>();
    next_letters_are_noticed::<Proved>(650_000..650_500);
}

/// Every client block of a volume of four stripes, written by its number, in some order; then read by its number, and by its stripe.
fn client_blocks<R: Routines>() {
    let settings = Settings::new(5, 3, 2, 4, 4);
    let mut world = World::<R>::new(settings, vec![0, 1, 2, 3], Faults::none());
    let place = |client: u64| R::place(settings, client).expect("a client block of the volume");
    let bytes = |client: u64| vec![client as u8 + 1, 100 - client as u8];
    assert_eq!([12, 13, u64::MAX].map(|client| R::place(settings, client)), [Err(13); 3]);
    for k in 0..12 {
        let client = 7 * k % 12;
        let (stripe, block) = place(client);
        assert_eq!((stripe, block), (client % 4, client / 4));
        world.start((k % 16) as usize, stripe, k, Start::WriteBlock(block, bytes(client)));
        settle(&mut world, |_, _| true);
    }
    for client in 0..12 {
        let (stripe, block) = place(client);
        world.start(0, stripe, 20, Start::ReadBlock(block));
        settle(&mut world, |_, _| true);
        assert_eq!(world.operations.last().and_then(Operation::gave), Some(&bytes(client)[..]));
    }
    for stripe in 0..4 {
        world.start(0, stripe, 20, Start::Read(4));
        settle(&mut world, |_, _| true);
        let whole = [stripe, stripe + 4, stripe + 8].map(bytes).concat();
        assert_eq!(world.operations.last().and_then(Operation::gave), Some(&whole[..]));
    }
    assert_eq!(rounds(&world, MODIFY), 12);
    assert_eq!(world.fault(), None);
}

#[test]
fn client_blocks_by_their_numbers() {
    client_blocks::<Independent>();
}

/// Brick 0 missed the stripe's write and gets the Modify of block 1 over it. It says no, so a later read recovers; a brick that takes a
/// Modify whatever its newest time would hold a mark that means its older block.
#[test]
fn a_modify_is_taken_over_its_old_time_alone() {
    for (broken, gave) in [(Break::Nothing, [1, 7, 3]), (Break::AnyOldTime, [0, 7, 3])] {
        let faults = Faults { broken, ..Faults::none() };
        let mut world = World::<Independent>::new(Settings::new(5, 3, 1, 4, 1), vec![0], faults);
        world.start(0, 0, 1, Start::Write(vec![1, 2, 3]));
        settle(&mut world, |brick, message| brick > 0 || message.kind != WRITE);
        world.start(0, 0, 1, Start::WriteBlock(1, vec![7]));
        settle_late(&mut world, Some(0), |_, message| message.kind != TRIM);
        world.start(1, 0, 9, Start::Read(0));
        settle(&mut world, |_, _| true);
        assert_eq!(ends(&world), [&End::Wrote, &End::Wrote, &End::Gave(gave.to_vec())]);
        assert_eq!(rounds(&world, MODIFY), 1);
        assert_eq!(world.fault(), (broken == Break::AnyOldTime).then_some("no order"));
    }
}

/// Three block writes whose Trims are lost: marks on marks. A read of one round, a block read of one round, then recoveries of both give
/// what the marks mean.
#[test]
fn marks_on_marks() {
    let mut world = World::<Independent>::new(Settings::new(5, 3, 1, 6, 1), vec![0], Faults::none());
    world.start(0, 0, 1, Start::Write(vec![1, 2, 3]));
    settle(&mut world, |_, _| true);
    for (block, byte) in [(0, 7), (1, 8), (0, 9)] {
        world.start(0, 0, 1, Start::WriteBlock(block, vec![byte]));
        settle(&mut world, |_, message| message.kind != TRIM);
    }
    // Brick 2 has three marks, brick 0 one between its blocks, a parity brick none.
    let bytes = |world: &World<Independent>, brick: usize| -> Vec<Option<u8>> {
        world.state(brick, 0).log.iter().map(|entry| entry.block.as_ref().map(|block| block[0])).collect()
    };
    assert_eq!(bytes(&world, 0), [Some(1), Some(7), None, Some(9)]);
    assert_eq!(bytes(&world, 1), [Some(2), None, Some(8), None]);
    assert_eq!(bytes(&world, 2), [Some(3), None, None, None]);
    assert!(bytes(&world, 3).iter().chain(&bytes(&world, 4)).all(Option::is_some));
    world.start(1, 0, 9, Start::Read(0));
    world.start(2, 0, 9, Start::ReadBlock(2));
    settle(&mut world, |_, _| true);
    // A write that is ordered and cut makes the next reads recover.
    world.start(3, 0, 9, Start::Write(vec![0; 3]));
    settle(&mut world, |brick, message| message.kind != WRITE || brick > 4);
    world.cut(3);
    world.start(1, 0, 20, Start::ReadBlock(1));
    settle(&mut world, |_, _| true);
    world.start(4, 0, 20, Start::Write(vec![0; 3]));
    settle(&mut world, |_, message| message.kind != WRITE);
    world.cut(4);
    world.start(1, 0, 30, Start::Read(2));
    settle(&mut world, |_, _| true);
    let gave: Vec<&[u8]> = world.operations.iter().filter_map(Operation::gave).collect();
    assert_eq!(gave, [&[9, 8, 3][..], &[3], &[8], &[9, 8, 3]]);
    assert_eq!(world.fault(), None);
    // After the Trim of the last store one entry is left.
    assert_eq!([0, 1, 2].map(|b| bytes(&world, b)), [[Some(9)], [Some(8)], [Some(3)]].map(Vec::from));
}

/// A Modify that reached fewer than q bricks and was cut: brick 1 and the parity bricks hold its block. The next write, of another block,
/// recovers: where those three answer it puts its own block beside that one, else it finds the stripe before.
#[test]
fn a_block_write_over_a_cut_one_recovers() {
    for (missing, stripe) in [(0, [1, 7, 8]), (4, [1, 2, 8])] {
        let mut world = World::<Independent>::new(Settings::new(5, 3, 1, 6, 1), vec![0], Faults::none());
        world.start(0, 0, 1, Start::Write(vec![1, 2, 3]));
        settle(&mut world, |_, _| true);
        world.start(0, 0, 1, Start::WriteBlock(1, vec![7]));
        settle(&mut world, |brick, message| message.kind != MODIFY || [1, 3, 4].contains(&brick));
        world.cut(0);
        world.start(1, 0, 9, Start::WriteBlock(2, vec![8]));
        settle(&mut world, |brick, _| brick != missing);
        world.start(1, 0, 9, Start::Read(0));
        settle(&mut world, |_, _| true);
        assert_eq!(ends(&world), [&End::Wrote, &End::Cut, &End::Wrote, &End::Gave(stripe.to_vec())]);
        assert_eq!((rounds(&world, MODIFY), world.noted[2].modified), (1, false));
        assert_eq!(world.fault(), None);
    }
}

/// Two writes of different blocks at once: the one whose promise is overtaken is told no, and aborts although its Modify went out.
#[test]
fn an_overtaken_block_write_aborts() {
    let mut world = World::<Independent>::new(Settings::new(5, 3, 1, 6, 1), vec![0], Faults::none());
    world.start(0, 0, 1, Start::WriteBlock(0, vec![7]));
    // Its first round and the replies; the Modify is sent.
    (0..10).for_each(|_| {
        let which = world.fresh.remove(0);
        world.arrive(which);
    });
    let waiting = std::mem::take(&mut world.fresh);
    world.start(1, 0, 1, Start::WriteBlock(1, vec![8]));
    settle(&mut world, |_, _| true);
    world.fresh = waiting;
    settle(&mut world, |_, _| true);
    world.start(2, 0, 9, Start::Read(0));
    settle(&mut world, |_, _| true);
    assert_eq!(ends(&world), [&End::Aborted, &End::Wrote, &End::Gave(vec![0, 8, 0])]);
    assert_eq!(letters(&world), "WSF");
    assert_eq!((rounds(&world, MODIFY), world.noted[0].modified), (2, true));
    assert_eq!(world.fault(), None);
}

/// X in a run of right bricks: six of them, two of the data. Time 16 is on bricks 0 to 3, a cut write's 33 on 0, 1 and 4, where the Trim of
/// 16 leaves nothing else. The read's recovery meets 33 on one of four bricks and looks below it, its Drops being lost: brick 4 has nothing
/// there, brick 5 time 0. Meanwhile a write finishes on bricks 2 to 5, and its Trim leaves 33 alone on bricks 0 and 1, which then still say
/// yes: all four said yes, and time 0 is on one brick.
fn finds_too_little<R: Routines>() {
    let mut world = World::<R>::new(Settings::new(6, 2, 1, 4, 1), vec![0], Faults::none());
    let sent = |world: &World<R>, kind: u8, time: u64, to: usize| {
        let wanted = |sent: &Sent| matches!(sent, Sent::To(brick, message) if (*brick, message.kind, message.time) == (to, kind, time));
        world.sent.iter().rposition(wanted).expect("such a message")
    };
    world.start(0, 0, 1, Start::Write(vec![1, 2]));
    settle(&mut world, |brick, message| message.kind == ORDER || message.kind == WRITE && brick < 4);
    world.start(1, 0, 2, Start::Write(vec![3, 4]));
    settle(&mut world, |brick, message| message.kind == ORDER || [0, 1, 4].contains(&brick));
    world.cut(1);
    world.arrive(sent(&world, TRIM, 16, 4));
    world.start(2, 0, 3, Start::Read(0));
    let reaches = |round: u64, brick: usize| if round < 3 { [1, 2, 3, 5].contains(&brick) } else { brick >= 4 };
    settle(&mut world, |brick, message| message.kind != DROP && reaches(message.round, brick));
    world.start(3, 0, 4, Start::Write(vec![5, 6]));
    settle(&mut world, |brick, message| brick >= 2 || message.kind == TRIM);
    for brick in [0, 1] {
        world.arrive(sent(&world, ORDER_READ, 50, brick));
    }
    settle(&mut world, |_, _| true);
    assert_eq!(ends(&world), [&End::Wrote, &End::Cut, &End::Aborted, &End::Wrote]);
    assert_eq!((&letters(&world)[..], rounds(&world, ORDER_READ), world.disagreed), ("SCXS", 2, 0));
    assert_eq!(world.fault(), None);
}

#[test]
fn an_overtaken_recovery_finds_too_little() {
    finds_too_little::<Independent>();
}

/// Of all letters the one that fits is that of the end.
#[test]
fn one_letter_fits_an_end() {
    let yes = |kind: u8| reply(kind, 2, 0, true, 0, None);
    let gave = Outcome::Gave { data: vec![0], bricks: vec![0] };
    let ends = [
        ("F", gave.clone(), 1, vec![]),
        ("H", gave.clone(), 3, vec![yes(WRITE)]),
        ("L", gave.clone(), 4, vec![yes(WRITE)]),
        ("L", gave, 1000, vec![yes(WRITE)]),
        ("S", Outcome::Ok, 2, vec![yes(MODIFY)]),
        ("S", Outcome::Ok, 4, vec![yes(WRITE)]),
        ("O", Outcome::Abort, 1, vec![yes(ORDER), told(&yes(ORDER), NEWER)]),
        ("O", Outcome::Abort, 1, vec![told(&yes(ORDER_BLOCK), PROMISE)]),
        ("O", Outcome::Abort, 3, vec![told(&yes(ORDER_READ), NEWER), yes(ORDER_READ)]),
        ("G", Outcome::Abort, 2, vec![told(&yes(MODIFY), FULL), yes(MODIFY)]),
        ("G", Outcome::Abort, 3, vec![told(&yes(WRITE), FULL), told(&yes(WRITE), FULL)]),
        ("W", Outcome::Abort, 2, vec![told(&yes(WRITE), FULL), told(&yes(WRITE), PROMISE)]),
        ("W", Outcome::Abort, 2, vec![told(&yes(MODIFY), NEWER), yes(MODIFY)]),
        ("X", Outcome::Abort, 2, vec![yes(ORDER_READ), yes(ORDER_READ)]),
        ("C", Outcome::Cut, 1, vec![]),
        ("C", Outcome::Cut, 2, vec![told(&yes(WRITE), FULL)]),
    ];
    for (letter, outcome, rounds, counted) in ends {
        let fitting: String = LETTERS.chars().filter(|&letter| letter_fits(letter, &outcome, rounds, &counted)).collect();
        assert_eq!(fitting, letter, "{outcome:?} after {rounds} rounds, {counted:?}");
    }
}

/// A letter that is the next one in the list fits no end: each is noticed.
fn next_letters_are_noticed<R: Routines>(seeds: Range<u64>) {
    let mut noticed = 0;
    for seed in seeds {
        let world = some_run::<R>(seed, 5, 2, |faults, _| faults.broken = Break::NextLetter);
        let ended = world.operations.iter().filter(|o| o.ended.is_some()).count();
        assert_eq!(world.misled, ended, "{}", world.story(seed));
        assert_eq!(world.fault(), (ended > 0).then_some("a letter that doesn't fit"));
        noticed += ended;
    }
    println!("{noticed} letters noticed");
    assert!(noticed > 1000);
}

#[test]
fn wrong_letters_are_noticed() {
    next_letters_are_noticed::<Independent>(650_000..650_500);
}

/// A history of a stripe of two bytes made by hand: what it is, its block, its bytes, and the events at which it began and ended.
type Row = (&'static str, Option<usize>, &'static [u8], usize, usize);

fn orders(rows: &[Row]) -> bool {
    let operation = |&(what, block, bytes, began, ended): &Row| {
        let write = what.starts_with("write").then(|| bytes.to_vec());
        let end = match what {
            "write" => Some(End::Wrote),
            "write cut" => Some(End::Cut),
            "read" => Some(End::Gave(bytes.to_vec())),
            _ => None,
        };
        Operation { stripe: 0, block, write, began, ended: end.map(|end| (ended, end)) }
    };
    let operations: Vec<Operation> = rows.iter().map(operation).collect();
    let shape = Shape::new(2, 2, 1);
    let found = brute_order(&operations, shape);
    assert_eq!(found.is_some(), has_order(&operations, shape));
    assert!(found.as_ref().is_none_or(|list| is_order(&operations, list, shape)));
    found.is_some()
}

#[test]
fn histories_of_blocks() {
    let (zero, one) = (Some(0), Some(1));
    let write: Row = ("write", None, &[1, 2], 1, 2);
    // A write of block 1 sets that block alone, and a read of it gives it.
    assert!(orders(&[write, ("write", one, &[7], 3, 4), ("read", None, &[1, 7], 5, 6), ("read", one, &[7], 7, 8)]));
    assert!(!orders(&[write, ("write", one, &[7], 3, 4), ("read", None, &[1, 2], 5, 6)]));
    assert!(!orders(&[write, ("write", one, &[7], 3, 4), ("read", None, &[7, 2], 5, 6)]));
    assert!(!orders(&[write, ("write", one, &[7], 3, 4), ("read", None, &[0, 7], 5, 6)]));
    assert!(!orders(&[write, ("write", one, &[7], 3, 4), ("read", zero, &[7], 5, 6)]));
    assert!(orders(&[("write", one, &[7], 1, 2), ("read", zero, &[0], 3, 4), ("read", one, &[7], 5, 6)]));
    // Later writes of the stripe take its place, of another block they don't.
    assert!(orders(&[("write", one, &[7], 1, 2), ("write", None, &[1, 2], 3, 4), ("read", one, &[2], 5, 6)]));
    assert!(!orders(&[("write", one, &[7], 1, 2), ("write", None, &[1, 2], 3, 4), ("read", one, &[7], 5, 6)]));
    assert!(orders(&[("write", one, &[7], 1, 2), ("write", zero, &[8], 3, 4), ("read", None, &[8, 7], 5, 6)]));
    // A cut block write is there for good or away for good, also where reads of the stripe and of the block look in turn.
    assert!(orders(&[write, ("write cut", one, &[7], 3, 4), ("read", one, &[7], 5, 6), ("read", None, &[1, 7], 7, 8)]));
    assert!(orders(&[write, ("write cut", one, &[7], 3, 4), ("read", one, &[2], 5, 6), ("read", None, &[1, 2], 7, 8)]));
    assert!(!orders(&[write, ("write cut", one, &[7], 3, 4), ("read", one, &[2], 5, 6), ("read", None, &[1, 7], 7, 8)]));
    assert!(!orders(&[write, ("write cut", one, &[7], 3, 4), ("read", one, &[7], 5, 6), ("read", None, &[1, 2], 7, 8)]));
    // A cut write of the stripe of which one block was seen, the other being written over.
    let cut: Row = ("write cut", None, &[3, 4], 3, 4);
    assert!(orders(&[write, cut, ("write", one, &[7], 5, 6), ("read", None, &[3, 7], 7, 8)]));
    assert!(orders(&[write, cut, ("write", one, &[7], 5, 6), ("read", zero, &[3], 7, 8)]));
    assert!(!orders(&[write, cut, ("write", one, &[7], 5, 6), ("read", zero, &[1], 7, 8), ("read", None, &[3, 7], 9, 10)]));
    assert!(!orders(&[write, cut, ("read", zero, &[3], 5, 6), ("read", one, &[2], 7, 8)]));
    // Two block writes at once, seen in one order by all.
    let both: [Row; 2] = [("write", zero, &[5], 1, 20), ("write", one, &[6], 1, 20)];
    let seen = |first: &'static [u8], second: &'static [u8]| {
        orders(&[both[0], both[1], ("read", None, first, 2, 3), ("read", None, second, 4, 5)])
    };
    assert!(seen(&[5, 0], &[5, 6]) && seen(&[0, 6], &[5, 6]) && seen(&[0, 0], &[0, 6]));
    assert!(!seen(&[5, 0], &[0, 6]) && !seen(&[0, 6], &[5, 0]) && !seen(&[5, 6], &[5, 0]));
}

/// Four bricks, two of the data. A stripe and then its block 1 are written; a write that is ordered and cut makes the read after it
/// recover, from three bricks.
fn recovered_from_three<R: Routines>(broken: Break) -> World<R> {
    let faults = Faults { broken, ..Faults::none() };
    let mut world = World::<R>::new(Settings::new(4, 2, 1, 4, 1), vec![0], faults);
    world.start(0, 0, 1, Start::Write(vec![5, 9]));
    settle(&mut world, |_, _| true);
    world.start(0, 0, 2, Start::WriteBlock(1, vec![7]));
    settle(&mut world, |_, _| true);
    world.start(1, 0, 3, Start::Write(vec![1, 1]));
    settle(&mut world, |_, message| message.kind != WRITE);
    world.cut(1);
    world.start(2, 0, 4, Start::Read(0));
    settle(&mut world, |_, _| true);
    assert_eq!(ends(&world)[..3], [&End::Wrote, &End::Wrote, &End::Cut]);
    world
}

/// Document 02, E3: on the right set a recovery's blocks agree. Where Modify left the parity as it was, three blocks of one time aren't on
/// one line: the read is aborted and stores nothing.
fn disagreement_aborts<R: Routines>() {
    let right = recovered_from_three::<R>(Break::Nothing);
    assert_eq!((ends(&right)[3], right.disagreed), (&End::Gave(vec![5, 7]), 0));
    assert_eq!((right.fault(), rounds(&right, WRITE)), (None, 3));
    let wrong = recovered_from_three::<R>(Break::ParityStays);
    assert_eq!((ends(&wrong)[3], wrong.disagreed), (&End::Aborted, 1));
    assert_eq!([letters(&right), letters(&wrong)], ["SSCH", "SSCX"]);
    assert_eq!((wrong.fault(), rounds(&wrong, WRITE)), (Some("blocks of one time that disagree"), 2));
    // In random runs as well.
    let change = |faults: &mut Faults, settings: &mut Settings| {
        (faults.broken, faults.blocks, faults.down, faults.short) = (Break::ParityStays, 2, 0, 2);
        settings.shape = Shape { n: 7, m: 3, ..settings.shape };
    };
    let disagreed = (640_000..640_300).filter(|&seed| some_run::<R>(seed, 5, 2, change).disagreed > 0).count();
    println!("{disagreed} runs in which blocks disagree");
    assert!(disagreed > 20);
}

#[test]
fn blocks_that_disagree_abort_a_recovery() {
    disagreement_aborts::<Independent>();
}

#[test]
fn blocks_that_disagree_abort_a_recovery_of_the_proved_routines() {
    disagreement_aborts::<Proved>();
}

#[test]
fn small_runs_by_brute_force() {
    let mut tally = Tally::default();
    for seed in 600_000..604_000 {
        let world = some_run::<Independent>(seed, 5, 2, |faults, _| faults.blocks = 1 + seed % 2);
        let shape = world.settings.shape;
        for operations in by_stripe(&world.operations) {
            let Some(order) = brute_order(&operations, shape) else { panic!("{}", world.story(seed)) };
            assert!(is_order(&operations, &order, shape));
        }
        assert_eq!(world.fault(), None, "{}", world.story(seed));
        world.note(&mut tally);
    }
    println!("{:?}", tally.0);
    tally.expect(30, &OFTEN_OF_BLOCKS);
}

#[test]
fn broken_block_writes_are_noticed() {
    let [lookup, old, parity] = broken_block_runs::<Independent>(3000);
    println!("without an order, with blocks that disagree: lookups of blocks only {lookup:?}, any old time {old:?}, parity left {parity:?}");
    // A recovery finds most of the blocks that a Modify of any old time spoils, and aborts.
    assert!(lookup[0] > 50 && old[0] + old[1] > 2 && parity[0] > 50 && parity[1] > 50);
}
