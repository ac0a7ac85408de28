//! Drops and early Trims in the order of operations: schedules played by hand, and random runs with cut writes and short logs, of the
//! independent bricks and coordinators and of the proved ones.

use jilbagum_tests::brick::{DROP, MODIFY, ORDER, ORDER_READ, TRIM, WRITE};
use jilbagum_tests::harness::{
    broken_drop_runs, cut_short, ends, letters, rounds, settle, some_run, Break, Faults, Independent, Proved, Routines, Sent, Start, World,
    OFTEN, OFTEN_OF_BLOCKS, OFTEN_OF_DROPS,
};
use jilbagum_tests::order::{brute_order, by_stripe, is_order, End};
use jilbagum_tests::settings::Settings;
use jilbagum_tests::tally::Tally;
use std::ops::Range;

/// The place of the last message of a kind and time that was sent to a brick.
fn sent<R: Routines>(world: &World<R>, kind: u8, time: u64, to: usize) -> usize {
    let wanted = |sent: &Sent| matches!(sent, Sent::To(brick, message) if (*brick, message.kind, message.time) == (to, kind, time));
    world.sent.iter().rposition(wanted).expect("such a message")
}

/// These messages arrive, at some bricks.
fn arrive<R: Routines>(world: &mut World<R>, kind: u8, time: u64, bricks: &[usize]) {
    for &brick in bricks {
        world.arrive(sent(world, kind, time, brick));
    }
}

/// The times in a brick's log of the only stripe.
fn times<R: Routines>(world: &World<R>, brick: usize) -> Vec<u64> {
    world.state(brick, 0).log.iter().map(|entry| entry.time).collect()
}

/// Two bricks, both of the data, with logs of so many entries: a quorum is both.
fn two_bricks<R: Routines>(capacity: u64, broken: Break) -> World<R> {
    let faults = Faults { broken, ..Faults::none() };
    World::new(Settings::new(2, 2, 1, capacity, 1), vec![0], faults)
}

/// Writes that are cut after one brick stored them fill its log of two entries. Without Drops nothing is stored again; with them the next
/// read clears it and stores what it found.
fn full_logs_are_cleared<R: Routines>() {
    for (drops, letter, gave) in [(true, 'L', End::Gave(vec![0, 0])), (false, 'G', End::Aborted)] {
        let mut world = two_bricks::<R>(2, Break::Nothing);
        world.start(0, 0, 1, Start::Write(vec![3, 4]));
        settle(&mut world, |brick, message| message.kind == ORDER || brick == 0);
        world.cut(0);
        assert_eq!([0, 1].map(|brick| times(&world, brick)), [vec![0, 16], vec![0]]);
        world.start(1, 0, 2, Start::Read(0));
        settle(&mut world, |_, message| message.kind != TRIM && (drops || message.kind != DROP));
        assert_eq!(ends(&world), [&End::Cut, &gave]);
        assert_eq!((&letters(&world)[1..], rounds(&world, DROP)), (&letter.to_string()[..], 1));
        let first = if drops { vec![0, 33] } else { vec![0, 16] };
        assert_eq!([0, 1].map(|brick| times(&world, brick)), [first, vec![0, 33]]);
        assert_eq!(world.fault(), None);
    }
}

/// Logs whose Trims were lost are full: the early Trim of a recovery makes room for its store, and without it the store is told no.
fn lost_trims_are_made_up_for<R: Routines>() {
    for (early, letter, gave) in [(true, 'H', End::Gave(vec![3, 4])), (false, 'G', End::Aborted)] {
        let mut world = two_bricks::<R>(2, Break::Nothing);
        world.start(0, 0, 1, Start::Write(vec![3, 4]));
        settle(&mut world, |_, message| message.kind != TRIM);
        world.start(0, 0, 2, Start::Write(vec![5, 6]));
        settle(&mut world, |_, message| message.kind == ORDER);
        world.cut(0);
        world.start(1, 0, 3, Start::Read(0));
        settle(&mut world, |_, message| message.kind != TRIM || early);
        assert_eq!(ends(&world), [&End::Wrote, &End::Cut, &gave]);
        assert_eq!(&letters(&world)[2..], letter.to_string());
        // The store's own Trim follows where it is finished.
        assert_eq!(rounds(&world, TRIM), if early { 3 } else { 2 });
        assert_eq!(world.fault(), None);
    }
}

/// A store is ordered, its Writes are under way; a read recovers below a cut write and its Drops arrive. The promise remains, so the Writes
/// come too late. Where a Drop takes the promise back they are taken, the read stores over them, and a finished write is gone.
fn the_promise_remains<R: Routines>() {
    for broken in [Break::Nothing, Break::DropsPromise] {
        let mut world = two_bricks::<R>(4, broken);
        world.start(0, 0, 1, Start::Write(vec![1, 2]));
        settle(&mut world, |_, _| true);
        world.start(1, 0, 2, Start::Write(vec![3, 4]));
        settle(&mut world, |brick, message| message.kind == ORDER || brick == 0);
        world.cut(1);
        world.start(2, 0, 3, Start::Write(vec![5, 6]));
        settle(&mut world, |_, message| message.kind == ORDER);
        world.start(3, 0, 4, Start::Read(0));
        settle(&mut world, |_, message| message.kind != WRITE && message.kind != DROP);
        assert_eq!((rounds(&world, DROP), rounds(&world, ORDER_READ)), (1, 2));
        for (kind, time) in [(DROP, 33), (WRITE, 50), (WRITE, 67)] {
            arrive(&mut world, kind, time, &[0, 1]);
            settle(&mut world, |_, _| true);
        }
        world.start(0, 0, 5, Start::Read(1));
        settle(&mut world, |_, _| true);
        let overtaken = if broken == Break::Nothing { End::Aborted } else { End::Wrote };
        let old = End::Gave(vec![1, 2]);
        assert_eq!(ends(&world), [&End::Wrote, &End::Cut, &overtaken, &old, &old]);
        assert_eq!(world.fault(), (broken != Break::Nothing).then_some("no order"));
    }
}

/// A recovery is cut after its early Trims, before its store: what it found is still there. Taken as Drops they would take it away.
fn an_early_trim_keeps_the_chosen_time<R: Routines>() {
    for (broken, found) in [(Break::Nothing, vec![1, 2]), (Break::DropsChosen, vec![0, 0])] {
        let mut world = two_bricks::<R>(4, broken);
        world.start(0, 0, 1, Start::Write(vec![1, 2]));
        settle(&mut world, |_, message| message.kind != TRIM);
        world.start(1, 0, 2, Start::Write(vec![3, 4]));
        settle(&mut world, |_, message| message.kind == ORDER);
        world.cut(1);
        world.start(2, 0, 3, Start::Read(0));
        settle(&mut world, |_, message| message.kind != WRITE);
        world.cut(2);
        world.start(3, 0, 4, Start::Read(0));
        settle(&mut world, |_, _| true);
        assert_eq!(ends(&world)[3], &End::Gave(found));
        assert_eq!(world.fault(), (broken != Break::Nothing).then_some("no order"));
    }
}

/// Four bricks, two of the data. A write is cut that brick 3 alone stored; a read of bricks 0 to 2 doesn't meet it, one of bricks 1 to 3
/// does and drops it. Its Drop reaches brick 3 ahead of everything else of that read: newest falls, and the late Write is stored again.
/// The read goes on by its quorum, and whoever reads later finds what it found.
fn a_dropped_time_is_stored_again<R: Routines>() {
    let mut world = World::<R>::new(Settings::new(4, 2, 1, 3, 1), vec![0], Faults::none());
    world.start(0, 0, 1, Start::Write(vec![1, 2]));
    settle(&mut world, |_, _| true);
    world.start(1, 0, 2, Start::Write(vec![3, 4]));
    settle(&mut world, |brick, message| message.kind == ORDER || brick >= 2);
    world.cut(1);
    assert_eq!([0, 1, 2, 3].map(|brick| times(&world, brick)), [vec![16], vec![16], vec![16, 33], vec![16, 33]]);
    // Bricks 0 to 2 answer: time 33 is on one of them. Brick 3 gets the Drops alone.
    world.start(2, 0, 3, Start::Read(0));
    settle(&mut world, |brick, message| brick < 3 && message.kind != WRITE || message.kind == DROP);
    assert_eq!([2, 3].map(|brick| (times(&world, brick), world.state(brick, 0).promise)), [(vec![16], 50), (vec![16], 33)]);
    arrive(&mut world, WRITE, 33, &[0, 1, 2, 3]);
    assert_eq!([2, 3].map(|brick| times(&world, brick)), [vec![16], vec![16, 33]]);
    // The read's store at bricks 0 to 2 ends it; the next read meets 33 on brick 3 again.
    arrive(&mut world, WRITE, 50, &[0, 1, 2]);
    settle(&mut world, |brick, _| brick < 3);
    world.start(3, 0, 4, Start::Read(2));
    settle(&mut world, |_, _| true);
    let found = End::Gave(vec![1, 2]);
    assert_eq!(ends(&world), [&End::Wrote, &End::Cut, &found, &found]);
    assert_eq!(world.fault(), None);
}

/// A late Drop finds the time gone, or above it others: nothing but its own entry goes, and twice is as once.
fn late_drops_take_their_own_entry<R: Routines>() {
    let mut world = two_bricks::<R>(4, Break::Nothing);
    world.start(0, 0, 1, Start::Write(vec![1, 2]));
    settle(&mut world, |brick, message| message.kind == ORDER || brick == 0);
    world.cut(0);
    world.start(1, 0, 2, Start::Read(0));
    settle(&mut world, |_, message| ![DROP, TRIM].contains(&message.kind));
    world.start(2, 0, 3, Start::Write(vec![5, 6]));
    settle(&mut world, |_, message| message.kind != TRIM);
    assert_eq!(times(&world, 0), [0, 16, 33, 50]);
    for _ in 0..2 {
        arrive(&mut world, DROP, 16, &[0, 1]);
        assert_eq!([0, 1].map(|brick| times(&world, brick)), [[0, 33, 50]; 2]);
    }
    world.start(3, 0, 4, Start::Read(1));
    settle(&mut world, |_, _| true);
    assert_eq!(ends(&world), [&End::Cut, &End::Gave(vec![0, 0]), &End::Wrote, &End::Gave(vec![5, 6])]);
    assert_eq!(world.fault(), None);
}

/// Six bricks, two of the data. Time 16 is on bricks 0 to 3; a cut write of block 1 left 33 on bricks 0, as a mark over 16, and 1. The
/// read's recovery meets 33 on one of four bricks, its Drops being late, and looks below it: bricks 4 and 5 have time 0. Meanwhile a write
/// finishes on bricks 2 to 5, and its Trim leaves 33 alone on brick 1. So time 16 is on brick 0 only, and is dropped: the mark above it
/// becomes the block.
fn a_drop_under_a_mark<R: Routines>() {
    let mut world = World::<R>::new(Settings::new(6, 2, 1, 4, 1), vec![0], Faults::none());
    world.start(0, 0, 1, Start::Write(vec![1, 2]));
    settle(&mut world, |brick, message| message.kind == ORDER || message.kind == WRITE && brick < 4);
    world.start(1, 0, 2, Start::WriteBlock(1, vec![7]));
    settle(&mut world, |brick, message| brick < if message.kind == MODIFY { 2 } else { 4 });
    world.cut(1);
    world.start(2, 0, 3, Start::Read(0));
    let reaches = |round: u64, brick: usize| if round < 3 { [1, 2, 3, 5].contains(&brick) } else { brick >= 4 };
    settle(&mut world, |brick, message| message.kind != DROP && reaches(message.round, brick));
    world.start(3, 0, 4, Start::Write(vec![5, 6]));
    settle(&mut world, |brick, message| brick >= 2 || message.kind == TRIM && brick == 1);
    assert_eq!([0, 1].map(|brick| times(&world, brick)), [vec![0, 16, 33], vec![33]]);
    assert_eq!(world.state(0, 0).log[2].block, None);
    arrive(&mut world, ORDER_READ, 50, &[0, 1]);
    settle(&mut world, |_, message| message.kind == DROP);
    assert_eq!((rounds(&world, DROP), times(&world, 0)), (2, vec![0, 33]));
    assert_eq!(world.state(0, 0).log[1].block, Some(vec![1]));
    // The Drop of 33 comes last; brick 1 has no other entry.
    arrive(&mut world, DROP, 33, &[0, 1]);
    assert_eq!([0, 1].map(|brick| times(&world, brick)), [vec![0], vec![33]]);
    world.cut(2);
    world.start(0, 0, 9, Start::Read(0));
    settle(&mut world, |_, _| true);
    assert_eq!(ends(&world), [&End::Wrote, &End::Cut, &End::Cut, &End::Wrote, &End::Gave(vec![5, 6])]);
    assert_eq!(world.fault(), None);
}

fn by_hand<R: Routines>() {
    full_logs_are_cleared::<R>();
    lost_trims_are_made_up_for::<R>();
    the_promise_remains::<R>();
    an_early_trim_keeps_the_chosen_time::<R>();
    a_dropped_time_is_stored_again::<R>();
    late_drops_take_their_own_entry::<R>();
    a_drop_under_a_mark::<R>();
}

#[test]
fn schedules_by_hand() {
    by_hand::<Independent>();
}

#[test]
fn schedules_by_hand_of_the_proved_routines() {
    by_hand::<Proved>();
}

/// Runs of up to so many operations where Drops go about: most stores are cut, logs are short, and Drops and early Trims come late, again,
/// never, or after the crash of their coordinator. One order is found each time; short ones are searched by brute force as well.
fn cut_short_runs<R: Routines>(seeds: Range<u64>, most: usize) -> Tally {
    let mut tally = Tally::default();
    for seed in seeds {
        let world = some_run::<R>(seed, most, 3, cut_short);
        assert_eq!(world.fault(), None, "{}", world.story(seed));
        for operations in by_stripe(&world.operations).iter().filter(|operations| operations.len() <= 6) {
            let shape = world.settings.shape;
            let order = brute_order(operations, shape).unwrap_or_else(|| panic!("{}", world.story(seed)));
            assert!(is_order(operations, &order, shape));
        }
        world.note(&mut tally);
    }
    println!("{:?}", tally.0);
    tally
}

#[test]
fn short_runs_have_an_order() {
    let tally = cut_short_runs::<Independent>(410_000..414_000, 5);
    tally.expect(15, &OFTEN_OF_DROPS);
}

#[test]
fn longer_runs_have_an_order() {
    let tally = cut_short_runs::<Independent>(420_000..426_000, 16);
    tally.expect(50, &OFTEN);
    tally.expect(50, &OFTEN_OF_BLOCKS);
    tally.expect(50, &OFTEN_OF_DROPS);
}

#[test]
fn runs_of_the_proved_routines_have_an_order() {
    let tally = cut_short_runs::<Proved>(430_000..434_000, 16);
    tally.expect(25, &OFTEN);
    tally.expect(25, &OFTEN_OF_BLOCKS);
    tally.expect(25, &OFTEN_OF_DROPS);
}

/// A set in which Drops take the newest entry, or early Trims the chosen time.
fn broken_drops_are_seen<R: Routines>() {
    let [newest, chosen] = broken_drop_runs::<R>(3000);
    println!("without an order: Drops of the newest entry {newest}, of the chosen time {chosen}");
    assert!(newest > 5 && chosen > 20);
}

#[test]
fn broken_drops_are_noticed() {
    broken_drops_are_seen::<Independent>();
}

#[test]
fn broken_drops_of_the_proved_routines_are_noticed() {
    broken_drops_are_seen::<Proved>();
}
