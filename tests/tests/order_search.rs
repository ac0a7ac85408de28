//! Random runs of the proved bricks and coordinators, at general settings, each searched for an order as document 01 asks for, stripe by
//! stripe. At each event the images of the other stripes are compared, no two operations of a run have one time, and each end has the
//! letter that fits it.

use jilbagum_tests::brick::{ORDER_READ, READ, WRITE};
use jilbagum_tests::coordinator::Kind;
use jilbagum_tests::harness::{
    broken_block_runs, broken_runs, cut_short, some_run, Break, Faults, Independent, Proved, Sent, Start, World, OFTEN, OFTEN_OF_BLOCKS,
    OFTEN_OF_DROPS,
};
use jilbagum_tests::order::{brute_order, by_stripe, has_order, is_order, End, Operation};
use jilbagum_tests::image;
use jilbagum_tests::rng::Rng;
use jilbagum_tests::settings::{Settings, Shape};
use jilbagum_tests::tally::Tally;
use std::collections::HashSet;

#[test]
fn small_runs_by_brute_force() {
    let mut tally = Tally::default();
    for seed in 100_000..125_000 {
        let world = some_run::<Proved>(seed, 5, 2, |_, _| ());
        let shape = world.settings.shape;
        for operations in by_stripe(&world.operations) {
            assert!(operations.len() <= 7);
            let Some(order) = brute_order(&operations, shape) else { panic!("{}", world.story(seed)) };
            assert!(is_order(&operations, &order, shape));
        }
        assert_eq!(world.fault(), None, "{}", world.story(seed));
        world.note(&mut tally);
    }
    println!("{:?}", tally.0);
    tally.expect(150, &OFTEN);
    tally.expect(100, &OFTEN_OF_BLOCKS);
    tally.expect(20, &["read running", "write running"]);
    tally.expect(1000, &["crash with other bytes in the buffers", "run on 3 or more stripes"]);
}

#[test]
fn longer_runs() {
    let mut tally = Tally::default();
    for seed in 200_000..208_000 {
        let world = some_run::<Proved>(seed, 22, 2, |_, _| ());
        assert_eq!(world.fault(), None, "{}", world.story(seed));
        world.note(&mut tally);
    }
    println!("{:?}", tally.0);
    tally.expect(100, &OFTEN);
    tally.expect(100, &OFTEN_OF_BLOCKS);
    tally.expect(100, &["run with 3 or more at once", "run with 8 or more at once", "run of 10 to 16 bricks", "run with m above 1"]);
    tally.expect(100, &["run of 64 stripes"]);
    tally.expect(1000, &["crash with other bytes in the buffers", "run on 3 or more stripes", "run with 5 or more on each of two stripes"]);
}

/// What was sent, the targets of a Read by number, as flags give them.
fn by_number(sent: &Sent) -> Sent {
    let mut sent = sent.clone();
    if let Sent::To(_, message) = &mut sent {
        message.targets.sort_unstable();
    }
    sent
}

/// The same run with the independent routines: message by message, reply by reply, and image by image, it is one and the same.
#[test]
fn runs_are_those_of_the_independent_routines() {
    let mut tally = Tally::default();
    for seed in 210_000..214_000 {
        // No bytes of lent buffers, which the independent coordinators don't have. In every other run Drops go about.
        let whole = |faults: &mut Faults, settings: &mut Settings| {
            faults.buffers = 0;
            if seed % 2 == 0 {
                cut_short(faults, settings);
            }
        };
        let (ours, theirs) = (some_run::<Proved>(seed, 12, 2, whole), some_run::<Independent>(seed, 12, 2, whole));
        let first = ours.sent.iter().zip(&theirs.sent).find(|(ours, theirs)| **ours != by_number(theirs));
        assert_eq!(first, None, "{}", ours.story(seed));
        assert_eq!(ours.sent.len(), theirs.sent.len(), "{}", ours.story(seed));
        assert!(ours.images == theirs.images, "{}", ours.story(seed));
        assert_eq!((&ours.operations, &ours.noted), (&theirs.operations, &theirs.noted), "{}", ours.story(seed));
        ours.note(&mut tally);
    }
    tally.expect(30, &OFTEN_OF_BLOCKS);
    tally.expect(5, &OFTEN_OF_DROPS);
    tally.expect(1000, &["a Drop reached a brick", "a Drop took an entry", "an early Trim freed entries"]);
    tally.expect(100, &["written", "read recovered", "run with m above 1", "run on 3 or more stripes"]);
}

/// Runs of the proved routines on a set that breaks a rule.
fn broken(seeds: std::ops::Range<u64>, most: usize, change: impl Fn(&mut Faults, &mut Settings)) -> [usize; 4] {
    broken_runs::<Proved>(seeds, most, change)
}

#[test]
fn broken_sets_are_noticed() {
    let forget = broken(300_000..301_000, 5, |faults, _| (faults.broken, faults.down) = (Break::BricksForget, 10));
    let clocks = broken(310_000..312_000, 5, |faults, _| (faults.broken, faults.coordinators, faults.short) = (Break::ClocksForget, 1, 2));
    let hollow = broken(320_000..321_000, 5, |faults, _| faults.broken = Break::Hollow);
    let no_write_back = broken(330_000..332_000, 5, |faults, _| (faults.broken, faults.short, faults.down) = (Break::NoWriteBack, 2, 20));
    println!(
        "without an order: forgetful bricks {}, forgetful clocks {}, hollow writes {}, no write back {}",
        forget[0], clocks[0], hollow[0], no_write_back[0]
    );
    println!("with blocks that disagree: {} {} {} {}", forget[3], clocks[3], hollow[3], no_write_back[3]);
    // Two writes of one time may leave blocks of both: a recovery notices these.
    assert!(forget[0] > 20 && clocks[0] + clocks[3] > 5 && hollow[0] > 20 && no_write_back[0] > 20);
}

/// The same of sets that break a rule of operations on one block.
#[test]
fn broken_block_writes_are_noticed() {
    let [lookup, old, parity] = broken_block_runs::<Proved>(3000);
    println!("without an order, with blocks that disagree: lookups of blocks only {lookup:?}, any old time {old:?}, parity left {parity:?}");
    // A recovery finds most of the blocks that a Modify of any old time spoils, and aborts.
    assert!(lookup[0] > 50 && old[0] + old[1] > 2 && parity[0] > 50 && parity[1] > 50);
}

/// The same of sets that mix up stripes: one image for all, a clock for each, and, with such clocks, replies counted whatever their stripe.
#[test]
fn sets_that_mix_up_stripes_are_noticed() {
    let [no_order, strayed, shared, _] = broken(340_000..340_500, 5, |faults, _| faults.broken = Break::OneImage);
    println!("one image for all stripes: {no_order} without an order, {strayed} that changed another's image");
    assert!(no_order > 50 && strayed > 100 && shared == 0);
    let own_clocks = |faults: &mut Faults, broken: Break| (faults.broken, faults.coordinators, faults.rising) = (broken, 1, false);
    // Each stripe is still in order, since a reply of another stripe isn't counted.
    let [no_order, strayed, shared, _] = broken(350_000..350_500, 5, |faults, _| own_clocks(faults, Break::ClockEach));
    println!("a clock for each stripe: {shared} with two operations of one time");
    assert!(no_order == 0 && strayed == 0 && shared > 100);
    let [no_order, strayed, shared, _] = broken(360_000..360_600, 20, |faults, _| {
        own_clocks(faults, Break::AnyStripe);
        (faults.again, faults.lost) = (1, 15);
    });
    println!("replies of any stripe: {no_order} without an order, {shared} with two operations of one time");
    assert!(no_order > 5 && strayed == 0 && shared > 100);
}

/// A history made by hand: a write's bytes or what a read gave, and the events at which it began and ended.
fn history(rows: &[(&str, u8, usize, usize)]) -> Vec<Operation> {
    let operation = |&(what, byte, began, ended): &(&str, u8, usize, usize)| {
        let write = what.starts_with("write").then(|| vec![byte]);
        let end = match what {
            "write" => Some(End::Wrote),
            "write aborted" => Some(End::Aborted),
            "write cut" | "read cut" => Some(End::Cut),
            "read" => Some(End::Gave(vec![byte])),
            _ => None,
        };
        Operation { stripe: 0, block: None, write, began, ended: end.map(|end| (ended, end)) }
    };
    rows.iter().map(operation).collect()
}

/// A stripe of one byte.
const BYTE: Shape = Shape { n: 1, m: 1, size: 1 };

fn orders(rows: &[(&str, u8, usize, usize)]) -> bool {
    let operations = history(rows);
    let found = brute_order(&operations, BYTE);
    assert_eq!(found.is_some(), has_order(&operations, BYTE));
    assert!(found.as_ref().is_none_or(|list| is_order(&operations, list, BYTE)));
    found.is_some()
}

#[test]
fn histories_without_an_order() {
    // The new value is seen, and later the old one.
    assert!(!orders(&[("write", 1, 1, 2), ("write cut", 2, 3, 4), ("read", 2, 5, 6), ("read", 1, 7, 8)]));
    assert!(orders(&[("write", 1, 1, 2), ("write cut", 2, 3, 4), ("read", 2, 5, 6), ("read", 2, 7, 8)]));
    assert!(orders(&[("write", 1, 1, 2), ("write cut", 2, 3, 4), ("read", 1, 5, 6), ("read", 1, 7, 8)]));
    // A cut write that is there for good, or away for good.
    assert!(orders(&[("write cut", 2, 1, 2), ("read", 2, 3, 4), ("read", 2, 5, 6)]));
    assert!(orders(&[("write cut", 2, 1, 2), ("read", 0, 3, 4), ("read", 0, 5, 6)]));
    // A cut write that stayed away and turns up later; one that still runs may.
    assert!(!orders(&[("write cut", 2, 1, 2), ("read", 0, 3, 4), ("read", 2, 5, 6)]));
    assert!(!orders(&[("write aborted", 2, 1, 2), ("read", 0, 3, 4), ("read", 2, 5, 6)]));
    assert!(orders(&[("write running", 2, 1, 0), ("read", 0, 3, 4), ("read", 2, 5, 6)]));
    assert!(orders(&[("write", 2, 1, 9), ("read", 0, 3, 4), ("read", 2, 5, 6)]));
    assert!(!orders(&[("write", 2, 1, 9), ("read", 2, 3, 4), ("read", 0, 5, 6)]));
    // A finished write that isn't there; bytes that nobody wrote; bytes of a later write.
    assert!(!orders(&[("write", 1, 1, 2), ("read", 0, 3, 4)]));
    assert!(!orders(&[("read", 7, 1, 2)]));
    assert!(!orders(&[("read", 7, 1, 2), ("write", 7, 3, 4)]));
    assert!(orders(&[("read", 7, 1, 4), ("write", 7, 3, 5)]));
    // Two writes at once, seen in two orders.
    assert!(!orders(&[("write", 1, 1, 9), ("write", 2, 1, 9), ("read", 1, 2, 3), ("read", 2, 4, 5), ("read", 1, 6, 7)]));
    assert!(orders(&[("write", 1, 1, 9), ("write", 2, 1, 9), ("read", 1, 2, 3), ("read", 2, 4, 5), ("read", 2, 6, 7)]));
    // An end at the very event of a start isn't earlier.
    assert!(orders(&[("read", 1, 1, 3), ("write", 1, 3, 4)]));
    assert!(orders(&[]) && orders(&[("read cut", 9, 1, 2)]));
}

/// A read of one stripe that gave what another's write wrote: the whole history has an order, its stripes have none.
#[test]
fn histories_are_searched_stripe_by_stripe() {
    let both = |first: u64, second: u64| {
        let mut operations = history(&[("write", 1, 1, 2), ("read", 1, 3, 4)]);
        (operations[0].stripe, operations[1].stripe) = (first, second);
        assert!(has_order(&operations, BYTE));
        by_stripe(&operations).iter().all(|operations| has_order(operations, BYTE))
    };
    assert!(both(0, 0) && both(63, 63));
    assert!(!both(0, 1) && !both(1, 0));
}

/// One read's bytes changed to another value of its stripe's history: mostly no order is left.
#[test]
fn changed_reads_are_noticed() {
    let (mut changed, mut without) = (0, 0);
    for seed in 500_000..502_500 {
        let world = some_run::<Proved>(seed, 5, 2, |_, _| ());
        for mut operations in by_stripe(&world.operations) {
            let last = operations.iter().rposition(|o| o.gave().is_some());
            let Some(last) = last else { continue };
            // Of the same block, or of the whole stripe.
            let alike = operations.iter().filter(|o| o.finished() && o.block == operations[last].block);
            let values: Vec<Vec<u8>> = alike.filter_map(|o| o.write.clone()).collect();
            let Some(value) = values.first() else { continue };
            if operations[last].gave() == Some(value) {
                continue;
            }
            let ended = operations[last].ended.as_ref().map(|(event, _)| (*event, End::Gave(value.clone())));
            operations[last].ended = ended;
            changed += 1;
            without += usize::from(brute_order(&operations, world.settings.shape).is_none());
        }
    }
    println!("{without} of {changed} changed histories without an order");
    assert!(changed > 100 && 10 * without > 8 * changed);
}

/// Kinds as the lent answers have them.
#[test]
fn a_run_by_hand() {
    let mut world = World::<Proved>::new(Settings::new(5, 3, 2, 4, 1), vec![0], Faults::none());
    let mut rng = Rng::new(1);
    for kind in [Kind::Write, Kind::Read] {
        world.start_some(3, 0, kind, &mut rng);
        while !world.fresh.is_empty() {
            let which = world.fresh.remove(0);
            world.arrive(which);
        }
    }
    let [write, read] = &world.operations[..] else { panic!("two operations") };
    assert_eq!(read.gave(), write.write.as_deref());
    let [write, read] = &world.noted[..] else { panic!("two operations") };
    assert_eq!((write.stored, write.round, read.round), (5, 2, 1));
    let kinds: HashSet<u8> = world.sent.iter().map(|sent| if let Sent::To(_, message) = sent { message.kind } else { 0 }).collect();
    assert!(kinds.contains(&READ) && kinds.contains(&WRITE) && !kinds.contains(&ORDER_READ));
}

/// One coordinator and three stripes: each read gives what was written to its own stripe, times rise over all of them, and a start on
/// another stripe is refused while an operation runs.
#[test]
fn stripes_by_hand() {
    let settings = Settings::new(5, 3, 1, 4, 3);
    let mut world = World::<Proved>::new(settings, vec![0, 1, 2], Faults::none());
    let arrive = |world: &mut World<Proved>| {
        while !world.fresh.is_empty() {
            let which = world.fresh.remove(0);
            world.arrive(which);
        }
    };
    for stripe in [2, 0] {
        world.start(3, stripe, 0, Start::Write(vec![stripe as u8 + 1; 3]));
        world.start(3, 1, 0, Start::Read(0));
        arrive(&mut world);
    }
    for stripe in 0..3 {
        world.start(3, stripe, 0, Start::Read(1));
        arrive(&mut world);
    }
    let times: Vec<u64> = world.noted.iter().map(|noted| noted.time).collect();
    assert_eq!(times, [19, 35, 51, 67, 83]);
    let gave: Vec<&[u8]> = world.operations.iter().filter_map(Operation::gave).collect();
    assert_eq!(gave, [[1; 3], [0; 3], [3; 3]]);
    assert_eq!(world.fault(), None);
    // The images of stripe 1 are those of a fresh brick: reads of one round changed nothing.
    let length = world.images[0].len() / 3;
    for (brick, row) in world.images.iter().enumerate() {
        assert_eq!(row[length..2 * length], image::fresh(settings, brick as u64).unwrap());
        assert!(row[..length] != row[length..2 * length] && row[..length] != row[2 * length..]);
    }
}
