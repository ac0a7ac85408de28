//! The brick and the coordinator written by hand, which the benchmarks measure against, do what the independent ones do.

use jilbagum_tests::brick::{self, clears, DROP, FULL, MODIFY, NEWER, NONE, ORDER, ORDER_BLOCK, ORDER_READ, PROMISE, READ, TRIM, WRITE};
use jilbagum_tests::coordinator::{self, Outcome, Record, Step};
use jilbagum_tests::fixtures::{alter, enough_blocks, may_say};
use jilbagum_tests::image;
use jilbagum_tests::inplace::Brick;
use jilbagum_tests::inplace_coordinator::{Act, Coordinator, Message, Reply};
use jilbagum_tests::rng::Rng;
use jilbagum_tests::settings::{Settings, Volume, NO_UPPER_END};
use jilbagum_tests::tally::Tally;

fn some_settings(rng: &mut Rng) -> Settings {
    let (n, m) = [(1, 1), (3, 1), (4, 2), (5, 3), (7, 5), (16, 8), (3, 3)][rng.below(7) as usize];
    Settings::new(n, m, [1, 3, 256][rng.below(3) as usize], rng.between(2, 6), 2)
}

fn by_hand(settings: Settings, brick: u64, wide: bool) -> Brick {
    let shape = settings.shape;
    Brick::new((shape.n as usize, shape.m as usize, shape.size as usize), settings.capacity as usize, brick as usize, wide)
}

/// What a brick by hand answers: the comparison that said no, the time, the block.
fn answer(hand: &Brick, brick: u64, image: &mut [u8], message: &brick::Message, size: usize) -> Option<(u8, u64, Option<Vec<u8>>)> {
    let brick::Message { kind, time, max, number, old_time, ref block, ref old_block, .. } = *message;
    let mut out = vec![0; size];
    let own = number == brick;
    let (said, found, held) = match kind {
        READ => {
            let target = message.targets.iter().any(|&target| u64::from(target) == brick);
            let (said, found) = hand.read(image, target, &mut out);
            (said, found, said == NONE && target)
        }
        ORDER => (hand.order(image, time), 0, false),
        ORDER_READ => hand.order_read(image, time, max, &mut out),
        ORDER_BLOCK => {
            let (said, found) = hand.order_block(image, time, number as usize, &mut out);
            (said, found, said == NONE && own)
        }
        WRITE => (hand.write(image, time, block), 0, false),
        MODIFY => (hand.modify(image, time, old_time, number as usize, old_block, block), 0, false),
        TRIM => {
            hand.trim(image, time);
            return None;
        }
        _ => {
            hand.drop_entry(image, time);
            return None;
        }
    };
    Some((said, found, held.then_some(out)))
}

fn some_message(rng: &mut Rng, settings: Settings, state: &image::State) -> brick::Message {
    let shape = settings.shape;
    let ahead = state.promise.max(state.newest() + 1).max(16);
    let targets = if rng.once_in(3) { vec![rng.below(shape.m) as u8] } else { (0..shape.m as u8).collect() };
    let kind = 1 + rng.below(u64::from(DROP)) as u8;
    let held = state.log[rng.below(state.log.len() as u64) as usize].time;
    let time = match rng.below(4) {
        0 => 16 + rng.below(ahead),
        // A Drop has no time 0.
        _ if kind == DROP && held > 0 => held,
        _ => ahead + rng.below(20),
    };
    brick::Message {
        targets,
        max: if rng.once_in(2) { NO_UPPER_END } else { rng.below(ahead + 40) },
        number: rng.below(shape.m),
        old_time: if rng.once_in(8) { 16 } else { state.newest() },
        block: rng.bytes(shape.size as usize),
        old_block: rng.bytes(shape.size as usize),
        ..brick::Message::plain(kind, time, 1)
    }
}

#[test]
fn bricks() {
    let mut rng = Rng::printed(41);
    let mut tally = Tally::default();
    for run in 0..400 {
        let settings = some_settings(&mut rng);
        let brick = rng.below(settings.shape.n);
        let hand = by_hand(settings, brick, run % 2 == 0);
        let mut image = image::fresh(settings, brick).unwrap();
        let mut fresh = vec![0; image.len()];
        hand.fresh(&mut fresh);
        assert_eq!(fresh, image);
        for _ in 0..60 {
            let state = image::parse(settings, brick, &image).unwrap();
            let message = some_message(&mut rng, settings, &state);
            let mut other = image.clone();
            let reply = brick::take(settings, brick, &mut image, &message).unwrap();
            let theirs = answer(&hand, brick, &mut other, &message, settings.shape.size as usize);
            assert_eq!(reply.map(|r| (r.comparison, r.found, r.block)), theirs, "{settings:?} {brick} {message:?}");
            assert!(image == other, "{settings:?} {brick} {message:?}");
            tally.add(format!("kind {}, {:?}", message.kind, theirs.map(|(said, ..)| said)), 1);
            tally.add("marks", image::marks(&image).len());
            if message.kind == DROP {
                let marks = |image: &image::State| image.log.iter().filter(|entry| entry.block.is_none()).count();
                let after = image::parse(settings, brick, &image).unwrap();
                let mark = state.log.iter().any(|entry| entry.time == message.time && entry.block.is_none());
                tally.add("dropped", usize::from(after.log.len() < state.log.len()));
                tally.add("only entry kept", usize::from(after.log.len() == 1 && after.newest() == message.time));
                tally.add("dropped mark", usize::from(mark));
                tally.add("mark made its block", usize::from(!mark && marks(&after) < marks(&state)));
            }
        }
    }
    println!("{:?}", tally.0);
    for kind in READ..TRIM {
        for said in [NONE, NEWER, PROMISE, FULL] {
            if said == NONE || may_say(kind, said) {
                tally.expect(50, &[&format!("kind {kind}, Some({said})")]);
            }
        }
    }
    tally.expect(500, &["kind 7, None", "kind 8, None", "marks", "dropped"]);
    tally.expect(50, &["only entry kept", "dropped mark", "mark made its block"]);
}

/// Images that the independent brick refuses, by check or by rule, don't open by hand, and those that it opens do.
#[test]
fn damaged_images() {
    let mut rng = Rng::printed(42);
    let mut opened = [0; 2];
    for _ in 0..4000 {
        let settings = some_settings(&mut rng);
        let brick = rng.below(settings.shape.n);
        let mut image = image::fresh(settings, brick).unwrap();
        for _ in 0..rng.below(6) {
            let state = image::parse(settings, brick, &image).unwrap();
            brick::take(settings, brick, &mut image, &some_message(&mut rng, settings, &state)).unwrap();
        }
        let block = rng.below(settings.capacity + 1) as usize * image::BLOCK;
        let within = if rng.once_in(2) { 16 } else { 500 };
        let at = block + 2 + rng.below(within) as usize;
        image[at] = if rng.once_in(2) { rng.byte() } else { image[at] ^ 1 };
        if !rng.once_in(4) {
            let sum = image::check(&image[block..block + image::BLOCK]);
            image[block..block + 2].copy_from_slice(&sum.to_le_bytes());
        }
        let fits = image::parse(settings, brick, &image).is_ok();
        assert_eq!(by_hand(settings, brick, rng.once_in(2)).open(&image).is_some(), fits, "{settings:?} {brick} byte {at}");
        opened[usize::from(fits)] += 1;
    }
    assert!(opened.iter().all(|&count| count > 200), "{opened:?}");
}

/// A message's kind, stripe, time, round, max, targets as bits, old time and data block's number.
type Sent = (u8, u64, u64, u64, u64, u16, u64, u64);

/// The messages of the broadcasts, one to each of n bricks.
fn sent(n: u64, step: &Step) -> Vec<Sent> {
    let of = |message: &brick::Message| {
        let targets = message.targets.iter().map(|&b| 1 << b).sum();
        (message.kind, message.stripe, message.time, message.round, message.max, targets, message.old_time, message.number)
    };
    step.sent.chunks(n as usize).map(|broadcast| of(&broadcast[0])).collect()
}

fn sent_by_hand(message: &Message) -> Sent {
    let Message { kind, stripe, time, round, max, targets, old, block } = *message;
    (kind, stripe as u64, time, round, max, targets, old, block as u64)
}

/// Both coordinators after an event: what was sent with its blocks, and how the operation ended.
fn compare(volume: Volume, step: Result<Step, u8>, act: Act, hand: &Coordinator, record: &Record, tally: &mut Tally) -> Step {
    let shape = volume.shape;
    let (step, what) = match (step, act) {
        (Err(refusal), Act::Refused(number)) => {
            assert_eq!(u32::from(refusal), number);
            tally.add(format!("refusal {number}"), 1);
            return Step::default();
        }
        (Ok(step), act) => {
            let (messages, what, letter) = match act {
                Act::Waits => (vec![], "waits", None),
                Act::Sends(message) => (vec![message], "sends", None),
                Act::Clears(ahead, message) => (vec![ahead, message], "sends", None),
                Act::Written(message, letter) => (vec![message], "written", Some(letter)),
                Act::Read(message, letter) => (message.into_iter().collect(), "read", Some(letter)),
                Act::Aborted(letter) => (vec![], "aborted", Some(letter)),
                Act::Refused(number) => panic!("refused {number} by hand alone"),
            };
            assert_eq!(sent(shape.n, &step), messages.iter().map(sent_by_hand).collect::<Vec<_>>());
            assert_eq!(step.ended.as_ref().map(|ended| ended.letter), letter);
            if let Some(letter) = letter {
                tally.add(format!("letter {letter}"), 1);
            }
            (step, what)
        }
        (Err(refusal), _) => panic!("refused {refusal}, and not by hand"),
    };
    for (k, message) in step.sent.iter().enumerate() {
        match message.kind {
            WRITE => assert_eq!(message.block, shape.block(&hand.coded, k % shape.n as usize)),
            MODIFY => {
                let j = message.number as usize;
                assert_eq!((&message.old_block[..], &message.block[..]), (shape.block(&hand.blocks, j), shape.block(&hand.stripe, j)));
            }
            _ => {}
        }
    }
    let ended = step.ended.as_ref().map(|ended| match &ended.outcome {
        Outcome::Ok => "written",
        Outcome::Gave { data, .. } => {
            let given = if ended.kind.of_block() { shape.block(&hand.stripe, ended.block as usize) } else { &hand.stripe };
            assert_eq!(data, given);
            "read"
        }
        Outcome::Abort => "aborted",
        Outcome::Cut => "cut",
    });
    assert_eq!(ended.unwrap_or(if step.sent.is_empty() { "waits" } else { "sends" }), what);
    if let Some(running) = record.running.as_ref().filter(|running| running.open == WRITE) {
        assert_eq!(running.data, hand.stripe);
    }
    let kind = step.sent.first().map_or(0, |message| message.kind);
    tally.add(format!("{what} {kind}"), 1);
    if let (Some(last), true) = (step.sent.last(), clears(kind) && ended.is_none()) {
        tally.add(format!("{what} {kind}, then {}", last.kind), 1);
    }
    step
}

#[test]
fn coordinators() {
    let mut rng = Rng::printed(43);
    let mut tally = Tally::default();
    for _ in 0..1500 {
        let settings = some_settings(&mut rng);
        let (volume, shape) = (settings.volume(), settings.shape);
        let four = (shape.n as usize, shape.m as usize, shape.size as usize, settings.stripes as usize);
        let mut images: Vec<Vec<u8>> = (0..shape.n).map(|b| image::fresh_row(settings, b).unwrap()).collect();
        let (mut record, mut hand) = (Record::fresh(volume, 3), Coordinator::new(four, 3));
        let mut clock = 0;
        // In some runs blocks are altered on their way, so that a recovery meets blocks that disagree.
        let altered = if rng.once_in(2) { 6 } else { u64::MAX };
        for _ in 0..8 {
            clock += rng.below(3);
            let blocks = shape.m + u64::from(rng.once_in(9));
            let (stripe, first, block) = (rng.below(2), rng.below(shape.n), rng.below(blocks));
            let (data, new) = (rng.bytes(shape.data_len()), rng.bytes(shape.size as usize));
            let (s, f, j, c) = (stripe as usize, first as usize, block as usize, &mut record);
            let (step, act) = match rng.below(4) {
                0 => (coordinator::start_write(volume, 3, c, stripe, clock, &data), hand.start_write(four, s, clock, &data)),
                1 => (coordinator::start_read(volume, 3, c, stripe, clock, first), hand.start_read(four, s, clock, f)),
                2 => {
                    let step = coordinator::start_write_block(volume, 3, c, stripe, clock, block, &new);
                    (step, hand.start_write_block(four, s, clock, j, &new))
                }
                _ => (coordinator::start_read_block(volume, 3, c, stripe, clock, block), hand.start_read_block(four, s, clock, j)),
            };
            let mut step = compare(volume, step, act, &hand, &record, &mut tally);
            // Round by round; a message is lost once in a while, and every image may be older by that.
            while !step.sent.is_empty() {
                let messages = std::mem::take(&mut step.sent);
                let mut next = Step::default();
                for k in rng.shuffled(messages.len()) {
                    if rng.once_in(12) {
                        continue;
                    }
                    let b = k % shape.n as usize;
                    let Some(mut reply) = brick::take_in_row(settings, b as u64, &mut images[b], &messages[k]).unwrap() else { continue };
                    if rng.once_in(altered) {
                        alter(&mut reply, &mut rng);
                    }
                    if rng.once_in(20) {
                        // A comparison of any number, so that some are refused by 10.
                        reply.comparison = rng.below(5) as u8;
                    }
                    let given = Reply {
                        kind: reply.kind,
                        brick: b,
                        stripe: reply.stripe as usize,
                        time: reply.time,
                        round: reply.round,
                        yes: reply.yes,
                        found: reply.found,
                        held: reply.block.is_some(),
                        said: reply.comparison,
                    };
                    let mut replies = record.running.as_ref().map_or(Vec::new(), |running| running.replies.clone());
                    replies.push(reply.clone());
                    let (stripe, coded) = (hand.stripe.clone(), hand.coded.clone());
                    let act = hand.take(four, &given, reply.block.as_deref().unwrap_or(&[]));
                    let taken = coordinator::take_reply(volume, 3, &mut record, &reply);
                    let step = compare(volume, taken, act, &hand, &record, &mut tally);
                    if step.ended.as_ref().is_some_and(|ended| ended.outcome == Outcome::Abort) {
                        assert!(hand.stripe == stripe && hand.coded == coded, "an abort leaves the buffers");
                        if reply.kind == ORDER_READ && replies.iter().all(|reply| reply.yes) && enough_blocks(shape.m, &replies) {
                            assert!(altered < u64::MAX, "blocks that bricks gave agree");
                            tally.add(format!("blocks disagree, {:?}", step.ended.as_ref().unwrap().kind), 1);
                        }
                    }
                    if !step.sent.is_empty() {
                        next = step;
                    }
                }
                step = next;
            }
            // Another coordinator was ahead on some bricks.
            if rng.once_in(3) {
                clock += 1;
                let order = brick::Message { stripe, ..brick::Message::plain(ORDER, 16 * clock + 5, 1) };
                for b in rng.shuffled(images.len()).into_iter().take(2) {
                    brick::take_in_row(settings, b as u64, &mut images[b], &order).unwrap();
                }
            }
            if record.running.is_some() {
                // The coordinator by hand has no crash: both begin again with the same count.
                let last = record.last;
                coordinator::crash(volume, 3, &mut record).unwrap();
                hand = Coordinator::new(four, 3);
                clock = clock.max(last) + 1;
            }
        }
    }
    println!("{:?}", tally.0);
    tally.expect(
        20,
        &["sends 1", "sends 2", "sends 3", "sends 4", "sends 5", "sends 6", "written 7", "read 0", "read 7", "aborted 0", "waits 0"],
    );
    tally.expect(20, &["sends 7, then 5", "sends 8, then 3"]);
    tally.expect(20, &["refusal 10", "refusal 11", "refusal 14"]);
    tally.expect(20, &["letter F", "letter H", "letter L", "letter S", "letter O", "letter G", "letter W", "letter X"]);
    tally.expect(20, &["blocks disagree, Read", "blocks disagree, ReadBlock", "blocks disagree, WriteBlock"]);
}
