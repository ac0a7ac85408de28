//! Recovered reads as their coordinator meets them: which replies are counted, and what each gives.

use crate::brick::{Reply, ORDER_READ, READ, WRITE};
use crate::code;
use crate::coordinator::{take_reply, Record, Step};
use crate::fixtures::reply;
use crate::rng::Rng;
use crate::settings::{quorum, Shape, Volume};
use crate::tally::Tally;

/// A recovery that finds a stripe.
#[derive(Clone, Debug)]
pub struct Recovery {
    pub shape: Shape,
    pub q: usize,
    /// The time that is chosen, and its stripe.
    pub chosen: u64,
    pub data: Vec<u8>,
    /// The bricks that gave the chosen time: m or more of those counted in the round that decides.
    pub givers: Vec<u8>,
    /// The replies in each round of recovery, in the order of arrival: the first q are counted, and
    /// the last round decides.
    pub rounds: Vec<Vec<Reply>>,
}

/// Choices of m bricks that a recovered read doesn't make.
pub const OTHER_CHOICES: [&str; 6] = [
    "others are the last m",
    "others are counted from the first target",
    "others came first",
    "a lower brick gave another time",
    "a lower brick gave it in an earlier round",
    "a lower brick came after the q-th",
];

impl Recovery {
    /// The bricks counted in the round that decides, in the order of arrival, and the givers among
    /// them; the others of these give an older time or nothing, and the bricks not counted come
    /// later with the chosen time. For a lower time, which takes m above 1, a round goes ahead whose
    /// highest time is on one brick only: there any q are counted, and all others give the time that
    /// is chosen then.
    pub fn new(
        shape: Shape,
        counted: &[u8],
        givers: &[u8],
        lower: bool,
        rng: &mut Rng,
    ) -> Recovery {
        let Shape { n, m, size } = shape;
        let q = counted.len();
        let data = rng.bytes(shape.data_len());
        let coded = code::encode(n, m, size, &data).unwrap();
        let chosen = match rng.below(4) {
            0 => 0,
            _ => rng.between(32, 1 << 20),
        };
        let gives = |brick: u8| Reply {
            found: chosen,
            block: Some(shape.block(&coded, brick.into()).to_vec()),
            ..reply(ORDER_READ, 2, brick.into(), true, 0, None)
        };
        let late = some_order(n, rng).into_iter();
        let late = late.filter(|brick| !counted.contains(brick));
        let mut deciding: Vec<Reply> = counted.iter().copied().chain(late).map(gives).collect();
        for reply in &mut deciding[..q] {
            if !givers.contains(&(reply.brick as u8)) {
                (reply.found, reply.block) = match rng.below(3) {
                    1 if chosen > 0 => (0, Some(rng.bytes(size as usize))),
                    2 if chosen > 0 => {
                        (rng.between(16, chosen - 1), Some(rng.bytes(size as usize)))
                    }
                    _ => (0, None),
                };
            }
        }
        let mut rounds = vec![deciding];
        if lower {
            assert!(m > 1, "a time on one brick is chosen");
            let mut ahead: Vec<Reply> = some_order(n, rng).into_iter().map(gives).collect();
            let single = &mut ahead[rng.below(q as u64) as usize];
            single.found = chosen.max(15) + rng.between(1, 99);
            single.block = Some(rng.bytes(size as usize));
            rounds.insert(0, ahead);
        }
        Recovery {
            shape,
            q,
            chosen,
            data,
            givers: givers.to_vec(),
            rounds,
        }
    }

    /// Random bricks are counted, and m or more of them give the chosen time.
    pub fn some(shape: Shape, rng: &mut Rng) -> Recovery {
        let Shape { n, m, .. } = shape;
        let q = quorum(n, m).unwrap();
        let counted = &some_order(n, rng)[..q as usize];
        let givers = rng.shuffled(counted.len()).into_iter();
        let givers = givers.take(rng.between(m, q) as usize);
        let givers: Vec<u8> = givers.map(|k| counted[k]).collect();
        let lower = m > 1 && rng.once_in(2);
        Recovery::new(shape, counted, &givers, lower, rng)
    }

    /// Of every set of up to six bricks: every q counted, in four orders of arrival, and every m or
    /// more of them as givers, at the first time tried and, where m is above 1, at a lower one.
    pub fn of_small_sets(rng: &mut Rng) -> Vec<Recovery> {
        let mut all = Vec::new();
        for (n, m) in (1..=6).flat_map(|n| (1..=n).map(move |m| (n, m))) {
            let shape = Shape::new(n, m, 2);
            let q = quorum(n, m).unwrap();
            for counted in subsets(n).filter(|set| set.len() as u64 == q) {
                let among = |set: &Vec<u8>| set.iter().all(|brick| counted.contains(brick));
                for givers in subsets(n).filter(|set| set.len() as u64 >= m && among(set)) {
                    for order in orders(&counted, rng) {
                        for lower in (0..m.min(2)).map(|lower| lower == 1) {
                            all.push(Recovery::new(shape, &order, &givers, lower, rng));
                        }
                    }
                }
            }
        }
        all
    }

    /// The same replies are counted, in another order.
    pub fn reordered(&self, rng: &mut Rng) -> Recovery {
        let mut other = self.clone();
        for round in &mut other.rounds {
            let order = rng.shuffled(self.q).into_iter();
            let counted: Vec<Reply> = order.map(|k| round[k].clone()).collect();
            round[..self.q].clone_from_slice(&counted);
        }
        other
    }

    /// A volume of three stripes in which it happens.
    pub fn volume(&self) -> Volume {
        Volume {
            shape: self.shape,
            stripes: 3,
        }
    }

    /// The bricks that a read names: the first m of the givers by number.
    pub fn named(&self) -> Vec<u8> {
        let mut named = self.givers.clone();
        named.sort_unstable();
        named.truncate(self.shape.m as usize);
        named
    }

    /// The letter of a read that ends by it.
    pub fn letter(&self) -> char {
        match self.rounds.len() {
            1 => 'H',
            _ => 'L',
        }
    }

    /// The last round of recovery.
    fn deciding(&self) -> &[Reply] {
        &self.rounds[self.rounds.len() - 1]
    }

    /// All replies to a read of this time, round by round: a no to the Read, the rounds of recovery,
    /// and a yes to the Write. The first q of each are counted.
    pub fn replies(&self, stripe: u64, time: u64) -> Vec<Vec<Reply>> {
        let all = |kind: u8, yes: bool| -> Vec<Reply> {
            let bricks = self.deciding().iter().map(|reply| reply.brick);
            bricks
                .map(|brick| reply(kind, 1, brick, yes, 0, None))
                .collect()
        };
        let mut rounds = vec![all(READ, false)];
        rounds.extend(self.rounds.clone());
        rounds.push(all(WRITE, true));
        for (round, replies) in (1..).zip(&mut rounds) {
            for reply in replies {
                (reply.stripe, reply.time, reply.round) = (stripe, time, round);
            }
        }
        rounds
    }

    /// Plays them to a read that began: the step that ends it. What comes after the q-th reply of a
    /// round is refused by 11.
    pub fn play(&self, record: &mut Record) -> Step {
        let running = record.running.as_ref().expect("a read began");
        let rounds = self.replies(running.stripe, running.time);
        let (volume, number) = (record.volume, record.number);
        let mut last = Step::default();
        for round in rounds {
            let (counted, late) = round.split_at(self.q);
            for reply in counted {
                last = take_reply(volume, number, record, reply).unwrap();
            }
            for reply in late {
                assert_eq!(take_reply(volume, number, record, reply), Err(11));
            }
        }
        last
    }

    /// The bricks of each of the other choices, in rising order, in a read with this first target.
    pub fn other_choices(&self, first: u64) -> [Vec<u8>; 6] {
        let Shape { n, m, .. } = self.shape;
        let gave = |reply: &&Reply| reply.block.is_some() && reply.found == self.chosen;
        let counted = || self.deciding()[..self.q].iter();
        let givers = || counted().filter(gave);
        let ever = self.rounds.iter().flat_map(|round| &round[..self.q]);
        let by_number = |brick: u64| brick;
        [
            first_m(m, givers(), |brick| n - brick),
            first_m(m, givers(), |brick| (brick + n - first) % n),
            first_m(m, givers(), |_| 0),
            first_m(m, counted(), by_number),
            first_m(m, ever.filter(gave), by_number),
            first_m(m, self.deciding().iter().filter(gave), by_number),
        ]
    }

    /// Counts which of them are other bricks than those named.
    pub fn count_choices(&self, first: u64, named: &[u8], tally: &mut Tally) {
        for (what, choice) in OTHER_CHOICES.into_iter().zip(self.other_choices(first)) {
            tally.add(what, usize::from(choice != named));
        }
    }
}

/// The first m of the replies' bricks by such a place, in rising order.
fn first_m<'a>(
    m: u64,
    replies: impl Iterator<Item = &'a Reply>,
    place: impl Fn(u64) -> u64,
) -> Vec<u8> {
    let mut bricks: Vec<u64> = replies.map(|reply| reply.brick).collect();
    bricks.sort_by_key(|&brick| place(brick));
    bricks.dedup();
    bricks.truncate(m as usize);
    bricks.sort_unstable();
    bricks.into_iter().map(|brick| brick as u8).collect()
}

/// The bricks of a set in a random order.
fn some_order(n: u64, rng: &mut Rng) -> Vec<u8> {
    let order = rng.shuffled(n as usize).into_iter();
    order.map(|brick| brick as u8).collect()
}

/// The sets of bricks below n, each in rising order.
fn subsets(n: u64) -> impl Iterator<Item = Vec<u8>> {
    (0..1_u32 << n).map(move |set| (0..n as u8).filter(|b| set >> b & 1 == 1).collect())
}

/// Bricks in four orders: rising, falling and two others.
fn orders(bricks: &[u8], rng: &mut Rng) -> [Vec<u8>; 4] {
    let mut some = || {
        let order = rng.shuffled(bricks.len()).into_iter();
        order.map(|k| bricks[k]).collect()
    };
    let falling = bricks.iter().rev().copied().collect();
    [bricks.to_vec(), falling, some(), some()]
}
