//! One message at one brick: the proved routine beside one written by hand that works on the image in place, in one run.
//! Prints nanoseconds a message and how many times as long the proved one takes. Then the proved routine on the row of images of a
//! brick of 64 stripes beside that of one stripe.

use jilbagum_tests::brick::{clears, DROP, MODIFY, NONE, ORDER, ORDER_BLOCK, ORDER_READ, READ, TRIM, WRITE};
use jilbagum_tests::{inplace::Brick, proved};
use std::time::{Duration, Instant};

/// The data block that Order-block and Modify are of.
const NUMBER: usize = 1;
/// Messages, and where they are taken: at the brick of that block, at another of the data, or at the last, which holds parity.
const KINDS: [(u8, &str, At); 11] = [
    (READ, "Read", At::Own),
    (ORDER, "Order", At::Own),
    (ORDER_READ, "Order-and-read", At::Own),
    (ORDER_BLOCK, "Order-block", At::Own),
    (ORDER_BLOCK, "Order-block, parity", At::Parity),
    (WRITE, "Write", At::Own),
    (MODIFY, "Modify", At::Own),
    (MODIFY, "Modify, mark", At::Other),
    (MODIFY, "Modify, parity", At::Parity),
    (TRIM, "Trim", At::Own),
    (DROP, "Drop", At::Own),
];
const SHAPES: [Shape; 2] = [(5, 3, 256), (16, 8, 256)];
const CAPACITIES: [usize; 2] = [4, 32];
const BATCH: u32 = 50;

/// n, m and block size.
type Shape = (usize, usize, usize);

#[derive(Clone, Copy)]
enum At {
    Own,
    Other,
    Parity,
}

impl At {
    fn brick(self, (n, _, _): Shape) -> usize {
        match self {
            At::Own => NUMBER,
            At::Other => 0,
            At::Parity => n - 1,
        }
    }
}

/// The shortest of several runs, in nanoseconds a message; each message meets a fresh copy of the image. What the last one leaves of it
/// is handed out.
fn fastest(image: &[u8], runs: usize, mut message: impl FnMut(&mut [u8]), left: &mut Vec<u8>) -> f64 {
    let mut best = f64::MAX;
    let mut work = image.to_vec();
    for _ in 0..runs {
        let began = Instant::now();
        for _ in 0..BATCH {
            work.copy_from_slice(image);
            message(&mut work);
        }
        best = best.min(began.elapsed().as_nanos() as f64 / f64::from(BATCH));
    }
    *left = work;
    best
}

/// The settings of a brick with so many stripes.
fn five((n, m, size): Shape, capacity: usize, stripes: usize) -> proved::Five {
    (n, m, size, capacity, stripes)
}

fn block() -> Vec<u8> {
    (0..=255).collect()
}

/// The block that a Modify replaces.
fn old_block() -> Vec<u8> {
    (0..=255).rev().collect()
}

/// The time that a Drop takes out of the log below: all entries but one move.
const DROPPED: u64 = 16;

/// The time of every other message, and the newest time of the log below.
fn times(capacity: usize) -> (u64, u64) {
    (16 * capacity as u64, 16 * (capacity as u64 - 2))
}

/// A brick by hand, and its image with a log that has one entry free.
fn filled(shape: Shape, capacity: usize, brick: usize) -> (Brick, Vec<u8>) {
    let hand = Brick::new(shape, capacity, brick, false);
    let mut image = vec![0; 512 * (capacity + 1)];
    assert_eq!(proved::fresh(five(shape, capacity, 1), brick, &mut image), 0);
    let mut other = vec![0; image.len()];
    hand.fresh(&mut other);
    assert!(image == other);
    for k in 1..capacity as u64 - 1 {
        assert_eq!(hand.write(&mut image, 16 * k, &block()), NONE);
    }
    (hand, image)
}

/// A message that the brick above takes.
fn asked(kind: u8, (_, m, _): Shape, capacity: usize, stripe: usize) -> proved::Asked {
    let (time, old) = times(capacity);
    let targets: Vec<u8> = (0..m as u8).collect();
    let own = if kind == DROP { DROPPED } else { time };
    let asked = proved::asked(u64::from(kind), own, 1, time, stripe as u64, proved::flags(&targets));
    proved::of_block(asked, old, NUMBER as u64)
}

/// The same by hand.
fn by_hand(hand: &Brick, kind: u8, capacity: usize, work: &mut [u8], out: &mut [u8], (block, old): proved::Blocks) {
    let (time, old_time) = times(capacity);
    let said = match kind {
        READ => hand.read(work, true, out).0,
        ORDER => hand.order(work, time),
        ORDER_READ => hand.order_read(work, time, time, out).0,
        ORDER_BLOCK => hand.order_block(work, time, NUMBER, out).0,
        WRITE => hand.write(work, time, block),
        MODIFY => hand.modify(work, time, old_time, NUMBER, old, block),
        TRIM => {
            hand.trim(work, time);
            NONE
        }
        _ => {
            hand.drop_entry(work, DROPPED);
            NONE
        }
    };
    assert_eq!(said, NONE);
}

fn against_by_hand(runs: usize) {
    println!("   n   m capacity  message              ours ns  by hand ns  ratio");
    let mut most: f64 = 0.0;
    let (block, old) = (block(), old_block());
    for shape in SHAPES {
        for capacity in CAPACITIES {
            for (kind, name, at) in KINDS {
                let brick = at.brick(shape);
                let (hand, image) = filled(shape, capacity, brick);
                let (mut out, mut reply, mut out2) = (vec![0; 256], [0; 9], vec![0; 256]);
                let asked = asked(kind, shape, capacity, 0);
                let (mut left, mut left2) = (Vec::new(), Vec::new());
                let ours = fastest(
                    &image,
                    runs,
                    |work| {
                        let number = proved::receive(five(shape, capacity, 1), brick, work, &asked, (&block, &old), &mut out, &mut reply);
                        assert!(number == if clears(kind) { proved::SILENCE } else { 0 });
                    },
                    &mut left,
                );
                let theirs = fastest(&image, runs, |work| by_hand(&hand, kind, capacity, work, &mut out2, (&block, &old)), &mut left2);
                assert!(left == left2 && out == out2, "{name}");
                let (n, m, _) = shape;
                println!("{n:4} {m:3} {capacity:8}  {name:19} {ours:8.0} {theirs:11.0} {:6.2}", ours / theirs);
                most = most.max(ours / theirs);
            }
        }
    }
    println!("greatest ratio {most:.2}");
}

/// A brick's row of images, and a message for one of its stripes.
struct Row {
    five: proved::Five,
    brick: usize,
    images: Vec<u8>,
    asked: proved::Asked,
    /// Where that stripe's image stands.
    at: usize,
}

impl Row {
    fn new(kind: u8, brick: usize, capacity: usize, (stripes, stripe): (usize, usize), image: &[u8]) -> Row {
        let asked = asked(kind, SHAPES[0], capacity, stripe);
        Row { five: five(SHAPES[0], capacity, stripes), brick, images: image.repeat(stripes), asked, at: stripe * image.len() }
    }

    /// So many messages, each on the image as given; only the messages are timed. The other images stay as they are, so the row isn't
    /// copied.
    fn batch(&mut self, image: &[u8], blocks: proved::Blocks) -> Duration {
        let (mut out, mut reply, mut spent) = (vec![0; 256], [0; 9], Duration::ZERO);
        for _ in 0..BATCH {
            self.images[self.at..self.at + image.len()].copy_from_slice(image);
            let began = Instant::now();
            let number = proved::receive_in_row(self.five, self.brick, &mut self.images, &self.asked, blocks, &mut out, &mut reply);
            spent += began.elapsed();
            assert!(number == 0 || number == proved::SILENCE);
        }
        spent
    }
}

fn stripes_64_against_1(runs: usize) {
    println!("capacity  message              1 stripe ns  64 stripes ns  ratio");
    let mut most: f64 = 0.0;
    let (block, old) = (block(), old_block());
    for capacity in CAPACITIES {
        for (kind, name, at) in KINDS {
            let brick = at.brick(SHAPES[0]);
            let (_, image) = filled(SHAPES[0], capacity, brick);
            let mut rows = [(1, 0), (64, 37)].map(|stripe| Row::new(kind, brick, capacity, stripe, &image));
            let mut best = [f64::MAX; 2];
            for _ in 0..runs {
                for (row, best) in rows.iter_mut().zip(&mut best) {
                    *best = best.min(row.batch(&image, (&block, &old)).as_nanos() as f64 / f64::from(BATCH));
                }
            }
            let [one, many] = best;
            println!("{capacity:8}  {name:19} {one:12.0} {many:14.0} {:6.2}", many / one);
            most = most.max(many / one);
        }
    }
    println!("greatest ratio of 64 stripes to 1 {most:.2}");
}

fn main() {
    let runs = std::env::args().nth(1).map_or(400, |a| a.parse().expect("a number of runs"));
    against_by_hand(runs);
    stripes_64_against_1(runs);
}
