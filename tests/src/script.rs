//! Random bench scripts, to play on two benches and compare.

use crate::bench::Bench;
use crate::rng::Rng;

/// A script under construction. It is played along, so that most numbers
/// carried are sent ones.
struct Script {
    bench: Bench,
    text: Vec<u8>,
    n: u64,
    stripe: usize,
    /// Messages that were never carried so far.
    waiting: Vec<usize>,
}

/// A script of one set that starts, carries, crashes and switches at random,
/// with a few lines that are refused.
pub fn random(rng: &mut Rng) -> Vec<u8> {
    let n = rng.between(1, 4);
    let m = rng.between(1, n);
    let size = rng.between(1, 8);
    let capacity = rng.between(2, 4);
    let stripe = (m * size) as usize;
    let mut script = Script {
        bench: Bench::default(),
        text: Vec::new(),
        n,
        stripe,
        waiting: Vec::new(),
    };
    if rng.once_in(10) {
        let line = script.odd_line(rng);
        script.add(line);
    }
    script.add(format!("set {n} {m} {size} {capacity}"));
    for _ in 0..rng.between(20, 80) {
        let line = script.line(rng);
        script.add(line);
    }
    script.text
}

impl Script {
    /// Adds a line and gives what it prints.
    fn add(&mut self, line: String) -> Vec<u8> {
        let before = self.bench.sent();
        let printed = self.bench.line(line.as_bytes());
        self.waiting.extend(before + 1..=self.bench.sent());
        self.text.extend(line.bytes());
        self.text.push(b'\n');
        printed
    }

    fn line(&mut self, rng: &mut Rng) -> String {
        match rng.below(40) {
            0..=4 => self.write(rng),
            5..=9 => self.read(rng),
            10 => format!("crash {}", rng.below(4)),
            11 => format!("down {}", rng.below(self.n)),
            12..=13 => format!("up {}", rng.below(self.n)),
            14 => self.odd_line(rng),
            _ => self.carry(rng),
        }
    }

    fn write(&self, rng: &mut Rng) -> String {
        let upper = rng.once_in(4);
        let bytes = rng.bytes(self.stripe);
        let hex: String = bytes
            .iter()
            .map(|byte| {
                if upper {
                    format!("{byte:02X}")
                } else {
                    format!("{byte:02x}")
                }
            })
            .collect();
        format!("write {} {} {hex}", rng.below(4), clock(rng))
    }

    fn read(&self, rng: &mut Rng) -> String {
        format!("read {} {} {}", rng.below(4), clock(rng), rng.below(self.n))
    }

    /// A carry of a few messages, most of them waiting ones.
    fn carry(&mut self, rng: &mut Rng) -> String {
        let mut line = "carry".to_string();
        for _ in 0..rng.between(1, 6) {
            let number = if self.waiting.is_empty() || rng.once_in(8) {
                rng.below(self.bench.sent() as u64 + 2) as usize
            } else {
                // Late messages are likelier than early ones, which wait on.
                let back = rng.below(self.waiting.len() as u64).min(rng.below(8));
                self.waiting.remove(self.waiting.len() - 1 - back as usize)
            };
            line.push_str(&format!(" {number}"));
        }
        line
    }

    /// A line that is refused, or on the edge of it.
    fn odd_line(&self, rng: &mut Rng) -> String {
        let any = rng.number();
        match rng.below(14) {
            0 => String::new(),
            1 => format!("set {} 1 1 2", rng.below(7)),
            2 => format!("crash {}", rng.between(3, 5)),
            3 => format!("down {}", self.n),
            4 => format!("up {any:020}"),
            5 => format!("read {} 1 {}", rng.below(6), rng.below(6)),
            6 => format!("read 0 {} 0", (1_u64 << 40) - rng.below(2)),
            7 => format!("write 0 {} 0", rng.below(20)),
            8 => format!(
                "write {} 3 {}",
                rng.below(5),
                "0".repeat(2 * self.stripe + rng.below(3) as usize)
            ),
            9 => format!("write 1 2 {}g", "0".repeat(2 * self.stripe - 1)),
            10 => format!("carry {} x", rng.below(9)),
            11 => format!("carry {}", any % 10_000_000_000_000_000_000),
            12 => format!("carry  {}", rng.below(9)),
            _ => format!("carry {} ", rng.below(9)),
        }
    }
}

/// A clock reading: near the start of time, so that clocks fall behind.
fn clock(rng: &mut Rng) -> u64 {
    if rng.once_in(50) {
        (1 << 40) - 1 - rng.below(3)
    } else {
        rng.below(24)
    }
}

/// An operation of a schedule: what its coordinator waits for.
#[derive(Clone, Default)]
struct Open {
    runs: bool,
    writes: bool,
    /// Messages of its round that weren't carried so far.
    round: Vec<usize>,
    /// Replies that weren't carried so far.
    replies: Vec<usize>,
}

/// A script in which operations mostly go on to their end: rounds are carried
/// as far as a quorum, some are cut in their Write round, clocks mostly rise.
pub fn schedule(rng: &mut Rng) -> Vec<u8> {
    let shapes = [
        (1, 1),
        (2, 1),
        (2, 2),
        (3, 1),
        (3, 1),
        (3, 2),
        (3, 3),
        (4, 1),
        (4, 2),
        (4, 2),
        (4, 2),
        (4, 3),
        (4, 4),
    ];
    let (n, m) = shapes[rng.below(shapes.len() as u64) as usize];
    // Mostly short logs, so that cut writes fill them.
    let capacity = if rng.once_in(2) { 2 } else { rng.between(2, 4) };
    let size = rng.between(1, 8);
    let mut script = Script {
        bench: Bench::default(),
        text: Vec::new(),
        n,
        stripe: (m * size) as usize,
        waiting: Vec::new(),
    };
    script.add(format!("set {n} {m} {size} {capacity}"));
    let quorum = (n - (n - m) / 2) as usize;
    let mut plan = Plan {
        script,
        quorum,
        open: vec![Open::default(); 4],
        old: Vec::new(),
        trims: Vec::new(),
        cuts: rng.between(1, 4),
        clock: 0,
        rising: !rng.once_in(4),
        at_once: rng.between(1, 3) as usize,
    };
    for _ in 0..rng.between(40, 160) {
        plan.step(rng);
    }
    plan.script.text
}

struct Plan {
    script: Script,
    quorum: usize,
    open: Vec<Open>,
    /// Messages and replies left behind by rounds that are over.
    old: Vec<usize>,
    /// Trims and Drops that are carried before long.
    trims: Vec<usize>,
    /// A write is cut in its Write round once in so many.
    cuts: u64,
    clock: u64,
    /// Whether each start reads a higher clock than the one before.
    rising: bool,
    /// How many operations run beside each other at most.
    at_once: usize,
}

impl Plan {
    fn step(&mut self, rng: &mut Rng) {
        let running: Vec<usize> = (0..4).filter(|&c| self.open[c].runs).collect();
        match rng.below(60) {
            0 if !self.old.is_empty() => {
                let late = self.old[rng.below(self.old.len() as u64) as usize];
                let sent = self.carry(&[late]).1;
                self.old.extend(sent);
            }
            1 => {
                let brick = rng.below(self.script.n);
                self.script.add(format!("down {brick}"));
            }
            2..=4 => {
                let brick = rng.below(self.script.n);
                self.script.add(format!("up {brick}"));
            }
            5 if rng.once_in(3) => {
                let line = self.script.odd_line(rng);
                self.script.add(line);
            }
            6..=12 if !self.trims.is_empty() => {
                let count = rng.between(1, self.trims.len() as u64) as usize;
                let trims: Vec<usize> = self.trims.drain(..count).collect();
                self.carry(&trims);
            }
            13 if !running.is_empty() => {
                let c = running[rng.below(running.len() as u64) as usize];
                self.crash(c);
            }
            _ if running.len() < self.at_once && (running.is_empty() || rng.once_in(8)) => {
                self.start(rng)
            }
            _ if !running.is_empty() => {
                let c = running[rng.below(running.len() as u64) as usize];
                self.go_on(rng, c);
            }
            _ => self.start(rng),
        }
    }

    fn start(&mut self, rng: &mut Rng) {
        let Some(c) = rng.shuffled(4).into_iter().find(|&c| !self.open[c].runs) else {
            return;
        };
        self.clock = if self.rising {
            self.clock + 1
        } else {
            rng.below(20)
        };
        let before = self.script.bench.sent();
        let writes = rng.once_in(2);
        let line = if writes {
            let hex: String = rng
                .bytes(self.script.stripe)
                .iter()
                .map(|byte| format!("{byte:02x}"))
                .collect();
            format!("write {c} {} {hex}", self.clock)
        } else {
            format!("read {c} {} {}", self.clock, rng.below(self.script.n))
        };
        self.script.add(line);
        let round: Vec<usize> = (before + 1..=self.script.bench.sent()).collect();
        self.open[c] = Open {
            runs: !round.is_empty(),
            writes,
            round,
            replies: Vec::new(),
        };
    }

    /// Carries some messages of the round, or the replies to them.
    fn go_on(&mut self, rng: &mut Rng, c: usize) {
        if self.open[c].replies.len() >= self.quorum
            || (self.open[c].round.is_empty() && !self.open[c].replies.is_empty())
        {
            self.answer(rng, c);
            return;
        }
        let round = &mut self.open[c].round;
        if round.is_empty() {
            self.crash(c);
            return;
        }
        let count = match rng.below(6) {
            0 => 1,
            1 => round.len(),
            _ => self.quorum.min(round.len()),
        };
        let mut picked = Vec::new();
        for k in 0..count {
            // Mostly the first ones, so that some bricks fall behind.
            let at = if rng.once_in(3) {
                rng.below((round.len()) as u64) as usize
            } else {
                0
            };
            picked.push(round.remove(at));
            if rng.once_in(40) {
                picked.push(picked[k]);
            }
        }
        let replies = self.carry(&picked).1;
        self.open[c].replies.extend(replies);
        // A cut in mid-round.
        if rng.once_in(12) {
            self.crash(c);
        }
    }

    /// Carries the replies that wait at coordinator c.
    fn answer(&mut self, rng: &mut Rng, c: usize) {
        let replies = std::mem::take(&mut self.open[c].replies);
        let (ended, sent) = self.carry(&replies);
        if ended {
            self.leave(c);
            if !rng.once_in(4) {
                self.trims.extend(sent);
            }
        } else if !sent.is_empty() {
            let writes = self.open[c].writes;
            self.leave(c);
            // Drops or early Trims come before the round's messages.
            let (ahead, round) = sent.split_at(sent.len() - self.script.n as usize);
            self.open[c] = Open {
                runs: true,
                writes,
                round: round.to_vec(),
                replies: Vec::new(),
            };
            self.clear(rng, ahead);
            // A cut that leaves a Write on a few bricks: a later recovery looks further down.
            if writes && rng.once_in(self.cuts) {
                let few = rng.between(1, self.quorum.min(2) as u64) as usize;
                let stored: Vec<usize> = rng
                    .shuffled(round.len())
                    .into_iter()
                    .take(few)
                    .map(|k| round[k])
                    .collect();
                self.carry(&stored);
                self.crash(c);
            }
        }
    }

    /// Drops or early Trims are carried now, all or some, with some again; soon; late; or never.
    fn clear(&mut self, rng: &mut Rng, ahead: &[usize]) {
        match rng.below(6) {
            _ if ahead.is_empty() => {}
            0 | 1 => {
                self.carry(ahead);
            }
            2 => {
                let some = rng.between(1, ahead.len() as u64) as usize;
                let mut numbers: Vec<usize> = rng
                    .shuffled(ahead.len())
                    .into_iter()
                    .take(some)
                    .map(|k| ahead[k])
                    .collect();
                numbers.push(numbers[0]);
                self.carry(&numbers);
            }
            3 => self.trims.extend(ahead),
            4 => self.old.extend(ahead),
            _ => {}
        }
    }

    /// Carries messages in one line: whether an operation ended, and the numbers sent.
    fn carry(&mut self, numbers: &[usize]) -> (bool, Vec<usize>) {
        let before = self.script.bench.sent();
        let words: String = numbers.iter().map(|number| format!(" {number}")).collect();
        let printed = self.script.add(format!("carry{words}"));
        let ended = printed
            .split(|&byte| byte == b'\n')
            .any(|line| line.first().is_some_and(u8::is_ascii_digit));
        (ended, (before + 1..=self.script.bench.sent()).collect())
    }

    /// The round of coordinator c is over.
    fn leave(&mut self, c: usize) {
        let open = std::mem::take(&mut self.open[c]);
        self.old.extend(open.round.into_iter().chain(open.replies));
    }

    fn crash(&mut self, c: usize) {
        self.script.add(format!("crash {c}"));
        self.leave(c);
    }
}

/// Words as a script has them, in no sensible order.
fn soup(rng: &mut Rng) -> Vec<u8> {
    let words: [&[u8]; 31] = [
        b"set",
        b"write",
        b"read",
        b"carry",
        b"crash",
        b"down",
        b"up",
        b"0",
        b"1",
        b"2",
        b"3",
        b"4",
        b"5",
        b"8",
        b"9",
        b"127",
        b"128",
        b"0a",
        b"FF",
        b"0g",
        b"00000000000000000001",
        b"9999999999999999999",
        b"1099511627775",
        b"1099511627776",
        b"",
        b"-1",
        b"1\r",
        b"\t",
        b"\0",
        b"\xff",
        b"Read",
    ];
    let mut text = Vec::new();
    if !rng.once_in(4) {
        text.extend(format!("set {} 1 1 {}\n", rng.between(1, 4), rng.between(2, 4)).bytes());
    }
    for _ in 0..rng.between(1, 120) {
        // Half of the lines begin with a command and have about the right count.
        let command = rng.once_in(2);
        let count = rng.between(1, 5);
        for k in 0..count {
            let which = if command && k == 0 {
                rng.below(7)
            } else if command && !rng.once_in(6) {
                rng.between(7, 17)
            } else {
                rng.below(words.len() as u64)
            };
            text.extend(words[which as usize]);
            if k + 1 < count {
                text.push(b' ');
            }
        }
        text.push(b'\n');
    }
    text
}

/// Changes bytes, and loses, doubles, swaps and cuts off lines.
fn mutate(rng: &mut Rng, mut text: Vec<u8>) -> Vec<u8> {
    for _ in 0..rng.between(1, 12) {
        if text.is_empty() {
            return text;
        }
        let at = rng.below(text.len() as u64) as usize;
        match rng.below(9) {
            0 => text[at] = rng.byte(),
            1 => text[at] ^= 1 << rng.below(8),
            2 => text.insert(at, b" 019afxAF\n\r\t\0"[rng.below(13) as usize]),
            3 => drop(text.remove(at)),
            4 => {
                // A number with leading zeros, perhaps too long.
                if text[at].is_ascii_digit() {
                    let zeros = vec![b'0'; rng.between(1, 19) as usize];
                    text.splice(at..at, zeros);
                }
            }
            5 => {
                // A line cut off.
                let end = text[at..]
                    .iter()
                    .position(|&byte| byte == b'\n')
                    .map_or(text.len(), |k| at + k);
                text.drain(at..end);
            }
            6 => {
                let mut lines: Vec<Vec<u8>> = text
                    .split(|&byte| byte == b'\n')
                    .map(<[u8]>::to_vec)
                    .collect();
                let (a, b) = (
                    rng.below(lines.len() as u64) as usize,
                    rng.below(lines.len() as u64) as usize,
                );
                match rng.below(3) {
                    0 => lines.swap(a, b),
                    1 => lines.insert(a, lines[b].clone()),
                    _ => drop(lines.remove(a)),
                }
                text = lines.join(&b'\n');
            }
            7 if rng.once_in(3) => text.truncate(at),
            7 => {
                let count = rng.between(1, 40) as usize;
                let bytes = rng.bytes(count);
                text.splice(at..at, bytes);
            }
            _ => {
                // A line near the longest length.
                let length = rng.between(990, 1012) as usize;
                let mut line = b"\ncarry".to_vec();
                while line.len() < length {
                    line.extend(format!(" {}", rng.below(130)).bytes());
                }
                line.truncate(length);
                line.push(b'\n');
                text.splice(at..at, line);
            }
        }
    }
    text
}

/// A script of mixed sense and nonsense, and what sort it is.
pub fn mixed(rng: &mut Rng) -> (&'static str, Vec<u8>) {
    match rng.below(20) {
        0..=3 => ("random", random(rng)),
        4..=10 => ("schedule", schedule(rng)),
        11..=13 => {
            let text = random(rng);
            ("mutated", mutate(rng, text))
        }
        14..=16 => {
            let text = schedule(rng);
            ("mutated", mutate(rng, text))
        }
        17..=18 => ("words", soup(rng)),
        _ => {
            let count = rng.below(3000) as usize;
            let bytes = rng.bytes(count);
            // A newline now and then, more often than by chance.
            let often = rng.between(2, 60);
            (
                "bytes",
                bytes
                    .into_iter()
                    .map(|byte| if rng.once_in(often) { b'\n' } else { byte })
                    .collect(),
            )
        }
    }
}
