//! The bench: plays a script of one set and prints what ended or was refused.

use crate::brick::{self, Message, Reply, DROP, TRIM};
use crate::coordinator::{self, Ended, Outcome, Record, Step};
use crate::image;
use crate::settings::{coordinator_of, Refusal, Settings};

/// The bench keeps to one stripe, which has number 0.
const STRIPES: u64 = 1;
const STRIPE: u64 = 0;
const MOST_BRICKS: u64 = 4;
const LARGEST_SIZE: u64 = 8;
const LARGEST_CAPACITY: u64 = 4;
const COORDINATORS: u64 = 4;
const LAST_MESSAGE: usize = 127;
const LONGEST_LINE: usize = 1000;
const MOST_DIGITS: usize = 19;

/// A line that reads.
enum Line {
    Set {
        n: u64,
        m: u64,
        size: u64,
        capacity: u64,
    },
    Write {
        coordinator: u64,
        clock: u64,
        digits: Vec<u8>,
    },
    Read {
        coordinator: u64,
        clock: u64,
        brick: u64,
    },
    Carry(Vec<u64>),
    Crash(u64),
    Down(u64),
    Up(u64),
}

/// A sent message, to a brick or to a coordinator.
enum Sent {
    ToBrick {
        brick: usize,
        message: Message,
        /// Whether a round follows it at the same event, as it does Drops and early Trims.
        ahead: bool,
    },
    Back(Reply),
}

/// What Drops and early Trims did: those that reached a brick, and entries freed there.
#[derive(Clone, Copy, Debug, Default)]
pub struct Cleared {
    pub drops: usize,
    pub dropped: usize,
    pub early_trims: usize,
    pub trimmed: usize,
}

/// The set that a script plays on.
struct Set {
    settings: Settings,
    images: Vec<Vec<u8>>,
    up: Vec<bool>,
    records: Vec<Record>,
    sent: Vec<Sent>,
    cleared: Cleared,
}

/// A bench between two lines.
#[derive(Default)]
pub struct Bench {
    set: Option<Set>,
}

/// Plays a script and gives all that is printed.
pub fn play(input: &[u8]) -> Vec<u8> {
    Bench::default().play(input)
}

/// The lines of an input; a newline at its end starts no further line.
fn lines(input: &[u8]) -> Vec<&[u8]> {
    let mut lines: Vec<&[u8]> = input.split(|&byte| byte == b'\n').collect();
    if lines.last().is_some_and(|line| line.is_empty()) {
        lines.pop();
    }
    lines
}

impl Bench {
    /// Plays the lines of an input and gives all that they print.
    pub fn play(&mut self, input: &[u8]) -> Vec<u8> {
        lines(input)
            .into_iter()
            .flat_map(|line| self.line(line))
            .collect()
    }

    /// Plays one line, without its newline, and gives what it prints.
    pub fn line(&mut self, line: &[u8]) -> Vec<u8> {
        let mut printed = String::new();
        let result = match (read_line(line), self.set.as_mut()) {
            (
                Some(Line::Set {
                    n,
                    m,
                    size,
                    capacity,
                }),
                None,
            ) => Set::new(n, m, size, capacity).map(|set| self.set = Some(set)),
            (None | Some(Line::Set { .. }), _) | (_, None) => Err(12),
            (Some(line), Some(set)) => set.play(line, &mut printed),
        };
        print_refusal(result, &mut printed);
        printed.into_bytes()
    }

    /// The number of the last message sent.
    pub fn sent(&self) -> usize {
        self.set.as_ref().map_or(0, |set| set.sent.len())
    }

    /// Damages a brick's image, which no line does.
    pub fn damage(&mut self, brick: usize) {
        if let Some(set) = &mut self.set {
            set.images[brick][0] ^= 1;
        }
    }

    /// How many rounds of a kind were sent, Trims and Drops too.
    pub fn rounds(&self, kind: u8) -> usize {
        let Some(set) = &self.set else { return 0 };
        let of_kind = |sent: &&Sent| matches!(sent, Sent::ToBrick { brick: 0, message, .. } if message.kind == kind);
        set.sent.iter().filter(of_kind).count()
    }

    /// What Drops and early Trims did so far.
    pub fn cleared(&self) -> Cleared {
        self.set
            .as_ref()
            .map_or(Cleared::default(), |set| set.cleared)
    }
}

fn print_refusal(result: Result<(), Refusal>, printed: &mut String) {
    if let Err(number) = result {
        printed.push_str(&format!("refused {number}\n"));
    }
}

fn print_ended(ended: Option<Ended>, printed: &mut String) {
    let Some(Ended {
        coordinator,
        kind,
        time,
        outcome,
        letter,
        ..
    }) = ended
    else {
        return;
    };
    let kind = if kind.reads() { "read" } else { "write" };
    let outcome = match outcome {
        Outcome::Ok => "ok".to_string(),
        Outcome::Gave { data, .. } => data.iter().map(|byte| format!("{byte:02x}")).collect(),
        Outcome::Abort => "abort".to_string(),
        Outcome::Cut => "cut".to_string(),
    };
    printed.push_str(&format!("{coordinator} {kind} {time} {letter} {outcome}\n"));
}

fn read_line(line: &[u8]) -> Option<Line> {
    if line.len() > LONGEST_LINE {
        return None;
    }
    let words: Vec<&[u8]> = line.split(|&byte| byte == b' ').collect();
    let (&command, words) = words.split_first()?;
    if command == b"write" {
        let &[coordinator, clock, hex] = words else {
            return None;
        };
        return Some(Line::Write {
            coordinator: read_number(coordinator)?,
            clock: read_number(clock)?,
            digits: read_hex(hex)?,
        });
    }
    let numbers: Option<Vec<u64>> = words.iter().map(|word| read_number(word)).collect();
    match (command, numbers?.as_slice()) {
        (b"set", &[n, m, size, capacity]) => Some(Line::Set {
            n,
            m,
            size,
            capacity,
        }),
        (b"read", &[coordinator, clock, brick]) => Some(Line::Read {
            coordinator,
            clock,
            brick,
        }),
        (b"carry", numbers @ [_, ..]) => Some(Line::Carry(numbers.to_vec())),
        (b"crash", &[coordinator]) => Some(Line::Crash(coordinator)),
        (b"down", &[brick]) => Some(Line::Down(brick)),
        (b"up", &[brick]) => Some(Line::Up(brick)),
        _ => None,
    }
}

/// A number of 1 to 19 digits.
fn read_number(word: &[u8]) -> Option<u64> {
    if word.is_empty() || word.len() > MOST_DIGITS || !word.iter().all(u8::is_ascii_digit) {
        return None;
    }
    Some(
        word.iter()
            .fold(0, |number, digit| number * 10 + u64::from(digit - b'0')),
    )
}

/// The values of 1 or more hex digits.
fn read_hex(word: &[u8]) -> Option<Vec<u8>> {
    if word.is_empty() {
        return None;
    }
    word.iter()
        .map(|&byte| char::from(byte).to_digit(16).map(|digit| digit as u8))
        .collect()
}

impl Set {
    /// A fresh set, or refusal 1.
    fn new(n: u64, m: u64, size: u64, capacity: u64) -> Result<Set, Refusal> {
        let settings = Settings::new(n, m, size, capacity, STRIPES);
        if settings.refusal().is_some()
            || n > MOST_BRICKS
            || size > LARGEST_SIZE
            || capacity > LARGEST_CAPACITY
        {
            return Err(1);
        }
        let images: Result<Vec<_>, _> = (0..n).map(|brick| image::fresh(settings, brick)).collect();
        Ok(Set {
            settings,
            images: images?,
            up: vec![true; n as usize],
            records: (0..COORDINATORS)
                .map(|number| Record::fresh(settings.volume(), number))
                .collect(),
            sent: Vec::new(),
            cleared: Cleared::default(),
        })
    }

    fn play(&mut self, line: Line, printed: &mut String) -> Result<(), Refusal> {
        match line {
            Line::Write {
                coordinator,
                clock,
                digits,
            } => self.write(coordinator, clock, &digits, printed),
            Line::Read {
                coordinator,
                clock,
                brick,
            } => self.read(coordinator, clock, brick, printed),
            Line::Carry(numbers) => {
                for number in numbers {
                    print_refusal(self.carry(number, printed), printed);
                }
                Ok(())
            }
            Line::Crash(coordinator) => self.crash(coordinator, printed),
            Line::Down(brick) => self.switch(brick, false),
            Line::Up(brick) => self.switch(brick, true),
            Line::Set { .. } => Err(12),
        }
    }

    /// A copy of a coordinator's record, or refusal 3.
    fn record(&self, coordinator: u64) -> Result<Record, Refusal> {
        if coordinator < COORDINATORS {
            Ok(self.records[coordinator as usize].clone())
        } else {
            Err(3)
        }
    }

    /// Whether so many further messages may be sent.
    fn fits(&self, count: usize) -> bool {
        self.sent.len() + count <= LAST_MESSAGE
    }

    /// Makes the step of a coordinator count, unless it sends past message 127.
    fn commit(&mut self, record: Record, step: Step, printed: &mut String) -> Result<(), Refusal> {
        if !self.fits(step.sent.len()) {
            return Err(12);
        }
        let (n, count) = (self.up.len(), step.sent.len());
        let to_brick = |(place, message)| Sent::ToBrick {
            brick: place % n,
            message,
            ahead: place + n < count,
        };
        self.sent
            .extend(step.sent.into_iter().enumerate().map(to_brick));
        let place = record.number as usize;
        self.records[place] = record;
        print_ended(step.ended, printed);
        Ok(())
    }

    fn write(
        &mut self,
        coordinator: u64,
        clock: u64,
        digits: &[u8],
        printed: &mut String,
    ) -> Result<(), Refusal> {
        let volume = self.settings.volume();
        let shape = volume.shape;
        let counted = digits.len() == 2 * shape.data_len();
        // A wrong count of digits is refused only after the numbers of a start.
        let data = if counted {
            bytes_of(digits)
        } else {
            vec![0; shape.data_len()]
        };
        let mut record = self.record(coordinator)?;
        let step =
            coordinator::start_write(volume, coordinator, &mut record, STRIPE, clock, &data)?;
        if !counted {
            return Err(12);
        }
        self.commit(record, step, printed)
    }

    fn read(
        &mut self,
        coordinator: u64,
        clock: u64,
        brick: u64,
        printed: &mut String,
    ) -> Result<(), Refusal> {
        let mut record = self.record(coordinator)?;
        let volume = self.settings.volume();
        let step = coordinator::start_read(volume, coordinator, &mut record, STRIPE, clock, brick)?;
        self.commit(record, step, printed)
    }

    fn crash(&mut self, coordinator: u64, printed: &mut String) -> Result<(), Refusal> {
        let mut record = self.record(coordinator)?;
        let step = coordinator::crash(self.settings.volume(), coordinator, &mut record)?;
        self.commit(record, step, printed)
    }

    fn switch(&mut self, brick: u64, up: bool) -> Result<(), Refusal> {
        if brick >= self.settings.shape.n {
            return Err(3);
        }
        self.up[brick as usize] = up;
        Ok(())
    }

    fn carry(&mut self, number: u64, printed: &mut String) -> Result<(), Refusal> {
        if number == 0 || number > self.sent.len() as u64 {
            return Err(12);
        }
        match &self.sent[number as usize - 1] {
            Sent::ToBrick {
                brick,
                message,
                ahead,
            } => self.carry_to_brick(*brick, &message.clone(), *ahead),
            Sent::Back(reply) => self.carry_back(&reply.clone(), printed),
        }
    }

    fn carry_to_brick(
        &mut self,
        brick: usize,
        message: &Message,
        ahead: bool,
    ) -> Result<(), Refusal> {
        if !self.up[brick] {
            return Ok(());
        }
        // Refused "before anything changes": the brick works on a copy, which counts if its reply may be sent.
        let mut image = self.images[brick].clone();
        let reply = brick::take(self.settings, brick as u64, &mut image, message)?;
        if !self.fits(reply.iter().count()) {
            return Err(12);
        }
        let before = image::times(&self.images[brick]).len();
        let after = image::times(&image).len();
        self.images[brick] = image;
        if message.kind == DROP {
            self.cleared.drops += 1;
            self.cleared.dropped += before - after;
        } else if message.kind == TRIM && ahead {
            self.cleared.early_trims += 1;
            self.cleared.trimmed += before - after;
        }
        self.sent.extend(reply.map(Sent::Back));
        Ok(())
    }

    fn carry_back(&mut self, reply: &Reply, printed: &mut String) -> Result<(), Refusal> {
        let coordinator = coordinator_of(reply.time);
        let mut record = self.record(coordinator)?;
        let step =
            coordinator::take_reply(self.settings.volume(), coordinator, &mut record, reply)?;
        self.commit(record, step, printed)
    }
}

/// The bytes of an even number of hex digits.
fn bytes_of(digits: &[u8]) -> Vec<u8> {
    digits
        .chunks(2)
        .map(|pair| pair[0] << 4 | pair[1])
        .collect()
}
