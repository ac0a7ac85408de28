//! Ranges of the settings, the quorum, places of client blocks, times and clock draws.

/// The number of a refusal in document 01.
pub type Refusal = u8;

/// Counts are 1 to 2^40 - 1.
pub const LAST_COUNT: u64 = (1 << 40) - 1;
/// The max that stands for "no upper end".
pub const NO_UPPER_END: u64 = 1 << 44;
/// Rounds are 1 to 1,000.
pub const LAST_ROUND: u64 = 1000;
/// Coordinators are 0 to 15.
pub const LAST_COORDINATOR: u64 = 15;

/// The settings of the code: n bricks, m data blocks, bytes in a block.
#[derive(Clone, Copy, Debug, PartialEq, Eq)]
pub struct Shape {
    pub n: u64,
    pub m: u64,
    pub size: u64,
}

/// The settings of a coordinator: the code's, and the stripes of its volume.
#[derive(Clone, Copy, Debug, PartialEq, Eq)]
pub struct Volume {
    pub shape: Shape,
    pub stripes: u64,
}

/// The settings of a brick: those, and the entries that a log has room for.
#[derive(Clone, Copy, Debug, PartialEq, Eq)]
pub struct Settings {
    pub shape: Shape,
    pub capacity: u64,
    pub stripes: u64,
}

impl Shape {
    pub fn new(n: u64, m: u64, size: u64) -> Shape {
        Shape { n, m, size }
    }

    /// Refusal 1.
    pub fn refusal(self) -> Option<Refusal> {
        let fits = counts_fit(self.n, self.m) && (1..=256).contains(&self.size);
        (!fits).then_some(1)
    }

    /// Bytes of a stripe's data.
    pub fn data_len(self) -> usize {
        self.m.saturating_mul(self.size) as usize
    }

    /// Bytes of a coded stripe.
    pub fn coded_len(self) -> usize {
        self.n.saturating_mul(self.size) as usize
    }

    /// Block j in a buffer of blocks.
    pub fn block(self, buffer: &[u8], j: usize) -> &[u8] {
        let size = self.size as usize;
        &buffer[j * size..(j + 1) * size]
    }

    /// Puts a block at place j of a buffer of blocks.
    pub fn put_block(self, buffer: &mut [u8], j: usize, block: &[u8]) {
        let size = self.size as usize;
        buffer[j * size..(j + 1) * size].copy_from_slice(block);
    }

    /// Refusal 14: a data block that a stripe doesn't have.
    pub fn block_refusal(self, j: u64) -> Option<Refusal> {
        (j >= self.m).then_some(14)
    }

    /// Whether the list is m different bricks of the set.
    pub fn is_brick_set(self, bricks: &[u8]) -> bool {
        bricks.len() as u64 == self.m
            && bricks.iter().all(|&b| u64::from(b) < self.n)
            && all_differ(bricks)
    }
}

impl Volume {
    pub fn new(n: u64, m: u64, size: u64, stripes: u64) -> Volume {
        Volume {
            shape: Shape::new(n, m, size),
            stripes,
        }
    }

    /// Refusal 1.
    pub fn refusal(self) -> Option<Refusal> {
        if (1..=64).contains(&self.stripes) {
            self.shape.refusal()
        } else {
            Some(1)
        }
    }

    /// Refusal 13: a stripe that the volume doesn't have.
    pub fn stripe_refusal(self, stripe: u64) -> Option<Refusal> {
        (stripe >= self.stripes).then_some(13)
    }
}

impl Settings {
    pub fn new(n: u64, m: u64, size: u64, capacity: u64, stripes: u64) -> Settings {
        Settings {
            shape: Shape::new(n, m, size),
            capacity,
            stripes,
        }
    }

    /// Those of a coordinator, which knows no log.
    pub fn volume(self) -> Volume {
        Volume {
            shape: self.shape,
            stripes: self.stripes,
        }
    }

    /// Refusal 1.
    pub fn refusal(self) -> Option<Refusal> {
        if (2..=32).contains(&self.capacity) {
            self.volume().refusal()
        } else {
            Some(1)
        }
    }
}

/// Where a client block lies: its stripe, and the data block there. Refused:
/// 1 settings, 13 a client block not below S times m.
pub fn place(settings: Settings, block: u64) -> Result<(u64, u64), Refusal> {
    if settings.refusal().is_some() {
        return Err(1);
    }
    if block >= settings.stripes * settings.shape.m {
        return Err(13);
    }
    Ok((block % settings.stripes, block / settings.stripes))
}

fn counts_fit(n: u64, m: u64) -> bool {
    (1..=16).contains(&n) && (1..=n).contains(&m)
}

/// Whether no number stands in the list twice.
pub fn all_differ(list: &[u8]) -> bool {
    (0..list.len()).all(|i| !list[..i].contains(&list[i]))
}

/// The quorum n - f, f being (n - m) / 2 rounded down; or refusal 1.
pub fn quorum(n: u64, m: u64) -> Result<u64, Refusal> {
    if counts_fit(n, m) {
        Ok(n - (n - m) / 2)
    } else {
        Err(1)
    }
}

/// The time of a count at a coordinator.
pub fn time_of(count: u64, coordinator: u64) -> u64 {
    count * 16 + coordinator
}

/// The count in a time.
pub fn count_of(time: u64) -> u64 {
    time / 16
}

/// The coordinator that a time belongs to.
pub fn coordinator_of(time: u64) -> u64 {
    time % 16
}

/// Whether a time has a count of 1 to 2^40 - 1.
pub fn valid_time(time: u64) -> bool {
    (1..=LAST_COUNT).contains(&count_of(time))
}

/// Whether a time may stand in a log: 0 or valid.
pub fn log_time(time: u64) -> bool {
    time == 0 || valid_time(time)
}

/// One draw from the clock of a coordinator: the time, and the count that is
/// its last from now on. Refused: 3 the coordinator, 6 a last count that is
/// none, 7 the reading, 8 no count left.
pub fn draw(coordinator: u64, last: u64, reading: u64) -> Result<(u64, u64), Refusal> {
    if coordinator > LAST_COORDINATOR {
        return Err(3);
    }
    if last > LAST_COUNT {
        return Err(6);
    }
    if reading > LAST_COUNT {
        return Err(7);
    }
    if last == LAST_COUNT {
        return Err(8);
    }
    let count = reading.max(last + 1);
    Ok((time_of(count, coordinator), count))
}
