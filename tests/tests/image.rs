//! The saved brick.

use jilbagum_tests::image::*;
use jilbagum_tests::rng::Rng;
use jilbagum_tests::settings::{Settings, LAST_COUNT};

fn small() -> Settings {
    Settings::new(3, 1, 2, 3, 1)
}

/// A state of two entries.
fn two() -> State {
    let entry = |time, byte: u8| Entry {
        time,
        block: Some(vec![byte, byte + 1]),
    };
    State {
        promise: 50,
        log: vec![entry(17, 3), entry(33, 7)],
    }
}

/// The same with a mark in place of the second block.
fn marked() -> State {
    let mut state = two();
    state.log[1].block = None;
    state
}

/// The image with one byte set and the check of its block made right again.
fn forged(image: &[u8], at: usize, byte: u8) -> Vec<u8> {
    let mut image = image.to_vec();
    image[at] = byte;
    let start = at / BLOCK * BLOCK;
    let sum = check(&image[start..start + BLOCK]);
    image[start..start + 2].copy_from_slice(&sum.to_le_bytes());
    image
}

#[test]
fn layout() {
    let image = write(small(), 2, &two()).unwrap();
    assert_eq!(image.len(), 4 * BLOCK);
    assert_eq!(
        image[2..21],
        [1, 0, 3, 1, 2, 3, 2, 0, 2, 0, 50, 0, 0, 0, 0, 0, 0, 0, 0]
    );
    assert!(image[21..BLOCK].iter().all(|&byte| byte == 0));
    let entry = &image[BLOCK..2 * BLOCK];
    assert_eq!(
        entry[2..18],
        [2, 0, 17, 0, 0, 0, 0, 0, 0, 0, 2, 0, 0, 0, 3, 4]
    );
    assert!(entry[18..].iter().all(|&byte| byte == 0));
    let unused = &image[3 * BLOCK..];
    assert_eq!(unused[..2], [1, 0]);
    assert!(unused[2..].iter().all(|&byte| byte == 0));
}

#[test]
fn large_numbers_are_little_endian() {
    let settings = Settings::new(16, 16, 256, 32, 1);
    let time = LAST_COUNT * 16 + 9;
    let log = vec![Entry {
        time,
        block: Some(vec![255; 256]),
    }];
    let image = write(settings, 15, &State { promise: time, log }).unwrap();
    assert_eq!(
        image[8..20],
        [0, 1, 1, 0, 0xF9, 0xFF, 0xFF, 0xFF, 0xFF, 0x0F, 0, 0]
    );
    assert_eq!(image[BLOCK + 12..BLOCK + 14], [0, 1]);
    assert_eq!(image[BLOCK + 271..BLOCK + 273], [255, 0]);
    assert!(parse(settings, 15, &image).is_ok());
}

#[test]
fn an_image_reads_back_and_rewrites_to_the_same_bytes() {
    let mut rng = Rng::printed(4);
    for _ in 0..300 {
        let n = rng.between(1, 16);
        let settings = Settings::new(
            n,
            rng.between(1, n),
            rng.between(1, 256),
            rng.between(2, 32),
            rng.between(1, 64),
        );
        let brick = rng.below(n);
        let mut time = rng.below(3) * 16;
        let mut log: Vec<Entry> = Vec::new();
        for _ in 0..rng.between(1, settings.capacity) {
            let mark = !log.is_empty() && rng.once_in(3);
            log.push(Entry {
                time,
                block: (!mark).then(|| rng.bytes(settings.shape.size as usize)),
            });
            time += rng.between(16, 1 << 30);
        }
        let state = State {
            promise: rng.between(16, 1 << 43),
            log,
        };
        let image = write(settings, brick, &state).unwrap();
        assert_eq!(parse(settings, brick, &image), Ok(state.clone()));
        assert_eq!(write(settings, brick, &state), Ok(image));
    }
}

#[test]
fn fresh_image() {
    let image = fresh(small(), 1).unwrap();
    let state = parse(small(), 1, &image).unwrap();
    assert_eq!(state, State::fresh(small()));
    assert_eq!((state.promise, state.newest(), state.count()), (0, 0, 1));
    assert_eq!(state.log[0].block, Some(vec![0, 0]));
    assert_eq!(fresh(small(), 3), Err(3));
    assert_eq!(fresh(Settings::new(3, 1, 0, 3, 1), 3), Err(1));
    assert_eq!(fresh(Settings::new(3, 1, 2, 3, 65), 3), Err(1));
    assert_eq!(fresh(Settings::new(u64::MAX, 1, u64::MAX, 3, 1), 3), Err(1));
}

#[test]
fn entries_at_places() {
    let state = two();
    assert_eq!(state.entry(0).unwrap().time, 17);
    assert_eq!(state.entry(1).unwrap().time, 33);
    assert_eq!(state.entry(2), Err(3));
    assert_eq!(state.entry(u64::MAX), Err(3));
}

#[test]
fn every_change_of_one_byte_is_refused() {
    let settings = Settings::new(3, 1, 2, 2, 1);
    for state in [State::fresh(settings), two(), marked()] {
        let mut image = write(settings, 0, &state).unwrap();
        for at in 0..image.len() {
            for change in 1..=255 {
                image[at] ^= change;
                assert_eq!(parse(settings, 0, &image), Err(5), "byte {at} by {change}");
                image[at] ^= change;
            }
        }
        assert_eq!(parse(settings, 0, &image), Ok(state));
    }
}

#[test]
fn a_forged_byte_is_refused_unless_it_is_content() {
    let image = write(small(), 0, &two()).unwrap();
    // Bytes of the promise and of entry times and blocks may differ.
    let content = |at: usize| match (at / BLOCK, at % BLOCK) {
        (0, p) => (12..20).contains(&p),
        (1 | 2, p) => (4..12).contains(&p) || (16..18).contains(&p),
        _ => false,
    };
    for at in 0..image.len() {
        if at % BLOCK < 2 || content(at) {
            continue;
        }
        for change in [1, 2, 3, 128, 255] {
            assert_eq!(
                parse(small(), 0, &forged(&image, at, image[at] ^ change)),
                Err(6),
                "byte {at}"
            );
        }
    }
}

#[test]
fn refused_lowest_first() {
    let image = write(small(), 0, &two()).unwrap();
    let mut torn = image.clone();
    torn[3 * BLOCK + 400] = 1;
    assert_eq!(parse(small(), 0, &torn), Err(5));
    assert_eq!(parse(small(), 3, &torn), Err(3));
    assert_eq!(parse(small(), 3, &torn[1..]), Err(2));
    assert_eq!(parse(small(), 3, &[]), Err(2));
    assert_eq!(parse(Settings::new(3, 1, 2, 1, 1), 3, &[]), Err(1));
    assert_eq!(parse(Settings::new(3, 1, 2, 33, 1), 3, &[]), Err(1));
    assert_eq!(parse(Settings::new(3, 1, 2, 3, 0), 3, &[]), Err(1));
    assert_eq!(parse(Settings::new(3, 1, 2, u64::MAX, 1), 3, &[]), Err(1));
    // A broken rule and a broken check in another block: the check comes first.
    let mut both = forged(&image, 10, 9);
    assert_eq!(parse(small(), 0, &both), Err(6));
    both[3 * BLOCK] = 2;
    assert_eq!(parse(small(), 0, &both), Err(5));
}

#[test]
fn disagreeing_settings_are_refused() {
    let image = write(small(), 0, &two()).unwrap();
    assert_eq!(parse(Settings::new(4, 1, 2, 3, 1), 0, &image), Err(6));
    assert_eq!(parse(Settings::new(3, 2, 2, 3, 1), 0, &image), Err(6));
    assert_eq!(parse(Settings::new(3, 1, 3, 3, 1), 0, &image), Err(6));
    assert_eq!(parse(small(), 1, &image), Err(6));
    // An image names neither its stripe nor the stripe count.
    assert_eq!(parse(Settings::new(3, 1, 2, 3, 64), 0, &image), Ok(two()));
    assert_eq!(parse(Settings::new(3, 1, 2, 4, 1), 0, &image), Err(2));
    let longer = [image.clone(), image[3 * BLOCK..].to_vec()].concat();
    assert_eq!(parse(Settings::new(3, 1, 2, 4, 1), 0, &longer), Err(6));
}

#[test]
fn rules_on_count_and_times() {
    let image = write(small(), 0, &two()).unwrap();
    for count in [0, 1, 3, 4, 255] {
        assert_eq!(
            parse(small(), 0, &forged(&image, 10, count)),
            Err(6),
            "count {count}"
        );
    }
    assert_eq!(parse(small(), 0, &forged(&image, 11, 1)), Err(6));
    let time_at = BLOCK + 4;
    for (time, refusal) in [
        (0, None),
        (1, Some(6)),
        (15, Some(6)),
        (16, None),
        (32, None),
        (33, Some(6)),
        (34, Some(6)),
    ] {
        let opened = parse(small(), 0, &forged(&image, time_at, time));
        assert_eq!(opened.err(), refusal, "time {time}");
    }
    // 2^44 and above is no time, neither of an entry nor as the promise.
    assert_eq!(
        parse(small(), 0, &forged(&image, 2 * BLOCK + 4 + 5, 0x0F)).err(),
        None
    );
    assert_eq!(
        parse(small(), 0, &forged(&image, 2 * BLOCK + 4 + 5, 0x10)),
        Err(6)
    );
    assert_eq!(
        parse(small(), 0, &forged(&image, 2 * BLOCK + 4 + 7, 0x80)),
        Err(6)
    );
    assert_eq!(parse(small(), 0, &forged(&image, 12 + 5, 0x0F)).err(), None);
    assert_eq!(parse(small(), 0, &forged(&image, 12 + 5, 0x10)), Err(6));
    for (promise, refusal) in [
        (0, None),
        (1, Some(6)),
        (15, Some(6)),
        (16, None),
        (255, None),
    ] {
        assert_eq!(
            parse(small(), 0, &forged(&image, 12, promise)).err(),
            refusal,
            "promise {promise}"
        );
    }
}

#[test]
fn writing_refused_lowest_first() {
    let mut state = two();
    state.log[1].time = 17;
    assert_eq!(write(small(), 0, &state), Err(6));
    assert_eq!(write(small(), 3, &state), Err(3));
    state.log[0].block = Some(vec![0; 3]);
    assert_eq!(write(small(), 3, &state), Err(2));
    assert_eq!(write(Settings::new(0, 1, 2, 3, 1), 3, &state), Err(1));
    assert_eq!(
        write(
            small(),
            0,
            &State {
                promise: 0,
                log: Vec::new()
            }
        ),
        Err(6)
    );
    let full = State {
        promise: 0,
        log: (1..=4)
            .map(|i| Entry {
                time: 16 * i,
                block: Some(vec![0; 2]),
            })
            .collect(),
    };
    assert_eq!(write(small(), 0, &full), Err(6));
}

/// A mark is kind 3: time and size, and no block bytes.
#[test]
fn layout_of_a_mark() {
    let image = write(small(), 2, &marked()).unwrap();
    assert_eq!(parse(small(), 2, &image), Ok(marked()));
    let mark = &image[2 * BLOCK..3 * BLOCK];
    assert_eq!(
        mark[2..18],
        [3, 0, 33, 0, 0, 0, 0, 0, 0, 0, 2, 0, 0, 0, 0, 0]
    );
    assert!(mark[18..].iter().all(|&byte| byte == 0));
    // By hand: 1 + 1 * 3 + 3 * 33 + 11 * 2.
    assert_eq!(mark[..2], [125, 0]);
    assert_eq!(marks(&image), [33]);
    assert_eq!(lowest(&image), 17);
    assert!(marks(&write(small(), 2, &two()).unwrap()).is_empty());
}

#[test]
fn a_mark_means_the_block_below_through_several_marks() {
    let entry = |time, block: Option<u8>| Entry {
        time,
        block: block.map(|byte| vec![byte]),
    };
    let log = vec![
        entry(0, Some(5)),
        entry(16, None),
        entry(32, None),
        entry(48, Some(6)),
        entry(64, None),
    ];
    let state = State { promise: 0, log };
    let meant: Vec<u8> = (0..5).map(|place| state.meant(place)[0]).collect();
    assert_eq!(meant, [5, 5, 5, 6, 6]);
    let settings = Settings::new(3, 1, 1, 5, 1);
    let image = write(settings, 1, &state).unwrap();
    assert_eq!(parse(settings, 1, &image), Ok(state));
    assert_eq!(marks(&image), [16, 32, 64]);
}

#[test]
fn the_lowest_entry_is_never_a_mark() {
    let mut state = marked();
    state.log.remove(0);
    assert_eq!(write(small(), 0, &state), Err(6));
    state = marked();
    state.log[0].block = None;
    assert_eq!(write(small(), 0, &state), Err(6));
    // In an image: the kind byte of the first entry, with its block bytes or without.
    let image = write(small(), 0, &two()).unwrap();
    assert_eq!(parse(small(), 0, &forged(&image, BLOCK + 2, 3)), Err(6));
    let image = forged(&forged(&image, BLOCK + 16, 0), BLOCK + 17, 0);
    assert!(parse(small(), 0, &image).is_ok());
    assert_eq!(parse(small(), 0, &forged(&image, BLOCK + 2, 3)), Err(6));
    // Above it such an entry is a mark.
    let image = forged(&forged(&image, 2 * BLOCK + 16, 0), 2 * BLOCK + 17, 0);
    let opened = parse(small(), 0, &forged(&image, 2 * BLOCK + 2, 3)).unwrap();
    assert_eq!(opened.log[1].block, None);
    // The check comes first.
    let mut torn = forged(&image, BLOCK + 2, 3);
    torn[3 * BLOCK] ^= 1;
    assert_eq!(parse(small(), 0, &torn), Err(5));
}

#[test]
fn a_forged_byte_of_a_mark_is_refused_but_in_its_time() {
    let image = write(small(), 0, &marked()).unwrap();
    for at in 2 * BLOCK + 2..3 * BLOCK {
        if (4..12).contains(&(at % BLOCK)) {
            continue;
        }
        // Kind 2 would be a block of zeros.
        let changes = if at == 2 * BLOCK + 2 {
            [2, 3, 4, 7, 128]
        } else {
            [1, 2, 3, 128, 255]
        };
        for change in changes {
            assert_eq!(
                parse(small(), 0, &forged(&image, at, image[at] ^ change)),
                Err(6),
                "byte {at}"
            );
        }
    }
    let block = parse(small(), 0, &forged(&image, 2 * BLOCK + 2, 2)).unwrap();
    assert_eq!(block.log[1].block, Some(vec![0, 0]));
    for (time, refusal) in [(18, None), (34, None), (17, Some(6)), (15, Some(6))] {
        let opened = parse(small(), 0, &forged(&image, 2 * BLOCK + 4, time));
        assert_eq!(opened.err(), refusal, "time {time}");
    }
}
