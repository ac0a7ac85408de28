//! The proved place of a client block against the independent one.

use jilbagum_tests::settings::{self, Settings};
use jilbagum_tests::{harness::Proved, proved};

/// Both on one client block, the buffer filled with a pattern that a refusal must leave.
fn compare(settings: Settings, block: usize) -> u32 {
    let mut place = [77, 99];
    let number = proved::place(Proved::five(settings), block, &mut place);
    match settings::place(settings, block as u64) {
        Ok((stripe, data)) => assert_eq!((number, place), (0, [stripe as usize, data as usize]), "{settings:?} {block}"),
        Err(refusal) => assert_eq!((number, place), (u32::from(refusal), [77, 99]), "{settings:?} {block}"),
    }
    number
}

#[test]
fn every_client_block_of_every_volume() {
    let (mut placed, mut past) = (0, 0);
    for stripes in 1..=64 {
        for m in 1..=16 {
            let settings = Settings::new(16, m, 1, 2, stripes);
            let blocks = (stripes * m) as usize;
            for block in (0..blocks + 3).chain([usize::MAX / 2, usize::MAX]) {
                match compare(settings, block) {
                    0 => placed += 1,
                    13 => past += 1,
                    number => panic!("{settings:?} {block}: {number}"),
                }
            }
        }
    }
    // The sums of stripes times m, and five for each volume.
    assert_eq!((placed, past), (64 * 65 / 2 * (16 * 17 / 2), 64 * 16 * 5));
}

#[test]
fn settings_come_first_then_the_length() {
    let last = u64::MAX;
    let values: [&[u64]; 5] = [&[0, 1, 16, 17, last], &[0, 1, 16, 17, last], &[0, 1, 256, 257], &[1, 2, 32, 33], &[0, 1, 64, 65, last]];
    let mut answers = [0_usize; 14];
    for &n in values[0] {
        for &m in values[1] {
            for &size in values[2] {
                for &capacity in values[3] {
                    for &stripes in values[4] {
                        let settings = Settings::new(n, m, size, capacity, stripes);
                        for block in [0, 1, 1023, 1024, usize::MAX] {
                            answers[compare(settings, block) as usize] += 1;
                        }
                        for length in [0, 1, 3] {
                            let mut place = vec![77; length];
                            let number = proved::place(Proved::five(settings), usize::MAX, &mut place);
                            assert_eq!(number, settings.refusal().map_or(2, u32::from), "{settings:?}");
                            assert_eq!(place, vec![77; length]);
                        }
                    }
                }
            }
        }
    }
    assert!([0, 1, 13].iter().all(|&number| answers[number] > 20), "{answers:?}");
}
