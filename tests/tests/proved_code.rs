//! The proved encoder and decoder against the independent one, and every refusal with untouched buffers.

use jilbagum_tests::{code, proved, rng::Rng};

const SIZES: [usize; 6] = [1, 2, 7, 64, 255, 256];

/// Both encoders on one stripe; gives the coded blocks.
fn encoded(n: usize, m: usize, size: usize, data: &[u8]) -> Vec<u8> {
    let mut coded = vec![0xA5; n * size];
    assert_eq!(proved::encode(n, m, size, data, &mut coded), 0);
    assert_eq!(coded, code::encode(n as u64, m as u64, size as u64, data).unwrap(), "n {n} m {m} size {size}");
    coded
}

/// Both decoders on any list, blocks and output length: the number, and the output's bytes, which a refusal leaves.
fn both_decode(n: usize, m: usize, size: usize, bricks: &[u8], blocks: &[u8], data_len: usize) -> Result<Vec<u8>, u32> {
    let mut out: Vec<u8> = (0..data_len).map(|k| (k * 7) as u8 ^ 0x5A).collect();
    let before = out.clone();
    let number = proved::decode(n, m, size, bricks, blocks, &mut out);
    let theirs = code::decode(n as u64, m as u64, size as u64, bricks, blocks, data_len);
    let case = || format!("n {n} m {m} size {size} bricks {bricks:?} blocks of {} data of {data_len}", blocks.len());
    match theirs {
        Ok(data) => {
            assert_eq!(number, 0, "{}", case());
            assert!(out == data, "{}", case());
            Ok(out)
        }
        Err(refusal) => {
            assert_eq!(number, u32::from(refusal), "{}", case());
            assert!(out == before, "refused by {number}: {}", case());
            Err(number)
        }
    }
}

fn blocks_of(coded: &[u8], size: usize, bricks: &[u8]) -> Vec<u8> {
    bricks.iter().flat_map(|&b| coded[b as usize * size..][..size].to_vec()).collect()
}

/// Both decoders on the blocks of these bricks: the data must come back; and on blocks of no stripe, where m of them decode to what they
/// stand for and more disagree.
fn check_decode(n: usize, m: usize, size: usize, bricks: &[u8], coded: &[u8], data: &[u8], rng: &mut Rng) {
    let blocks = blocks_of(coded, size, bricks);
    assert_eq!(both_decode(n, m, size, bricks, &blocks, m * size).as_deref(), Ok(data), "n {n} m {m} size {size} bricks {bricks:?}");
    let mut junk = blocks.clone();
    junk[rng.below(blocks.len() as u64) as usize] ^= rng.between(1, 255) as u8;
    let found = both_decode(n, m, size, bricks, &junk, m * size);
    assert_eq!(found.err(), (bricks.len() > m).then_some(15));
    let junk = rng.bytes(blocks.len());
    assert!(bricks.len() > m || both_decode(n, m, size, bricks, &junk, m * size).is_ok());
}

/// All lists of m different bricks below n, in rising order.
fn subsets(n: usize, m: usize) -> Vec<Vec<u8>> {
    (0..1_u32 << n)
        .filter(|s| s.count_ones() as usize == m)
        .map(|s| (0..n as u8).filter(|b| s >> b & 1 == 1).collect())
        .collect()
}

#[test]
fn every_subset_of_small_sets() {
    let mut rng = Rng::printed(11);
    for n in 1..=6 {
        for m in 1..=n {
            for size in [1, 2, 7] {
                let data = rng.bytes(m * size);
                let coded = encoded(n, m, size, &data);
                for mut bricks in (m..=n).flat_map(|count| subsets(n, count)) {
                    check_decode(n, m, size, &bricks, &coded, &data, &mut rng);
                    bricks.reverse();
                    check_decode(n, m, size, &bricks, &coded, &data, &mut rng);
                    bricks = rng.shuffled(bricks.len()).into_iter().map(|i| bricks[i]).collect();
                    check_decode(n, m, size, &bricks, &coded, &data, &mut rng);
                }
            }
        }
    }
}

#[test]
fn all_settings_with_random_subsets() {
    let mut rng = Rng::printed(12);
    for n in 1..=16 {
        for m in 1..=n {
            for size in SIZES {
                let data = rng.bytes(m * size);
                let coded = encoded(n, m, size, &data);
                for count in [m, rng.between(m as u64, n as u64) as usize, n] {
                    let mut bricks: Vec<u8> = rng.shuffled(n).into_iter().map(|b| b as u8).collect();
                    bricks.truncate(count);
                    check_decode(n, m, size, &bricks, &coded, &data, &mut rng);
                }
            }
        }
    }
}

#[test]
fn refused_encodings_leave_the_buffer() {
    let counts = [0, 1, 2, 3, 15, 16, 17, usize::MAX];
    let sizes = [0, 1, 2, 256, 257, usize::MAX];
    for n in counts {
        for m in counts {
            for size in sizes {
                for (data_len, coded_len) in [(0, 0), (1, 1), (2, 2), (4, 6), (3, 6), (256, 4096), (4096, 4096)] {
                    let data = vec![7; data_len];
                    let mut coded = vec![0xC3; coded_len];
                    let number = proved::encode(n, m, size, &data, &mut coded);
                    let other = code::encode_refusal(n as u64, m as u64, size as u64, data_len, coded_len);
                    assert_eq!(number, other.map_or(0, u32::from), "{n} {m} {size} {data_len} {coded_len}");
                    assert!(number == 0 || coded == vec![0xC3; coded_len]);
                }
            }
        }
    }
}

/// One byte of one block altered, at each place of each block: with m blocks the data is another, with more they disagree.
#[test]
fn one_byte_altered_anywhere() {
    let mut rng = Rng::printed(13);
    for (n, m, size) in [(2, 1, 3), (4, 2, 5), (5, 3, 4), (7, 5, 3), (16, 1, 2), (16, 8, 2), (16, 15, 2), (6, 3, 64), (3, 2, 256)] {
        let data = rng.bytes(m * size);
        let coded = encoded(n, m, size, &data);
        for count in m..=n {
            let bricks: Vec<u8> = rng.shuffled(n).into_iter().take(count).map(|b| b as u8).collect();
            let blocks = blocks_of(&coded, size, &bricks);
            for place in 0..blocks.len() {
                let mut altered = blocks.clone();
                altered[place] ^= rng.between(1, 255) as u8;
                let found = both_decode(n, m, size, &bricks, &altered, m * size);
                assert_eq!(found.as_ref().err(), (count > m).then_some(&15), "n {n} m {m} size {size} bricks {bricks:?} place {place}");
                assert!(found != Ok(data.clone()));
            }
        }
    }
}

/// Every other byte at one place, and every number of blocks altered: up to k - m of k always disagree.
#[test]
fn several_blocks_altered() {
    let mut rng = Rng::printed(14);
    for bricks in [&[0, 1, 2][..], &[3, 1, 2], &[3, 2, 1, 0], &[2, 3, 0, 1]] {
        for place in 0..bricks.len() {
            for change in 1..=255 {
                let mut blocks = blocks_of(&[5, 9, 29, 17], 1, bricks);
                blocks[place] ^= change;
                assert_eq!(both_decode(4, 2, 1, bricks, &blocks, 2), Err(15));
            }
        }
    }
    for n in 2..=16 {
        for m in 1..n {
            let size = rng.between(1, 9) as usize;
            let coded = encoded(n, m, size, &rng.bytes(m * size));
            for count in m + 1..=n {
                let bricks: Vec<u8> = rng.shuffled(n).into_iter().take(count).map(|b| b as u8).collect();
                let mut blocks = blocks_of(&coded, size, &bricks);
                let position = rng.below(size as u64) as usize;
                for place in rng.shuffled(count).into_iter().take(rng.between(1, (count - m) as u64) as usize) {
                    blocks[place * size + position] ^= rng.between(1, 255) as u8;
                }
                assert_eq!(both_decode(n, m, size, &bricks, &blocks, m * size), Err(15));
                // Any bytes at all.
                let junk = rng.bytes(blocks.len());
                both_decode(n, m, size, &bricks, &junk, m * size).ok();
            }
        }
    }
}

/// Lists of every length from 0 to n + 1: different bricks as far as they go, then with a repeat or a number not below n at each place, or
/// both; blocks and output of every length near those that some list would ask for.
#[test]
fn lists_of_every_length() {
    let mut rng = Rng::printed(15);
    let mut tally = [0_usize; 16];
    for (n, m) in [(1, 1), (2, 1), (3, 1), (4, 2), (5, 3), (4, 4), (16, 1), (16, 9), (16, 16)] {
        for size in [1, 3] {
            for count in 0..=n + 1 {
                let plain: Vec<u8> = rng.shuffled(n).into_iter().cycle().take(count).map(|b| b as u8).collect();
                let mut lists = vec![plain.clone()];
                for place in 0..count {
                    for other in [plain[rng.below(count as u64) as usize], plain[count - 1 - place], n as u8, 255] {
                        let mut list = plain.clone();
                        list[place] = other;
                        lists.push(list.clone());
                        // A repeat as well.
                        list[rng.below(count as u64) as usize] = plain[0];
                        lists.push(list);
                    }
                }
                let own = count * size;
                let lengths = [own, m * size, n * size, own + size, own + 1, own.saturating_sub(1), count, 0];
                for list in lists {
                    for blocks_len in lengths {
                        for data_len in [m * size, m * size + 1, m * size - 1, count * size, 0] {
                            let blocks = if rng.once_in(2) { vec![7; blocks_len] } else { rng.bytes(blocks_len) };
                            let found = both_decode(n, m, size, &list, &blocks, data_len);
                            tally[found.err().unwrap_or(0) as usize] += 1;
                        }
                    }
                }
            }
        }
    }
    println!("{tally:?}");
    for number in [0, 2, 3, 4, 15] {
        assert!(tally[number] > 50, "refusal {number}: {tally:?}");
    }
}

/// Settings of every sort with lists and lengths that fit some of them.
#[test]
fn refused_decodings_leave_the_buffer() {
    let lists: [&[u8]; 12] =
        [&[], &[0], &[1], &[3], &[0, 1], &[2, 2], &[4, 1], &[1, 255], &[0, 1, 2], &[3, 2, 3], &[0, 1, 2, 3], &[0, 1, 2, 3, 0]];
    for (n, m) in [(0, 1), (1, 0), (4, 2), (4, 1), (2, 4), (16, 3), (17, 2), (usize::MAX, 2), (4, usize::MAX)] {
        for size in [0, 1, 3, 257, usize::MAX] {
            for bricks in lists {
                for (blocks_len, data_len) in [(0, 0), (1, 1), (2, 2), (6, 6), (2, 3), (9, 9), (6, 5), (3, 2), (9, 6), (12, 6), (4, 2)] {
                    let blocks: Vec<u8> = (0..blocks_len).map(|k| (k * k) as u8 + 9).collect();
                    both_decode(n, m, size, bricks, &blocks, data_len).ok();
                }
            }
        }
    }
}

/// Each refusal with all that come after it: 1, 2, 3, 4, 15.
#[test]
fn refused_in_order() {
    let blocks: Vec<u8> = (0..5).map(|k| k * k + 1).collect();
    let (all, repeated, past) = ([0, 1, 2, 3], [0, 1, 1, 3], [0, 1, 1, 4]);
    assert_eq!(both_decode(4, 5, 1, &past, &blocks, 1), Err(1));
    for (length, data_len) in [(4, 1), (4, 3), (3, 2), (5, 2), (2, 2), (0, 0)] {
        assert_eq!(both_decode(4, 2, 1, &past, &blocks[..length], data_len), Err(2));
    }
    assert_eq!(both_decode(4, 2, 1, &past, &blocks[..4], 2), Err(3));
    assert_eq!(both_decode(4, 2, 1, &past[3..], &blocks[..1], 2), Err(3));
    assert_eq!(both_decode(4, 2, 1, &repeated, &blocks[..4], 2), Err(4));
    assert_eq!(both_decode(4, 2, 1, &all[..1], &blocks[..1], 2), Err(4));
    assert_eq!(both_decode(4, 2, 1, &[], &[], 2), Err(4));
    assert_eq!(both_decode(4, 2, 1, &[0, 1, 2, 3, 0], &blocks, 2), Err(4));
    assert_eq!(both_decode(4, 2, 1, &all, &blocks[..4], 2), Err(15));
    assert_eq!(both_decode(4, 2, 1, &all[1..], &blocks[1..4], 2), Err(15));
    assert_eq!(both_decode(4, 2, 1, &all, &[5, 9, 29, 17], 2), Ok(vec![5, 9]));
}

#[test]
fn the_papers_figures() {
    let mut coded = [0; 4];
    assert_eq!(proved::encode(4, 2, 1, &[5, 9], &mut coded), 0);
    assert_eq!(coded, [5, 9, 29, 17]);
    let mut data = [0; 2];
    assert_eq!(proved::decode(4, 2, 1, &[2, 3], &[29, 17], &mut data), 0);
    assert_eq!(data, [5, 9]);
    for (bricks, blocks) in [(&[3, 0, 2][..], &[17, 5, 29][..]), (&[0, 1, 2, 3], &[5, 9, 29, 17])] {
        data = [0; 2];
        assert_eq!(proved::decode(4, 2, 1, bricks, blocks, &mut data), 0);
        assert_eq!(data, [5, 9]);
    }
    assert_eq!(proved::decode(4, 2, 1, &[3, 0, 2], &[17, 5, 28], &mut data), 15);
    assert_eq!(data, [5, 9]);
}
