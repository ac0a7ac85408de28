//! Encoding and decoding.

use jilbagum_tests::code::*;
use jilbagum_tests::field::{add, inverse, mul};
use jilbagum_tests::rng::Rng;
use jilbagum_tests::settings::Refusal;

/// The lists of m bricks in rising order, as bit masks over n bricks.
fn subsets(n: u64, m: u64) -> Vec<Vec<u8>> {
    (0..1_u32 << n)
        .filter(|mask| u64::from(mask.count_ones()) == m)
        .map(|mask| (0..n as u8).filter(|b| mask & (1 << b) != 0).collect())
        .collect()
}

fn blocks_of(coded: &[u8], size: u64, bricks: &[u8]) -> Vec<u8> {
    let size = size as usize;
    bricks
        .iter()
        .flat_map(|&b| coded[usize::from(b) * size..][..size].to_vec())
        .collect()
}

/// The value at `point` of the polynomial with these values at 0, 1, 2, ...,
/// by Lagrange's formula.
fn lagrange(values: &[u8], point: u8) -> u8 {
    let mut sum = 0;
    for (i, &value) in values.iter().enumerate() {
        let mut term = value;
        for j in (0..values.len()).filter(|&j| j != i) {
            let (i, j) = (i as u8, j as u8);
            term = mul(term, mul(add(point, j), inverse(add(i, j)).unwrap()));
        }
        sum = add(sum, term);
    }
    sum
}

/// Decoding into an output of the right length.
fn decoded(n: u64, m: u64, size: u64, bricks: &[u8], blocks: &[u8]) -> Result<Vec<u8>, Refusal> {
    decode(n, m, size, bricks, blocks, (m * size) as usize)
}

#[test]
fn any_m_or_more_blocks_give_the_data_back() {
    let mut rng = Rng::printed(1);
    for n in 1..=7 {
        for m in 1..=n {
            let size = rng.between(1, 5);
            let data = rng.bytes((m * size) as usize);
            let coded = encode(n, m, size, &data).unwrap();
            assert_eq!(coded[..data.len()], data);
            for bricks in (m..=n).flat_map(|count| subsets(n, count)) {
                let turned: Vec<u8> = rng
                    .shuffled(bricks.len())
                    .iter()
                    .map(|&i| bricks[i])
                    .collect();
                for list in [&bricks, &turned] {
                    assert_eq!(
                        decoded(n, m, size, list, &blocks_of(&coded, size, list)).as_ref(),
                        Ok(&data)
                    );
                }
            }
        }
    }
}

/// Data 5 and 9 on four bricks give 29 and 17: three or four blocks of these
/// decode, and with any byte changed to any other they disagree.
#[test]
fn three_and_four_blocks_of_5_and_9() {
    let coded = [5, 9, 29, 17];
    for bricks in [
        &[0, 1, 2][..],
        &[1, 2, 3],
        &[3, 2, 1],
        &[2, 0, 3],
        &[3, 1, 0],
        &[0, 1, 2, 3],
        &[3, 2, 1, 0],
        &[2, 0, 3, 1],
    ] {
        let blocks = blocks_of(&coded, 1, bricks);
        assert_eq!(decoded(4, 2, 1, bricks, &blocks), Ok(vec![5, 9]));
        for place in 0..blocks.len() {
            for byte in (0..=255).filter(|&byte| byte != blocks[place]) {
                let mut changed = blocks.clone();
                changed[place] = byte;
                assert_eq!(decoded(4, 2, 1, bricks, &changed), Err(15));
            }
        }
    }
    // Two blocks are on one line, whatever they are.
    assert_eq!(decoded(4, 2, 1, &[2, 3], &[29, 17]), Ok(vec![5, 9]));
    assert_eq!(
        decoded(4, 2, 1, &[2, 3], &[29, 16]).map(|data| data.len()),
        Ok(2)
    );
}

/// Up to k - m blocks of k changed in one byte position always disagree. With
/// one more changed they may be those of another stripe, and then they decode
/// to it.
#[test]
fn changed_blocks_disagree() {
    let mut rng = Rng::printed(4);
    for n in 2..=16 {
        for m in 1..n {
            let size = rng.between(1, 4);
            let data = rng.bytes((m * size) as usize);
            let coded = encode(n, m, size, &data).unwrap();
            for _ in 0..4 {
                let count = rng.between(m + 1, n) as usize;
                let bricks: Vec<u8> = rng.shuffled(n as usize).iter().map(|&b| b as u8).collect();
                let bricks = &bricks[..count];
                let blocks = blocks_of(&coded, size, bricks);
                let altered = rng.between(1, count as u64 - m) as usize;
                let position = rng.below(size) as usize;
                let mut changed = blocks.clone();
                for place in rng.shuffled(count).into_iter().take(altered) {
                    changed[place * size as usize + position] ^= rng.between(1, 255) as u8;
                }
                assert_eq!(decoded(n, m, size, bricks, &changed), Err(15));
                // One data byte changed changes count - m + 1 blocks or more of a list.
                let mut other = data.clone();
                other[rng.below(m * size) as usize] ^= 1;
                let blocks = blocks_of(&encode(n, m, size, &other).unwrap(), size, bricks);
                let differ = |k: &usize| {
                    blocks[*k * size as usize..][..size as usize]
                        != blocks_of(&coded, size, &bricks[*k..=*k])
                };
                assert!((0..count).filter(differ).count() > count - m as usize);
                assert_eq!(decoded(n, m, size, bricks, &blocks), Ok(other));
            }
        }
    }
}

#[test]
fn large_stripes() {
    let mut rng = Rng::printed(2);
    for (n, m) in [(16, 1), (16, 8), (16, 15), (16, 16), (13, 9)] {
        for size in [1, 255, 256] {
            let data = rng.bytes((m * size) as usize);
            let coded = encode(n, m, size, &data).unwrap();
            assert_eq!(coded.len() as u64, n * size);
            let mut bricks: Vec<u8> = rng.shuffled(n as usize).iter().map(|&b| b as u8).collect();
            bricks.truncate(m as usize);
            assert_eq!(
                decoded(n, m, size, &bricks, &blocks_of(&coded, size, &bricks)),
                Ok(data.clone())
            );
            let all: Vec<u8> = (0..n as u8).rev().collect();
            let mut blocks = blocks_of(&coded, size, &all);
            assert_eq!(decoded(n, m, size, &all, &blocks), Ok(data));
            let place = rng.below(n * size) as usize;
            blocks[place] ^= 1;
            let disagree = (n > m).then_some(15);
            assert_eq!(decoded(n, m, size, &all, &blocks).err(), disagree);
        }
    }
}

#[test]
fn coded_bytes_are_values_of_the_polynomial() {
    let mut rng = Rng::printed(3);
    for n in 1..=16 {
        for m in 1..=n {
            let data = rng.bytes(m as usize);
            let values: Vec<u8> = (0..n as u8).map(|point| lagrange(&data, point)).collect();
            assert_eq!(encode(n, m, 1, &data), Ok(values));
        }
    }
}

#[test]
fn one_data_block_is_copied() {
    assert_eq!(encode(3, 1, 2, &[7, 8]), Ok(vec![7, 8, 7, 8, 7, 8]));
}

#[test]
fn encode_refused_lowest_first() {
    assert_eq!(encode_refusal(4, 2, 3, 6, 12), None);
    for (n, m, size) in [
        (0, 0, 1),
        (17, 1, 1),
        (3, 0, 1),
        (3, 4, 1),
        (3, 1, 0),
        (3, 1, 257),
        (u64::MAX, 1, u64::MAX),
    ] {
        assert_eq!(encode_refusal(n, m, size, 0, 0), Some(1));
        assert_eq!(encode(n, m, size, &[]), Err(1));
    }
    for (data_len, coded_len) in [(5, 12), (7, 12), (6, 11), (6, 13), (0, 0), (12, 6)] {
        assert_eq!(encode_refusal(4, 2, 3, data_len, coded_len), Some(2));
    }
    assert_eq!(encode(4, 2, 3, &[0; 7]), Err(2));
    assert_eq!(encode(4, 2, 3, &[]), Err(2));
    assert_eq!(encode_refusal(16, 16, 256, 4096, 4096), None);
}

#[test]
fn decode_refused_lowest_first() {
    assert_eq!(list_refusal(4, 2, 3, &[3, 1], 6, 6), None);
    assert_eq!(list_refusal(4, 2, 3, &[3, 1, 0], 9, 6), None);
    assert_eq!(list_refusal(4, 2, 3, &[3, 1, 0, 2], 12, 6), None);
    assert_eq!(list_refusal(17, 2, 3, &[9, 9, 9], 0, 0), Some(1));
    // A block for each brick of the list, whatever the list; m blocks out.
    for (blocks_len, data_len) in [
        (8, 6),
        (10, 6),
        (9, 5),
        (9, 7),
        (6, 6),
        (9, 9),
        (12, 6),
        (0, 6),
    ] {
        for bricks in [[4, 4, 4], [0, 0, 0], [0, 1, 2]] {
            assert_eq!(
                list_refusal(4, 2, 3, &bricks, blocks_len, data_len),
                Some(2)
            );
        }
    }
    for (bricks, blocks_len) in [(&[][..], 6), (&[0], 6), (&[0, 1, 2], 6), (&[0, 1], 9)] {
        assert_eq!(list_refusal(4, 2, 3, bricks, blocks_len, 6), Some(2));
        assert_eq!(decoded(4, 2, 3, bricks, &vec![0; blocks_len]), Err(2));
    }
    // Blocks that disagree as well, so that the list is what is refused.
    let some: Vec<u8> = (0..15).map(|k| k * k + 1).collect();
    for bricks in [
        &[4, 0][..],
        &[0, 4],
        &[255, 255],
        &[4],
        &[0, 1, 4],
        &[0, 0, 4],
        &[0, 1, 2, 3, 4],
    ] {
        let blocks = &some[..3 * bricks.len()];
        assert_eq!(list_refusal(4, 2, 3, bricks, blocks.len(), 6), Some(3));
        assert_eq!(decoded(4, 2, 3, bricks, blocks), Err(3));
    }
    for bricks in [
        &[][..],
        &[0],
        &[2, 2],
        &[0, 0],
        &[0, 1, 0],
        &[0, 1, 1],
        &[0, 1, 2, 2],
        &[3, 1, 2, 0, 3],
    ] {
        let blocks = &some[..3 * bricks.len()];
        assert_eq!(list_refusal(4, 2, 3, bricks, blocks.len(), 6), Some(4));
        assert_eq!(decoded(4, 2, 3, bricks, blocks), Err(4));
        // A brick twice with the same block is a repeat all the same.
        assert_eq!(decoded(4, 2, 3, bricks, &vec![0; blocks.len()]), Err(4));
    }
    assert_eq!(decoded(4, 2, 3, &[0, 1, 2], &some[..9]), Err(15));
    assert_eq!(decoded(4, 2, 3, &[0, 1, 2, 3], &some[..12]), Err(15));
    assert_eq!(decode(4, 2, 3, &[0, 1, 2], &some[..9], 9), Err(2));
    assert_eq!(decoded(4, 2, 3, &[0, 1], &[0; 5]), Err(2));
    assert_eq!(decode(4, 5, 3, &[0, 1], &[0; 5], 15), Err(1));
}
