//! Encoding and decoding by polynomials over the field: solve the Vandermonde
//! system for the coefficients, then evaluate.

use crate::field::{add, inverse, mul};
use crate::settings::{all_differ, Refusal, Shape};

/// Why `encode` refuses, lowest number first.
pub fn encode_refusal(
    n: u64,
    m: u64,
    size: u64,
    data_len: usize,
    coded_len: usize,
) -> Option<Refusal> {
    let shape = Shape::new(n, m, size);
    if shape.refusal().is_some() {
        return Some(1);
    }
    if data_len != shape.data_len() || coded_len != shape.coded_len() {
        return Some(2);
    }
    None
}

/// Why `decode` refuses by settings, lengths and list, lowest number first.
pub fn list_refusal(
    n: u64,
    m: u64,
    size: u64,
    bricks: &[u8],
    blocks_len: usize,
    data_len: usize,
) -> Option<Refusal> {
    let shape = Shape::new(n, m, size);
    if shape.refusal().is_some() {
        return Some(1);
    }
    if blocks_len != bricks.len() * size as usize || data_len != shape.data_len() {
        return Some(2);
    }
    if bricks.iter().any(|&b| u64::from(b) >= n) {
        return Some(3);
    }
    if (bricks.len() as u64) < m || !all_differ(bricks) {
        return Some(4);
    }
    None
}

/// The n coded blocks of m data blocks.
pub fn encode(n: u64, m: u64, size: u64, data: &[u8]) -> Result<Vec<u8>, Refusal> {
    let shape = Shape::new(n, m, size);
    if let Some(number) = encode_refusal(n, m, size, data.len(), shape.coded_len()) {
        return Err(number);
    }
    let points: Vec<u8> = (0..m as u8).collect();
    let coefficients = interpolate(&points, &rows(size, data));
    Ok(evaluate(&coefficients, n as u8))
}

/// The m data blocks of m or more coded blocks, block i being that of brick
/// `bricks[i]`, into an output of `data_len` bytes. Refused last: 15, the blocks
/// disagree. Through all of them goes one polynomial of a degree below their
/// number; they agree if its degree is below m.
pub fn decode(
    n: u64,
    m: u64,
    size: u64,
    bricks: &[u8],
    blocks: &[u8],
    data_len: usize,
) -> Result<Vec<u8>, Refusal> {
    if let Some(number) = list_refusal(n, m, size, bricks, blocks.len(), data_len) {
        return Err(number);
    }
    let coefficients = interpolate(bricks, &rows(size, blocks));
    let (low, high) = coefficients.split_at(m as usize);
    if high.iter().flatten().any(|&coefficient| coefficient != 0) {
        return Err(15);
    }
    Ok(evaluate(low, m as u8))
}

/// What data block j weighs in the coded block of a brick: the coded value there
/// of the stripe that is 1 at j and 0 elsewhere. The settings and both numbers
/// are in range.
pub fn weight(n: u64, m: u64, brick: u64, j: u64) -> u8 {
    let data: Vec<u8> = (0..m).map(|i| u8::from(i == j)).collect();
    encode(n, m, 1, &data).expect("settings in range")[brick as usize]
}

/// The blocks of a buffer of blocks, one row each.
fn rows(size: u64, blocks: &[u8]) -> Vec<Vec<u8>> {
    blocks.chunks(size as usize).map(<[u8]>::to_vec).collect()
}

/// The coefficients of the polynomials that take the values `rows[i]` at
/// `points[i]`, one polynomial for each byte position: row k holds all the
/// coefficients of degree k. The points differ.
fn interpolate(points: &[u8], rows: &[Vec<u8>]) -> Vec<Vec<u8>> {
    let m = points.len();
    let mut system: Vec<Vec<u8>> = points
        .iter()
        .zip(rows)
        .map(|(&point, row)| [vandermonde_row(point, m), row.clone()].concat())
        .collect();
    for column in 0..m {
        eliminate(&mut system, column);
    }
    system.iter().map(|row| row[m..].to_vec()).collect()
}

/// The powers 0 to m - 1 of a point.
fn vandermonde_row(point: u8, m: usize) -> Vec<u8> {
    let mut row = vec![1; m];
    for k in 1..m {
        row[k] = mul(row[k - 1], point);
    }
    row
}

/// One step of Gauss and Jordan: afterwards the column is 1 in the row of its
/// own number and 0 in all others.
fn eliminate(system: &mut [Vec<u8>], column: usize) {
    let pivot = (column..system.len())
        .find(|&i| system[i][column] != 0)
        .expect("different points give a regular system");
    system.swap(column, pivot);
    let factor = inverse(system[column][column]).expect("the pivot isn't 0");
    let pivot_row: Vec<u8> = system[column].iter().map(|&v| mul(v, factor)).collect();
    for (i, row) in system.iter_mut().enumerate() {
        if i == column {
            row.copy_from_slice(&pivot_row);
        } else {
            let factor = row[column];
            for (value, &above) in row.iter_mut().zip(&pivot_row) {
                *value = add(*value, mul(factor, above));
            }
        }
    }
}

/// The values at points 0 to count - 1, one block for each point.
fn evaluate(coefficients: &[Vec<u8>], count: u8) -> Vec<u8> {
    (0..count)
        .flat_map(|point| values_at(coefficients, point))
        .collect()
}

/// The block of values at one point, by Horner's rule.
fn values_at(coefficients: &[Vec<u8>], point: u8) -> Vec<u8> {
    let mut block = vec![0; coefficients[0].len()];
    for row in coefficients.iter().rev() {
        for (value, &coefficient) in block.iter_mut().zip(row) {
            *value = add(mul(*value, point), coefficient);
        }
    }
    block
}
