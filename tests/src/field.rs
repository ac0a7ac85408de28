//! The field of 256 elements with polynomial hexadecimal 11D.

/// The polynomial, its top bit (of degree 8) included.
pub const POLYNOMIAL: u16 = 0x11D;

/// Sum and difference: exclusive or.
pub fn add(a: u8, b: u8) -> u8 {
    a ^ b
}

/// Product with the element 2: one shift, reduced.
pub fn double(a: u8) -> u8 {
    let wide = u16::from(a) << 1;
    let reduced = if wide & 0x100 != 0 {
        wide ^ POLYNOMIAL
    } else {
        wide
    };
    reduced as u8
}

/// Product by shift and add.
pub fn mul(a: u8, b: u8) -> u8 {
    let mut shifted = a;
    let mut sum = 0;
    for bit in 0..8 {
        if (b >> bit) & 1 == 1 {
            sum = add(sum, shifted);
        }
        shifted = double(shifted);
    }
    sum
}

/// a to the power e, by repeated product; the power 0 is 1.
pub fn power(a: u8, e: u32) -> u8 {
    (0..e).fold(1, |product, _| mul(product, a))
}

/// The inverse of a, as its power 254; none for 0.
pub fn inverse(a: u8) -> Option<u8> {
    if a == 0 {
        None
    } else {
        Some(power(a, 254))
    }
}

/// The table of powers: entry i is 2 to the power i.
pub fn powers() -> [u8; 255] {
    let mut table = [0; 255];
    let mut element = 1;
    for entry in table.iter_mut() {
        *entry = element;
        element = double(element);
    }
    table
}

/// The table of logarithms: entry x is the i below 255 with 2 to the power i
/// equal to x. 0 has no logarithm; its entry is 0.
pub fn logs() -> [u8; 256] {
    let mut table = [0; 256];
    for (i, &element) in powers().iter().enumerate() {
        table[usize::from(element)] = i as u8;
    }
    table
}

/// What the bits of a register keep of a sum of two logarithms.
pub fn held(bits: u32, sum: u32) -> u32 {
    sum % (1 << bits)
}

/// Product by the two tables, with the sum of the logarithms held in so many bits. A sum that passes the table's end is taken round once.
pub fn mul_held(bits: u32, a: u8, b: u8, powers: &[u8; 255], logs: &[u8; 256]) -> u8 {
    if a == 0 || b == 0 {
        return 0;
    }
    let sum = held(bits, u32::from(logs[usize::from(a)]) + u32::from(logs[usize::from(b)]));
    powers[if sum < 255 { sum } else { sum - 255 } as usize]
}
