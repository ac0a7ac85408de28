//! Laws of the field, over all its elements.

use jilbagum_tests::field::{add, double, held, inverse, logs, mul, mul_held, power, powers};

fn elements() -> impl Iterator<Item = u8> {
    0..=255
}

/// The product as polynomials over bits, reduced by long division.
fn long_product(a: u8, b: u8) -> u8 {
    let mut wide = 0_u32;
    for bit in 0..8 {
        if b & (1 << bit) != 0 {
            wide ^= u32::from(a) << bit;
        }
    }
    for bit in (8..16).rev() {
        if wide & (1 << bit) != 0 {
            wide ^= 0x11D << (bit - 8);
        }
    }
    wide as u8
}

#[test]
fn products_agree_with_long_division() {
    for a in elements() {
        for b in elements() {
            assert_eq!(mul(a, b), long_product(a, b), "{a} x {b}");
            assert_eq!(mul(a, b), mul(b, a));
        }
        assert_eq!(double(a), mul(a, 2));
        assert_eq!(mul(a, 1), a);
        assert_eq!(mul(a, 0), 0);
    }
}

#[test]
fn products_distribute_and_associate() {
    for a in elements() {
        for b in elements() {
            for c in [1, 2, 3, 29, 127, 128, 142, 255] {
                assert_eq!(mul(a, add(b, c)), add(mul(a, b), mul(a, c)));
                assert_eq!(mul(a, mul(b, c)), mul(mul(a, b), c));
            }
        }
    }
}

#[test]
fn every_element_but_0_has_an_inverse() {
    assert_eq!(inverse(0), None);
    for a in 1..=255 {
        assert_eq!(mul(a, inverse(a).unwrap()), 1);
    }
}

#[test]
fn tables_of_powers_and_logs() {
    let (powers, logs) = (powers(), logs());
    assert_eq!(powers[..9], [1, 2, 4, 8, 16, 32, 64, 128, 29]);
    assert_eq!(powers[254], 142);
    for i in 0..255 {
        assert_eq!(powers[i], power(2, i as u32));
        assert_eq!(powers[(i + 1) % 255], mul(2, powers[i]));
        assert_eq!(usize::from(logs[usize::from(powers[i])]), i);
    }
    for a in 1..=255_u8 {
        assert_eq!(powers[usize::from(logs[usize::from(a)])], a);
        for b in 1..=255_u8 {
            let sum = usize::from(logs[usize::from(a)]) + usize::from(logs[usize::from(b)]);
            assert_eq!(powers[sum % 255], mul(a, b));
        }
    }
    assert_eq!(logs[0], 0);
}

/// E4: the sum is at most 508, a pair reaches that, and 9 bits or more hold it.
#[test]
fn sums_of_two_logarithms() {
    let logs = logs();
    let largest = u32::from(*logs.iter().max().unwrap());
    assert_eq!(2 * largest, 508);
    assert_eq!(held(16, 508), 508);
    assert_eq!(held(9, 508), 508);
    assert_eq!(held(8, 508), 252);
}

/// E4: products by tables are as before for every pair, in 16 bits as in 31; in 8 bits they are not.
#[test]
fn products_by_a_sum_in_16_bits() {
    let (powers, logs) = (powers(), logs());
    let mut wrong_in_8 = 0;
    for a in elements() {
        for b in elements() {
            let product = mul(a, b);
            assert_eq!(mul_held(16, a, b, &powers, &logs), product, "{a} x {b}");
            assert_eq!(mul_held(31, a, b, &powers, &logs), product, "{a} x {b}");
            wrong_in_8 += usize::from(mul_held(8, a, b, &powers, &logs) != product);
        }
    }
    // the pairs whose logarithms make 256 or more
    assert_eq!(wrong_in_8, (1..=253).sum::<usize>());
}
