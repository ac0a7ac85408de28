//! The proved field, quorum, settings and clock against the independent code.

use jilbagum_tests::{field, proved, rng::Rng, settings};

#[test]
fn all_products_and_quotients() {
    for a in 0..=255_u8 {
        for b in 0..=255_u8 {
            assert_eq!(proved::mul(a, b), field::mul(a, b), "{a} x {b}");
            let quotient = field::inverse(b).map_or(0, |c| field::mul(a, c));
            assert_eq!(proved::div(a, b), quotient, "{a} / {b}");
        }
        assert_eq!(proved::inv(a), field::inverse(a).unwrap_or(0), "1 / {a}");
    }
}

/// E4: products, quotients and inverses from the proved tables with the sum as it was held before, in a word, and in 16 bits.
#[test]
fn products_as_before_for_every_pair() {
    let powers: [u8; 255] = std::array::from_fn(proved::power);
    let logs: [u8; 256] = std::array::from_fn(|a| proved::log(a as u8));
    for a in 0..=255_u8 {
        for b in 0..=255_u8 {
            for bits in [16, 31] {
                assert_eq!(proved::mul(a, b), field::mul_held(bits, a, b, &powers, &logs), "{a} x {b} in {bits} bits");
                let inverse = proved::inv(b);
                assert_eq!(proved::div(a, b), field::mul_held(bits, a, inverse, &powers, &logs), "{a} / {b} in {bits} bits");
            }
        }
    }
}

#[test]
fn powers_and_logarithms() {
    let (powers, logs) = (field::powers(), field::logs());
    for k in 0..300 {
        assert_eq!(proved::power(k), powers.get(k).copied().unwrap_or(0), "2 to the {k}");
    }
    for a in 0..=255_u8 {
        assert_eq!(proved::log(a), logs[a as usize], "logarithm of {a}");
    }
}

#[test]
fn quorums_of_all_settings() {
    for n in 1..=16_usize {
        for m in 1..=n {
            assert_eq!(proved::quorum(n, m) as u64, settings::quorum(n as u64, m as u64).unwrap(), "n {n} m {m}");
        }
    }
}

#[test]
fn settings_in_and_around_their_ranges() {
    let sizes = [0, 1, 2, 255, 256, 257, usize::MAX];
    let capacities = [0, 1, 2, 31, 32, 33, usize::MAX];
    let stripe_counts = [0, 1, 2, 63, 64, 65, usize::MAX];
    let compare = |n: usize, m: usize, size: usize, capacity: usize, stripes: usize| {
        let other = settings::Settings::new(n as u64, m as u64, size as u64, capacity as u64, stripes as u64);
        let number = other.refusal().map_or(0, u32::from);
        assert_eq!(proved::settings((n, m, size, capacity, stripes)), number, "{n} {m} {size} {capacity} {stripes}");
    };
    for n in (0..=18).chain([usize::MAX]) {
        for m in (0..=18).chain([usize::MAX]) {
            for size in sizes {
                for capacity in capacities {
                    stripe_counts.iter().for_each(|&stripes| compare(n, m, size, capacity, stripes));
                }
            }
        }
    }
    (0..=70).for_each(|stripes| compare(5, 3, 64, 4, stripes));
}

#[test]
fn valid_times_at_the_borders() {
    for border in [0, 1, 15, 16, 17, (1 << 44) - 1, 1 << 44, (1 << 44) + 1, u64::MAX] {
        assert_eq!(proved::is_time(border), settings::valid_time(border), "{border}");
    }
}

/// Both clocks on one draw, the buffer filled with a pattern that a refusal must leave.
fn compare_draw(coordinator: u64, last: u64, reading: u64) {
    let mut out = [7, 9];
    let number = proved::draw(coordinator, last, reading, &mut out);
    match settings::draw(coordinator, last, reading) {
        Ok((time, next)) => assert_eq!((number, out), (0, [time, next])),
        Err(refusal) => assert_eq!((number, out), (u32::from(refusal), [7, 9]), "{coordinator} {last} {reading}"),
    }
}

#[test]
fn draws_at_the_borders() {
    let top = (1_u64 << 40) - 1;
    let counts = [0, 1, 2, 5, 3, top - 2, top - 1, top, top + 1, u64::MAX];
    for coordinator in [0, 1, 2, 14, 15, 16, 17, u64::MAX] {
        for last in counts {
            for reading in counts {
                compare_draw(coordinator, last, reading);
            }
        }
    }
    let mut rng = Rng::printed(1);
    for _ in 0..100_000 {
        let (last, reading) = (rng.number() >> (rng.below(64)), rng.number() >> (rng.below(64)));
        compare_draw(rng.below(18), last, reading);
    }
}

#[test]
fn a_draw_into_a_buffer_of_another_length_is_refused() {
    for length in [0, 1, 3, 8] {
        let mut out = vec![7; length];
        assert_eq!(proved::draw(0, 5, 3, &mut out), 2);
        assert_eq!(out, vec![7; length]);
    }
}

/// The paper's own figures of quorums, products, draws and ranges.
#[test]
fn the_papers_figures() {
    for (n, m, q) in [(1, 1, 1), (3, 1, 2), (4, 3, 4), (5, 3, 4), (7, 5, 6), (16, 1, 9)] {
        assert_eq!(proved::quorum(n, m), q, "n {n} m {m}");
    }
    assert_eq!([proved::mul(2, 128), proved::mul(2, 142), proved::mul(3, 3)], [29, 1, 5]);
    let draw = |coordinator, last, reading| {
        let mut out = [0; 2];
        (proved::draw(coordinator, last, reading, &mut out), out)
    };
    assert_eq!([draw(0, 5, 3), draw(2, 0, 0)], [(0, [96, 6]), (0, [18, 1])]);
    assert_eq!([16, 17].map(|n| proved::settings((n, 1, 1, 2, 1))), [0, 1]);
    assert_eq!([(1 << 40) - 1, 1 << 40].map(|reading| draw(0, 0, reading).0), [0, 7]);
}
