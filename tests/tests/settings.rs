//! Ranges, quorums, places of client blocks, times and clock draws.

use jilbagum_tests::settings::*;

#[test]
fn settings_in_and_out_of_range() {
    for (n, m, size, capacity, stripes) in [
        (1, 1, 1, 2, 1),
        (16, 1, 256, 32, 64),
        (16, 16, 1, 2, 1),
        (4, 3, 8, 4, 63),
    ] {
        let settings = Settings::new(n, m, size, capacity, stripes);
        assert_eq!(settings.refusal(), None);
        assert_eq!(settings.volume().refusal(), None);
    }
    let past = [
        (0, 0, 1, 2, 1),
        (0, 1, 1, 2, 1),
        (1, 0, 1, 2, 1),
        (1, 2, 1, 2, 1),
        (16, 17, 1, 2, 1),
        (17, 1, 1, 2, 1),
        (3, 1, 0, 2, 1),
        (3, 1, 257, 2, 1),
        (3, 1, 1, 1, 1),
        (3, 1, 1, 0, 1),
        (3, 1, 1, 33, 1),
        (3, 1, 1, 2, 0),
        (3, 1, 1, 2, 65),
        (3, 1, 1, 2, u64::MAX),
        (u64::MAX, u64::MAX, u64::MAX, u64::MAX, u64::MAX),
    ];
    for (n, m, size, capacity, stripes) in past {
        let settings = Settings::new(n, m, size, capacity, stripes);
        assert_eq!(settings.refusal(), Some(1), "{settings:?}");
        // A coordinator knows no log, the code neither that nor stripes.
        let of_log = !(2..=32).contains(&capacity);
        let of_code = settings.shape.refusal().is_some();
        let of_stripes = !(1..=64).contains(&stripes);
        assert!(of_log || of_code || of_stripes);
        let refused = settings.volume().refusal() == Some(1);
        assert_eq!(refused, of_code || of_stripes, "{settings:?}");
    }
}

#[test]
fn stripes_below_the_count() {
    for stripes in 1..=64 {
        let volume = Volume::new(3, 1, 1, stripes);
        assert_eq!(volume.stripe_refusal(0), None);
        assert_eq!(volume.stripe_refusal(stripes - 1), None);
        assert_eq!(volume.stripe_refusal(stripes), Some(13));
        assert_eq!(volume.stripe_refusal(u64::MAX), Some(13));
    }
}

#[test]
fn places_of_client_blocks() {
    let settings = Settings::new(5, 3, 1, 2, 4);
    for (block, at) in [
        (0, (0, 0)),
        (1, (1, 0)),
        (3, (3, 0)),
        (4, (0, 1)),
        (7, (3, 1)),
        (11, (3, 2)),
    ] {
        assert_eq!(place(settings, block), Ok(at));
    }
    for block in [12, 13, 15, 20, u64::MAX] {
        assert_eq!(place(settings, block), Err(13));
    }
    // One stripe: a client block is the data block of its number.
    let one = Settings::new(5, 3, 1, 2, 1);
    assert!((0..3).all(|block| place(one, block) == Ok((0, block))));
    assert_eq!(place(one, 3), Err(13));
    // The settings come first.
    for (m, capacity, stripes) in [(0, 2, 4), (6, 2, 4), (3, 1, 4), (3, 2, 0), (3, 2, 65)] {
        let wrong = Settings::new(5, m, 1, capacity, stripes);
        assert_eq!(place(wrong, 0), Err(1));
        assert_eq!(place(wrong, u64::MAX), Err(1));
    }
}

/// Each data block of each stripe is the place of exactly one client block.
#[test]
fn places_are_one_to_one() {
    for stripes in 1..=64 {
        for m in 1..=16 {
            let settings = Settings::new(16, m, 1, 2, stripes);
            for stripe in 0..stripes {
                for data in 0..m {
                    // The client block of a place: the inverse.
                    let block = data * stripes + stripe;
                    assert_eq!(place(settings, block), Ok((stripe, data)));
                }
            }
            let mut places: Vec<(u64, u64)> = (0..stripes * m)
                .map(|block| place(settings, block).unwrap())
                .collect();
            assert!(places
                .iter()
                .all(|&(stripe, data)| stripe < stripes && data < m));
            places.sort_unstable();
            places.dedup();
            assert_eq!(places.len() as u64, stripes * m);
            assert_eq!(place(settings, stripes * m), Err(13));
        }
    }
}

#[test]
fn two_quorums_share_m_bricks() {
    for n in 1..=16 {
        for m in 1..=n {
            let q = quorum(n, m).unwrap();
            assert!(q <= n && 2 * q >= n + m, "n {n} m {m}");
            assert!(
                n - m < 2 || 2 * (q - 1) < n + m,
                "a smaller quorum would do"
            );
        }
    }
    assert_eq!(quorum(0, 0), Err(1));
    assert_eq!(quorum(17, 1), Err(1));
    assert_eq!(quorum(3, 0), Err(1));
    assert_eq!(quorum(3, 4), Err(1));
}

#[test]
fn valid_times() {
    for time in [16, 31, 32, (1 << 44) - 1] {
        assert!(valid_time(time) && log_time(time));
    }
    for time in [1, 15, 1 << 44, u64::MAX] {
        assert!(!valid_time(time) && !log_time(time));
    }
    assert!(!valid_time(0) && log_time(0));
}

#[test]
fn draws_take_the_larger_count() {
    assert_eq!(draw(3, 7, 8), Ok((8 * 16 + 3, 8)));
    assert_eq!(draw(3, 7, 9), Ok((9 * 16 + 3, 9)));
    assert_eq!(draw(3, 7, 7), Ok((8 * 16 + 3, 8)));
    assert_eq!(
        draw(15, LAST_COUNT - 1, 0),
        Ok((NO_UPPER_END - 1, LAST_COUNT))
    );
    assert_eq!(draw(0, 0, LAST_COUNT), Ok((LAST_COUNT * 16, LAST_COUNT)));
}

#[test]
fn draws_refused_lowest_first() {
    assert_eq!(draw(0, LAST_COUNT, LAST_COUNT), Err(8));
    assert_eq!(draw(0, LAST_COUNT, 0), Err(8));
    assert_eq!(draw(0, LAST_COUNT, LAST_COUNT + 1), Err(7));
    assert_eq!(draw(0, 0, u64::MAX), Err(7));
    assert_eq!(draw(0, LAST_COUNT + 1, u64::MAX), Err(6));
    assert_eq!(draw(16, LAST_COUNT + 1, u64::MAX), Err(3));
    assert!(draw(15, 0, 0).is_ok());
}
