//! The figures that document 01 holds an implementation to.

use jilbagum_tests::code::{decode, encode};
use jilbagum_tests::field::mul;
use jilbagum_tests::image::{check, fresh, BLOCK};
use jilbagum_tests::settings::{draw, quorum, Settings, Shape};

#[test]
fn quorums() {
    for (n, m, q) in [
        (1, 1, 1),
        (3, 1, 2),
        (4, 3, 4),
        (5, 3, 4),
        (7, 5, 6),
        (16, 1, 9),
    ] {
        assert_eq!(quorum(n, m), Ok(q), "n {n} m {m}");
    }
}

#[test]
fn products() {
    assert_eq!(mul(2, 128), 29);
    assert_eq!(mul(2, 142), 1);
    assert_eq!(mul(3, 3), 5);
}

#[test]
fn parity_of_5_and_9() {
    assert_eq!(encode(4, 2, 1, &[5, 9]), Ok(vec![5, 9, 29, 17]));
    assert_eq!(decode(4, 2, 1, &[2, 3], &[29, 17], 2), Ok(vec![5, 9]));
}

#[test]
fn checks_of_a_fresh_brick() {
    let image = fresh(Settings::new(3, 1, 1, 4, 1), 0).unwrap();
    assert_eq!(check(&image[..BLOCK]), 55);
    assert_eq!(check(&image[BLOCK..2 * BLOCK]), 14);
    assert_eq!(image[..3], [55, 0, 1]);
    assert_eq!(image[BLOCK..BLOCK + 3], [14, 0, 2]);
    for block in image[2 * BLOCK..].chunks(BLOCK) {
        assert_eq!(block[..2], [1, 0]);
        assert!(block[2..].iter().all(|&byte| byte == 0));
    }
}

#[test]
fn clock_draws() {
    assert_eq!(draw(0, 5, 3), Ok((96, 6)));
    assert_eq!(draw(2, 0, 0), Ok((18, 1)));
}

#[test]
fn ends_of_ranges() {
    assert_eq!(Shape::new(16, 1, 1).refusal(), None);
    assert_eq!(Shape::new(17, 1, 1).refusal(), Some(1));
    assert!(draw(0, 0, (1 << 40) - 1).is_ok());
    assert_eq!(draw(0, 0, 1 << 40), Err(7));
}
