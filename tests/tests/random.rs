//! Random scripts and random runs.

use jilbagum_tests::bench::{play, Bench};
use jilbagum_tests::brick::DROP;
use jilbagum_tests::harness::{some_run, Independent, OFTEN, OFTEN_OF_BLOCKS};
use jilbagum_tests::rng::Rng;
use jilbagum_tests::script;
use jilbagum_tests::tally::Tally;

fn line_is_known(line: &str) -> bool {
    let words: Vec<&str> = line.split(' ').collect();
    match words.as_slice() {
        ["refused", number] => ["1", "3", "7", "8", "9", "11", "12"].contains(number),
        [_, _, _, "C", end] => *end == "cut",
        [_, _, _, "O" | "G" | "W", end] => *end == "abort",
        [_, "write", _, "S", end] => *end == "ok",
        [_, "read", _, "F" | "H" | "L", end] => {
            end.len() % 2 == 0 && end.bytes().all(|byte| byte.is_ascii_hexdigit())
        }
        _ => false,
    }
}

#[test]
fn random_scripts_print_known_lines() {
    let mut rng = Rng::printed(7);
    let (mut oks, mut stripes) = (0, 0);
    for _ in 0..500 {
        let script = script::random(&mut rng);
        let printed = String::from_utf8(play(&script)).unwrap();
        assert!(printed.lines().all(line_is_known), "{printed}");
        oks += printed.lines().filter(|line| line.ends_with("ok")).count();
        let read = |line: &&str| {
            line.contains("read") && !line.ends_with("abort") && !line.ends_with("cut")
        };
        stripes += printed.lines().filter(read).count();
    }
    println!("{oks} writes and {stripes} reads finished");
    assert!(oks > 200 && stripes > 200);
}

/// The scripts that the program is compared on show every letter but X, which none leads to, and
/// Drops and early Trims that free entries.
#[test]
fn mixed_scripts_show_the_letters() {
    let mut rng = Rng::printed(9);
    let mut tally = Tally::default();
    for _ in 0..3000 {
        let mut bench = Bench::default();
        let printed = String::from_utf8(bench.play(&script::mixed(&mut rng).1)).unwrap();
        let cleared = bench.cleared();
        tally.add("Drops sent", bench.rounds(DROP));
        tally.add("Drops carried", cleared.drops);
        tally.add("entries dropped", cleared.dropped);
        tally.add("early Trims carried", cleared.early_trims);
        tally.add("entries trimmed early", cleared.trimmed);
        for line in printed.lines() {
            assert!(line_is_known(line), "{line}");
            if let [_, _, _, letter, _] = line.split(' ').collect::<Vec<_>>()[..] {
                tally.add(letter, 1);
            }
        }
    }
    println!("{:?}", tally.0);
    tally.expect(25, &["F", "H", "L", "S", "O", "G", "W", "C"]);
    tally.expect(
        100,
        &[
            "Drops sent",
            "Drops carried",
            "entries dropped",
            "early Trims carried",
            "entries trimmed early",
        ],
    );
}

/// Bytes with a few changed, lost or doubled: anything may come in.
#[test]
fn senseless_input_is_played_to_its_end() {
    let mut rng = Rng::printed(8);
    for _ in 0..300 {
        let mut script = script::random(&mut rng);
        for _ in 0..rng.below(30) {
            let at = rng.below(script.len() as u64) as usize;
            match rng.below(3) {
                0 => script[at] = rng.byte(),
                1 => script.insert(at, b" 019afx\n"[rng.below(8) as usize]),
                _ => drop(script.remove(at)),
            }
        }
        let printed = String::from_utf8(play(&script)).unwrap();
        assert!(printed.lines().all(line_is_known));
    }
}

/// The independent bricks and coordinators in the runs that the proved ones are searched in.
#[test]
fn random_runs_have_an_order() {
    let mut tally = Tally::default();
    for seed in 400_000..406_000 {
        let world = some_run::<Independent>(seed, 12, 2, |_, _| ());
        assert_eq!(world.fault(), None, "{}", world.story(seed));
        world.note(&mut tally);
    }
    println!("{:?}", tally.0);
    tally.expect(50, &OFTEN);
    tally.expect(50, &OFTEN_OF_BLOCKS);
}
