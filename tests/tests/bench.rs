//! The bench: its worked case, and the lines that read.

use jilbagum_tests::bench::{play, Bench};
use jilbagum_tests::brick::DROP;

/// Plays lines that stand between semicolons.
fn played(script: &str) -> String {
    let lines: String = script
        .split(';')
        .map(|line| format!("{}\n", line.trim_start()))
        .collect();
    String::from_utf8(play(lines.as_bytes())).unwrap()
}

fn refusals(numbers: &[u8]) -> String {
    numbers
        .iter()
        .map(|number| format!("refused {number}\n"))
        .collect()
}

#[test]
fn the_worked_case() {
    let printed = played(
        "set 3 1 1 4; write 0 1 0a; carry 1 4 2 5 6; crash 0; down 0; read 1 2 1; \
         carry 11 13 12 14 16 18 17 19 21 23 22 24; up 0; read 1 3 0; \
         carry 28 31 29 32 33 36 34 37 38 41 39 42",
    );
    assert_eq!(
        printed,
        "0 write 16 C cut\n1 read 33 H 00\n1 read 49 H 00\n"
    );
}

#[test]
fn ends_of_the_input() {
    assert_eq!(play(b""), b"");
    assert_eq!(play(b"\n"), b"refused 12\n");
    assert_eq!(play(b"\n\n"), b"refused 12\nrefused 12\n");
    assert_eq!(
        play(b"set 1 1 1 2\nread 0 1 0\ncrash 0"),
        b"0 read 16 C cut\n"
    );
    assert_eq!(
        play(b"set 1 1 1 2\n\nread 0 1 0\ncrash 0\n"),
        b"refused 12\n0 read 16 C cut\n"
    );
}

#[test]
fn settings_of_the_bench() {
    let past = [
        "0 0 1 2", "5 1 1 2", "3 0 1 2", "3 4 1 2", "3 1 0 2", "3 1 9 2", "3 1 1 1", "3 1 1 5",
    ];
    for settings in past {
        assert_eq!(
            played(&format!("set {settings}; crash 0; set 4 4 8 4; crash 0")),
            refusals(&[1, 12]),
            "{settings}"
        );
    }
    assert_eq!(
        played("set 9999999999999999999 9999999999999999999 9999999999999999999 4"),
        refusals(&[1])
    );
    for settings in ["1 1 1 2", "4 4 8 4", "004 01 8 2"] {
        assert_eq!(played(&format!("set {settings}")), "");
    }
    assert_eq!(
        played("set 1 1 1 2; set 1 1 1 2; set 9 9 9 9; set 1"),
        refusals(&[12, 12, 12])
    );
}

#[test]
fn lines_that_do_not_read() {
    let lines = [
        "",
        " ",
        "read",
        "read 0 1",
        "read 0 1 0 0",
        "read 0 1 0 ",
        " read 0 1 0",
        "read  0 1 0",
        "read\t0 1 0",
        "READ 0 1 0",
        "read 0 1 0\r",
        "read -1 1 0",
        "read +1 1 0",
        "read 0 1 00000000000000000000",
        "write 0 1",
        "write 0 1 ",
        "write 0 1 0g",
        "write 0 1 0a 0b",
        "write 0 1 0x0a",
        "carry",
        "carry ",
        "carry 1 a",
        "carry 1 00000000000000000000",
        "crash",
        "crash 0 0",
        "down",
        "up 0 0",
        "set 1 1 1",
        "set 1 1 1 2 3",
        "\0",
        "crash\u{a0}0",
    ];
    for line in lines {
        assert_eq!(
            play(format!("set 1 1 1 2\n{line}\n").as_bytes()),
            b"refused 12\n",
            "{line:?}"
        );
    }
    assert_eq!(
        play(b"set 1 1 1 2\n\xff\xfe\ncrash 0\x80\n"),
        b"refused 12\nrefused 12\n"
    );
}

#[test]
fn numbers_of_19_digits_read() {
    assert_eq!(
        played("set 1 1 1 2; down 9999999999999999999"),
        refusals(&[3])
    );
    assert_eq!(
        played("set 1 1 1 2; read 0 9999999999999999999 0"),
        refusals(&[7])
    );
    assert_eq!(
        played("set 1 1 1 2; read 0000000000000000000 0000000000000000001 0; crash 00"),
        "0 read 16 C cut\n"
    );
}

#[test]
fn a_line_has_up_to_1000_bytes() {
    // 331 times " 07" and " 1" after "carry" are 1,000 bytes.
    let line = format!("carry{} 1", " 07".repeat(331));
    assert_eq!(line.len(), 1000);
    assert_eq!(
        played(&format!("set 1 1 1 2; {line}")),
        refusals(&[12; 332])
    );
    assert_eq!(played(&format!("set 1 1 1 2; {line}1")), refusals(&[12]));
    assert_eq!(
        played(&format!("set 1 1 1 2; {}", "carry 1 ".repeat(100_000))),
        refusals(&[12])
    );
}

#[test]
fn start_refusals_in_order() {
    let script = |line: &str| played(&format!("set 2 1 1 2; write 0 1099511627775 0a; {line}"));
    for (line, number) in [
        ("write 4 1099511627776 0", 3),
        ("read 4 1099511627776 0", 3),
        ("read 0 1099511627776 2", 3),
        ("write 0 1099511627776 0", 7),
        ("write 0 1 0", 8),
        ("read 0 1 0", 8),
        ("write 1 1 0", 12),
        ("write 1 1 0a0", 12),
        ("write 1 1 0a0b", 12),
    ] {
        assert_eq!(script(line), refusals(&[number]), "{line}");
    }
    assert_eq!(
        played("set 2 1 1 2; read 0 1 0; write 0 1 0; read 0 1 1; write 0 1 0a"),
        refusals(&[9, 9, 9])
    );
}

#[test]
fn a_refused_start_leaves_the_count() {
    assert_eq!(
        played("set 2 1 1 2; write 0 9 0; write 0 1 0a; crash 0"),
        "refused 12\n0 write 16 C cut\n"
    );
}

#[test]
fn hex_of_either_case() {
    let printed = played("set 1 1 3 2; write 0 1 aBCdeF; carry 1 2 3 4; read 0 1 0; carry 6 7");
    assert_eq!(printed, "0 write 16 S ok\n0 read 32 F abcdef\n");
}

#[test]
fn no_message_past_127() {
    let mut bench = Bench::default();
    bench.line(b"set 1 1 1 2");
    bench.line(b"write 0 1 0a");
    for _ in 0..125 {
        assert_eq!(bench.line(b"carry 1"), b"");
    }
    assert_eq!(bench.sent(), 126);
    assert_eq!(
        bench.line(b"carry 2"),
        b"",
        "the Write message is number 127"
    );
    assert_eq!(bench.sent(), 127);
    assert_eq!(bench.line(b"carry 127"), b"refused 12\n");
    assert_eq!(bench.line(b"carry 1"), b"refused 12\n");
    assert_eq!(bench.line(b"carry 3"), b"refused 11\n");
    assert_eq!(bench.line(b"carry 128"), b"refused 12\n");
    assert_eq!(bench.line(b"read 1 1 0"), b"refused 12\n");
    assert_eq!(bench.line(b"down 0"), b"");
    assert_eq!(bench.line(b"carry 127 1"), b"", "lost");
    assert_eq!(bench.line(b"crash 0"), b"0 write 16 C cut\n");
}

/// A message that the brick refuses sends nothing, so at the limit too it has the brick's number.
/// No script comes to this: in a run no image is damaged.
#[test]
fn the_brick_refuses_before_the_limit_does() {
    let mut bench = pumped("set 2 1 1 2; write 0 1 0a", 127);
    assert_eq!(bench.line(b"carry 1 2"), b"refused 12\nrefused 12\n");
    bench.damage(0);
    assert_eq!(bench.line(b"carry 1 2"), b"refused 5\nrefused 12\n");
    assert_eq!(bench.line(b"down 0"), b"");
    assert_eq!(bench.line(b"carry 1"), b"", "lost");
}

/// A script, then message 1 again until so many are sent.
fn pumped(script: &str, sent: usize) -> Bench {
    let mut bench = Bench::default();
    for line in script.split(';') {
        bench.line(line.trim_start().as_bytes());
    }
    while bench.sent() < sent {
        assert_eq!(bench.line(b"carry 1"), b"");
    }
    assert_eq!(bench.sent(), sent);
    bench
}

/// Two bricks, m 2: a cut write left time 16 on brick 0, and message 15 is the reply with which
/// the recovery of a read finds it there alone.
const TO_DROPS: &str = "set 2 2 1 2; write 0 1 0102; carry 1 2 3 4 5; crash 0; \
    read 1 2 0; carry 8 9 10 11 12 13 14";

/// One brick whose log is full; message 11 is the reply with which a recovery finds time 16 on it.
const TO_EARLY_TRIMS: &str = "set 1 1 1 2; write 0 1 0a; carry 1 2 3 4; write 0 2 0b; carry 6; \
    crash 0; read 1 3 0; carry 8 9 10";

#[test]
fn drops_come_first_by_brick_then_the_round() {
    let mut bench = pumped(TO_DROPS, 15);
    assert_eq!(bench.line(b"carry 15"), b"");
    assert_eq!((bench.sent(), bench.rounds(DROP)), (19, 1));
    // 16 and 17 are the Drops, of which that to brick 0 finds an entry, once.
    for (carried, drops, dropped) in [("17", 1, 0), ("16", 2, 1), ("16 17", 4, 1)] {
        assert_eq!(bench.line(format!("carry {carried}").as_bytes()), b"");
        let cleared = bench.cleared();
        assert_eq!((cleared.drops, cleared.dropped), (drops, dropped));
        assert_eq!(bench.sent(), 19, "no replies");
    }
    // 18 and 19 are the round: they have replies.
    bench.line(b"carry 18 19");
    assert_eq!(bench.sent(), 21);
    // Time 0 is found: no early Trims, the store alone.
    bench.line(b"carry 20 21");
    assert_eq!((bench.sent(), bench.cleared().early_trims), (23, 0));
    assert_eq!(bench.line(b"carry 22 23 24 25"), b"1 read 33 L 0000\n");
}

#[test]
fn early_trims_come_before_the_store() {
    let mut bench = pumped(TO_EARLY_TRIMS, 11);
    assert_eq!(bench.line(b"carry 11"), b"");
    assert_eq!(bench.sent(), 13);
    assert_eq!(bench.line(b"carry 12"), b"");
    let cleared = bench.cleared();
    assert_eq!((cleared.early_trims, cleared.trimmed), (1, 1));
    assert_eq!(bench.line(b"carry 13 14"), b"1 read 49 H 0a\n");
    // Message 15 is the store's own Trim, which is no early one.
    assert_eq!(bench.line(b"carry 15"), b"");
    assert_eq!((bench.sent(), bench.cleared().early_trims), (15, 1));
}

/// All 2n messages fit under 127, or the reply is refused and stays uncounted.
#[test]
fn what_is_ahead_fits_with_its_round_or_not_at_all() {
    for (script, reply, n) in [(TO_DROPS, 15, 2), (TO_EARLY_TRIMS, 11, 1)] {
        let carry = format!("carry {reply}");
        for sent in 120..=127 {
            let mut bench = pumped(script, sent);
            let fits = sent + 2 * n <= 127;
            let (first, again) = if fits {
                ("", "refused 11\n")
            } else {
                ("refused 12\n", "refused 12\n")
            };
            assert_eq!(bench.line(carry.as_bytes()), first.as_bytes(), "at {sent}");
            assert_eq!(bench.sent(), if fits { sent + 2 * n } else { sent });
            assert_eq!(bench.line(carry.as_bytes()), again.as_bytes(), "at {sent}");
            let cut = format!("1 read {} C cut\n", if n == 2 { 33 } else { 49 });
            assert_eq!(bench.line(b"crash 1"), cut.as_bytes());
        }
    }
}

/// At the limit a Drop and an early Trim are carried, and lost at a down brick; a message of the
/// round isn't, since its reply would be past it.
#[test]
fn drops_and_early_trims_are_carried_at_the_limit() {
    let mut bench = pumped(TO_DROPS, 123);
    assert_eq!(bench.line(b"carry 15"), b"");
    assert_eq!(bench.sent(), 127);
    bench.line(b"down 0");
    assert_eq!(
        (bench.line(b"carry 124 126"), bench.cleared().drops),
        (vec![], 0)
    );
    bench.line(b"up 0");
    assert_eq!(
        bench.line(b"carry 124 126 127 125 124"),
        b"refused 12\nrefused 12\n"
    );
    let cleared = bench.cleared();
    assert_eq!((cleared.drops, cleared.dropped, bench.sent()), (3, 1, 127));
    let mut bench = pumped(TO_EARLY_TRIMS, 125);
    assert_eq!(bench.line(b"carry 11 126 127 126"), b"refused 12\n");
    let cleared = bench.cleared();
    assert_eq!(
        (cleared.early_trims, cleared.trimmed, bench.sent()),
        (2, 1, 127)
    );
}
