//! Bench scripts at every edge of the line forms, settings, numbers and of message 127, with what they print.

/// A name, a script, and what it prints if that was written down by hand.
pub type Edge = (String, Vec<u8>, Option<String>);

/// Parts that stand between semicolons, a line each.
fn lines(parts: &str) -> String {
    if parts.is_empty() {
        return String::new();
    }
    parts.split(';').map(|line| format!("{}\n", line.strip_prefix(' ').unwrap_or(line))).collect()
}

fn refused(numbers: &[u8]) -> String {
    numbers.iter().map(|number| format!("refused {number}\n")).collect()
}

#[derive(Default)]
struct Edges(Vec<Edge>);

impl Edges {
    /// A script of lines between semicolons and what it prints, likewise.
    fn say(&mut self, script: &str, printed: &str) {
        self.0.push((script.chars().take(60).collect(), lines(script).into_bytes(), Some(lines(printed))));
    }

    fn raw(&mut self, name: &str, script: impl Into<Vec<u8>>, printed: String) {
        self.0.push((name.to_string(), script.into(), Some(printed)));
    }

    /// A script without written output.
    fn plain(&mut self, name: String, script: String) {
        self.0.push((name, script.into_bytes(), None));
    }
}

pub fn all() -> Vec<Edge> {
    let mut edges = Edges::default();
    settings(&mut edges);
    numbers(&mut edges);
    clocks(&mut edges);
    hex(&mut edges);
    forms(&mut edges);
    bytes(&mut edges);
    lengths(&mut edges);
    ends(&mut edges);
    letters(&mut edges);
    limit(&mut edges);
    chunks(&mut edges);
    edges.0
}

/// Numbers that are small again if they are cut to 8, 16 or 32 bits.
const WIDE: [&str; 6] = ["256", "65536", "4294967296", "9223372036854775808", "1099511627776", "9999999999999999999"];

fn settings(edges: &mut Edges) {
    for bad in ["0 0 1 2", "0 1 1 2", "5 1 1 2", "3 0 1 2", "3 4 1 2", "1 2 1 2", "3 1 0 2", "3 1 9 2", "3 1 1 0", "3 1 1 1", "3 1 1 5"] {
        edges.say(&format!("set {bad}; crash 0; set 4 4 8 4; crash 0; set 4 4 8 4"), "refused 1; refused 12; refused 12");
    }
    for wide in WIDE {
        for bad in [format!("{wide} 1 1 2"), format!("1 {wide} 1 2"), format!("1 1 {wide} 2"), format!("1 1 1 {wide}")] {
            edges.say(&format!("set {bad}; set 1 1 1 2; set {bad}"), "refused 1; refused 12");
        }
    }
    // One more than a multiple of 2^8, 2^16, 2^32.
    for wide in ["257", "65537", "4294967297"] {
        edges.say(
            &format!("set {wide} 1 1 2; set 1 {wide} 1 2; set 1 1 {wide} 2; set 2 1 1 {wide}"),
            "refused 1; refused 1; refused 1; refused 1",
        );
    }
    for n in 1..=4 {
        for m in 1..=n {
            for (size, capacity) in [(1, 2), (8, 2), (1, 4), (8, 4), (5, 3)] {
                let zeros = "00".repeat(m * size);
                let q = n - (n - m) / 2;
                let numbers = |from: usize, to: usize| (from..=to).map(|k| format!(" {k}")).collect::<String>();
                let script = format!("set {n} {m} {size} {capacity}; read 3 7 0; carry{}; carry{}", numbers(1, n), numbers(n + 1, n + q));
                // With targets 0 to m - 1 all among the first q replies, the read ends in one round.
                edges.say(&script, &format!("3 read 115 F {zeros}"));
            }
        }
    }
    for line in
        ["write 0 1 0a", "read 0 1 0", "carry 1", "carry 1 2 3", "crash 0", "down 0", "up 0", "crash 9", "", "set", "set 1 1 1", "x"]
    {
        edges.say(&format!("{line}; set 1 1 1 2; {line}x; set 1 1 1 2"), "refused 12; refused 12; refused 12");
    }
    edges.say(
        "set 1 1 1 2; set 1 1 1 2; set 9 9 9 9; set 0 0 0 0; set 1; set",
        "refused 12; refused 12; refused 12; refused 12; refused 12",
    );
    edges.say("set 0004 0000000000000000002 08 004; read 0 1 3; read 0 1 3; read 0 1 4", "refused 9; refused 3");
}

fn numbers(edges: &mut Edges) {
    for n in 1..=4 {
        let set = format!("set {n} 1 1 2");
        for past in [format!("{n}"), format!("{}", n + 1)].into_iter().chain(WIDE.map(String::from)) {
            edges.say(
                &format!("{set}; down {past}; up {past}; read 0 1 {past}; read 4 1 {past}"),
                "refused 3; refused 3; refused 3; refused 3",
            );
        }
        edges.say(&format!("{set}; down {0}; down {0}; up {0}; up {0}; read 0 1 {0}; crash 0", n - 1), "0 read 16 C cut");
    }
    for past in ["4", "5", "15", "16"].into_iter().chain(WIDE) {
        edges.say(&format!("set 2 1 1 2; crash {past}; read {past} 1 0; write {past} 1 0a"), "refused 3; refused 3; refused 3");
    }
    edges.say("set 2 1 1 2; crash 0; crash 1; crash 2; crash 3; crash 4", "refused 3");
    for past in ["0", "3", "4", "127", "128", "257", "258", "65537", "65538"].into_iter().chain(WIDE) {
        edges.say(&format!("set 2 1 1 2; read 0 1 0; carry {past}"), "refused 12");
    }
    // Digits: 19 read, 20 don't, in each place.
    for (zeros, number) in [(18, 0), (17, 0), (1, 0), (19, 12), (20, 12), (40, 12)] {
        let pad = "0".repeat(zeros);
        let word = |digit: &str| format!("{pad}{digit}");
        let printed = |text: &str, past: &str| if number == 0 { text.to_string() } else { past.to_string() };
        edges.say(&format!("set {} 1 1 2; set 1 1 1 2", word("1")), &printed("refused 12", "refused 12"));
        edges.say(&format!("set 1 1 1 2; crash {}", word("4")), &printed("refused 3", "refused 12"));
        edges
            .say(&format!("set 1 1 1 2; down {}; up {}", word("1"), word("1")), &printed("refused 3; refused 3", "refused 12; refused 12"));
        for (a, b, c) in [("0", "1", "0"), ("1", "0", "0"), ("0", "0", "1")] {
            let pick = |flag: &str, digit: &str| if flag == "1" { word(digit) } else { digit.to_string() };
            edges.say(
                &format!("set 1 1 1 2; read {} {} {}; crash 0", pick(a, "0"), pick(b, "2"), pick(c, "0")),
                &printed("0 read 32 C cut", "refused 12"),
            );
        }
        edges.say(&format!("set 1 1 1 2; write {} 1 0a; crash 0", word("0")), &printed("0 write 16 C cut", "refused 12"));
        edges.say(&format!("set 1 1 1 2; write 0 {} 0a; crash 0", word("1")), &printed("0 write 16 C cut", "refused 12"));
        edges.say(&format!("set 1 1 1 2; carry 1 {}", word("7")), &printed("refused 12; refused 12", "refused 12"));
        edges.say(&format!("set 1 1 1 2; carry {} 1", word("7")), &printed("refused 12; refused 12", "refused 12"));
    }
    for many in ["18446744073709551616", "18446744073709551617", "10000000000000000000", "99999999999999999999"] {
        edges.say(
            &format!("set 1 1 1 2; crash {many}; read 0 {many} 0; carry 1 {many}; down {many}"),
            "refused 12; refused 12; refused 12; refused 12",
        );
    }
    edges.say("set 1 1 1 2; carry 9999999999999999999 9999999999999999999 0 1", "refused 12; refused 12; refused 12; refused 12");
    // A word that doesn't read: nothing of the line is carried.
    edges.say("set 1 1 1 2; read 0 1 0; carry 1 2 x; carry 1; carry 2", "refused 12; 0 read 16 F 00");
    edges.say("set 1 1 1 2; read 0 1 0; carry 9 1 0 2 7", "refused 12; refused 12; 0 read 16 F 00; refused 12");
}

fn clocks(edges: &mut Edges) {
    for c in 0..4_u64 {
        let last = ((1_u64 << 40) - 1) * 16 + c;
        let start = format!("set 2 1 1 2; read {c} 1099511627775 0; crash {c}");
        let past = format!("read {c} 0 0; write {c} 5 0a; read {c} 1099511627776 0; read {c} 0 2; write {c} 0 0");
        edges.say(&format!("{start}; {past}"), &format!("{c} read {last} C cut; refused 8; refused 8; refused 7; refused 3; refused 8"));
        // While it runs, 8 comes before 9.
        edges
            .say(&format!("set 2 1 1 2; write {c} 1099511627775 0a; read {c} 0 0; crash {c}"), &format!("refused 8; {c} write {last} C cut"));
        // The last but one count, then the last.
        edges.say(
            &format!("set 2 1 1 2; read {c} 1099511627774 0; crash {c}; read {c} 0 0; crash {c}; read {c} 0 0"),
            &format!("{c} read {} C cut; {c} read {last} C cut; refused 8", last - 16),
        );
        edges.say(
            &format!("set 2 1 1 2; read {c} 0 0; crash {c}; read {c} 0 0; crash {c}"),
            &format!("{c} read {} C cut; {c} read {} C cut", 16 + c, 32 + c),
        );
    }
    for past in ["1099511627776", "1099511627777", "2199023255553", "9223372036854775808", "9999999999999999999"] {
        edges.say(
            &format!("set 2 1 1 2; read 0 {past} 0; write 1 {past} 0a; write 1 {past} 0; read 4 {past} 0; read 0 {past} 2"),
            "refused 7; refused 7; refused 7; refused 3; refused 3",
        );
    }
    // A refused start leaves the count; a crash keeps it.
    edges.say(
        "set 1 1 1 2; write 0 9 0; write 0 9 0a0; read 0 9 1; write 0 1 0a; crash 0; read 0 0 0; crash 0",
        "refused 12; refused 12; refused 3; 0 write 16 C cut; 0 read 32 C cut",
    );
    edges.say(
        "set 2 1 1 2; read 0 1 0; read 0 1099511627776 0; read 0 9 0; write 0 9 0; write 0 9 0a; read 0 9 2; crash 0; read 0 0 0; crash 0",
        "refused 7; refused 9; refused 9; refused 9; refused 3; 0 read 16 C cut; 0 read 32 C cut",
    );
}

fn hex(edges: &mut Edges) {
    for (n, m, size) in [(1, 1, 1), (2, 2, 1), (3, 2, 3), (4, 4, 8), (4, 1, 8)] {
        let right = 2 * m * size;
        for count in [1, right - 1, right + 1, right + 2, right + 3, right * 2, right / 2, 900] {
            let zeros = "0".repeat(count);
            let printed = if count == right { "" } else { "refused 12; " };
            // The count of digits comes after 3, 7, 8 and 9.
            edges.say(
                &format!("set {n} {m} {size} 2; write 0 1 {zeros}; crash 0; write 4 1 {zeros}; write 0 1099511627776 {zeros}; read 1 1 0; write 1 1 {zeros}"),
                &format!("{printed}{}refused 3; refused 7; refused 9", if count == right { "0 write 16 C cut; " } else { "" }),
            );
            // A character that is no digit: the line doesn't read, whatever else.
            edges.say(
                &format!("set {n} {m} {size} 2; write 4 1 {zeros}g; write 4 1 g{zeros}; write 4 1 0x{zeros}"),
                "refused 12; refused 12; refused 12",
            );
        }
    }
    for (given, shown) in [
        ("abcdef", "abcdef"),
        ("ABCDEF", "abcdef"),
        ("aBcDeF", "abcdef"),
        ("012345", "012345"),
        ("6789aF", "6789af"),
        ("00ff00", "00ff00"),
        ("0a0B0c", "0a0b0c"),
    ] {
        edges.say(
            &format!("set 1 1 3 2; write 0 1 {given}; carry 1 2 3 4; read 0 1 0; carry 6 7"),
            &format!("0 write 16 S ok; 0 read 32 F {shown}"),
        );
    }
    // Every byte value in a stripe, through write and read.
    for k in 0..32 {
        let bytes: String = (0..8).map(|j| format!("{:02x}", 8 * k + j)).collect();
        edges.say(
            &format!("set 1 1 8 2; write 0 1 {}; carry 1 2 3 4 5; read 0 1 0; carry 6 7", bytes.to_uppercase()),
            &format!("0 write 16 S ok; 0 read 32 F {bytes}"),
        );
    }
}

fn forms(edges: &mut Edges) {
    let right = [("set", 4), ("write", 0), ("read", 3), ("crash", 1), ("down", 1), ("up", 1)];
    for (word, count) in right {
        for given in 0..7 {
            let words = " 9".repeat(given);
            if given == count {
                continue;
            }
            // A write of three words reads, its coordinator is refused.
            let number = if word == "write" && given == 3 { 3 } else { 12 };
            edges.raw(&format!("{word} with {given}"), format!("set 1 1 1 2\n{word}{words}\n"), refused(&[number]));
            edges.raw(&format!("{word} with {given}, a space"), format!("set 1 1 1 2\n{word}{words} \n"), refused(&[12]));
        }
    }
    for line in ["set 9 9 9 9", "write 9 1 0a", "read 9 1 0", "carry 9", "carry 9 9", "crash 9", "down 9", "up 9"] {
        let mut broken =
            vec![format!(" {line}"), format!("{line} "), line.replacen(' ', "  ", 1), line.replacen(' ', "\t", 1), format!("{line}\r")];
        broken.extend([line.replace(' ', ""), line.to_uppercase(), format!("{}{}", line[..1].to_uppercase(), &line[1..])]);
        broken.extend([
            format!("\u{feff}{line}"),
            format!("{line};"),
            format!("{line} #"),
            format!("\"{line}\""),
            line.replacen(' ', "\u{a0}", 1),
        ]);
        broken.extend([
            format!("x{line}"),
            line[1..].to_string(),
            line.replacen(' ', "x ", 1),
            format!("{line}\0"),
            format!("\0{line}"),
            line.replacen(' ', " -", 1),
            line.replacen(' ', " +", 1),
        ]);
        if let Some(at) = line.rfind(' ') {
            broken.push(format!("{} {}", &line[..at], &line[at..]));
            broken.push(format!("{}.0", line));
        }
        for text in broken {
            edges.raw(&format!("{text:?}"), format!("set 1 1 1 2\n{text}\n"), refused(&[12]));
        }
    }
    for line in [
        "quit",
        "help",
        "s",
        "se",
        "sett 1 1 1 2",
        "carr 1",
        "carryy 1",
        "wr 0 1 0a",
        "writes 0 1 0a",
        "rea 0 1 0",
        "u 0",
        "upp 0",
        "dow 0",
        "downn 0",
        "0",
        "1 2",
        "carry x",
        "carry",
        "carry ",
        "carry  1",
    ] {
        edges.raw(line, format!("set 1 1 1 2\n{line}\n"), refused(&[12]));
    }
}

/// Each byte value in some places of a line.
fn bytes(edges: &mut Edges) {
    let places: [(&str, &[u8], &[u8]); 7] = [
        ("the number of a crash", b"crash ", b""),
        ("after a crash", b"crash 9", b""),
        ("before a crash", b"", b"crash 9"),
        ("the space of a crash", b"crash", b"9"),
        ("in a word", b"cra", b"h 9"),
        ("a hex digit", b"write 9 1 0", b""),
        ("in a carry", b"carry 1 ", b" 1"),
    ];
    for (name, before, after) in places {
        for byte in 0..=255_u8 {
            let line = [before, &[byte], after].concat();
            let script = [b"set 1 1 1 2\n".as_slice(), &line, b"\n"].concat();
            let printed = match (name, byte) {
                (_, b'\n') => None,
                ("the number of a crash", b'0'..=b'3') => Some(refused(&[])),
                ("the number of a crash", b'4'..=b'9') => Some(refused(&[3])),
                ("after a crash", b'0'..=b'9') => Some(refused(&[3])),
                ("the space of a crash", b' ') => Some(refused(&[3])),
                ("in a word", b's') => Some(refused(&[3])),
                ("a hex digit", b'0'..=b'9' | b'a'..=b'f' | b'A'..=b'F') => Some(refused(&[3])),
                ("in a carry", b'0'..=b'9') => Some(refused(&[12, 12, 12])),
                _ => Some(refused(&[12])),
            };
            edges.0.push((format!("byte {byte} as {name}"), script, printed));
        }
    }
}

fn lengths(edges: &mut Edges) {
    let set = "set 1 1 1 2\n";
    // A write with many digits is 3 if it reads.
    for (length, number) in [
        (999, 3),
        (1000, 3),
        (1001, 12),
        (1002, 12),
        (1024, 12),
        (1025, 12),
        (2000, 12),
        (2001, 12),
        (4096, 12),
        (65_536, 12),
        (1_000_000, 12),
    ] {
        let line = format!("write 4 1 {}", "a".repeat(length - 10));
        edges.raw(&format!("write of {length}"), format!("{set}{line}\ncrash 4\n"), refused(&[number, 3]));
        edges.raw(&format!("write of {length} at the end"), format!("{set}crash 4\n{line}"), refused(&[3, number]));
    }
    for tail in ["", "\n"] {
        for (more, count) in [("", 332), ("1", 1), ("11", 1), (" 1", 1)] {
            let line = format!("carry{} 1{more}", " 07".repeat(331));
            edges.raw(&format!("carry of {}", line.len()), format!("{set}{line}{tail}"), refused(&vec![12; count]));
        }
    }
    // A long line whose end alone would read, and one whose first 1,000 bytes would.
    for length in (990..1040).chain(2040..2056).chain([3000, 3003, 4095, 4096, 4097, 8192, 16_384, 65_535, 65_536, 65_537]) {
        let long = format!("{}crash 4", "x".repeat(length));
        edges.raw(&format!("tail after {length}"), format!("{set}{long}\ncrash 4\n{long}"), refused(&[12, 3, 12]));
        let zeros = format!("write 4 1 {}\n", "0".repeat(length));
        let number = if zeros.len() - 1 <= 1000 { 3 } else { 12 };
        edges.raw(&format!("digits {length}"), format!("{set}{zeros}{zeros}crash 4"), refused(&[number, number, 3]));
    }
    for length in [1_000_000, 3_000_000] {
        for fill in ["0", " ", "\0", "carry 1 "] {
            let long = fill.repeat(length / fill.len());
            edges.raw(&format!("{length} of {fill:?}"), format!("{set}{long}\nread 0 1 0\ncrash 0\n"), refused(&[12]) + "0 read 16 C cut\n");
            edges.raw(&format!("{length} of {fill:?}, no set"), format!("{long}\n{set}crash 4\n{long}"), refused(&[12, 3, 12]));
        }
    }
    // The longest line of a bench's own: 64 hex digits.
    let digits = "5a".repeat(32);
    edges.say(&format!("set 4 4 8 4; write 3 1099511627774 {digits}; crash 3"), "3 write 17592186044387 C cut");
}

fn ends(edges: &mut Edges) {
    edges.raw("empty", "", String::new());
    edges.raw("a newline", "\n", refused(&[12]));
    edges.raw("two newlines", "\n\n", refused(&[12, 12]));
    edges.raw("a space", " ", refused(&[12]));
    edges.raw("a space and a newline", " \n", refused(&[12]));
    edges.raw("NUL", "\0", refused(&[12]));
    edges.raw("CR", "\r", refused(&[12]));
    edges.raw("byte 255", vec![255_u8], refused(&[12]));
    edges.raw("set, no newline", "set 1 1 1 2", String::new());
    edges.raw("no newline at the end", "set 1 1 1 2\nread 0 1 0\ncrash 0", "0 read 16 C cut\n".to_string());
    edges.raw("a blank line at the end", "set 1 1 1 2\nread 0 1 0\ncrash 0\n\n", "0 read 16 C cut\n".to_string() + &refused(&[12]));
    edges.raw("a half word at the end", "set 1 1 1 2\nread 0 1 0\ncras", refused(&[12]));
    edges.raw("CR before newlines", "set 1 1 1 2\r\nread 0 1 0\r\ncrash 0\r\n", refused(&[12, 12, 12]));
    edges.raw("CR for newlines", "set 1 1 1 2\rread 0 1 0\rcrash 0\r", refused(&[12]));
    edges.raw("many blank lines", "\n".repeat(30_000), refused(&vec![12; 30_000]));
    edges.raw(
        "blank lines between",
        format!("{}set 1 1 1 2{}crash 4", "\n".repeat(777), "\n".repeat(1500)),
        refused(&[12; 777]) + &refused(&[12; 1499]) + "refused 3\n",
    );
}

/// Each letter on the fewest bricks that can show it.
fn letters(edges: &mut Edges) {
    let one = "set 1 1 1 2; write 0 1 0a; carry 1 2 3 4";
    edges.say(one, "0 write 16 S ok");
    edges.say(&format!("{one}; read 1 1 0; carry 6 7"), "0 write 16 S ok; 1 read 17 F 0a");
    // The log is full: no Trim was carried, or it was.
    edges.say(&format!("{one}; write 0 2 0b; carry 6 7 8 9"), "0 write 16 S ok; 0 write 32 G abort");
    edges.say(&format!("{one}; carry 5; write 0 2 0b; carry 6 7 8 9"), "0 write 16 S ok; 0 write 32 S ok");
    // A later promise comes before the full log, and an equal time is newer.
    edges.say(&format!("{one}; write 0 2 0b; carry 6 7; write 1 3 0c; carry 9 8 11"), "0 write 16 S ok; 0 write 32 W abort");
    edges.say("set 1 1 1 2; write 0 1 0a; carry 1 2; write 1 2 0b; carry 4 5 3 7", "0 write 16 W abort");
    edges.say("set 1 1 1 2; write 0 1 0a; carry 1 2 3 3 5", "0 write 16 W abort");
    // An Order told no, by the promise and by a newer time; an Order-and-read told no.
    edges.say("set 1 1 1 2; write 1 5 0a; carry 1 2; write 0 1 0b; carry 4 5", "0 write 16 O abort");
    edges.say("set 1 1 1 2; write 1 5 0a; carry 1 2 3 4; write 0 1 0b; carry 6 7", "1 write 81 S ok; 0 write 16 O abort");
    edges.say("set 1 1 1 2; write 1 5 0a; carry 1; read 0 1 0; carry 3 4 5 6", "0 read 16 O abort");
    // A promise makes a read recover; its store meets a free entry or a full log.
    edges.say("set 1 1 1 2; write 0 1 0a; carry 1; crash 0; read 1 2 0; carry 3 4 5 6 7 8", "0 write 16 C cut; 1 read 33 H 00");
    // Message 12 is the early Trim of the store: it makes room, or comes too late.
    let full = format!("{one}; write 0 2 0b; carry 6; crash 0; read 1 3 0; carry 8 9 10 11");
    edges.say(&format!("{full}; carry 13 14"), "0 write 16 S ok; 0 write 32 C cut; 1 read 49 G abort");
    edges.say(&format!("{full}; carry 13 12 14"), "0 write 16 S ok; 0 write 32 C cut; 1 read 49 G abort");
    edges.say(&format!("{full}; carry 12 13 14"), "0 write 16 S ok; 0 write 32 C cut; 1 read 49 H 0a");
    // A Write that one of two bricks has, with m 2: the recovery goes on to time 0. Drops are 16 and 17.
    let two = "write 0 1 0102; carry 1 2 3 4 5; crash 0; read 1 2 0; carry 8 9 10 11 12 13 14 15";
    for (capacity, drops, end) in [(4, "", "L 0000"), (4, "carry 16 17; ", "L 0000"), (2, "", "G abort"), (2, "carry 16; ", "L 0000")] {
        edges.say(
            &format!("set 2 2 1 {capacity}; {two}; {drops}carry 18 19 20 21 22 23 24 25"),
            &format!("0 write 16 C cut; 1 read 33 {end}"),
        );
    }
}

/// Sent messages near 127, by starts, replies, rounds, Trims and Drops.
fn limit(edges: &mut Edges) {
    for n in 1..=4_usize {
        let q = n - (n - 1) / 2;
        let list = |from: usize, count: usize| -> String { (from..from + count).map(|k| format!(" {k}")).collect() };
        // Carries message 1 until so many are sent.
        let pump = |sent: usize, wanted: usize| -> String { "carry 1\n".repeat(wanted.saturating_sub(sent)) };
        for wanted in 127 - 2 * n - 1..=127 {
            let set = format!("set {n} 1 1 4\n");
            let read = format!("{set}read 0 1 0\n");
            let end = "carry 1\ndown 0\ncarry 1\nup 0\ncarry 1 127 128\nread 2 1 0\nread 3 1 0\ncrash 0\ncrash 1\ncrash 2\n";
            let mut put = |name: &str, script: String| edges.plain(format!("{name} at {wanted}, n {n}"), script + end);
            put("start", format!("{read}{}read 1 1 0\nwrite 1 1 0a\n", pump(n, wanted)));
            put("write, wrong digits", format!("{read}{}write 1 1 0\nwrite 1 1 0a\n", pump(n, wanted)));
            put("reply", format!("{read}{}carry 1 1 1\n", pump(n, wanted)));
            // The q-th reply: of an Order round, of a Write round, of a read in one round, of an abort, of a recovery.
            let order = format!("{set}write 0 1 0a\ncarry{}\ncarry{}\n", list(1, q), list(n + 1, q - 1));
            put("round", format!("{order}{}carry {}\ncarry {}\n", pump(n + q, wanted), n + q, n + q));
            let ordered = format!("{set}write 0 1 0a\ncarry{}\ncarry{}\n", list(1, q), list(n + 1, q));
            let stored = format!("{ordered}carry{}\ncarry{}\n", list(n + q + 1, q), list(2 * n + q + 1, q - 1));
            let last = 2 * n + 2 * q;
            put("Trims", format!("{stored}{}carry {last}\ncarry {last}\ncarry{}\n", pump(last, wanted), list(last + 1, n)));
            let fast = format!("{read}carry{}\ncarry{}\n", list(1, q), list(n + 1, q - 1));
            put("one round", format!("{fast}{}carry {}\n", pump(n + q, wanted), n + q));
            // A write is ordered at all bricks and left there; another operation then lacks its q-th reply.
            let second = |write: &str, other: &str| {
                let (promise, asks, replies) = (list(1, n), list(2 * n + 1, q), list(3 * n + 1, q - 1));
                format!("{set}{write}\ncarry{promise}\n{other}\ncarry{asks}\ncarry{replies}\n")
            };
            let late = second("write 0 5 0a", "write 1 1 0b");
            put("abort", format!("{late}{}carry {}\n", pump(3 * n + q, wanted), 3 * n + q));
            let promised = second("write 0 1 0a", "read 1 2 0");
            put("recovery", format!("{promised}{}carry {}\n", pump(3 * n + q, wanted), 3 * n + q));
            let recovers = format!("{promised}carry {}\n", 3 * n + q);
            let opened = 4 * n + q;
            let chosen = format!("{recovers}carry{}\ncarry{}\n", list(3 * n + q + 1, q), list(opened + 1, q - 1));
            put("store", format!("{chosen}{}carry {}\n", pump(opened + q, wanted), opened + q));
            let writes = format!("{recovers}carry{}\ncarry{}\n", list(3 * n + q + 1, q), list(opened + 1, q));
            let sent = opened + q + n;
            let counted = format!("{writes}carry{}\ncarry{}\n", list(opened + q + 1, q), list(sent + 1, q - 1));
            put("Trims of a read", format!("{counted}{}carry {}\ncarry {}\n", pump(sent + q, wanted), sent + q, sent + q));
            // A stored write, then one that is ordered at all bricks. The last reply of the recovery's round sends early Trims and the
            // store; it is carried twice, and then what it sent, if it did.
            let twice = |last: usize| {
                let sent = list(last.max(wanted) + 1, 2 * n);
                format!("{}carry {last}\ncarry {last}\ncarry{sent}\n", pump(last, wanted))
            };
            let carry = |parts: &[(usize, usize)]| -> String {
                parts.iter().map(|&(from, count)| format!("carry{}\n", list(from, count))).collect()
            };
            let stored = format!("{set}write 0 1 0a\n{}", carry(&[(1, n), (n + 1, q), (2 * n + 1, n), (3 * n + 1, q)]));
            let ordered = format!("{stored}write 1 2 0b\n{}read 2 3 0\n", carry(&[(5 * n + 1, n)]));
            let found = carry(&[(7 * n + 1, q), (8 * n + 1, q), (8 * n + q + 1, q), (9 * n + q + 1, q - 1)]);
            put("early Trims", format!("{ordered}{found}{}", twice(9 * n + 2 * q)));
            if n > 1 {
                // With m n, a Write that one brick has; the last reply of the recovery's round sends Drops and the next round.
                let write = format!("set {n} {n} 1 2\nwrite 0 1 {}\n", "0a".repeat(n));
                let cut = format!("{write}{}crash 0\nread 1 2 0\n", carry(&[(1, n), (n + 1, n), (2 * n + 1, 1)]));
                let found = carry(&[(3 * n + 2, n), (4 * n + 2, n), (5 * n + 2, n), (6 * n + 2, n - 1)]);
                put("Drops", format!("{cut}{found}{}", twice(7 * n + 1)));
            }
        }
    }
    // Trims are carried at 127, and a second set of them isn't sent.
    edges.say(
        &format!(
            "set 1 1 1 2; write 0 1 0a; carry 1 2 3 4 5{}; carry 5 5 5; carry 1; read 1 1 0; down 0; carry 1 5",
            "; carry 1".repeat(122)
        ),
        "0 write 16 S ok; refused 12; refused 12",
    );
}

/// Lines across every offset around the likely sizes of a chunk.
fn chunks(edges: &mut Edges) {
    for chunk in [64_usize, 128, 256, 512, 1000, 1024, 2048, 4096, 8192, 16_384, 32_768, 65_536] {
        for past in 0..12 {
            // The line starts so far before the chunk's end.
            let mut script = b"set 1 1 1 2\nread 0 1 0\n".to_vec();
            let start = chunk - past;
            let mut printed = Vec::new();
            while script.len() < start {
                let rest = start - script.len();
                let length = if rest > 1001 { 900 } else { rest };
                script.extend(vec![b'x'; length - 1]);
                script.push(b'\n');
                printed.push(12);
            }
            script.extend(b"crash 4\ncarry 7\ncrash 0\n\nread 9 1 0");
            let expected = refused(&printed) + "refused 3\nrefused 12\n0 read 16 C cut\nrefused 12\nrefused 3\n";
            edges.0.push((format!("chunk {chunk} less {past}"), script, Some(expected)));
        }
    }
}
