//! The panel's times in the documents are those that the proved brick shows.

use jilbagum_tests::brick::{clears, DROP, MODIFY, ORDER, TRIM, WRITE};
use jilbagum_tests::harness::{Faults, Proved, Start, World};
use jilbagum_tests::order::End;
use jilbagum_tests::proved;
use jilbagum_tests::settings::Settings;
use std::fs;
use std::path::{Path, PathBuf};

const PROMISES: &str = "docs/PROMISES.md";
const BEGIN: &str = "<!-- panel: written by tests/tests/panel.rs from what the proved brick shows -->\n";
const END: &str = "<!-- end of panel -->\n";

fn path(name: &str) -> PathBuf {
    Path::new(env!("CARGO_MANIFEST_DIR")).join("..").join(name)
}

fn read(name: &str) -> String {
    fs::read_to_string(path(name)).unwrap()
}

/// What the panel of a brick shows: promise and newest, or the refusal.
fn panel(five: proved::Five, brick: usize, image: &[u8]) -> Result<[u64; 2], u32> {
    let mut times = [77; 2];
    match proved::panel(five, brick, image, &mut times) {
        0 => Ok(times),
        number => Err(number),
    }
}

const FIVE: proved::Five = (3, 1, 1, 4, 1);

/// With two data bricks: brick 1 has a mark where block 0 alone is written.
const TWO_DATA: proved::Five = (3, 2, 1, 4, 1);

/// A brick that took these messages of kind and time; of Modify, block 0 over time 0.
fn after_in(five: proved::Five, brick: usize, messages: &[(u8, u64)]) -> Vec<u8> {
    let mut image = vec![0; 512 * (five.3 + 1)];
    assert_eq!(proved::fresh(five, brick, &mut image), 0);
    for &(kind, time) in messages {
        let asked = proved::asked(u64::from(kind), time, 1, 0, 0, [0; 16]);
        let number = proved::receive(five, brick, &mut image, &asked, (&[10], &[0]), &mut [0], &mut [0; 9]);
        assert_eq!(number, if clears(kind) { proved::SILENCE } else { 0 });
    }
    image
}

fn after(brick: usize, messages: &[(u8, u64)]) -> Vec<u8> {
    after_in(FIVE, brick, messages)
}

/// The situations, in words, and what the panel shows then.
fn situations() -> Vec<(&'static str, Result<[u64; 2], u32>)> {
    let whole = after(0, &[(ORDER, 16), (WRITE, 16)]);
    let mut damaged = whole.clone();
    damaged[512 + 16] ^= 1;
    let (n, m, size, capacity, stripes) = FIVE;
    let marked = after_in(TWO_DATA, 1, &[(ORDER, 16), (MODIFY, 16)]);
    let mut newest = [77; 2];
    assert_eq!(proved::entry(TWO_DATA, 1, &marked, 1, &mut newest), 0);
    assert_eq!(newest, [16, 0], "an entry of time 16 without a block");
    vec![
        ("fresh", panel(FIVE, 0, &after(0, &[]))),
        ("store 16 ordered and stored", panel(FIVE, 0, &whole)),
        ("the same after its Trim", panel(FIVE, 0, &after(0, &[(ORDER, 16), (WRITE, 16), (TRIM, 16)]))),
        ("store 16 stored, its Order lost", panel(FIVE, 0, &after(0, &[(WRITE, 16)]))),
        ("store 16 ordered, not stored", panel(FIVE, 1, &after(1, &[(ORDER, 16)]))),
        ("store 16 stored, store 33 ordered, not stored", panel(FIVE, 1, &after(1, &[(ORDER, 16), (WRITE, 16), (ORDER, 33)]))),
        ("stores 16 and 33 stored, the Order of 33 lost, 33 dropped", panel(FIVE, 0, &after(0, &[(ORDER, 16), (WRITE, 16), (WRITE, 33), (DROP, 33)]))),
        ("m 2, block 0 written by store 16: a mark on brick 1", panel(TWO_DATA, 1, &marked)),
        ("two bricks, stores 16 and 33: one has both", panel(FIVE, 0, &after(0, &[(WRITE, 16), (ORDER, 33), (WRITE, 33)]))),
        ("the other missed store 33", panel(FIVE, 1, &after(1, &[(WRITE, 16)]))),
        ("a byte of a block changed", panel(FIVE, 0, &damaged)),
        ("the image of brick 0 opened as brick 1", panel(FIVE, 1, &whole)),
        ("log capacity 33", panel((n, m, size, 33, stripes), 0, &whole)),
        ("a block of 512 bytes missing", panel((n, m, size, capacity, stripes), 0, &whole[512..])),
        ("brick 3 of three", panel(FIVE, 3, &whole)),
    ]
}

/// The block of the document: a row a situation.
fn rows() -> String {
    let mut text = String::from("| bricks of a set of n 3, m 1 | promise | newest |\n|---|---|---|\n");
    for (situation, shown) in situations() {
        text += &match shown {
            Ok([promise, newest]) => format!("| {situation} | {promise} | {newest} |\n"),
            Err(number) => format!("| {situation} | refused {number} | |\n"),
        };
    }
    text
}

/// A document's text before, in and after its block.
fn parts(text: &str) -> Option<(&str, &str, &str)> {
    let (before, rest) = text.split_once(BEGIN)?;
    let (block, after) = rest.split_once(END)?;
    Some((before, block, after))
}

#[test]
fn the_table_is_what_the_brick_shows() {
    let text = read(PROMISES);
    let (_, block, _) = parts(&text).expect("a block of panel rows");
    assert_eq!(block, rows(), "`cargo test .. --test panel -- --ignored` writes it anew");
}

/// Writes the rows anew:
/// `cargo test --offline --locked --manifest-path tests/Cargo.toml --test panel -- --ignored`
#[test]
#[ignore = "rewrites docs/PROMISES.md"]
fn refresh_panel() {
    let text = read(PROMISES);
    let (before, _, after) = parts(&text).expect("a block of panel rows");
    fs::write(path(PROMISES), format!("{before}{BEGIN}{}{END}{after}", rows())).unwrap();
}

/// The words of the table beside it: which of the two times is ahead, and each refusal once.
#[test]
fn the_situations_are_those_of_the_words() {
    let all = situations();
    let shown: Vec<[u64; 2]> = all.iter().filter_map(|(_, shown)| shown.ok()).collect();
    assert!(shown.iter().any(|[promise, newest]| promise > newest) && shown.iter().any(|[promise, newest]| promise <= newest));
    let mut refused: Vec<u32> = all.iter().filter_map(|(_, shown)| shown.err()).collect();
    refused.sort_unstable();
    assert_eq!(refused, [1, 2, 3, 5, 6]);
}

/// README's table of the worked case: the proved bricks and coordinators play it, and the panels are read at its four moments.
#[test]
fn the_worked_case_in_the_readme() {
    let mut world: Option<World<Proved>> = None;
    let mut moments = Vec::new();
    for line in read("tests/cases/doc01_worked_case.in").lines() {
        let mut words = line.split(' ');
        let command = words.next().unwrap();
        let last = words.clone().next_back().unwrap();
        let numbers: Vec<u64> = words.filter_map(|word| word.parse().ok()).collect();
        if command == "set" {
            let &[n, m, size, capacity] = &numbers[..] else { panic!("{line}") };
            world = Some(World::new(Settings::new(n, m, size, capacity, 1), vec![0], Faults::none()));
        }
        let world = world.as_mut().expect("set comes first");
        match command {
            "set" => moments.push(("fresh", panels(world))),
            "write" => {
                let data = (0..last.len() / 2).map(|k| u8::from_str_radix(&last[2 * k..2 * k + 2], 16).unwrap()).collect();
                world.start(numbers[0] as usize, 0, numbers[1], Start::Write(data));
            }
            "read" => world.start(numbers[0] as usize, 0, numbers[1], Start::Read(numbers[2])),
            "carry" => numbers.iter().for_each(|&k| world.arrive(k as usize - 1)),
            "crash" => {
                world.cut(numbers[0] as usize);
                moments.push(("after the cut, before the reads", panels(world)));
            }
            "down" => world.switch(numbers[0] as usize, false),
            "up" => {
                moments.push(("after the first read (brick 0 is down)", panels(world)));
                world.switch(numbers[0] as usize, true);
            }
            _ => panic!("{line}"),
        }
    }
    let world = world.unwrap();
    let ends: Vec<&End> = world.operations.iter().map(|o| &o.ended.as_ref().unwrap().1).collect();
    assert_eq!(ends, [&End::Cut, &End::Gave(vec![0]), &End::Gave(vec![0])]);
    assert_eq!(world.noted.iter().filter_map(|noted| noted.letter).collect::<String>(), "CHH");
    moments.push(("after the second read", panels(&world)));
    let text = read("README.md");
    for (moment, panels) in moments {
        let row = format!("| {moment} | {} |", panels.join(" | "));
        assert!(text.lines().any(|line| line == row), "README has no row {row}");
    }
}

/// Every brick's panel, as README writes it.
fn panels(world: &World<Proved>) -> Vec<String> {
    let five = Proved::five(world.settings);
    let shown = world.images.iter().enumerate().map(|(b, image)| panel(five, b, image).unwrap());
    shown.map(|[promise, newest]| format!("{promise}, {newest}")).collect()
}
