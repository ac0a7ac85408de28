//! The independent bench prints, at every edge, what was written down by hand.

use jilbagum_tests::bench::Bench;
use jilbagum_tests::brick::DROP;
use jilbagum_tests::edges;
use std::collections::{BTreeMap, BTreeSet};

#[test]
fn every_edge_prints_its_output() {
    let (mut refusals, mut letters) = (BTreeSet::new(), BTreeSet::new());
    let (mut written, mut wrong) = (0, Vec::new());
    let mut limits = BTreeMap::new();
    for (name, script, expected) in edges::all() {
        let mut bench = Bench::default();
        let printed = String::from_utf8(bench.play(&script)).unwrap();
        // Near message 127 some go out and some are refused.
        for (kind, sent, named) in [
            ("Drops", bench.rounds(DROP) > 0, name.starts_with("Drops at")),
            ("early Trims", bench.cleared().early_trims > 0, name.starts_with("early Trims at")),
        ] {
            if named {
                *limits.entry((kind, sent)).or_insert(0) += 1;
            }
        }
        refusals.extend(printed.lines().filter_map(|line| line.strip_prefix("refused ")).map(str::to_string));
        if let Some(expected) = expected {
            written += 1;
            letters.extend(printed.lines().filter_map(|line| line.split(' ').nth(3)?.chars().next()));
            if printed != expected {
                wrong.push(format!("{name}\nprinted\n{printed:.300}expected\n{expected:.300}"));
            }
        }
    }
    println!("{written} edges with written output");
    assert!(wrong.is_empty(), "{} edges:\n{}", wrong.len(), wrong[..wrong.len().min(8)].join("\n"));
    assert!(written > 2000);
    println!("{limits:?}");
    assert!(limits.len() == 4 && limits.values().all(|&count| count > 3), "{limits:?}");
    let all: BTreeSet<String> = ["1", "3", "7", "8", "9", "11", "12"].map(String::from).into();
    assert_eq!(refusals, all);
    // X is left out: see `missing` in src/bin/bench_compare.rs.
    assert_eq!(letters, BTreeSet::from(['F', 'H', 'L', 'S', 'O', 'G', 'W', 'C']));
}
