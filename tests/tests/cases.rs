//! Every script in `cases/` prints its expected output.

use jilbagum_tests::bench::play;
use std::fs;
use std::path::{Path, PathBuf};

fn scripts() -> Vec<PathBuf> {
    let folder = Path::new(env!("CARGO_MANIFEST_DIR")).join("cases");
    let mut scripts: Vec<PathBuf> = fs::read_dir(folder)
        .unwrap()
        .map(|entry| entry.unwrap().path())
        .filter(|path| path.extension().is_some_and(|extension| extension == "in"))
        .collect();
    scripts.sort();
    scripts
}

/// How many cases there are at least.
const CASES: usize = 95;

#[test]
fn every_case_prints_its_output() {
    let scripts = scripts();
    assert!(scripts.len() >= CASES, "cases are missing");
    for script in scripts {
        let input = fs::read(&script).unwrap();
        let expected = fs::read(script.with_extension("out")).unwrap();
        let printed = play(&input);
        assert_eq!(
            String::from_utf8_lossy(&printed),
            String::from_utf8_lossy(&expected),
            "{}",
            script.file_name().unwrap().to_string_lossy()
        );
        assert_eq!(printed, expected);
    }
}
