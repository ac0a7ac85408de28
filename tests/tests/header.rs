//! The headers in include/, as firmware takes them: the example of each is compiled and run against the proved library, strictly by C99.

use std::fs;
use std::path::{Path, PathBuf};
use std::process::Command;

/// The header and library of each, with the numbers that its routines refuse. The C entry points stand in a crate of their own, `erasure_c` of
/// `erasure`.
const HEADERS: [(&str, &[u32]); 2] = [("erasure", &[1, 2, 3, 4, 15]), ("volume", &[1, 2, 13])];

fn path(name: &str) -> PathBuf {
    Path::new(env!("CARGO_MANIFEST_DIR")).join("..").join(name)
}

fn header(name: &str) -> String {
    fs::read_to_string(path(&format!("include/{name}.h"))).unwrap()
}

/// The program in a header's comment.
fn example(name: &str) -> String {
    let header = header(name);
    let (_, rest) = header.split_once("Example (compiled and run by tests/tests/header.rs):\n").expect("an example");
    let (example, _) = rest.split_once("   (end of the example)").expect("its end");
    example.lines().map(|line| format!("{}\n", line.strip_prefix("       ").unwrap_or(line))).collect()
}

#[test]
fn the_example_compiles_and_runs() {
    for (name, _) in HEADERS {
        let folder = std::env::temp_dir().join(format!("{name}_header_{}", std::process::id()));
        fs::create_dir_all(&folder).unwrap();
        let (source, program) = (folder.join("example.c"), folder.join("example"));
        fs::write(&source, example(name)).unwrap();
        let made = Command::new("cc")
            .args(["-std=c99", "-pedantic", "-Wall", "-Wextra", "-Werror"])
            .arg(format!("-I{}", path("include").display()))
            .args([Path::new("-o"), &program, &source, &path(&format!("target/staticlib/lib{name}.a"))])
            .output()
            .unwrap();
        assert!(made.status.success(), "{name}: {}", String::from_utf8_lossy(&made.stderr));
        assert_eq!(Command::new(&program).status().unwrap().code(), Some(0), "{name}");
        fs::remove_dir_all(folder).unwrap();
    }
}

/// A caller who links without a C library brings what the header says, and nothing else is asked for.
#[test]
fn the_archive_calls_what_its_header_says() {
    for (name, words, called) in [
        ("erasure", "It calls memset, and nothing else\n   outside.", &["memset"][..]),
        ("volume", "It calls nothing outside.", &[]),
    ] {
        assert!(header(name).contains(words), "{name}");
        let listed = Command::new("nm").arg("-u").arg(path(&format!("target/staticlib/lib{name}.a"))).output().unwrap();
        assert!(listed.status.success(), "{name}: {}", String::from_utf8_lossy(&listed.stderr));
        let text = String::from_utf8(listed.stdout).unwrap();
        let mut asked: Vec<&str> = text.lines().filter_map(|line| line.trim().strip_prefix("U ")).collect();
        asked.sort_unstable();
        asked.dedup();
        assert_eq!(asked, called, "{name}");
    }
}

/// A header declares what its library has, and names each number that its routines refuse.
#[test]
fn the_header_says_every_refusal() {
    for (name, numbers) in HEADERS {
        let header = header(name);
        let (named, done) = (format!("    {}_", name.to_uppercase()), format!("{}_DONE = 0,", name.to_uppercase()));
        let listed: Vec<&str> = header.lines().filter(|line| line.starts_with(&named) && line.trim() != done).collect();
        assert_eq!(listed.len(), numbers.len(), "{name}: {listed:?}");
        for (number, line) in numbers.iter().zip(listed) {
            assert!(header.contains(&format!("\n   {number}  ")), "{name}: refusal {number}");
            assert!(line.trim_end_matches(',').ends_with(&format!(" = {number}")), "{name}: {line}");
            // A routine says which it refuses.
            let said = header.lines().filter(|line| line.contains("Refused: "));
            assert!(said.flat_map(|line| line.split(&[' ', ',', '.'][..])).any(|word| word == number.to_string()), "{name}: {number}");
        }
        let source = fs::read_to_string(path(&format!("crates/{name}_c/src/lib.rt"))).unwrap();
        let routines = source.lines().filter_map(|line| line.strip_prefix("pub extern \"C\" fn "));
        let routines: Vec<&str> = routines.map(|rest| rest.split('(').next().unwrap()).collect();
        assert!(!routines.is_empty(), "{name}");
        for routine in routines {
            assert!(header.contains(&format!("uint32_t {routine}(")), "{routine}");
        }
    }
}
