//! The program `bench` where reading or writing fails: a status other than 0 and one line on standard error. It is `target/c/bench`, the proved
//! program, and `target/c/bench_c`, the proved routine linked with a `main` in C that hands on its status (c/build makes both); the variable
//! `BENCH` names another in their place.

use std::fs::{File, OpenOptions};
use std::io::{Read, Write};
use std::path::{Path, PathBuf};
use std::process::{Command, Stdio};
use std::sync::{Mutex, MutexGuard, PoisonError};

/// One test at a time: a program that another test is just starting holds this test's pipes for a moment, so that a closed one is open.
fn alone() -> MutexGuard<'static, ()> {
    static ONE: Mutex<()> = Mutex::new(());
    ONE.lock().unwrap_or_else(PoisonError::into_inner)
}

/// Each program in turn.
fn each(test: impl Fn(&Path)) {
    let _alone = alone();
    let built = |name: &str| Path::new(env!("CARGO_MANIFEST_DIR")).join("../target/c").join(name);
    let named = std::env::var_os("BENCH").map(|name| vec![PathBuf::from(name)]);
    for program in named.unwrap_or_else(|| vec![built("bench"), built("bench_c")]) {
        assert!(program.is_file(), "no program {}", program.display());
        println!("{}", program.display());
        test(&program);
    }
}

/// The status and what went to standard output and standard error.
type Left = (Option<i32>, String, String);

/// Runs the program on an input, with standard output as given; what it prints is read only where that is a pipe.
fn run(bench: &Path, input: &[u8], output: Stdio) -> Left {
    let mut child = Command::new(bench).stdin(Stdio::piped()).stdout(output).stderr(Stdio::piped()).spawn().unwrap();
    // A program that gave up reads no more: what is not taken is not this test's matter.
    let _ = child.stdin.take().unwrap().write_all(input);
    left(child.wait_with_output().unwrap())
}

fn left(out: std::process::Output) -> Left {
    (out.status.code(), String::from_utf8(out.stdout).unwrap(), String::from_utf8(out.stderr).unwrap())
}

fn full_disk() -> Stdio {
    OpenOptions::new().write(true).open("/dev/full").unwrap().into()
}

/// A failure: a status that is a number other than 0, so no signal, and exactly one line on standard error.
fn expect_failure((status, printed, told): &Left) {
    assert!(status.is_some_and(|status| status != 0), "status {status:?}");
    assert_eq!(printed, "");
    assert!(told.ends_with('\n') && told.lines().count() == 1 && told.starts_with("bench: "), "{told:?}");
}

/// What the program leaves whose input is a folder.
fn run_on_a_folder(bench: &Path) -> Left {
    let folder = File::open(env!("CARGO_MANIFEST_DIR")).unwrap();
    left(Command::new(bench).stdin(folder).stdout(Stdio::piped()).stderr(Stdio::piped()).output().unwrap())
}

#[test]
fn all_well_is_status_0_and_nothing_on_standard_error() {
    each(|bench| {
        assert_eq!(run(bench, b"x\n", Stdio::piped()), (Some(0), "refused 12\n".into(), String::new()));
        assert_eq!(run(bench, b"", Stdio::piped()), (Some(0), String::new(), String::new()));
        // A last line without a newline is a line.
        assert_eq!(run(bench, b"x\ny", Stdio::piped()), (Some(0), "refused 12\nrefused 12\n".into(), String::new()));
    });
}

#[test]
fn a_full_disk_is_told() {
    each(|bench| {
        expect_failure(&run(bench, b"x\n", full_disk()));
        // One line, however much more was to be printed.
        expect_failure(&run(bench, &b"x\n".repeat(20_000), full_disk()));
        // Nothing is written, so nothing fails.
        assert_eq!(run(bench, b"", full_disk()), (Some(0), String::new(), String::new()));
        assert_eq!(run(bench, b"set 1 1 1 2\n", full_disk()), (Some(0), String::new(), String::new()));
    });
}

#[test]
fn a_folder_as_input_is_told() {
    each(|bench| expect_failure(&run_on_a_folder(bench)));
}

/// The reader goes before anything is printed: the write fails, and no signal ends the program.
#[test]
fn a_closed_pipe_is_told() {
    each(|bench| {
        let mut child = Command::new(bench).stdin(Stdio::piped()).stdout(Stdio::piped()).stderr(Stdio::piped()).spawn().unwrap();
        drop(child.stdout.take());
        let _ = child.stdin.take().unwrap().write_all(b"x\nx\n");
        let mut told = String::new();
        child.stderr.take().unwrap().read_to_string(&mut told).unwrap();
        expect_failure(&(child.wait().unwrap().code(), String::new(), told));
    });
}

/// Reading and writing are told apart.
#[test]
fn the_line_says_which_failed() {
    each(|bench| {
        let (_, _, reading) = run_on_a_folder(bench);
        let (_, _, writing) = run(bench, b"x\n", full_disk());
        assert_ne!(reading, writing);
        assert!(reading.contains("read") && writing.contains("write"), "{reading:?} {writing:?}");
    });
}
