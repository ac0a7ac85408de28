//! The proved program `bench` against the independent one, byte for byte.
//! `BENCH` names the program (else ../target/bin/bench), `SCRIPTS` the number of random scripts, `SEED` plays the one script of that seed.
//! Ends with 1 if any output differs.

use jilbagum_tests::bench::Bench;
use jilbagum_tests::brick::{DROP, ORDER_READ};
use jilbagum_tests::rng::Rng;
use jilbagum_tests::{edges, script};
use std::collections::BTreeMap;
use std::fs::{self, File};
use std::io::{self, Read, Write};
use std::path::{Path, PathBuf};
use std::process::{exit, Child, Command, Stdio};
use std::sync::atomic::{AtomicUsize, Ordering};
use std::sync::Mutex;
use std::thread;
use std::time::{Duration, Instant};

/// How many cases there are at least.
const CASES: u64 = 95;
const RANDOM_SCRIPTS: usize = 24_000;
const PIECED_SCRIPTS: usize = 600;
const WORKERS: usize = 2;
/// A program that plays one script longer than this is ended.
const PATIENCE: Duration = Duration::from_secs(60);
/// What a pipe surely takes without a reader.
const PIPE: usize = 32_768;
/// No more than this is read past the expected output.
const TOO_MUCH: usize = 100_000;
const MOST_SHOWN: usize = 5;

/// How the program is given its input.
#[derive(Clone, Copy)]
enum Feed {
    Whole,
    Pieces(u64),
    File,
}

/// A script to play.
enum Job {
    /// With what it must print, if that is written down.
    Fixed(String, Vec<u8>, Option<Vec<u8>>, Feed),
    Random(u64),
    Pieced(u64),
}

/// What happened, by kind.
type Tally = BTreeMap<String, usize>;

/// The program that a worker runs, with its start.
type Slot = Mutex<Option<(Child, Instant)>>;

fn main() {
    let began = Instant::now();
    let here = Path::new(env!("CARGO_MANIFEST_DIR"));
    let program = std::env::var_os("BENCH").map_or_else(|| here.join("../target/bin/bench"), PathBuf::from);
    if !program.is_file() {
        eprintln!("no program at {}", program.display());
        exit(1);
    }
    let jobs = match number("SEED") {
        Some(seed) => vec![Job::Random(seed as u64), Job::Pieced(seed as u64)],
        None => jobs(here),
    };
    let running: Vec<Slot> = (0..WORKERS).map(|_| Mutex::new(None)).collect();
    let (next, done) = (AtomicUsize::new(0), AtomicUsize::new(0));
    let wrong = Mutex::new(Vec::new());
    let tally = Mutex::new(Tally::new());
    thread::scope(|scope| {
        for slot in &running {
            let work = || {
                let mut own = Tally::new();
                while let Some(job) = jobs.get(next.fetch_add(1, Ordering::Relaxed)) {
                    if let Err(report) = play(&program, job, slot, &mut own) {
                        wrong.lock().unwrap().push(report);
                    }
                    if wrong.lock().unwrap().len() >= MOST_SHOWN {
                        break;
                    }
                }
                let mut all = tally.lock().unwrap();
                for (kind, count) in own {
                    *all.entry(kind).or_default() += count;
                }
                done.fetch_add(1, Ordering::Relaxed);
            };
            scope.spawn(work);
        }
        while done.load(Ordering::Relaxed) < WORKERS {
            thread::sleep(Duration::from_millis(20));
            end_slow_ones(&running);
        }
    });
    let (wrong, tally) = (wrong.into_inner().unwrap(), tally.into_inner().unwrap());
    for report in &wrong {
        println!("{report}");
    }
    let missing = if number("SEED").is_some() || !wrong.is_empty() { Vec::new() } else { missing(&tally) };
    for kind in &missing {
        println!("too few of: {kind}");
    }
    let counts: Vec<String> = tally.iter().map(|(kind, count)| format!("{kind} {count}")).collect();
    let seconds = began.elapsed().as_secs_f64();
    let failed = wrong.len() + missing.len();
    println!(
        "bench: {} of {} scripts played, {failed} wrong, {seconds:.1} s; {}",
        tally.get("scripts").unwrap_or(&0),
        jobs.len(),
        counts.join(", ")
    );
    exit(i32::from(failed > 0));
}

fn number(variable: &str) -> Option<usize> {
    std::env::var(variable).ok()?.parse().ok()
}

/// Every script there is.
fn jobs(here: &Path) -> Vec<Job> {
    let mut jobs = Vec::new();
    for (name, script, expected) in edges::all() {
        let expected = expected.map(String::into_bytes);
        let feed = if name.starts_with("chunk") { Feed::File } else { Feed::Whole };
        if (500..70_000).contains(&script.len()) {
            let pieces = Feed::Pieces(jobs.len() as u64);
            jobs.push(Job::Fixed(format!("{name}, in pieces"), script.clone(), expected.clone(), pieces));
        }
        jobs.push(Job::Fixed(name, script, expected, feed));
    }
    let mut cases = 0;
    let mut paths: Vec<PathBuf> = fs::read_dir(here.join("cases")).expect("the cases").map(|entry| entry.expect("a case").path()).collect();
    paths.sort();
    for path in paths.iter().filter(|path| path.extension().is_some_and(|extension| extension == "in")) {
        let name = path.file_name().expect("a name").to_string_lossy().to_string();
        let input = fs::read(path).expect("a script");
        let expected = fs::read(path.with_extension("out")).expect("its output");
        for feed in [Feed::Whole, Feed::File, Feed::Pieces(cases)] {
            jobs.push(Job::Fixed(name.clone(), input.clone(), Some(expected.clone()), feed));
        }
        cases += 1;
    }
    assert!(cases >= CASES, "cases are missing");
    jobs.extend(long_inputs());
    jobs.extend((0..PIECED_SCRIPTS as u64).map(|k| Job::Pieced(1_000_000 + k)));
    jobs.extend((0..number("SCRIPTS").unwrap_or(RANDOM_SCRIPTS) as u64).map(|k| Job::Random(2_000_000 + k)));
    jobs
}

/// Inputs of several megabytes: by far more than is read at once, and outputs as long.
fn long_inputs() -> Vec<Job> {
    let mut rng = Rng::new(77);
    let mut jobs = Vec::new();
    for feed in [Feed::Whole, Feed::File, Feed::Pieces(5)] {
        let mut mixed = b"set 3 1 2 4\n".to_vec();
        while mixed.len() < 4_000_000 {
            let script = script::mixed(&mut rng).1;
            mixed.extend(script);
            mixed.push(b'\n');
        }
        jobs.push(Job::Fixed("4 MB of random scripts".to_string(), mixed, None, feed));
        let carry = format!("carry{} 1\n", " 07".repeat(331)).repeat(2000);
        jobs.push(Job::Fixed("2 MB of full lines".to_string(), format!("set 4 2 1 2\n{carry}").into_bytes(), None, feed));
        jobs.push(Job::Fixed("300,000 blank lines".to_string(), vec![b'\n'; 300_000], None, feed));
        // Lines of 1,000 and 1,001 bytes in turn.
        let lines = format!("write 4 1 {}\nwrite 4 1 {}\n", "0".repeat(990), "0".repeat(991)).repeat(1500);
        jobs.push(Job::Fixed("3 MB of lines at the limit".to_string(), format!("set 1 1 1 2\n{lines}").into_bytes(), None, feed));
        let random = rng.bytes(5_000_000);
        jobs.push(Job::Fixed("5 MB of random bytes".to_string(), random, None, feed));
    }
    jobs
}

/// Plays a job on both benches; a report if they differ.
fn play(program: &Path, job: &Job, slot: &Slot, tally: &mut Tally) -> Result<(), String> {
    let (name, input, written, feed) = match job {
        Job::Fixed(name, input, written, feed) => (name.clone(), input.clone(), written.clone(), *feed),
        Job::Random(seed) => {
            let (sort, input) = script::mixed(&mut Rng::new(*seed));
            count(tally, sort, 1);
            (format!("seed {seed} ({sort})"), input, None, Feed::Whole)
        }
        Job::Pieced(seed) => {
            let (sort, input) = script::mixed(&mut Rng::new(*seed));
            count(tally, "in pieces", 1);
            (format!("seed {seed} ({sort}) in pieces"), input, None, Feed::Pieces(*seed))
        }
    };
    let mut bench = Bench::default();
    let expected = bench.play(&input);
    note(tally, &bench, &expected);
    if written.is_some_and(|written| written != expected) {
        return Err(format!("{name}: the independent bench doesn't print what is written down"));
    }
    let (printed, ended) = run(program, &input, feed, expected.len() + TOO_MUCH, slot).map_err(|error| format!("{name}: {error}"))?;
    if printed == expected && ended.is_none() {
        return Ok(());
    }
    Err(report(&name, &input, &printed, &expected, ended))
}

fn count(tally: &mut Tally, kind: &str, more: usize) {
    *tally.entry(kind.to_string()).or_default() += more;
}

/// Counts what a script led to.
fn note(tally: &mut Tally, bench: &Bench, printed: &[u8]) {
    count(tally, "scripts", 1);
    for line in String::from_utf8_lossy(printed).lines() {
        let words: Vec<&str> = line.split(' ').collect();
        let kind = match words.as_slice() {
            ["refused", number] => format!("refused {number}"),
            [_, kind, _, _, end @ ("ok" | "abort" | "cut")] => format!("{kind} {end}"),
            [_, "read", _, _, stripe] if stripe.bytes().any(|byte| byte != b'0') => "read finished".to_string(),
            [_, "read", _, _, _] => "read zeros".to_string(),
            _ => panic!("the independent bench prints {line}"),
        };
        if let [_, _, _, letter, _] = words.as_slice() {
            count(tally, &format!("letter {letter}"), 1);
            count(tally, "read recovered", usize::from(["H", "L"].contains(letter)));
        }
        count(tally, &kind, 1);
    }
    count(tally, "recovery rounds", bench.rounds(ORDER_READ));
    count(tally, "Drops sent", bench.rounds(DROP));
    let cleared = bench.cleared();
    count(tally, "Drops carried", cleared.drops);
    count(tally, "entries dropped", cleared.dropped);
    count(tally, "early Trims carried", cleared.early_trims);
    count(tally, "entries trimmed early", cleared.trimmed);
    count(tally, "sent 127", usize::from(bench.sent() == 127));
}

/// Kinds that must have occurred, and didn't often enough. Letter X isn't among them, since no script of the bench leads to it: the blocks
/// of a run agree, and four logs of four entries hold too few times to spend the rounds. In the first recovery round every brick gives its
/// newest entry, so time 0 is the highest only where all q hold it. A later round needs m 2 or more; then at most one brick lacks a
/// finished write, and only that one can lose its lower entries to the Trim of a write later than the recovery and still say yes. Another
/// brick gives the last finished time then, and a further round is told no. Drops change none of this: what a quorum of these bricks stored
/// is on two of those that answer, unless they say no. With six bricks X occurs: tests/block_order.rs plays it.
fn missing(tally: &Tally) -> Vec<String> {
    let often = [
        "write ok",
        "write abort",
        "write cut",
        "read finished",
        "read zeros",
        "read abort",
        "read cut",
        "read recovered",
        "recovery rounds",
        "Drops sent",
        "Drops carried",
        "entries dropped",
        "early Trims carried",
        "entries trimmed early",
        "refused 1",
        "refused 3",
        "refused 7",
        "refused 8",
        "refused 9",
        "refused 11",
        "refused 12",
        "sent 127",
        "schedule",
        "random",
        "mutated",
        "words",
        "bytes",
        "in pieces",
        "letter F",
        "letter H",
        "letter L",
        "letter S",
        "letter O",
        "letter G",
        "letter W",
        "letter C",
    ];
    let few = |kind: &&str| tally.get(*kind).copied().unwrap_or(0) < 200;
    often.into_iter().filter(few).map(String::from).collect()
}

/// Runs the program on an input: what it prints, up to a limit, and how it ended if not well.
fn run(program: &Path, input: &[u8], feed: Feed, limit: usize, slot: &Slot) -> io::Result<(Vec<u8>, Option<String>)> {
    let mut command = Command::new(program);
    command.stdout(Stdio::piped()).stderr(Stdio::piped());
    if let Feed::File = feed {
        let path = std::env::temp_dir().join(format!("bench_compare.{}.{:?}", std::process::id(), thread::current().id()));
        fs::write(&path, input)?;
        let file = File::open(&path)?;
        fs::remove_file(&path)?;
        command.stdin(Stdio::from(file));
    } else {
        command.stdin(Stdio::piped());
    }
    let mut child = command.spawn()?;
    let (stdin, stdout, mut stderr) = (child.stdin.take(), child.stdout.take().expect("a pipe"), child.stderr.take().expect("a pipe"));
    *slot.lock().unwrap() = Some((child, Instant::now()));
    let mut printed = Vec::new();
    let mut complaint = Vec::new();
    let unread = thread::scope(|scope| {
        let give = move || match stdin {
            Some(mut pipe) => write_in(&mut pipe, input, feed).is_err(),
            None => false,
        };
        let take = || {
            stdout.take(limit as u64).read_to_end(&mut printed)?;
            if printed.len() == limit {
                slot.lock().unwrap().as_mut().expect("the child").0.kill()?;
            }
            io::Result::Ok(())
        };
        // What fits into the pipe is written before anything is read.
        let unread = if input.len() <= PIPE {
            let unread = give();
            take()?;
            unread
        } else {
            let writer = scope.spawn(give);
            take()?;
            writer.join().expect("the writer")
        };
        stderr.read_to_end(&mut complaint)?;
        io::Result::Ok(unread)
    })?;
    let (mut child, _) = slot.lock().unwrap().take().expect("the child");
    let status = child.wait()?;
    let ended = match (status.success(), unread, complaint.is_empty()) {
        (true, false, true) => None,
        (true, true, _) => Some("it didn't read all of its input".to_string()),
        _ => Some(format!("{status} {}", String::from_utf8_lossy(&complaint))),
    };
    Ok((printed, ended))
}

/// Writes an input, if so asked in pieces of random sizes.
fn write_in(pipe: &mut impl Write, input: &[u8], feed: Feed) -> io::Result<()> {
    let Feed::Pieces(seed) = feed else { return pipe.write_all(input) };
    let mut rng = Rng::new(seed);
    // About 40 pieces.
    let mean = (input.len() as u64 / 20).max(3);
    let mut rest = input;
    while !rest.is_empty() {
        let size = if rng.once_in(3) { rng.between(1, 3) } else { rng.between(1, mean) };
        let (piece, after) = rest.split_at((size as usize).min(rest.len()));
        pipe.write_all(piece)?;
        // So that the program mostly reads the piece alone.
        thread::sleep(Duration::from_micros(30));
        rest = after;
    }
    Ok(())
}

/// Ends programs that run too long; their output then differs.
fn end_slow_ones(running: &[Slot]) {
    for slot in running {
        if let Some((child, began)) = slot.lock().unwrap().as_mut() {
            if began.elapsed() > PATIENCE {
                // It may have ended by itself.
                let _ = child.kill();
            }
        }
    }
}

fn report(name: &str, input: &[u8], printed: &[u8], expected: &[u8], ended: Option<String>) -> String {
    let rows = |text: &[u8]| -> Vec<String> {
        text.split_inclusive(|&byte| byte == b'\n').map(|row| String::from_utf8_lossy(row).escape_debug().take(200).collect()).collect()
    };
    let (ours, theirs) = (rows(printed), rows(expected));
    let at = ours.iter().zip(&theirs).position(|(a, b)| a != b).unwrap_or(ours.len().min(theirs.len()));
    let show = |rows: &[String]| rows.get(at).map_or("nothing more".to_string(), |row| format!("\"{row}\""));
    let mut text = format!("{name}: line {} of the output differs: printed {}, expected {}", at + 1, show(&ours), show(&theirs));
    if let Some(ended) = ended {
        text.push_str(&format!("; the program: {ended}"));
    }
    if input.len() <= 4000 {
        text.push_str(&format!("\n  input: \"{}\"", input.escape_ascii()));
    }
    text
}
