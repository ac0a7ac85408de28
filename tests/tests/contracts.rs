//! `register/specs/CallLoop` states of each call what its routine's contract ensures. Here both texts are read, and must be the same term: the
//! contract's, with its parameters renamed as the row says, word for word. A routine that gives a `Result` has its contract say what stands for
//! it in the definitions, as `answer_in c result`: that term is renamed as a whole.

use std::fs;

/// A contract, and where the same fact stands in CallLoop.
struct Row {
    source: &'static str,
    routine: &'static str,
    /// the contract's `ensures`, from 0
    ensures: usize,
    /// the definition, or the constructor or field
    stated: Stated,
    /// each of these has to occur in the contract
    renamed: &'static [Names],
}

enum Stated {
    /// the body of a definition
    Body(&'static str),
    /// the premise of a constructor that names this definition
    Premise(&'static str, &'static str),
    /// the last part of a field's type
    Field(&'static str),
    /// the same with the sides of the equation turned
    FieldTurned(&'static str),
}

use Stated::{Body, Field, FieldTurned, Premise};

/// What stands in a contract, and what stands for it in CallLoop.
type Names = &'static [(&'static str, &'static str)];

/// at a coordinator: its record, and the set's settings
const COORDINATOR: Names = &[
    ("(answer_in c result)", "a"),
    ("volume.n", "s.n"),
    ("volume.m", "s.m"),
    ("volume.size", "s.size"),
    ("volume.stripes", "s.stripes"),
    ("c", "k.state"),
];
/// a start names its stripe
const START: Names = &[("stripe_number", "number")];
/// what a write is handed, and the stripe beside the record
const CONTENT: Names = &[("bytes.now", "content"), ("stripe.old", "k.stripe"), ("stripe.new", "stripe")];
/// a reply, and every buffer
const REPLY: Names = &[
    ("reply", "r"),
    ("block.now", "block"),
    ("blocks.old", "k.blocks"),
    ("blocks.new", "blocks'"),
    ("stripe.old", "k.stripe"),
    ("stripe.new", "stripe'"),
    ("coded.old", "coded"),
    ("coded.new", "coded'"),
];
/// a message at a brick
const MESSAGE: Names = &[
    ("(given_in result)", "g"),
    ("brick", "b"),
    ("block.now", "lent"),
    ("old.now", "lent_old"),
    ("out.old", "out"),
    ("out.new", "out'"),
];
const ROW_OF_IMAGES: Names = &[("images.old", "(r.world.images b)"), ("images.new", "images'")];
const IMAGE: Names = &[("image.old", "(image_at s msg.stripe (r.world.images b))"), ("image.new", "image'")];
/// a brick whose row is written afresh
const FRESH: Names = &[("brick", "b"), ("images.old", "(before b)")];
const NOT_REFUSED: Names = &[("refusal_in result", "passed")];
const LEFT: Names = &[("images.new", "w.images b")];
const IDLE: Names = &[
    ("result", "(w.coordinators c).state"),
    ("geometry", "(geometry_of s)"),
    ("clock", "(record { coordinator = c; last = last c })"),
];

const fn row(source: &'static str, routine: &'static str, ensures: usize, stated: Stated, renamed: &'static [Names]) -> Row {
    Row { source, routine, ensures, stated, renamed }
}

const ROWS: &[Row] = &[
    row("coordinator", "start_write", 0, Body("WriteEnsures"), &[COORDINATOR, START, CONTENT]),
    row("coordinator", "start_read", 0, Body("ReadEnsures"), &[COORDINATOR, START]),
    row("coordinator", "start_write_block", 0, Body("WriteBlockEnsures"), &[COORDINATOR, START, CONTENT]),
    row("coordinator", "start_read_block", 0, Body("ReadBlockEnsures"), &[COORDINATOR, START]),
    row("coordinator", "take_reply", 0, Body("TakeEnsures"), &[COORDINATOR, REPLY]),
    row("coordinator", "crash", 0, Body("CrashEnsures"), &[COORDINATOR]),
    row("volume", "receive", 0, Premise("receive", "outcome_with"), &[MESSAGE, ROW_OF_IMAGES]),
    row("brick", "receive", 0, Premise("receive_image", "outcome_with"), &[MESSAGE, IMAGE]),
    row("volume", "write_fresh", 0, FieldTurned("not-refused"), &[FRESH, NOT_REFUSED]),
    row("volume", "write_fresh", 1, Field("images-are"), &[FRESH, LEFT]),
    row("coord_record", "idle_with", 0, Field("all-idle"), &[IDLE]),
];

fn read(path: &str) -> String {
    let root = concat!(env!("CARGO_MANIFEST_DIR"), "/../crates/");
    fs::read_to_string(format!("{root}{path}")).expect(path)
}

/// Words, and brackets by themselves.
fn tokens(text: &str) -> Vec<String> {
    let mut spaced = String::new();
    for c in text.chars() {
        if "(){};".contains(c) {
            spaced.extend([' ', c, ' ']);
        } else {
            spaced.push(c);
        }
    }
    spaced.split_whitespace().map(str::to_string).collect()
}

/// Without the brackets around the whole.
fn bare(mut term: Vec<String>) -> Vec<String> {
    let mut depth = 0;
    let opens = |word: &String| word == "(";
    for (at, word) in term.iter().enumerate() {
        depth += opens(word) as i32 - (word == ")") as i32;
        if depth == 0 {
            if at + 1 < term.len() || !opens(&term[0]) {
                return term;
            }
        }
    }
    term.pop();
    term.remove(0);
    term
}

/// The parts of a type between its outermost arrows.
fn parts(term: &[String]) -> Vec<Vec<String>> {
    let (mut depth, mut found) = (0, vec![Vec::new()]);
    for word in term {
        depth += (word == "(") as i32 - (word == ")") as i32;
        if depth == 0 && word == "→" {
            found.push(Vec::new());
        } else {
            found.last_mut().unwrap().push(word.clone());
        }
    }
    found
}

/// The term that the contract of a routine ensures: a clause is `ensures { .. }`, or with its name, `ensures value { .. }`.
fn contract(source: &str, routine: &str, ensures: usize) -> Vec<String> {
    let head = format!("\npub fn {routine}(");
    let from = source.find(&head).expect(routine) + 1;
    let body = source[from..].find("\n{").expect("a body");
    let text = &source[from..from + body];
    let clause = text.split("\n    ensures ").nth(ensures + 1).expect("ensures");
    let (name, fact) = clause.split_once('{').expect("a fact");
    assert!(name.chars().all(|c| c.is_alphanumeric() || "_ ".contains(c)), "{routine}: {name}");
    let mut depth = 1;
    let end = fact.find(|c| {
        depth += (c == '{') as i32 - (c == '}') as i32;
        depth == 0
    });
    bare(tokens(&fact[..end.expect("its end")]))
}

/// A text from a line that begins with this word on, without comments, as far as lines stand deeper than that one.
fn block(spec: &str, head: &str) -> String {
    let indent = |line: &str| line.len() - line.trim_start().len();
    let mut lines = spec.lines().skip_while(|line| {
        let line = line.trim_start();
        !line.strip_prefix(head).is_some_and(|r| r.starts_with(' '))
    });
    let first = lines.next().expect(head);
    let mut found = first.to_string();
    for line in lines.take_while(|line| indent(line) > indent(first)) {
        if !line.trim_start().starts_with("--") {
            found.push('\n');
            found.push_str(line);
        }
    }
    found
}

/// The term that CallLoop states.
fn stated(spec: &str, what: &Stated) -> Vec<String> {
    let field = |name: &str| {
        let text = block(spec, &format!("pub {name}"));
        let (_, text) = text.split_once(" : ").expect("a type");
        parts(&tokens(text)).pop().expect("a part")
    };
    match what {
        Body(name) => {
            // the line of the type begins with `abbrev pub`, that of the body with the name
            let text = block(spec, name);
            bare(tokens(text.split_once(" =").expect("a body").1))
        }
        Premise(constructor, name) => {
            let text = block(spec, constructor);
            let (_, text) = text.split_once(" : ").expect("a type");
            let mut parts = parts(&tokens(text));
            parts.retain(|part| part[0] == *name);
            assert_eq!(parts.len(), 1, "{constructor}");
            parts.pop().unwrap()
        }
        Field(name) => field(name),
        FieldTurned(name) => {
            let term = field(name);
            let at = term.iter().position(|word| word == "≡").expect("≡");
            let (left, right) = (&term[..at], &term[at + 1..]);
            [right, &["≡".to_string()], left].concat()
        }
    }
}

/// The contract's term in CallLoop's words, and the renamings that did not occur in it.
fn renamed(term: &[String], names: &[Names]) -> (Vec<String>, Vec<String>) {
    let mut names: Vec<_> = names.concat().iter().map(|n| (tokens(n.0), tokens(n.1))).collect();
    names.sort_by_key(|(from, _)| usize::MAX - from.len());
    let (mut out, mut used, mut at) = (Vec::new(), vec![false; names.len()], 0);
    while at < term.len() {
        match names
            .iter()
            .position(|(from, _)| term[at..].starts_with(from))
        {
            Some(which) => {
                out.extend(names[which].1.iter().cloned());
                used[which] = true;
                at += names[which].0.len();
            }
            None => {
                out.push(term[at].clone());
                at += 1;
            }
        }
    }
    let idle = names.iter().zip(used).filter(|(_, used)| !used);
    (out, idle.map(|((from, _), _)| from.join(" ")).collect())
}

/// What is wrong with a row, if the texts are these.
fn wrong(row: &Row, source: &str, spec: &str) -> Option<String> {
    let term = contract(source, row.routine, row.ensures);
    let (ours, idle) = renamed(&term, row.renamed);
    let theirs = stated(spec, &row.stated);
    let (ours, theirs) = (ours.join(" "), theirs.join(" "));
    let name = format!("{}::{}", row.source, row.routine);
    if !idle.is_empty() {
        return Some(format!("{name}: not in the contract: {idle:?}"));
    }
    (ours != theirs).then(|| format!("{name}\n  contract {ours}\n  CallLoop {theirs}"))
}

const SPEC: &str = "register/specs/CallLoop.antt";

fn source(row: &Row) -> String {
    read(&format!("{}/src/lib.rt", row.source))
}

#[test]
fn call_loop_states_the_contracts() {
    let spec = read(SPEC);
    let found = ROWS
        .iter()
        .filter_map(|row| wrong(row, &source(row), &spec));
    let found: Vec<String> = found.collect();
    assert!(found.is_empty(), "{}", found.join("\n"));
}

/// Whatever word of a statement or of a contract is changed, the row is wrong.
#[test]
fn a_changed_word_is_noticed() {
    let spec = read(SPEC);
    for row in ROWS {
        let source = source(row);
        let term = contract(&source, row.routine, row.ensures);
        for at in 0..term.len() {
            let mut other = term.clone();
            other[at] = format!("{}x", other[at]);
            let (ours, idle) = renamed(&other, row.renamed);
            let same = ours == stated(&spec, &row.stated) && idle.is_empty();
            assert!(!same, "{}: word {at}", row.routine);
        }
    }
    // in the files themselves: another count, another buffer, a side left out
    let changes = [
        (
            "start_write",
            "blocks k.stripe coded number reading content",
            "blocks stripe coded number reading content",
        ),
        (
            "start_read",
            "stripe coded number reading first",
            "stripe coded number first reading",
        ),
        (
            "crash",
            "crash_call s.n s.m",
            "crash_call s.m s.m",
        ),
        (
            "take_reply",
            "k.blocks k.stripe coded r block",
            "k.blocks k.stripe coded' r block",
        ),
        (
            "receive",
            "row_outcome s b (r.world.images b) msg lent lent_old out",
            "row_outcome s b (r.world.images b) msg block lent_old out",
        ),
        (
            "write_fresh",
            "w.images b ≡ fresh_row_after s b (before b)",
            "w.images b ≡ fresh_row_after s 0 (before b)",
        ),
    ];
    for (routine, old, new) in changes {
        assert_eq!(spec.matches(old).count(), 1, "{old}");
        let spec = spec.replace(old, new);
        let rows = ROWS.iter().filter(|row| row.routine == routine);
        let found = rows.filter(|row| wrong(row, &source(row), &spec).is_some());
        assert_eq!(found.count(), 1, "{new}");
    }
}
