//! Every must-fail edit was refused for a fact that fails, and not for its form. `rt ci` says of each edit in one line what refused it, and
//! .ci/run keeps these lines in `target/proofs.log`; where no edit was tried, as in `.ci/run fast`, there is nothing to read. A full `.ci/run`
//! sets EDITS_TRIED: then each edit has its line. The lines of `rt must-fail` are the same. The error in a line is the first one that is no name
//! which a proof file cites and the edit took away; where there is no other, the line says so, and the edit was refused for its form.

use std::collections::BTreeSet;
use std::fs;
use std::path::{Path, PathBuf};

fn root() -> PathBuf {
    Path::new(env!("CARGO_MANIFEST_DIR")).join("..")
}

/// What stands in a folder; nothing where there is no such folder.
fn names_in(folder: &Path) -> BTreeSet<String> {
    let entries = fs::read_dir(folder).into_iter().flatten();
    entries.map(|entry| entry.unwrap().file_name().into_string().unwrap()).collect()
}

/// The edits that stand in the crates, as crate and name.
fn edits() -> BTreeSet<(String, String)> {
    let mut found = BTreeSet::new();
    for krate in names_in(&root().join("crates")) {
        for file in names_in(&root().join("crates").join(&krate).join("must-fail")) {
            found.insert((krate.clone(), file.strip_suffix(".edit").unwrap().into()));
        }
    }
    found
}

/// What `rt ci` printed.
const SAID: &str = "target/proofs.log";

/// What came of an edit, as its line says it; none where it was not tried, or was changed since.
fn said_of(all: &str, krate: &str, edit: &str) -> Option<String> {
    let file = root().join("crates").join(krate).join("must-fail").join(edit).with_extension("edit");
    let age = |path: &Path| fs::metadata(path).and_then(|about| about.modified()).ok();
    let head = format!("rt: must-fail {krate}/{edit}.edit: ");
    let last = all.lines().filter_map(|line| line.strip_prefix(&head)).last()?;
    (age(&file) <= age(&root().join(SAID))).then(|| last.into())
}

/// What begins the line of an edit that the check refused; the error follows.
const REFUSED: &str = "refused, as it must be: ";

/// The error that refused an edit: the file, and what is said. None where the edit was not applied or not read, or is still proved, or was
/// refused without an error, for a proof file that names what it took away, or by a limit of the prover alone.
fn error_of(said: &str) -> Option<(&str, &str)> {
    said.strip_prefix(REFUSED)?.split_once(": error")
}

/// What the checker notes of a goal that has no answer and does not follow; it prints no error then. It says what is not proved: a promise, what a
/// call asks, a loop's invariant, that a number fits; or it names the goal alone, where a type's invariant is one.
const NOT_PROVED: [&str; 2] = [": it is not proved that ", ": `search` found no proof (`invariant_of-"];

/// Whether an edit was refused by that note.
fn is_noted(said: &str) -> bool {
    let noted = |note: &str| note.starts_with("note: src/") && NOT_PROVED.iter().any(|words| note.contains(words));
    said.strip_prefix(REFUSED).is_some_and(noted)
}

/// Words of an error that speaks of a name, a field, a bracket or the parts of a proof file, or of another error. No fact that fails is told
/// in them.
const FORM: [&str; 10] = [
    "is not in scope",
    "that can be named from here",
    "has no field `",
    "missing field",
    "is still open",
    "this pattern needs a function",
    "but this has type `tie.Need-",
    "but this has type `goal.",
    "was not admitted",
    "which was rejected",
];

/// The checker's own advice on a type that it shows; it speaks of a name, and the error is none of form for it.
const ADVICE: &str = "is not in scope here, so what is shown does not paste back";

/// Whether an error is of form. Facts fail in proofs: an error in `specs/` or `src/` is of a definition or a program that does not stand at all.
fn is_of_form(place: &str, said: &str) -> bool {
    let said = said.replace(ADVICE, "");
    !place.contains("/proofs/") || FORM.iter().any(|words| said.contains(words))
}

/// Whether an edit was refused for a fact.
fn is_for_a_fact(said: &str) -> bool {
    is_noted(said) || error_of(said).is_some_and(|(place, said)| !is_of_form(place, said))
}

#[test]
fn every_edit_is_refused_for_a_fact() {
    let edits = edits();
    let all = fs::read(root().join(SAID)).unwrap_or_default();
    let all = String::from_utf8_lossy(&all);
    let tried: Vec<_> = edits.iter().filter_map(|(krate, edit)| Some((krate, edit, said_of(&all, krate, edit)?))).collect();
    println!("{} of {} edits were tried", tried.len(), edits.len());
    let asked = std::env::var_os("EDITS_TRIED").is_some();
    assert!(!asked || tried.len() == edits.len(), "{} of {} edits have a line in {SAID}", tried.len(), edits.len());
    let wrong = tried.iter().filter(|(_, _, said)| !is_for_a_fact(said));
    let wrong: Vec<String> = wrong.map(|(krate, edit, said)| format!("{edit} of {krate}: {said:.300}")).collect();
    assert!(wrong.is_empty(), "not refused for a fact:\n{}", wrong.join("\n"));
}

/// Lines as `rt ci` prints them, of both sorts.
#[test]
fn forms_are_told_from_facts() {
    let facts = [
        "./proofs/Laws/LittleLaws.antt:27:5: error: `number_little`: `omega`: the goal does not follow from what it read. All of that holds, and the goal fails, at `n` =",
        "./proofs/read2/Proof.antt:28:13: error: `returns`: `search`: no proof of `mathlib.Core.Path.◌≡◌ (Prim.Native.Nat.◌+◌ c.wide.result (Prim.Native.Nat.◌*◌ 256 c.wi",
        "./proofs/Laws/VolumeLaws.antt:360:70: error: `one_operation_at_a_time`: the two types are `Path ℕ 9 0` (expected) and `Path ℕ 9 9` (found)",
        "./proofs/byte/Proof.antt:36:49: error: `loop-again`: the two types first differ where one has `p` (expected) and the other `0` (found)",
        "./proofs/Laws/UseLaws.antt:51:9: error: `within`: expected type `EndedBefore l x t`, but this has type `EndedBefore l t x` \
         `t` is not in scope here, so what is shown does not paste back as it stands",
        "./proofs/Laws/RuleLaws.antt:45:53: error: `block_asked`: give a proof of that as the last argument, `rw L t`",
        "note: src/lib.rt:24:1: it is not proved that what the function ensures holds when it returns (`returns`); the facts known there allow values at which this goal ",
        "note: src/lib.rt:104:5: it is not proved that what `keep_answer` requires holds at this call (`keep_answer-requires-clause-sent_value`); `search` gave up",
        "note: src/lib.rt:80:5: it is not proved that the invariant of the loop holds (`loop-x-init`)",
        "note: src/lib.rt:105:10: it is not proved that the sum fits its type (at a range `..=n`, `n + 1`) (`overflow_add-result`)",
        "note: src/lib.rt:92:5: `search` found no proof (`invariant_of-result`); `search` gave up at one of its limits",
    ];
    let forms = [
        "./specs/Runs.antt:162:39: error: `replied_with`: missing field(s) of `Reply`: comparison",
        "./specs/Little.antt:9:16: error: `byte_of`: `limitless` is not in scope",
        "./specs/Little.antt:12:1: error: this line starts at column 1, but the `(` opened at 9:16 is still open",
        "./proofs/read2/Proof.antt:12:12: error: `add-wide`: module `Rattle.byte_lists.proofs.read2.Tie` has no `Need-add-wide` that can be named from here",
        "./proofs/byte/Proof.antt:7:19: error: `cast-result`: record `byte.Lts.Start` has no field `before`",
        "./proofs/place/Proof.antt:42:86: error: `returns-4`: record `After-slice-known` has no field `refusal`",
        "./proofs/byte/Proof.antt:14:45: error: `byte_spec`: expected type `tie.Need-cast-result-2`, but this has type `tie.Need-returns`",
        "./proofs/byte/Proof.antt:7:15: error: `cast-result`: this pattern needs a function (or path) type to bind",
        "./proofs/byte/Proof.antt:54:5: error: 1 declaration that depends on `loop-again`, which was not admitted, was not checked: byte_spec",
        "./proofs/with_up/Proof.antt:14:5: error: 1 declaration that depends on `returns`, which was rejected, was not checked: with_up_spec",
        "src/lib.rt:21:25: error[unknown-name]: cannot find value `wider` in this scope",
        "src/lib.rt:21:5: error[mismatched-types]: expected `u64`, found `bool`",
        "note: ./proofs/byte/Proof.antt:7:15: `cast-result` is not used",
        "note: src/lib.rt:92:5: `search` was not tried here",
    ];
    let refused = |error: &&&str| is_for_a_fact(&format!("{REFUSED}{error}"));
    assert_eq!(facts.iter().filter(|error| !refused(error)).collect::<Vec<_>>(), Vec::<&&str>::new());
    assert_eq!(forms.iter().filter(refused).collect::<Vec<_>>(), Vec::<&&str>::new());
    let others = [
        "refused, as it must be",
        "refused, as it must be (only because a proof file names what the edit took away, so this says little of the contract: change a value and \
         keep the names): ./proofs/read2/Proof.antt:28:13: error: `returns`: module `Tie` has no `Need-returns`",
        "refused, as it must be (only by a limit of the prover, which gave no verdict, so this says less of the contract: choose a change that it \
         refuses sooner): ./proofs/byte/Proof.antt:36:49: error: `loop-again`: antt ran out of stack",
        "BAD EDIT: an 'old:' text is in src/lib.rt 0 times, and not once",
        "NOT REFUSED: the crate is still proved with this edit (one that means the same as before cannot be refused: remove it)",
        "NOT TRIED: its check was killed, most likely for memory, so nothing is known of it: run this again",
        "fn byte_lists::byte: proved",
    ];
    assert_eq!(others.iter().filter(|said| is_for_a_fact(said)).collect::<Vec<_>>(), Vec::<&&str>::new());
}
