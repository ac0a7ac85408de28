//! docs/TRACE.md is true: what its rows name stands in the repository, and every must-fail edit fits its file and is named.

use std::collections::{BTreeMap, BTreeSet};
use std::fs;
use std::path::{Path, PathBuf};

const HEAD: &str = "| | Sentence | Definition | Contract or theorem | Must-fail edit | Test |";
const RULE: &str = "|---|---|---|---|---|---|";

fn path(name: &str) -> PathBuf {
    Path::new(env!("CARGO_MANIFEST_DIR")).join("..").join(name)
}

/// The text of a file; empty where there is no such file.
fn read(name: &str) -> String {
    fs::read_to_string(path(name)).unwrap_or_default()
}

/// What stands in a folder; nothing where there is no such folder.
fn names_in(folder: &str) -> BTreeSet<String> {
    let entries = fs::read_dir(path(folder)).into_iter().flatten();
    entries.map(|entry| entry.unwrap().file_name().into_string().unwrap()).collect()
}

fn is_crate(name: &str) -> bool {
    !name.is_empty() && path(&format!("crates/{name}")).is_dir()
}

/// The program text of a crate.
fn source(name: &str) -> String {
    let folder = format!("crates/{name}/src");
    names_in(&folder).iter().map(|file| read(&format!("{folder}/{file}"))).collect()
}

/// Every must-fail edit, as its crate and its file.
fn all_edits() -> BTreeSet<(String, String)> {
    let of = |name: String| names_in(&format!("crates/{name}/must-fail")).into_iter().map(move |file| (name.clone(), file));
    names_in("crates").into_iter().flat_map(of).collect()
}

/// Whether the text has this as a whole word: names hold letters, digits and `_`, `-`, `'`.
fn holds(text: &str, word: &str) -> bool {
    let part = |letter: char| letter.is_alphanumeric() || "_-'".contains(letter);
    text.match_indices(word).any(|(at, _)| {
        !text[..at].ends_with(part) && !text[at + word.len()..].starts_with(part)
    })
}

/// Whether a module of definitions declares the name: it leads its line, but for words like `pub`, and its type or fields follow.
fn defines(module: &str, name: &str) -> bool {
    module.lines().any(|line| {
        let lead = ["pub", "unfoldable", "abbrev", "record", "data"];
        let mut words = line.split_whitespace().skip_while(|word| lead.contains(word));
        words.next() == Some(name) && words.next().is_some_and(|word| word.starts_with([':', '(', '{']))
    })
}

/// Whether a program text declares the name.
fn declares(source: &str, name: &str) -> bool {
    ["fn", "struct", "enum", "const"].iter().any(|kind| holds(source, &format!("{kind} {name}")))
}

/// Where a name is looked for.
#[derive(Clone, Copy, Debug)]
enum Place<'a> {
    Nowhere,
    Module(&'a str, &'a str), // a crate's module of definitions
    Source(&'a str),          // a crate's program text
    Test(&'a str),            // a file of tests
    Folder(&'a str),
}
use Place::*;

/// The place that a cell's text in backticks says, and the name there; a bare name is of the place said before it.
fn placed<'a>(text: &'a str, before: Place<'a>) -> (Place<'a>, &'a str) {
    if let Some((file, name)) = text.split_once(": ") {
        return (Test(file), name);
    }
    if let (Some((name, rest)), false) = (text.split_once("::"), text.starts_with("edges::")) {
        return (Source(name), rest);
    }
    if let Some((folder, rest)) = text.rsplit_once('/') {
        if is_crate(folder) {
            let (module, name) = rest.split_once('.').unwrap_or((rest, ""));
            return (Module(folder, module), name);
        }
        return (Folder(folder), rest);
    }
    match (text.rsplit_once('.'), before) {
        (Some((_, "rs")), _) => (Test(text), ""),
        (Some((_, "c")), _) => (Folder("tests/c"), text),
        (Some((_, "md")), _) => (Folder("docs"), text),
        (None, Nowhere | Source(_)) if is_crate(text) => (Source(text), ""),
        _ => (before, text),
    }
}

/// A cell's text in backticks: the place it says, the name there, and whether it stands in parentheses.
struct Named<'a> {
    text: &'a str,
    place: Place<'a>,
    name: &'a str,
    in_parentheses: bool,
}

/// The names of a cell. A place said in parentheses holds up to their end.
fn names(cell: &str) -> Vec<Named<'_>> {
    let (mut now, mut outer, mut found) = (Nowhere, Vec::new(), Vec::new());
    for (number, text) in cell.split('`').enumerate() {
        if number % 2 == 1 {
            let (place, name) = placed(text, now);
            found.push(Named { text, place, name, in_parentheses: !outer.is_empty() });
            now = place;
            continue;
        }
        for letter in text.chars() {
            match letter {
                '(' => outer.push(now),
                ')' => now = outer.pop().unwrap_or(now),
                _ => {}
            }
        }
    }
    found
}

/// Whether the name stands at its place. Without a name, the place itself has to be there. A bare name in parentheses may be any
/// word of the module or program before them, as a field; after the tests by scripts it is a case, or what makes scripts.
fn stands(&Named { text, place, name, in_parentheses }: &Named) -> bool {
    let beside = in_parentheses && text == name;
    match place {
        Nowhere => false,
        Module(krate, module) => {
            let text = read(&format!("crates/{krate}/specs/{module}.antt")) + &read(&format!("crates/{krate}/proofs/Laws/{module}.antt"));
            !text.is_empty() && (name.is_empty() || defines(&text, name) || beside && holds(&text, name))
        }
        Source(krate) if beside && holds(&source(krate), name) => true,
        Source(krate) => is_crate(krate) && (name.is_empty() || name.split("::").all(|part| declares(&source(krate), part))),
        Test("bench_compare.rs" | "cases.rs") if beside => {
            let case = |kind: &str| path(&format!("tests/cases/{name}.{kind}")).is_file();
            match name.strip_prefix("edges::") {
                Some(maker) => declares(&read("tests/src/edges.rs"), maker),
                None => case("in") && case("out") || declares(&read("tests/src/bin/bench_compare.rs"), name),
            }
        }
        Test("bench_compare.rs") => name.is_empty() && path("tests/src/bin/bench_compare.rs").is_file(),
        Test(file) => read(&format!("tests/tests/{file}")).contains(&format!("#[test]\nfn {name}()")),
        Folder(folder) => path(folder).join(name).is_file(),
    }
}

/// The edits of a cell, each with the crates in parentheses after it.
fn edits_of(cell: &str) -> Vec<(&str, Vec<&str>)> {
    let mut found = Vec::<(&str, Vec<&str>)>::new();
    for named in names(cell) {
        match found.last_mut() {
            Some((_, crates)) if named.in_parentheses => crates.push(named.text),
            _ => found.push((named.text, Vec::new())),
        }
    }
    found
}

#[test]
fn every_row_names_what_is_there() {
    let text = read("docs/TRACE.md");
    let edits = all_edits();
    let (mut rows, mut cited, mut wrong) = (BTreeSet::new(), BTreeSet::new(), Vec::new());
    for line in text.lines().filter(|line| line.starts_with('|') && ![HEAD, RULE].contains(line)) {
        let cells: Vec<&str> = line.split('|').map(str::trim).collect();
        let ["", row, sentence, definition, contract, edit, test, ""] = cells[..] else {
            wrong.push(format!("not 6 columns: {line:.60}"));
            continue;
        };
        let mut say = |what: String| wrong.push(format!("{row}: {what}"));
        if !rows.insert(row) {
            say("a second row of this name".into());
        }
        for cell in [row, sentence, definition, contract, edit, test] {
            if cell.is_empty() || cell.split('`').count() % 2 == 0 {
                say(format!("an empty cell, or a backtick without its second: {cell}"));
            }
        }
        for cell in [definition, contract, edit, test] {
            if cell.split('`').step_by(2).any(|prose| holds(prose, "open")) {
                say(format!("open: {cell}"));
            }
        }
        let mut crates = BTreeSet::new();
        for cell in [definition, contract, test] {
            for named in names(cell) {
                if !stands(&named) {
                    say(format!("{} is not there ({:?})", named.text, named.place));
                }
                if let (Module(krate, _) | Source(krate), true) = (named.place, cell != test) {
                    crates.insert(krate);
                }
            }
        }
        for (file, said) in edits_of(edit) {
            let stands_in = |krate: &&str| edits.contains(&(krate.to_string(), file.to_string()));
            let there: Vec<&str> = crates.iter().copied().filter(stands_in).collect();
            if said.iter().any(|krate| !stands_in(krate)) || said.is_empty() && there.is_empty() {
                say(format!("no {file} in a crate that the row names"));
            }
            let of = if said.is_empty() { there } else { said };
            cited.extend(of.into_iter().map(|krate| (krate.to_string(), file.to_string())));
        }
    }
    for (krate, file) in edits.difference(&cited) {
        wrong.push(format!("no row has {file} of {krate}"));
    }
    if !text.contains(&format!(" {} rows; no cell is open.", rows.len())) {
        wrong.push(format!("the head says another number than {} rows", rows.len()));
    }
    assert!(wrong.is_empty(), "found wrong:\n{}", wrong.join("\n"));
}

/// Makes an edit's changes in turn: lines `file:`, `old:` and `new:`, each old text once in its file as the changes before left it.
fn make(folder: &str, edit: &str) -> Result<(), String> {
    let (mut texts, mut file, mut old, mut made) = (BTreeMap::new(), "", None, 0);
    for line in edit.lines() {
        match (line.split_once(": "), old) {
            (Some(("file", name)), None) => file = name,
            (Some(("old", text)), None) => old = Some(text),
            (Some(("new", new)), Some(text)) if new != text => {
                let now = texts.entry(file).or_insert_with(|| read(&format!("{folder}/{file}")));
                match now.matches(text).count() {
                    1 => *now = now.replacen(text, new, 1),
                    times => return Err(format!("{times} times in {file}: {text}")),
                }
                (old, made) = (None, made + 1);
            }
            _ => return Err(format!("line out of place: {line}")),
        }
    }
    match (made, old) {
        (1.., None) => Ok(()),
        _ => Err("no whole pair of old and new".into()),
    }
}

#[test]
fn every_edit_fits_its_file() {
    let mut wrong = Vec::new();
    for (krate, file) in all_edits() {
        if let Err(what) = make(&format!("crates/{krate}"), &read(&format!("crates/{krate}/must-fail/{file}"))) {
            wrong.push(format!("{file} of {krate}: {what}"));
        }
    }
    assert!(wrong.is_empty(), "found wrong:\n{}", wrong.join("\n"));
}

/// The names of a text that must be in scope where it stands: not numerals, λ, fields (`.name`, `name =`, `s.name`) or what a path leads to.
fn needed(text: &str) -> BTreeSet<&str> {
    let part = |letter: char| letter.is_alphanumeric() || "_-'".contains(letter);
    let mut found = BTreeSet::new();
    let (mut at, mut before) = (0, ' ');
    for piece in text.split_inclusive(|letter: char| !part(letter)) {
        let word = piece.trim_end_matches(|letter: char| !part(letter));
        let after = &text[at + word.len()..];
        let field = before == '.' || before == ':' || after.starts_with(" = ") || after.starts_with("::");
        if word.starts_with(char::is_alphabetic) && word != "λ" && !field {
            found.insert(word);
        }
        at += piece.len();
        before = piece.chars().last().unwrap_or(' ');
        if before == ' ' && text[at..].starts_with('.') {
            before = '.';
        }
    }
    found
}

/// Words that each file knows: of the languages themselves, and the libraries that a whole path begins with.
const EVERYWHERE: [&str; 7] = ["const", "in", "grind", "search", "unfold", "borrow", "mathlib"];

/// Whether a word is the name of a goal that stands in the place of another goal's. Rattle names a goal after the code, so where an edit changes a
/// test it changes the goal's name too; `edits.rs` reads whether there was such a goal. In a file of answers a goal's name is told by the line
/// that gives its type, `pub NAME : goal.NAME`: the edit changes both names there, the answer's and its goal's.
fn is_goal(word: &str, old: &str, edit: &str) -> bool {
    let answered = |line: &str| {
        let (name, goal) = line.strip_prefix("pub ")?.split_once(" : goal.")?;
        (name == goal).then(|| name.to_string())
    };
    let pairs = || edit.lines().zip(edit.lines().skip(1)).filter_map(|(old, new)| Some((old.strip_prefix("old: ")?, new.strip_prefix("new: ")?)));
    let mut renamed = pairs().filter_map(|(old, new)| Some((answered(old)?, answered(new)?)));
    word.starts_with("Need-") && old.contains("Need-") || renamed.any(|(was, now)| now == word && holds(old, &was))
}

/// What a line `use PATH.{NAMES};` of code, or `use PATH.{NAMES}` of a file of laws or answers, brings in, if it is there: another crate's constants,
/// functions and types, a module's public laws, or what the library has in common.
fn imported(line: &str) -> Vec<&str> {
    let Some(rest) = line.strip_prefix("use ") else { return Vec::new() };
    if let Some((krate, names)) = rest.strip_suffix("};").and_then(|rest| rest.split_once("::{")) {
        let text = source(krate);
        return names.split(", ").filter(|name| declares(&text, name)).collect();
    }
    let Some((path, names)) = rest.strip_suffix('}').and_then(|rest| rest.split_once(".{")) else { return Vec::new() };
    let parts: Vec<&str> = path.split('.').collect();
    let ["Rattle", krate, "proofs", at @ ..] = &parts[..] else { return Vec::new() };
    if *krate == "std" {
        return names.split(", ").collect();
    }
    let module = read(&format!("crates/{krate}/proofs/{}.antt", at.join("/")));
    names.split(", ").filter(|name| module.contains(&format!("pub {name} :"))).collect()
}

/// The names that an edit brings along: after `let`, in the pattern of an `if let`, after λ, the first parameter of a function, the answer to a goal
/// that its code adds (`NAME : goal.GOAL`; `edits.rs` reads whether there was such a goal), and what it adds to a `use`, if that is there.
fn brought(edit: &str) -> BTreeSet<&str> {
    let mut found = BTreeSet::new();
    for line in edit.lines().filter_map(|line| line.strip_prefix("new: ")) {
        found.extend(line.split("let ").skip(1).filter_map(|rest| rest.split(' ').next()));
        let patterns = line.split("if let ").skip(1).filter_map(|rest| rest.split(" = ").next());
        found.extend(patterns.flat_map(|pattern| pattern.split(|letter: char| !letter.is_alphanumeric() && letter != '_')));
        found.extend(line.split("λ ").skip(1).filter_map(|rest| rest.split('.').next()));
        let parameters = line.split_once("fn ").and_then(|(_, rest)| rest.split_once('('));
        found.extend(parameters.and_then(|(_, rest)| Some(rest.split_once(": ")?.0)));
        found.extend(line.split_once(" : goal.").map(|(name, _)| name.strip_prefix("pub ").unwrap_or(name)));
        found.extend(imported(line));
    }
    found
}

/// A name that is missing would refuse an edit whatever the edit says: what it shows must be a fact that fails.
#[test]
fn every_edit_names_what_its_file_knows() {
    let mut wrong = Vec::new();
    for (krate, file) in all_edits() {
        let edit = read(&format!("crates/{krate}/must-fail/{file}"));
        let own = brought(&edit);
        let (mut code, mut old) = (String::new(), "");
        for (key, text) in edit.lines().filter_map(|line| line.split_once(": ")) {
            match key {
                "file" => {
                    let whole = read(&format!("crates/{krate}/{text}"));
                    let lines = whole.lines().map(str::trim_start);
                    code = lines.filter(|line| !line.starts_with("--") && !line.starts_with("//")).collect::<Vec<_>>().join("\n");
                }
                "old" => old = text,
                _ => {
                    let known = needed(old);
                    let here = |name: &str| known.contains(name) || own.contains(name) || holds(&code, name);
                    let missing = needed(text).into_iter().filter(|name| !here(name) && !EVERYWHERE.contains(name) && !is_goal(name, old, &edit));
                    wrong.extend(missing.map(|name| format!("{file} of {krate}: {name}")));
                }
            }
        }
    }
    assert!(wrong.is_empty(), "names that are not in scope:\n{}", wrong.join("\n"));
}

/// The functions of a program text, each with all that stands before the next.
fn functions(source: &str) -> Vec<String> {
    let mut found: Vec<String> = Vec::new();
    for line in source.lines() {
        let words: Vec<&str> = line.split_whitespace().collect();
        if let ["fn", ..] | ["pub", "fn", ..] | ["pub", "extern", "\"C\"", "fn", ..] = words[..] {
            found.push(String::new());
        }
        if let Some(function) = found.last_mut() {
            *function += &format!("{line}\n");
        }
    }
    found
}

/// Row b: it counts all functions, names the crates that have some, and names each that promises nothing.
#[test]
fn every_function_has_a_contract() {
    let text = read("docs/TRACE.md");
    let row = text.lines().find(|line| line.starts_with("| b |")).unwrap();
    let (mut all, mut silent) = (0, Vec::new());
    for krate in names_in("crates") {
        let found = functions(&source(&krate));
        all += found.len();
        assert!(found.is_empty() || row.contains(&format!("`{krate}`")), "row b does not name {krate}");
        let ensures = |function: &&String| function.lines().any(|line| line.trim_start().starts_with("ensures "));
        let mute = found.iter().filter(|function| !ensures(function));
        let names = mute.filter_map(|function| function.split("fn ").nth(1)?.split(['(', '<']).next());
        silent.extend(names.map(|name| format!("`{krate}::{name}`")));
    }
    assert!(row.contains(&format!("all {all} functions of")), "there are {all} functions");
    assert!(row.contains(&format!("but {},", silent.join(" and "))), "without a contract: {}", silent.join(" and "));
}
