//! The repository keeps its house rules: where definitions, laws and proofs stand, what a reader has to read, and that nothing idle lies
//! about. All of it is read as text (`house/`), without the toolchain.

#[path = "house/files.rs"]
mod files;
#[path = "house/pages.rs"]
mod pages;
#[path = "house/repo.rs"]
mod repo;

use files::{is_attribute, pieces, words, Decl, Place};
use pages::{contracts, routines, Reading, ALL, ALONE, DEMAND_3, READING, STATEMENTS};
use repo::{files, path, read, Repo, Set};
use std::collections::{BTreeMap, BTreeSet};
use std::sync::OnceLock;

/// Laws that stand among definitions all the same.
const LAWS_IN_SPECS: &[&str] = &[];

/// Modules of definitions that cite laws all the same.
const PROOFS_CITED: &[&str] = &[];

/// How long a line may be, by folder, and how many longer ones stand there today.
const LONGEST: [(&str, usize, usize); 3] = [("src", 160, 0), ("specs", 160, 0), ("proofs", 200, 0)];

fn repo() -> &'static Repo {
    static REPO: OnceLock<Repo> = OnceLock::new();
    REPO.get_or_init(Repo::read)
}

fn shown(decl: &Decl) -> String {
    format!("{}.{}", decl.place, decl.name)
}

/// Fails with all that was found.
fn none(what: &str, found: impl IntoIterator<Item = String>) {
    let found: Vec<String> = found.into_iter().collect();
    let (count, lines) = (found.len(), found.join("\n"));
    assert!(count == 0, "{what} ({count}):\n{lines}");
}

/// Fails with all that was found but the exceptions, and with exceptions that are none any more.
fn none_but(exceptions: &[&str], what: &str, found: impl IntoIterator<Item = String>) {
    let found: BTreeSet<String> = found.into_iter().collect();
    let known: BTreeSet<String> = exceptions.iter().map(|name| name.to_string()).collect();
    let gone = known.difference(&found);
    let gone = gone.map(|name| format!("no exception any more: {name}"));
    none(what, found.difference(&known).cloned().chain(gone));
}

#[test]
fn specs_hold_definitions_only() {
    let specs = repo().decls.iter().filter(|d| d.place.part == "specs");
    let laws = specs.filter(|decl| !decl.is_definition()).map(shown);
    none_but(LAWS_IN_SPECS, "laws or unmarked names in specs", laws);
}

#[test]
fn contracts_cite_definitions_only() {
    let mut texts = Vec::new();
    for module in repo().modules.iter().filter(|m| m.place.part == "specs") {
        texts.push((module.place.to_string(), &module.code, &module.uses));
    }
    for source in &repo().sources {
        texts.push((source.file.clone(), &source.code, &source.ghosts));
    }
    let mut found = Vec::new();
    for (file, code, uses) in texts {
        let used = uses.iter().filter_map(|one| one.place.clone());
        let cited = used.chain(pieces(code).filter_map(Place::of_path));
        // the toolchain's library has names of its own there, which are no laws of these crates
        let here = |place: &Place| repo().crates.contains(&place.krate);
        let proofs = cited.filter(|place| place.part == "proofs" && here(place));
        found.extend(proofs.map(|place| format!("{file} cites {place}")));
    }
    let what = "contracts or definitions that cite proofs";
    none_but(PROOFS_CITED, what, found);
}

#[test]
fn routines_are_there_and_ask_nothing() {
    none("docs/ROUTINES.md", contracts(repo()).1);
}

/// The definitions that the outside routines and the statements rest on, in modules that READING.md does not list.
fn missing(page: &Reading) -> Vec<String> {
    let listed = page.listed();
    let mut needed = repo().definitions(page.needed(repo()));
    needed.retain(|decl| !listed.contains(&decl.place));
    let line = |decl: &Decl| format!("not listed: {}", shown(decl));
    needed.into_iter().map(line).collect()
}

#[test]
fn reading_list_is_complete() {
    let page = Reading::read(repo());
    let places = |set: Set| -> BTreeSet<&Place> {
        let decls = repo().definitions(set).into_iter();
        decls.map(|decl| &decl.place).collect()
    };
    let (needed, mut wrong) = (places(page.needed(repo())), missing(&page));
    for place in page.listed() {
        if !repo().modules.iter().any(|module| module.place == *place) {
            wrong.push(format!("no such module: {place}"));
        } else if !needed.contains(place) {
            wrong.push(format!("nothing rests on it: {place}"));
        }
        for decl in repo().declared_in(place).map(|at| &repo().decls[at]) {
            if !decl.is_definition() && !LAWS_IN_SPECS.contains(&shown(decl).as_str()) {
                wrong.push(format!("a law in a listed module: {}", shown(decl)));
            }
        }
        let counted = |named: &&pages::Named| named.counted && named.place == *place;
        if page.named.iter().filter(counted).count() != 1 {
            wrong.push(format!("not once with its counts: {place}"));
        }
    }
    for (now, right) in page.text.lines().zip(page.refreshed(repo()).lines()) {
        if now != right {
            wrong.push(format!("a wrong number: {now:.100}"));
            wrong.push(format!("  it should be: {right:.100}"));
        }
    }
    for total in [ALL, ALONE] {
        let lines = page.text.lines().filter(|line| line.starts_with(total));
        if lines.count() != 1 {
            wrong.push(format!("not once: {total}.."));
        }
    }
    let (short, needed) = (page.under(DEMAND_3), places(page.demand_3(repo())));
    if needed.is_empty() {
        wrong.push(format!("it names no law: {DEMAND_3}"));
    }
    for place in short.symmetric_difference(&needed) {
        wrong.push(format!("missing or too much: {DEMAND_3}: {place}"));
    }
    none(READING, wrong);
}

/// Writes the numbers of READING.md anew and prints what it leaves out:
/// `cargo test --offline --locked --manifest-path tests/Cargo.toml --test house -- --ignored --nocapture`
#[test]
#[ignore = "rewrites docs/READING.md"]
fn refresh_reading() {
    let page = Reading::read(repo());
    std::fs::write(path(READING), page.refreshed(repo())).unwrap();
    println!("{}", missing(&page).join("\n"));
}

/// A statement is a definition whose type is `Type 0`, without parameters. It is proved if some law, without hypotheses, has it as its
/// whole type.
/// The type of a declaration, as words.
fn kind(decl: &Decl) -> Vec<String> {
    let text = decl.signature();
    let (_, kind) = text.split_once(" :").unwrap_or_default();
    kind.split_whitespace().map(str::to_string).collect()
}

/// The top statements: declarations of a type, in the modules that READING.md lists as statements.
fn statements() -> Vec<usize> {
    let page = Reading::read(repo());
    let all = page.under(STATEMENTS).into_iter();
    let mut all: Vec<usize> = all.flat_map(|place| repo().declared_in(place)).collect();
    all.retain(|at| {
        let decl = &repo().decls[*at];
        decl.kind.is_none() && kind(decl).len() == 2 && kind(decl)[0] == "Type"
    });
    all
}

/// The laws whose whole type is one name, with what that name stands for.
fn bare_laws() -> Vec<(usize, &'static Set)> {
    let laws = repo().decls.iter().enumerate().filter(|(_, decl)| {
        let is_law = decl.place.is_laws() && !decl.is_definition();
        let is_bare = decl.section.is_empty() && !decl.marks.contains(&"axiom".into());
        is_law && is_bare && kind(decl).len() == 1
    });
    laws.map(|(at, _)| (at, repo().cited_by_type(at))).collect()
}

#[test]
fn statements_are_proved() {
    let proved: Set = bare_laws()
        .into_iter()
        .flat_map(|(_, of)| of.iter().copied())
        .collect();
    assert!(!statements().is_empty(), "{READING} lists no statement");
    let open = statements().into_iter().filter(|at| !proved.contains(at));
    let open = open.map(|at| shown(&repo().decls[at]));
    none("statements that no law has as its type", open);
}

#[test]
fn imports_are_used() {
    let mut idle = Vec::new();
    for module in &repo().modules {
        let words = words(&module.code);
        let names = module.uses.iter().flat_map(|one| one.unused(&words));
        idle.extend(names.map(|name| format!("{}: {name}", module.place)));
    }
    for source in &repo().sources {
        let words = words(&source.code);
        let ghosts = source.ghosts.iter().flat_map(|one| one.unused(&words));
        let in_word = |c: char| c.is_alphanumeric() || c == '_';
        let words: BTreeSet<&str> = source.code.split(|c| !in_word(c)).collect();
        let names = source.imports.iter().cloned();
        let names = names.filter(|name| !words.contains(name.as_str()));
        idle.extend(
            ghosts
                .chain(names)
                .map(|name| format!("{}: {name}", source.file)),
        );
    }
    none("imports that nothing uses", idle);
}

/// The lines of all files of a folder in every crate, each with its file and number.
fn lines_of(folder: &str) -> Vec<(String, String)> {
    let mut found = Vec::new();
    for krate in &repo().crates {
        let folder = format!("crates/{krate}/{folder}");
        for file in files(&folder, "") {
            let name = format!("{folder}/{file}");
            for (at, line) in read(&name).lines().enumerate() {
                found.push((format!("{name}:{}", at + 1), line.to_string()));
            }
        }
    }
    found
}

#[test]
fn no_position_comments() {
    let is_number = |text: &str| text.parse::<usize>().is_ok();
    let is_position = |line: &str| match line.trim().split(':').collect::<Vec<_>>()[..] {
        [file, line, column] => {
            let file = file.starts_with("-- src/") && file.ends_with(".rt");
            file && is_number(line) && is_number(column)
        }
        _ => false,
    };
    let mut found = lines_of("proofs");
    found.retain(|(_, line)| is_position(line));
    let found = found.into_iter().map(|(at, _)| at);
    none("comments that give a position in the code", found);
}

#[test]
fn inner_crates_say_so() {
    let listed = routines();
    let says_so = |line: &String| {
        let rest = line.strip_prefix("// inner: call `");
        let name = rest.and_then(|rest| rest.split('`').next()?.split_once("::"));
        name.is_some_and(|(krate, name)| listed.contains(&(krate.into(), name.into())))
    };
    let mut silent = Vec::new();
    for krate in &repo().crates {
        let mut sources: Vec<_> = repo().sources.iter().collect();
        sources.retain(|source| source.krate == *krate);
        let inner = listed.iter().all(|(name, _)| name != krate);
        let has_code = sources.iter().any(|source| !source.functions.is_empty());
        sources.retain(|source| source.file.ends_with("/lib.rt"));
        let said = sources.iter().any(|lib| lib.head.iter().any(says_so));
        if inner && has_code && !said {
            silent.push(krate.clone());
        }
    }
    none("crates without a line `// inner: call ..`", silent);
}

#[test]
fn attributes_name_what_is_there() {
    let lost = repo().sources.iter().flat_map(|source| repo().named_in(source).1);
    none("paths of attributes that lead to no law or definition", lost);
}

/// The formatter keeps an attribute on one line: it may be of any length.
#[test]
fn no_long_lines() {
    let mut wrong = Vec::new();
    for (folder, longest, known) in LONGEST {
        let mut long = lines_of(folder);
        long.retain(|(_, line)| line.chars().count() > longest && !is_attribute(line));
        let count = long.len();
        if count > known {
            wrong.push(format!("{folder}: {count} over {longest}, {known} known"));
            wrong.extend(long.into_iter().map(|(at, _)| at));
        }
    }
    none("long lines", wrong);
}

#[test]
fn module_names_are_unique() {
    let mut by_name = BTreeMap::<&str, Vec<String>>::new();
    for place in repo().modules.iter().map(|module| &module.place) {
        let name = place.module.rsplit('.').next().unwrap();
        if (place.part == "specs" || place.is_laws()) && !["Lib", "Laws", "Workers"].contains(&name)
        {
            by_name.entry(name).or_default().push(place.to_string());
        }
    }
    let twice = by_name.into_values().filter(|places| places.len() > 1);
    let twice = twice.map(|places| places.join(", "));
    none("modules of one name", twice);
}

/// Live is what proofs of functions, contracts and attributes cite, what documents name in backticks, the top statements with the laws that
/// prove them, and what those use in turn. A rule set uses the laws that it holds.
#[test]
fn no_dead_laws() {
    let mut text = read("README.md");
    for file in files("docs", ".md") {
        text = text + "\n" + &read(&format!("docs/{file}"));
    }
    let quoted = text
        .lines()
        .flat_map(|line| line.split('`').skip(1).step_by(2));
    let between = |c: char| c.is_whitespace() || "|(),;:./".contains(c);
    let named: BTreeSet<&str> = quoted.flat_map(|text| text.split(between)).collect();
    let mut live = Set::new();
    for (at, decl) in repo().decls.iter().enumerate() {
        let proves = decl.place.part == "proofs" && !decl.place.is_laws();
        if proves || named.contains(decl.name.as_str()) {
            live.insert(at);
        }
    }
    for source in &repo().sources {
        live.extend(repo().cited_in(source, &source.code));
        live.extend(repo().named_in(source).0);
    }
    let top: Set = statements().into_iter().collect();
    let proving = bare_laws()
        .into_iter()
        .filter(|(_, of)| of.iter().any(|at| top.contains(at)));
    live.extend(proving.map(|(at, _)| at));
    let live = repo().used_by(live);
    let dead = (0..repo().decls.len()).filter(|at| !live.contains(at));
    let dead = dead.map(|at| shown(&repo().decls[at]));
    none("laws and definitions that nothing uses", dead);
}
