//! The two pages that a reader starts from: docs/ROUTINES.md lists the outside routines, docs/READING.md the modules that hold the
//! definitions which their contracts and the top statements rest on.

use super::files::{Decl, Place};
use super::repo::{read, Repo, Set};
use std::collections::BTreeSet;

pub const READING: &str = "docs/READING.md";
pub const DEMAND_3: &str = "To judge demand 3 alone";
pub const STATEMENTS: &str = "The statements";

/// The sentences at the top of READING.md that give totals, up to their numbers.
pub const ALL: &str = "All outside routines and the theorem together rest on ";
pub const ALONE: &str = "Demand 3 alone rests on ";

/// The outside routines: crate and function. A program has no function.
pub fn routines() -> Vec<(String, String)> {
    let page = read("docs/ROUTINES.md");
    let rows = page.lines().filter_map(|line| line.strip_prefix("| `"));
    let cells = rows.filter_map(|row| row.split('`').next());
    let split = |cell: &str| match cell.split_once("::") {
        Some((krate, name)) => (krate.to_string(), name.to_string()),
        None => (cell.to_string(), String::new()),
    };
    cells.map(split).collect()
}

/// What the contracts of the outside routines cite; and what is wrong with the list of them.
pub fn contracts(repo: &Repo) -> (Set, Vec<String>) {
    let (mut cited, mut wrong) = (Set::new(), Vec::new());
    let listed = routines();
    for (krate, name) in &listed {
        let mut sources: Vec<_> = repo.sources.iter().collect();
        sources.retain(|source| source.krate == *krate);
        let mut there = name.is_empty() && !sources.is_empty();
        for source in sources {
            for function in source.functions.iter().filter(|f| f.name == *name) {
                there = true;
                cited.extend(repo.cited_in(source, &function.contract));
                if function.contract.lines().any(|line| line.trim_start().starts_with("requires")) {
                    wrong.push(format!("{krate}::{name} asks something of its caller"));
                }
            }
        }
        if !there {
            wrong.push(format!("{krate}::{name} is not there"));
        }
    }
    for source in &repo.sources {
        for function in source.functions.iter().filter(|function| function.is_c) {
            let (krate, name) = (source.krate.clone(), function.name.clone());
            if !listed.contains(&(krate.clone(), name.clone())) {
                wrong.push(format!("{krate}::{name} is called from C and not listed"));
            }
        }
    }
    (cited, wrong)
}

/// A module that READING.md names in a list: under which heading, and whether the counts of its definitions follow.
pub struct Named {
    pub section: String,
    pub place: Place,
    pub counted: bool,
}

pub struct Reading {
    pub text: String,
    pub named: Vec<Named>,
    top: Option<String>, // the law that is demand 3: the first law that the prose under its heading names
}

/// `order/specs/Claim` as a place.
fn place(text: &str) -> Option<Place> {
    let mut parts = text.splitn(3, '/');
    let (krate, part, module) = (parts.next()?, parts.next()?, parts.next()?);
    let module = module.replace('/', ".");
    let right = ["specs", "proofs"].contains(&part);
    right.then(|| Place::new(krate, part, &module))
}

/// The end of counts that a text begins with: ` (12 definitions, 40 lines)`.
fn counts_end(text: &str) -> Option<usize> {
    let end = text.find(" lines)")? + " lines)".len();
    let first = text[..end].strip_prefix(" (")?.chars().next()?;
    first.is_ascii_digit().then_some(end)
}

impl Reading {
    pub fn read(repo: &Repo) -> Reading {
        let text = read(READING);
        let (mut section, mut named, mut top) = ("", Vec::new(), None);
        for line in text.lines() {
            section = line.strip_prefix("## ").unwrap_or(section);
            let parts: Vec<&str> = line.split('`').collect();
            for (at, name) in parts.iter().enumerate().skip(1).step_by(2) {
                let is_law = |decl: &Decl| decl.name == *name && !decl.is_definition();
                let next = parts.get(at + 1).copied().unwrap_or_default();
                if !line.starts_with("- ") {
                    if top.is_none() && section == DEMAND_3 && repo.decls.iter().any(is_law) {
                        top = Some(name.to_string());
                    }
                } else if let Some(place) = place(name) {
                    let (section, counted) = (section.to_string(), counts_end(next).is_some());
                    named.push(Named {
                        section,
                        place,
                        counted,
                    });
                }
            }
        }
        Reading { text, named, top }
    }

    /// The modules that it names.
    pub fn listed(&self) -> BTreeSet<&Place> {
        self.named.iter().map(|named| &named.place).collect()
    }

    /// The modules that it names under a heading.
    pub fn under(&self, section: &str) -> BTreeSet<&Place> {
        let here = self.named.iter().filter(|named| named.section == section);
        here.map(|named| &named.place).collect()
    }

    /// What demand 3 rests on: its law's statement.
    pub fn demand_3(&self, repo: &Repo) -> Set {
        let mut cited = Set::new();
        for (at, decl) in repo.decls.iter().enumerate() {
            if self.top.as_ref() == Some(&decl.name) {
                cited.extend(repo.cited_by_type(at));
            }
        }
        repo.closure(cited)
    }

    /// What the outside routines and demand 3 rest on.
    fn all(&self, repo: &Repo) -> Set {
        &repo.closure(contracts(repo).0) | &self.demand_3(repo)
    }

    /// The same, with what the other statements rest on: the definitions of their modules.
    pub fn needed(&self, repo: &Repo) -> Set {
        let statements = self.under(STATEMENTS).into_iter();
        let statements = statements.flat_map(|place| repo.declared_in(place));
        &self.all(repo) | &repo.closure(statements.collect())
    }

    /// The page with all its numbers right.
    pub fn refreshed(&self, repo: &Repo) -> String {
        let totals = [(ALL, self.all(repo)), (ALONE, self.demand_3(repo))];
        let line = |line: &str| {
            if let Some((said, set)) = totals.iter().find(|(said, _)| line.starts_with(said)) {
                return format!("{said}{}.", repo.count(set.iter().copied()));
            }
            let mut parts: Vec<String> = line.split('`').map(str::to_string).collect();
            let names = if line.starts_with("- ") {
                1..parts.len() - 1
            } else {
                0..0
            };
            for at in names.step_by(2) {
                if let (Some(place), Some(end)) = (place(&parts[at]), counts_end(&parts[at + 1])) {
                    let count = repo.count(repo.declared_in(&place));
                    parts[at + 1].replace_range(..end, &format!(" ({count})"));
                }
            }
            parts.join("`")
        };
        self.text.lines().map(|text| line(text) + "\n").collect()
    }
}
