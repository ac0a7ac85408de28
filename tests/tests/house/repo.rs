//! The whole repository: its crates, what each declaration and each contract cites, and what that rests on.

use super::files::{cites, pieces, words, Decl, Module, Place, Source, Use};
use std::collections::{BTreeSet, HashMap};
use std::fs;
use std::path::{Path, PathBuf};

/// Declarations, by their place in the list of all.
pub type Set = BTreeSet<usize>;
type Names = HashMap<String, usize>;

/// What the names of a file mean.
#[derive(Default)]
struct Scope {
    names: Names,
    modules: HashMap<String, Place>,
}

pub struct Repo {
    pub crates: Vec<String>, // as crates.txt lists them
    pub modules: Vec<Module>,
    pub sources: Vec<Source>,
    pub decls: Vec<Decl>,
    cited: Vec<Set>,               // what each declaration cites
    cited_by_type: Vec<Set>,       // what its signature cites
    tables: HashMap<Place, Names>, // what each module declares, constructors too
}

pub fn path(name: &str) -> PathBuf {
    Path::new(env!("CARGO_MANIFEST_DIR")).join("..").join(name)
}

pub fn read(name: &str) -> String {
    fs::read_to_string(path(name)).unwrap_or_else(|error| panic!("{name}: {error}"))
}

/// The files below a folder that have this ending, as paths within it; none where there is no folder.
pub fn files(folder: &str, ending: &str) -> Vec<String> {
    let mut found = Vec::new();
    for entry in fs::read_dir(path(folder)).into_iter().flatten() {
        let name = entry.unwrap().file_name().into_string().unwrap();
        let inner = files(&format!("{folder}/{name}"), ending).into_iter();
        found.extend(inner.map(|file| format!("{name}/{file}")));
        if name.ends_with(ending) && path(&format!("{folder}/{name}")).is_file() {
            found.push(name);
        }
    }
    found.sort();
    found
}

impl Repo {
    pub fn read() -> Repo {
        let list = read("crates.txt");
        let lines = list.lines().filter_map(|line| line.split('#').next());
        let names = lines.filter_map(|line| Some(line.split_once(':')?.0.split_whitespace().next()?.to_string()));
        let crates: Vec<String> = names.collect();
        let (mut modules, mut sources, mut decls) = (Vec::new(), Vec::new(), Vec::new());
        for krate in &crates {
            for part in ["specs", "proofs"] {
                let folder = format!("crates/{krate}/{part}");
                for file in files(&folder, ".antt") {
                    let place = Place::new(krate, part, &file[..file.len() - 5].replace('/', "."));
                    let (module, more) = Module::read(place, &read(&format!("{folder}/{file}")));
                    modules.push(module);
                    decls.extend(more);
                }
            }
            let folder = format!("crates/{krate}/src");
            for file in files(&folder, ".rt") {
                let name = format!("{folder}/{file}");
                sources.push(Source::read(krate, &name, &read(&name)));
            }
        }
        let mut tables = HashMap::<Place, Names>::new();
        for (at, decl) in decls.iter().enumerate() {
            let table = tables.entry(decl.place.clone()).or_default();
            table.insert(decl.name.clone(), at);
        }
        for (at, decl) in decls.iter().enumerate() {
            let table = tables.get_mut(&decl.place).unwrap();
            for name in decl.constructors() {
                table.entry(name).or_insert(at);
            }
        }
        let (cited, cited_by_type) = (Vec::new(), Vec::new());
        let mut repo = Repo {
            crates,
            modules,
            sources,
            decls,
            cited,
            cited_by_type,
            tables,
        };
        let scopes = repo.modules.iter().map(|module| {
            let mut scope = repo.scope(&module.uses);
            let own = repo.tables.get(&module.place).cloned();
            scope.names.extend(own.unwrap_or_default());
            (&module.place, scope)
        });
        let scopes: HashMap<&Place, Scope> = scopes.collect();
        let all = |part: fn(&Decl) -> String| -> Vec<Set> {
            let cited = |(at, decl): (usize, &Decl)| {
                let scope = &scopes[&decl.place];
                let mut found = repo.cites(&part(decl), scope);
                found.remove(&at);
                found.extend(repo.cites(&decl.section, scope));
                found
            };
            repo.decls.iter().enumerate().map(cited).collect()
        };
        (repo.cited, repo.cited_by_type) = (all(Decl::text), all(Decl::signature));
        repo
    }

    fn find(&self, place: &Place, name: &str) -> Option<usize> {
        self.tables.get(place)?.get(name).copied()
    }

    fn scope(&self, uses: &[Use]) -> Scope {
        let mut scope = Scope::default();
        for one in uses {
            let Some(place) = &one.place else { continue };
            let module = one.alias.clone().map(|alias| (alias, place.clone()));
            scope.modules.extend(module);
            for (name, here) in &one.names {
                let found = self.find(place, name).map(|at| (here.clone(), at));
                scope.names.extend(found);
            }
        }
        scope
    }

    /// What a text cites: by name, by a module's name and a dot, or by the whole path.
    fn cites(&self, text: &str, scope: &Scope) -> Set {
        let words = words(text);
        let named = scope.names.iter().filter(|(name, _)| cites(&words, name));
        let mut found: Set = named.map(|(_, at)| *at).collect();
        for piece in pieces(text).map(|piece| piece.trim_matches('.')) {
            if let Some((module, name)) = piece.split_once('.') {
                let name = name.split('.').next().unwrap();
                let place = scope.modules.get(module);
                found.extend(place.and_then(|place| self.find(place, name)));
            }
            if let Some((path, name)) = piece.rsplit_once('.') {
                let place = Place::of_path(path);
                found.extend(place.and_then(|place| self.find(&place, name)));
            }
        }
        found
    }

    /// What a text of a source, as a contract, cites.
    pub fn cited_in(&self, source: &Source, text: &str) -> Set {
        self.cites(text, &self.scope(&source.ghosts))
    }

    /// What the attributes of a source name, by crate, module and name; and the paths that lead to nothing. The library's are not read.
    pub fn named_in(&self, source: &Source) -> (Set, Vec<String>) {
        let (mut found, mut lost) = (Set::new(), Vec::new());
        for path in source.attributes.iter().flat_map(|line| pieces(line)).filter(|piece| piece.contains("::")) {
            let named = Place::of_attribute(&source.krate, path);
            match named.as_ref().map(|(place, name)| (place, self.find(place, name))) {
                Some((_, Some(at))) => found.extend([at]),
                Some((place, None)) if place.krate == "std" => {}
                _ => lost.push(format!("{}: {path}", source.file)),
            }
        }
        (found, lost)
    }

    /// What a declaration's signature cites.
    pub fn cited_by_type(&self, at: usize) -> &Set {
        &self.cited_by_type[at]
    }

    /// All that these rest on, themselves too: a definition on all that it cites, a law on what its statement cites.
    pub fn closure(&self, start: Set) -> Set {
        let next = |at: usize| match self.decls[at].is_definition() {
            true => &self.cited[at],
            false => &self.cited_by_type[at],
        };
        reached(start, next)
    }

    /// All that these use, themselves too, in statements or proofs.
    pub fn used_by(&self, start: Set) -> Set {
        reached(start, |at| &self.cited[at])
    }

    /// The declarations of a module.
    pub fn declared_in<'a>(&'a self, place: &'a Place) -> impl Iterator<Item = usize> + 'a {
        (0..self.decls.len()).filter(move |at| self.decls[*at].place == *place)
    }

    /// The definitions among these.
    pub fn definitions(&self, decls: impl IntoIterator<Item = usize>) -> Vec<&Decl> {
        let decls = decls.into_iter().map(|at| &self.decls[at]);
        decls.filter(|decl| decl.is_definition()).collect()
    }

    /// `12 definitions, 40 lines`: what the definitions among these come to.
    pub fn count(&self, decls: impl IntoIterator<Item = usize>) -> String {
        let decls = self.definitions(decls);
        let lines: usize = decls.iter().map(|decl| decl.size()).sum();
        format!("{} definitions, {lines} lines", decls.len())
    }
}

fn reached<'a>(start: Set, next: impl Fn(usize) -> &'a Set) -> Set {
    let mut open: Vec<usize> = start.iter().copied().collect();
    let mut found = start;
    while let Some(at) = open.pop() {
        open.extend(next(at).iter().filter(|more| found.insert(**more)));
    }
    found
}
