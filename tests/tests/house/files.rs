//! The files of a crate, read as text: modules (`.antt`) with what they import and declare, and code (`.rt`) with what it imports and
//! the contracts of its functions.

use std::collections::HashSet;
use std::fmt;

/// Where a module stands: its crate, `specs` or `proofs`, and its name there, as `Laws.Theorem`.
#[derive(Clone, Debug, PartialEq, Eq, PartialOrd, Ord, Hash)]
pub struct Place {
    pub krate: String,
    pub part: String,
    pub module: String,
}

impl Place {
    pub fn new(krate: &str, part: &str, module: &str) -> Place {
        let [krate, part, module] = [krate, part, module].map(str::to_string);
        Place {
            krate,
            part,
            module,
        }
    }

    /// The module that a path names, if it is of a crate: `Rattle.order.specs.Claim`.
    pub fn of_path(path: &str) -> Option<Place> {
        let (krate, rest) = path.strip_prefix("Rattle.")?.split_once('.')?;
        let (part, module) = rest.split_once('.')?;
        (["specs", "proofs"].contains(&part) && !module.is_empty())
            .then(|| Place::new(krate, part, module))
    }

    /// The module and the name that a path of an attribute gives: `crate::proofs::Laws::TimeLaws::drawn`. `crate` is this crate.
    pub fn of_attribute(krate: &str, path: &str) -> Option<(Place, String)> {
        let (path, name) = path.rsplit_once("::")?;
        let (first, rest) = path.split_once("::")?;
        let (part, module) = rest.split_once("::")?;
        let krate = if first == "crate" { krate } else { first };
        let place = Place::new(krate, part, &module.replace("::", "."));
        ["specs", "proofs"].contains(&part).then(|| (place, name.to_string()))
    }

    /// Whether it is a module of laws that other crates may use, not the proof of a function.
    pub fn is_laws(&self) -> bool {
        self.part == "proofs" && self.module.starts_with("Laws.")
    }
}

/// As the pages write it: `order/specs/Claim`.
impl fmt::Display for Place {
    fn fmt(&self, f: &mut fmt::Formatter) -> fmt::Result {
        let module = self.module.replace('.', "/");
        write!(f, "{}/{}/{module}", self.krate, self.part)
    }
}

/// A line without its comment.
fn code(line: &str) -> &str {
    if is_comment(line) && !line.trim_start()[2..].starts_with(['→', '-', '>']) {
        return "";
    }
    match line.find(" -- ") {
        Some(at) if line[..at].matches('"').count() % 2 == 0 => &line[..at],
        _ => line.trim_end(),
    }
}

fn is_comment(line: &str) -> bool {
    line.trim_start().starts_with("--")
}

fn indent(line: &str) -> usize {
    line.len() - line.trim_start().len()
}

fn is_blank(line: &str) -> bool {
    line.trim().is_empty()
}

/// The pieces of a text between spaces, brackets and the like.
pub fn pieces(text: &str) -> impl Iterator<Item = &str> {
    text.split(|c: char| c.is_whitespace() || "(){}[];,\"".contains(c))
        .filter(|piece| !piece.is_empty())
}

/// The words that may cite a name: all pieces but projections as `.size`; of a dotted one, as `s.size` or `tie.close`, what stands before the
/// first dot. (`Repo::cites` looks up a name behind a module's.)
pub fn words(text: &str) -> HashSet<&str> {
    let mut found = HashSet::new();
    if text.contains("[]") {
        found.insert("[]");
    }
    for piece in pieces(text).filter(|piece| !piece.starts_with('.')) {
        let word = piece.trim_end_matches('.');
        for word in [Some(word), word.strip_prefix(['¬', '←'])].into_iter().flatten() {
            found.insert(word);
            found.extend(word.split('.').next());
        }
    }
    found
}

/// Whether the words may cite the name. An operator as `◌≡◌` is cited by its parts; a sign may stick to another word.
pub fn cites(words: &HashSet<&str>, name: &str) -> bool {
    let sticks = |part: &str| {
        !part.starts_with(char::is_alphanumeric)
            && words
                .iter()
                .any(|word| word.starts_with(part) || word.ends_with(part))
    };
    let mut parts = name.split('◌').filter(|part| !part.is_empty()).peekable();
    words.contains(name)
        || name.contains('◌')
            && parts.peek().is_some()
            && parts.all(|part| words.contains(part) || sticks(part))
}

/// One `use`: of a whole module under a name, or of names of a module, each with its name here.
pub struct Use {
    pub place: Option<Place>, // none for a library's module
    pub alias: Option<String>,
    pub names: Vec<(String, String)>,
    pub given_on: bool, // `pub use` and the like: for others
}

impl Use {
    fn read(text: &str, given_on: bool) -> Use {
        let renamed = |text: &str| {
            let (name, here) = text.split_once(" as ").unwrap_or((text, text));
            (name.trim().to_string(), here.trim().to_string())
        };
        let text = text.trim().trim_end_matches(';').trim_end();
        let (path, alias, names) = match text.split_once('{') {
            Some((path, names)) => {
                let names = names.trim_end_matches('}').split(',').map(str::trim);
                let names = names.filter(|name| !name.is_empty()).map(renamed).collect();
                (path.trim_end_matches('.').to_string(), None, names)
            }
            None => {
                let (path, here) = renamed(text);
                let alias = here.rsplit('.').next().map(str::to_string);
                (path, alias, Vec::new())
            }
        };
        Use {
            place: Place::of_path(&path),
            alias,
            names,
            given_on,
        }
    }

    /// The names that it brings and these words do not cite.
    pub fn unused(&self, words: &HashSet<&str>) -> Vec<String> {
        if self.given_on {
            return Vec::new();
        }
        let here = self.names.iter().map(|(_, here)| here).chain(&self.alias);
        let idle = |name: &&String| {
            !name.starts_with("syntax") && pieces(name).count() == 1 && !cites(words, name)
        };
        here.filter(idle).cloned().collect()
    }
}

/// A declaration: its signature and clauses, with the comments above and among them.
pub struct Decl {
    pub place: Place,
    pub name: String,
    pub marks: Vec<String>,   // `pub`, `unfoldable`, `abbrev`, `ruleset`, ..
    pub kind: Option<String>, // `data` or `record`
    pub section: String,      // the heads of the `module _ .. where` that it stands in
    above: usize,             // lines of comment above it
    lines: Vec<String>,
}

impl Decl {
    pub fn is_definition(&self) -> bool {
        let mark = |mark: &String| mark == "unfoldable" || mark == "abbrev";
        self.kind.is_some() || self.marks.iter().any(mark)
    }

    /// Its lines with their comments, blank ones left out.
    pub fn size(&self) -> usize {
        self.above + self.lines.len()
    }

    pub fn text(&self) -> String {
        code_of(&self.lines)
    }

    /// Its type; of a data or record the whole of it.
    pub fn signature(&self) -> String {
        let base = indent(&self.lines[0]);
        let more = |line: &&String| self.kind.is_some() || indent(line) > base;
        let size = 1 + self.lines[1..].iter().take_while(more).count();
        code_of(&self.lines[..size])
    }

    /// The constructors of a data, or the one that a record names.
    pub fn constructors(&self) -> Vec<String> {
        let Some(kind) = &self.kind else {
            return Vec::new();
        };
        let lines = self.lines.iter().map(|line| code(line));
        let lines = lines.skip_while(|line| !ends_in_where(line)).skip(1);
        let lines: Vec<&str> = lines.filter(|line| !is_blank(line)).collect();
        let outer = lines.iter().filter(|line| indent(line) <= indent(lines[0]));
        let mut found = Vec::new();
        for line in outer.map(|line| line.trim()) {
            let (names, typed) = match line.split_once(':') {
                Some((names, _)) => (names, true),
                None => (line, false),
            };
            let mut names = names.split_whitespace().filter(|name| *name != "pub");
            match kind.as_str() {
                "data" if typed => found.extend(names.map(str::to_string)),
                "data" => found.extend(names.next().map(str::to_string)),
                _ if names.next() == Some("constructor") => found.extend(names.map(str::to_string)),
                _ => {}
            }
        }
        found
    }
}

fn code_of<T: AsRef<str>>(lines: &[T]) -> String {
    let code: Vec<&str> = lines.iter().map(|line| code(line.as_ref())).collect();
    code.join("\n")
}

fn ends_in_where(line: &str) -> bool {
    line.split_whitespace().last() == Some("where")
}

/// A module: what it imports, and its code apart from the imports.
pub struct Module {
    pub place: Place,
    pub uses: Vec<Use>,
    pub code: String,
}

impl Module {
    pub fn read(place: Place, text: &str) -> (Module, Vec<Decl>) {
        let lines: Vec<&str> = text.trim_end_matches('\n').split('\n').collect();
        let (mut uses, mut rest) = (Vec::new(), Vec::new());
        let (mut at, mut body) = (0, 0);
        while let Some(line) = lines.get(at) {
            let bare = line.strip_prefix("unfoldable ").unwrap_or(line);
            let bare = bare.strip_prefix("pub ").unwrap_or(bare);
            if let Some(first) = bare.strip_prefix("use ") {
                let mut text = first.to_string();
                while text.contains('{') && !text.contains('}') {
                    at += 1;
                    text = text + " " + lines[at].trim();
                }
                uses.push(Use::read(code(&text), bare.len() < line.len()));
            } else if is_blank(line) || line.starts_with("--") || bare.starts_with("mod ") {
                rest.push(*line);
            } else {
                break;
            }
            at += 1;
            if !is_blank(line) && !line.starts_with("--") {
                body = at;
            }
        }
        rest.extend(&lines[at..]);
        if body == 0 {
            // No imports: the comment right above the first declaration is its own, unless it is the head of the file.
            let above = lines[..at].iter().rev().take_while(|line| is_comment(line));
            body = match above.count() {
                count if count < at => at - count,
                _ => at,
            };
        }
        let mut decls = Vec::new();
        declarations(&lines[body..], "", &place, &mut decls);
        let code = code_of(&rest);
        (Module { place, uses, code }, decls)
    }
}

/// The first line of a declaration: its marks, `data` or `record`, its name, and whether a type follows.
fn head_of(text: &str) -> (Vec<String>, Option<String>, String, bool) {
    const MARKS: [&str; 6] = ["unfoldable", "abbrev", "pub", "private", "axiom", "ruleset"];
    let mut words = text.split_whitespace().peekable();
    let mut marks = Vec::new();
    while let Some(mark) = words.next_if(|word| MARKS.contains(word)) {
        marks.push(mark.to_string());
    }
    let kind = words.next_if(|word| ["data", "record"].contains(word));
    let name = words.next().unwrap_or_default().to_string();
    let typed = words.next() == Some(":");
    (marks, kind.map(str::to_string), name, typed)
}

/// Takes the declarations off the lines of a section, which has this head.
fn declarations(lines: &[&str], section: &str, place: &Place, found: &mut Vec<Decl>) {
    let first = lines.iter().find(|line| !is_blank(line));
    let base = first.map_or(0, |line| indent(line));
    let deeper = |line: &&&str| is_blank(line) || indent(line) > base;
    // The comment lines above, and whether a line may go on with the last declaration.
    let (mut above, mut open) = (Vec::new(), false);
    let mut at = 0;
    while let Some(&line) = lines.get(at) {
        at += 1;
        if is_blank(line) {
            continue;
        }
        if is_comment(line) && indent(line) <= base {
            above.push(line.to_string());
            continue;
        }
        if indent(line) <= base {
            let (marks, kind, name, typed) = head_of(code(line));
            let other = ["open", "syntax", "mutual"].contains(&name.as_str());
            if name == "module" {
                let rest = lines[at - 1..].iter();
                let size = rest.take_while(|line| !ends_in_where(code(line))).count() + 1;
                let head = code_of(&lines[at - 1..at - 1 + size]);
                at += size - 1;
                let inner = lines[at..].iter().take_while(deeper).count();
                let head = format!("{section}\n{head}");
                declarations(&lines[at..at + inner], &head, place, found);
                at += inner;
            }
            if name == "module" || name.starts_with("infix") || other {
                above.clear();
                open = false;
                continue;
            }
            let again = open && found.last().is_some_and(|decl| decl.name == name);
            if kind.is_some() || !marks.is_empty() || typed && !again {
                found.push(Decl {
                    place: place.clone(),
                    name,
                    marks,
                    kind,
                    section: section.to_string(),
                    above: above.len(),
                    lines: vec![line.to_string()],
                });
                above.clear();
                open = true;
                continue;
            }
            assert!(open, "{place}: a line of no declaration: {line}");
        }
        if open {
            let now = &mut found.last_mut().unwrap().lines;
            now.append(&mut above);
            now.push(line.to_string());
        }
    }
}

/// A function of the code: its name, with its type's before it if it is a method, and what stands between name and body.
pub struct Function {
    pub name: String,
    pub is_c: bool, // `extern "C"`
    pub contract: String,
}

/// A file of code.
pub struct Source {
    pub krate: String,
    pub file: String,
    pub ghosts: Vec<Use>,        // `ghost use`
    pub imports: Vec<String>,    // the names that other `use` lines bring
    pub head: Vec<String>,       // the comment that it begins with
    pub attributes: Vec<String>, // the lines that hand laws and definitions to the check
    pub code: String,            // without comments, imports and those attributes
    pub functions: Vec<Function>,
}

/// Whether a line of code hands laws and definitions to the check: `#[tactic(auto, using(..), unfolding(..))]`.
pub fn is_attribute(line: &str) -> bool {
    let line = line.trim_start();
    line.starts_with("#[tactic(") || line.starts_with("#![tactic(")
}

impl Source {
    pub fn read(krate: &str, file: &str, text: &str) -> Source {
        let head = text.lines().take_while(|line| line.starts_with("//"));
        let head = head.map(str::to_string).collect();
        let (mut ghosts, mut imports, mut rest) = (Vec::new(), Vec::new(), Vec::new());
        let mut attributes = Vec::new();
        let mut lines = text
            .lines()
            .filter(|line| !line.trim_start().starts_with("//"));
        while let Some(line) = lines.next() {
            if let Some(first) = line.strip_prefix("ghost use ") {
                let mut text = first.to_string();
                while !text.trim_end().ends_with(';') {
                    text = text + " " + lines.next().unwrap().trim();
                }
                ghosts.push(Use::read(&text, false));
            } else if let Some(first) = line.strip_prefix("use ") {
                let mut text = first.to_string();
                while !text.trim_end().ends_with(';') {
                    text = text + " " + lines.next().unwrap().trim();
                }
                imports.extend(imported(&text));
            } else if is_attribute(line) {
                assert!(line.trim_end().ends_with(")]"), "{file}: an attribute over several lines: {line}");
                attributes.push(line.trim().to_string());
            } else {
                rest.push(line.split(" // ").next().unwrap());
            }
        }
        let functions = functions(&rest);
        let (krate, file) = (krate.to_string(), file.to_string());
        Source {
            krate,
            file,
            ghosts,
            imports,
            head,
            attributes,
            code: rest.join("\n"),
            functions,
        }
    }
}

/// The names that a `use` of code brings: `coord_record::{Op, Tally};`.
fn imported(text: &str) -> Vec<String> {
    let text = text.trim_end().trim_end_matches(';');
    let names = match text.split_once('{') {
        Some((_, names)) => names.strip_suffix('}').expect("one pair of braces"),
        None => text,
    };
    assert!(!names.contains(['{', '}']), "braces in braces: {text}");
    let last = |name: &str| name.rsplit("::").next().unwrap().rsplit(" as ").next().unwrap().trim().to_string();
    names.split(',').map(last).filter(|name| !name.is_empty()).collect()
}

fn functions(lines: &[&str]) -> Vec<Function> {
    let (mut found, mut owner) = (Vec::new(), String::new());
    let in_word = |c: char| c.is_alphanumeric() || c == '_';
    let word = |text: &str| -> String { text.chars().take_while(|c| in_word(*c)).collect() };
    for (at, line) in lines.iter().enumerate() {
        if let Some(name) = line.strip_prefix("impl ") {
            owner = word(name) + "::";
        } else if line.starts_with('}') {
            owner.clear();
        }
        let bare = line.trim_start();
        let bare = bare.strip_prefix("pub ").unwrap_or(bare);
        let c = bare.strip_prefix("extern \"C\" ");
        if let Some(rest) = c.unwrap_or(bare).strip_prefix("fn ") {
            let opens = |end: &str| indent(end) == indent(line) && end.trim_end().ends_with('{');
            let clauses = lines[at..].iter().take_while(|end| !opens(end)).skip(1);
            let mut contract = vec![&rest[word(rest).len()..]];
            contract.extend(clauses);
            found.push(Function {
                name: owner.clone() + &word(rest),
                is_c: c.is_some(),
                contract: contract.join("\n"),
            });
        }
    }
    found
}
