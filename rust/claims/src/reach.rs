//! What a declaration of the definitions and proofs reaches, and those that nothing
//! reaches: no function of the code, no proof of one, no page.
//!
//! What the code's `ghost use` lines and `#[tactic(..)]` attributes name is reached,
//! and each answer of a function's proof (`pub name : goal.name` in its Answers.antt or
//! Invariants.antt), which the check asks for by name, and every name that the README
//! or the claims have in backticks; and what a reached declaration's text names, in its
//! own file or by a `use` line. A local name that is spelt as a
//! declaration reaches it: the check is told too little, never too much.

use std::collections::{BTreeMap, BTreeSet, HashMap};
use std::fs;
use std::path::{Path, PathBuf};

const PAGES: [&str; 2] = ["README.md", "docs/CLAIMS.md"];
const MODIFIERS: [&str; 3] = ["pub", "abbrev", "unfoldable"];
/// The files of a function's proof, beside each other in its folder of proofs/.
const OF_FUNCTIONS: [&str; 2] = ["/Answers.antt", "/Invariants.antt"];

/// A file's declarations with the words of their texts, those of them that answer a
/// goal, and its imports: the name that the file uses, and the file and name that it
/// comes from; and of a whole module the name and the file.
#[derive(Default)]
struct File {
    declared: BTreeMap<String, BTreeSet<String>>,
    answers: BTreeSet<String>,
    imported: HashMap<String, Name>,
    modules: HashMap<String, String>,
}

/// The files of definitions and proofs by their paths, and what the code names.
type Sources = (BTreeMap<String, File>, Vec<Name>);

/// A file's path and a name in it.
type Name = (String, String);

/// The dead declarations, each as `file name`, and the number of all.
pub fn dead(root: &Path) -> Result<(Vec<String>, usize), String> {
    let (files, mut open) = sources(root)?;
    let mut cited = BTreeSet::new();
    for page in PAGES {
        // A page that is missing is another check's to tell.
        let text = fs::read_to_string(root.join(page)).unwrap_or_default();
        cited.extend(text.lines().flat_map(quoted).map(str::to_string));
    }
    for (path, file) in &files {
        let of_function =
            path.contains("/proofs/") && OF_FUNCTIONS.iter().any(|end| path.ends_with(end));
        let asked_for = |name: &String| of_function && file.answers.contains(name);
        let is_root = |name: &&String| asked_for(name) || cited.contains(*name);
        let roots = file.declared.keys().filter(is_root);
        open.extend(roots.map(|name| (path.clone(), name.clone())));
    }
    let alive = closed(&files, open);
    let names = |(path, file): (&String, &File)| -> Vec<Name> {
        file.declared
            .keys()
            .map(|name| (path.clone(), name.clone()))
            .collect()
    };
    let all: Vec<Name> = files.iter().flat_map(names).collect();
    let dead = all.iter().filter(|name| !alive.contains(name));
    Ok((
        dead.map(|(path, name)| format!("{path} {name}")).collect(),
        all.len(),
    ))
}

/// What can be reached from these names, each of them a file's path and a name in it.
pub fn reached(root: &Path, from: &[(&str, &str)]) -> Result<BTreeSet<Name>, String> {
    let (files, _) = sources(root)?;
    let open = from
        .iter()
        .map(|(path, name)| (path.to_string(), name.to_string()));
    Ok(closed(&files, open.collect()))
}

fn sources(root: &Path) -> Result<Sources, String> {
    let (mut files, mut named) = (BTreeMap::new(), Vec::new());
    for path in paths(&root.join("crates"))? {
        let shown = path.strip_prefix(root).unwrap_or(&path).to_string_lossy();
        let text = fs::read_to_string(&path).map_err(|e| format!("cannot read {shown}: {e}"))?;
        if shown.ends_with(".rt") {
            let uses = text
                .lines()
                .filter_map(|line| line.trim().strip_prefix("ghost "));
            named.extend(uses.flat_map(imports).map(|(_, from)| from));
            let own = shown.split('/').nth(1).unwrap_or("");
            named.extend(tactics(&text).filter_map(|path| told_to_tactics(path, own)));
        } else {
            files.insert(shown.to_string(), parsed(&text));
        }
    }
    Ok((files, named))
}

/// All that can be reached from these.
fn closed(files: &BTreeMap<String, File>, mut open: Vec<Name>) -> BTreeSet<Name> {
    let mut alive = BTreeSet::new();
    while let Some((path, name)) = open.pop() {
        let Some((file, words)) = files
            .get(&path)
            .and_then(|f| Some((f, f.declared.get(&name)?)))
        else {
            continue;
        };
        if !alive.insert((path.clone(), name)) {
            continue;
        }
        let own = file.declared.keys().filter(|name| named_in(name, words));
        open.extend(own.map(|name| (path.clone(), name.clone())));
        let imported = file
            .imported
            .iter()
            .filter(|(name, _)| named_in(name, words));
        open.extend(imported.map(|(_, from)| from.clone()));
        let within = words.iter().filter_map(|word| {
            let (module, name) = word.split_once('.')?;
            Some((file.modules.get(module)?.clone(), name.to_string()))
        });
        open.extend(within);
    }
    alive
}

/// What a line has in backticks.
fn quoted(line: &str) -> impl Iterator<Item = &str> {
    line.split('`').skip(1).step_by(2)
}

/// Whether the words name it; an operator, `◌∘◌`, is named by its parts.
fn named_in(name: &str, words: &BTreeSet<String>) -> bool {
    let mut parts = name.split('◌').filter(|part| !part.is_empty());
    words.contains(name) || name.contains('◌') && parts.all(|part| words.contains(part))
}

/// The .antt and .rt files below the folder; Lib.antt declares nothing, it lists a
/// folder's files, and what stands in a folder out/ is rt's own.
fn paths(folder: &Path) -> Result<Vec<PathBuf>, String> {
    let told = |error| format!("cannot read {}: {error}", folder.display());
    let mut found = Vec::new();
    for entry in fs::read_dir(folder).map_err(told)? {
        let path = entry.map_err(told)?.path();
        if path.is_dir() {
            if !path.ends_with("out") {
                found.extend(paths(&path)?);
            }
        } else if path.extension().is_some_and(|e| e == "antt" || e == "rt")
            && !path.ends_with("Lib.antt")
        {
            found.push(path);
        }
    }
    found.sort();
    Ok(found)
}

/// The file of `Rattle.CRATE.specs.X`, or of proofs.
fn file_of(module: &str) -> Option<String> {
    let (of, path) = module.strip_prefix("Rattle.")?.split_once('.')?;
    Some(format!("crates/{of}/{}.antt", path.replace('.', "/")))
}

/// The paths in the lists of a text's `#[tactic(auto, using(..), unfolding(..))]`.
fn tactics(text: &str) -> impl Iterator<Item = &str> {
    let lists = text.split("[tactic(").skip(1);
    let lists = lists.filter_map(|after| after.split(']').next());
    lists.flat_map(|list| list.split(|c: char| c.is_whitespace() || "(),".contains(c)))
}

/// What a tactic is told by `CRATE::specs::X::name`, where `crate` is the code's own.
fn told_to_tactics(path: &str, own: &str) -> Option<Name> {
    let (module, name) = path.rsplit_once("::")?;
    let (of, within) = module.split_once("::")?;
    let of = if of == "crate" { own } else { of };
    let file = file_of(&format!("Rattle.{of}.{}", within.replace("::", ".")))?;
    Some((file, name.to_string()))
}

/// Of `use Rattle.CRATE.specs.X.{a, b as c}`: the names used, and where they are from.
fn imports(line: &str) -> Vec<(String, Name)> {
    let from = |text: &str| -> Option<(String, String)> {
        let (module, rest) = text.strip_prefix("use ")?.split_once(".{")?;
        Some((file_of(module)?, rest.split('}').next()?.to_string()))
    };
    let Some((file, names)) = from(line) else {
        return Vec::new();
    };
    let one = |name: &str| {
        let (name, used) = name.split_once(" as ").unwrap_or((name, name));
        (
            used.trim().to_string(),
            (file.clone(), name.trim().to_string()),
        )
    };
    names.split(',').map(one).collect()
}

/// Of `use Rattle.CRATE.specs.X as y`, or without a name of its own: the name used, and
/// the file.
fn imported_module(line: &str) -> Option<(String, String)> {
    let module = line.strip_prefix("use ")?;
    let (module, used) = module.split_once(" as ").unwrap_or((module, module));
    let used = used.rsplit('.').next()?;
    Some((used.to_string(), file_of(module)?))
}

/// A declaration begins with its signature, `name :`, or as a record, a data type or a
/// set of rules, at the level of the margin or two further in than the module around
/// it. What comes after belongs to it, up to the next; a module's head belongs to all
/// that it holds.
fn parsed(text: &str) -> File {
    let mut file = File::default();
    let mut modules: Vec<(usize, BTreeSet<String>)> = Vec::new();
    let mut head = None;
    let mut current = String::new();
    for line in text.lines().map(without_comment) {
        let body = line.trim_start();
        let indent = line.len() - body.len();
        if body.is_empty() {
            continue;
        }
        let import = body.strip_prefix("pub ").unwrap_or(body);
        if import.starts_with("use ") {
            if import.contains('{') {
                file.imported.extend(imports(import));
            } else {
                file.modules.extend(imported_module(import));
            }
            continue;
        }
        while head.is_none() && modules.last().is_some_and(|(at, _)| indent <= *at) {
            modules.pop();
        }
        let level = modules.last().map_or(0, |(at, _)| at + 2);
        if head.is_some() || indent == level && body.starts_with("module ") {
            let (at, mut all) = head.take().unwrap_or((indent, BTreeSet::new()));
            all.extend(words(body));
            if body.ends_with("where") {
                modules.push((at, all));
            } else {
                head = Some((at, all));
            }
            continue;
        }
        if let Some(name) = declared(body).filter(|_| indent == level) {
            current = name.to_string();
            if is_answer(body, name) {
                file.answers.insert(current.clone());
            }
            let around = modules.iter().flat_map(|(_, words)| words.clone());
            file.declared
                .entry(current.clone())
                .or_default()
                .extend(around);
        }
        if let Some(all) = file.declared.get_mut(&current) {
            all.extend(words(body));
        }
    }
    file
}

/// The name that the line declares.
fn declared(line: &str) -> Option<&str> {
    let mut words = line
        .split_whitespace()
        .skip_while(|word| MODIFIERS.contains(word));
    let first = words.next()?;
    match first {
        "record" | "data" | "ruleset" => words.next(),
        name => words.next().filter(|word| *word == ":").map(|_| name),
    }
}

/// Whether the line that declares the name is `pub name : goal.name`.
fn is_answer(line: &str, name: &str) -> bool {
    let (before, goal) = line.split_once(" : goal.").unwrap_or_default();
    let mut before = before.split_whitespace().rev();
    goal == name && before.next() == Some(name) && before.any(|word| word == "pub")
}

fn without_comment(line: &str) -> &str {
    let begins = |at: &usize| {
        (*at == 0 || line[..*at].ends_with(' '))
            && line[*at..].trim_start_matches('-').starts_with([' ', '\0'])
    };
    let at = line
        .match_indices("--")
        .map(|(at, _)| at)
        .find(|at| begins(at) || line.trim() == "--");
    line[..at.unwrap_or(line.len())].trim_end()
}

/// The words between spaces and brackets, and their parts between dots.
fn words(text: &str) -> BTreeSet<String> {
    let whole = text.split(|c: char| c.is_whitespace() || "(){}[],;\"".contains(c));
    let both = whole.flat_map(|word| word.split('.').chain([word]));
    both.filter(|word| !word.is_empty())
        .map(str::to_string)
        .collect()
}
