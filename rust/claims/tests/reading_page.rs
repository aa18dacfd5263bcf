//! docs/READING.md against the definitions: it names all that the picker's calls
//! reach, each in its file, and no more.

use std::collections::BTreeSet;
use std::fs;
use std::path::{Path, PathBuf};

use claims::{reached, rows};

const CALLS: [(&str, &str); 3] = [
    ("crates/chart/specs/Chart.antt", "chart_of"),
    ("crates/picker/specs/ImagePick.antt", "image_pick_of"),
    ("crates/picker/specs/PlanePick.antt", "plane_pick_of"),
];

fn root() -> PathBuf {
    Path::new(env!("CARGO_MANIFEST_DIR")).join("../..")
}

fn page() -> String {
    fs::read_to_string(root().join("docs/READING.md")).unwrap()
}

/// What a cell has in backticks.
fn quoted(cell: &str) -> impl Iterator<Item = String> + '_ {
    cell.split('`').skip(1).step_by(2).map(str::to_string)
}

/// The page's files and names, from the rows of three cells.
fn believed() -> BTreeSet<(String, String)> {
    let mut found = BTreeSet::new();
    for row in rows(&page()) {
        let [_, file, names] = row.cells.as_slice() else {
            continue;
        };
        let file = file.split(['[', ']']).nth(1).unwrap_or("").to_string();
        found.extend(quoted(names).map(|name| (file.clone(), name)));
    }
    found
}

#[test]
fn the_page_names_what_the_calls_reach() {
    let reached = reached(&root(), &CALLS).unwrap();
    let believed = believed();
    let missing: Vec<_> = reached.difference(&believed).collect();
    let needless: Vec<_> = believed.difference(&reached).collect();
    assert!(
        missing.is_empty() && needless.is_empty(),
        "{missing:?} {needless:?}"
    );
    let files: BTreeSet<&String> = believed.iter().map(|(file, _)| file).collect();
    let count = format!(
        "They are {} definitions in {} files.",
        believed.len(),
        files.len()
    );
    assert!(page().contains(&count), "{count}");
}

/// A file of definitions is on the page or among those that may be skipped, once.
#[test]
fn every_file_of_definitions_is_on_the_page() {
    let mut named: Vec<String> = believed().into_iter().map(|(file, _)| file).collect();
    named.dedup();
    for row in rows(&page()).iter().filter(|row| row.cells.len() == 2) {
        named.extend(quoted(&row.cells[1]));
    }
    named.sort();
    let mut files = Vec::new();
    for folder in fs::read_dir(root().join("crates")).unwrap() {
        let specs = folder.unwrap().path().join("specs");
        for file in fs::read_dir(specs).into_iter().flatten() {
            let path = file.unwrap().path();
            let shown = path
                .strip_prefix(root())
                .unwrap()
                .to_string_lossy()
                .to_string();
            if !shown.ends_with("/Lib.antt") {
                files.push(shown);
            }
        }
    }
    files.sort();
    assert_eq!(named, files);
}
