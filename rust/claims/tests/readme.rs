//! The README's links, its table of refusals and its C, against the files that they
//! are about.

use std::fs;
use std::path::Path;

use claims::{declares, rows};

fn text(path: &str) -> String {
    let root = Path::new(env!("CARGO_MANIFEST_DIR")).join("../..");
    fs::read_to_string(root.join(path)).unwrap_or_else(|why| panic!("{path}: {why}"))
}

/// The links of a text: what is shown, and the path.
fn links(text: &str) -> Vec<(&str, &str)> {
    let mut pieces = text.split("](");
    let mut before = pieces.next().unwrap_or("");
    let mut found = Vec::new();
    for after in pieces {
        let shown = before.rsplit('[').next().unwrap_or("");
        let path = after.split(')').next().unwrap_or("");
        found.push((shown, path));
        before = after;
    }
    found
}

/// The name that a link shows in backticks.
fn name(shown: &str) -> Option<&str> {
    shown.strip_prefix('`')?.strip_suffix('`')
}

#[test]
fn links_lead_to_files_that_declare_what_they_show() {
    let readme = text("README.md");
    let links = links(&readme);
    assert!(links.len() > 50, "{}", links.len());
    for (shown, path) in links {
        let file = text(path);
        if let Some(name) = name(shown) {
            let extension = path.rsplit('.').next().unwrap_or("");
            assert!(declares(extension, &file, name), "{name} in {path}");
        }
    }
}

/// In the order of the numbers, under the Rust crate's names, each with a definition.
#[test]
fn every_refusal_has_its_row() {
    let (readme, crate_table) = (text("README.md"), text("rust/facepoint/src/refusal.rs"));
    let mut numbers = Vec::new();
    for row in rows(&readme) {
        let [number, refusal, _, _, definition] = &row.cells[..] else {
            continue;
        };
        let Ok(number) = number.parse::<u32>() else {
            continue;
        };
        numbers.push(number);
        let entry = name(refusal).map(|refusal| format!("    {refusal} = {number}, \""));
        let named = entry.is_some_and(|entry| crate_table.contains(&entry));
        assert!(named, "{number} is not {refusal} in the crate");
        assert!(!links(definition).is_empty(), "{number} has no definition");
    }
    assert!(numbers.into_iter().eq(1..=24));
}

/// The lines of the README's C stand in the example, in this order.
#[test]
fn c_is_the_examples() {
    let (readme, example) = (text("README.md"), text("examples/pick.c"));
    let (_, after) = readme.split_once("```c\n").expect("C in the README");
    let (c, _) = after.split_once("```").expect("the end of the C");
    let mut lines = example.lines().map(str::trim);
    let wanted = c.lines().map(str::trim).filter(|line| !line.is_empty());
    for line in wanted {
        assert!(lines.any(|other| other == line), "{line}");
    }
}
