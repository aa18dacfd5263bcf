//! Every fault that the check has to find, planted in a small repository; and
//! the repository's own page, which has none.

use std::env;
use std::fs;
use std::path::{Path, PathBuf};
use std::process;

use claims::{check, Report};

const PAGE: &str = "docs/CLAIMS.md";
const PAPER: &str = "docs/papers/demands.md";
const SOURCE: &str = "crates/leaves/src/leaves.rt";

/// A repository whose page has no fault. Its rows begin at line 3 of the page.
const FILES: [(&str, &str); 8] = [
    (
        PAGE,
        "\
| Sentence | Met by | File |
|---|---|---|
| 1. Roots are exact. | `root`, `exact` | `crates/leaves/src/leaves.rt`, `crates/leaves/proofs/Roots.antt` |
| They are tested. | `vectors` | `crates/vectors/src/main.rt` |
| \\|2\\|no root\\| | not yet | - |
| We like roots. | context | - |
| Licence: Apache. | `Apache`, `2.0` | `NOTICE` |
| Roots cut; | `root_cut` | `crates/leaves/must-fail/root_cut.edit` |
| roots lost. | due with S-2 | - |
",
    ),
    (
        PAPER,
        "1. Roots are exact. They\nare tested.\n\n|Returned|When|\n|---|---|\n|2|no root|\n",
    ),
    (
        "docs/papers/01-scope.md",
        "# Scope\n\nWe like roots. Licence: Apache.\n\n## Bad cuts\n\nRoots cut; roots lost.\n",
    ),
    (SOURCE, "// No power here.\npub fn root(x: f64) -> f64 {\n"),
    (
        "crates/leaves/proofs/Roots.antt",
        "-- only\nexact : Exact root\n",
    ),
    ("crates/leaves/must-fail/root_cut.edit", ""),
    ("crates/vectors/src/main.rt", ""),
    ("NOTICE", "Apache, version 2.0"),
];

/// The small repository in a folder of its own, until the test ends. It is not
/// under rust/target: to `rt ci` an .rt file there is one that its crate lost.
struct Repository(PathBuf);

impl Repository {
    fn new(test: &str) -> Repository {
        let name = format!("claims-{}-{test}", process::id());
        let repository = Repository(env::temp_dir().join(name));
        for (file, text) in FILES {
            repository.write(file, text);
        }
        repository
    }

    fn write(&self, file: &str, text: &str) {
        let path = self.0.join(file);
        fs::create_dir_all(path.parent().expect("a folder")).expect("made");
        fs::write(path, text).expect("written");
    }

    fn report(&self) -> Report {
        check(&self.0).expect("a verdict")
    }
}

impl Drop for Repository {
    fn drop(&mut self) {
        // A folder left behind is no reason to fail.
        let _ = fs::remove_dir_all(&self.0);
    }
}

/// The errors after one place of the page was changed.
fn errors(test: &str, old: &str, new: &str) -> Vec<String> {
    let (_, page) = FILES[0];
    assert_eq!(page.matches(old).count(), 1, "{old}");
    let repository = Repository::new(test);
    repository.write(PAGE, &page.replace(old, new));
    repository.report().errors
}

/// The change leads to one error, this one of the page's row in that line.
fn row_error(test: &str, old: &str, new: &str, line: usize, error: &str) {
    let expected = format!("{PAGE}:{line}: {error}");
    assert_eq!(errors(test, old, new), [expected], "{new}");
}

const WANTS_NAMES: &str =
    "'Met by' and 'File' want names in backticks, one file or a file for each name";

#[test]
fn the_page_of_this_repository_has_no_fault() {
    let root = Path::new(env!("CARGO_MANIFEST_DIR")).join("../..");
    let report = check(&root).expect("a verdict");
    assert!(report.errors.is_empty() && report.rows > 0, "{report}");
}

#[test]
fn no_fault() {
    let report = Repository::new("no_fault").report().to_string();
    assert_eq!(
        report,
        "claims: 7 rows, 1 not yet met, 1 due later\nclaims: ok\n"
    );
}

#[test]
fn a_fault_is_printed() {
    let repository = Repository::new("printed");
    repository.write("NOTICE", "Apache");
    let expected = "\
claims: docs/CLAIMS.md:7: 2.0 does not stand in NOTICE
claims: 7 rows, 1 not yet met, 1 due later
claims: FAILED
";
    assert_eq!(repository.report().to_string(), expected);
}

#[test]
fn row_deleted() {
    let found = errors("deleted", "| We like roots. | context | - |\n", "");
    let expected = "docs/papers/01-scope.md: not quoted: We like roots.";
    assert_eq!(found, [expected]);
    let found = errors("row_deleted", "| \\|2\\|no root\\| | not yet | - |\n", "");
    let expected = "docs/papers/demands.md: not quoted: |2|no root|";
    assert_eq!(found, [expected]);
}

#[test]
fn word_changed() {
    let found = errors("word", "They are tested.", "They are testing.");
    let expected = "docs/papers/demands.md: not quoted: They are tested.";
    assert_eq!(found, [expected]);
    let found = errors("number", "1. Roots", "2. Roots");
    let expected = "docs/papers/demands.md: not quoted: 1. Roots are exact.";
    assert_eq!(found, [expected]);
}

#[test]
fn order_swapped() {
    let first = "| \\|2\\|no root\\| | not yet | - |\n";
    let second = "| We like roots. | context | - |\n";
    let (old, new) = ([first, second].concat(), [second, first].concat());
    let expected = "docs/papers/01-scope.md: quoted out of order: We like roots.";
    assert_eq!(errors("order", &old, &new), [expected]);
}

#[test]
fn wrong_cell_count() {
    let end = "roots. | context | - |";
    let two = "roots. | context |";
    row_error("two", end, two, 6, "2 cells, not three");
    let four = "roots. | context | - | - |";
    row_error("four", end, four, 6, "4 cells, not three");
    let none_below = "roots. | context | - |\n|";
    row_error("none", end, none_below, 7, "0 cells, not three");
}

#[test]
fn a_file_beside_what_names_none() {
    let (old, new) = ("root\\| | not yet | - |", "root\\| | not yet | `NOTICE` |");
    row_error("not_yet", old, new, 5, "'not yet' wants '-' for a file");
    let (old, new) = ("due with S-2 | - |", "due with S-2 | `NOTICE` |");
    row_error("due", old, new, 9, "'due with S-2' wants '-' for a file");
    let (old, new) = ("| context | - |", "| context | `NOTICE` |");
    row_error("context", old, new, 6, "'context' wants '-' for a file");
}

#[test]
fn other_words_in_met_by() {
    let others = ["", "soon", "Not yet", "vectors", "`vectors` and more"];
    for words in others {
        row_error("words", "`vectors`", words, 4, WANTS_NAMES);
    }
}

#[test]
fn no_file_beside_a_name() {
    row_error("no_file", "| `NOTICE` |", "| - |", 7, WANTS_NAMES);
}

#[test]
fn wrong_name() {
    for (old, new, line, file) in [
        ("root", "roo", 3, SOURCE),
        ("exact", "exac", 3, "crates/leaves/proofs/Roots.antt"),
        ("vectors", "vector", 4, "crates/vectors/src/main.rt"),
        ("Apache", "pache", 7, "NOTICE"),
        (
            "root_cut",
            "cut",
            8,
            "crates/leaves/must-fail/root_cut.edit",
        ),
    ] {
        let error = format!("{new} does not stand in {file}");
        let (old, new) = (format!("`{old}`"), format!("`{new}`"));
        row_error("wrong_name", &old, &new, line, &error);
    }
}

#[test]
fn wrong_number_of_names() {
    row_error("one_name", "`root`, ", "", 3, WANTS_NAMES);
    let three = "`root`, `root`, ";
    row_error("three_names", "`root`, ", three, 3, WANTS_NAMES);
}

#[test]
fn name_only_in_a_comment() {
    let error = "power does not stand in crates/leaves/src/leaves.rt";
    row_error("comment", "`root`", "`power`", 3, error);
    let error = "only does not stand in crates/leaves/proofs/Roots.antt";
    row_error("proof_comment", "`exact`", "`only`", 3, error);
}

#[test]
fn missing_file() {
    let found = errors("missing", "`NOTICE`", "`NOTES`");
    let each = "docs/CLAIMS.md:7: no file NOTES";
    assert_eq!(found, [each, each], "one for each name");
    let (old, new) = ("`crates/vectors/src/main.rt`", "`crates/vectors/src`");
    row_error("folder", old, new, 4, "no file crates/vectors/src");
}

#[test]
fn no_verdict_on_what_cannot_be_read() {
    for file in [PAGE, PAPER, SOURCE] {
        let repository = Repository::new("unreadable");
        // No letter begins with this byte.
        fs::write(repository.0.join(file), b"\xFF").expect("written");
        let error = check(&repository.0).err().expect("no verdict");
        assert!(error.starts_with(&format!("cannot read {file}: ")));
    }
}

#[test]
fn lines_may_end_in_any_way() {
    for end in ["\r\n", "\r"] {
        let repository = Repository::new("line_ends");
        for (file, text) in FILES {
            repository.write(file, &text.replace('\n', end));
        }
        assert_eq!(repository.report().errors, [""; 0]);
    }
}
