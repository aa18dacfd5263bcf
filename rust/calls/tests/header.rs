//! The declarations against include/facepoint.h, the constants against it, and the
//! stack that it and the README promise.

use std::fs;
use std::path::Path;

use facepoint_calls::{POINTS_LENGTH, RESULT_LENGTH, SIDE_LENGTH, STACK, TRANSFORM_LENGTH};

fn text(path: &str) -> String {
    let root = Path::new(env!("CARGO_MANIFEST_DIR")).join("../..");
    fs::read_to_string(root.join(path)).unwrap_or_else(|why| panic!("{path}: {why}"))
}

/// A call's name, its parameters as (name, type) and its answer's type, in Rust's words.
type Declared = (String, Vec<(String, String)>, String);

/// The text without what stands between `/*` and `*/`.
fn without_comments(text: &str) -> String {
    let mut pieces = text.split("/*");
    let first = pieces.next().unwrap_or("").to_owned();
    pieces.fold(first, |code, piece| {
        let (_, behind) = piece.split_once("*/").expect("a comment ends");
        code + behind
    })
}

/// A parameter or a function of C, as its name and Rust's type of it.
fn of_c(words: &str) -> (String, String) {
    let words = words.trim();
    let behind_type = words.rfind([' ', '*']).expect("a type and a name") + 1;
    let (kind, name) = words.split_at(behind_type);
    let kind = match kind.trim_end() {
        "const uint8_t *" => "*const u8",
        "const double *" => "*const f64",
        "double *" => "*mut f64",
        "size_t" => "usize",
        "uint32_t" => "u32",
        "double" => "f64",
        other => panic!("{words}: {other} has no counterpart"),
    };
    (name.to_owned(), kind.to_owned())
}

fn declared_in_c(header: &str) -> Vec<Declared> {
    let code = without_comments(header);
    let (_, body) = code.split_once("extern \"C\" {").expect("the calls");
    let statements = body.split(';').filter(|statement| statement.contains('('));
    statements
        .map(|statement| {
            let (head, parameters) = statement.split_once('(').expect("a call");
            let parameters = parameters.trim().strip_suffix(')').expect("its end");
            let head = head.lines().last().expect("the call's line");
            let (name, answer) = of_c(head);
            (name, parameters.split(',').map(of_c).collect(), answer)
        })
        .collect()
}

fn declared_in_rust(source: &str) -> Vec<Declared> {
    let (_, body) = source.split_once("extern \"C\" {").expect("the calls");
    let of_rust = |words: &str| {
        let (name, kind) = words.trim().split_once(": ").expect("a name and a type");
        (name.to_owned(), kind.to_owned())
    };
    body.split("pub fn ")
        .skip(1)
        .map(|call| {
            let (name, behind) = call.split_once('(').expect("a call");
            let (parameters, behind) = behind.split_once(") -> ").expect("its end");
            let (answer, _) = behind.split_once(';').expect("its answer");
            let parameters = parameters
                .split(',')
                .filter(|words| !words.trim().is_empty());
            (
                name.to_owned(),
                parameters.map(of_rust).collect(),
                answer.to_owned(),
            )
        })
        .collect()
}

#[test]
fn rust_declares_what_the_header_declares() {
    let in_c = declared_in_c(&text("include/facepoint.h"));
    assert_eq!(in_c.len(), 11, "{in_c:?}");
    assert_eq!(in_c, declared_in_rust(&text("rust/calls/src/lib.rs")));
}

#[test]
fn lengths_are_the_headers() {
    let header = text("include/facepoint.h");
    let defined: Vec<(&str, &str)> = header
        .lines()
        .filter_map(|line| line.strip_prefix("#define FACEPOINT_")?.split_once(' '))
        .collect();
    let ours = [
        ("RESULT_LENGTH", RESULT_LENGTH),
        ("POINTS_LENGTH", POINTS_LENGTH),
        ("SIDE_LENGTH", SIDE_LENGTH),
        ("TRANSFORM_LENGTH", TRANSFORM_LENGTH),
    ];
    let ours = ours.map(|(name, length)| (name, length.to_string()));
    let ours: Vec<(&str, &str)> = ours
        .iter()
        .map(|(name, length)| (*name, &length[..]))
        .collect();
    assert_eq!(defined, ours);
}

/// The numbers that stand before this unit.
fn figures(text: &str, unit: &str) -> Vec<usize> {
    let before = text.split(unit).map(|piece| {
        let digits = piece.rsplit(|c: char| !c.is_ascii_digit()).next();
        digits.and_then(|digits| digits.parse().ok())
    });
    let count = text.matches(unit).count();
    before.take(count).flatten().collect()
}

/// Header and README name the stack that a call may take, in one place each.
#[test]
fn stack_is_the_one_that_is_promised() {
    assert_eq!(STACK % 1024, 0);
    for path in ["include/facepoint.h", "README.md"] {
        assert_eq!(figures(&text(path), " KiB"), [STACK / 1024], "{path}");
    }
}
