//! How papers and page are taken apart, and what counts as a declaration.

use claims::{declares, names, pieces, rows};

#[test]
fn a_paper_is_cut_into_sentences() {
    let paper = "# Title\nOne, two;  three. Four\nfive.\n\nSix 6.5 seven\n";
    let expected = ["One, two; three.", "Four five.", "Six 6.5 seven"];
    assert_eq!(pieces(paper), expected);
}

#[test]
fn bullets_lose_their_mark() {
    let paper = "Begin:\n- one. Two\n  more\n- three\n-four\n";
    assert_eq!(pieces(paper), ["Begin:", "one.", "Two more", "three -four"]);
}

#[test]
fn rules_keep_their_number() {
    let paper = "Begin:\n1. One. Two\n23. Three\n4.5 five\n. Six\n";
    let expected = ["Begin:", "1. One.", "Two", "23. Three 4.5 five .", "Six"];
    assert_eq!(pieces(paper), expected);
}

#[test]
fn table_rows_stay_whole_without_header_and_ruler() {
    let paper = "Text.\n|No|When|\n|---|---|\n|1|a. b|\n|2|c  d|\nMore.\n";
    assert_eq!(pieces(paper), ["Text.", "|1|a. b|", "|2|c d|", "More."]);
}

#[test]
fn one_section_is_a_list_by_semicolons() {
    let paper = "## Good cuts\nOne; two. Three\n## Bad cuts\nOne; two. Three\n";
    assert_eq!(pieces(paper), ["One; two.", "Three", "One;", "two. Three"]);
}

#[test]
fn rows_have_cells() {
    for (line, cells) in [
        ("| a  b |c\\|d| e | ", vec!["a b", "c|d", "e"]),
        ("| Sentences | b |", vec!["Sentences", "b"]),
        ("| a | b", vec!["a"]),
        ("||", vec![""]),
        ("|", vec![]),
    ] {
        assert_eq!(rows(line)[0].cells, cells, "{line}");
    }
}

#[test]
fn headers_rulers_and_text_are_no_rows() {
    let page = "Text | a |\n| a |\n|  Sentence  | b |\n| --- |\n|---|\n | c |\n| d |";
    let lines: Vec<usize> = rows(page).iter().map(|row| row.line).collect();
    assert_eq!(lines, [2, 7]);
}

#[test]
fn names_stand_in_backticks() {
    assert_eq!(names("`a`"), ["a"]);
    assert_eq!(names("`a`, `b c`"), ["a", "b c"]);
    for cell in ["", "a", "`", "``", "`a", "a`", "`a`, ", "`a`, b", "`a`b`"] {
        assert_eq!(names(cell), [""; 0], "{cell}");
    }
    for cell in ["`a` `b`", "`a`,`b`", "`a`, ``", "`a`, `b"] {
        assert_eq!(names(cell), [""; 0], "{cell}");
    }
}

/// The extension's file declares the name in each of the first texts, and in
/// none of the second.
fn told_apart(extension: &str, name: &str, yes: &[&str], no: &[&str]) {
    for text in yes {
        assert!(declares(extension, text, name), "{text}");
    }
    for text in no {
        assert!(!declares(extension, text, name), "{text}");
    }
}

#[test]
fn a_proof_file_declares_signatures() {
    let yes = ["a-b : T", "x\n  pub a-b : T", "pub unfoldable a-b :"];
    let no = ["", "-- a-b : T", "a-b = x", "a-b: T", "pub  a-b : T"];
    told_apart("antt", "a-b", &yes, &no);
    told_apart("antt", "a-b", &[], &["a-bc : T", "c-a-b : T", "a-b' : T"]);
    // A modifier's word may be the name.
    told_apart("antt", "pub", &["pub : T", "pub pub : T"], &["pub x : T"]);
}

#[test]
fn a_proof_file_declares_types() {
    let yes = ["record a-b", "pub data a-b (x : T)", "\n\n  data a-b\n"];
    let no = ["type a-b", "record a-b-c", "data a-b'", "-- data a-b"];
    told_apart("antt", "a-b", &yes, &no);
}

#[test]
fn a_source_declares_items() {
    let yes = [
        "fn ab(c)",
        "x\npub const ab:",
        "struct ab",
        "enum ab {",
        "trait ab",
    ];
    let no = [
        "", "ab", "// ab", "ab(c)", "let ab", "fn  ab", "xfn ab", "_fn ab",
    ];
    let longer = ["fn abc", "fn ab_", "fn ab2", "fn abé", "fn cab"];
    for extension in ["rt", "rs"] {
        told_apart(extension, "ab", &yes, &no);
        told_apart(extension, "ab", &[], &longer);
    }
}

#[test]
fn another_file_holds_the_name_and_no_longer_one() {
    let yes = ["ab", "# ab.", "(ab)", "abc ab", "é ab"];
    let no = [
        "", "abc", "cab", "a-ab", "ab-a", "ab'", "ab◌", "◌ab", "éab", "ab₂",
    ];
    told_apart("md", "ab", &yes, &no);
    // After a longer one that it overlaps.
    told_apart("", "ab ab", &["xab ab ab"], &["xab ab"]);
}
