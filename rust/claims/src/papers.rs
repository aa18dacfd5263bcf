//! What of a paper has a row of its own.

use crate::plain;

/// The one section whose sentence is a list of claims.
const LISTED_BY_SEMICOLONS: &str = "Bad cuts";

/// A paper's sentences, bullets, rules and table rows, in order.
pub fn pieces(text: &str) -> Vec<String> {
    let split = |block: &Block| sentences(block.heading, &plain(&block.lines.join(" ")));
    blocks(text).iter().flat_map(split).collect()
}

/// A table row stays whole, and a rule's number with its first sentence.
fn sentences(heading: &str, block: &str) -> Vec<String> {
    if block.starts_with('|') {
        return vec![block.to_string()];
    }
    let listed = heading == LISTED_BY_SEMICOLONS;
    let (end, cut) = if listed { ("; ", ";\n") } else { (". ", ".\n") };
    let (number, rest) = block.split_at(number_length(block));
    let cut_up = format!("{number}{}", rest.replace(end, cut));
    cut_up.split('\n').map(str::to_string).collect()
}

/// A paragraph, a bullet, a rule or a table row, under its heading.
struct Block<'a> {
    heading: &'a str,
    lines: Vec<&'a str>,
}

fn blocks(text: &str) -> Vec<Block<'_>> {
    let after = text.split('\n').skip(1).chain([""]);
    let (mut found, mut heading, mut open) = (Vec::<Block>::new(), "", false);
    for (line, after) in text.split('\n').zip(after) {
        let kind = kind(line, after);
        match kind {
            Line::Gap => {}
            Line::Heading(title) => heading = title,
            Line::Text(text) if open => found.last_mut().expect("open").lines.push(text),
            Line::Row(text) | Line::Item(text) | Line::Text(text) => found.push(Block {
                heading,
                lines: vec![text],
            }),
        }
        open = matches!(kind, Line::Item(_) | Line::Text(_));
    }
    found
}

enum Line<'a> {
    /// Nothing to quote: a blank line, a table's header, its ruler.
    Gap,
    Heading(&'a str),
    /// Of a table; a block of its own.
    Row(&'a str),
    /// A bullet without its mark, or a rule with its number; begins a block.
    Item(&'a str),
    /// Goes on with the block above, or begins one.
    Text(&'a str),
}

fn kind<'a>(line: &'a str, after: &str) -> Line<'a> {
    let ruler = |line: &str| line.starts_with("|-");
    if line.trim().is_empty() {
        Line::Gap
    } else if line.starts_with('#') {
        Line::Heading(line.trim_start_matches(['#', ' ']))
    } else if line.starts_with('|') && (ruler(line) || ruler(after)) {
        Line::Gap
    } else if line.starts_with('|') {
        Line::Row(line)
    } else if let Some(bullet) = line.strip_prefix("- ") {
        Line::Item(bullet)
    } else if number_length(line) > 0 {
        Line::Item(line)
    } else {
        Line::Text(line)
    }
}

/// The bytes of a rule's number with its point and space; 0 where none begins
/// the text.
fn number_length(text: &str) -> usize {
    let rest = text.trim_start_matches(|c: char| c.is_ascii_digit());
    let digits = text.len() - rest.len();
    if digits > 0 && rest.starts_with(". ") {
        digits + 2
    } else {
        0
    }
}
