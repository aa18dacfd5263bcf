//! Whether a text declares a name: one that a comment mentions proves nothing.

const MODIFIERS: [&str; 3] = ["pub ", "abbrev ", "unfoldable "];
const TYPES: [&str; 2] = ["record ", "data "];
const ITEMS: [&str; 6] = ["fn ", "const ", "struct ", "enum ", "trait ", "type "];

/// Whether a text declares the name, told by the file's extension; of a text
/// that is no source: whether it holds it.
pub fn declares(extension: &str, text: &str, name: &str) -> bool {
    let item = |item: &&str| stands_alone(text, &format!("{item}{name}"), in_word);
    match extension {
        "antt" => text.split('\n').any(|line| line_declares(line, name)),
        "rt" | "rs" => ITEMS.iter().any(item),
        _ => stands_alone(text, name, in_name),
    }
}

/// Of a line of an .antt file. The name is tried before each modifier too: a
/// modifier's word may be the name.
fn line_declares(line: &str, name: &str) -> bool {
    let mut rest = line.trim_start();
    while !begins_declaration(rest, name) {
        match without_first(rest, &MODIFIERS) {
            Some(after) => rest = after,
            None => return false,
        }
    }
    true
}

/// A signature, `name :`, or a type, `record name`.
fn begins_declaration(text: &str, name: &str) -> bool {
    let after = text.strip_prefix(name);
    let after_type = without_first(text, &TYPES).and_then(|text| text.strip_prefix(name));
    after.is_some_and(|after| after.starts_with(" :"))
        || after_type.is_some_and(|after| !after.starts_with(in_name))
}

/// The text after the one of these words that begins it.
fn without_first<'a>(text: &'a str, words: &[&str]) -> Option<&'a str> {
    words.iter().find_map(|word| text.strip_prefix(word))
}

/// Whether the text holds the words where no longer name ends with them or goes
/// on from them; `joins` tells what before them makes a longer one.
fn stands_alone(text: &str, words: &str, joins: fn(char) -> bool) -> bool {
    text.char_indices().any(|(at, _)| {
        let after = text[at..].strip_prefix(words);
        after.is_some_and(|after| !after.starts_with(in_name)) && !text[..at].ends_with(joins)
    })
}

fn in_word(c: char) -> bool {
    c.is_alphanumeric() || c == '_'
}

fn in_name(c: char) -> bool {
    in_word(c) || "◌'-".contains(c)
}
