//! The rows of docs/CLAIMS.md.

use crate::plain;

pub struct Row {
    /// Its line's number, from 1.
    pub line: usize,
    pub cells: Vec<String>,
}

impl Row {
    pub(crate) fn quote(&self) -> Option<&str> {
        self.cells.first().map(String::as_str)
    }
}

/// The page's rows, headers and rulers left out.
pub fn rows(text: &str) -> Vec<Row> {
    let row = |(line, text)| {
        let cells = cells(text)?;
        Some(Row { line, cells })
    };
    (1..).zip(text.split('\n')).filter_map(row).collect()
}

/// The cells of a line that is a row. What stands after its last bar is none.
fn cells(line: &str) -> Option<Vec<String>> {
    let inner = line.strip_prefix('|').filter(|inner| !is_head(inner))?;
    // An escaped bar is hidden while the others divide; no line holds a newline.
    let hidden = inner.trim_end().replace("\\|", "\n");
    let cell = |cell: &str| plain(&cell.replace('\n', "|"));
    let mut cells: Vec<String> = hidden.split('|').map(cell).collect();
    cells.pop();
    Some(cells)
}

/// Of a line without its first bar: whether it is a table's header or ruler.
fn is_head(inner: &str) -> bool {
    let first = inner.trim_start_matches(' ');
    let after = first.strip_prefix("Sentence");
    first.starts_with('-')
        || after.is_some_and(|after| after.trim_start_matches(' ').starts_with('|'))
}

/// The words in backticks, separated by commas; none where the cell holds
/// anything else.
pub fn names(cell: &str) -> Vec<&str> {
    let inner = cell
        .strip_prefix('`')
        .and_then(|cell| cell.strip_suffix('`'));
    let names: Vec<&str> = inner.unwrap_or("").split("`, `").collect();
    if names
        .iter()
        .any(|name| name.is_empty() || name.contains('`'))
    {
        return Vec::new();
    }
    names
}
