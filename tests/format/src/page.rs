//! The page, taken apart: its tables and drawings by name, and its examples. A table or a drawing
//! stands below a comment that names it; an example is a line of a block, words and then bytes in
//! hex.

use crate::file;
use std::collections::BTreeMap;

/// The rows of a table, each as its cells' text, without the head.
pub type Rows = Vec<Vec<String>>;

/// A field of a layout.
#[derive(Clone, Debug, PartialEq, Eq)]
pub struct Field {
    pub offset: usize,
    pub width: usize,
    pub name: String,
    /// The number that it always holds, where its meaning is one.
    pub always: Option<u64>,
}

impl Field {
    pub fn end(&self) -> usize {
        self.offset + self.width
    }

    /// Whether it is filler.
    pub fn is_zero(&self) -> bool {
        self.name == "zero"
    }
}

pub struct Page {
    text: String,
}

impl Page {
    pub fn read() -> Page {
        Page { text: file("docs/FORMAT.md") }
    }

    /// A page with this text.
    pub fn of(text: &str) -> Page {
        Page { text: text.to_string() }
    }

    /// The tables that the page has, by their names.
    pub fn tables(&self) -> BTreeMap<String, Rows> {
        let rows = |below: &mut dyn Iterator<Item = &str>| {
            let table = below.take_while(|line| line.starts_with('|'));
            table.skip(2).map(cells).collect()
        };
        self.named("table", rows)
    }

    /// The fields of a layout's table.
    pub fn layout(&self, name: &str) -> Vec<Field> {
        let tables = self.tables();
        let rows = tables.get(name).unwrap_or_else(|| panic!("there is a table {name}"));
        rows.iter().map(|row| field(name, row)).collect()
    }

    /// The drawings that the page has, by the names of their tables.
    pub fn drawings(&self) -> BTreeMap<String, String> {
        let drawing = |below: &mut dyn Iterator<Item = &str>| {
            let block = below.skip(1).take_while(|line| *line != "```");
            block.map(|line| format!("{line}\n")).collect()
        };
        self.named("drawing", drawing)
    }

    /// The examples: what each is an example of, and its bytes.
    pub fn examples(&self) -> Vec<(String, Vec<u8>)> {
        let lines = self.text.lines();
        lines.filter_map(|line| line.split_once("  ")).filter_map(example).collect()
    }

    /// What stands below each comment of a kind, by the name in the comment.
    fn named<T>(
        &self,
        kind: &str,
        below: impl Fn(&mut dyn Iterator<Item = &str>) -> T,
    ) -> BTreeMap<String, T> {
        let mut named = BTreeMap::new();
        let mut lines = self.text.lines();
        while let Some(line) = lines.next() {
            let comment = line.strip_prefix("<!-- ").and_then(|rest| rest.strip_suffix(" -->"));
            let Some((of, name)) = comment.and_then(|comment| comment.split_once(": ")) else {
                continue;
            };
            if of == kind {
                let before = named.insert(name.to_string(), below(&mut lines));
                assert!(before.is_none(), "there are two of {kind} {name}");
            }
        }
        named
    }
}

/// The cells of a table's line.
fn cells(line: &str) -> Vec<String> {
    let inner = line.trim().trim_start_matches('|').trim_end_matches('|');
    inner.split('|').map(|cell| cell.trim().trim_matches('`').to_string()).collect()
}

/// Offset, width, name and meaning.
fn field(table: &str, row: &[String]) -> Field {
    let [offset, width, name, meaning] = row else {
        panic!("table {table} has four columns");
    };
    let number = |digits: &str| {
        digits.parse().unwrap_or_else(|_| panic!("a number in table {table}, not {digits}"))
    };
    let (offset, width) = (number(offset), number(width));
    Field { offset, width, name: name.clone(), always: meaning.parse().ok() }
}

/// A line of words and of bytes, if it is one.
fn example((words, bytes): (&str, &str)) -> Option<(String, Vec<u8>)> {
    let byte = |pair: &str| match pair.len() {
        2 => u8::from_str_radix(pair, 16).ok(),
        _ => None,
    };
    let bytes: Option<Vec<u8>> = bytes.split_whitespace().map(byte).collect();
    let bytes = bytes.filter(|bytes| !bytes.is_empty())?;
    Some((words.trim().to_string(), bytes))
}
