//! A layout drawn: a row for every eight bytes, ten letters for each of them. Rows that one field
//! fills stand together as one.

use crate::page::Field;
use std::collections::BTreeSet;

const IN_A_ROW: usize = 8;
const LETTERS: usize = 10;

/// A row: where it starts, and its boxes with their bytes and words.
struct Row {
    offset: usize,
    boxes: Vec<(usize, String)>,
}

/// The drawing of a layout.
pub fn drawn(fields: &[Field]) -> String {
    let rows = rows(fields);
    let mut drawing = String::new();
    let mut above = BTreeSet::new();
    for row in &rows {
        let corners = row.corners();
        drawing += &line(&above.union(&corners).copied().collect());
        drawing += &row.drawn();
        above = corners;
    }
    drawing + &line(&above)
}

/// The fields cut at every eighth byte, row by row.
fn rows(fields: &[Field]) -> Vec<Row> {
    let mut rows: Vec<Row> = Vec::new();
    for field in fields {
        let mut at = field.offset;
        while at < field.end() {
            let whole_rows = (field.end() - at) / IN_A_ROW * IN_A_ROW;
            let to_the_next = IN_A_ROW - at % IN_A_ROW;
            let (bytes, taken, words) = if at % IN_A_ROW == 0 && whole_rows > IN_A_ROW {
                (IN_A_ROW, whole_rows, format!("{}, {whole_rows} bytes", field.name))
            } else {
                let bytes = to_the_next.min(field.end() - at);
                (bytes, bytes, field.name.clone())
            };
            match rows.last_mut() {
                Some(row) if at % IN_A_ROW != 0 => row.boxes.push((bytes, words)),
                _ => rows.push(Row { offset: at, boxes: vec![(bytes, words)] }),
            }
            at += taken;
        }
    }
    rows
}

impl Row {
    /// Where its boxes begin and end.
    fn corners(&self) -> BTreeSet<usize> {
        let ends = self.boxes.iter().scan(0, |end, (bytes, _)| {
            *end += bytes * LETTERS;
            Some(*end)
        });
        [0].into_iter().chain(ends).collect()
    }

    fn drawn(&self) -> String {
        let boxes = self.boxes.iter().map(|(bytes, words)| {
            let room = bytes * LETTERS - 2;
            format!(" {words:<room$}|")
        });
        format!("{:>4} |{}\n", self.offset, boxes.collect::<String>())
    }
}

/// A line between rows, with a corner wherever a box begins or ends above or below.
fn line(corners: &BTreeSet<usize>) -> String {
    let last = corners.last().copied().unwrap_or(0);
    let letters = (0..=last).map(|at| if corners.contains(&at) { '+' } else { '-' });
    format!("     {}\n", letters.collect::<String>())
}
