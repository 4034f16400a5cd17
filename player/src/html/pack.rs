//! The pictures of a session in little room: each has most lines in common with the one before.
//!
//! - The **table** has every distinct line of all pictures once, in the order of its first use. A
//!   line is what stands between two line ends.
//! - A **picture** is a list of whole numbers that go by twos, `from` and `count`. Each two give
//!   the next `count` lines of the picture. Where `from` is 0 or more, they are lines of the
//!   picture before, from its line `from` on, the first being 0; the picture before the first has
//!   no lines. Where `from` is below 0, they are lines of the table, from `-1 - from` on, the first
//!   being 0.
//!
//! The lines with a line end between each two are the picture, byte for byte.

use std::collections::HashMap;

/// Packs one picture after the other.
#[derive(Default)]
pub struct Packer {
    /// Where in the table each line stands.
    places: HashMap<String, usize>,
    table: Vec<String>,
    /// The picture before, as places in the table.
    before: Vec<usize>,
}

impl Packer {
    /// The next picture, packed.
    pub fn pack(&mut self, picture: &str) -> Vec<isize> {
        let lines: Vec<usize> = picture.split('\n').map(|line| self.place(line)).collect();
        let packed = runs(&self.before, &lines);
        self.before = lines;
        packed
    }

    /// The table for all that was packed.
    pub fn table(self) -> Vec<String> {
        self.table
    }

    fn place(&mut self, line: &str) -> usize {
        if let Some(place) = self.places.get(line) {
            return *place;
        }
        self.places.insert(line.to_string(), self.table.len());
        self.table.push(line.to_string());
        self.table.len() - 1
    }
}

/// The lines of a picture, as runs of the picture before or of the table: at each line the longest.
fn runs(before: &[usize], lines: &[usize]) -> Vec<isize> {
    let mut places: HashMap<usize, Vec<usize>> = HashMap::new();
    for (place, line) in before.iter().enumerate() {
        places.entry(*line).or_default().push(place);
    }
    let (mut packed, mut rest) = (Vec::new(), lines);
    while let Some(first) = rest.first() {
        let copied = places.get(first).into_iter().flatten().map(|from| {
            let same = before[*from..].iter().zip(rest).take_while(|(one, other)| one == other);
            (same.count(), *from as isize)
        });
        let listed = (*first..).zip(rest).take_while(|(place, line)| place == *line).count();
        let longest = copied.rev().max_by_key(|(count, _)| *count);
        let (count, from) =
            longest.filter(|(count, _)| *count >= listed).unwrap_or((listed, -1 - *first as isize));
        packed.extend([from, count as isize]);
        rest = &rest[count..];
    }
    packed
}
