//! A leaf: its entries from the lowest down, each below the gap that a lock on it covers.

use super::canvas::{Area, Canvas, Stroke, Tip, wide};
use crate::keys::Key;
use crate::picture::{Entry, LEAF_FULL, Mode, Page, Standing};
use crate::rows::{Held, Row, State, held, numbers, rows, waiters};

/// A row ready to be drawn: an entry, several alike, or the end.
struct Line {
    class: &'static str,
    key: String,
    says: String,
    held: Option<Held>,
    /// Those who wait here: the transaction and its words.
    waiters: Vec<(u16, String)>,
}

/// A leaf ready to be drawn.
pub struct Leaf {
    title: String,
    filled: String,
    lines: Vec<Line>,
    /// The end of the index, below the last leaf.
    end: Option<Line>,
    /// The mode of the lock that covers the gap above the highest entry here.
    above: Option<Mode>,
}

pub const HEAD: i32 = 26;
const ROW: i32 = 26;
const GAP: i32 = 12;
const CHIP: i32 = 24;
/// Where a row's box starts, right of the bar of its lock.
const INDENT: i32 = 22;

impl Leaf {
    /// A leaf whose range starts with a key; `after` is the next name above its entries, and the
    /// last leaf has the end below it.
    pub fn new(
        standing: &Standing,
        page: &Page,
        entries: &[Entry],
        low: Key,
        after: Key,
        last: bool,
    ) -> Leaf {
        let from = match low {
            Key::LOWEST => String::new(),
            low => format!(", from {}", standing.written(low)),
        };
        Leaf {
            title: format!("page {}{from}", page.number),
            filled: format!("{}/{LEAF_FULL}", entries.len()),
            lines: rows(standing, entries).iter().map(|row| line(standing, row)).collect(),
            end: last.then(|| end(standing)),
            above: held(standing, after).map(|held| held.mode),
        }
    }

    /// The width that this leaf needs; all leaves get the widest.
    pub fn width(&self) -> i32 {
        let head = wide(&self.title) + wide(&self.filled) + 36;
        let lines = self.lines.iter().chain(&self.end).map(Line::width);
        lines.max().unwrap_or(0).max(head)
    }

    pub fn height(&self) -> i32 {
        let end = self.end.as_ref().map_or(0, |end| GAP + end.height() + GAP);
        self.page_height() + end
    }

    fn page_height(&self) -> i32 {
        let empty = if self.lines.is_empty() { ROW } else { 0 };
        HEAD + self.lines.iter().map(Line::height).sum::<i32>() + empty + GAP
    }

    pub fn draw(&self, canvas: &mut Canvas, x: i32, y: i32, width: i32) {
        let page = Area { x, y, width, height: self.page_height() };
        canvas.rect("page leaf", page);
        canvas.rect("head", Area { height: HEAD, ..page });
        canvas.text("strong", x + 10, y + 18, &self.title);
        canvas.text("note", page.right() - wide(&self.filled) - 4, y + 18, &self.filled);
        let mut down = y + HEAD;
        for line in &self.lines {
            line.draw(canvas, x, down, width);
            down += line.height();
        }
        if self.lines.is_empty() {
            canvas.text("note", x + INDENT, down + 22, "empty");
        }
        if let Some(mode) = self.above {
            bar(canvas, mode, x, down, page.bottom());
        }
        if let Some(end) = &self.end {
            let below = Area { y: page.bottom() + GAP, height: end.height() + GAP, ..page };
            canvas.rect("end", below);
            end.draw(canvas, x, below.y, width);
        }
    }
}

/// The bar of a lock, over what it covers.
fn bar(canvas: &mut Canvas, mode: Mode, x: i32, from: i32, to: i32) {
    let class = format!("bar {mode}");
    canvas.rect(&class, Area { x: x + 8, y: from + 1, width: 7, height: to - from - 1 });
}

impl Line {
    fn held_words(&self) -> Option<(Mode, String)> {
        let held = self.held.as_ref()?;
        Some((held.mode, format!("{} {}", held.mode, numbers(&held.holders))))
    }

    fn box_width(&self) -> i32 {
        wide(&self.key) + wide(&self.says) + 28
    }

    fn width(&self) -> i32 {
        let pill = self.held_words().map_or(0, |(_, words)| wide(&words) + 24);
        let chips = self.waiters.iter().map(|(_, words)| INDENT + wide(words) + 58);
        chips.max().unwrap_or(0).max(INDENT + self.box_width() + pill + 12)
    }

    fn height(&self) -> i32 {
        let chips = self.waiters.len() as i32 * (CHIP + 6);
        GAP + chips + if chips > 0 { 12 } else { 0 } + ROW
    }

    /// The gap with those who wait in it, then the row.
    fn draw(&self, canvas: &mut Canvas, x: i32, y: i32, width: i32) {
        let held = self.held_words();
        if let Some((mode, _)) = &held {
            bar(canvas, *mode, x, y, y + self.height());
        }
        let row = Area {
            x: x + INDENT,
            y: y + self.height() - ROW,
            width: self.box_width(),
            height: ROW,
        };
        self.draw_waiters(canvas, y + GAP, row);
        canvas.rect(self.class, row);
        let key = if self.class.contains("ghost") { "strong gone" } else { "strong" };
        canvas.text(key, row.x + 8, row.y + 18, &self.key);
        canvas.text("", row.x + 20 + wide(&self.key), row.y + 18, &self.says);
        if let Some((mode, words)) = held {
            let pill = Area { x: x + width - wide(&words) - 24, width: wide(&words) + 14, ..row };
            canvas.rect(&format!("lock {mode}"), pill);
            canvas.text("on", pill.x + 7, row.y + 18, &words);
        }
    }

    /// Each waiter as a box in the gap, with an arrow from the last of them to the row.
    fn draw_waiters(&self, canvas: &mut Canvas, mut y: i32, row: Area) {
        for (transaction, words) in &self.waiters {
            let chip = Area { x: row.x + 30, y, width: wide(words) + 14, height: CHIP };
            canvas.rect("waits", chip);
            canvas.badge(row.x + 12, y + CHIP / 2, *transaction);
            canvas.text("", chip.x + 7, y + 17, words);
            y += CHIP + 6;
        }
        if !self.waiters.is_empty() {
            let (x, from) = (row.x + 12, y - 7);
            let path = format!("M{x} {from}L{x} {}", row.y - 5);
            canvas.arrow(Stroke::Full, &path, (x, row.y), Tip::Down);
        }
    }
}

fn line(standing: &Standing, row: &Row) -> Line {
    let first = &row.entries[0];
    let last = &row.entries[row.entries.len() - 1];
    let (key, says) = match row.entries {
        [entry] => (standing.written(entry.key).to_string(), says(entry)),
        several => (
            format!("{}..{}", standing.written(first.key), standing.written(last.key)),
            format!("{} entries{}", several.len(), owner(row.state)),
        ),
    };
    let class = match row.state {
        State::Settled => "entry settled",
        State::Owned(_) => "entry owned",
        State::Ghost(_) => "entry ghost",
    };
    Line { class, key, says, held: row.held.clone(), waiters: waiting(standing, first.key) }
}

/// The end of the index, which can be locked and waited at like an entry.
fn end(standing: &Standing) -> Line {
    Line {
        class: "entry end",
        key: "end".to_string(),
        says: String::new(),
        held: held(standing, Key::END),
        waiters: waiting(standing, Key::END),
    }
}

fn waiting(standing: &Standing, name: Key) -> Vec<(u16, String)> {
    let here = waiters(standing, name).into_iter();
    here.map(|(waiting, target)| {
        (waiting.transaction, format!("{} wants {}", waiting.asks, target.mode))
    })
    .collect()
}

/// What an entry is now and was before.
fn says(entry: &Entry) -> String {
    let owner = entry.owner;
    let before = entry.before.map_or("absent".to_string(), |record| format!("record {record}"));
    match entry.now {
        Some(record) if owner == 0 => format!("record {record}"),
        Some(record) => format!("record {record}, by {owner}, before {before}"),
        None => format!("ghost of {owner}, before {before}"),
    }
}

fn owner(state: State) -> String {
    match state {
        State::Settled => String::new(),
        State::Owned(owner) => format!(" by {owner}"),
        State::Ghost(owner) => format!(", ghosts of {owner}"),
    }
}
