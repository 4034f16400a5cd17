//! What the colours and marks mean.

use super::canvas::{Area, Canvas, Stroke, Tip};
use crate::rows::counted;

/// Draws the legend within a width, in as many rows as it needs. It says how many arrows are left
/// out, and which.
pub fn draw(canvas: &mut Canvas, x: i32, y: i32, width: i32, left_out: usize) {
    let (mut right, mut down) = (x, y);
    for (mark, words) in items(left_out) {
        let needs = 40 + 7 * words.len() as i32 + 28;
        if right > x && right + needs > x + width {
            (right, down) = (x, down + 30);
        }
        mark(canvas, Area { x: right, y: down, width: 30, height: 20 });
        canvas.text("note", right + 40, down + 15, &words);
        right += needs;
    }
}

type Mark = fn(&mut Canvas, Area);

fn items(left_out: usize) -> Vec<(Mark, String)> {
    let mut items: Vec<(Mark, String)> =
        ITEMS.iter().map(|(mark, words)| (*mark, words.to_string())).collect();
    if left_out > 0 {
        let arrows = counted(left_out, "arrow is", "arrows are");
        items.push((steps, format!("{arrows} left out: others lead there in more steps")));
    }
    items
}

const ITEMS: [(Mark, &str); 8] = [
    (|canvas, area| canvas.rect("settled", area), "settled"),
    (|canvas, area| canvas.rect("owned", area), "owned: inserted, not yet committed"),
    (|canvas, area| canvas.rect("ghost", area), "ghost: deleted, not yet committed"),
    (|canvas, area| pill(canvas, "S", area), "S lock, with its holders"),
    (|canvas, area| pill(canvas, "X", area), "X lock, with its holder"),
    (bars, "the gap that a lock covers with its key"),
    (waits, "waits, and behind whom: the lowest number in the way"),
    (also, "also in the way"),
];

fn pill(canvas: &mut Canvas, mode: &str, area: Area) {
    canvas.rect(mode, area);
    canvas.centred("on", area.middle(), area.y + 15, mode);
}

fn bars(canvas: &mut Canvas, area: Area) {
    canvas.rect("bar S", Area { x: area.x + 6, width: 7, ..area });
    canvas.rect("bar X", Area { x: area.x + 18, width: 7, ..area });
}

fn waits(canvas: &mut Canvas, area: Area) {
    canvas.rect("waits", area);
    arrow(canvas, Stroke::Full, area.x + 4, area.right() - 4, area);
}

fn also(canvas: &mut Canvas, area: Area) {
    arrow(canvas, Stroke::Dashed, area.x, area.right(), area);
}

/// Two arrows one after the other.
fn steps(canvas: &mut Canvas, area: Area) {
    arrow(canvas, Stroke::Full, area.x, area.middle() - 1, area);
    arrow(canvas, Stroke::Full, area.middle() + 1, area.right(), area);
}

/// An arrow to the left, half-way down an area.
fn arrow(canvas: &mut Canvas, stroke: Stroke, to: i32, from: i32, area: Area) {
    let y = area.y + area.height / 2;
    canvas.arrow(stroke, &format!("M{from} {y}L{} {y}", to + 8), (to, y), Tip::Left);
}
