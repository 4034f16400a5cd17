//! Where things stand, drawn as a picture: the tree of pages on the left, the transactions on the
//! right, the legend below.

mod canvas;
mod leaf;
mod legend;
mod transactions;
mod tree;

use crate::picture::Standing;
use crate::plain::wrapped;
use crate::rows::{Place, locks_in_use};
use canvas::{Canvas, LETTER, TITLE_LETTER};

const LEFT: i32 = 24;
/// A narrow drawing still gives title and legend this width.
const WIDTH: i32 = 760;
/// The title, and what stands below it, have at most so many lines.
const TITLE_LINES: usize = 4;

/// The drawing as an SVG file, with the place in the session as its title.
pub fn svg(standing: &Standing, place: &Place) -> String {
    let mut body = Canvas::default();
    tree::draw(standing, &mut body, LEFT, 0);
    let (right, _) = body.extent();
    let left_out = transactions::draw(standing, &mut body, right + 40, 0);
    let (right, bottom) = body.extent();
    let width = (right - LEFT).max(WIDTH);
    legend::draw(&mut body, LEFT, bottom + 36, width, left_out);
    let mut canvas = Canvas::default();
    let down = title(standing, place, &mut canvas, width);
    canvas.add(body, down);
    canvas.finished(&place.title())
}

/// Draws the place and its sizes within a width, and gives where the rest starts.
fn title(standing: &Standing, place: &Place, canvas: &mut Canvas, width: i32) -> i32 {
    let lines = |text: &str, letter: i32| wrapped(text, (width / letter) as usize, TITLE_LINES);
    let mut down = 40;
    for line in lines(&place.title(), TITLE_LETTER) {
        canvas.text("title", LEFT, down, &line);
        down += 26;
    }
    let sizes = format!("{}, {}", place.size(standing), locks_in_use(standing));
    for line in lines(&sizes, LETTER) {
        canvas.text("place", LEFT, down, &line);
        down += 20;
    }
    canvas.reach(LEFT + width, down);
    down + 6
}
