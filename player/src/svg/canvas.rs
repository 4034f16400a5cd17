//! What is drawn so far, as SVG elements, and how far it reaches.

/// Where a box stands and how large it is.
#[derive(Clone, Copy, Debug, PartialEq, Eq)]
pub struct Area {
    pub x: i32,
    pub y: i32,
    pub width: i32,
    pub height: i32,
}

impl Area {
    pub fn right(&self) -> i32 {
        self.x + self.width
    }

    pub fn bottom(&self) -> i32 {
        self.y + self.height
    }

    pub fn middle(&self) -> i32 {
        self.x + self.width / 2
    }
}

/// How wide a letter of the entries is at most, and one of the title; all letters of a kind have
/// the same width.
pub const LETTER: i32 = 8;
pub const TITLE_LETTER: i32 = 11;

/// How wide a text is at most in the letters of the entries.
pub fn wide(text: &str) -> i32 {
    LETTER * text.chars().count() as i32
}

#[derive(Default)]
pub struct Canvas {
    elements: String,
    right: i32,
    bottom: i32,
}

/// The space around everything.
const MARGIN: i32 = 24;

/// How each kind of thing looks. Elements name their kind as their class.
const STYLE: &str = "
text { font: 13px 'DejaVu Sans Mono', 'SFMono-Regular', Menlo, Consolas, monospace; fill: #1d2733; }
.title { font-size: 18px; font-weight: bold; }
.place { fill: #51606f; }
.note { font: 13px 'DejaVu Sans', Helvetica, Arial, sans-serif; fill: #51606f; }
.heading { font: bold 14px 'DejaVu Sans', Helvetica, Arial, sans-serif; }
.strong { font-weight: bold; }
.paper { fill: #ffffff; }
.page { fill: #f7f9fb; stroke: #7b8a9a; stroke-width: 1.5; }
.head { fill: #dfe6ee; stroke: #7b8a9a; stroke-width: 1.5; }
.family { fill: #fbfcfd; stroke: #c6d0da; }
.link { fill: none; stroke: #7b8a9a; stroke-width: 1.5; }
.separator { fill: #ffffff; stroke: #a9b6c3; }
.end { fill: #ffffff; stroke: #7b8a9a; stroke-dasharray: 2 3; }
.settled { fill: #dcebf9; stroke: #7ea8d1; }
.owned { fill: #ffe9a8; stroke: #d1a520; }
.ghost { fill: #ffffff; stroke: #8a8a8a; stroke-width: 1.5; stroke-dasharray: 5 3; }
.gone { text-decoration: line-through; fill: #6a6a6a; }
.S { fill: #2f8f5b; }
.X { fill: #c23b32; }
.on { fill: #ffffff; font-weight: bold; }
.card { fill: #ffffff; stroke: #a9b6c3; }
.waits { fill: #f1e6fb; stroke: #8a4fc0; stroke-width: 1.5; stroke-dasharray: 5 3; }
.badge { fill: #33414f; }
.arrow { fill: none; stroke: #8a4fc0; stroke-width: 2; }
.tip { fill: #8a4fc0; }
.arrow.dashed { stroke: #a67ccf; stroke-width: 1.5; stroke-dasharray: 4 4; }
.tip.dashed { fill: #a67ccf; }
";

impl Canvas {
    /// How far the drawing reaches to the right and down.
    pub fn extent(&self) -> (i32, i32) {
        (self.right, self.bottom)
    }

    /// Makes the drawing reach at least so far.
    pub fn reach(&mut self, right: i32, bottom: i32) {
        self.right = self.right.max(right);
        self.bottom = self.bottom.max(bottom);
    }

    pub fn rect(&mut self, class: &str, area: Area) {
        let Area { x, y, width, height } = area;
        let round = if class.starts_with("bar") { 0 } else { 5 };
        self.elements += &format!(
            "<rect class=\"{class}\" x=\"{x}\" y=\"{y}\" width=\"{width}\" height=\"{height}\" rx=\"{round}\"/>\n"
        );
        self.reach(area.right(), area.bottom());
    }

    /// A text that starts at x, its letters standing on y.
    pub fn text(&mut self, class: &str, x: i32, y: i32, text: &str) {
        self.elements +=
            &format!("<text class=\"{class}\" x=\"{x}\" y=\"{y}\">{}</text>\n", escaped(text));
        self.reach(x + wide(text), y + 4);
    }

    /// A text in the middle of a box's width.
    pub fn centred(&mut self, class: &str, x: i32, y: i32, text: &str) {
        self.elements += &format!(
            "<text class=\"{class}\" x=\"{x}\" y=\"{y}\" text-anchor=\"middle\">{}</text>\n",
            escaped(text)
        );
    }

    /// A transaction's number in its circle.
    pub fn badge(&mut self, x: i32, y: i32, number: u16) {
        self.elements += &format!("<circle class=\"badge\" cx=\"{x}\" cy=\"{y}\" r=\"12\"/>\n");
        self.centred("on", x, y + 5, &number.to_string());
    }

    pub fn path(&mut self, class: &str, path: &str) {
        self.elements += &format!("<path class=\"{class}\" d=\"{path}\"/>\n");
    }

    /// An arrow along a path, its tip pointing left or down to the path's end.
    pub fn arrow(&mut self, stroke: Stroke, path: &str, (x, y): (i32, i32), tip: Tip) {
        let (line, head) = match stroke {
            Stroke::Full => ("arrow", "tip"),
            Stroke::Dashed => ("arrow dashed", "tip dashed"),
        };
        self.path(line, path);
        let (one, two) = match tip {
            Tip::Left => ((x + 10, y - 5), (x + 10, y + 5)),
            Tip::Down => ((x - 5, y - 9), (x + 5, y - 9)),
        };
        self.path(head, &format!("M{x} {y}L{} {}L{} {}Z", one.0, one.1, two.0, two.1));
    }

    /// Adds another drawing, so far down.
    pub fn add(&mut self, other: Canvas, down: i32) {
        let moved = format!("<g transform=\"translate(0 {down})\">\n{}</g>\n", other.elements);
        self.elements += &moved;
        self.reach(other.right, down + other.bottom);
    }

    /// The whole picture.
    pub fn finished(self, title: &str) -> String {
        let (width, height) = (self.right + MARGIN, self.bottom + MARGIN);
        let paper = format!("<rect class=\"paper\" width=\"{width}\" height=\"{height}\"/>");
        format!(
            "<svg xmlns=\"http://www.w3.org/2000/svg\" width=\"{width}\" height=\"{height}\" \
             viewBox=\"0 0 {width} {height}\">\n<title>{}</title>\n<style>{STYLE}</style>\n{paper}\n{}</svg>\n",
            escaped(title),
            self.elements
        )
    }
}

/// How an arrow is drawn: strong, or pale.
pub enum Stroke {
    Full,
    Dashed,
}

/// Where an arrow's tip points.
pub enum Tip {
    Left,
    Down,
}

fn escaped(text: &str) -> String {
    text.replace('&', "&amp;").replace('<', "&lt;").replace('>', "&gt;").replace('"', "&quot;")
}
