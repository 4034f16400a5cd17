//! The tree of pages: each page above its children. Leaves that are too many to stand beside each
//! other stand below each other in columns, within one frame.

use super::canvas::{Area, Canvas, wide};
use super::leaf::{HEAD, Leaf};
use crate::keys::Key;
use crate::picture::{Entry, Holds, INNER_FULL, Page, Standing};

/// A page with everything below it, ready to be drawn.
enum Block {
    Leaf(Leaf),
    Inner(Inner),
}

struct Inner {
    title: String,
    filled: String,
    separators: Vec<String>,
    children: Vec<Block>,
}

/// What all pages share: the width of a leaf, and how high the columns of leaves may be.
struct Shared {
    leaf_width: i32,
    column_height: i32,
}

/// So many leaves of one page stand beside each other.
const BESIDE_EACH_OTHER: usize = 5;
/// From one page to the next, beside and below, and from a page to its children.
const BETWEEN: i32 = 20;
const BELOW: i32 = 56;
/// Between the frame of a family and its leaves.
const PADDING: i32 = 16;
const SEPARATOR: i32 = 26;

/// Draws the tree with its upper left corner here.
pub fn draw(standing: &Standing, canvas: &mut Canvas, x: i32, y: i32) {
    let mut after = names_after_leaves(standing).into_iter();
    let root = Block::new(standing, &standing.root, Key::LOWEST, &mut after);
    root.draw(canvas, &shared(&root), x, y);
}

/// Columns are as high as makes all of them together at most twice as wide as high.
fn shared(root: &Block) -> Shared {
    let mut families = Vec::new();
    root.add_families(&mut families);
    let leaf_width = root.leaf_width();
    let heights = (0..).step_by(8).map(|column_height| Shared { leaf_width, column_height });
    let high_enough = |shared: &Shared| {
        let columns =
            families.iter().map(|inner| inner.columns_of(shared.column_height, shared).len());
        columns.sum::<usize>() as i32 * leaf_width <= 2 * shared.column_height
    };
    heights.into_iter().find(high_enough).expect("numbers go on")
}

/// For each leaf the next name above it: the lowest key of the leaves to the right, or the end.
fn names_after_leaves(standing: &Standing) -> Vec<Key> {
    let leaves = standing.leaves();
    let lowest = |entries: &[Entry]| entries.first().map(|entry| entry.key);
    let after = |place: usize| leaves[place + 1..].iter().find_map(|(_, entries)| lowest(entries));
    (0..leaves.len()).map(|place| after(place).unwrap_or(Key::END)).collect()
}

impl Block {
    /// The block of a page whose range starts with a key; the names after its leaves are taken.
    fn new(
        standing: &Standing,
        page: &Page,
        low: Key,
        after: &mut std::vec::IntoIter<Key>,
    ) -> Block {
        match &page.holds {
            Holds::Entries(entries) => {
                let last = after.len() == 1;
                let after = after.next().unwrap_or(Key::END);
                Block::Leaf(Leaf::new(standing, page, entries, low, after, last))
            }
            Holds::Children { level, children } => {
                let separator = |key: Key| standing.written(key).to_string();
                let separators = children.iter().map(|child| separator(child.separator)).collect();
                let blocks = children.iter().enumerate().map(|(place, child)| {
                    let low = if place == 0 { low } else { child.separator };
                    Block::new(standing, &child.page, low, after)
                });
                Block::Inner(Inner {
                    title: format!("page {}, level {level}", page.number),
                    filled: format!("{}/{INNER_FULL}", children.len()),
                    separators,
                    children: blocks.collect(),
                })
            }
        }
    }

    /// The width that every leaf gets.
    fn leaf_width(&self) -> i32 {
        match self {
            Block::Leaf(leaf) => leaf.width(),
            Block::Inner(inner) => inner.children.iter().map(Block::leaf_width).max().unwrap_or(0),
        }
    }

    /// The pages here whose leaves stand in columns.
    fn add_families<'a>(&'a self, families: &mut Vec<&'a Inner>) {
        match self {
            Block::Leaf(_) => {}
            Block::Inner(inner) if inner.in_columns() => families.push(inner),
            Block::Inner(inner) => {
                inner.children.iter().for_each(|child| child.add_families(families));
            }
        }
    }

    fn size(&self, shared: &Shared) -> (i32, i32) {
        match self {
            Block::Leaf(leaf) => (shared.leaf_width, leaf.height()),
            Block::Inner(inner) => inner.size(shared),
        }
    }

    /// Draws the block, and gives where a link from above ends.
    fn draw(&self, canvas: &mut Canvas, shared: &Shared, x: i32, y: i32) -> (i32, i32) {
        match self {
            Block::Leaf(leaf) => {
                leaf.draw(canvas, x, y, shared.leaf_width);
                (x + shared.leaf_width / 2, y)
            }
            Block::Inner(inner) => inner.draw(canvas, shared, x, y),
        }
    }
}

/// The height of blocks below each other.
fn stacked(blocks: &[Block], shared: &Shared) -> i32 {
    blocks.iter().map(|block| block.size(shared).1 + BETWEEN).sum::<i32>() - BETWEEN
}

impl Inner {
    /// Whether the children stand below each other in columns.
    fn in_columns(&self) -> bool {
        let above_leaves = matches!(self.children[0], Block::Leaf(_));
        above_leaves && self.children.len() > BESIDE_EACH_OTHER
    }

    /// The children by columns, from left to right; the columns of a family are about as high as
    /// each other.
    fn columns(&self, shared: &Shared) -> Vec<&[Block]> {
        if !self.in_columns() {
            return self.children.chunks(1).collect();
        }
        let wanted = self.columns_of(shared.column_height, shared).len();
        let lowest = stacked(&self.children, shared) / wanted as i32;
        let mut columns = (lowest..).step_by(8).map(|height| self.columns_of(height, shared));
        columns.find(|columns| columns.len() <= wanted).expect("the shared height will do")
    }

    /// The children by columns of at most this height, or of one child that is higher.
    fn columns_of(&self, height: i32, shared: &Shared) -> Vec<&[Block]> {
        let (mut columns, mut rest) = (Vec::new(), &self.children[..]);
        while !rest.is_empty() {
            let fits = |count: &usize| stacked(&rest[..*count], shared) <= height;
            let count = (1..=rest.len()).take_while(fits).last().unwrap_or(1);
            columns.push(&rest[..count]);
            rest = &rest[count..];
        }
        columns
    }

    fn children_size(&self, shared: &Shared) -> (i32, i32) {
        let columns = self.columns(shared);
        let widest = |column: &&[Block]| column.iter().map(|block| block.size(shared).0).max();
        let widths = columns.iter().map(|column| widest(column).unwrap_or(0) + BETWEEN);
        let heights = columns.iter().map(|column| stacked(column, shared));
        let padding = if self.in_columns() { 2 * PADDING } else { 0 };
        (widths.sum::<i32>() - BETWEEN + padding, heights.max().unwrap_or(0) + padding)
    }

    fn separator_width(&self) -> i32 {
        self.separators.iter().map(|separator| wide(separator)).max().unwrap_or(0) + 16
    }

    /// How many separators stand beside each other in the page's box.
    fn separators_in_row(&self, shared: &Shared) -> usize {
        let room = self.children_size(shared).0.max(300) - 16;
        ((room / self.separator_width()) as usize).clamp(1, self.separators.len())
    }

    fn own_size(&self, shared: &Shared) -> (i32, i32) {
        let in_row = self.separators_in_row(shared);
        let rows = self.separators.len().div_ceil(in_row) as i32;
        let head = wide(&self.title) + wide(&self.filled) + 36;
        let width = (in_row as i32 * self.separator_width() + 16).max(head);
        (width, HEAD + rows * SEPARATOR + 16)
    }

    fn size(&self, shared: &Shared) -> (i32, i32) {
        let (own, children) = (self.own_size(shared), self.children_size(shared));
        (own.0.max(children.0), own.1 + BELOW + children.1)
    }

    /// The page's own box in the middle, its children below, and the links.
    fn draw(&self, canvas: &mut Canvas, shared: &Shared, x: i32, y: i32) -> (i32, i32) {
        let (width, _) = self.size(shared);
        let (own_width, own_height) = self.own_size(shared);
        let own = Area { x: x + (width - own_width) / 2, y, width: own_width, height: own_height };
        let starts = self.draw_own(canvas, shared, own);
        let (family_width, family_height) = self.children_size(shared);
        let family = Area {
            x: x + (width - family_width) / 2,
            y: own.bottom() + BELOW,
            width: family_width,
            height: family_height,
        };
        if self.in_columns() {
            link(canvas, (own.middle(), own.bottom()), (family.middle(), family.y));
            self.draw_columns(canvas, shared, family);
        } else {
            self.draw_beside_each_other(canvas, shared, family, &starts);
        }
        (own.middle(), own.y)
    }

    /// The box with the separators; gives where the link to each child starts.
    fn draw_own(&self, canvas: &mut Canvas, shared: &Shared, own: Area) -> Vec<(i32, i32)> {
        canvas.rect("page inner", own);
        canvas.rect("head", Area { height: HEAD, ..own });
        canvas.text("strong", own.x + 10, own.y + 18, &self.title);
        canvas.text("note", own.right() - wide(&self.filled) - 4, own.y + 18, &self.filled);
        let (in_row, width) = (self.separators_in_row(shared), self.separator_width());
        let left = own.x + (own.width - in_row as i32 * width) / 2;
        let mut starts = Vec::new();
        for (place, separator) in self.separators.iter().enumerate() {
            let (row, column) = ((place / in_row) as i32, (place % in_row) as i32);
            let cell = Area {
                x: left + column * width,
                y: own.y + HEAD + 8 + row * SEPARATOR,
                width,
                height: SEPARATOR,
            };
            canvas.rect("separator", cell);
            canvas.centred("", cell.middle(), cell.y + 18, separator);
            starts.push((cell.middle(), own.bottom()));
        }
        starts
    }

    fn draw_beside_each_other(
        &self,
        canvas: &mut Canvas,
        shared: &Shared,
        family: Area,
        starts: &[(i32, i32)],
    ) {
        let mut right = family.x;
        for (child, start) in self.children.iter().zip(starts) {
            let end = child.draw(canvas, shared, right, family.y);
            link(canvas, *start, end);
            right += child.size(shared).0 + BETWEEN;
        }
    }

    fn draw_columns(&self, canvas: &mut Canvas, shared: &Shared, family: Area) {
        canvas.rect("family", family);
        let mut right = family.x + PADDING;
        for column in self.columns(shared) {
            let mut down = family.y + PADDING;
            for child in column {
                child.draw(canvas, shared, right, down);
                down += child.size(shared).1 + BETWEEN;
            }
            right += shared.leaf_width + BETWEEN;
        }
    }
}

/// A link from a page down to a child.
fn link(canvas: &mut Canvas, from: (i32, i32), to: (i32, i32)) {
    let half = (from.1 + to.1) / 2;
    canvas.path(
        "link",
        &format!("M{} {}C{} {half} {} {half} {} {}", from.0, from.1, from.0, to.0, to.0, to.1),
    );
}
