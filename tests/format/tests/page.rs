//! The page by itself: it has the tables, each drawn as it says.

use format::drawing::drawn;
use format::page::Page;

/// The tables with offsets, in the order of their names.
const LAYOUTS: [&str; 11] = [
    "answer",
    "child",
    "delete",
    "desk",
    "entry",
    "insert",
    "lock",
    "page 0",
    "page head",
    "read",
    "request",
];

#[test]
fn it_has_every_table() {
    let mut tables: Vec<&str> = LAYOUTS.to_vec();
    tables.extend(["transaction", "sizes", "kinds", "numbers", "whole", "stops"]);
    tables.sort();
    let found = Page::read().tables();
    assert_eq!(found.keys().collect::<Vec<_>>(), tables);
    assert!(found.values().all(|rows| !rows.is_empty()), "each has rows");
}

#[test]
fn every_layout_is_drawn_as_its_table_says() {
    let page = Page::read();
    let drawings = page.drawings();
    let names: Vec<&str> = drawings.keys().map(String::as_str).collect();
    assert_eq!(names, [&LAYOUTS[..], &["transaction"]].concat());
    for (name, drawing) in drawings {
        let expected = drawn(&page.layout(&name));
        assert_eq!(drawing, expected, "the table {name} is drawn so:\n{expected}");
    }
}

/// Drawn by hand.
#[test]
fn a_drawing() {
    let page = Page::of(
        "<!-- table: one -->
| offset | width | name | meaning |
|---:|---:|---|---|
| 0 | 8 | key | |
| 8 | 4 | record | |
| 12 | 2 | zero | |
| 14 | 18 | rest | |
| 32 | 1 | mark | |
",
    );
    let expected = "     \
     +-------------------------------------------------------------------------------+
   0 | key                                                                           |
     +---------------------------------------+-------------------+-------------------+
   8 | record                                | zero              | rest              |
     +---------------------------------------+-------------------+-------------------+
  16 | rest, 16 bytes                                                                |
     +---------+---------------------------------------------------------------------+
  32 | mark    |
     +---------+
";
    assert_eq!(drawn(&page.layout("one")), expected);
}

#[test]
fn an_example_is_words_and_bytes() {
    let page = Page::of(
        "1 begins   08 00  01 00\nno  example\nnor  12345 00\nnor  this 00\n| 08 | 00 |\n",
    );
    assert_eq!(page.examples(), [("1 begins".to_string(), vec![8, 0, 1, 0])]);
}
