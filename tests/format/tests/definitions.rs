//! The page's tables beside the definitions that the proofs go by.

use format::definitions::Limits;
use format::page::{Field, Page};

/// Asserts that a layout is one of these widths from an offset on: each field is one number of the
/// definition, which may take the filler behind it in, and each other number of the definition is
/// filler.
fn agree(table: &str, fields: &[Field], from: usize, widths: &[usize]) {
    let ends = widths.iter().scan(from, |at, width| {
        *at += width;
        Some(*at)
    });
    let numbers: Vec<(usize, usize)> =
        widths.iter().zip(ends).map(|(w, end)| (end - w, end)).collect();
    let end = numbers.last().expect("a layout has a number").1;
    assert_eq!(fields[0].offset, from, "table {table} starts where its widths do");
    assert_eq!(fields[fields.len() - 1].end(), end, "table {table} ends where its widths do");
    for (place, field) in fields.iter().enumerate() {
        let filler = fields.get(place + 1).filter(|next| next.is_zero());
        let ends = [Some(field.end()), filler.map(Field::end)];
        let number = numbers.iter().find(|(start, _)| *start == field.offset);
        if !field.is_zero() {
            let (_, end) =
                number.unwrap_or_else(|| panic!("{} of {table} is a number", field.name));
            assert!(ends.contains(&Some(*end)), "{} of {table} has its width", field.name);
        }
    }
    let named =
        |start: usize| fields.iter().find(|field| field.offset <= start && start < field.end());
    for (start, _) in numbers {
        let field = named(start).expect("the fields follow on one another");
        assert!(
            field.is_zero() || field.offset == start,
            "{} of {table} is one number",
            field.name
        );
    }
}

#[test]
fn the_fields_of_every_layout_follow_on_one_another() {
    let page = Page::read();
    for (table, rows) in page.tables() {
        if rows[0].len() != 4 || rows[0][0].parse::<usize>().is_err() || table == "numbers" {
            continue;
        }
        let fields = page.layout(&table);
        for two in fields.windows(2) {
            assert_eq!(two[0].end(), two[1].offset, "{} of table {table}", two[1].name);
        }
        assert!(fields.iter().all(|field| field.width > 0), "table {table}");
    }
}

#[test]
fn the_layouts_are_the_width_tables_of_the_definitions() {
    let (page, limits) = (Page::read(), Limits::read());
    let head = limits.value("head_size");
    let tables = [
        ("page head", "crates/rows/specs/PageHead.antt", "head_widths", 0),
        ("page 0", "crates/rows/specs/PageHead.antt", "root_widths", head),
        ("entry", "crates/pages/specs/PageLayout.antt", "entry_widths", 0),
        ("child", "crates/pages/specs/PageLayout.antt", "child_widths", 0),
        ("transaction", "crates/queue/specs/QueueLayout.antt", "record_widths", 0),
        ("lock", "crates/locks/specs/SlotLayout.antt", "lock_widths", 0),
        ("answer", "crates/answers/specs/AnswerRecord.antt", "answer_widths", 0),
    ];
    for (table, path, name, from) in tables {
        agree(table, &page.layout(table), from, &limits.width_table(path, name));
    }
}

/// The head of a request and what each kind has behind it, together, are the kind's form.
#[test]
fn the_requests_are_the_forms_of_the_definitions() {
    let (page, forms) = (Page::read(), Limits::read().forms());
    assert_eq!(forms.len(), 7, "kinds 1 to 6, and none for 0");
    assert_eq!(forms[0], []);
    for row in &page.tables()["kinds"] {
        let (kind, request) = (row[0].parse::<usize>().expect("a number"), row[1].as_str());
        let mut fields = page.layout("request");
        if matches!(request, "read" | "insert" | "delete") {
            fields.extend(page.layout(request));
        }
        agree(request, &fields, 0, &forms[kind]);
        assert_eq!(
            row[2],
            forms[kind].iter().sum::<usize>().to_string(),
            "the length of {request}"
        );
    }
}

/// The desk: its head by the width table, then the places of queue, records and slots.
#[test]
fn the_desk_is_that_of_the_definitions() {
    let (page, limits) = (Page::read(), Limits::read());
    let fields = page.layout("desk");
    let head = limits.width_table("crates/queue/specs/QueueLayout.antt", "head_widths");
    agree("desk", &fields[..4], 0, &head);
    let places: Vec<(&str, usize, usize)> =
        fields[4..].iter().map(|field| (field.name.as_str(), field.offset, field.end())).collect();
    let value = |expression| limits.value(expression);
    let expected = [
        ("queue", value("desk_head_size"), value("desk_head_size + queue_size")),
        (
            "transactions",
            value("records_place"),
            value("records_place + record_size * transactions_most"),
        ),
        ("locks", value("slots_place"), value("desk_size")),
    ];
    assert_eq!(places, expected);
}

#[test]
fn the_sizes_are_the_limits() {
    let (page, limits) = (Page::read(), Limits::read());
    for row in &page.tables()["sizes"] {
        let [number, what, definition] = &row[..] else { panic!("three columns") };
        assert_eq!(number, &limits.value(definition).to_string(), "{what}");
    }
}

/// Each size of a whole thing is where its table ends.
#[test]
fn the_tables_end_at_the_sizes() {
    let (page, limits) = (Page::read(), Limits::read());
    let ends = [
        ("page head", "head_size"),
        ("entry", "entry_size"),
        ("child", "child_size"),
        ("desk", "desk_size"),
        ("transaction", "record_size"),
        ("lock", "slot_size"),
        ("answer", "answer_size"),
        ("request", "request_head_size"),
        ("read", "read_size"),
        ("insert", "insert_size"),
        ("delete", "delete_size"),
    ];
    for (table, size) in ends {
        let end = page.layout(table).last().expect("a field").end();
        assert_eq!(end, limits.value(size), "{table}");
    }
}

#[test]
fn an_expression_is_worked_out() {
    let limits = Limits::read();
    assert_eq!(limits.value("2 + 3 * 4 - 6 / 2"), 11);
    assert_eq!(limits.value("(2 + 3) * (4 - 1)"), 15);
    assert_eq!(limits.value("10 - 3 - 2"), 5);
    assert_eq!(limits.value("key_size"), 8);
    assert!(limits.names().count() > 20, "all limits are read");
}

/// Every way to stop that the program has words for, but for the turns that no run uses up.
#[test]
fn the_program_stops_with_the_pages_words() {
    let source = format::file("crates/streams/src/lib.rt");
    let words = source.split('"').skip(1).step_by(2);
    let mut said: Vec<&str> = words.filter(|words| words.starts_with("keydesk: ")).collect();
    said.retain(|words| *words != "keydesk: out of turns, at byte ");
    let tables = Page::read().tables();
    let page: Vec<&str> = tables["stops"].iter().map(|row| row[0].as_str()).collect();
    assert_eq!(page, said);
}

/// What the comparison of layouts must find.
#[test]
fn a_layout_that_differs_is_found() {
    let field = |offset, width, name: &str| {
        let name = name.to_string();
        Field { offset, width, name, always: None }
    };
    let good = vec![field(0, 8, "key"), field(8, 2, "page"), field(10, 6, "zero")];
    agree("child", &good, 0, &[8, 2, 2, 4]);
    agree("child", &good, 0, &[8, 8]);
    let bad: [(Vec<Field>, &[usize]); 5] = [
        (good.clone(), &[8, 2, 2]),
        (good.clone(), &[8, 4, 4]),
        (good.clone(), &[4, 4, 2, 6]),
        (good.clone(), &[10, 6]),
        (vec![field(0, 8, "key"), field(8, 4, "page"), field(12, 4, "zero")], &[8, 2, 2, 4]),
    ];
    for (fields, widths) in bad {
        let found = std::panic::catch_unwind(|| agree("child", &fields, 0, widths));
        assert!(found.is_err(), "{fields:?} beside {widths:?}");
    }
}
