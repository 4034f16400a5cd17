//! Whole pictures that are not at rest: the first call that works the queue brings them to rest, and
//! the rules fix every byte of it.

use desk::beside::{Lent, call};
use desk::pictures::not_at_rest;
use desk::runs::{Run, named_at_rest, together};
use desk::under_test::LIBRARY;
use model::demand3::waits::Waits;
use model::generators::random::Random;
use model::generators::requests::{Bias, Requests, spoiled};
use model::key::Key;
use model::layout::desk::{Mode, Slot, TRANSACTION_COUNT};
use model::layout::pages::Page;
use model::picture::Tables;

const PICTURES: usize = 2500;

/// A name for something about a picture, and whether it is so.
type Feature = (&'static str, fn(&Tables) -> bool);

/// What the pictures must have among them.
const FEATURES: [Feature; 9] = [
    ("an unblocked queued request", |tables| {
        any_waiter(tables, |waits, waiter| {
            waits.behind(waiter).is_some_and(|behind| behind.is_empty())
        })
    }),
    ("a circle", |tables| {
        any_waiter(tables, |waits, waiter| waits.shortest_circle(waiter).is_some())
    }),
    ("sixteen waiting", |tables| tables.desk.queue.len() == usize::from(TRANSACTION_COUNT)),
    ("X on the end", |tables| {
        tables.desk.locks().any(|lock| (lock.name, lock.mode) == (Key::END, Mode::X))
    }),
    ("X on a settled entry", x_on_a_settled_entry),
    ("a hole in the lock table", |tables| {
        tables.desk.slots.windows(2).any(|pair| pair[0] == Slot::Free && pair[1] != Slot::Free)
    }),
    ("leaves out of order", leaves_out_of_order),
    ("three levels", |tables| tables.index.height == 3),
    ("an empty leaf", |tables| tables.index.pages.values().any(|page| *page == Page::Leaf(vec![]))),
];

fn any_waiter(tables: &Tables, is_so: fn(&Waits, u16) -> bool) -> bool {
    let waits = Waits::of(tables);
    tables.desk.queue.iter().any(|waiter| is_so(&waits, *waiter))
}

fn x_on_a_settled_entry(tables: &Tables) -> bool {
    let is_settled = |name| tables.index.entry(name).is_some_and(|entry| entry.owner == 0);
    tables.desk.locks().any(|lock| lock.mode == Mode::X && is_settled(lock.name))
}

/// Whether the lowest keys of the leaves don't ascend by the pages' numbers.
fn leaves_out_of_order(tables: &Tables) -> bool {
    let leaves = tables.index.pages.values().filter_map(|page| page.entries().first());
    !leaves.map(|entry| entry.key).is_sorted()
}

#[test]
fn the_pictures_have_something_of_everything() {
    let pictures = not_at_rest(77, PICTURES);
    for (name, has) in FEATURES {
        let count = pictures.iter().filter(|tables| has(tables)).count();
        assert!(count >= 20, "{count} of the pictures have {name}");
    }
}

/// Every byte after each of twelve requests, from each picture.
#[test]
fn runs_from_pictures_not_at_rest() {
    let met = together(not_at_rest(77, PICTURES).iter().zip(0..).map(|(tables, seed)| {
        let mut run = Run::from(LIBRARY, seed, tables.encode());
        run.steps(&mut Requests::without_opening(seed, Bias::WAITS), 12);
        run.met()
    }));
    for number in [0, 1, 2, 3, 13, 14, 15, 16, 17, 19] {
        let times = met.count(number);
        assert!(times >= 20, "number {number} came {times} times");
    }
    assert!(met.calls_with_16_answers >= 1 && met.older_freed >= 20, "{met:?}");
    assert!(met.holders_named >= 100 && met.waiters_named_before_holders >= 100, "{met:?}");
}

/// "As it stands at rest" (document 02, [4]): each request waits, and of about every second one the
/// lowest in the way is another than when it joined.
#[test]
fn a_3_names_who_is_in_the_way_at_rest() {
    let met = named_at_rest(LIBRARY, 200);
    assert_eq!(met.count(3), 200);
    assert!(met.named_otherwise_at_rest >= 50, "{met:?}");
}

/// Whole calls of the model, which judges the picture too: good requests and spoiled ones.
#[test]
fn single_calls_on_pictures_not_at_rest() {
    let mut random = Random::new(78);
    let (mut served, mut refused) = (0, 0);
    for (tables, seed) in not_at_rest(78, PICTURES).iter().zip(0..) {
        let request = Requests::without_opening(seed, Bias::CIRCLES).next(tables);
        let lent = Lent::with_space(&mut random, tables.encode());
        for bytes in [request.encode(), spoiled(&mut random, &request)] {
            let (returned, _) = call(LIBRARY, &lent, &bytes, &format!("{bytes:?}"));
            match returned.number {
                0 => served += 1,
                12 => refused += 1,
                number => panic!("{number} on a whole picture"),
            }
        }
    }
    assert!(served >= PICTURES && refused >= PICTURES / 2, "{served} served, {refused} refused");
}
