//! The transactions that run, each on a card, with arrows from those who wait to those they wait
//! behind: a full one to the one that is named, dashed ones to whoever else is in the way.

use super::canvas::{Area, Canvas, Stroke, Tip, wide};
use crate::behind::{behind, named};
use crate::keys::Key;
use crate::picture::{Mode, Standing, Waiting};
use crate::plain::wrapped;
use crate::rows::wants;
use crate::words::{Waits, waits};
use std::cmp::Reverse;

/// A card ready to be drawn.
struct Card {
    transaction: u16,
    waits: bool,
    /// Whether it runs, or behind whom it waits.
    head: Vec<String>,
    lines: Vec<String>,
    /// Everyone it waits behind, and who of them is named.
    behind: Vec<u16>,
    named: Option<u16>,
}

const LINE: i32 = 20;
const BETWEEN: i32 = 14;
/// So many letters stand in a line of a card.
const COLUMNS: usize = 60;
/// So many names are written out on a card; more are counted.
const NAMED: usize = 4;
/// So many arrows are all drawn.
const ARROWS: usize = 12;

/// Draws the cards with their upper left corner here, and gives how many arrows are left out. First
/// those who run, then those who wait, oldest request first: so arrows point up where they can.
pub fn draw(standing: &Standing, canvas: &mut Canvas, x: i32, y: i32) -> usize {
    canvas.text("heading", x, y + 16, "Transactions");
    let cards = cards(standing);
    if cards.is_empty() {
        canvas.text("note", x, y + 44, "none is running");
    }
    let lines = cards.iter().flat_map(|card| card.head.iter().chain(&card.lines));
    let width = lines.map(|line| wide(line)).max().unwrap_or(0) + 64;
    let mut areas = Vec::new();
    let mut down = y + 30;
    for card in &cards {
        let area = Area { x, y: down, width, height: card.height() };
        card.draw(canvas, area);
        areas.push(area);
        down = area.bottom() + BETWEEN;
    }
    draw_arrows(canvas, &cards, &areas)
}

/// Draws the arrows between cards that stand in these places, full ones over dashed ones, and gives
/// how many are left out. They start on the upper part of a card and end below that, so that a chain
/// of them doesn't cross.
fn draw_arrows(canvas: &mut Canvas, cards: &[Card], areas: &[Area]) -> usize {
    let place_of = |transaction: u16| cards.iter().position(|card| card.transaction == transaction);
    let (mut arrows, mut left_out) = (Vec::new(), 0);
    for (own, card) in cards.iter().enumerate() {
        let drawn = drawn_arrows(cards, card);
        left_out += card.behind.len() - drawn.len();
        let mut to: Vec<usize> = drawn.into_iter().filter_map(place_of).collect();
        // so wide arrows go around narrow ones: up, the nearest first; down, the nearest last
        to.sort_by_key(|place| (*place > own, Reverse(*place)));
        let (right, from) = (areas[own].right(), areas[own].y + 10);
        let apart = ((areas[own].height - 36) / to.len().max(1) as i32).min(6);
        for (place, to) in (0..).zip(to) {
            let named = card.named == Some(cards[to].transaction);
            arrows.push((named, (right, from + apart * place), areas[to]));
        }
    }
    arrows.sort_by_key(|(named, ..)| *named);
    for (named, from, to) in arrows {
        arrow(canvas, if named { Stroke::Full } else { Stroke::Dashed }, from, to);
    }
    left_out
}

/// Those to whom an arrow goes from a card: everyone it waits behind. Among many arrows those are
/// left out that lead where two others lead one after the other; the one to whoever is named stays.
/// Nobody waits in a circle, so that the arrows that are drawn still lead there, in two steps or
/// more.
fn drawn_arrows(cards: &[Card], card: &Card) -> Vec<u16> {
    let behind = |transaction: u16| {
        let card = cards.iter().find(|card| card.transaction == transaction);
        card.map_or(&[][..], |card| &card.behind)
    };
    let few = cards.iter().map(|card| card.behind.len()).sum::<usize>() <= ARROWS;
    let in_two_steps =
        |other: &u16| card.behind.iter().any(|between| behind(*between).contains(other));
    let is_named = |other: &u16| card.named == Some(*other);
    let drawn = |other: &u16| few || is_named(other) || !in_two_steps(other);
    card.behind.iter().copied().filter(drawn).collect()
}

fn cards(standing: &Standing) -> Vec<Card> {
    let running =
        standing.running.iter().filter(|transaction| standing.waiting(**transaction).is_none());
    let running = running.map(|transaction| Card {
        transaction: *transaction,
        waits: false,
        head: vec!["runs".to_string()],
        lines: in_lines(&holds(standing, *transaction)),
        behind: vec![],
        named: None,
    });
    running.chain(standing.queue.iter().map(|waiting| waiting_card(standing, waiting))).collect()
}

fn waiting_card(standing: &Standing, waiting: &Waiting) -> Card {
    let Waits { behind: head, also } = waits(standing, waiting);
    let wants = format!("{} {}", waiting.asks, wants(standing, waiting));
    let holds = holds(standing, waiting.transaction);
    let lines = also.into_iter().chain([wants, holds]);
    Card {
        transaction: waiting.transaction,
        waits: true,
        head: in_lines(&head),
        lines: lines.flat_map(|text| in_lines(&text)).collect(),
        behind: behind(standing, waiting),
        named: named(standing, waiting),
    }
}

fn in_lines(text: &str) -> Vec<String> {
    wrapped(text, COLUMNS, usize::MAX)
}

/// What a transaction holds, in words.
fn holds(standing: &Standing, transaction: u16) -> String {
    let said = [Mode::S, Mode::X].into_iter().filter_map(|mode| {
        let own = standing.locks.iter().filter(|l| l.holder == transaction && l.mode == mode);
        let mut names: Vec<Key> = own.map(|lock| lock.name).collect();
        names.sort();
        match names.len() {
            0 => None,
            1..=NAMED => {
                let names: Vec<String> = names.iter().map(|name| standing.name(*name)).collect();
                Some(format!("{mode} on {}", names.join(", ")))
            }
            many => Some(format!("{mode} on {many} names")),
        }
    });
    let said: Vec<String> = said.collect();
    if said.is_empty() { "holds nothing".to_string() } else { format!("holds {}", said.join("; ")) }
}

impl Card {
    fn height(&self) -> i32 {
        (self.head.len() + self.lines.len()) as i32 * LINE + 16
    }

    fn draw(&self, canvas: &mut Canvas, area: Area) {
        canvas.rect(if self.waits { "card waits" } else { "card" }, area);
        canvas.badge(area.x + 24, area.y + 8 + LINE / 2, self.transaction);
        let head = self.head.iter().map(|line| ("strong", line));
        let lines = head.chain(self.lines.iter().map(|line| ("", line)));
        for (place, (class, line)) in (0..).zip(lines) {
            canvas.text(class, area.x + 48, area.y + 23 + place * LINE, line);
        }
    }
}

/// An arrow from a card's right side to the card that it waits behind. The further away, the wider.
fn arrow(canvas: &mut Canvas, stroke: Stroke, (right, start): (i32, i32), to: Area) {
    let end = to.bottom() - 14;
    let bend = right + 30 + (start - end).abs() / 5;
    let path = format!("M{right} {start}C{bend} {start} {bend} {end} {} {end}", to.right() + 9);
    canvas.arrow(stroke, &path, (to.right() + 1, end), Tip::Left);
    canvas.reach(bend, 0);
}
