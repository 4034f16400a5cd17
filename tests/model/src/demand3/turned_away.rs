//! Whom a call has to answer 19 (document 02, [14]), by brute force: its 19s up to its first run,
//! until which nothing but the queue changes.

use super::Breach;
use super::waits::Waits;
use crate::layout::answer::{Answer, number};
use crate::layout::request::{Request, RequestKind};
use crate::picture::Tables;

/// A 19, and the queue as it stood when it was given.
pub struct TurnedAway {
    pub waiter: u16,
    /// Those with a queued request on a circle, oldest first, each with how many locks it holds.
    pub on_circles: Vec<(u16, usize)>,
    /// The same of those whose queued request is on no circle.
    pub on_none: Vec<(u16, usize)>,
}

impl TurnedAway {
    fn of(waiter: u16, tables: &Tables) -> TurnedAway {
        let waits = Waits::of(tables);
        let locks: Vec<u16> = tables.desk.locks().map(|lock| lock.holder).collect();
        let weighed = tables
            .desk
            .queue
            .iter()
            .map(|waiter| (*waiter, locks.iter().filter(|holder| *holder == waiter).count()));
        let (on_circles, on_none) =
            weighed.partition(|(waiter, _)| waits.shortest_circle(*waiter).is_some());
        TurnedAway { waiter, on_circles, on_none }
    }

    /// How many locks the lightest on a circle holds.
    pub fn fewest(&self) -> Option<usize> {
        self.on_circles.iter().map(|(_, held)| *held).min()
    }

    /// Whether it was on a circle, nobody on one held fewer locks, and whoever is newer held more.
    fn is_right(&self) -> bool {
        let place = self.on_circles.iter().position(|(waiter, _)| *waiter == self.waiter);
        place.is_some_and(|place| {
            let held = self.on_circles[place].1;
            let newer = &self.on_circles[place + 1..];
            self.fewest() == Some(held) && newer.iter().all(|(_, others)| *others > held)
        })
    }
}

/// The 19s of a call up to its first run, from where the desk stood before the call. Begin, commit
/// and rollback are answered before them.
pub fn turned_away(request: &Request, answers: &[Answer], before: &Tables) -> Vec<TurnedAway> {
    let answered_first = usize::from(!matches!(request.kind, RequestKind::Keys(_)));
    let others = answers[answered_first..].iter();
    let told_19: Vec<u16> = others
        .take_while(|answer| answer.number == number::CIRCLE)
        .map(|answer| answer.transaction)
        .collect();
    if told_19.is_empty() {
        return Vec::new();
    }
    let mut tables = before.clone();
    tables.act(*request);
    let one_by_one = told_19.into_iter().map(|waiter| {
        let turned_away = TurnedAway::of(waiter, &tables);
        tables.leave_queue(waiter);
        turned_away
    });
    one_by_one.collect()
}

/// Whether each of them was the right one.
pub fn check(request: &Request, answers: &[Answer], before: &Tables) -> Result<(), Breach> {
    let mut all = turned_away(request, answers, before).into_iter();
    match all.find(|turned_away| !turned_away.is_right()) {
        Some(TurnedAway { waiter, .. }) => Err(Breach::TurnsAwayAnother { waiter }),
        None => Ok(()),
    }
}
