//! What the desk says, in words (document 01, What the desk says).

use crate::behind::{Blocker, Why, blockers, named, target};
use crate::circle::{Call, Link, circle};
use crate::keys::{Form, Key, Written};
use crate::picture::{Standing, Waiting};
use crate::rows::{counted, numbers};
use crate::text::{Asks, Request};
use keydesk::{Answer, Number, Refusal};
use std::fmt;

/// What is said at this place among a call's answers, by the request that it answers: who waits is
/// told behind whom, by the name that its answer carries, and who else is in the way; who is turned
/// away at 19 the whole circle, with the locks of each.
pub fn said(call: &Call, place: usize, asks: &Asks) -> String {
    let said = &call.answers[place];
    let told = match said.says {
        Number::StillQueued { behind } => {
            let waiting = call.after.waiting(said.transaction);
            waiting.map(|waiting| waits_behind(&call.after, waiting, behind).to_string())
        }
        Number::Circle => {
            let stood = call.stood_at(place);
            circle(&stood, said.transaction).map(|links| turned_away(&stood, &links))
        }
        _ => None,
    };
    told.unwrap_or_else(|| answer(said, asks))
}

/// An answer in words as far as the answer alone tells, by the request that it answers. A key in it
/// is written as that request writes keys.
pub fn answer(answer: &Answer, asks: &Asks) -> String {
    let form = asks.keys().first().map_or(Form::Number, |written| written.form);
    let written = |key: Key| Written { key, form };
    match answer.says {
        Number::Done => done(asks),
        Number::Found { key, record } => format!("found {} with record {record}", written(key)),
        Number::Nothing => nothing(asks),
        Number::KeyPresent { key, record } => {
            format!("{} is there already, with record {record}", written(key))
        }
        other => other.to_string(),
    }
}

fn done(asks: &Asks) -> String {
    match asks {
        Asks::Begin => "begun".to_string(),
        Asks::Commit => "committed".to_string(),
        Asks::Rollback => "rolled back".to_string(),
        Asks::Read { .. } => "done".to_string(),
        Asks::Insert { key, record } => format!("inserted {key} with record {record}"),
        Asks::Delete { key } => format!("deleted {key}"),
    }
}

fn nothing(asks: &Asks) -> String {
    match asks {
        Asks::Read { lo, hi } => format!("found nothing from {lo} to {hi}"),
        Asks::Delete { key } => format!("found no {key} to delete"),
        _ => "found nothing".to_string(),
    }
}

/// Behind whom a request waits, and why: the one that is named apart from the others.
#[derive(Clone, Debug, PartialEq, Eq)]
pub struct Waits {
    /// "waits behind 1, who holds S on 7/30".
    pub behind: String,
    /// "also in the way are 3, who holds S on it, and 4, who asked for it before"; none where the
    /// named one is alone.
    pub also: Option<String>,
}

/// As one sentence.
impl fmt::Display for Waits {
    fn fmt(&self, to: &mut fmt::Formatter) -> fmt::Result {
        match &self.also {
            None => write!(to, "{}", self.behind),
            Some(also) => write!(to, "{}; {also}", self.behind),
        }
    }
}

/// Behind whom a request waits by an answer that names one. The name is the answer's, whoever that
/// is; only the reason is worked out here, and where there is none to be seen, none is said.
pub fn waits_behind(standing: &Standing, waiting: &Waiting, named: u16) -> Waits {
    let name = standing.name(target(standing, waiting).name);
    let (first, others): (Vec<Blocker>, Vec<Blocker>) =
        blockers(standing, waiting).into_iter().partition(|blocker| blocker.transaction == named);
    if first.is_empty() {
        return Waits { behind: format!("waits behind {named}"), also: also(&others, &name) };
    }
    Waits { behind: format!("waits behind {}", who(&first, &name)), also: also(&others, "it") }
}

/// Behind whom a request waits as things stand, where there is no answer to name one.
pub fn waits(standing: &Standing, waiting: &Waiting) -> Waits {
    match named(standing, waiting) {
        Some(named) => waits_behind(standing, waiting, named),
        None => Waits { behind: "waits".to_string(), also: None },
    }
}

/// Those who are in the way besides the one that is named: who holds the target, then who asked for
/// it before.
fn also(others: &[Blocker], target: &str) -> Option<String> {
    let (holding, asking): (Vec<Blocker>, Vec<Blocker>) =
        others.iter().partition(|blocker| matches!(blocker.why, Why::Holds(_)));
    let kinds = [holding, asking].into_iter().filter(|those| !those.is_empty());
    let said: Vec<String> = kinds.map(|those| who(&those, target)).collect();
    let are = if others.len() == 1 { "is" } else { "are" };
    (!others.is_empty()).then(|| format!("also in the way {are} {}", said.join(", and ")))
}

/// Blockers of one kind, at least one, with what makes them block: "3, 5, who hold S on it". Those
/// who hold a name and conflict with one request all hold it in one mode.
fn who(those: &[Blocker], target: &str) -> String {
    let named = numbers(&those.iter().map(|blocker| blocker.transaction).collect::<Vec<u16>>());
    match those[0].why {
        Why::Holds(mode) => {
            let hold = if those.len() == 1 { "holds" } else { "hold" };
            format!("{named}, who {hold} {mode} on {target}")
        }
        Why::AskedBefore => format!("{named}, who asked for {target} before"),
    }
}

/// The circle of one that was turned away, link by link, with how many locks each held, by which it
/// was chosen: "turned away, the lightest in a circle: 1 (1 lock) waits behind 2 at 7/40, 2 (3
/// locks) behind 1 at 7/30".
pub fn turned_away(standing: &Standing, circle: &[Link]) -> String {
    let link = |link: &Link| {
        let Link { waits, behind, at } = *link;
        let verb = if *link == circle[0] { " waits" } else { "" };
        let (locks, at) = (locks_held(standing, waits), standing.name(at));
        format!("{waits} ({locks}){verb} behind {behind} at {at}")
    };
    format!("{}: {}", Number::Circle, circle.iter().map(link).collect::<Vec<String>>().join(", "))
}

/// How many locks a transaction holds, S, X and the end alike. Who lies on a circle may hold none:
/// then others wait behind its earlier request.
fn locks_held(standing: &Standing, transaction: u16) -> String {
    match standing.locks.iter().filter(|lock| lock.holder == transaction).count() {
        0 => "no locks".to_string(),
        held => counted(held, "lock", "locks"),
    }
}

/// A call that the desk refused, in words.
pub fn refusal(refusal: Refusal, request: &Request) -> String {
    match refusal {
        Refusal::BadRequest => format!("refused: {}", bad_record(request)),
        other => format!("refused: {other}"),
    }
}

/// What is wrong with a record that the desk refused. The desk has judged; this only says why.
fn bad_record(request: &Request) -> &'static str {
    if !(1..=16).contains(&request.transaction) {
        return "a transaction is 1 to 16";
    }
    if request.asks.keys().iter().any(|written| written.key == Key::END) {
        return "that number is the end of the index, and no key";
    }
    match request.asks {
        Asks::Read { lo, hi } if lo.key > hi.key => "the range ends before it starts",
        _ => "a bad request record",
    }
}
