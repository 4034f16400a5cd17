//! Medians of many short rounds, the two desks in turn so that neither has the quieter machine. A
//! round that another process interrupts lies above the median and doesn't count.

use crate::work::Commit;
use desk::under_test::{LIBRARY, UnderTest};
use keydesk::Returned;
use model::desk::Picture;
use std::hint::black_box;
use std::time::{Duration, Instant};

/// The plain desk, with the same functions as the proved one.
pub const PLAIN: UnderTest = UnderTest { fresh: plain::fresh, serve: plain::serve };

/// How many rounds; an odd number, so that the median is one of them.
pub const ROUNDS: usize = 301;
/// A round of the same call goes on for about so long, by the time of its first.
const ROUND_MICROSECONDS: f64 = 300.0;
const MOST_CALLS: f64 = 200.0;

/// How often a session is played. Each of its calls has a median of its own.
pub const SESSION_ROUNDS: usize = 21;

/// Microseconds of the same work by each desk.
#[derive(Clone, Copy)]
pub struct Times {
    pub library: f64,
    pub plain: f64,
}

impl Times {
    /// What is left without a part of the work.
    pub fn less(self, part: Times) -> Times {
        Times { library: self.library - part.library, plain: self.plain - part.plain }
    }
}

/// The medians, for each desk, of what each piece of work takes; all in turn in every round.
pub fn medians<const N: usize>(works: [impl Fn(UnderTest) -> f64; N]) -> [Times; N] {
    let mut taken = works.each_ref().map(|_| (Vec::new(), Vec::new()));
    for _ in 0..ROUNDS {
        for (work, (library, plain)) in works.iter().zip(&mut taken) {
            library.push(work(LIBRARY));
            plain.push(work(PLAIN));
        }
    }
    taken.map(|(library, plain)| Times { library: median(library), plain: median(plain) })
}

pub fn median(mut times: Vec<f64>) -> f64 {
    times.sort_unstable_by(f64::total_cmp);
    times[times.len() / 2]
}

/// The time of one call for each of these requests, which return this number and leave the picture
/// as it is.
pub fn single_calls<const N: usize>(picture: &Picture, requests: [(&[u8], u32); N]) -> [Times; N] {
    let works = requests.map(|(request, number)| {
        move |desk| of_many(|calls| round(desk, picture, request, number, calls))
    });
    medians(works)
}

/// The time of one commit, which changes the picture: each is asked on a copy.
pub fn commits(commit: &Commit) -> Times {
    medians([|desk| of_many(|calls| round_on_copies(desk, commit, calls))])[0]
}

/// What a round gives that has as many calls as its time allows.
fn of_many(round: impl Fn(usize) -> f64) -> f64 {
    let calls = (ROUND_MICROSECONDS / round(1)).clamp(1.0, MOST_CALLS);
    round(calls as usize)
}

/// Microseconds for each of so many calls.
fn round(desk: UnderTest, picture: &Picture, request: &[u8], number: u32, calls: usize) -> f64 {
    let mut asked = picture.clone();
    let mut answers = [0; keydesk::ANSWERS];
    let start = Instant::now();
    for _ in 0..calls {
        let Picture { pages, desk: tables } = black_box(&mut asked);
        let returned = (desk.serve)(pages, tables, black_box(&mut answers), black_box(request));
        assert_eq!(black_box(returned).number, number);
    }
    let taken = start.elapsed();
    assert!(asked == *picture, "a call that is measured again and again changes nothing");
    taken.as_secs_f64() * 1e6 / calls as f64
}

/// Microseconds for each of so many commits; the copying is not among them. A desk must answer and
/// end as the model does.
fn round_on_copies(desk: UnderTest, commit: &Commit, calls: usize) -> f64 {
    let mut asked = commit.before.clone();
    let mut answers = [0; keydesk::ANSWERS];
    let mut taken = Duration::ZERO;
    let written = commit.answers.len();
    for _ in 0..calls {
        let Picture { pages, desk: tables } = black_box(&mut asked);
        pages.copy_from_slice(&commit.before.pages);
        tables.copy_from_slice(&commit.before.desk);
        let request = black_box(&commit.request);
        let start = Instant::now();
        let returned = (desk.serve)(pages, tables, black_box(&mut answers), request);
        taken += start.elapsed();
        assert_eq!(returned, Returned { number: 0, bytes: written as u32 });
    }
    assert!(asked == commit.after && answers[..written] == commit.answers, "the model's end");
    taken.as_secs_f64() * 1e6 / calls as f64
}
