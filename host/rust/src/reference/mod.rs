//! A second implementation of document 01, written from its text alone, to compare the library with.
//!
//! Checking, reading and writing stand once; there are two planners, [`brute`] (from the definitions, slow) and [`raptor`] (a scan,
//! built for speed: the benchmarks' baseline).

use crate::words::*;

pub mod brute;
mod check;
mod feed;
pub mod raptor;

pub use check::{check, work_limit};
pub use feed::{read, write};

/// What a planner gets is checked already, tables and question.
pub type Planner = fn(&Timetable, &Question, &mut [u32], &mut [u32]) -> Answer;

/// Asking, by either planner: refusals 6, 5, 7 to 12, then the planner's own.
pub fn ask(plan: Planner, timetable: &Timetable, labels: &mut [u32], legs: &mut [u32], question: &Question) -> Answer {
    let [routes, positions, arrivals, departures, walks] = lengths(timetable);
    let reason = check::sizes(&[routes, positions, arrivals, departures, walks, labels.len(), legs.len()])
        .and_then(|()| check::tables(timetable).map(|_| ()))
        .and_then(|()| asked_well(timetable, question));
    match reason {
        Err(refused) => Answer::Refused(refused),
        Ok(()) => plan(timetable, question, &mut labels[..FULL[5]], &mut legs[..FULL[6]]),
    }
}

fn asked_well(timetable: &Timetable, question: &Question) -> Result<(), Refused> {
    let well = question.start < timetable.stops && question.target < timetable.stops && question.time <= LAST_SECOND && question.limit <= 8;
    if well { Ok(()) } else { refuse(Refusal::Question, 0) }
}

fn refuse<T>(refusal: Refusal, place: usize) -> Result<T, Refused> {
    Err(Refused { refusal, place: place as u32 })
}

fn lengths(timetable: &Timetable) -> [usize; 5] {
    [timetable.routes, timetable.positions, timetable.arrivals, timetable.departures, timetable.walks].map(<[u32]>::len)
}

/// One route's part of tables whose counts are right.
#[derive(Clone, Copy)]
struct Route<'a> {
    n: usize,
    m: usize,
    first_event: usize,
    stops: &'a [u32],
    arrivals: &'a [u32],
    departures: &'a [u32],
}

fn routes<'a>(timetable: &Timetable<'a>) -> impl ExactSizeIterator<Item = Route<'a>> + use<'a> {
    let Timetable { route_count, routes, positions, arrivals, departures, .. } = *timetable;
    routes[..4 * route_count as usize].as_chunks().0.iter().map(move |route| {
        let [n, m, first_position, first_event] = route.map(|number| number as usize);
        Route {
            n,
            m,
            first_event,
            stops: &positions[first_position..][..n],
            arrivals: &arrivals[first_event..][..n * m],
            departures: &departures[first_event..][..n * m],
        }
    })
}

struct Walk {
    from: u32,
    to: u32,
    seconds: u32,
}

fn walks<'a>(timetable: &Timetable<'a>) -> impl ExactSizeIterator<Item = Walk> + use<'a> {
    let used = &timetable.walks[..3 * timetable.walk_count as usize];
    used.as_chunks().0.iter().map(|&[from, to, seconds]| Walk { from, to, seconds })
}

/// The answer for the target from finished labels: an entry at each row that is earlier than every row before it.
fn entries(labels: &[u32], question: &Question) -> Entries {
    let mut entries = Entries::default();
    let mut earliest = MARK;
    for rides in 0..=question.limit {
        let arrival = labels[ROW * rides as usize + question.target as usize];
        if arrival < earliest {
            entries.push(Entry { rides, arrival });
            earliest = arrival;
        }
    }
    entries
}
