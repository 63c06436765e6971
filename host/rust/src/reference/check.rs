//! Checking: refusals 5 to 11, in 01's order.

use super::{lengths, refuse, routes, walks};
use crate::words::*;

pub fn check(timetable: &Timetable) -> Checked {
    sizes(&lengths(timetable)).and_then(|()| tables(timetable)).map_or_else(Checked::Refused, Checked::Done)
}

/// Refusal 6: the lengths of tables 1, 2 and so on.
pub fn sizes(lengths: &[usize]) -> Result<(), Refused> {
    match lengths.iter().zip(FULL).position(|(&length, full)| length < full) {
        Some(table) => refuse(Refusal::Table, table + 1),
        None => Ok(()),
    }
}

/// Refusals 5 and 7 to 11, of tables that are long enough; else the work limit.
pub fn tables(timetable: &Timetable) -> Result<u32, Refused> {
    let Timetable { stops, route_count, walk_count, .. } = *timetable;
    if !(1..=256).contains(&stops) || route_count > 64 || walk_count > 512 {
        return refuse(Refusal::Count, 64);
    }
    let mut totals = Totals::default();
    let used = timetable.routes[..4 * route_count as usize].as_chunks().0;
    for (route, &[n, m, first_position, first_event]) in used.iter().enumerate() {
        let starts_right = first_position as usize == totals.positions && first_event as usize == totals.events;
        if !starts_right || !totals.add(n as usize, m as usize) {
            return refuse(Refusal::Count, route);
        }
    }
    rules(timetable, &totals)?;
    Ok(work_limit(timetable, &totals))
}

/// Totals of the routes so far.
#[derive(Default)]
pub struct Totals {
    pub positions: usize,
    pub trips: usize,
    pub events: usize,
}

impl Totals {
    /// Adds a route of n positions and m trips; says whether it and the totals are allowed.
    #[must_use]
    pub fn add(&mut self, n: usize, m: usize) -> bool {
        if !(2..=64).contains(&n) || !(1..=512).contains(&m) {
            return false;
        }
        self.positions += n;
        self.trips += m;
        self.events += n * m;
        self.trips <= 512 && self.events <= 2_048
    }
}

pub fn work_limit(timetable: &Timetable, totals: &Totals) -> u32 {
    8 * (totals.positions as u32 - timetable.route_count + totals.trips as u32 + timetable.walk_count)
}

/// Refusals 7 to 11, of tables whose counts are right.
pub fn rules(timetable: &Timetable, totals: &Totals) -> Result<(), Refused> {
    if let Some(position) = timetable.positions[..totals.positions].iter().position(|&stop| stop >= timetable.stops) {
        return refuse(Refusal::Stop, position);
    }
    if let Some(event) = broken_event(timetable) {
        return refuse(Refusal::Time, event);
    }
    if let Some(event) = overtaking_event(timetable) {
        return refuse(Refusal::Overtake, event);
    }
    if let Some(walk) = bad_walk(timetable) {
        return refuse(Refusal::Walk, walk);
    }
    if let Some(walk) = open_walk(timetable) {
        return refuse(Refusal::Open, walk);
    }
    Ok(())
}

fn broken_event(timetable: &Timetable) -> Option<usize> {
    for route in routes(timetable) {
        let trips = route.arrivals.chunks_exact(route.n).zip(route.departures.chunks_exact(route.n));
        for (trip, (arrivals, departures)) in trips.enumerate() {
            // `next` is one shorter: the last position is looked at by itself.
            let next = &arrivals[1..];
            let broken = (0..next.len())
                .find(|&i| {
                    arrivals[i] > departures[i]
                        || departures[i] > next[i]
                        || departures[i] > LAST_SECOND
                        || i == 0 && arrivals[0] != departures[0]
                })
                .or_else(|| {
                    let last = next.len();
                    (arrivals[last] != departures[last] || departures[last] > LAST_SECOND).then_some(last)
                });
            if let Some(i) = broken {
                return Some(route.first_event + trip * route.n + i);
            }
        }
    }
    None
}

fn overtaking_event(timetable: &Timetable) -> Option<usize> {
    for route in routes(timetable) {
        let before = route.arrivals.iter().zip(route.departures);
        let later = route.arrivals[route.n..].iter().zip(&route.departures[route.n..]);
        let overtaking = before.zip(later).position(|(before, later)| later.0 < before.0 || later.1 < before.1);
        if let Some(event) = overtaking {
            return Some(route.first_event + route.n + event);
        }
    }
    None
}

fn bad_walk(timetable: &Timetable) -> Option<usize> {
    let mut before = None;
    walks(timetable).position(|walk| {
        let stops = timetable.stops;
        let pair = (walk.from, walk.to);
        let rises = before.is_none_or(|before| before < pair);
        before = Some(pair);
        walk.from >= stops || walk.to >= stops || walk.from == walk.to || !(1..=3_600).contains(&walk.seconds) || !rises
    })
}

/// The first walk a to b such that some walk b to c has no walk a to c of at most both together.
fn open_walk(timetable: &Timetable) -> Option<usize> {
    let used = &timetable.walks[..3 * timetable.walk_count as usize];
    let used: &[[u32; 3]] = used.as_chunks().0;
    // Walks from stop s are those from first[s] up to first[s + 1]: they rise by (from, to).
    let mut first = [0; ROW + 1];
    for walk in used {
        first[walk[0] as usize + 1] += 1;
    }
    for stop in 0..ROW {
        first[stop + 1] += first[stop];
    }
    let from = |stop: usize| &used[first[stop]..first[stop + 1]];
    for a in 0..timetable.stops as usize {
        if from(a).is_empty() {
            continue;
        }
        // The seconds that a to c may be compared with; a to a needs no walk.
        let mut seconds = [u32::MAX; ROW];
        seconds[a] = 0;
        for &[_, c, walked] in from(a) {
            seconds[c as usize] = walked;
        }
        for (index, &[_, b, walked]) in from(a).iter().enumerate() {
            // Without leaving early, which is faster: nearly all walks are closed.
            let open = from(b as usize).iter().fold(false, |open, &[_, c, further]| open | (seconds[c as u8 as usize] > walked + further));
            if open {
                return Some(first[a] + index);
            }
        }
    }
    None
}
