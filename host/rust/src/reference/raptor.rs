//! A planner by rounds of one scan over each route, built for speed: what a good programmer would write without proofs.

use super::{Route, entries, routes, walks};
use crate::words::*;

/// The best ride to a stop in one round: arrival, then route, trip and leaving position in the tie rule's order, so that
/// the least number is the tie rule's ride.
type Rode = u64;
const NO_RIDE: Rode = u64::MAX;

fn rode(arrival: u32, route: usize, trip: usize, leaving: usize) -> Rode {
    u64::from(arrival) << 32 | (route << 15 | trip << 6 | leaving) as u64
}

/// The mark, if there was no ride.
fn arrival(rode: Rode) -> u32 {
    (rode >> 32) as u32
}

fn ride(rode: Rode) -> (usize, usize, usize) {
    let low = rode as u32 as usize;
    (low >> 15, low >> 6 & 511, low & 63)
}

/// A checked stop is below 256: this loses nothing, and spares the test of an index to a row.
fn index(stop: u32) -> usize {
    stop as u8 as usize
}

type Row = [u32; ROW];

pub fn plan(timetable: &Timetable, question: &Question, labels: &mut [u32], legs: &mut [u32]) -> Answer {
    labels.fill(MARK);
    legs.fill(MARK);
    let (rows, _) = labels.as_chunks_mut::<ROW>();
    let mut best = [[NO_RIDE; ROW]; 8];
    let limit = question.limit as usize;
    rows[0][question.start as usize] = question.time;

    let mut work = 0;
    for round in 1..=limit {
        let (before, now) = rows.split_at_mut(round);
        let (before, now) = (&before[round - 1], &mut now[0]);
        work += scan(timetable, before, now, &mut best[round - 1]);
        if work > question.budget {
            labels.fill(MARK);
            return Answer::Refused(Refused { refusal: Refusal::Budget, place: round as u32 });
        }
        if now == before {
            let last = *now;
            rows[round + 1..=limit].fill(last);
            break;
        }
    }

    let entries = entries(labels, question);
    if entries.is_empty() {
        return Answer::Refused(Refused { refusal: Refusal::NoWay, place: work });
    }
    let (rows, _) = labels.as_chunks::<ROW>();
    for entry in entries.iter().filter(|entry| entry.rides > 0) {
        let of_entry = &mut legs[LEGS_ROW * (entry.rides as usize - 1)..][..LEG * entry.rides as usize];
        read_back(timetable, question.target, rows, &best, of_entry);
    }
    Answer::Answered { entries, work }
}

/// One round: its row from the row before it, and the best rides to each stop. Answers the work.
fn scan(timetable: &Timetable, before: &Row, now: &mut Row, best: &mut [Rode; ROW]) -> u32 {
    let mut work = 0;
    for (number, route) in routes(timetable).enumerate() {
        work += scan_route(number, &route, before, best);
    }
    for stop in 0..ROW {
        now[stop] = before[stop].min(arrival(best[stop]));
    }
    for walk in walks(timetable) {
        work += 1;
        // From the ride's own arrival, not from the label. Saturating: the mark stays the mark.
        let walked = arrival(best[index(walk.from)]).saturating_add(walk.seconds);
        let to = &mut now[index(walk.to)];
        *to = walked.min(*to);
    }
    work
}

fn scan_route(number: usize, route: &Route, before: &Row, best: &mut [Rode; ROW]) -> u32 {
    let mut work = 0;
    // The earliest trip that can be on board; m is none.
    let mut trip = route.m;
    for (i, &stop) in route.stops.iter().enumerate() {
        let stop = index(stop);
        if trip < route.m {
            best[stop] = best[stop].min(rode(route.arrivals[trip * route.n + i], number, trip, i));
        }
        let there = before[stop];
        if there == MARK || i + 1 == route.n {
            continue;
        }
        while trip > 0 {
            work += 1;
            if route.departures[(trip - 1) * route.n + i] < there {
                break;
            }
            trip -= 1;
        }
    }
    work
}

/// Fills an entry's legs from its last ride to its first.
fn read_back(timetable: &Timetable, target: u32, rows: &[Row], best: &[[Rode; ROW]; 8], legs: &mut [u32]) {
    let mut stop = target;
    for (round, leg) in legs.as_chunks_mut::<LEG>().0.iter_mut().enumerate().rev() {
        let (before, best) = (&rows[round], &best[round]);
        let time = rows[round + 1][index(stop)];
        let unwalked = best[index(stop)];
        let (step, after) = if arrival(unwalked) == time {
            (unwalked, MARK)
        } else {
            // Walks rise by the stop walked from.
            let walk = walks(timetable)
                .find(|walk| walk.to == stop && arrival(best[index(walk.from)]).saturating_add(walk.seconds) == time)
                .expect("a label that a round improved has a last step");
            (best[index(walk.from)], stop)
        };
        let (number, trip, leaving) = ride(step);
        let route = routes(timetable).nth(number).unwrap();
        let boarding =
            (0..leaving).find(|&i| route.departures[trip * route.n + i] >= before[index(route.stops[i])]).expect("the ride was boarded");
        *leg = [number as u32, trip as u32, boarding as u32, leaving as u32, after];
        stop = route.stops[boarding];
    }
}
