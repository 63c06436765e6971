//! A planner straight from 01's definitions: it enumerates rides and takes the least of what it finds. It has no scan.

use super::{Walk, entries, routes, walks};
use crate::words::*;

/// A trip boarded at one position and left at a later one.
struct Ride {
    route: usize,
    trip: usize,
    boarding: usize,
    leaving: usize,
    from: usize,
    to: usize,
    departure: u32,
    arrival: u32,
}

fn rides(timetable: &Timetable) -> Vec<Ride> {
    let mut rides = Vec::new();
    for (number, route) in routes(timetable).enumerate() {
        for trip in 0..route.m {
            for leaving in 1..route.n {
                for boarding in 0..leaving {
                    rides.push(Ride {
                        route: number,
                        trip,
                        boarding,
                        leaving,
                        from: route.stops[boarding] as usize,
                        to: route.stops[leaving] as usize,
                        departure: route.departures[trip * route.n + boarding],
                        arrival: route.arrivals[trip * route.n + leaving],
                    });
                }
            }
        }
    }
    rides
}

pub fn plan(timetable: &Timetable, question: &Question, labels: &mut [u32], legs: &mut [u32]) -> Answer {
    labels.fill(MARK);
    legs.fill(MARK);
    let rides = rides(timetable);
    let walks: Vec<Walk> = walks(timetable).collect();
    let rows = rows(&rides, &walks, question);

    let mut work = 0;
    for round in 1..rows.len() {
        work += work_of_round(timetable, &rows[round - 1]);
        if work > question.budget {
            return Answer::Refused(Refused { refusal: Refusal::Budget, place: round as u32 });
        }
        if rows[round] == rows[round - 1] {
            break;
        }
    }

    for (row, label) in rows.iter().zip(labels.chunks_exact_mut(ROW)) {
        label.copy_from_slice(row);
    }
    let entries = entries(labels, question);
    if entries.is_empty() {
        return Answer::Refused(Refused { refusal: Refusal::NoWay, place: work });
    }
    for entry in entries.iter().filter(|entry| entry.rides > 0) {
        let mut stop = question.target as usize;
        let row = entry.rides as usize - 1;
        for round in (1..=entry.rides as usize).rev() {
            let (ride, after) = last_step(&rides, &walks, &rows[round - 1], rows[round][stop], stop);
            let leg = [ride.route, ride.trip, ride.boarding, ride.leaving].map(|number| number as u32);
            let place = LEGS_ROW * row + LEG * (round - 1);
            legs[place..place + 4].copy_from_slice(&leg);
            legs[place + 4] = after;
            stop = ride.from;
        }
        assert_eq!(stop, question.start as usize, "legs lead back to the start");
    }
    Answer::Answered { entries, work }
}

/// Rows 0 to the ride limit. A journey of exactly k rides ends with a ride that some journey of exactly k - 1 rides can board.
fn rows(rides: &[Ride], walks: &[Walk], question: &Question) -> Vec<[u32; ROW]> {
    let mut exactly = [MARK; ROW];
    exactly[question.start as usize] = question.time;
    let mut rows = vec![exactly];
    for _ in 0..question.limit {
        let mut next = [MARK; ROW];
        for ride in rides.iter().filter(|ride| permits(&exactly, ride)) {
            next[ride.to] = next[ride.to].min(ride.arrival);
            for walk in walks.iter().filter(|walk| walk.from as usize == ride.to) {
                let to = &mut next[walk.to as usize];
                *to = (*to).min(ride.arrival + walk.seconds);
            }
        }
        exactly = next;
        let before = rows[rows.len() - 1];
        rows.push(std::array::from_fn(|stop| before[stop].min(exactly[stop])));
    }
    rows
}

fn permits(row: &[u32; ROW], ride: &Ride) -> bool {
    row[ride.from] != MARK && ride.departure >= row[ride.from]
}

/// The tie rule: the first step to `stop` at `time` that boards where the row before permits it; and the stop walked to, or the mark.
fn last_step<'a>(rides: &'a [Ride], walks: &[Walk], before: &[u32; ROW], time: u32, stop: usize) -> (&'a Ride, u32) {
    let order = |ride: &Ride| (ride.route, ride.trip, ride.leaving, ride.boarding);
    let permitted = || rides.iter().filter(|ride| permits(before, ride));
    let unwalked = permitted().filter(|ride| ride.to == stop && ride.arrival == time).min_by_key(|ride| order(ride));
    let walked = || {
        let steps = permitted().flat_map(|ride| walks.iter().map(move |walk| (ride, walk)));
        steps
            .filter(|(ride, walk)| walk.from as usize == ride.to && walk.to as usize == stop && ride.arrival + walk.seconds == time)
            .min_by_key(|(ride, walk)| (walk.from, order(ride)))
    };
    match unwalked {
        Some(ride) => (ride, MARK),
        None => (walked().expect("a label that a round improved has a last step").0, stop as u32),
    }
}

/// 01's e(i), c(i) and costs, as they are written.
fn work_of_round(timetable: &Timetable, before: &[u32; ROW]) -> u32 {
    let mut work = timetable.walk_count as usize;
    for route in routes(timetable) {
        let label = |i: usize| before[route.stops[i] as usize];
        let e = |i: usize| match label(i) {
            MARK => route.m,
            arrival => (0..route.m).find(|trip| route.departures[trip * route.n + i] >= arrival).unwrap_or(route.m),
        };
        let mut c_before = route.m;
        for i in 0..route.n - 1 {
            let c = (0..=i).map(e).min().unwrap();
            if label(i) != MARK {
                work += c_before - c + usize::from(c > 0);
            }
            c_before = c;
        }
    }
    work as u32
}
