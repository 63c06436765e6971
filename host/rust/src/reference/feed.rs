//! Reading and writing feeds.

use super::check::{self, Totals};
use super::{lengths, refuse, routes, walks};
use crate::words::*;

const HEAD: [u8; 2] = [0x54, 0x48];
const ROUTE: [u8; 2] = [0x52, 0x54];
const TRIP: [u8; 2] = [0x54, 0x50];
const WALK: [u8; 2] = [0x57, 0x4B];
const END: [u8; 2] = [0x45, 0x44];

/// Fletcher's sum. The remainders are taken once a block: so many bytes cannot pass 32 bits.
fn fletcher(bytes: &[u8]) -> [u8; 2] {
    let (mut first, mut second) = (0_u32, 0_u32);
    for block in bytes.chunks(4_096) {
        for &byte in block {
            first += u32::from(byte);
            second += first;
        }
        first %= 255;
        second %= 255;
    }
    [first as u8, second as u8]
}

fn number(bytes: &[u8]) -> u32 {
    bytes.iter().fold(0, |number, &byte| number << 8 | u32::from(byte))
}

pub fn read(feed: &[u8], tables: &mut Tables) -> Reading {
    match accepted(feed, tables) {
        Ok(head) => Reading::Done(head),
        Err(refused) => {
            if !matches!(refused.refusal, Refusal::Table | Refusal::Length | Refusal::Sum) {
                clear(tables);
            }
            Reading::Refused(refused)
        }
    }
}

fn clear(tables: &mut Tables) {
    let Tables { routes, positions, arrivals, departures, walks } = tables;
    for (table, full) in [routes, positions, arrivals, departures, walks].into_iter().zip(FULL) {
        table[..full].fill(0);
    }
}

fn accepted(feed: &[u8], tables: &mut Tables) -> Result<HeadCounts, Refused> {
    check::sizes(&lengths(&lent(tables, HeadCounts { stops: 0, routes: 0, walks: 0 })))?;
    let length = feed.len();
    if !(13..=LONGEST_FEED).contains(&length) || number(&feed[7..9]) as usize != length {
        return refuse(Refusal::Length, 0);
    }
    let (before, sum) = feed.split_at(length - 2);
    if fletcher(before) != sum {
        return refuse(Refusal::Sum, length - 2);
    }
    clear(tables);
    let (head, totals) = records(feed, tables)?;
    check::rules(&lent(tables, head), &totals)?;
    Ok(head)
}

fn lent<'a>(tables: &'a Tables, head: HeadCounts) -> Timetable<'a> {
    let Tables { routes, positions, arrivals, departures, walks } = tables;
    let HeadCounts { stops, routes: route_count, walks: walk_count } = head;
    Timetable { stops, route_count, walk_count, routes, positions, arrivals, departures, walks }
}

/// The bytes up to length - 4, which no record but the end passes.
struct Records<'a> {
    bytes: &'a [u8],
    offset: usize,
    /// Where the present record begins.
    record: usize,
}

impl<'a> Records<'a> {
    fn begin(&mut self, mark: [u8; 2]) -> Result<(), Refused> {
        self.record = self.offset;
        if self.take(2)? == mark { Ok(()) } else { self.refuse(Refusal::Form) }
    }

    fn take(&mut self, count: usize) -> Result<&'a [u8], Refused> {
        match self.bytes.get(self.offset..self.offset + count) {
            Some(taken) => {
                self.offset += count;
                Ok(taken)
            }
            None => self.refuse(Refusal::Form),
        }
    }

    fn refuse<T>(&self, refusal: Refusal) -> Result<T, Refused> {
        refuse(refusal, self.record)
    }
}

fn records(feed: &[u8], tables: &mut Tables) -> Result<(HeadCounts, Totals), Refused> {
    let (bytes, end) = feed.split_at(feed.len() - 4);
    let mut records = Records { bytes, offset: 0, record: 0 };

    records.begin(HEAD)?;
    let head = records.take(7)?;
    if head[0] != 1 {
        return refuse(Refusal::Edition, 2);
    }
    let head = HeadCounts { stops: number(&head[1..2]) + 1, routes: number(&head[2..3]), walks: number(&head[3..5]) };
    if head.routes > 64 || head.walks > 512 {
        return records.refuse(Refusal::Count);
    }

    let mut totals = Totals::default();
    for route in tables.routes.as_chunks_mut().0.iter_mut().take(head.routes as usize) {
        records.begin(ROUTE)?;
        let fixed = records.take(3)?;
        let (n, m) = (number(&fixed[..1]) as usize, number(&fixed[1..]) as usize);
        let (first_position, mut event) = (totals.positions, totals.events);
        if !totals.add(n, m) {
            return records.refuse(Refusal::Count);
        }
        *route = [n as u32, m as u32, first_position as u32, event as u32];
        for (stop, &byte) in tables.positions[first_position..].iter_mut().zip(records.take(n)?) {
            *stop = byte.into();
        }
        for _ in 0..m {
            records.begin(TRIP)?;
            let times = records.take(6 * n)?.as_chunks::<6>().0;
            let events = tables.arrivals[event..][..n].iter_mut().zip(&mut tables.departures[event..][..n]);
            for ((arrival, departure), time) in events.zip(times) {
                *arrival = number(&time[..3]);
                *departure = number(&time[3..]);
            }
            event += n;
        }
    }
    for walk in tables.walks.as_chunks_mut().0.iter_mut().take(head.walks as usize) {
        records.begin(WALK)?;
        let fixed = records.take(4)?;
        *walk = [number(&fixed[..1]), number(&fixed[1..2]), number(&fixed[2..])];
    }
    // The end record stands at length - 4, and is due where the last record ended.
    if records.offset != bytes.len() || !end.starts_with(&END) {
        return refuse(Refusal::Form, records.offset);
    }
    Ok((head, totals))
}

pub fn write(timetable: &Timetable, out: &mut [u8]) -> Writing {
    let refusal = check::sizes(&lengths(timetable)).and_then(|()| check::tables(timetable)).err();
    if let Some(refused) = refusal {
        return Writing::Refused(refused);
    }
    let of_routes: usize = routes(timetable).map(|route| 5 + route.n + route.m * (2 + 6 * route.n)).sum();
    let length = 9 + of_routes + 6 * timetable.walk_count as usize + 4;
    if out.len() < length {
        return Writing::Refused(Refused { refusal: Refusal::Out, place: length as u32 });
    }

    let mut sink = Sink { bytes: &mut out[..length], offset: 0 };
    sink.put(HEAD);
    sink.put([1, (timetable.stops - 1) as u8, timetable.route_count as u8]);
    sink.put((timetable.walk_count as u16).to_be_bytes());
    sink.put((length as u16).to_be_bytes());
    for route in routes(timetable) {
        sink.put(ROUTE);
        sink.put([route.n as u8]);
        sink.put((route.m as u16).to_be_bytes());
        for &stop in route.stops {
            sink.put([stop as u8]);
        }
        for (arrivals, departures) in route.arrivals.chunks_exact(route.n).zip(route.departures.chunks_exact(route.n)) {
            sink.put(TRIP);
            for (arrival, departure) in arrivals.iter().zip(departures) {
                let ([_, a, b, c], [_, d, e, f]) = (arrival.to_be_bytes(), departure.to_be_bytes());
                sink.put([a, b, c, d, e, f]);
            }
        }
    }
    for walk in walks(timetable) {
        sink.put(WALK);
        sink.put([walk.from as u8, walk.to as u8]);
        sink.put((walk.seconds as u16).to_be_bytes());
    }
    sink.put(END);
    let sum = fletcher(&sink.bytes[..length - 2]);
    sink.put(sum);
    Writing::Done(length as u32)
}

struct Sink<'a> {
    bytes: &'a mut [u8],
    offset: usize,
}

impl Sink<'_> {
    fn put<const N: usize>(&mut self, bytes: [u8; N]) {
        self.bytes[self.offset..][..N].copy_from_slice(&bytes);
        self.offset += N;
    }
}
