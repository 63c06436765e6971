//! The reference behind the archive's four C functions, so that this crate, and C, can be tried without the archive.

use crate::reference::{self, raptor};
use crate::words::*;
use std::slice::{from_raw_parts, from_raw_parts_mut};

/// C may pass any pointer, null too, with a length of 0.
unsafe fn lent<'a, T>(pointer: *const T, len: usize) -> &'a [T] {
    if len == 0 { &[] } else { unsafe { from_raw_parts(pointer, len) } }
}

unsafe fn lent_mut<'a, T>(pointer: *mut T, len: usize) -> &'a mut [T] {
    if len == 0 { &mut [] } else { unsafe { from_raw_parts_mut(pointer, len) } }
}

/// A C function over a timetable: its head counts and tables 1 to 5, then further parameters.
macro_rules! over_timetable {
    ($function:ident ($timetable:ident $(, $more:ident: $type:ty)*) $body:block) => {
        /// # Safety
        /// As `include/pospolarku.h` says: each pointer leads to as many elements as the length after it.
        #[unsafe(no_mangle)]
        pub unsafe extern "C" fn $function(
            stops: u32, route_count: u32, walk_count: u32, routes: *const u32, routes_len: usize, positions: *const u32,
            positions_len: usize, arrivals: *const u32, arrivals_len: usize, departures: *const u32, departures_len: usize,
            walks: *const u32, walks_len: usize $(, $more: $type)*
        ) -> u64 {
            let $timetable = unsafe {
                &Timetable {
                    stops, route_count, walk_count, routes: lent(routes, routes_len), positions: lent(positions, positions_len),
                    arrivals: lent(arrivals, arrivals_len), departures: lent(departures, departures_len), walks: lent(walks, walks_len),
                }
            };
            $body
        }
    };
}

over_timetable!(pospolarku_check(timetable) { reference::check(timetable).pack() });

over_timetable!(pospolarku_write(timetable, out: *mut u8, out_len: usize) {
    reference::write(timetable, unsafe { lent_mut(out, out_len) }).pack()
});

over_timetable!(pospolarku_ask(
    timetable, labels: *mut u32, labels_len: usize, legs: *mut u32, legs_len: usize, start: u32, target: u32, time: u32, limit: u32,
    budget: u32, entries: *mut u32, entries_len: usize
) {
    let (labels, legs, entries) = unsafe { (lent_mut(labels, labels_len), lent_mut(legs, legs_len), lent_mut(entries, entries_len)) };
    let question = Question { start, target, time, limit, budget };
    let (packed, elements) = reference::ask(raptor::plan, timetable, labels, legs, &question).pack();
    if let Some(entries) = entries.get_mut(..ENTRIES) {
        entries.copy_from_slice(&elements);
    }
    packed
});

/// # Safety
/// As `include/pospolarku.h` says: each pointer leads to as many elements as the length after it, and no two tables overlap.
#[unsafe(no_mangle)]
pub unsafe extern "C" fn pospolarku_read(
    feed: *const u8,
    feed_len: usize,
    routes: *mut u32,
    routes_len: usize,
    positions: *mut u32,
    positions_len: usize,
    arrivals: *mut u32,
    arrivals_len: usize,
    departures: *mut u32,
    departures_len: usize,
    walks: *mut u32,
    walks_len: usize,
) -> u64 {
    let (feed, mut tables) = unsafe {
        (
            lent(feed, feed_len),
            Tables {
                routes: lent_mut(routes, routes_len),
                positions: lent_mut(positions, positions_len),
                arrivals: lent_mut(arrivals, arrivals_len),
                departures: lent_mut(departures, departures_len),
                walks: lent_mut(walks, walks_len),
            },
        )
    };
    reference::read(feed, &mut tables).pack()
}
