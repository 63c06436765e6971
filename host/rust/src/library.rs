//! The archive's four C functions, as safe ones. `include/pospolarku.h` says what each leaves in each table.

use crate::words::*;

/// The C functions themselves, with slices for pointers and lengths. Any slices will do: the library refuses those too short.
pub mod packed {
    use super::raw;
    use crate::words::*;

    /// The head counts and tables 1 to 5 of a timetable, then further arguments, to a C function.
    macro_rules! call {
        ($function:ident, $timetable:expr $(, $more:expr)*) => {{
            let Timetable { stops, route_count, walk_count, routes, positions, arrivals, departures, walks } = *$timetable;
            // SAFETY: every pointer comes with the length of a live slice; those passed as mutable come from `&mut`.
            unsafe {
                raw::$function(
                    stops, route_count, walk_count, routes.as_ptr(), routes.len(), positions.as_ptr(), positions.len(),
                    arrivals.as_ptr(), arrivals.len(), departures.as_ptr(), departures.len(), walks.as_ptr(), walks.len()
                    $(, $more)*
                )
            }
        }};
    }

    pub fn check(timetable: &Timetable) -> u64 {
        call!(pospolarku_check, timetable)
    }

    pub fn read(feed: &[u8], tables: &mut Tables) -> u64 {
        let Tables { routes, positions, arrivals, departures, walks } = tables;
        // SAFETY: as above.
        unsafe {
            raw::pospolarku_read(
                feed.as_ptr(),
                feed.len(),
                routes.as_mut_ptr(),
                routes.len(),
                positions.as_mut_ptr(),
                positions.len(),
                arrivals.as_mut_ptr(),
                arrivals.len(),
                departures.as_mut_ptr(),
                departures.len(),
                walks.as_mut_ptr(),
                walks.len(),
            )
        }
    }

    pub fn write(timetable: &Timetable, out: &mut [u8]) -> u64 {
        call!(pospolarku_write, timetable, out.as_mut_ptr(), out.len())
    }

    pub fn ask(timetable: &Timetable, labels: &mut [u32], legs: &mut [u32], question: &Question, entries: &mut [u32]) -> u64 {
        let Question { start, target, time, limit, budget } = *question;
        call!(
            pospolarku_ask,
            timetable,
            labels.as_mut_ptr(),
            labels.len(),
            legs.as_mut_ptr(),
            legs.len(),
            start,
            target,
            time,
            limit,
            budget,
            entries.as_mut_ptr(),
            entries.len()
        )
    }
}

#[rustfmt::skip] // a table is a pointer and its length: they stay side by side
mod raw {
    // Nothing checks these against the archive: include/pospolarku.h and crates/cabinet must say the same.
    unsafe extern "C" {
        pub fn pospolarku_check(
            stops: u32, route_count: u32, walk_count: u32, routes: *const u32, routes_len: usize, positions: *const u32,
            positions_len: usize, arrivals: *const u32, arrivals_len: usize, departures: *const u32, departures_len: usize,
            walks: *const u32, walks_len: usize,
        ) -> u64;
        pub fn pospolarku_read(
            feed: *const u8, feed_len: usize, routes: *mut u32, routes_len: usize, positions: *mut u32, positions_len: usize,
            arrivals: *mut u32, arrivals_len: usize, departures: *mut u32, departures_len: usize, walks: *mut u32, walks_len: usize,
        ) -> u64;
        pub fn pospolarku_write(
            stops: u32, route_count: u32, walk_count: u32, routes: *const u32, routes_len: usize, positions: *const u32,
            positions_len: usize, arrivals: *const u32, arrivals_len: usize, departures: *const u32, departures_len: usize,
            walks: *const u32, walks_len: usize, out: *mut u8, out_len: usize,
        ) -> u64;
        pub fn pospolarku_ask(
            stops: u32, route_count: u32, walk_count: u32, routes: *const u32, routes_len: usize, positions: *const u32,
            positions_len: usize, arrivals: *const u32, arrivals_len: usize, departures: *const u32, departures_len: usize,
            walks: *const u32, walks_len: usize, labels: *mut u32, labels_len: usize, legs: *mut u32, legs_len: usize,
            start: u32, target: u32, time: u32, limit: u32, budget: u32, entries: *mut u32, entries_len: usize,
        ) -> u64;
    }
}

/// Checks tables by 01's rules.
pub fn check(timetable: &Timetable) -> Checked {
    Checked::unpack(packed::check(timetable))
}

/// Reads a feed into tables 1 to 5.
pub fn read(feed: &[u8], tables: &mut Tables) -> Reading {
    Reading::unpack(packed::read(feed, tables))
}

/// Checks tables and writes their feed to the front of `out`.
pub fn write(timetable: &Timetable, out: &mut [u8]) -> Writing {
    Writing::unpack(packed::write(timetable, out))
}

/// Checks tables and answers a question over them; fills the labels and the legs.
pub fn ask(timetable: &Timetable, labels: &mut [u32], legs: &mut [u32], question: &Question) -> Answer {
    let mut entries = [0; ENTRIES];
    let packed = packed::ask(timetable, labels, legs, question, &mut entries);
    Answer::unpack(packed, &entries)
}
