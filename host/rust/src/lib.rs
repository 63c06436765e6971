//! Pospolarku: reading, checking, writing and asking tram timetable feeds, by the proved library `libcabinet.a`.
//!
//! [`check`], [`read`], [`write`] and [`ask`] wrap the archive's four C functions: slices in, enums out. All words are document 01's.
//! [`reference`] is a second implementation, [`networks`] makes inputs; the programs `differential` and `bench` compare the two.

mod library;
pub mod networks;
pub mod reference;
#[cfg(feature = "stand-in")]
pub mod stand_in;
mod words;

pub use library::{ask, check, packed, read, write};
pub use words::*;
