//! Document 01's words as types. The library's wrapper and the reference both speak them; neither has its logic here.

/// "No journey" in the labels, "unused" and "no walk" in the legs.
pub const MARK: u32 = u32::MAX;
/// The last second that a time may be.
pub const LAST_SECOND: u32 = 172_799;
/// The longest feed that follows the rules, in bytes.
pub const LONGEST_FEED: usize = 17_869;
/// Elements of `entries`: the number of entries, then nine pairs of rides and arrival.
pub const ENTRIES: usize = 19;

/// Elements of tables 1 to 7 at their full size.
pub const FULL: [usize; 7] = [256, 2_048, 2_048, 2_048, 1_536, 2_304, 320];
/// Stops in a row of the labels.
pub const ROW: usize = 256;
/// Elements in a row of the legs, and in one leg of it.
pub const LEGS_ROW: usize = 40;
pub const LEG: usize = 5;

/// A timetable in lent tables: three head counts and tables 1 to 5.
#[derive(Clone, Copy, Debug)]
pub struct Timetable<'a> {
    pub stops: u32,
    pub route_count: u32,
    pub walk_count: u32,
    pub routes: &'a [u32],
    pub positions: &'a [u32],
    pub arrivals: &'a [u32],
    pub departures: &'a [u32],
    pub walks: &'a [u32],
}

/// Tables 1 to 5, lent to be read into.
#[derive(Debug)]
pub struct Tables<'a> {
    pub routes: &'a mut [u32],
    pub positions: &'a mut [u32],
    pub arrivals: &'a mut [u32],
    pub departures: &'a mut [u32],
    pub walks: &'a mut [u32],
}

#[derive(Clone, Copy, Debug, PartialEq, Eq)]
pub struct Question {
    pub start: u32,
    pub target: u32,
    pub time: u32,
    /// The ride limit.
    pub limit: u32,
    /// The work budget.
    pub budget: u32,
}

/// 01's refusals; as a number, 01's number.
#[derive(Clone, Copy, Debug, PartialEq, Eq)]
#[repr(u32)]
pub enum Refusal {
    Length = 1,
    Sum,
    Form,
    Edition,
    Count,
    Table,
    Stop,
    Time,
    Overtake,
    Walk,
    Open,
    Question,
    Budget,
    NoWay,
    Out,
}

impl Refusal {
    pub const ALL: [Refusal; 15] = {
        use Refusal::*;
        [Length, Sum, Form, Edition, Count, Table, Stop, Time, Overtake, Walk, Open, Question, Budget, NoWay, Out]
    };

    pub fn number(self) -> u32 {
        self as u32
    }

    pub fn of_number(number: u32) -> Option<Refusal> {
        Self::ALL.into_iter().find(|refusal| refusal.number() == number)
    }
}

#[derive(Clone, Copy, Debug, PartialEq, Eq)]
pub struct Refused {
    pub refusal: Refusal,
    pub place: u32,
}

#[derive(Clone, Copy, Debug, PartialEq, Eq)]
pub enum Checked {
    /// The work limit, 8 x (positions - routes + trips + walks).
    Done(u32),
    Refused(Refused),
}

#[derive(Clone, Copy, Debug, PartialEq, Eq)]
pub enum Reading {
    Done(HeadCounts),
    Refused(Refused),
}

#[derive(Clone, Copy, Debug, PartialEq, Eq)]
pub struct HeadCounts {
    pub stops: u32,
    pub routes: u32,
    pub walks: u32,
}

#[derive(Clone, Copy, Debug, PartialEq, Eq)]
pub enum Writing {
    /// Bytes written.
    Done(u32),
    Refused(Refused),
}

#[derive(Clone, Copy, Debug, PartialEq, Eq)]
pub enum Answer {
    Answered { entries: Entries, work: u32 },
    Refused(Refused),
}

#[derive(Clone, Copy, Debug, Default, PartialEq, Eq)]
pub struct Entry {
    pub rides: u32,
    pub arrival: u32,
}

/// At most nine entries; the unused ones are zero.
#[derive(Clone, Copy, Debug, Default, PartialEq, Eq)]
pub struct Entries {
    count: usize,
    at: [Entry; 9],
}

impl Entries {
    pub fn push(&mut self, entry: Entry) {
        self.at[self.count] = entry;
        self.count += 1;
    }
}

impl std::ops::Deref for Entries {
    type Target = [Entry];

    fn deref(&self) -> &[Entry] {
        &self.at[..self.count]
    }
}

/// What follows a ride.
#[derive(Clone, Copy, Debug, PartialEq, Eq)]
pub enum After {
    Stays,
    WalksTo(u32),
}

#[derive(Clone, Copy, Debug, PartialEq, Eq)]
pub struct Leg {
    pub route: u32,
    pub trip: u32,
    pub boarding: u32,
    pub leaving: u32,
    pub after: After,
}

/// The legs of the entry with so many rides, in travel order, from a legs table that `ask` filled.
pub fn legs_of(legs: &[u32], rides: u32) -> Vec<Leg> {
    let rides = rides as usize;
    let row = if rides == 0 { &[] } else { &legs[LEGS_ROW * (rides - 1)..][..LEG * rides] };
    row.as_chunks()
        .0
        .iter()
        .map(|&[route, trip, boarding, leaving, to]| {
            let after = if to == MARK { After::Stays } else { After::WalksTo(to) };
            Leg { route, trip, boarding, leaving, after }
        })
        .collect()
}

/// Answers cross the boundary packed in 64 bits: the number, or 0, above the place or the count.
fn pack(outcome: Result<u32, Refused>) -> u64 {
    match outcome {
        Ok(count) => count.into(),
        Err(Refused { refusal, place }) => u64::from(refusal.number()) << 32 | u64::from(place),
    }
}

/// Panics if `packed` is no answer: then the archive is not the one that this crate is written for.
fn unpack(packed: u64) -> Result<u32, Refused> {
    let (number, place) = ((packed >> 32) as u32, packed as u32);
    match Refusal::of_number(number) {
        None if number == 0 => Ok(place),
        None => panic!("{number} is no refusal"),
        Some(refusal) => Err(Refused { refusal, place }),
    }
}

impl Checked {
    pub fn pack(self) -> u64 {
        pack(match self {
            Self::Done(limit) => Ok(limit),
            Self::Refused(refused) => Err(refused),
        })
    }

    pub fn unpack(packed: u64) -> Self {
        unpack(packed).map_or_else(Self::Refused, Self::Done)
    }
}

impl Reading {
    pub fn pack(self) -> u64 {
        pack(match self {
            Self::Done(HeadCounts { stops, routes, walks }) => Ok(stops + (routes << 10) + (walks << 17)),
            Self::Refused(refused) => Err(refused),
        })
    }

    pub fn unpack(packed: u64) -> Self {
        let head = |count: u32| HeadCounts { stops: count & 1023, routes: count >> 10 & 127, walks: count >> 17 };
        unpack(packed).map_or_else(Self::Refused, |count| Self::Done(head(count)))
    }
}

impl Writing {
    pub fn pack(self) -> u64 {
        pack(match self {
            Self::Done(bytes) => Ok(bytes),
            Self::Refused(refused) => Err(refused),
        })
    }

    pub fn unpack(packed: u64) -> Self {
        unpack(packed).map_or_else(Self::Refused, Self::Done)
    }
}

impl Answer {
    /// The work, or number and place; and the elements of `entries`.
    pub fn pack(self) -> (u64, [u32; ENTRIES]) {
        let mut elements = [0; ENTRIES];
        let outcome = match self {
            Self::Answered { entries, work } => {
                elements[0] = entries.count as u32;
                for (pair, entry) in elements[1..].chunks_exact_mut(2).zip(entries.at) {
                    pair.copy_from_slice(&[entry.rides, entry.arrival]);
                }
                Ok(work)
            }
            Self::Refused(refused) => Err(refused),
        };
        (pack(outcome), elements)
    }

    pub fn unpack(packed: u64, elements: &[u32; ENTRIES]) -> Self {
        match unpack(packed) {
            Ok(work) => {
                let mut entries = Entries::default();
                for pair in elements[1..].chunks_exact(2).take(elements[0] as usize) {
                    entries.push(Entry { rides: pair[0], arrival: pair[1] });
                }
                Self::Answered { entries, work }
            }
            Err(refused) => Self::Refused(refused),
        }
    }
}
