//! Random timetables, right and spoiled, for the differential test and the benchmarks.

use crate::words::*;

/// SplitMix64: small, and the same everywhere for one seed.
pub struct Random(u64);

impl Random {
    pub fn new(seed: u64) -> Self {
        Random(seed)
    }

    /// The numbers of one case of a run, so that a case can be made again without those before it.
    pub fn of_case(seed: u64, case: u64) -> Self {
        let mut random = Random(seed);
        Random(random.number() ^ case.wrapping_mul(0xD134_2543_DE82_EF95))
    }

    pub fn number(&mut self) -> u64 {
        self.0 = self.0.wrapping_add(0x9E37_79B9_7F4A_7C15);
        let mut z = self.0;
        z = (z ^ z >> 30).wrapping_mul(0xBF58_476D_1CE4_E5B9);
        z = (z ^ z >> 27).wrapping_mul(0x94D0_49BB_1331_11EB);
        z ^ z >> 31
    }

    /// 0 to less than `bound`.
    pub fn below(&mut self, bound: usize) -> usize {
        (self.number() % bound as u64) as usize
    }

    pub fn between(&mut self, least: u32, most: u32) -> u32 {
        least + self.below((most - least) as usize + 1) as u32
    }

    pub fn one_in(&mut self, chances: usize) -> bool {
        self.below(chances) == 0
    }

    pub fn pick<T: Copy>(&mut self, from: &[T]) -> T {
        from[self.below(from.len())]
    }

    /// A number at which some rule changes its mind, or beside `old`, or any.
    pub fn extreme(&mut self, old: u32) -> u32 {
        const EDGES: [u32; 22] = [
            0,
            1,
            2,
            8,
            9,
            63,
            64,
            65,
            255,
            256,
            511,
            512,
            513,
            2_047,
            2_048,
            3_600,
            3_601,
            LAST_SECOND,
            LAST_SECOND + 1,
            1 << 31,
            MARK - 1,
            MARK,
        ];
        match self.below(8) {
            0 | 1 => old.wrapping_add(1),
            2 | 3 => old.wrapping_sub(1),
            4 => self.number() as u32,
            _ => self.pick(&EDGES),
        }
    }
}

/// Arrival and departure.
pub type Event = [u32; 2];
/// From, to, seconds.
pub type Walk = [u32; 3];

#[derive(Clone, Debug)]
pub struct Route {
    pub stops: Vec<u32>,
    pub trips: Vec<Vec<Event>>,
}

#[derive(Clone, Debug)]
pub struct Network {
    pub stops: u32,
    pub routes: Vec<Route>,
    pub walks: Vec<Walk>,
}

impl Network {
    /// Tables 1 to 5 at their full size, or longer if it needs more; zero in the rest.
    pub fn tables(&self) -> [Vec<u32>; 5] {
        let [mut routes, mut positions, mut arrivals, mut departures] = [const { Vec::new() }; 4];
        for route in &self.routes {
            let numbers = [route.stops.len(), route.trips.len(), positions.len(), arrivals.len()];
            routes.extend(numbers.map(|number| number as u32));
            positions.extend(&route.stops);
            arrivals.extend(route.trips.iter().flatten().map(|event| event[0]));
            departures.extend(route.trips.iter().flatten().map(|event| event[1]));
        }
        let mut tables = [routes, positions, arrivals, departures, self.walks.concat()];
        for (table, full) in tables.iter_mut().zip(FULL) {
            table.resize(table.len().max(full), 0);
        }
        tables
    }

    /// Its feed, however wrong the network is; numbers lose what their fields cannot hold.
    pub fn feed(&self) -> Vec<u8> {
        let mut feed = b"TH\x01".to_vec();
        let fields = |feed: &mut Vec<u8>, bytes: usize, number: u32| feed.extend(&number.to_be_bytes()[4 - bytes..]);
        fields(&mut feed, 1, self.stops.wrapping_sub(1));
        fields(&mut feed, 1, self.routes.len() as u32);
        fields(&mut feed, 2, self.walks.len() as u32);
        fields(&mut feed, 2, 0);
        for route in &self.routes {
            feed.extend(b"RT");
            fields(&mut feed, 1, route.stops.len() as u32);
            fields(&mut feed, 2, route.trips.len() as u32);
            route.stops.iter().for_each(|&stop| fields(&mut feed, 1, stop));
            for trip in &route.trips {
                feed.extend(b"TP");
                trip.iter().flatten().for_each(|&time| fields(&mut feed, 3, time));
            }
        }
        for &[from, to, seconds] in &self.walks {
            feed.extend(b"WK");
            fields(&mut feed, 1, from);
            fields(&mut feed, 1, to);
            fields(&mut feed, 2, seconds);
        }
        feed.extend(b"ED\0\0");
        set_length(&mut feed);
        set_sum(&mut feed);
        feed
    }
}

/// Makes the length field right, if the feed has one.
pub fn set_length(feed: &mut [u8]) {
    let length = feed.len() as u16;
    if let Some(field) = feed.get_mut(7..9) {
        field.copy_from_slice(&length.to_be_bytes());
    }
}

/// Makes the last two bytes the sum of those before.
pub fn set_sum(feed: &mut [u8]) {
    if let Some((sum, before)) = feed.split_last_chunk_mut::<2>().map(|(before, sum)| (sum, before)) {
        let (first, second) = before.iter().fold((0, 0), |(first, second), &byte| {
            let first = (first + u32::from(byte)) % 255;
            (first, (second + first) % 255)
        });
        *sum = [first as u8, second as u8];
    }
}

/// 01's bridge network.
pub fn bridge() -> Network {
    let long =
        Route { stops: vec![0, 1, 2], trips: vec![vec![[100, 100], [200, 210], [400, 400]], vec![[300, 300], [400, 410], [600, 600]]] };
    let short = Route { stops: vec![1, 3], trips: vec![vec![[205, 205], [250, 250]], vec![[260, 260], [320, 320]]] };
    Network { stops: 5, routes: vec![long, short], walks: vec![[3, 2, 30]] }
}

/// The most seconds of each kind in a route's times.
#[derive(Clone, Copy)]
pub struct Pace {
    /// The first trip leaves at this or later, by so much at most.
    pub begin: u32,
    pub spread: u32,
    /// Between trips, between positions, at a position.
    pub headway: u32,
    pub ride: u32,
    pub halt: u32,
}

/// Trips that overtake none: each event is pushed on to the trip's before it, and all end at the last second.
fn trips(random: &mut Random, n: usize, m: usize, pace: Pace) -> Vec<Vec<Event>> {
    let mut before = vec![[0, 0]; n];
    let mut begin = pace.begin + random.between(0, pace.spread);
    let mut trips = Vec::new();
    for _ in 0..m {
        let mut time = begin;
        for (i, event) in before.iter_mut().enumerate() {
            let inner = i > 0 && i + 1 < n;
            let arrival = event[0].max(time + if i > 0 { random.between(0, pace.ride) } else { 0 }).min(LAST_SECOND);
            let departure = if inner { event[1].max(arrival + random.between(0, pace.halt)).min(LAST_SECOND) } else { arrival };
            *event = [arrival, departure];
            time = departure;
        }
        trips.push(before.clone());
        begin += random.between(0, pace.headway);
    }
    trips
}

fn route(random: &mut Random, stops: u32, n: usize, m: usize, pace: Pace) -> Route {
    let mut visited: Vec<u32> = (0..n).map(|_| random.between(0, stops - 1)).collect();
    if random.one_in(4) {
        visited[n - 1] = visited[0]; // a circle line
    }
    Route { stops: visited, trips: trips(random, n, m, pace) }
}

/// Closes walks: a walk for every pair that walks join, of the least seconds, at most 3,600.
fn close(stops: u32, walks: &[Walk]) -> Vec<Walk> {
    let stops = stops as usize;
    let mut seconds = vec![vec![MARK; stops]; stops];
    for &[from, to, walked] in walks.iter().filter(|walk| walk[0] != walk[1]) {
        seconds[from as usize][to as usize] = walked;
    }
    for b in 0..stops {
        for a in 0..stops {
            for c in 0..stops {
                if seconds[a][b] != MARK && seconds[b][c] != MARK {
                    seconds[a][c] = seconds[a][c].min(seconds[a][b] + seconds[b][c]).min(3_600);
                }
            }
        }
    }
    let pairs = (0..stops).flat_map(|a| (0..stops).map(move |b| (a, b))).filter(|(a, b)| a != b);
    let walk = |(a, b): (usize, usize)| [a as u32, b as u32, seconds[a][b]];
    pairs.map(walk).filter(|walk| walk[2] != MARK).collect()
}

/// Walks between all of `stops` stops from `first` on: none is longer than two others.
pub fn clique(random: &mut Random, first: u32, stops: u32) -> Vec<Walk> {
    let longest = random.between(2, 3_600);
    let within = first..first + stops;
    let pairs = within.clone().flat_map(|a| within.clone().map(move |b| (a, b))).filter(|(a, b)| a != b);
    pairs.map(|(a, b)| [a, b, random.between(longest.div_ceil(2), longest)]).collect()
}

/// So many walks, each from an even stop to an odd one: no two follow each other.
fn fan(random: &mut Random, count: usize) -> Vec<Walk> {
    let pairs = (0..256).step_by(2).flat_map(|a| (1..32).step_by(2).map(move |b| (a, b)));
    pairs.take(count).map(|(a, b)| [a, b, random.between(1, 3_600)]).collect()
}

/// A few stops, routes, trips and walks, with many ties.
pub fn small(random: &mut Random) -> Network {
    let among = random.pick(&[1, 2, 3, 4, 5, 6, 8, 10, 12]);
    let stops = if random.one_in(16) { 256 } else { among };
    let most = random.pick(&[0, 1, 2, 4, 20, 500]);
    let begin = if random.one_in(10) { LAST_SECOND - 2 * most } else { random.between(0, 20) };
    let routes = (0..random.pick(&[0, 1, 2, 3, 5, 8, 12]))
        .map(|_| {
            let (n, m) = (2 + random.below(5), 1 + random.below(4));
            // Slow lines beside fast ones: then more rides can be sooner.
            let ride = most * random.pick(&[0, 1, 1, 8]);
            let pace =
                Pace { begin, spread: 2 * most, headway: random.pick(&[0, most, 3 * most]), ride, halt: random.pick(&[0, most, 4 * most]) };
            route(random, among, n, m, pace)
        })
        .collect();
    let longest = random.pick(&[1, 3, 30, 3_600]);
    let walks: Vec<Walk> = (0..random.pick(&[0, 1, 3, 6, 12]))
        .map(|_| [random.between(0, among - 1), random.between(0, among - 1), random.between(1, longest)])
        .collect();
    Network { stops, routes, walks: close(among, &walks) }
}

/// Each further ride gets to the last stop sooner, up to nine rides: as many entries as there can be.
pub fn ladder(random: &mut Random) -> Network {
    let rungs = random.between(2, 9);
    let target = rungs + 1;
    let mut network = Network { stops: target + 1 + random.between(0, 1), routes: Vec::new(), walks: Vec::new() };
    let (step, halts) = (random.between(1, 5), random.between(0, 1));
    for rung in 0..rungs {
        let event = |time| [time, time];
        let (up, across) = (event(step * rung + halts * rung), event(step * (rung + 1) + halts * rung));
        let slow = event(1_000 - 90 * rung - random.between(0, 40));
        let mut to_next = vec![vec![up, across]];
        let mut to_target = vec![vec![up, slow]];
        if random.one_in(3) {
            to_next.insert(0, to_next[0].clone()); // an equal trip
            to_target.push(to_target[0].clone());
        }
        network.routes.push(Route { stops: vec![rung, rung + 1], trips: to_next });
        network.routes.push(Route { stops: vec![rung, target], trips: to_target });
    }
    if random.one_in(2) {
        network.walks = close(network.stops, &[[random.between(0, rungs), random.between(0, target), random.between(1, 200)]]);
    }
    network
}

#[derive(Clone, Copy, Debug, PartialEq, Eq)]
pub enum Shape {
    FewLongRoutes,
    ManyShortRoutes,
    ManyTrips,
    ManyWalks,
    /// 2,048 events, 512 trips, 64 routes, 506 walks among 23 stops.
    FullTables,
    LongestFeed,
}

pub const SHAPES: [Shape; 6] =
    [Shape::FewLongRoutes, Shape::ManyShortRoutes, Shape::ManyTrips, Shape::ManyWalks, Shape::FullTables, Shape::LongestFeed];

/// A network of a day, with 2,048 events.
pub fn full(random: &mut Random, shape: Shape) -> Network {
    let (stops, counts) = match shape {
        Shape::FewLongRoutes => (128, vec![(64, 8); 4]),
        Shape::ManyShortRoutes => (64, vec![(4, 8); 64]),
        Shape::ManyTrips => (12, vec![(4, 128); 4]),
        Shape::ManyWalks => (64, vec![(16, 8); 16]),
        Shape::FullTables => (64, vec![(4, 8); 64]),
        Shape::LongestFeed => (256, [vec![(34, 1); 32], vec![(2, 15); 32]].concat()),
    };
    let walks = match shape {
        Shape::ManyWalks | Shape::FullTables => clique(random, 0, 23),
        Shape::LongestFeed => {
            let pairs = (0..3).flat_map(|pair| clique(random, 23 + 2 * pair, 2)).collect::<Vec<_>>();
            [clique(random, 0, 23), pairs].concat()
        }
        _ => (0..stops / 4).flat_map(|pair| clique(random, 4 * pair, 2)).collect(),
    };
    let routes = counts
        .into_iter()
        .map(|(n, m)| {
            let pace = Pace { begin: 14_400, spread: 7_200, headway: 2 * 64_800 / m as u32, ride: 240, halt: 40 };
            route(random, stops, n, m, pace)
        })
        .collect();
    Network { stops, routes, walks }
}

/// Networks at the edge of a count, on this side or the other.
pub fn edge(random: &mut Random) -> Network {
    let more = random.below(2);
    let mut stops = 256;
    let mut walks = Vec::new();
    let counts: Vec<(usize, usize)> = match random.below(9) {
        0 => vec![(random.pick(&[1, 2, 64, 65]), 1), (2, 1)],
        1 => vec![(2, 512 + more)],
        2 => vec![(4, 512), (2, 1)].into_iter().take(1 + more).collect(),
        3 => vec![(2, 300), (2, 212 + more)],
        4 => vec![(4, 256), (4, 255), if more > 0 { (5, 1) } else { (2, 2) }],
        5 => vec![(2, 1); 64 + more],
        6 => {
            walks = fan(random, 512 + more);
            vec![]
        }
        7 => {
            stops = 1;
            vec![]
        }
        _ => vec![(2, 1), (2, 0), (2, 1)],
    };
    let pace = Pace { begin: 0, spread: LAST_SECOND, headway: 300, ride: 300, halt: 30 };
    let routes = counts
        .into_iter()
        .map(|(n, m)| {
            let trips = trips(random, n.max(2), m, pace).into_iter().map(|trip| trip[..n].to_vec()).collect();
            Route { stops: (0..n).map(|_| random.between(0, stops - 1)).collect(), trips }
        })
        .collect();
    Network { stops, routes, walks }
}

/// Breaks one rule, most often: a stop, a time, the order of trips, a walk, or that walks are closed.
pub fn spoil(random: &mut Random, network: &mut Network) {
    let stops = network.stops;
    if random.one_in(2) && !network.walks.is_empty() {
        return spoil_walk(random, network);
    }
    if network.routes.is_empty() {
        return;
    }
    let number = random.below(network.routes.len());
    let route = &mut network.routes[number];
    if route.trips.is_empty() || route.stops.len() < 2 {
        return;
    }
    match random.below(4) {
        0 => {
            let stop = random.below(route.stops.len());
            route.stops[stop] = random.pick(&[stops - 1, stops, stops + 1, 255, 256, MARK]);
        }
        1 => {
            let trip = random.below(route.trips.len());
            let earlier = random.between(1, 50);
            route.trips[trip].iter_mut().flatten().for_each(|time| *time = time.saturating_sub(earlier));
        }
        _ => {
            let trip = random.below(route.trips.len());
            let event = random.below(route.stops.len());
            let time = &mut route.trips[trip][event][random.below(2)];
            *time = random.extreme(*time);
            if random.one_in(2) {
                let both = *time; // so that the first and last of a trip stay equal
                route.trips[trip][event] = [both, both];
            }
        }
    }
}

fn spoil_walk(random: &mut Random, network: &mut Network) {
    let walks = &mut network.walks;
    let walk = random.below(walks.len());
    match random.below(6) {
        0 => drop(walks.remove(walk)),
        1 => walks.insert(walk, walks[walk]),
        2 => {
            let other = random.below(walks.len());
            walks.swap(walk, other);
        }
        3 => walks[walk][random.below(2)] = random.between(0, network.stops),
        4 => walks[walk][2] = random.between(1, 3_601),
        _ => {
            let element = random.below(3);
            walks[walk][element] = random.extreme(walks[walk][element]);
        }
    }
}
