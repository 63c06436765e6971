//! Document 01's own cases, of the library and of both reference planners.

use pospolarku::networks::{self, Event, Network, Random, Route, Shape, bridge};
use pospolarku::reference::{self, brute, raptor};
use pospolarku::*;

/// A network's tables, at their full size.
struct Laid([Vec<u32>; 5], [u32; 3]);

fn laid(network: &Network) -> Laid {
    Laid(network.tables(), [network.stops, network.routes.len() as u32, network.walks.len() as u32])
}

impl Laid {
    fn timetable(&self) -> Timetable<'_> {
        let Laid([routes, positions, arrivals, departures, walks], [stops, route_count, walk_count]) = self;
        Timetable { stops: *stops, route_count: *route_count, walk_count: *walk_count, routes, positions, arrivals, departures, walks }
    }
}

type Ask<'a> = dyn Fn(&Timetable, &mut [u32], &mut [u32], &Question) -> Answer + 'a;

/// Asks the library and both planners, which must agree in answer, labels and legs.
fn asked(network: &Network, start: u32, target: u32, time: u32, limit: u32, budget: u32) -> (Answer, Vec<u32>) {
    let question = Question { start, target, time, limit, budget };
    let laid = laid(network);
    let run = |ask: &Ask| {
        let (mut labels, mut legs) = (vec![7; FULL[5]], vec![7; FULL[6]]);
        (ask(&laid.timetable(), &mut labels, &mut legs, &question), labels, legs)
    };
    let library = run(&pospolarku::ask);
    for plan in [brute::plan, raptor::plan] {
        assert_eq!(library, run(&|timetable, labels, legs, question| reference::ask(plan, timetable, labels, legs, question)));
    }
    (library.0, library.2)
}

/// As the printer prints it.
fn printed(network: &Network, start: u32, target: u32, time: u32, limit: u32, budget: u32) -> String {
    match asked(network, start, target, time, limit, budget) {
        (Answer::Refused(Refused { refusal, place }), _) => format!("refused {} {place}\n", refusal.number()),
        (Answer::Answered { entries, work }, legs) => {
            let mut lines = format!("journeys {} work {work}\n", entries.len());
            for entry in entries.iter() {
                lines += &format!("trips {} arrive {}\n", entry.rides, entry.arrival);
                for leg in legs_of(&legs, entry.rides) {
                    let after = match leg.after {
                        After::Stays => "-".into(),
                        After::WalksTo(stop) => stop.to_string(),
                    };
                    lines += &format!("{} {} {} {} {after}\n", leg.route, leg.trip, leg.boarding, leg.leaving);
                }
            }
            lines
        }
    }
}

fn checked(network: &Network) -> Result<u32, (u32, u32)> {
    let laid = laid(network);
    let answer = pospolarku::check(&laid.timetable());
    assert_eq!(answer, reference::check(&laid.timetable()));
    match answer {
        Checked::Done(limit) => Ok(limit),
        Checked::Refused(refused) => Err((refused.refusal.number(), refused.place)),
    }
}

/// Reads with the library and the reference; answers the outcome and whether the tables are this network's.
fn read(feed: &[u8], network: &Network) -> (Result<HeadCounts, (u32, u32)>, bool) {
    let run = |read: fn(&[u8], &mut Tables) -> Reading| {
        let mut tables = FULL[..5].iter().map(|&full| vec![7; full]).collect::<Vec<_>>();
        let [routes, positions, arrivals, departures, walks] = &mut tables[..] else { unreachable!() };
        let answer = read(feed, &mut Tables { routes, positions, arrivals, departures, walks });
        (answer, tables)
    };
    let (answer, tables) = run(pospolarku::read);
    assert_eq!((answer, tables.clone()), run(reference::read));
    let outcome = match answer {
        Reading::Done(head) => Ok(head),
        Reading::Refused(refused) => Err((refused.refusal.number(), refused.place)),
    };
    (outcome, tables == network.tables())
}

/// Writes with the library, the reference and the generator, which must agree, then reads the feed back.
fn written(network: &Network) -> Vec<u8> {
    let run = |write: fn(&Timetable, &mut [u8]) -> Writing| {
        let mut out = vec![7; LONGEST_FEED];
        let Writing::Done(bytes) = write(&laid(network).timetable(), &mut out) else { panic!("not written") };
        assert!(out[bytes as usize..].iter().all(|&byte| byte == 7));
        out.truncate(bytes as usize);
        out
    };
    let feed = run(pospolarku::write);
    assert_eq!(feed, run(reference::write));
    assert_eq!(feed, network.feed());
    let head = HeadCounts { stops: network.stops, routes: network.routes.len() as u32, walks: network.walks.len() as u32 };
    assert_eq!(read(&feed, network), (Ok(head), true));
    feed
}

fn one_route(stops: u32, visited: &[u32], trips: &[&[Event]], walks: &[networks::Walk]) -> Network {
    let route = Route { stops: visited.to_vec(), trips: trips.iter().map(|trip| trip.to_vec()).collect() };
    Network { stops, routes: vec![route], walks: walks.to_vec() }
}

#[test]
fn bridge_network() {
    let bridge = bridge();
    assert_eq!(written(&bridge).len(), 102);
    assert_eq!(checked(&bridge), Ok(8 * (5 - 2 + 4 + 1)));
    let lines = "journeys 2 work 13\ntrips 1 arrive 400\n0 0 0 2 -\ntrips 2 arrive 280\n0 0 0 1 -\n1 0 0 1 2\n";
    assert_eq!(printed(&bridge, 0, 2, 100, 8, 100), lines);
    assert_eq!(printed(&bridge, 0, 2, 100, 8, 13), lines);
    // Work 3, 5, 5 by round.
    for (budget, round) in [(0, 1), (2, 1), (3, 2), (7, 2), (8, 3), (12, 3)] {
        assert_eq!(printed(&bridge, 0, 2, 100, 8, budget), format!("refused 13 {round}\n"));
    }
    assert_eq!(printed(&bridge, 0, 2, 101, 8, 100), "journeys 1 work 8\ntrips 1 arrive 600\n0 1 0 2 -\n");
    assert!(printed(&bridge, 1, 2, 205, 8, 100).ends_with("trips 1 arrive 280\n1 0 0 1 2\n"));
    assert_eq!(printed(&bridge, 0, 4, 100, 8, 100), "refused 14 13\n");
    assert!(printed(&bridge, 3, 3, 7, 8, 100).ends_with("\ntrips 0 arrive 7\n"));
    assert!(printed(&bridge, 3, 2, 0, 8, 100).starts_with("refused 14 "));
    assert_eq!(printed(&bridge, 2, 0, 0, 8, 100), "refused 14 1\n");
}

#[test]
fn long_halt() {
    let (a, b) = ([[50, 50], [100, 200], [300, 300]], [[60, 60], [150, 210], [310, 310]]);
    let network = one_route(3, &[0, 1, 2], &[&a, &b], &[]);
    let lines = printed(&network, 0, 2, 55, 8, 100);
    assert!(lines.ends_with("trips 1 arrive 310\n0 1 0 2 -\ntrips 2 arrive 300\n0 1 0 1 -\n0 0 1 2 -\n"), "{lines}");
}

#[test]
fn back_to_the_start() {
    let network = one_route(3, &[0, 1, 0], &[&[[100, 100], [150, 150], [200, 200]]], &[[0, 2, 30]]);
    assert_eq!(printed(&network, 0, 2, 100, 8, 100), "journeys 1 work 4\ntrips 1 arrive 230\n0 0 0 2 2\n");
}

#[test]
fn walks_are_closed() {
    let walks = |walks: &[networks::Walk]| checked(&Network { stops: 3, routes: vec![], walks: walks.to_vec() });
    assert_eq!(walks(&[[0, 1, 10], [1, 2, 10]]), Err((11, 0)));
    assert_eq!(walks(&[[0, 1, 10], [0, 2, 20], [1, 2, 10]]), Ok(24));
    assert_eq!(walks(&[[0, 1, 10], [0, 2, 21], [1, 2, 10]]), Err((11, 0)));
    assert_eq!(walks(&[[0, 1, 3_600]]), Ok(8));
    assert_eq!(walks(&[[0, 1, 3_601]]), Err((10, 0)));
}

#[test]
fn smallest_and_longest_feed() {
    let smallest = Network { stops: 1, routes: vec![], walks: vec![] };
    let feed = written(&smallest);
    assert_eq!(feed, [0x54, 0x48, 1, 0, 0, 0, 0, 0, 0x0D, 0x45, 0x44, 0x34, 0x71]);
    assert_eq!(read(&feed[..12], &smallest).0, Err((1, 0)));
    assert_eq!(written(&networks::full(&mut Random::new(1), Shape::LongestFeed)).len(), LONGEST_FEED);
}

#[test]
fn edges_of_times_and_counts() {
    let leaving_last = |time: u32| checked(&one_route(2, &[0, 1], &[&[[0, 0], [time, time]]], &[]));
    assert_eq!(leaving_last(172_799), Ok(16));
    assert_eq!(leaving_last(172_800), Err((8, 1)));
    for (n, allowed) in [(1, false), (2, true), (64, true), (65, false)] {
        let network = one_route(1, &vec![0; n], &[&vec![[0, 0]; n]], &[]);
        assert_eq!(checked(&network).map_err(|refused| refused.0), if allowed { Ok(8 * n as u32) } else { Err(5) });
        assert_eq!(read(&network.feed(), &network).0.map(|_| ()), if allowed { Ok(()) } else { Err((5, 9)) });
    }
}
