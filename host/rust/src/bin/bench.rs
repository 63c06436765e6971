//! Benchmarks the library against the reference, both in this run: `bench [QUESTIONS [SEED]]`. Prints Markdown.
//!
//! Calls of the two alternate on the same input, so that a busy machine slows both. Tables are not cleared between calls.

use pospolarku::networks::{Network, Random, Shape, full};
use pospolarku::reference::{self, raptor};
use pospolarku::*;
use std::hint::black_box;
use std::time::Instant;

fn median(mut numbers: Vec<f64>) -> f64 {
    numbers.sort_by(f64::total_cmp);
    numbers[numbers.len() / 2]
}

/// Nanoseconds of one call, over a few.
fn sample<R>(calls: u32, call: &mut impl FnMut() -> R) -> f64 {
    let begin = Instant::now();
    for _ in 0..calls {
        black_box(call());
    }
    begin.elapsed().as_nanos() as f64 / f64::from(calls)
}

/// The medians of two calls' times, by turns.
fn by_turns<A, B>(samples: usize, calls: u32, mut library: impl FnMut() -> A, mut reference: impl FnMut() -> B) -> [f64; 2] {
    let (library, reference) = (0..samples).map(|_| (sample(calls, &mut library), sample(calls, &mut reference))).unzip();
    [median(library), median(reference)]
}

fn print_row(input: &str, units: f64, unit: &str, [library, reference]: [f64; 2]) {
    println!(
        "| {input} | {units:.0} {unit} | {library:.0} | {reference:.0} | {:.2} | {:.2} | {:.2} |",
        library / reference,
        library / units,
        reference / units
    );
}

/// A network's tables at their full size.
struct Laid {
    head: [u32; 3],
    tables: [Vec<u32>; 5],
}

impl Laid {
    fn new(network: &Network) -> Self {
        Laid { head: [network.stops, network.routes.len() as u32, network.walks.len() as u32], tables: network.tables() }
    }

    fn timetable(&self) -> Timetable<'_> {
        let ([stops, route_count, walk_count], [routes, positions, arrivals, departures, walks]) = (self.head, &self.tables);
        Timetable { stops, route_count, walk_count, routes, positions, arrivals, departures, walks }
    }

    fn lent(&mut self) -> Tables<'_> {
        let [routes, positions, arrivals, departures, walks] = &mut self.tables;
        Tables { routes, positions, arrivals, departures, walks }
    }

    /// Elements of tables 1 to 5 that a check reads.
    fn used(&self) -> f64 {
        let routes = self.tables[0].chunks_exact(4).take(self.head[1] as usize);
        let of_routes: u32 = routes.map(|route| 4 + route[0] + 2 * route[0] * route[1]).sum();
        f64::from(of_routes + 3 * self.head[2])
    }
}

fn bench_feed(random: &mut Random) {
    let network = full(random, Shape::LongestFeed);
    let feed = network.feed();
    let [mut one, mut other] = [Laid::new(&network), Laid::new(&network)];
    let [mut out, mut other_out] = [vec![0; LONGEST_FEED], vec![0; LONGEST_FEED]];
    assert!(matches!(pospolarku::read(&feed, &mut one.lent()), Reading::Done(_)));
    assert_eq!(pospolarku::write(&one.timetable(), &mut out), Writing::Done(LONGEST_FEED as u32));
    assert!(out == feed && one.tables == network.tables());

    let bytes = feed.len() as f64;
    let times =
        by_turns(601, 5, || pospolarku::read(black_box(&feed), &mut one.lent()), || reference::read(black_box(&feed), &mut other.lent()));
    print_row("`read`, longest feed", bytes, "bytes", times);
    let (one, other) = (one.timetable(), other.timetable());
    let times = by_turns(601, 5, || pospolarku::write(black_box(&one), &mut out), || reference::write(black_box(&other), &mut other_out));
    print_row("`write`, longest feed", bytes, "bytes", times);
}

fn bench_check(name: &str, laid: &Laid) {
    let timetable = laid.timetable();
    assert!(matches!(pospolarku::check(&timetable), Checked::Done(_)));
    assert_eq!(pospolarku::check(&timetable), reference::check(&timetable));
    let times = by_turns(601, 5, || pospolarku::check(black_box(&timetable)), || reference::check(black_box(&timetable)));
    print_row(&format!("`check`, {name}"), laid.used(), "elements", times);
}

fn question(random: &mut Random, network: &Network) -> Question {
    let mut visited = || {
        let route = random.below(network.routes.len());
        random.pick(&network.routes[route].stops)
    };
    let (start, target) = (visited(), visited());
    Question { start, target, time: random.between(14_400, 64_800), limit: 8, budget: MARK }
}

/// Answers how long the library's check takes, as a part of its rounds and legs.
fn bench_ask(name: &str, random: &mut Random, shape: Shape, questions: usize) -> String {
    let network = full(random, shape);
    let laid = Laid::new(&network);
    bench_check(name, &laid);

    let timetable = &laid.timetable();
    let [mut labels, mut other_labels] = [vec![0; FULL[5]], vec![0; FULL[5]]];
    let [mut legs, mut other_legs] = [vec![0; FULL[6]], vec![0; FULL[6]]];
    let (mut works, mut parts, mut asking, mut planning) = (vec![], vec![], [vec![], vec![]], [vec![], vec![]]);
    for _ in 0..questions {
        let question = &question(random, &network);
        let answer = pospolarku::ask(timetable, &mut labels, &mut legs, question);
        assert_eq!(answer, reference::ask(raptor::plan, timetable, &mut other_labels, &mut other_legs, question));
        assert!(labels == other_labels && legs == other_legs);
        let (Answer::Answered { work, .. } | Answer::Refused(Refused { refusal: Refusal::NoWay, place: work })) = answer else {
            panic!("{answer:?}");
        };
        works.push(f64::from(work));
        let ask = by_turns(
            5,
            3,
            || pospolarku::ask(black_box(timetable), &mut labels, &mut legs, black_box(question)),
            || reference::ask(raptor::plan, black_box(timetable), &mut other_labels, &mut other_legs, black_box(question)),
        );
        // Right after, so that the machine is as busy: what is left of `ask` without the check.
        let check = by_turns(5, 3, || pospolarku::check(black_box(timetable)), || reference::check(black_box(timetable)));
        for side in 0..2 {
            asking[side].push(ask[side]);
            planning[side].push(ask[side] - check[side]);
        }
        parts.push(check[0] / (ask[0] - check[0]));
    }
    let work = median(works);
    print_row(&format!("`ask`, {name}"), work, "work", asking.map(median));
    print_row(&format!("`ask` less `check`, {name}"), work, "work", planning.map(median));
    format!("{:.2} ({name})", median(parts))
}

fn main() {
    let mut words = std::env::args().skip(1).map(|word| word.parse::<u64>().expect("QUESTIONS and SEED are numbers"));
    let questions = words.next().unwrap_or(500) as usize;
    let seed = words.next().unwrap_or(1);
    let random = &mut Random::new(seed);

    if cfg!(feature = "stand-in") {
        println!("No library here: the reference stands in for it, so that each ratio should be 1.\n");
    }
    println!(
        "Seed {seed}. Times are medians in ns: of 601 samples of 5 calls; for `ask`, over {questions} questions with ride limit 8 and no budget,"
    );
    println!(
        "of 5 samples of 3 calls each. Calls of the two alternate; tables are not cleared first. `ask` checks its tables, on both sides;"
    );
    println!("`ask` less `check` is the median difference.\n");
    println!("| call and input | units | library | reference | ratio | library per unit | reference per unit |");
    println!("|---|---|---|---|---|---|---|");
    bench_feed(random);
    let parts = [
        ("full tables, 506 walks", Shape::FullTables),
        ("few long routes", Shape::FewLongRoutes),
        ("many short routes", Shape::ManyShortRoutes),
        ("many trips", Shape::ManyTrips),
        ("many walks", Shape::ManyWalks),
    ]
    .map(|(name, shape)| bench_ask(name, random, shape, questions));
    println!("\nThe library's `check` to its rounds and legs, that is to `ask` less `check`: {}.", parts.join(", "));
}
