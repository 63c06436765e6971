//! Compares the library with the reference: `differential [CASES [SEED [FIRST CASE]]]`.
//!
//! Each case makes one input, right or damaged, and calls one function with it. The answer and every element lent, those beyond the
//! full sizes too, must be equal. Exit: 0 all equal, 1 a difference (printed with how to make it again), 2 a refusal never occurred.

use pospolarku::networks::{self, Network, Random, SHAPES};
use pospolarku::reference::{self, Planner, brute, raptor};
use pospolarku::*;
use std::process::ExitCode;
use std::sync::atomic::{AtomicU64, Ordering::Relaxed};

#[derive(Clone, Copy, Debug)]
enum Function {
    Check,
    Read,
    Write,
    Ask,
}

/// Everything that a call lends: which of it depends on the function.
#[derive(Clone)]
struct Lent {
    head: [u32; 3],
    tables: [Vec<u32>; 5],
    labels: Vec<u32>,
    legs: Vec<u32>,
    /// The feed, or the buffer for one.
    bytes: Vec<u8>,
    question: Question,
    entries: Vec<u32>,
}

fn timetable<'a>(&[stops, route_count, walk_count]: &[u32; 3], tables: &'a [Vec<u32>; 5]) -> Timetable<'a> {
    let [routes, positions, arrivals, departures, walks] = tables;
    Timetable { stops, route_count, walk_count, routes, positions, arrivals, departures, walks }
}

fn to_read(tables: &mut [Vec<u32>; 5]) -> Tables<'_> {
    let [routes, positions, arrivals, departures, walks] = tables;
    Tables { routes, positions, arrivals, departures, walks }
}

impl Lent {
    fn by_library(&mut self, function: Function) -> u64 {
        let Lent { head, tables, labels, legs, bytes, question, entries } = self;
        match function {
            Function::Check => packed::check(&timetable(head, tables)),
            Function::Read => packed::read(bytes, &mut to_read(tables)),
            Function::Write => packed::write(&timetable(head, tables), bytes),
            Function::Ask => packed::ask(&timetable(head, tables), labels, legs, question, entries),
        }
    }

    /// Packs what the reference answers. An equal number of the library then unpacks to an equal answer.
    fn by_reference(&mut self, function: Function, plan: Planner) -> u64 {
        fn there_and_back<T: PartialEq + Copy>(answer: T, pack: fn(T) -> u64, unpack: fn(u64) -> T) -> u64 {
            assert!(unpack(pack(answer)) == answer, "unpacks to another answer");
            pack(answer)
        }
        let Lent { head, tables, labels, legs, bytes, question, entries } = self;
        match function {
            Function::Check => there_and_back(reference::check(&timetable(head, tables)), Checked::pack, Checked::unpack),
            Function::Read => there_and_back(reference::read(bytes, &mut to_read(tables)), Reading::pack, Reading::unpack),
            Function::Write => there_and_back(reference::write(&timetable(head, tables), bytes), Writing::pack, Writing::unpack),
            Function::Ask => {
                let answer = reference::ask(plan, &timetable(head, tables), labels, legs, question);
                let (packed, elements) = answer.pack();
                assert!(Answer::unpack(packed, &elements) == answer, "unpacks to another answer");
                if let Some(entries) = entries.get_mut(..ENTRIES) {
                    entries.copy_from_slice(&elements);
                }
                packed
            }
        }
    }

    /// The first thing in which two ends of a call differ.
    fn difference(&self, other: &Lent) -> Option<String> {
        fn first<T: PartialEq + std::fmt::Debug>(name: &str, library: &[T], reference: &[T]) -> Option<String> {
            let at = (0..library.len()).find(|&at| library[at] != reference[at])?;
            Some(format!("{name}[{at}]: {:?}, but by the reference {:?}", library[at], reference[at]))
        }
        let names = ["routes", "positions", "arrivals", "departures", "walks"];
        (0..5)
            .find_map(|table| first(names[table], &self.tables[table], &other.tables[table]))
            .or_else(|| first("labels", &self.labels, &other.labels))
            .or_else(|| first("legs", &self.legs, &other.legs))
            .or_else(|| first("bytes", &self.bytes, &other.bytes))
            .or_else(|| first("entries", &self.entries, &other.entries))
    }
}

/// Elements that nothing may depend on.
fn garbage(random: &mut Random, count: usize) -> Vec<u32> {
    let (first, step) = match random.below(4) {
        0 => (0, 0),
        1 => (MARK, 0),
        _ => (random.number() as u32, random.number() as u32),
    };
    (0..count as u32).map(|at| first.wrapping_add(step.wrapping_mul(at))).collect()
}

fn network(random: &mut Random) -> Network {
    let mut network = match random.below(1_000) {
        0..3 => {
            let shape = random.pick(&SHAPES);
            networks::full(random, shape)
        }
        3..30 => networks::edge(random),
        30..40 => networks::bridge(),
        40..160 => networks::ladder(random),
        _ => networks::small(random),
    };
    while random.one_in(4) {
        networks::spoil(random, &mut network);
    }
    network
}

/// Tables 1 to 5 with garbage in and behind their unused part, sometimes damaged.
fn tables(random: &mut Random, network: &Network, head: &mut [u32; 3]) -> [Vec<u32>; 5] {
    let events: usize = network.routes.iter().map(|route| route.stops.len() * route.trips.len()).sum();
    let positions = network.routes.iter().map(|route| route.stops.len()).sum();
    let used = [4 * network.routes.len(), positions, events, events, 3 * network.walks.len()];
    let mut tables = network.tables();
    for (table, used) in tables.iter_mut().zip(used) {
        let rest = table.len() - used + random.below(6);
        table.truncate(used);
        table.extend(garbage(random, rest));
    }
    while random.one_in(5) {
        let table = random.below(5);
        let at = random.below(if used[table] > 0 { used[table] } else { FULL[table] });
        tables[table][at] = random.extreme(tables[table][at]);
    }
    if random.one_in(15) {
        let count = random.below(3);
        head[count] = random.extreme(head[count]);
    }
    tables
}

fn damage_feed(random: &mut Random, feed: &mut Vec<u8>) {
    for _ in 0..random.pick(&[0, 0, 0, 1, 1, 1, 2, 5]) {
        match random.below(10) {
            0 => feed.truncate(random.below(feed.len() + 1)),
            1 => feed.truncate(feed.len().saturating_sub(1 + random.below(12))),
            2 => feed.extend((0..random.below(9)).map(|_| random.number() as u8)),
            3 => feed.resize(random.pick(&[0, 8, 12, 13, LONGEST_FEED, LONGEST_FEED + 1, 65_536 + 13]), 0),
            4 => feed.insert(random.below(feed.len() + 1), random.number() as u8),
            5 if !feed.is_empty() => drop(feed.remove(random.below(feed.len()))),
            _ if !feed.is_empty() => {
                // In the head, at a mark or the counts after it, or anywhere.
                let at = match random.below(4) {
                    0 => random.below(9),
                    1 => {
                        let is_mark = |at: &usize| [b"TH", b"RT", b"TP", b"WK", b"ED"].iter().any(|mark| feed[*at..].starts_with(*mark));
                        let marks: Vec<usize> = (0..feed.len()).filter(is_mark).collect();
                        if marks.is_empty() { 0 } else { random.pick(&marks) + random.below(5) }
                    }
                    _ => random.below(feed.len()),
                };
                let at = at.min(feed.len() - 1);
                feed[at] = match random.below(3) {
                    0 => feed[at] ^ 1 << random.below(8),
                    1 => random.extreme(feed[at].into()) as u8,
                    _ => random.number() as u8,
                };
            }
            _ => {}
        }
    }
    if random.one_in(6) {
        return; // the length or the sum stays wrong, if it is
    }
    networks::set_length(feed);
    if !random.one_in(12) {
        networks::set_sum(feed);
    }
    let zeros: Vec<usize> = (0..feed.len()).filter(|&at| feed[at] == 0).collect();
    if random.one_in(10) && !zeros.is_empty() {
        // Fletcher's sum is blind to 00 in place of FF; but not in the sum itself, where the last zero may be.
        let at = if random.one_in(2) { zeros[zeros.len() - 1] } else { random.pick(&zeros) };
        feed[at] = 0xFF;
    }
}

fn question(random: &mut Random, network: &Network) -> Question {
    let (mut start, mut target, mut time) = (random.between(0, network.stops - 1), random.between(0, network.stops - 1), 0);
    if !network.routes.is_empty() && !random.one_in(8) {
        // Mostly from the first stop of a low route to the last of any: so a ladder is climbed from below.
        let routes = network.routes.len();
        let low = random.below(routes).min(random.below(routes));
        let (from, to) = (&network.routes[low], &network.routes[random.below(routes)]);
        start = from.stops[if random.one_in(3) { random.below(from.stops.len()) } else { 0 }];
        target = if random.one_in(3) { random.pick(&to.stops) } else { to.stops[to.stops.len() - 1] };
        time = from.trips.first().map_or(0, |trip| random.pick(trip)[1]).min(LAST_SECOND - 1);
    }
    if start == target && !random.one_in(8) {
        target = random.between(0, network.stops - 1);
    }
    time = match random.below(4) {
        0 => 0,
        1 => time.saturating_sub(random.between(0, 30)),
        2 => time + 1,
        _ => time,
    };
    let limit = if random.one_in(2) { 8 } else { random.between(0, 8) };
    let mut question = Question { start, target, time, limit, budget: MARK };
    if random.one_in(20) {
        let edge = random.pick(&[network.stops, MARK, LAST_SECOND, LAST_SECOND + 1, 8, 9]);
        match random.below(4) {
            0 => question.start = edge,
            1 => question.target = edge,
            2 => question.time = edge,
            _ => question.limit = edge,
        }
    }
    question
}

fn case(random: &mut Random) -> (Function, Lent) {
    use Function::*;
    let function = random.pick(&[Check, Check, Read, Read, Read, Write, Ask, Ask, Ask, Ask]);
    let network = network(random);
    let full_or_more = |random: &mut Random, table: usize| {
        let count = FULL[table] + random.below(6);
        garbage(random, count)
    };
    let mut head = [network.stops, network.routes.len() as u32, network.walks.len() as u32];
    let tables = match function {
        Read => [0, 1, 2, 3, 4].map(|table| full_or_more(random, table)),
        _ => tables(random, &network, &mut head),
    };
    let mut bytes = network.feed();
    match function {
        Read => damage_feed(random, &mut bytes),
        Write => {
            let length = bytes.len();
            let out = random.pick(&[length, length, length + 3, length + 100, length - 1, LONGEST_FEED, length / 2, 0]);
            bytes = garbage(random, out).into_iter().map(|number| (number >> 8) as u8).collect();
        }
        _ => bytes.clear(),
    }
    let entries = if random.one_in(10) { random.below(30) } else { ENTRIES };
    let (labels, legs, entries) = (full_or_more(random, 5), full_or_more(random, 6), garbage(random, entries));
    let question = question(random, &network);
    let mut lent = Lent { head, tables, labels, legs, bytes, question, entries };
    while random.one_in(20) {
        let table = random.below(7);
        let short = random.pick(&[0, 1, FULL[table] / 2, FULL[table] - 1]);
        match table {
            5 => &mut lent.labels,
            6 => &mut lent.legs,
            _ => &mut lent.tables[table],
        }
        .truncate(short);
    }
    if matches!(function, Ask) && random.one_in(3) {
        lent.question.budget = budget(random, &lent);
    }
    (function, lent)
}

/// A budget around the work that the question takes.
fn budget(random: &mut Random, lent: &Lent) -> u32 {
    let packed = lent.clone().by_reference(Function::Ask, raptor::plan);
    let work = packed as u32; // of an answer, and of refusal 14
    match random.below(5) {
        0 => work.saturating_sub(1),
        1 => work,
        2 => work.saturating_add(1),
        3 => random.below(work as usize + 1) as u32,
        _ => random.extreme(work),
    }
}

/// How often what occurred.
#[derive(Default)]
struct Coverage {
    /// By function; 0 is done or answered.
    numbers: [[u64; 16]; 4],
    /// Answers by number of entries, by rides of the last, and Budget by round.
    entries: [u64; 10],
    rides: [u64; 9],
    rounds: [u64; 9],
    walked_legs: u64,
}

impl Coverage {
    fn count(&mut self, function: Function, lent: &Lent, packed: u64) {
        let number = (packed >> 32) as usize;
        self.numbers[function as usize][number] += 1;
        if let (Function::Ask, 0, Some(entries)) = (function, number, lent.entries.get(..ENTRIES)) {
            let last = entries[0] as usize;
            self.entries[last] += 1;
            self.rides[entries[2 * last - 1] as usize] += 1;
            let legs = lent.legs[..FULL[6]].chunks_exact(LEG);
            self.walked_legs += legs.filter(|leg| leg[4] != MARK).count() as u64;
        }
        if number == Refusal::Budget.number() as usize {
            self.rounds[packed as u32 as usize] += 1;
        }
    }

    fn print(&self) {
        println!("| function | done |{}", Refusal::ALL.map(|refusal| format!(" {} {refusal:?} |", refusal.number())).concat());
        println!("|---|---{}|", "|---".repeat(15));
        for (function, numbers) in ["check", "read", "write", "ask"].iter().zip(self.numbers) {
            println!("| {function} |{}", numbers.map(|count| if count > 0 { format!(" {count} |") } else { "  |".into() }).concat());
        }
        println!(
            "Answers with 1, 2, .. entries: {:?}; whose last has 0, 1, .. rides: {:?}; legs with a walk: {}.",
            &self.entries[1..],
            self.rides,
            self.walked_legs
        );
        println!("Budget passed in round 1, 2, ..: {:?}.", &self.rounds[1..]);
    }

    fn missing(&self) -> Vec<Refusal> {
        Refusal::ALL.into_iter().filter(|refusal| self.numbers.iter().all(|numbers| numbers[refusal.number() as usize] == 0)).collect()
    }
}

static SEED: AtomicU64 = AtomicU64::new(0);
static CASE: AtomicU64 = AtomicU64::new(0);

fn say_case() {
    let (seed, case) = (SEED.load(Relaxed), CASE.load(Relaxed));
    println!("seed {seed}, case {case}; again: differential 1 {seed} {case}");
}

/// The archive may also fail by a fault: then too the case must be known.
fn say_case_on_faults() {
    unsafe extern "C" {
        fn signal(number: i32, handler: extern "C" fn(i32)) -> usize;
    }
    extern "C" fn fault(number: i32) {
        println!("signal {number}");
        say_case();
        std::process::exit(1);
    }
    let (ill, trap, abort, bus, fpe, segv) = (4, 5, 6, 7, 8, 11);
    for number in [ill, trap, abort, bus, fpe, segv] {
        // SAFETY: the handler prints and ends the process; nothing runs on after it.
        unsafe { signal(number, fault) };
    }
    let by_default = std::panic::take_hook();
    std::panic::set_hook(Box::new(move |panic| {
        by_default(panic);
        say_case();
    }));
}

fn main() -> ExitCode {
    let mut words = std::env::args().skip(1).map(|word| word.parse::<u64>().expect("CASES, SEED and FIRST CASE are numbers"));
    let cases = words.next().unwrap_or(200_000);
    let seed = words.next().unwrap_or_else(|| std::time::UNIX_EPOCH.elapsed().map_or(1, |time| time.as_micros() as u64));
    let first = words.next().unwrap_or(0);
    println!("differential {cases} {seed} {first}");
    SEED.store(seed, Relaxed);
    say_case_on_faults();

    let mut coverage = Coverage::default();
    for number in first..first + cases {
        CASE.store(number, Relaxed);
        let (function, lent) = case(&mut Random::of_case(seed, number));
        let mut library = lent.clone();
        let packed = library.by_library(function);
        let planners: &[(&str, Planner)] = match function {
            Function::Ask => &[("brute", brute::plan), ("raptor", raptor::plan)],
            _ => &[("reference", brute::plan)],
        };
        for &(name, plan) in planners {
            let mut reference = lent.clone();
            let expected = reference.by_reference(function, plan);
            let words = |packed: u64| format!("number {} place or count {}", packed >> 32, packed as u32);
            let answers = (packed != expected).then(|| format!("{}, but by the reference {}", words(packed), words(expected)));
            if let Some(difference) = answers.or_else(|| library.difference(&reference)) {
                println!("DIFFERENCE in {function:?} (against {name}): {difference}");
                println!("head counts {:?}, {:?}, {} bytes", lent.head, lent.question, lent.bytes.len());
                say_case();
                return ExitCode::from(1);
            }
        }
        coverage.count(function, &library, packed);
    }
    coverage.print();
    let missing = coverage.missing();
    if cases >= 100_000 && !missing.is_empty() {
        println!("never occurred: {missing:?}");
        return ExitCode::from(2);
    }
    println!("{cases} cases equal");
    ExitCode::SUCCESS
}
