//! The library's file and those of other methods, on the same stars, page size and load: pages read for a look-up and for each
//! star entered, memory, and load. Prints plain tables and plots, and writes the figures for a plot to the file named.

use bench::files::{Numbering, RANDOM, ZONES, ZONES_IN_TURN};
use bench::methods::chains::{Chains, Shape};
use bench::methods::extendible::Extendible;
use bench::methods::greatest_keys::GreatestKeys;
use bench::methods::linear::{Linear, Trigger};
use bench::methods::separators::Separators;
use bench::methods::unified::{Monitored, Unified};
use bench::methods::{Entered, Method};
use model::random::Random;
use model::Parameters;
use std::collections::BTreeSet;

const PLACES: usize = 20;
/// Pages at first, where a file begins with its pages; the stars fill twice as many.
const PAGES: usize = 300;
/// The least prime above twice as many.
const PRIME: usize = 601;
/// Per cent; the tables have the third. For each of them CS-83-28's 1/f (appendix, Table 4).
const LOADS: [(u32, usize); 5] = [(70, 56), (75, 33), (80, 20), (85, 13), (90, 8)];
const LOAD: (u32, usize) = LOADS[2];
/// Files of the tables, and for each load of the plot.
const FILES: [u64; 2] = [20, 10];
/// How often a file is looked into while it doubles, and how many stars are looked up each time.
const LOOKS: usize = 30;
const LOOK_UPS: usize = 100;

const KINDS: [Numbering; 3] = [RANDOM, ZONES, ZONES_IN_TURN];

type Make = fn((u32, usize)) -> Box<dyn Method>;

fn share((load, _): (u32, usize)) -> f64 {
    f64::from(load) / 100.0
}

fn chains((load, every): (u32, usize), chains: usize) -> Box<dyn Method> {
    let groups = (PAGES - PAGES / every) / 2;
    Box::new(Chains::new(Shape { places: PLACES, chains, every, load: share((load, every)) }, groups))
}

/// How a method comes to its load.
#[derive(Clone, Copy, PartialEq)]
enum Load {
    Set,
    /// As its splits make it.
    Own,
    /// It rises, as the file does not grow.
    Rising,
}

struct Listed {
    name: &'static str,
    document: &'static str,
    load: Load,
    make: Make,
}

const fn listed(name: &'static str, document: &'static str, load: Load, make: Make) -> Listed {
    Listed { name, document, load, make }
}

const METHODS: [Listed; 10] = [
    listed("separators, the library", "000", Load::Set, |(load, _)| {
        Box::new(Separators::new(Parameters::new([PLACES as u32, PAGES as u32 / 2, 2, 5, 8, load, 768])))
    }),
    listed("linear, 1 chain a page", "002", Load::Set, |load| chains(load, 1)),
    listed("linear, 5 chains a page", "002", Load::Set, |load| chains(load, 5)),
    listed("spiral storage", "001", Load::Set, |load| {
        Box::new(Unified::spiral(PLACES, Monitored::Utilization(share(load)), PAGES))
    }),
    listed("piecewise linear, 3/2", "001", Load::Set, |load| {
        Box::new(Unified::piecewise(PLACES, Monitored::Utilization(share(load)), PAGES, 1.5))
    }),
    listed("linear, by load", "003", Load::Set, |load| {
        Box::new(Linear::new(PLACES, PLACES, Trigger::Load(share(load)), PAGES))
    }),
    listed("linear, by overflow page", "003", Load::Own, |_| {
        Box::new(Linear::new(PLACES, PLACES, Trigger::OverflowPage, PAGES / 4))
    }),
    listed("linear, by first overflow", "004", Load::Own, |_| {
        Box::new(Linear::new(PLACES, 1, Trigger::FirstOverflow, PAGES / 4))
    }),
    listed("extendible", "003", Load::Own, |_| Box::new(Extendible::new(PLACES, 2))),
    listed("greatest keys, fixed size", "004", Load::Rising, |_| Box::new(GreatestKeys::new(PLACES, PRIME))),
];

#[derive(Default)]
struct Mean {
    sum: f64,
    count: usize,
    worst: f64,
}

impl Mean {
    fn add(&mut self, value: f64) {
        self.sum += value;
        self.count += 1;
        self.worst = self.worst.max(value);
    }

    fn mean(&self) -> f64 {
        self.sum / self.count as f64
    }
}

/// Over the stars that double the file: what look-ups and entries took, and the load and memory meanwhile.
#[derive(Default)]
struct Figures {
    found: Mean,
    missed: Mean,
    read: Mean,
    written: Mean,
    growth: Mean,
    entry: Mean,
    last: Mean,
    load: Mean,
    /// After the last star.
    end: Mean,
    bytes: Mean,
    /// How many files took all stars, and how many were tried.
    taken: u64,
    tried: u64,
}

impl Figures {
    fn count(&mut self, Entered { entry, growth }: Entered, last: bool) {
        self.read.add((entry.read + growth.read) as f64);
        self.written.add((entry.written + growth.written) as f64);
        self.growth.add(growth.total() as f64);
        self.entry.add((entry.total() + growth.total()) as f64);
        if last {
            self.last.add((entry.total() + growth.total()) as f64);
        }
    }

    fn look(&mut self, method: &mut dyn Method, held: &[u32], others: &[u32], random: &mut Random) {
        for _ in 0..LOOK_UPS {
            let (star, other) = (method.look_up(random.pick(held)), method.look_up(random.pick(others)));
            assert!(star.found && !other.found, "a look-up finds the stars that are held");
            self.found.add(star.read as f64);
            self.missed.add(other.read as f64);
        }
        self.load.add(100.0 * held.len() as f64 / method.places() as f64);
        self.bytes.add(method.directory() as f64 / method.pages() as f64);
    }

    /// Enters the stars; the second half of them counts. False if the file cannot take one.
    fn fill(&mut self, method: &mut dyn Method, stars: &[u32], others: &[u32], random: &mut Random) -> bool {
        let half = stars.len() / 2;
        for (i, &star) in stars.iter().enumerate() {
            let Some(entered) = method.enter(star) else { return false };
            if i >= half {
                self.count(entered, i >= stars.len() - half / 10);
                if (i - half).is_multiple_of(half / LOOKS) {
                    self.look(method, &stars[..=i], others, random);
                }
            }
        }
        self.end.add(100.0 * stars.len() as f64 / method.places() as f64);
        true
    }

    fn of(make: Make, load: (u32, usize), numbering: Numbering, files: u64) -> Figures {
        let mut figures = Figures::default();
        for seed in 0..files {
            let random = &mut Random(seed);
            let (stars, others) = numbers(numbering, 2 * PAGES * PLACES * load.0 as usize / 100, random);
            figures.taken += u64::from(figures.fill(make(load).as_mut(), &stars, &others, random));
            figures.tried += 1;
        }
        figures
    }

    fn all_taken(&self) -> bool {
        self.taken == self.tried
    }

    /// For each star entered at the load that the look-ups have met.
    fn at_load(&self, load: Load) -> f64 {
        if load == Load::Rising {
            self.last.mean()
        } else {
            self.entry.mean()
        }
    }
}

/// So many different star numbers of a kind, and others from the least of them to the greatest.
fn numbers(numbering: Numbering, count: usize, random: &mut Random) -> (Vec<u32>, Vec<u32>) {
    let (mut known, mut stars, mut others) = (BTreeSet::new(), Vec::new(), Vec::new());
    let (first, mut i) = (1 + random.below(1_000_000) as u32, 0);
    while stars.len() < count {
        let star = numbering.1(first, i, random);
        i += 1;
        if known.insert(star) {
            stars.push(star);
        }
    }
    let (least, greatest) = (known.first().unwrap(), known.last().unwrap());
    while others.len() < count {
        let star = least + random.below(u64::from(greatest - least)) as u32;
        if !known.contains(&star) {
            others.push(star);
        }
    }
    (stars, others)
}

fn print_table(rows: &[Figures]) {
    println!(
        "{:<30} | {:^10} | {:^10} | {:^36} | {:^13} |",
        "", "held", "not held", "for each star entered", "load, %"
    );
    print!("{:<25} {:>4} | {:>4} {:>5} | {:>4} {:>5} |", "method", "from", "mean", "worst", "mean", "worst");
    print!(" {:>5} {:>7} {:>6} {:>6} {:>8} |", "read", "written", "total", "worst", "growths");
    println!(" {:>6} {:>6} | {:>5}", "mean", "end", "bytes");
    for (Listed { name, document, .. }, figures) in METHODS.iter().zip(rows) {
        let Figures { found, missed, read, written, growth, entry, load, end, bytes, .. } = figures;
        print!("{name:<25} {document:>4} | {:>4.2} {:>5} |", found.mean(), found.worst);
        print!(" {:>4.2} {:>5} | {:>5.2} {:>7.2}", missed.mean(), missed.worst, read.mean(), written.mean());
        print!(" {:>6.2} {:>6} {:>8.2} |", entry.mean(), entry.worst, growth.mean());
        println!(" {:>6.1} {:>6.1} | {:>5.2}", load.mean(), end.mean(), bytes.mean());
    }
}

/// So many marks for a page.
fn bar(mark: &str, marks: f64, pages: f64) -> String {
    mark.repeat((marks * pages).round() as usize)
}

fn print_bars(rows: &[Figures]) {
    println!("Pages read for a look-up, 20 marks a page: the upper bar of a star that is held, the lower of one that is not.\n");
    for (Listed { name, .. }, Figures { found, missed, .. }) in METHODS.iter().zip(rows) {
        println!("{name:<26} {} {:.2}", bar("#", 20.0, found.mean()), found.mean());
        println!("{:<26} {} {:.2}", "", bar("-", 20.0, missed.mean()), missed.mean());
    }
    println!("\nPages read and written for each star entered, 10 marks a page: # by entries, + by growths.\n");
    for (Listed { name, .. }, Figures { entry, growth, .. }) in METHODS.iter().zip(rows) {
        let (total, growth) = (entry.mean(), growth.mean());
        println!("{name:<26} {}{} {total:.2}", bar("#", 10.0, total - growth), bar("+", 10.0, growth));
    }
}

/// By the load: a row for each method whose load can be told; a dash where it could not take all stars.
fn print_by_load(title: &str, table: &[Vec<Figures>], value: fn(&Figures, Load) -> f64) {
    print!("{title:<26}");
    LOADS.iter().for_each(|(load, _)| print!(" {:>6}", format!("{load} %")));
    println!();
    for (Listed { name, load, .. }, rows) in METHODS.iter().zip(table).filter(|(listed, _)| listed.load != Load::Own) {
        print!("{name:<26}");
        for figures in rows {
            let text = if figures.all_taken() { format!("{:.2}", value(figures, *load)) } else { "-".to_string() };
            print!(" {text:>6}");
        }
        println!();
    }
    println!();
}

/// A line for each method and load, for bench/plot-neighbours.
fn write_figures(path: &str, table: &[Vec<Figures>]) -> std::io::Result<()> {
    let mut text = String::from("method\tload\tfound\tmissed\tentry\n");
    for (listed, rows) in METHODS.iter().zip(table) {
        for figures in rows.iter().filter(|figures| figures.all_taken()) {
            let Figures { load, end, found, missed, .. } = figures;
            let load = if listed.load == Load::Rising { end } else { load };
            let values = [load.mean(), found.mean(), missed.mean(), figures.at_load(listed.load)];
            text += &format!("{}\t{}\n", listed.name, values.map(|value| format!("{value:.4}")).join("\t"));
        }
    }
    std::fs::write(path, text)
}

/// The loads at which a method is run for the plot.
fn loads(method: &Listed) -> &'static [(u32, usize)] {
    if method.load == Load::Own {
        &LOADS[2..3]
    } else {
        &LOADS
    }
}

/// Says what is done, with the time so far.
struct Progress {
    start: std::time::Instant,
    steps: usize,
    done: usize,
}

impl Progress {
    fn measure(&mut self, method: &Listed, load: (u32, usize), numbering: Numbering, files: u64) -> Figures {
        let figures = Figures::of(method.make, load, numbering, files);
        self.done += 1;
        let (seconds, done) = (self.start.elapsed().as_secs(), self.done);
        eprintln!("{seconds:>4} s  {done} of {}: {}, {}, {} %", self.steps, method.name, numbering.0, load.0);
        figures
    }
}

fn main() {
    let path = std::env::args().nth(1).expect("the file for the figures");
    let by_load: usize = METHODS.iter().map(|method| loads(method).len()).sum();
    let steps = METHODS.len() * KINDS.len() + by_load;
    let mut progress = Progress { start: std::time::Instant::now(), steps, done: 0 };
    for kind in KINDS {
        let row = |method| progress.measure(method, LOAD, kind, FILES[0]);
        let rows: Vec<Figures> = METHODS.iter().map(row).collect();
        assert!(rows.iter().all(Figures::all_taken), "every file takes all stars");
        println!(
            "Star numbers: {}. Pages of {PLACES} places, load {} % where it is set, {} files.\n",
            kind.0, LOAD.0, FILES[0]
        );
        print_table(&rows);
        let last = rows[METHODS.len() - 1].last.mean();
        println!("\nIn the file of fixed size the last twentieth of the stars took {last:.2} accesses each.\n");
        if kind.0 == RANDOM.0 {
            print_bars(&rows);
            println!();
        }
    }
    let mut rows =
        |method| loads(method).iter().map(|&load| progress.measure(method, load, RANDOM, FILES[1])).collect();
    let table: Vec<Vec<Figures>> = METHODS.iter().map(&mut rows).collect();
    println!("By the load, random star numbers, means of {} files.\n", FILES[1]);
    print_by_load("read, held", &table, |figures, _| figures.found.mean());
    print_by_load("read, not held", &table, |figures, _| figures.missed.mean());
    print_by_load("for each star entered", &table, Figures::at_load);
    write_figures(&path, &table).expect("writing the figures");
}
