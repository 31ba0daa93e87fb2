//! The report's Table 1 (CS-84-23, section 5): accesses for each star entered, over a full expansion of the file, by the step
//! length. Beside its figures stand those of the library's cascading entry and growth, counted as the report counts, and
//! those of the report's own procedures. Prints a plain table and two plots.

use bench::methods::separators::Separators;
use bench::methods::Method;
use bench::procedures::{Accesses, Cut, Procedures};
use model::hashing::highest_address;
use model::random::Random;
use model::session::Session;
use model::{Growth, Kind, Parameters};
use std::mem::take;

/// Step length, and the report's accesses for insertion and for expansion.
const TABLE: [(u32, f64, f64); 7] = [
    (2, 3.21, 1.16),
    (3, 2.94, 0.99),
    (4, 2.90, 0.97),
    (5, 2.91, 0.97),
    (6, 2.93, 0.97),
    (8, 2.98, 0.99),
    (10, 3.05, 1.02),
];

/// Its b, n0, k and α; N, of which it says nothing; and M with room above the last address.
fn parameters(step: u32) -> Parameters {
    Parameters::new([PLACES as u32, 150, 2, step, 8, 80, 640])
}

/// A full expansion is n0 = 2 partial ones and doubles the file.
const FULL: Growth = Growth { expansions: 2, expanded: 0 };

/// How many files are loaded for each step.
const LOADINGS: u64 = 40;

/// A star entered, and the growth after it if one was due.
struct Entered {
    /// The addressed pages when it came.
    addressed: u64,
    insertion: Accesses,
    /// How many pages hold other stars than before it.
    changed: usize,
    expansion: Accesses,
}

/// Means over the stars entered.
struct Costs {
    read: f64,
    written: f64,
    changed: f64,
    expansion: f64,
}

impl Costs {
    fn of<'a>(list: impl Iterator<Item = &'a Entered> + Clone) -> Costs {
        let count = list.clone().count() as f64;
        let mean = |value: fn(&Entered) -> usize| list.clone().map(value).sum::<usize>() as f64 / count;
        Costs {
            read: mean(|entered| entered.insertion.read),
            written: mean(|entered| entered.insertion.written),
            changed: mean(|entered| entered.changed),
            expansion: mean(|entered| entered.expansion.read + entered.expansion.written),
        }
    }

    fn insertion(&self) -> f64 {
        self.read + self.written
    }
}

const PLACES: usize = 20;

/// The stars entered over a full expansion, from the first growth on.
fn over_expansion(mut list: Vec<Entered>) -> Vec<Entered> {
    let first = list.iter().position(|entered| entered.expansion != Accesses::default()).unwrap();
    list.split_off(first)
}

fn by_library(step: u32, random: &mut Random) -> Vec<Entered> {
    let mut file = Separators::new(parameters(step));
    let mut list = Vec::new();
    while file.session.record.growth != FULL {
        let number = random.star_number();
        if file.session.look_up(number).found == 1 {
            continue;
        }
        let addressed = highest_address(&file.session.parameters, &file.session.record.growth) + 1;
        let costs = file.enter(number).expect("a star is entered, and a growth that is due has room");
        list.push(Entered { addressed, insertion: costs.entry, changed: file.changed, expansion: costs.growth });
    }
    over_expansion(list)
}

/// The procedures as they are printed.
fn by_procedures(step: u32, random: &mut Random) -> Vec<Entered> {
    let mut file = Procedures::new(parameters(step), Cut::AsPrinted);
    let (mut list, mut stars) = (Vec::new(), 0);
    while file.growth != FULL {
        let addressed = highest_address(&parameters(step), &file.growth) + 1;
        if !file.insert(random.star_number()) {
            continue;
        }
        stars += 1;
        let insertion = take(&mut file.accesses);
        if file.due(stars) {
            file.expand();
        }
        list.push(Entered { addressed, insertion, changed: 0, expansion: take(&mut file.accesses) });
    }
    over_expansion(list)
}

/// The stars of all loadings; each step has the same random numbers.
fn loadings(step: u32, load: fn(u32, &mut Random) -> Vec<Entered>) -> Vec<Entered> {
    (0..LOADINGS).flat_map(|seed| load(step, &mut Random(seed))).collect()
}

/// How many pages a call reads: those whose damage it meets.
fn pages_met(session: &Session, kind: Kind, number: u32) -> usize {
    let met = |page: &usize| {
        let mut copy = session.clone();
        copy.lent.file.words[page * PLACES] = u64::MAX;
        copy.call(kind, number, 1, 0).refusal == 5
    };
    (0..session.lent.file.separators.len()).filter(met).count()
}

/// In a file as it is loaded: whether each of some look-ups meets damage on one page, and each of some cascades on as many as
/// were counted.
fn print_pages_met(random: &mut Random) {
    let mut file = Separators::new(parameters(5));
    let (mut held, mut look_ups, mut cascades) = (Vec::new(), 0, 0);
    while file.session.record.growth != FULL {
        let number = random.star_number();
        if file.session.look_up(number).found == 1 {
            continue;
        }
        held.push(number);
        let sampled = random.once_in(100);
        if sampled {
            for number in [number, held[0], random.pick(&held)] {
                assert_eq!(pages_met(&file.session, Kind::LookUp, number), 1, "a look-up reads one page");
                look_ups += 1;
            }
        }
        let met = sampled.then(|| pages_met(&file.session, Kind::Cascade, number));
        let visited = file.enter(number).expect("a star is entered").entry.read;
        if let Some(met) = met {
            assert_eq!(met, visited, "a cascade reads the pages that are counted");
            cascades += 1;
        }
    }
    println!("Each of {look_ups} look-ups met damage on exactly 1 page, each of {cascades} cascades on as many as were counted.");
}

/// For each step the library's costs and those of the report's procedures.
fn print_table(rows: &[(Costs, Costs)]) {
    println!("{:>4} | {:^26} | {:^51} | {:^26}", "", "the report", "the library", "the report's procedures");
    let columns = format!("{:>9} {:>9} {:>6}", "insertion", "expansion", "total");
    let pages = format!("{:>7} {:>7} {:>7}", "read", "written", "changed");
    println!("{:>4} | {columns} | {pages}  {columns} | {columns}", "step");
    let costs =
        |insertion: f64, expansion: f64| format!("{insertion:>9.2} {expansion:>9.2} {:>6.2}", insertion + expansion);
    for (&(step, insertion, expansion), (library, procedures)) in TABLE.iter().zip(rows) {
        let report = costs(insertion, expansion);
        let pages = format!("{:>7.2} {:>7.2} {:>7.2}", library.read, library.written, library.changed);
        let library = costs(library.insertion(), library.expansion);
        let procedures = costs(procedures.insertion(), procedures.expansion);
        println!("{step:>4} | {report} | {pages}  {library} | {procedures}");
    }
}

/// So many marks for an access, and the sum.
fn bar(marks: f64, insertion: f64, expansion: f64) -> String {
    let total = insertion + expansion;
    let (entry, both) = ((marks * insertion).round() as usize, (marks * total).round() as usize);
    format!("{}{} {total:.2}", "#".repeat(entry), "+".repeat(both - entry))
}

fn main() {
    let (mut rows, mut plotted) = (Vec::new(), Vec::new());
    for (step, ..) in TABLE {
        let (library, procedures) = (loadings(step, by_library), loadings(step, by_procedures));
        rows.push((Costs::of(library.iter()), Costs::of(procedures.iter())));
        if [2, 5].contains(&step) {
            plotted.push(library);
        }
        eprintln!("step {step} is done");
    }
    println!("Accesses for each star entered, means of {LOADINGS} files from 300 to 600 pages.\n");
    print_table(&rows);

    println!("\n# by entries, + by growths, ten marks for an access.\n");
    for (&(step, insertion, expansion), (library, _)) in TABLE.iter().zip(&rows) {
        println!("step {step:>2}  report   {}", bar(10.0, insertion, expansion));
        println!("         library  {}", bar(10.0, library.insertion(), library.expansion));
    }

    println!("\nThe library's by the pages addressed, as in the report's Figure 2, five marks for an access.\n");
    println!("{:>10}  {:<40}  step 5", "pages", "step 2");
    for first in (300..600).step_by(15) {
        let [left, right] = [0, 1].map(|i| {
            let here = |entered: &&Entered| (first..first + 15).contains(&entered.addressed);
            let costs = Costs::of(plotted[i].iter().filter(here));
            bar(5.0, costs.insertion(), costs.expansion)
        });
        println!("{:>10}  {left:<40}  {right}", format!("{first} to {}", first + 14));
    }
    println!();
    print_pages_met(&mut Random(0));
}
