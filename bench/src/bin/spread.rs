//! How star numbers of several kinds spread over the pages of a file that grows as Due says, up to M pages or a few less,
//! and then fills until a call is refused with 8. Prints a plain table.

use bench::files::{File, Numbering, CONSECUTIVE, EVEN, RANDOM, SIZES, ZONES, ZONES_IN_TURN};
use bench::floors::Homes;
use bench::today;
use model::random::Random;

const KINDS: [Numbering; 5] = [CONSECUTIVE, EVEN, RANDOM, ZONES, ZONES_IN_TURN];

/// How many beginnings are tried at each size.
const TRIES: [usize; 3] = [25, 9, 3];

/// The share of stars at home in per cent, the most pages that a star stands above its home, and the load of all M pages in
/// per cent.
struct Spread {
    at_home: f64,
    farthest: usize,
    load: f64,
}

fn spread(file: &File) -> Spread {
    let homes = Homes::new(file);
    let stars = file.numbers.iter().enumerate().filter(|(_, &number)| number != 0);
    let above: Vec<usize> = stars.map(|(item, &star)| item / file.places() - homes.home(star) as usize).collect();
    let at_home = above.iter().filter(|&&above| above == 0).count();
    Spread {
        at_home: 100.0 * at_home as f64 / above.len() as f64,
        farthest: above.iter().copied().max().unwrap(),
        load: 100.0 * above.len() as f64 / file.numbers.len() as f64,
    }
}

/// Fills a file whose growth ends `short` pages before M. Gives the file after the last growth and at the refusal with 8,
/// and whether it was a growth that was refused.
fn fill(parameters: [u32; 7], short: usize, kind: Numbering, random: &mut Random) -> (File, File, bool) {
    let mut state = File::empty(parameters);
    let mut library = today(&state);
    let last = state.pages() - short;
    let mut grown = None;
    let first = 1 + random.below(1_000_000) as u32;
    for i in 0.. {
        match library.enter(kind.1(first, i, random)).refusal {
            // A random number may come twice.
            0 | 6 => {}
            // Before the last growth, both are the file as it is.
            8 => return (grown.unwrap_or_else(|| library.file()), library.file(), false),
            other => panic!("an entry was refused with {other}"),
        }
        if state.addressed() < last && library.due().due {
            if library.grow().refusal == 8 {
                return (library.file(), library.file(), true);
            }
            state.growth = library.growth();
            if state.addressed() == last {
                grown = Some(library.file());
            }
        }
    }
    unreachable!()
}

fn row(parameters: [u32; 7], short: usize, kind: Numbering, tries: usize) {
    let mut random = Random(1);
    let files: Vec<_> = (0..tries).map(|_| fill(parameters, short, kind, &mut random)).collect();
    let grown: Vec<Spread> = files.iter().map(|file| spread(&file.0)).collect();
    let full: Vec<Spread> = files.iter().map(|file| spread(&file.1)).collect();
    let at_home = grown.iter().map(|spread| spread.at_home).sum::<f64>() / tries as f64;
    let farthest = |list: &[Spread]| list.iter().map(|spread| spread.farthest).max().unwrap();
    let mut loads: Vec<f64> = full.iter().map(|spread| spread.load).collect();
    loads.sort_by(f64::total_cmp);
    let by_growth = files.iter().filter(|file| file.2).count();
    print!("{:>11} {:>20} {short:>6} |", files[0].0.size(), kind.0);
    print!(" {at_home:>7.1} % {:>9} |", farthest(&grown));
    println!(" {:>7.1} % {:>7.1} % {:>9} {by_growth:>6} of {tries}", loads[0], loads[tries / 2], farthest(&full));
}

fn main() {
    println!(
        "{:>11} {:>20} {:>6} | {:^19} | {:^40}",
        "", "", "pages", "after the growths", "at the first refusal with 8"
    );
    println!(
        "{:>11} {:>20} {:>6} | {:>9} {:>9} | {:>9} {:>9} {:>9} {:>9}",
        "file", "star numbers", "short", "at home", "farthest", "least", "median", "farthest", "a growth"
    );
    for (parameters, tries) in SIZES.into_iter().zip(TRIES) {
        let pages = parameters[6] as usize;
        for kind in KINDS {
            for short in [0, 1, pages / 32] {
                row(parameters, short, kind, tries);
            }
        }
        eprintln!("M={pages} is done");
    }
}
