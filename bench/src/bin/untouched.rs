//! How many pages a growth leaves untouched, by k and A, in files that fill and grow as Due says: pages without a mark of
//! `mark_changed`, and pages that are really as before. Prints a plain table; fails where a page without a mark has changed.

use bench::files::{File, SIZES};
use bench::{marked, today};
use model::random::Random;
use model::Kind;

const BITS: [u32; 3] = [2, 4, 8];
const LOADS: [u32; 4] = [50, 65, 80, 95];

/// How many files of each size are filled, for about a thousand growths.
const TRIES: [usize; 3] = [20, 4, 1];

/// One accepted growth: pages in use before or after it, those of them without a mark, and those that are as before.
struct Growth {
    used: usize,
    unmarked: usize,
    unchanged: usize,
}

impl Growth {
    fn between(before: &File, after: &File) -> Result<Growth, String> {
        let marks = marked(before, after);
        let same: Vec<bool> = (0..before.pages()).map(|page| before.same_page(after, page)).collect();
        if let Some(page) = (0..before.pages()).find(|&page| !marks[page] && !same[page]) {
            let (size, growth) = (before.size(), before.growth);
            return Err(format!("{size}, (e, x) = {growth:?}: page {page} has no mark and changed"));
        }
        let used = before.pages_in_use().max(after.pages_in_use());
        let unmarked = marks[..used].iter().filter(|&&mark| !mark).count();
        let unchanged = same[..used].iter().filter(|&&same| same).count();
        Ok(Growth { used, unmarked, unchanged })
    }

    fn marked(&self) -> usize {
        self.used - self.unmarked
    }

    /// In per cent of the pages in use.
    fn share(&self, pages: usize) -> f64 {
        100.0 * pages as f64 / self.used as f64
    }
}

/// The growths of a file that fills until M pages are addressed, or until a call is refused with 8; and whether it was M.
fn growths(parameters: [u32; 7], random: &mut Random) -> Result<(Vec<Growth>, bool), String> {
    let mut file = File::empty(parameters);
    let mut library = today(&file);
    let mut growths = Vec::new();
    while file.addressed() < file.pages() {
        let (ra, dec) = random.position();
        match library.call(Kind::Enter, random.star_number(), ra, dec).refusal {
            // A random number may come twice.
            0 | 6 => {}
            8 => return Ok((growths, false)),
            other => return Err(format!("an entry was refused with {other}")),
        }
        if library.due().due {
            let before = library.file();
            if library.grow().refusal == 8 {
                return Ok((growths, false));
            }
            file = library.file();
            growths.push(Growth::between(&before, &file)?);
        }
    }
    Ok((growths, true))
}

fn row(parameters: [u32; 7], tries: usize) -> Result<(), String> {
    let mut random = Random(1);
    let (mut list, mut grown) = (Vec::new(), 0);
    for _ in 0..tries {
        let (growths, whole) = growths(parameters, &mut random)?;
        list.extend(growths);
        grown += usize::from(whole);
    }
    let [.., bits, load, _] = parameters;
    print!("{:>11} {bits:>2} {load:>3} {grown:>5} of {tries:<2} {:>8} |", File::empty(parameters).size(), list.len());
    if list.is_empty() {
        println!(" {:>9} {:>9} {:>11} | {:>6} {:>5}", "-", "-", "-", "-", "-");
        return Ok(());
    }
    let mean = |value: &dyn Fn(&Growth) -> f64| list.iter().map(value).sum::<f64>() / list.len() as f64;
    let unmarked = mean(&|growth| growth.share(growth.unmarked));
    let unchanged = mean(&|growth| growth.share(growth.unchanged));
    let least = list.iter().map(|growth| growth.share(growth.unmarked)).fold(100.0, f64::min);
    let marked = mean(&|growth| growth.marked() as f64);
    let most = list.iter().map(Growth::marked).max().unwrap();
    println!(" {unmarked:>7.1} % {least:>7.1} % {unchanged:>9.1} % | {marked:>6.1} {most:>5}");
    Ok(())
}

fn main() -> Result<(), String> {
    println!(
        "{:>11} {:>2} {:>3} {:>11} {:>8} | {:^31} | {:^12}",
        "", "", "", "files grown", "", "share of the pages in use", "marked pages"
    );
    println!(
        "{:>11} {:>2} {:>3} {:>11} {:>8} | {:>9} {:>9} {:>11} | {:>6} {:>5}",
        "file", "k", "A", "to M pages", "growths", "unmarked", "least", "unchanged", "mean", "most"
    );
    for (size, tries) in SIZES.into_iter().zip(TRIES) {
        for bits in BITS {
            for load in LOADS {
                let [places, groups, width, step, .., pages] = size;
                row([places, groups, width, step, bits, load, pages], tries)?;
                eprintln!("M={pages}, k={bits}, A={load} is done");
            }
        }
    }
    Ok(())
}
