//! Times of calls, those of two libraries run in turn, and the table of them.

use crate::Library;

pub const RUNS: usize = 31;
/// For calls that take tenths of a second.
pub const FEW_RUNS: usize = 9;

#[repr(C)]
#[derive(Default)]
struct Timespec {
    seconds: i64,
    nanoseconds: i64,
}

extern "C" {
    fn clock_gettime(clock: i32, time: *mut Timespec) -> i32;
}

/// The processor time of this thread, which leaves out other work on the machine.
fn clock() -> f64 {
    const THREAD_CPUTIME: i32 = 3;
    let mut time = Timespec::default();
    // SAFETY: Linux's C library writes one timespec of this form.
    assert_eq!(unsafe { clock_gettime(THREAD_CPUTIME, &mut time) }, 0);
    time.seconds as f64 * 1e9 + time.nanoseconds as f64
}

pub fn nanoseconds(work: impl FnOnce()) -> f64 {
    let start = clock();
    work();
    clock() - start
}

/// Half a second of work, so that the first times are not those of a processor that has just woken.
pub fn warm_up() {
    let (start, mut sum) = (clock(), 0_u64);
    while clock() - start < 5e8 {
        sum = std::hint::black_box(sum.wrapping_mul(6_364_136_223_846_793_005).wrapping_add(1));
    }
}

fn median(mut list: Vec<f64>) -> f64 {
    list.sort_by(f64::total_cmp);
    list[list.len() / 2]
}

fn least(list: &[f64]) -> f64 {
    list.iter().copied().fold(f64::INFINITY, f64::min)
}

/// Runs of each library, nanoseconds of one call, so that the runs of equal index are neighbours in time.
#[derive(Clone)]
pub struct Runs(Vec<Vec<f64>>);

impl Runs {
    /// The median, over neighbouring runs of today's library, of this time by another.
    pub fn by(&self, other: &Runs) -> f64 {
        median(self.0[0].iter().zip(&other.0[0]).map(|(this, other)| this / other).collect())
    }
}

/// Runs the libraries in turn, each of them first in every second pair, and once untold; a run times several things.
pub fn in_turn<const N: usize>(
    runs: usize,
    libraries: &mut [Box<dyn Library>],
    mut run: impl FnMut(&mut dyn Library) -> [f64; N],
) -> [Runs; N] {
    let mut times = [(); N].map(|_| Runs(vec![Vec::new(); libraries.len()]));
    for pair in 0..=runs {
        for i in 0..libraries.len() {
            let i = if pair % 2 == 0 { i } else { libraries.len() - 1 - i };
            for (time, times) in run(libraries[i].as_mut()).into_iter().zip(&mut times).filter(|_| pair > 0) {
                times.0[i].push(time);
            }
        }
    }
    times
}

/// Runs of many calls each.
pub fn many(libraries: &mut [Box<dyn Library>], calls: usize, mut call: impl FnMut(&mut dyn Library, usize)) -> Runs {
    let [times] =
        in_turn(RUNS, libraries, |library| [nanoseconds(|| (0..calls).for_each(|i| call(library, i))) / calls as f64]);
    times
}

/// Runs of one call each, on a file that is restored outside the timed part.
pub fn restored(runs: usize, libraries: &mut [Box<dyn Library>], call: impl Fn(&mut dyn Library) -> u32) -> Runs {
    let [times] = in_turn(runs, libraries, |library| {
        let mut copy = library.copy();
        let mut refusal = 0;
        let time = nanoseconds(|| refusal = call(copy.as_mut()));
        assert_eq!(refusal, 0, "a timed call is accepted");
        [time]
    });
    times
}

/// Runs of something that has no second form.
pub fn alone(calls: usize, mut work: impl FnMut(usize)) -> Runs {
    Runs(vec![(0..RUNS).map(|_| nanoseconds(|| (0..calls).for_each(&mut work)) / calls as f64).collect()])
}

/// The older library's part of a row: its times, and how much faster today's is.
#[derive(Clone, Copy)]
pub struct Older {
    pub least: f64,
    pub median: f64,
    pub ratio: f64,
}

/// One call on one file, in nanoseconds; the time to clear the file's pool is the unit of `pools`.
pub struct Row {
    pub call: String,
    pub size: String,
    pub least: f64,
    pub median: f64,
    pub pools: f64,
    pub older: Option<Older>,
}

/// The rows of one file.
pub struct Table {
    size: String,
    clearing: f64,
    /// Whether rows are printed as they are measured, with columns for an older library.
    shown: bool,
    older: bool,
    pub rows: Vec<Row>,
}

/// Prints a table's heading.
pub fn heading(older: bool) {
    let (names, columns) = match older {
        true => (" old min ns | old median ns | old / new |", "---:|---:|---:|"),
        false => ("", ""),
    };
    println!("| call | size | min ns | median ns | min / pool cleared |{names}");
    println!("|---|---|---:|---:|---:|{columns}");
}

impl Table {
    pub fn new(size: String, clearing: &Runs, shown: bool, older: bool) -> Table {
        Table { size, clearing: least(&clearing.0[0]), shown, older, rows: Vec::new() }
    }

    pub fn row(&mut self, name: &str, runs: &Runs) {
        let new = &runs.0[0];
        let older = runs.0.get(1).map(|old| Older {
            least: least(old),
            median: median(old.clone()),
            ratio: median(old.iter().zip(new).map(|(old, new)| old / new).collect()),
        });
        let (call, size, min) = (name.to_string(), self.size.clone(), least(new));
        let row = Row { call, size, least: min, median: median(new.clone()), pools: min / self.clearing, older };
        if self.shown {
            self.print(&row);
        } else {
            eprintln!("{}: {name} {min:.0} ns", self.size);
        }
        self.rows.push(row);
    }

    fn print(&self, row: &Row) {
        print!("| {} | {} | {:.0} | {:.0} | {:.2} |", row.call, row.size, row.least, row.median, row.pools);
        match row.older {
            Some(Older { least, median, ratio }) => print!(" {least:.0} | {median:.0} | {ratio:.2} |"),
            None if self.older => print!(" | | |"),
            None => (),
        }
        println!();
    }
}
