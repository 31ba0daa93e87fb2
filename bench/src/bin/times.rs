//! Times the library's calls and prints Markdown tables, with floors measured in the same run; with `--old LIBRARY` an older library's
//! beside them, run in turn with today's: times [--old LIBRARY] FIGURES

use bench::files::{self, File, GROWING, OTHERS, SIZES};
use bench::floors::{Homes, Order};
use bench::timing::{alone, heading, in_turn, many, nanoseconds, restored, warm_up, Row, Runs, Table, FEW_RUNS, RUNS};
use bench::{libraries_with, load, today, Answer, Library};
use model::hashing::MULTIPLIERS;
use model::placement::entered_stretch;
use model::random::Random;
use model::Kind;
use std::hint::black_box;

type Libraries = Vec<Box<dyn Library>>;

/// What is printed besides the rows.
struct Report {
    older: bool,
    notes: Vec<String>,
}

impl Report {
    fn note(&mut self, note: String) {
        eprintln!("{note}");
        self.notes.push(note);
    }

    fn table(&self, file: &File, clearing: &Runs, shown: bool) -> Table {
        Table::new(file.size(), clearing, shown, self.older)
    }

    /// Prints a heading, and the notes so far below it.
    fn section(&mut self, title: &str) {
        self.end();
        println!("\n## {title}\n");
    }

    fn end(&mut self) {
        if !self.notes.is_empty() {
            println!();
        }
        self.notes.drain(..).for_each(|note| println!("- {note}"));
    }
}

/// Clearing the pool, every star's home, the homes of one page of stars, and the stars in order of number.
fn floors(file: &File) -> [Runs; 4] {
    let mut pool = (file.numbers.clone(), file.words.clone(), file.owners.clone());
    let clearing = alone(500, |_| {
        black_box(&mut pool.0).fill(0);
        black_box(&mut pool.1).fill(0);
        black_box(&mut pool.2).fill(0);
    });
    let homes = Homes::new(file);
    let stars = file.stars();
    let sum = |stars: &[u32]| black_box(stars.iter().map(|&star| homes.home(star)).sum::<u32>());
    let page = file.places();
    let every = alone(10, |_| _ = sum(black_box(&stars)));
    let one = alone(1_000, |i| _ = sum(black_box(&stars[i % (stars.len() / page) * page..][..page])));
    let mut order = Order::default();
    let sorted = alone(10, |_| _ = black_box(order.of(black_box(&file.numbers))));
    [clearing, every, one, sorted]
}

/// The answers of one call on copies of the file; all libraries must give the same, and leave the same file.
fn agreed(libraries: &Libraries, call: impl Fn(&mut dyn Library) -> Answer) -> (Answer, File) {
    let outcomes = libraries.iter().map(|library| {
        let mut copy = library.copy();
        let answer = call(copy.as_mut());
        (answer, copy.file())
    });
    let outcomes: Vec<_> = outcomes.collect();
    assert!(outcomes.iter().all(|other| other == &outcomes[0]), "the libraries answer alike: {:?}", outcomes[0].0);
    outcomes.into_iter().next().unwrap()
}

/// How often a run enters the same few stars.
const TIMES: usize = 10;

/// Entries of a few stars and their removals in turn.
fn entries_and_removals(libraries: &mut Libraries, numbers: &[u32]) -> [Runs; 2] {
    in_turn(RUNS, libraries, |library| {
        let mut times = [0.0; 2];
        for _ in 0..TIMES {
            times[0] += nanoseconds(|| numbers.iter().for_each(|&number| _ = black_box(library.enter(number))));
            times[1] += nanoseconds(|| numbers.iter().for_each(|&number| _ = black_box(library.remove(number))));
        }
        times.map(|time| time / (TIMES * numbers.len()) as f64)
    })
}

/// Entries of the same stars by the entry and by the cascade in turn, each followed by removals that are not timed.
fn entries_and_cascades(file: &File, numbers: &[u32]) -> [Runs; 2] {
    in_turn(RUNS, &mut libraries_with(file, &[Kind::Cascade]), |library| {
        let mut times = [0.0; 2];
        for turn in 0..TIMES {
            for i in [turn % 2, 1 - turn % 2] {
                let enter = |&number: &u32| _ = black_box(library.call(Kind::ENTRIES[i], number, 1, 0));
                times[i] += nanoseconds(|| numbers.iter().for_each(enter));
                numbers.iter().for_each(|&number| _ = library.remove(number));
            }
        }
        times.map(|time| time / (TIMES * numbers.len()) as f64)
    })
}

/// The entry and the cascade of one star in turn, each on a copy of its own.
fn entry_and_cascade(runs: usize, file: &File, number: u32) -> [Runs; 2] {
    let mut turn = 0;
    in_turn(runs, &mut libraries_with(file, &[Kind::Cascade]), |library| {
        let mut times = [0.0; 2];
        turn += 1;
        for i in [turn % 2, 1 - turn % 2] {
            let mut copy = library.copy();
            times[i] = nanoseconds(|| _ = black_box(copy.call(Kind::ENTRIES[i], number, 1, 0)));
        }
        times
    })
}

/// A row for the cascade, and a note that compares it with the entry: time, and pages in the mean of these stars, one entered
/// after the other.
fn cascade_row(report: &mut Report, table: &mut Table, name: &str, file: &File, numbers: &[u32], runs: [Runs; 2]) {
    let [entries, cascades] = runs;
    table.row(&format!("cascade{name}"), &cascades);
    let homes = Homes::new(file);
    let (mut cascaded, mut entered) = (today(file), today(file));
    let [mut visited, mut changed, mut reach] = [0; 3];
    for &number in numbers {
        let (before, named) = (cascaded.file(), cascaded.look_up(number).page as usize);
        assert_eq!(cascaded.cascade(number), entered.enter(number), "a cascade answers as the entry");
        let after = cascaded.file();
        assert!(after == entered.file(), "a cascade leaves the file that the entry leaves");
        let stretch = |first, may_be_last: &dyn Fn(usize) -> bool| {
            entered_stretch(file.places(), first, &before.numbers, &after.numbers, may_be_last).count()
        };
        visited += stretch(named, &|_| true);
        changed += before.differing(&after);
        reach += stretch(homes.home(number) as usize, &|page| !before.has_overflowed(page) || page + 1 == file.pages());
    }
    // With two decimals where there are any.
    let mean = |pages: usize| (100.0 * pages as f64 / numbers.len() as f64).round() / 100.0;
    report.note(format!(
        "{}{name}: cascade / enter {:.3}; pages: {} visited, {} of them changed, {} in the reach",
        file.size(),
        cascades.by(&entries),
        mean(visited),
        mean(changed),
        mean(reach),
    ));
}

/// A row for a call on copies of the libraries' files, after a look whether they agree on it.
fn copied_row(table: &mut Table, runs: usize, name: &str, libraries: &mut Libraries, kind: Kind) -> Runs {
    agreed(libraries, |library| library.call(kind, 0, 0, 0));
    let times = restored(runs, libraries, |library| library.call(kind, 0, 0, 0).refusal);
    table.row(name, &times);
    times
}

/// The libraries that have these calls, after the calls of a list.
fn prepared(file: &File, kinds: &[Kind], before: &[Kind]) -> Libraries {
    let mut libraries = libraries_with(file, kinds);
    for library in &mut libraries {
        for &kind in before {
            assert_eq!(library.call(kind, 0, 0, 0).refusal, 0, "{} is accepted", kind.name());
        }
    }
    libraries
}

/// A row for shrinking, of the growth of the same file.
fn shrink_row(table: &mut Table, runs: usize, name: &str, file: &File) -> Runs {
    let mut grown = prepared(file, &[Kind::Shrink], &[Kind::Grow]);
    for library in &grown {
        let mut back = library.copy();
        assert_eq!(back.shrink().refusal, 0, "a growth can be undone");
        assert!(back.file() == *file, "a growth and a shrink restore the file");
    }
    copied_row(table, runs, name, &mut grown, Kind::Shrink)
}

/// The bytes of a table of so many rows: two headers, and blocks of 240 rows.
fn table_length(rows: usize) -> usize {
    5_760 + 2_880 * rows.div_ceil(240)
}

/// Rows for the calls over all pages, and a note that compares them with each other.
fn whole_file_rows(report: &mut Report, table: &mut Table, file: &File) {
    let grow = copied_row(table, RUNS, "grow", &mut prepared(file, &[], &[]), Kind::Grow);
    let steps = [Kind::Open, Kind::Step];
    let open = copied_row(table, RUNS, "open", &mut prepared(file, &steps, &[]), Kind::Open);
    let mut before = vec![Kind::Open];
    before.resize(1 + file.pages() / 2, Kind::Step);
    let step = copied_row(table, RUNS, "step, in the middle", &mut prepared(file, &steps, &before), Kind::Step);
    let shrink = shrink_row(table, RUNS, "shrink", file);
    let check = many(&mut prepared(file, &[], &[]), 1, |library, _| _ = black_box(library.check()));
    table.row("check", &check);
    let mend = copied_row(table, RUNS, "mend", &mut prepared(file, &[Kind::Mend], &[]), Kind::Mend);
    let mut tables = prepared(file, &[Kind::Write, Kind::Read], &[]);
    tables.iter_mut().for_each(|library| library.lend(vec![0; table_length(file.stars().len())]));
    let write = copied_row(table, RUNS, "write a table", &mut tables, Kind::Write);
    tables.iter_mut().for_each(|library| assert_eq!(library.call(Kind::Write, 0, 0, 0).refusal, 0));
    let read = copied_row(table, RUNS, "read a table", &mut tables, Kind::Read);
    let carry = copied_row(table, RUNS, "carry", &mut prepared(file, &[Kind::Carry], &[]), Kind::Carry);
    let size = file.size();
    let [open, step, shrunk, checked] = [open, step, shrink.clone(), check.clone()].map(|call| call.by(&grow));
    report.note(format!("{size}, by a growth: open {open:.2}, step {step:.2}, shrink {shrunk:.2}, check {checked:.2}"));
    let [mend, read, carry] = [mend, read, carry].map(|call| call.by(&shrink));
    let write = write.by(&check);
    report.note(format!(
        "{size}, by a shrink: mend {mend:.2}, read {read:.2}, carry {carry:.2}; by a check: write {write:.2}"
    ));
}

/// Rows for the tray, whose reports are on the stars to be entered and on held ones: adding, a combined look-up of held stars that have no
/// report, and a filing beside the calls that its reports make.
fn tray_rows(report: &mut Report, table: &mut Table, file: &File, held: &[u32], entered: &[u32]) {
    const PLACES: usize = 256;
    let entries = entered.len().min(PLACES / 4);
    let changed = held.len().min(PLACES - entries);
    let reported: Vec<u32> = entered[..entries].iter().chain(&held[..changed]).copied().collect();
    let others = &held[changed..];
    let add = |library: &mut dyn Library| {
        reported.iter().for_each(|&number| assert_eq!(library.call(Kind::Report, number, 2, 0).refusal, 0))
    };
    let mut libraries = prepared(file, &[Kind::Report, Kind::Combined, Kind::Filing], &[]);
    let [adding] = in_turn(RUNS, &mut libraries, |library| {
        let mut copy = library.copy();
        [nanoseconds(|| add(copy.as_mut())) / reported.len() as f64]
    });
    libraries.iter_mut().for_each(|library| add(library.as_mut()));
    let [look_up, combined] = in_turn(RUNS, &mut libraries, |library| {
        [Kind::LookUp, Kind::Combined].map(|kind| {
            let run = || others.iter().for_each(|&number| _ = black_box(library.call(kind, number, 0, 0)));
            nanoseconds(run) / others.len() as f64
        })
    });
    let [filing, calls] = in_turn(RUNS, &mut libraries, |library| {
        let (mut filed, mut called) = (library.copy(), library.copy());
        let filing = nanoseconds(|| _ = black_box(filed.call(Kind::Filing, 0, 0, 0)));
        let calls = nanoseconds(|| {
            for (i, &number) in reported.iter().enumerate() {
                let kind = if i < entries { Kind::Enter } else { Kind::Change };
                assert_eq!(called.call(kind, number, 2, 0).refusal, 0);
            }
        });
        assert!(filed.file() == called.file(), "a filing leaves what the calls of its reports leave");
        [filing, calls]
    });
    table.row("add a report", &adding);
    table.row("combined look-up, no report", &combined);
    table.row("file the tray", &filing);
    table.row("the calls of its reports", &calls);
    report.note(format!(
        "{}, a tray of {entries} entries and {changed} changes: filing by the calls {:.2}; combined look-up by a look-up {:.2}",
        file.size(),
        filing.by(&calls),
        combined.by(&look_up)
    ));
}

/// Some of the stars that can be entered one after the other.
fn entered(libraries: &Libraries, stars: &[u32], count: usize) -> Vec<u32> {
    let mut library = libraries[0].copy();
    stars.iter().copied().filter(|&number| library.enter(number).refusal == 0).take(count).collect()
}

/// Rows for every call on a file that is filled by entries and growths.
fn calls(report: &mut Report, random: &mut Random, empty: File, shown: bool) -> Vec<Row> {
    let file = files::filled(random, empty);
    let mut libraries = libraries_with(&file, &[]);
    let [clearing, every, one, sorted] = floors(&file);
    let mut table = report.table(&file, &clearing, shown);
    let mut held = file.stars();
    let load = 100 * held.len() / (file.addressed() * file.places());
    let (size, addressed) = (file.size(), file.addressed());
    report.note(format!("{size}: {} stars in {addressed} addressed pages, {load} % of their places", held.len()));
    random.shuffle(&mut held);
    held.truncate(300);
    let absent: Vec<u32> = (0..held.len()).map(|_| random.star_number()).collect();
    for &number in held.iter().chain(&absent) {
        agreed(&libraries, |library| library.look_up(number));
    }
    for (&number, &other) in held.iter().zip(&absent).take(100) {
        agreed(&libraries, |library| library.change(number, 7));
        agreed(&libraries, |library| library.remove(number));
        agreed(&libraries, |library| library.enter(other));
    }
    agreed(&libraries, |library| library.check());
    agreed(&libraries, |library| library.due());

    table.row("floor: pool cleared", &clearing);
    table.row("floor: every star's home", &every);
    table.row("floor: homes of one page's stars", &one);
    table.row("by plain code: stars in order of number", &sorted);
    let look_up = |list: &[u32], libraries: &mut Libraries| {
        many(libraries, list.len(), |library, i| _ = black_box(library.look_up(list[i])))
    };
    table.row("look-up, held", &look_up(&held, &mut libraries));
    table.row("look-up, not held", &look_up(&absent, &mut libraries));
    let change = |library: &mut dyn Library, i| _ = black_box(library.change(held[i], i as u32));
    table.row("change", &many(&mut libraries, held.len(), change));
    table.row("due", &many(&mut libraries, 100, |library, _| _ = black_box(library.due())));
    let entered = entered(&libraries, &absent, file.pages() / 4);
    let [entries, removals] = entries_and_removals(&mut libraries, &entered);
    table.row("enter", &entries);
    cascade_row(report, &mut table, "", &file, &entered, entries_and_cascades(&file, &entered));
    table.row("remove", &removals);
    tray_rows(report, &mut table, &file, &held, &entered);
    whole_file_rows(report, &mut table, &file);
    table.rows
}

/// Times a call that is accepted, after a look whether the libraries agree on it; gives the file that it leaves.
fn one_row(table: &mut Table, runs: usize, name: &str, file: &File, call: impl Fn(&mut dyn Library) -> Answer) -> File {
    let mut libraries = libraries_with(file, &[]);
    let after = agreed(&libraries, &call).1;
    table.row(name, &restored(runs, &mut libraries, |library| call(library).refusal));
    after
}

/// Rows for both entries of one star; gives the file that they leave.
fn entry_rows(report: &mut Report, table: &mut Table, runs: usize, name: &str, file: &File, number: u32) -> File {
    let after = one_row(table, runs, &format!("enter{name}"), file, |library| library.enter(number));
    cascade_row(report, table, name, file, &[number], entry_and_cascade(runs, file, number));
    after
}

fn long_calls(report: &mut Report, random: &mut Random) {
    let (full, [newcomer, _]) = files::full_pages(random, 1_000);
    let [clearing, ..] = floors(&full);
    let table = &mut report.table(&full, &clearing, true);
    entry_rows(report, table, RUNS, ", through 1,000 full pages", &full, newcomer);

    let (run, newcomer) = files::overflowed_run(random, 300);
    report.note(format!("the run of overflowed pages has {} of them", run.overflowed()));
    let name = ", bottom of a run of 300 overflowed pages";
    let after = entry_rows(report, table, RUNS, name, &run, newcomer);
    one_row(table, RUNS, &format!("remove{name}"), &after, |library| library.remove(newcomer));
    one_row(table, RUNS, "check, a run of 300 overflowed pages", &run, |library| library.check());
    let (run, newcomer) = files::pushing_run(random, &run, 250);
    entry_rows(report, table, RUNS, ", through a run of 300 overflowed pages", &run, newcomer);
}

/// The slowest calls known: a file that was never grown, with all its stars of one home.
fn one_home(report: &mut Report, random: &mut Random) {
    let (file, newcomer) = files::one_home(random);
    let [clearing, ..] = floors(&file);
    let table = &mut report.table(&file, &clearing, true);
    let stars = file.stars();
    report.note(format!("all stars of one home: {} of them, on pages 0 to {}", stars.len(), file.overflowed()));
    // On the highest full page the most stars have the most separators below them.
    let full = file.numbers.chunks(file.places()).rfind(|page| !page.contains(&0)).unwrap();
    let name = |call: &str| format!("{call}, all stars of one home");
    one_row(table, FEW_RUNS, &name("look-up on the highest full page"), &file, |library| library.look_up(full[0]));
    let after = entry_rows(report, table, FEW_RUNS, ", all stars of one home", &file, newcomer);
    one_row(table, FEW_RUNS, &name("remove"), &after, |library| library.remove(newcomer));
    one_row(table, FEW_RUNS, &name("grow"), &file, |library| library.grow());
    one_row(table, FEW_RUNS, &name("check"), &file, |library| library.check());
    shrink_row(table, FEW_RUNS, &name("shrink"), &file);
}

/// Mendings of pages that hold what no call leaves.
fn hostile_mendings(report: &mut Report) {
    for (name, pages, copies, refusal) in [
        ("mend, 32,768 numbers falling, 640 pages addressed", 640, false, 8),
        ("mend, 32,768 numbers falling, 992 pages addressed", 992, false, 8),
        ("mend, 32,768 copies of seven stars", 992, true, 0),
    ] {
        let file = files::hostile(pages, copies);
        let [clearing, ..] = floors(&file);
        let table = &mut report.table(&file, &clearing, true);
        let mut libraries = prepared(&file, &[Kind::Mend], &[]);
        let times = restored(FEW_RUNS, &mut libraries, |library| {
            u32::from(library.call(Kind::Mend, 0, 0, 0).refusal != refusal)
        });
        table.row(name, &times);
    }
}

/// One line for each call with a figure for each file; none where a file has none.
fn by_file(files: &[Vec<Row>], figure: impl Fn(&Row) -> Option<String>) {
    println!("| call | {} |", files.iter().map(|rows| rows[0].size.as_str()).collect::<Vec<_>>().join(" | "));
    println!("|---|{}", "---:|".repeat(files.len()));
    for (i, row) in files[0].iter().enumerate() {
        let figures: Vec<_> = files.iter().map(|rows| figure(&rows[i]).unwrap_or_default()).collect();
        if figures.iter().any(|figure| !figure.is_empty()) {
            println!("| {} | {} |", row.call, figures.join(" | "));
        }
    }
}

/// The same on a logarithmic scale of nanoseconds, a letter for each file: `a` the first.
fn plot(files: &[Vec<Row>]) {
    const DECADE: f64 = 12.0;
    let column = |nanoseconds: f64| (DECADE * nanoseconds.max(10.0).log10() - DECADE).round() as usize;
    println!("\n```");
    println!("{:33}10 ns       100         1 us        10          100         1 ms        10", "");
    for (i, row) in files[0].iter().enumerate() {
        let mut line = vec![b' '; 80];
        for (rows, mark) in files.iter().zip(b'a'..) {
            line[column(rows[i].least).min(79)] = mark;
        }
        println!("{:33}{}", row.call, String::from_utf8_lossy(&line).trim_end());
    }
    println!("```");
}

/// For bench/plot-sizes: a line for each call and file.
fn figures(files: &[Vec<Row>], parameters: &[[u32; 7]]) -> String {
    let mut text = "call\tpages\tns\n".to_string();
    for (rows, [.., pages]) in files.iter().zip(parameters) {
        rows.iter().for_each(|row| text += &format!("{}\t{pages}\t{:.0}\n", row.call, row.least));
    }
    text
}

/// The rows that differ by more than a twentieth, and how many do not.
fn other_multiplier(rows: &[Row], others: &[Row]) {
    heading(false);
    let mut alike = 0;
    for (row, other) in rows.iter().zip(others) {
        if (other.least / row.least - 1.0).abs() <= 0.05 {
            alike += 1;
        } else {
            println!(
                "| {} | {} | {:.0} | {:.0} | {:.2} |",
                other.call, other.size, other.least, other.median, other.pools
            );
        }
    }
    println!("\nThe other {alike} rows are within 5 % of those under {}.", MULTIPLIERS[0]);
}

fn main() {
    let arguments: Vec<String> = std::env::args().skip(1).collect();
    let (older, path) = match arguments.iter().map(String::as_str).collect::<Vec<_>>()[..] {
        ["--old", library, path] => {
            load(library).unwrap_or_else(|why| panic!("{why}"));
            (true, path.to_string())
        }
        [path] => (false, path.to_string()),
        _ => panic!("times [--old LIBRARY] FIGURES"),
    };
    warm_up();
    let mut report = Report { older, notes: Vec::new() };
    let mut random = Random(1);
    println!("## Three sizes\n");
    heading(older);
    let mut rows = Vec::new();
    for parameters in SIZES {
        rows.extend(calls(&mut report, &mut random, File::empty(parameters), true));
    }
    long_calls(&mut report, &mut random);
    one_home(&mut report, &mut random);
    hostile_mendings(&mut report);

    report.section("Small pages and other loads");
    heading(older);
    for parameters in OTHERS {
        calls(&mut report, &mut random, File::empty(parameters), true);
    }

    report.section("By the number of pages");
    let mut quiet = Report { older, notes: Vec::new() };
    let growing = GROWING.map(|parameters| calls(&mut quiet, &mut random, File::empty(parameters), false));
    println!("![Least times by the number of pages](benchmark.png)\n\nLeast nanoseconds:\n");
    by_file(&growing, |row| Some(format!("{:.0}", row.least)));
    plot(&growing);
    std::fs::write(&path, figures(&growing, &GROWING)).unwrap_or_else(|why| panic!("{path}: {why}"));
    if older {
        println!("\nOld / new:\n");
        by_file(&growing, |row| row.older.map(|older| format!("{:.2}", older.ratio)));
    }

    report.section("The other multiplier");
    let mut random = Random(1);
    let others = SIZES.map(|parameters| calls(&mut quiet, &mut random, File::under(MULTIPLIERS[1], parameters), false));
    other_multiplier(&rows, &others.into_iter().flatten().collect::<Vec<_>>());
    report.end();
}
