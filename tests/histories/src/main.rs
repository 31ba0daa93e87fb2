//! Random testing of the library against the model: histories [--quick | --soak MINUTES] [--only NAME] [--seed N]

mod carryings;
mod history;
mod scenarios;
mod tables;
mod tester;
mod trays;

use interface::LIBRARY;
use std::panic::{catch_unwind, AssertUnwindSafe};
use std::process::exit;
use std::time::{Duration, Instant};
use tester::Tester;

/// A name, how often a quick run repeats it and a round of a soak, and what to do.
type Scenario = (&'static str, u64, u64, fn(&mut Tester));

const SCENARIOS: [Scenario; 34] = [
    ("tiny files", 12, 3, scenarios::tiny_files),
    ("edge histories", 20, 10, scenarios::edge_histories),
    ("small histories", 3_000, 1_000, scenarios::small_history),
    ("every size, edges", 3, 1, scenarios::every_edge_size),
    ("every size", 500, 150, scenarios::every_size),
    ("growths in steps", 600, 200, scenarios::growths_in_steps),
    ("growths in steps, sound files", 600, 200, scenarios::sound_growths_in_steps),
    ("single-bit damage", 45, 20, scenarios::single_bit_damage),
    ("single-bit arguments", 40, 10, scenarios::single_bit_arguments),
    ("damaged sessions", 15_000, 4_000, scenarios::damaged_session),
    ("sound sessions", 18_000, 5_000, scenarios::sound_session),
    ("power cuts", 150, 40, scenarios::power_cuts),
    ("long power cuts", 12, 4, scenarios::long_power_cuts),
    ("large power cuts", 8, 4, scenarios::large_power_cuts),
    ("mendings", 12_000, 4_000, scenarios::mendings),
    ("large mendings", 10, 4, scenarios::large_mendings),
    ("full files", 500, 150, scenarios::full_file_entries),
    ("same stars", 1_200, 400, scenarios::same_stars),
    ("large histories", 24, 10, scenarios::large_history),
    ("largest histories", 6, 4, scenarios::largest_history),
    ("large growths in steps", 24, 10, scenarios::large_steps),
    ("long cascades", 1, 1, scenarios::long_cascade),
    ("tables", 3_000, 1_000, tables::tables),
    ("mutated tables", 10_000, 3_000, tables::mutated_tables),
    ("large tables", 3, 1, tables::large_tables),
    ("histories with tables", 400, 150, tables::histories_with_tables),
    ("carryings", 5_000, 1_500, carryings::carryings),
    ("large carryings", 8, 3, carryings::large_carryings),
    ("histories with carryings", 400, 150, carryings::histories_with_carryings),
    ("histories with trays", 600, 200, trays::histories_with_trays),
    ("any trays", 8_000, 2_500, trays::any_trays),
    ("full trays", 60, 20, trays::full_trays),
    ("large filings", 4, 2, trays::large_filings),
    ("growth records", 4_000, 1_200, scenarios::growth_records),
];

/// The refusals that calls meet, after 0 for none.
const REFUSALS: [usize; 17] = [0, 1, 2, 3, 4, 5, 6, 7, 8, 9, 10, 11, 12, 13, 14, 15, 16];

struct Totals {
    tester: Tester,
    passed: u64,
    failed: u64,
}

impl Totals {
    fn run(&mut self, name: &str, scenario: fn(&mut Tester), seed: u64) {
        self.tester.random.0 = seed;
        let tester = &mut self.tester;
        if catch_unwind(AssertUnwindSafe(|| scenario(tester))).is_err() {
            tester.fail("panicked".to_string());
        }
        if self.tester.failures.is_empty() {
            self.passed += 1;
            return;
        }
        self.failed += 1;
        for failure in self.tester.failures.drain(..).take(3) {
            println!("{name}, seed {seed}: {failure}");
        }
    }

    fn round(&mut self, quick: bool, only: &str, seed: u64) {
        for (index, &(name, in_quick, in_soak, scenario)) in SCENARIOS.iter().enumerate() {
            if !name.contains(only) {
                continue;
            }
            let start = Instant::now();
            let count = if quick { in_quick } else { in_soak };
            for i in 0..count {
                self.run(name, scenario, seed.wrapping_add((index as u64) << 32).wrapping_add(i));
            }
            if quick {
                println!("{name}: {count} in {:.1} s", start.elapsed().as_secs_f64());
            }
        }
    }
}

fn usage() -> ! {
    eprintln!("usage: histories [--quick | --soak MINUTES] [--only NAME] [--seed N]");
    exit(2)
}

fn main() {
    let (mut soak, mut only, mut seed) = (None, String::new(), 1);
    let mut arguments = std::env::args().skip(1);
    while let Some(argument) = arguments.next() {
        let mut number = || arguments.next().and_then(|text| text.parse().ok()).unwrap_or_else(|| usage());
        match argument.as_str() {
            "--quick" => soak = None,
            "--soak" => soak = Some(Duration::from_secs(60 * number())),
            "--seed" => seed = number(),
            "--only" => only = arguments.next().unwrap_or_else(|| usage()),
            _ => usage(),
        }
    }
    println!("seed {seed}");
    let mut totals = Totals { tester: Tester::new(), passed: 0, failed: 0 };
    let start = Instant::now();
    match soak {
        None => totals.round(true, &only, seed),
        Some(time) => {
            totals.run("all 1,024 sizes", scenarios::all_sizes, seed);
            println!("{:.1} min: all 1,024 sizes", start.elapsed().as_secs_f64() / 60.0);
            for round in 0.. {
                // Rounds draw on seeds of their own, far from each other.
                totals.round(false, &only, seed.wrapping_add(round << 40));
                let minutes = start.elapsed().as_secs_f64() / 60.0;
                println!(
                    "{minutes:.1} min: {} calls, {} passed, {} failed",
                    totals.tester.calls, totals.passed, totals.failed
                );
                if start.elapsed() >= time {
                    break;
                }
            }
        }
    }
    println!("{:<15}{}", "refusals", REFUSALS.map(|refusal| format!("{refusal:>9}")).concat());
    for kind in LIBRARY.kinds() {
        let counts = totals.tester.refusals[kind as usize];
        println!("{:<15}{}", kind.name(), REFUSALS.map(|refusal| format!("{:>9}", counts[refusal])).concat());
    }
    println!("{} pairs of histories ended in the same stars", totals.tester.alike);
    let Tester { cuts, torn, .. } = totals.tester;
    println!(
        "{cuts} stopped calls mended, {torn} of them from files that were neither the one before nor the one after"
    );
    println!("{} growths, shrinks, openings and steps ran on a lent growth record too", totals.tester.on_records);
    println!("{} calls compared in {:.1} s", totals.tester.calls, start.elapsed().as_secs_f64());
    println!("{} passed, {} failed", totals.passed, totals.failed);
    exit((totals.failed > 0) as i32);
}
