//! How often the tray's filter says "yes" of a star that no report names, by the number of waiting reports: counted on random trays, and by
//! the usual formula for a filter of 2,048 bits and three hash values. Prints a plain table with bars; fails where they differ by more than
//! a tenth of the formula, and a hundredth of a per cent.

use model::random::Random;
use model::tray::{Report, Tray};

const WAITING: [usize; 9] = [16, 32, 64, 96, 128, 160, 192, 224, 256];
const TRAYS: usize = 400;
const SOUGHT: usize = 5_000;
const BITS: f64 = 2_048.0;
const HASHES: i32 = 3;

/// The share of random stars that the filter of random reports does not exclude, though none of the reports names them.
fn counted(random: &mut Random, multiplier: u32, waiting: usize) -> f64 {
    let mut passed = 0;
    for _ in 0..TRAYS {
        let mut tray = Tray::zeros();
        for _ in 0..waiting {
            tray.add(multiplier, Report { number: random.star_number(), ..Report::default() });
        }
        let absent = |random: &mut Random| loop {
            let star = random.star_number();
            if tray.waiting().iter().all(|report| report.number != star) {
                return star;
            }
        };
        for _ in 0..SOUGHT {
            let star = absent(random);
            passed += usize::from(tray.passes(multiplier, star));
        }
    }
    passed as f64 / (TRAYS * SOUGHT) as f64
}

/// The share of set bits, to the power of the hash values.
fn expected(waiting: usize) -> f64 {
    let clear = (1.0 - 1.0 / BITS).powi(HASHES * waiting as i32);
    (1.0 - clear).powi(HASHES)
}

fn main() {
    let mut random = Random(1);
    println!("| waiting | 16,807 | 48,271 | formula | |\n|---:|---:|---:|---:|:---|");
    let mut apart = false;
    for waiting in WAITING {
        let shares = [16_807, 48_271].map(|multiplier| counted(&mut random, multiplier, waiting));
        let formula = expected(waiting);
        apart |= shares.iter().any(|share| (share - formula).abs() > 0.1 * formula + 0.000_1);
        let [first, second] = shares.map(|share| 100.0 * share);
        let bar = "#".repeat((2_000.0 * formula).round() as usize);
        println!("| {waiting} | {first:.3} % | {second:.3} % | {:.3} % | `{bar}` |", 100.0 * formula);
    }
    assert!(!apart, "counted and expected shares differ");
}
