//! A table of 20,000 random stars, written by the library, and its rows as lines `number ra dec`; or the rows of a table that the
//! library reads: catalogue write TABLE ROWS | catalogue read TABLE

use model::files::{clean_file, growth_after, LARGE};
use model::placement::{unpack, Star};
use model::random::Random;
use model::{Buffers, Call, Kind, Outcome, Pages, Parameters, Record};
use std::fs;

const STARS: usize = 20_000;

fn lines(pages: &Pages) -> String {
    let mut stars: Vec<Star> = pages.stars().collect();
    stars.sort();
    let line = |star: &Star| {
        let (ra, dec) = unpack(star.word);
        format!("{} {ra} {dec}\n", star.number)
    };
    stars.iter().map(line).collect()
}

fn run(kind: Kind, lent: &mut Buffers) -> Outcome {
    let parameters = Parameters::new(LARGE[0]);
    let record = Record::closed(growth_after(&parameters, 1_008));
    let outcome = interface::run(&Call::new(kind, parameters, record), lent);
    assert_eq!(outcome.refusal, 0, "{} is refused", kind.name());
    outcome
}

fn main() {
    let arguments: Vec<String> = std::env::args().skip(1).collect();
    let parameters = Parameters::new(LARGE[0]);
    match &arguments.iter().map(String::as_str).collect::<Vec<_>>()[..] {
        ["write", table, rows] => {
            let growth = growth_after(&parameters, 1_008);
            let percent = (100 * STARS).div_ceil(parameters.items()) as u64;
            let mut lent = clean_file(&mut Random(1), &parameters, &growth, percent);
            lent.table = vec![0; 5_760 + 12 * parameters.items()];
            let length = run(Kind::Write, &mut lent).length as usize;
            fs::write(table, &lent.table[..length]).expect("the table can be stored");
            fs::write(rows, lines(&lent.file)).expect("the rows can be stored");
        }
        ["read", table] => {
            let mut lent = Buffers::zeros(&parameters);
            lent.table = fs::read(table).expect("the table can be read");
            run(Kind::Read, &mut lent);
            print!("{}", lines(&lent.file));
        }
        _ => panic!("usage: catalogue write TABLE ROWS | catalogue read TABLE"),
    }
}
