//! Tables written and read.

use crate::history::History;
use crate::tester::Tester;
use model::files::*;
use model::placement::{pack, unpack, Star};
use model::{fits, hdu, Buffers, Call, Growth, Kind, Parameters, Record};

/// As the Standard's reader has it.
fn row(star: &Star) -> Vec<i32> {
    let (ra, dec) = unpack(star.word);
    vec![star.number as i32, ra as i32, dec]
}

fn star(row: &[i32]) -> Star {
    Star { number: row[0] as u32, word: pack(row[1] as u32, row[2]), owner: 0 }
}

/// A file is written; the Standard's reader finds its stars in rising order of number; read in again they make the same file,
/// but for owners, and writing that gives the same bytes.
fn there_and_back(tester: &mut Tester, parameters: Parameters, growth: Growth, mut lent: Buffers) {
    random_output(&mut tester.random, &mut lent);
    let call = Call::new(Kind::Write, parameters, Record::closed(growth));
    let (written, after) = tester.compare(&call, &lent);
    if written.refusal != 0 {
        return;
    }
    let table = after.table[..written.length as usize].to_vec();
    let rows = hdu::read(&table).and_then(|units| match &units[..] {
        [_, only] => only.rows(),
        _ => Err("not one table".to_string()),
    });
    let mut stars: Vec<Star> = lent.file.stars().map(|star| Star { owner: 0, ..star }).collect();
    stars.sort();
    let found = rows.as_ref().map(|rows| rows.iter().map(|row| star(row)).collect());
    tester.expect(found == Ok(stars.clone()), "the Standard's reader finds other stars, or no table");
    let again = hdu::write(&hdu::table(3, &[], &stars.iter().map(row).collect::<Vec<_>>()));
    tester.expect(again == table, "the Standard's writer writes another table");
    let mut empty = Buffers { table, ..Buffers::zeros(&parameters) };
    random_pool(&mut tester.random, &mut empty);
    let (read, restored) = tester.compare(&Call { kind: Kind::Read, ..call }, &empty);
    let (checked, _) = tester.compare(&Call { kind: Kind::Check, ..call }, &lent);
    if checked.refusal == 0 {
        let mut without_owners = lent.file.clone();
        without_owners.owners.fill(0);
        tester.expect(read.refusal == 0 && restored.file == without_owners, "a table read does not restore its file");
    }
    if read.refusal == 0 {
        write_again(tester, &call, &restored);
    }
}

/// A file that was just read from a table is written to the same bytes.
pub fn write_again(tester: &mut Tester, call: &Call, read: &Buffers) {
    let lent = Buffers { table: vec![170; read.table.len()], ..read.clone() };
    let (written, again) = tester.compare(&Call { kind: Kind::Write, ..*call }, &lent);
    let same = written.refusal == 0 && written.length as usize == read.table.len() && again.table == read.table;
    tester.expect(same, "writing a table that was read does not restore its bytes");
}

pub fn tables(tester: &mut Tester) {
    let parameters = small_parameters(&mut tester.random);
    let growth = random_growth(&mut tester.random, &parameters);
    let mut lent = match tester.random.below(3) {
        0 => sound_file(&mut tester.random, &parameters, &growth),
        _ => clean_file(&mut tester.random, &parameters, &growth, 100),
    };
    if tester.random.once_in(6) {
        let bit = tester.random.below(bits(&lent) as u64) as usize;
        flip(&mut lent, bit);
    }
    there_and_back(tester, parameters, growth, lent);
}

pub fn large_tables(tester: &mut Tester) {
    let parameters = Parameters::new(LARGE[0]).under(random_multiplier(&mut tester.random));
    let growth = growth_after(&parameters, 1_008);
    let percent = tester.random.pick(&[30, 85]);
    let lent = clean_file(&mut tester.random, &parameters, &growth, percent);
    there_and_back(tester, parameters, growth, lent);
}

/// A table with cards, rows, pads or lengths that no writer puts out, or with stars that do not fit, read over anything.
pub fn mutated_tables(tester: &mut Tester) {
    let parameters = small_parameters(&mut tester.random);
    let growth = random_growth(&mut tester.random, &parameters);
    let mut lent = sound_file(&mut tester.random, &parameters, &growth);
    let most = 2 * parameters.items() as u64 + 2;
    let mut stars: Vec<Star> = (0..tester.random.below(most)).map(|_| random_star(&mut tester.random)).collect();
    stars.sort();
    stars.dedup_by_key(|star| star.number);
    lent.table = fits::table(&stars);
    for _ in 0..tester.random.pick(&[0, 1, 1, 1, 2]) {
        mutate(tester, &mut lent.table, stars.len());
    }
    random_pool(&mut tester.random, &mut lent);
    let call = Call::new(Kind::Read, parameters, random_record(&mut tester.random, &parameters, growth));
    let (read, after) = tester.compare(&call, &lent);
    if read.refusal == 0 {
        write_again(tester, &call, &after);
    }
    // Whatever is taken is a table by the Standard; what is refused may be one.
    tester.expect(
        read.refusal != 0 || hdu::read(&lent.table).is_ok(),
        "a table is taken that the Standard does not know",
    );
}

fn mutate(tester: &mut Tester, table: &mut Vec<u8>, rows: usize) {
    // Nothing is left of one that was cut short.
    if table.len() < 5_760 {
        return;
    }
    let random = &mut tester.random;
    let any = random.draw();
    let card = random.below(12) as usize;
    let row = 5_760 + 12 * random.below(rows.max(1) as u64) as usize;
    match random.below(13) {
        // A character, a bit, or a byte of the headers.
        0 => table[any as usize % 5_760] = random.pick(b" 019JTF='/AZ\0\n"),
        1 => table[any as usize % 5_760] ^= 1 << random.below(8),
        2 => table[2_880 + 80 * card + random.below(32) as usize] = random.pick(b" 0123456789"),
        // Two cards exchanged, one again, one as blanks, or a comment.
        3 => (0..80).for_each(|i| table.swap(2_880 + 80 * card + i, 2_880 + 80 * (card + 1) + i)),
        4 => table.copy_within(2_880 + 80 * card..2_960 + 80 * card, 2_960 + 80 * card),
        5 => table[2_880 + 80 * card..][..80].fill(b' '),
        6 => table[2_880 + 80 * card + 31..][..9].copy_from_slice(b"/ comment"),
        // Another number of rows, right-justified or not.
        7 => {
            let count = random.pick(&[0, rows + 1, rows.saturating_sub(1), 32_768, 32_769, any as usize]);
            let text = match random.below(4) {
                0 => format!("{count:<20}"),
                1 => format!("{count:020}"),
                _ => format!("{count:>20}"),
            };
            table[3_210..3_230].copy_from_slice(&text.as_bytes()[..20]);
        }
        8 => table.truncate(any as usize % (table.len() + 1)),
        9 => {
            let length = table.len();
            table.resize(random.pick(&[length + 1, length - 1, length + 2_880, length - 2_880]), 0);
        }
        // A bit of a row, or a value beyond its limits; a pad.
        10 if table.len() > 5_760 => {
            let (at, last) = (5_760 + any as usize % (table.len() - 5_760), table.len() - 1);
            let at = random.pick(&[at, at, last, (5_760 + 12 * rows).min(last)]);
            table[at] ^= 1 << random.below(8);
        }
        11 if row + 12 <= table.len() => {
            let least = [0_i32, -1, -324_000_001].map(i32::to_be_bytes);
            let greatest = [i32::MAX, 1_296_000_000, 324_000_001].map(i32::to_be_bytes);
            let field = random.below(3) as usize;
            table[row + 4 * field..][..4].copy_from_slice(&random.pick(&[least, greatest])[field]);
        }
        _ if row + 24 <= table.len() => (0..12).for_each(|i| table.swap(row + i, row + 12 + i)),
        _ => {}
    }
}

/// Histories in which files are read from tables, often of other parameters.
pub fn histories_with_tables(tester: &mut Tester) {
    let parameters = small_parameters(&mut tester.random);
    let mut history = History::new(tester, parameters);
    for _ in 0..40 {
        if tester.random.once_in(4) {
            history.read_table(tester);
        }
        history.step(tester);
    }
}
