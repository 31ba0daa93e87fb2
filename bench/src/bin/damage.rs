//! Flips single bits of a clean file and counts what notices them, and tries a growth state or a multiplier that does not
//! belong to the buffers. Prints plain tables.

use bench::files::{self, File, SIZES};
use bench::floors::Homes;
use bench::{today, Answer, Library};
use model::hashing::MULTIPLIERS;
use model::random::Random;

const DAMAGED: u32 = 5;

/// A star, whether the file holds it, and what a look-up answers on the clean file.
struct Asked {
    number: u32,
    held: bool,
    before: Answer,
}

/// The stars whose look-ups name a page, and the lowest page that such a look-up can read a separator of: the lowest home
/// among these stars and those that stand on the page.
struct Named {
    asked: Vec<Asked>,
    lowest: usize,
}

/// All held stars and, for each page in the mean as many others, by the page that is named for them.
fn named(random: &mut Random, file: &File, library: &mut dyn Library) -> Vec<Named> {
    let homes = Homes::new(file);
    let mut pages: Vec<Named> = (0..file.pages()).map(|page| Named { asked: Vec::new(), lowest: page }).collect();
    let held = file.stars();
    let others: Vec<u32> = held.iter().map(|_| random.star_number()).collect();
    for &number in held.iter().chain(&others) {
        let before = library.look_up(number);
        assert_eq!(before.refusal, 0);
        let page = &mut pages[before.page as usize];
        page.lowest = page.lowest.min(homes.home(number) as usize);
        page.asked.push(Asked { number, held: before.found, before });
    }
    pages
}

#[derive(Clone, Copy)]
enum Buffer {
    Separators,
    Numbers,
    Words,
    Owners,
}

impl Buffer {
    const ALL: [Buffer; 4] = [Buffer::Separators, Buffer::Numbers, Buffer::Words, Buffer::Owners];

    fn name(self) -> &'static str {
        ["separators", "numbers", "words", "owners"][self as usize]
    }

    /// Bits of an item.
    fn width(self) -> usize {
        [8, 32, 64, 8][self as usize]
    }

    fn bits(self, file: &File) -> usize {
        self.width() * [file.separators.len(), file.numbers.len(), file.words.len(), file.owners.len()][self as usize]
    }

    fn flip(self, file: &mut File, bit: usize) {
        let (item, bit) = (bit / self.width(), bit % self.width());
        match self {
            Buffer::Separators => file.separators[item] ^= 1 << bit,
            Buffer::Numbers => file.numbers[item] ^= 1 << bit,
            Buffer::Words => file.words[item] ^= 1 << bit,
            Buffer::Owners => file.owners[item] ^= 1 << bit,
        }
    }

    fn page(self, file: &File, bit: usize) -> usize {
        let item = bit / self.width();
        if let Buffer::Separators = self {
            item
        } else {
            item / file.places()
        }
    }
}

/// How many bits, and how many of them each thing notices.
#[derive(Default)]
struct Counts {
    bits: usize,
    refused: usize,
    wrong: usize,
    checked: usize,
    silent: usize,
    harmless: usize,
}

/// A look-up reads the named page and no separator above it, so other look-ups answer as before.
fn concerned(pages: &[Named], buffer: Buffer, page: usize) -> impl Iterator<Item = &Asked> {
    let last = if let Buffer::Separators = buffer { pages.len() - 1 } else { page };
    pages[page..=last].iter().filter(move |named| named.lowest <= page).flat_map(|named| &named.asked)
}

/// What a file tells of a star: its position and its owner.
fn told(file: &File, number: u32, answer: &Answer) -> Option<(u32, i32, Option<u8>)> {
    answer.found.then(|| (answer.ra, answer.dec, file.owner(answer.page, number)))
}

fn try_bit(counts: &mut Counts, file: &File, pages: &[Named], buffer: Buffer, bit: usize) {
    let mut damaged = file.clone();
    buffer.flip(&mut damaged, bit);
    let library = &mut today(&damaged);
    let (mut refused, mut wrong) = (false, false);
    for Asked { number, held, before } in concerned(pages, buffer, buffer.page(file, bit)) {
        let after = library.look_up(*number);
        refused |= after.refusal == DAMAGED;
        wrong |= *held && after.refusal == 0 && told(&damaged, *number, &after) != told(file, *number, before);
    }
    let checked = library.check().refusal == DAMAGED;
    counts.bits += 1;
    counts.refused += usize::from(refused);
    counts.wrong += usize::from(wrong);
    counts.checked += usize::from(checked);
    counts.silent += usize::from(wrong && !refused && !checked);
    counts.harmless += usize::from(!wrong && !refused && !checked);
}

/// Every bit, or as many as `sample` of each buffer.
fn single_bits(random: &mut Random, parameters: [u32; 7], sample: Option<usize>) {
    let file = files::filled(random, File::empty(parameters));
    let pages = named(random, &file, today(&file).as_mut());
    let how = if sample.is_some() { "sampled bits" } else { "every bit" };
    println!("{}, {} stars, {how}", file.size(), file.stars().len());
    println!(
        "{:>12} {:>8} {:>16} {:>16} {:>16} {:>16} {:>16}",
        "", "", "a look-up", "a held star", "check", "wrong and", "noticed"
    );
    println!(
        "{:>12} {:>8} {:>16} {:>16} {:>16} {:>16} {:>16}",
        "buffer", "bits", "answers 5", "is none or wrong", "answers 5", "no 5 anywhere", "by nothing"
    );
    for buffer in Buffer::ALL {
        let all = buffer.bits(&file);
        let tried = sample.unwrap_or(all).min(all);
        let mut counts = Counts::default();
        for i in 0..tried {
            let bit = if tried < all { random.below(all as u64) as usize } else { i };
            try_bit(&mut counts, &file, &pages, buffer, bit);
            if i % (tried / 4).max(1) == 0 {
                eprintln!("{}: {i} of {tried} bits of the {}", file.size(), buffer.name());
            }
        }
        let Counts { bits, refused, wrong, checked, silent, harmless } = counts;
        let name = buffer.name();
        println!("{name:>12} {bits:>8} {refused:>16} {wrong:>16} {checked:>16} {silent:>16} {harmless:>16}");
    }
    println!();
}

/// How the look-ups of all held stars answer: rightly, 5, "none".
fn answers(file: &File, clean: &File) -> [usize; 3] {
    let (library, before) = (&mut today(file), &mut today(clean));
    let mut counts = [0; 3];
    for number in clean.stars() {
        let (after, before) = (library.look_up(number), before.look_up(number));
        let right = after.refusal == 0 && told(file, number, &after) == told(clean, number, &before);
        counts[if right { 0 } else { 1 + usize::from(after.refusal != DAMAGED) }] += 1;
    }
    counts
}

/// Each growth of a file that fills: the buffers from after it with (e, x) from before it, and the other way round.
fn growth_states(random: &mut Random, parameters: [u32; 7]) {
    let mut library = today(&File::empty(parameters));
    let (mut growths, mut rows) = (0, [("old (e, x), new buffers", [0; 3], 0), ("new (e, x), old buffers", [0; 3], 0)]);
    let sample = (parameters[6] / 64) as usize;
    while library.file().addressed() < parameters[6] as usize {
        library.enter(random.star_number());
        if !library.due().due {
            continue;
        }
        let before = library.file();
        if library.grow().refusal != 0 {
            break;
        }
        growths += 1;
        if growths % sample != 0 {
            continue;
        }
        let after = library.file();
        let mixed = [File { growth: before.growth, ..after.clone() }, File { growth: after.growth, ..before.clone() }];
        for (row, (mixed, clean)) in rows.iter_mut().zip(mixed.iter().zip([&after, &before])) {
            let answers = answers(mixed, clean);
            row.1.iter_mut().zip(answers).for_each(|(sum, count)| *sum += count);
            row.2 += usize::from(today(mixed).check().refusal == DAMAGED);
        }
        if growths % (10 * sample) == 0 {
            eprintln!("M={} b={}, growth states: {growths} growths", parameters[6], parameters[0]);
        }
    }
    println!(
        "M={} b={}, {} growths of a file as it fills, look-ups of all held stars",
        parameters[6],
        parameters[0],
        growths / sample
    );
    answer_table(&rows);
}

fn answer_table(rows: &[(&str, [usize; 3], usize)]) {
    println!("{:>24} {:>10} {:>8} {:>14} {:>16}", "", "right", "5", "none or wrong", "check answers 5");
    for (name, [right, refused, none], checked) in rows {
        println!("{name:>24} {right:>10} {refused:>8} {none:>14} {checked:>16}");
    }
    println!();
}

/// A file of one multiplier called under the other.
fn other_multiplier(random: &mut Random, parameters: [u32; 7]) {
    let [first, second] = MULTIPLIERS;
    let row = |random: &mut Random, name, own, other| {
        let clean = files::filled(random, File::under(own, parameters));
        let called = File { multiplier: other, ..clean.clone() };
        (name, answers(&called, &clean), usize::from(today(&called).check().refusal == DAMAGED))
    };
    println!("M={} b={}, look-ups of all held stars under the other multiplier", parameters[6], parameters[0]);
    answer_table(&[
        row(random, "16807 called by 48271", first, second),
        row(random, "48271 called by 16807", second, first),
    ]);
}

fn main() {
    let mut random = Random(1);
    single_bits(&mut random, SIZES[0], None);
    single_bits(&mut random, SIZES[2], Some(2_000));
    growth_states(&mut random, SIZES[0]);
    growth_states(&mut random, SIZES[2]);
    other_multiplier(&mut random, SIZES[0]);
    other_multiplier(&mut random, SIZES[2]);
}
