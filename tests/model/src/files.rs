//! Random parameters and files.

use crate::fits;
use crate::hashing::{grown, highest_address, home, signature, MULTIPLIERS};
use crate::placement::{lay_out, pack, word_valid, write, Page, Star};
use crate::random::Random;
use crate::tray::{filter_of, Report, Tray, PLACES, WORDS};
use crate::{Buffers, Growth, Kind, Pages, Parameters, Record};

/// One of the two multipliers.
pub fn random_multiplier(random: &mut Random) -> u32 {
    random.pick(&MULTIPLIERS)
}

/// The edges of the parameters with few pages: b, N, n0, s, k, A, M.
pub fn edge_parameters() -> Vec<Parameters> {
    let mut list = Vec::new();
    for places in [1, 2] {
        for groups in [1, 3] {
            for width in 1..=4 {
                for step in if groups == 1 { vec![1] } else { vec![1, groups] } {
                    for bits in [1, 2, 8] {
                        let least = width * groups;
                        for pages in [least, least + 1, 2 * least + 1] {
                            list.push(Parameters::new([places, groups, width, step, bits, 60, pages]));
                        }
                    }
                }
            }
        }
    }
    list
}

pub fn small_parameters(random: &mut Random) -> Parameters {
    let groups = 1 + random.below(6) as u32;
    let width = 1 + random.below(4) as u32;
    let pages = groups * width + random.below(20) as u32;
    let places = random.pick(&[1, 1, 2, 3, 4, 8, 32]);
    let step = 1 + random.below(groups.into()) as u32;
    let bits = random.pick(&[1, 2, 3, 4, 6, 8, 8]);
    let load = random.pick(&[1, 50, 80, 99]);
    Parameters::new([places, groups, width, step, bits, load, pages]).under(random_multiplier(random))
}

/// Up to the largest file.
pub const LARGE: [[u32; 7]; 7] = [
    [32, 8, 2, 5, 8, 80, 1_024],
    [32, 256, 4, 256, 8, 99, 1_024],
    [8, 1, 4, 1, 8, 80, 1_024],
    [1, 1, 1, 1, 8, 50, 1_024],
    [16, 8, 2, 5, 8, 80, 256],
    [4, 5, 3, 2, 4, 70, 300],
    [32, 1, 1, 1, 8, 80, 40],
];

/// The growth state after this many growths.
pub fn growth_after(parameters: &Parameters, growths: u64) -> Growth {
    (0..growths).fold(Growth::default(), |growth, _| grown(parameters, &growth))
}

pub fn random_growth(random: &mut Random, parameters: &Parameters) -> Growth {
    let possible = u64::from(parameters.pages - parameters.width * parameters.groups);
    let growths = random.below(possible + 1);
    let growths = random.pick(&[0, growths, growths, possible]);
    growth_after(parameters, growths)
}

pub fn random_entry(random: &mut Random) -> Kind {
    random.pick(&Kind::ENTRIES)
}

/// The institute or one of a few observers.
pub fn random_caller(random: &mut Random) -> u8 {
    random.pick(&[0, 0, 1, 2, 255])
}

/// After how many stores a stopped form stops, often before the last.
pub fn random_stores(random: &mut Random) -> u32 {
    let few = random.below(5) as u32;
    random.pick(&[0, 1, 1, few, few, u32::MAX])
}

pub fn random_star(random: &mut Random) -> Star {
    let (ra, dec) = random.position();
    Star { number: random.star_number(), word: pack(ra, dec), owner: random_caller(random) }
}

/// A file that the check accepts, filled to about `percent` of its addressed pages, or less if that does not fit.
pub fn clean_file(random: &mut Random, parameters: &Parameters, growth: &Growth, percent: u64) -> Buffers {
    let room = (highest_address(parameters, growth) + 1) * u64::from(parameters.places);
    let mut stars: Vec<Star> = (0..room * percent / 100).map(|_| random_star(random)).collect();
    stars.sort();
    stars.dedup_by_key(|star| star.number);
    random.shuffle(&mut stars);
    loop {
        if let Some(lent) = lay_out(parameters, growth, stars.clone()) {
            return lent;
        }
        stars.truncate(stars.len() * 9 / 10);
    }
}

/// A file whose pages are all sound under random separators; the check refuses most of these.
pub fn sound_file(random: &mut Random, parameters: &Parameters, growth: &Growth) -> Buffers {
    let top = parameters.top();
    let mut pages: Vec<Page> = (0..parameters.pages)
        .map(|_| {
            let separator = random.below(top + 1);
            Page { separator: random.pick(&[top, top, separator, separator, 0]), stars: Vec::new() }
        })
        .collect();
    for _ in 0..random.below(2 * parameters.items() as u64 + 1) {
        let star = random_star(random);
        let home = home(parameters, growth, star.number.into()) as usize;
        let probe = |page: usize| signature(parameters, star.number.into(), (page - home + 1) as u64);
        let named = (home..pages.len()).find(|&page| pages[page].separator > probe(page));
        if let Some(page) = named.filter(|&page| pages[page].stars.len() < parameters.places as usize) {
            pages[page].stars.push(star);
            pages[page].stars.sort();
        }
    }
    let mut lent = Buffers::zeros(parameters);
    write(parameters, &mut lent.file, 0, &pages);
    lent
}

/// All pages full of stars at home, but for the last `with_room`, which are empty.
pub fn full_file(random: &mut Random, parameters: &Parameters, growth: &Growth, with_room: usize) -> Buffers {
    let filled = highest_address(parameters, growth) as usize + 1 - with_room;
    let mut homes: Vec<Vec<Star>> = vec![Vec::new(); filled];
    let mut missing = filled * parameters.places as usize;
    while missing > 0 {
        let star = random_star(random);
        let home = home(parameters, growth, star.number.into()) as usize;
        let room = home < filled && homes[home].len() < parameters.places as usize;
        if room && homes[home].iter().all(|other| other.number != star.number) {
            homes[home].push(star);
            missing -= 1;
        }
    }
    lay_out(parameters, growth, homes.concat()).unwrap()
}

/// A pool of the right lengths with anything in it.
pub fn random_pool(random: &mut Random, lent: &mut Buffers) {
    let zeros = random.once_in(4);
    lent.pool_numbers.iter_mut().for_each(|number| *number = if zeros { 0 } else { random.draw() as u32 });
    lent.pool_words.iter_mut().for_each(|word| *word = if zeros { 0 } else { random.draw() });
    lent.pool_owners.iter_mut().for_each(|owner| *owner = if zeros { 0 } else { random.draw() as u8 });
}

/// An output for a table, most often long enough.
pub fn random_output(random: &mut Random, lent: &mut Buffers) {
    let stars = lent.file.numbers.iter().filter(|&&number| number != 0).count();
    let length = 5_760 + (12 * stars).div_ceil(2_880) * 2_880;
    lent.table = vec![170; random.pick(&[length, length, length + 1, length + 3_000, length - 1, 5_759, 0])];
}

/// A table of some stars of the file, or of others.
pub fn random_table(random: &mut Random, lent: &mut Buffers) {
    let (count, any) = (random.below(lent.file.numbers.len() as u64 + 2), random.once_in(2));
    let mut stars: Vec<Star> = match any {
        true => (0..count).map(|_| random_star(random)).collect(),
        false => lent.file.stars().filter(|star| word_valid(star.word)).take(count as usize).collect(),
    };
    stars.sort();
    stars.dedup_by_key(|star| star.number);
    lent.table = fits::table(&stars);
    if random.once_in(3) {
        let at = random.below(lent.table.len() as u64) as usize;
        lent.table[at] ^= 1 << random.below(8);
    }
}

/// A second set of pages of the right lengths with anything in it.
pub fn random_second(random: &mut Random, lent: &mut Buffers) {
    let Pages { separators, numbers, words, owners } = &mut lent.second;
    separators.iter_mut().for_each(|separator| *separator = random.draw() as u8);
    numbers.iter_mut().for_each(|number| *number = random.draw() as u32);
    words.iter_mut().for_each(|word| *word = random.draw());
    owners.iter_mut().for_each(|owner| *owner = random.draw() as u8);
}

/// The second set after so many steps of a growth that leaves these pages.
pub fn second_after(parameters: &Parameters, grown: &Pages, steps: u32) -> Pages {
    let mut second = Pages::empty(parameters);
    let (pages, items) = (steps as usize, (steps * parameters.places) as usize);
    second.separators[..pages].copy_from_slice(&grown.separators[..pages]);
    second.numbers[..items].copy_from_slice(&grown.numbers[..items]);
    second.words[..items].copy_from_slice(&grown.words[..items]);
    second.owners[..items].copy_from_slice(&grown.owners[..items]);
    second
}

/// A report on a star of the file or another, seldom one that no call would have added.
pub fn random_report(random: &mut Random, lent: &Buffers) -> Report {
    let held = lent.file.numbers.get(random.below(lent.file.numbers.len().max(1) as u64) as usize);
    let number = held.copied().filter(|&number| number != 0 && random.once_in(2));
    let (ra, dec) = random.position();
    let removed = random.pick(&[0, 0, 0, 1, 1, 2, 255]);
    let number = number.unwrap_or_else(|| random.star_number());
    let report = Report { number, ra, dec, owner: random_caller(random), removed };
    match random.below(60) {
        0 => Report { number: random.pick(&[0, 2_147_483_647, u32::MAX]), ..report },
        1 => Report { ra: random.pick(&[1_296_000_000, u32::MAX]), ..report },
        2 => Report { dec: random.pick(&[-324_000_001, 324_000_001, i32::MIN]), ..report },
        _ => report.stored(),
    }
}

/// A tray of the right lengths with any reports, also behind the count, and any filter or the one of its reports.
pub fn random_tray(random: &mut Random, lent: &mut Buffers) {
    let few = random.below(7) as usize;
    let many = random.pick(&[20, 20, 20, PLACES]);
    let count = random.pick(&[0, 1, few, few, few, few, few, few, many]);
    let behind = random.once_in(3);
    let mut tray = Tray { count: count as u32, ..Tray::zeros() };
    for place in (0..PLACES).filter(|&place| place < count || behind) {
        tray.reports[place] = random_report(random, lent);
    }
    tray.filter = match random.below(5) {
        0 => (0..WORDS).map(|_| random.draw()).collect(),
        1 => vec![random.pick(&[0, u64::MAX]); WORDS],
        _ => filter_of(random_multiplier(random), tray.waiting()),
    };
    lent.tray = tray;
}

/// What a kind takes beside the file: anything in the pool, a table or room for one, and now and then another tray.
pub fn lend(random: &mut Random, kind: Kind, lent: &mut Buffers) {
    random_pool(random, lent);
    match kind {
        Kind::Write => random_output(random, lent),
        Kind::Read => random_table(random, lent),
        kind if kind.takes_tray() && random.once_in(2) => random_tray(random, lent),
        _ => {}
    }
}

/// A record that now and then says that a growth is open.
pub fn random_record(random: &mut Random, parameters: &Parameters, growth: Growth) -> Record {
    let (any, last) = (random.below(parameters.pages.into()) as u32, parameters.pages - 1);
    let open = Record { growth, open: true, steps: random.pick(&[any, last]) };
    let closed = Record::closed(growth);
    random.pick(&[open, closed, closed, closed])
}

/// Stars again on places elsewhere, pages turned round, and empty places before stars: what mending alone may meet.
pub fn scatter(random: &mut Random, parameters: &Parameters, lent: &mut Buffers) {
    let (places, items) = (parameters.places as usize, lent.file.numbers.len());
    let file = &mut lent.file;
    for _ in 0..random.below(items as u64 + 1) {
        let [from, to] = [(); 2].map(|_| random.below(items as u64) as usize);
        match random.below(3) {
            0 => {
                file.numbers.swap(from, to);
                file.words.swap(from, to);
                file.owners.swap(from, to);
            }
            1 if file.numbers[to] == 0 || random.once_in(3) => {
                let star = file.star(from);
                (file.numbers[to], file.words[to], file.owners[to]) = (star.number, star.word, star.owner);
            }
            _ => {
                let page = from / places * places..(from / places + 1) * places;
                file.numbers[page.clone()].reverse();
                file.words[page.clone()].reverse();
                file.owners[page].reverse();
            }
        }
    }
}

/// How many bits the file has.
pub fn bits(lent: &Buffers) -> usize {
    8 * lent.file.separators.len() + (32 + 64 + 8) * lent.file.numbers.len()
}

/// Changes one bit, counted over the separators, then the numbers, then the words, then the owners.
pub fn flip(lent: &mut Buffers, mut bit: usize) {
    if bit < 8 * lent.file.separators.len() {
        lent.file.separators[bit / 8] ^= 1 << (bit % 8);
        return;
    }
    bit -= 8 * lent.file.separators.len();
    if bit < 32 * lent.file.numbers.len() {
        lent.file.numbers[bit / 32] ^= 1 << (bit % 32);
        return;
    }
    bit -= 32 * lent.file.numbers.len();
    if bit < 64 * lent.file.words.len() {
        lent.file.words[bit / 64] ^= 1 << (bit % 64);
        return;
    }
    bit -= 64 * lent.file.words.len();
    lent.file.owners[bit / 8] ^= 1 << (bit % 8);
}
