//! Files in a form that no version of the library owns, and the files that the programs measure.

use crate::floors::Homes;
use crate::{present, today};
use model::hashing::MULTIPLIERS;
use model::random::Random;

/// M=64 b=8, M=256 b=16 and M=1024 b=32: b, N, n0, s, k, A, M.
pub const SIZES: [[u32; 7]; 3] = [[8, 8, 2, 5, 8, 80, 64], [16, 8, 2, 5, 8, 80, 256], [32, 8, 2, 5, 8, 80, 1_024]];

/// Small pages, and the largest file at a tenth of its load and nearly full.
pub const OTHERS: [[u32; 7]; 5] = [
    [1, 8, 2, 5, 8, 80, 1_024],
    [2, 8, 2, 5, 8, 80, 1_024],
    [4, 8, 2, 5, 8, 80, 1_024],
    [32, 8, 2, 5, 8, 10, 1_024],
    [32, 8, 2, 5, 8, 95, 1_024],
];

/// Pages of 16 places, M from 64 to 1,024.
pub const GROWING: [[u32; 7]; 5] = [
    [16, 8, 2, 5, 8, 80, 64],
    [16, 8, 2, 5, 8, 80, 128],
    [16, 8, 2, 5, 8, 80, 256],
    [16, 8, 2, 5, 8, 80, 512],
    [16, 8, 2, 5, 8, 80, 1_024],
];

/// The same largest file, in which growth has one group and one page to begin with.
pub const ONE_HOME: [u32; 7] = [32, 1, 1, 1, 8, 80, 1_024];

/// A kind of star numbers: its name, and the i-th number from a beginning on.
pub type Numbering = (&'static str, fn(u32, u32, &mut Random) -> u32);

pub const CONSECUTIVE: Numbering = ("consecutive", |first, i, _| first + i);
pub const EVEN: Numbering = ("even", |first, i, _| 2 * (first + i));
pub const RANDOM: Numbering = ("random", |_, _, random| random.star_number());
/// Catalogue-like.
pub const ZONES: Numbering = ("zone·10^4 + 1 to 97", |first, i, _| (first % 10_000 + i / 97) * 10_000 + 1 + i % 97);
pub const ZONES_IN_TURN: Numbering =
    ("180 zones·10^6 + n", |first, i, _| (1 + i % 180) * 1_000_000 + first % 900_000 + i / 180);

#[derive(Clone, Debug, PartialEq, Eq)]
pub struct File {
    pub parameters: [u32; 7],
    pub multiplier: u32,
    pub growth: [u32; 2],
    pub separators: Vec<u8>,
    pub numbers: Vec<u32>,
    pub words: Vec<u64>,
    pub owners: Vec<u8>,
}

impl File {
    /// Under document 01's multiplier.
    pub fn empty(parameters: [u32; 7]) -> File {
        File::under(MULTIPLIERS[0], parameters)
    }

    pub fn under(multiplier: u32, parameters: [u32; 7]) -> File {
        let [places, .., bits, _, pages] = parameters;
        let items = (pages * places) as usize;
        let separators = vec![((1_u32 << bits) - 1) as u8; pages as usize];
        let (numbers, words, owners) = (vec![0; items], vec![0; items], vec![0; items]);
        File { parameters, multiplier, growth: [0, 0], separators, numbers, words, owners }
    }

    pub fn places(&self) -> usize {
        self.parameters[0] as usize
    }

    pub fn pages(&self) -> usize {
        self.parameters[6] as usize
    }

    /// The highest address and one.
    pub fn addressed(&self) -> usize {
        let [_, groups, width, ..] = self.parameters;
        let [expansions, expanded] = self.growth;
        ((width + expansions % width) * (groups << (expansions / width)) + expanded) as usize
    }

    /// Up to the highest address or the last page that holds a star, whichever is higher.
    pub fn pages_in_use(&self) -> usize {
        let last = self.numbers.iter().rposition(|&number| number != 0);
        self.addressed().max(last.map_or(0, |item| item / self.places() + 1))
    }

    pub fn stars(&self) -> Vec<u32> {
        self.numbers.iter().copied().filter(|&number| number != 0).collect()
    }

    /// The owner of a star that stands on a page.
    pub fn owner(&self, page: u32, number: u32) -> Option<u8> {
        let first = page as usize * self.places();
        (first..first + self.places()).find(|&item| self.numbers[item] == number).map(|item| self.owners[item])
    }

    /// With the load and the multiplier where they are not 80 % and document 01's.
    pub fn size(&self) -> String {
        let [_, _, _, _, _, load, _] = self.parameters;
        let load = if load == 80 { String::new() } else { format!(", A={load}") };
        let multiplier =
            if self.multiplier == MULTIPLIERS[0] { String::new() } else { format!(", {}", self.multiplier) };
        format!("M={} b={}{load}{multiplier}", self.pages(), self.places())
    }

    pub fn has_overflowed(&self, page: usize) -> bool {
        u32::from(self.separators[page]) < (1 << self.parameters[4]) - 1
    }

    /// How many pages have passed a star on.
    pub fn overflowed(&self) -> usize {
        (0..self.pages()).filter(|&page| self.has_overflowed(page)).count()
    }

    /// How many pages hold other numbers than in the other file.
    pub fn differing(&self, other: &File) -> usize {
        let places = self.places();
        self.numbers.chunks(places).zip(other.numbers.chunks(places)).filter(|(a, b)| a != b).count()
    }

    /// Whether a page's separator, numbers, words and owners are those of the other file.
    pub fn same_page(&self, other: &File, page: usize) -> bool {
        let items = page * self.places()..(page + 1) * self.places();
        self.separators[page] == other.separators[page]
            && self.numbers[items.clone()] == other.numbers[items.clone()]
            && self.words[items.clone()] == other.words[items.clone()]
            && self.owners[items.clone()] == other.owners[items]
    }
}

/// An empty file filled by entries, which grows when growth is due, until all but one in 32 pages are addressed.
pub fn filled(random: &mut Random, mut file: File) -> File {
    let mut library = today(&file);
    let last = file.pages() - file.pages() / 32;
    while file.addressed() < last {
        let (ra, dec) = random.position();
        library.call(model::Kind::Enter, random.star_number(), ra, dec);
        while file.addressed() < last && library.due().due {
            assert_eq!(library.grow().refusal, 0, "a file being filled can grow");
            file.growth = library.growth();
        }
    }
    library.file()
}

/// The largest file, all pages addressed, its first pages exactly full of stars at home and the others empty; and two stars
/// of home 0 that it does not hold.
pub fn full_pages(random: &mut Random, pages: usize) -> (File, [u32; 2]) {
    let mut library = today(&File::empty(SIZES[2]));
    while library.grow().refusal == 0 {}
    let file = library.file();
    let homes = Homes::new(&file);
    let mut room = vec![file.places(); pages];
    let mut missing = pages * file.places();
    while missing > 0 {
        let number = random.star_number();
        let home = homes.home(number) as usize;
        if home < pages && room[home] > 0 && library.enter(number).refusal == 0 {
            room[home] -= 1;
            missing -= 1;
        }
    }
    let mut newcomer = || loop {
        let number = random.star_number();
        if homes.home(number) == 0 && !library.look_up(number).found {
            return number;
        }
    };
    let newcomers = [newcomer(), newcomer()];
    (library.file(), newcomers)
}

/// A run of overflowed pages from page 0 on, and a star of home 0 that it does not hold.
pub fn overflowed_run(random: &mut Random, pages: usize) -> (File, u32) {
    let (file, [first, second]) = full_pages(random, pages);
    let mut library = today(&file);
    assert_eq!(library.enter(first).refusal, 0);
    (library.file(), second)
}

/// The same run after more entries at its bottom, and a star of home 0 whose entry alters so many pages or more.
pub fn pushing_run(random: &mut Random, run: &File, altered: usize) -> (File, u32) {
    let homes = Homes::new(run);
    let mut library = today(run);
    loop {
        let number = random.star_number();
        if homes.home(number) != 0 || library.look_up(number).found {
            continue;
        }
        let before = library.file();
        assert_eq!(library.enter(number).refusal, 0);
        if library.file().differing(&before) >= altered {
            return (before, number);
        }
    }
}

/// The largest file without a growth, so that all stars have one home, nearly as full as it goes; and a star that still fits.
pub fn one_home(random: &mut Random) -> (File, u32) {
    let mut stars: Vec<u32> = (0..12_000).map(|_| random.star_number()).collect();
    stars.sort();
    stars.dedup();
    random.shuffle(&mut stars);
    while present::laid_out(ONE_HOME, &stars).is_none() {
        stars.truncate(stars.len() * 49 / 50);
    }
    // What fits with the last star fits without it.
    let last = stars.pop().unwrap();
    (present::laid_out(ONE_HOME, &stars).unwrap(), last)
}

/// The largest file with so many pages addressed and a star on every place, as no call leaves it: numbers falling, or copies of seven stars.
pub fn hostile(pages: usize, copies: bool) -> File {
    let mut library = today(&File::empty(SIZES[2]));
    while library.file().addressed() < pages {
        assert_eq!(library.grow().refusal, 0);
    }
    let mut file = library.file();
    for (place, number) in (0_u32..).zip(&mut file.numbers) {
        *number = if copies { 1 + place % 7 * 1_000_003 } else { 2_147_480_000 - place };
    }
    file.words.fill(1);
    file
}
