//! Position words, the cut, and the rule over a stretch of pages.

use crate::hashing::{home, signature};
use crate::{Buffers, Growth, Pages, Parameters};

#[derive(Clone, Copy, Debug, Default, PartialEq, Eq, PartialOrd, Ord)]
pub struct Star {
    pub number: u32,
    pub word: u64,
    pub owner: u8,
}

#[derive(Clone, Debug, PartialEq, Eq)]
pub struct Page {
    pub separator: u64,
    pub stars: Vec<Star>,
}

pub fn position_valid(ra: u32, dec: i32) -> bool {
    ra <= 1_295_999_999 && (-324_000_000..=324_000_000).contains(&dec)
}

pub fn pack(ra: u32, dec: i32) -> u64 {
    (u64::from(ra) << 32) + (i64::from(dec) + 324_000_000) as u64
}

pub fn unpack(word: u64) -> (u32, i32) {
    ((word >> 32) as u32, ((word & 0xffff_ffff) as i64 - 324_000_000) as i32)
}

pub fn word_valid(word: u64) -> bool {
    word >> 32 <= 1_295_999_999 && word & 0xffff_ffff <= 648_000_000
}

/// The greatest v, at most top, for which at most `room` of the signatures are below v.
pub fn separator(room: usize, top: u64, signatures: &[u64]) -> u64 {
    let below = |v| signatures.iter().filter(|&&signature| signature < v).count();
    (0..=top).rev().find(|&v| below(v) <= room).unwrap()
}

/// Stars in rising order of number, each after its home.
pub fn with_homes(parameters: &Parameters, growth: &Growth, mut stars: Vec<Star>) -> Vec<(u64, Star)> {
    stars.sort();
    stars.into_iter().map(|star| (home(parameters, growth, star.number.into()), star)).collect()
}

/// The page that the cut makes, with a separator of at most `limit`, of those waiting stars that probe it, and the others.
pub fn cut(parameters: &Parameters, page: usize, limit: u64, waiting: Vec<(u64, Star)>) -> (Page, Vec<(u64, Star)>) {
    let page = page as u64;
    let signature_here = |&(home, star): &(u64, Star)| {
        (home <= page).then(|| signature(parameters, star.number.into(), page - home + 1))
    };
    let signatures: Vec<u64> = waiting.iter().filter_map(signature_here).collect();
    let separator = separator(parameters.places as usize, limit, &signatures);
    let stays = |entry: &(u64, Star)| signature_here(entry).is_some_and(|signature| signature < separator);
    let (staying, passing): (Vec<_>, Vec<_>) = waiting.into_iter().partition(stays);
    (Page { separator, stars: without_homes(staying) }, passing)
}

fn without_homes(stars: Vec<(u64, Star)>) -> Vec<Star> {
    stars.into_iter().map(|(_, star)| star).collect()
}

/// The pages that the rule gives the stars over a stretch, and the stars carried past its end.
pub fn rule(
    parameters: &Parameters,
    growth: &Growth,
    stretch: std::ops::RangeInclusive<usize>,
    stars: Vec<Star>,
) -> (Vec<Page>, Vec<Star>) {
    let mut waiting = with_homes(parameters, growth, stars);
    let mut pages = Vec::new();
    for page in stretch {
        let (cut, passing) = cut(parameters, page, parameters.top(), waiting);
        pages.push(cut);
        waiting = passing;
    }
    (pages, without_homes(waiting))
}

/// The pages of an accepted entry, from `first` on to the first that may be the last and past which nothing was carried. Past
/// a page went the new star and those that stood from `first` to there before, less those that stand there after.
pub fn entered_stretch(
    places: usize,
    first: usize,
    before: &[u32],
    after: &[u32],
    may_be_last: impl Fn(usize) -> bool,
) -> std::ops::RangeInclusive<usize> {
    let stars = |numbers: &[u32], page: usize| numbers[page * places..][..places].iter().filter(|&&n| n != 0).count();
    let mut carried = 1;
    let last = |&page: &usize| {
        carried = carried + stars(before, page) - stars(after, page);
        carried == 0 && may_be_last(page)
    };
    first..=(first..before.len() / places).find(last).expect("an accepted entry carries nothing past the end")
}

/// Writes pages from `first` on, empty places last.
pub fn write(parameters: &Parameters, file: &mut Pages, first: usize, pages: &[Page]) {
    let places = parameters.places as usize;
    for (page, new) in (first..).zip(pages) {
        file.separators[page] = new.separator as u8;
        for place in 0..places {
            let Star { number, word, owner } = new.stars.get(place).copied().unwrap_or_default();
            let item = page * places + place;
            (file.numbers[item], file.words[item], file.owners[item]) = (number, word, owner);
        }
    }
}

/// The file that the rule over all pages gives the stars, with all else zeros; none if a star is carried past the end.
pub fn lay_out(parameters: &Parameters, growth: &Growth, stars: Vec<Star>) -> Option<Buffers> {
    let (pages, carried) = rule(parameters, growth, 0..=parameters.pages as usize - 1, stars);
    let mut lent = Buffers::zeros(parameters);
    write(parameters, &mut lent.file, 0, &pages);
    carried.is_empty().then_some(lent)
}
