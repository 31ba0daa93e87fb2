//! The tray of star reports and the filter beside it: document 02 (xi).

use crate::hashing::x;

/// The places of a tray.
pub const PLACES: usize = 256;
/// The words of a filter.
pub const WORDS: usize = 32;

#[repr(C)]
#[derive(Clone, Copy, Debug, Default, PartialEq, Eq)]
pub struct Report {
    pub number: u32,
    pub ra: u32,
    pub dec: i32,
    pub owner: u8,
    /// The mark for "removed": any number but 0.
    pub removed: u8,
}

#[derive(Clone, Debug, Default, PartialEq, Eq)]
pub struct Tray {
    pub count: u32,
    pub reports: Vec<Report>,
    pub filter: Vec<u64>,
}

impl Tray {
    /// Of the right lengths, all zeros.
    pub fn zeros() -> Tray {
        Tray { count: 0, reports: vec![Report::default(); PLACES], filter: vec![0; WORDS] }
    }

    pub fn fits(&self) -> bool {
        self.reports.len() == PLACES && self.filter.len() == WORDS && self.count as usize <= PLACES
    }

    /// The reports that wait.
    pub fn waiting(&self) -> &[Report] {
        &self.reports[..self.count as usize]
    }

    /// Adds a report behind the others.
    pub fn add(&mut self, multiplier: u32, report: Report) {
        self.reports[self.count as usize] = report;
        self.count += 1;
        mark(&mut self.filter, multiplier, report.number);
    }

    /// Whether the filter does not say "no" of a star.
    pub fn passes(&self, multiplier: u32, number: u32) -> bool {
        let set = |bit: usize| self.filter[bit / 64] >> (bit % 64) & 1 == 1;
        hash_bits(multiplier, number).into_iter().all(set)
    }

    /// The latest report on a star, if the filter does not say "no".
    pub fn latest(&self, multiplier: u32, number: u32) -> Option<Report> {
        let says_no = !self.passes(multiplier, number);
        self.waiting().iter().rev().copied().find(|report| !says_no && report.number == number)
    }

    /// Strikes out the first reports: the others close up before zeros, and the filter is made anew from them.
    pub fn strike_out(&mut self, multiplier: u32, filed: usize) {
        let rest = self.waiting()[filed..].to_vec();
        *self = Tray::zeros();
        for report in rest {
            self.add(multiplier, report);
        }
    }
}

/// X1, X2 and X3 mod 2,048.
fn hash_bits(multiplier: u32, number: u32) -> [usize; 3] {
    [1, 2, 3].map(|j| (x(multiplier, j, number.into()) % 2_048) as usize)
}

fn mark(filter: &mut [u64], multiplier: u32, number: u32) {
    for bit in hash_bits(multiplier, number) {
        filter[bit / 64] |= 1 << (bit % 64);
    }
}

/// The refusal, if any, and how many bits of a filter are set.
pub fn bits_set(filter: &[u64]) -> (u32, u32) {
    match filter.len() == WORDS {
        true => (0, filter.iter().map(|word| word.count_ones()).sum()),
        false => (2, 0),
    }
}

/// The filter of some reports, made from nothing.
pub fn filter_of(multiplier: u32, reports: &[Report]) -> Vec<u64> {
    let mut filter = vec![0; WORDS];
    reports.iter().for_each(|report| mark(&mut filter, multiplier, report.number));
    filter
}

impl Report {
    /// The position of a removal is not read, and stored as 0, 0.
    pub fn stored(self) -> Report {
        let (ra, dec) = if self.removed == 0 { (self.ra, self.dec) } else { (0, 0) };
        Report { ra, dec, ..self }
    }
}
