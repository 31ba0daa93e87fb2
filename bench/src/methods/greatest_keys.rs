//! A table in memory of the greatest key on each page (Hadzilacos's notes on hashing): one read for each look-up, in a file that
//! does not grow. Probing is by double hashing.

use super::{scrambled, Entered, Method, Sought};
use crate::procedures::Accesses;

pub struct GreatestKeys {
    places: usize,
    greatest: Vec<u32>,
    pages: Vec<Vec<u32>>,
    stars: usize,
}

impl GreatestKeys {
    /// The number of pages is a prime, so that each probe sequence visits them all.
    pub fn new(places: usize, pages: usize) -> GreatestKeys {
        assert!(pages > 2 && (2..pages).all(|divisor| !pages.is_multiple_of(divisor)), "a prime number of pages");
        GreatestKeys { places, greatest: vec![0; pages], pages: vec![Vec::new(); pages], stars: 0 }
    }

    /// p(K, i), i from 1.
    fn probed(&self, star: u32, i: usize) -> usize {
        let pages = self.pages.len();
        let step = 1 + scrambled(2, star) as usize % (pages - 1);
        (scrambled(1, star) as usize % pages + (i - 1) * step) % pages
    }

    fn is_full(&self, page: usize) -> bool {
        self.pages[page].len() == self.places
    }

    fn put(&mut self, page: usize, star: u32) {
        self.pages[page].push(star);
        self.greatest[page] = *self.pages[page].iter().max().unwrap();
    }
}

impl Method for GreatestKeys {
    /// INSERT: every page tried is fetched.
    fn enter(&mut self, mut star: u32) -> Option<Entered> {
        if self.stars == self.pages.len() * self.places {
            return None;
        }
        let (mut entry, mut i) = (Accesses::default(), 1);
        loop {
            let page = self.probed(star, i);
            entry.read += 1;
            if !self.is_full(page) {
                self.put(page, star);
                entry.written += 1;
                self.stars += 1;
                return Some(Entered { entry, growth: Accesses::default() });
            }
            if star > self.greatest[page] {
                i += 1;
                continue;
            }
            let purged = self.greatest[page];
            self.pages[page].retain(|&other| other != purged);
            self.put(page, star);
            entry.written += 1;
            (star, i) = (purged, 1);
        }
    }

    /// SEARCH: no page is read where no probe's greatest key is high enough.
    fn look_up(&mut self, star: u32) -> Sought {
        let mut probes = (1..=self.pages.len()).map(|i| self.probed(star, i));
        match probes.find(|&page| star <= self.greatest[page]) {
            Some(page) => Sought { found: self.pages[page].contains(&star), read: 1 },
            None => Sought { found: false, read: 0 },
        }
    }

    fn pages(&self) -> usize {
        self.pages.len()
    }

    fn places(&self) -> usize {
        self.pages() * self.places
    }

    fn directory(&self) -> usize {
        size_of::<u32>() * self.greatest.len()
    }
}

#[cfg(test)]
mod tests {
    use super::*;
    use model::random::Random;

    /// The notes' claim, and why: what a probe passes by on its way to its page is full of lesser keys.
    #[test]
    fn one_access() {
        let (mut file, mut random, mut held) = (GreatestKeys::new(10, 101), Random(1), Vec::new());
        while held.len() < 1_000 {
            let star = random.star_number();
            if !file.look_up(star).found {
                file.enter(star);
                held.push(star);
            }
        }
        for &star in &held {
            assert_eq!(file.look_up(star), Sought { found: true, read: 1 });
            let probes = (1..).map(|i| file.probed(star, i));
            let mut passed = probes.take_while(|&page| !file.pages[page].contains(&star));
            assert!(passed.all(|page| file.is_full(page) && file.greatest[page] < star));
        }
        assert!((0..10_000).all(|_| file.look_up(random.star_number()).read <= 1));
    }
}
