//! Linear hashing as the textbook has it (section 11.3), with pages for overflow, and as the notes have it, with overflow slots
//! of one record.

use super::{exceeds, scrambled, Entered, Method, Sought};
use crate::procedures::Accesses;

/// When the next page is split.
#[derive(Clone, Copy, PartialEq)]
pub enum Trigger {
    /// The textbook's examples: when an overflow page is added.
    OverflowPage,
    /// The notes: when a page overflows for the first time.
    FirstOverflow,
    /// The textbook's "additional conditions": when the stars are more than a share of the places of the pages, those for
    /// overflow not counted. (Were they counted, each new one would put off the splits that make it needless.)
    Load(f64),
}

pub struct Linear {
    places: usize,
    /// Places of an overflow page or slot.
    slot: usize,
    trigger: Trigger,
    hash: fn(u32) -> u64,
    /// Pages at the beginning of the round, and the next one to split.
    base: usize,
    next: usize,
    /// The stars of each bucket, those of its chain last.
    buckets: Vec<Vec<u32>>,
    stars: usize,
    slots: usize,
}

impl Linear {
    pub fn new(places: usize, slot: usize, trigger: Trigger, pages: usize) -> Linear {
        let buckets = vec![Vec::new(); pages];
        let hash = |star| scrambled(1, star);
        Linear { places, slot, trigger, hash, base: pages, next: 0, buckets, stars: 0, slots: 0 }
    }

    /// The notes' SEARCH, which is the textbook's h_Level and h_Level+1.
    fn bucket(&self, star: u32) -> usize {
        let bucket = (self.hash)(star) as usize % (2 * self.base);
        if bucket > self.base + self.next - 1 {
            bucket - self.base
        } else {
            bucket
        }
    }

    /// How many overflow slots so many stars of a bucket take.
    fn chain(&self, stars: usize) -> usize {
        stars.saturating_sub(self.places).div_ceil(self.slot)
    }

    /// Reads the next page with its chain, and writes what it and its split image have then.
    fn split(&mut self) -> Accesses {
        let stars = std::mem::take(&mut self.buckets[self.next]);
        let (old, image) = (self.next, self.buckets.len());
        self.buckets.push(Vec::new());
        self.next += 1;
        if self.next == self.base {
            (self.base, self.next) = (2 * self.base, 0);
        }
        let before = self.chain(stars.len());
        for star in stars {
            let bucket = self.bucket(star);
            self.buckets[bucket].push(star);
        }
        let after = self.chain(self.buckets[old].len()) + self.chain(self.buckets[image].len());
        self.slots = self.slots + after - before;
        Accesses { read: 1 + before, written: 2 + after }
    }

    fn due(&self, before: usize, after: usize) -> bool {
        match self.trigger {
            Trigger::OverflowPage => self.chain(after) > self.chain(before),
            Trigger::FirstOverflow => after == self.places + 1,
            Trigger::Load(load) => exceeds(self.stars, load, self.buckets.len() * self.places),
        }
    }
}

impl Method for Linear {
    /// Reads the page and its chain, and writes the last of them; a new slot also takes a write of what points to it.
    fn enter(&mut self, star: u32) -> Option<Entered> {
        let bucket = self.bucket(star);
        let before = self.buckets[bucket].len();
        self.buckets[bucket].push(star);
        self.stars += 1;
        let added = self.chain(before + 1) - self.chain(before);
        self.slots += added;
        let due = self.due(before, before + 1);
        // Where the page is the one to split, no overflow page is written first.
        let written = if due && bucket == self.next { 1 } else { 1 + added };
        let entry = Accesses { read: 1 + self.chain(before), written };
        let growth = if due { self.split() } else { Accesses::default() };
        Some(Entered { entry, growth })
    }

    fn look_up(&mut self, star: u32) -> Sought {
        let stars = &self.buckets[self.bucket(star)];
        match stars.iter().position(|&other| other == star) {
            Some(place) => Sought { found: true, read: 1 + self.chain(place + 1) },
            None => Sought { found: false, read: 1 + self.chain(stars.len()) },
        }
    }

    fn pages(&self) -> usize {
        self.buckets.len() + self.slots
    }

    fn places(&self) -> usize {
        self.buckets.len() * self.places + self.slots * self.slot
    }

    fn directory(&self) -> usize {
        0
    }
}

#[cfg(test)]
mod tests {
    use super::*;

    fn sorted(file: &Linear, bucket: usize) -> Vec<u32> {
        let mut stars = file.buckets[bucket].clone();
        stars.sort();
        stars
    }

    /// Figures 11.8 to 11.13, hash values as they are. Our copy has no figures: the first contents are chosen to fit its text.
    #[test]
    fn worked_example() {
        let mut file = Linear { hash: u64::from, ..Linear::new(4, 4, Trigger::OverflowPage, 4) };
        for star in [32, 44, 36, 9, 25, 5, 14, 18, 10, 30, 31, 35, 7, 11] {
            assert_eq!(file.enter(star).unwrap().growth, Accesses::default());
        }

        // 43 goes to an overflow page and triggers the split of page 0.
        file.enter(43);
        assert_eq!((file.next, file.buckets.len(), file.slots), (1, 5, 1));
        assert_eq!((file.bucket(18), file.bucket(32), file.bucket(44)), (2, 0, 4));
        assert_eq!((sorted(&file, 0), sorted(&file, 4)), (vec![32], vec![36, 44]));

        // 37 has room; 29 splits its own page, which needs no overflow page.
        assert_eq!(file.enter(37).unwrap().growth, Accesses::default());
        assert_eq!(file.enter(29).unwrap().entry.written, 1);
        assert_eq!((file.next, file.slots), (2, 1));
        assert_eq!((sorted(&file, 1), sorted(&file, 5)), (vec![9, 25], vec![5, 29, 37]));

        // Then page 3 is the last of the round; 50 triggers its split, and the next round begins.
        for star in [22, 66, 34] {
            file.enter(star);
        }
        assert_eq!((file.base, file.next), (4, 3));
        file.enter(50);
        assert_eq!((file.base, file.next, file.buckets.len(), file.slots), (8, 0, 8, 1));
        assert_eq!(sorted(&file, 2), [10, 18, 34, 50, 66]);
        assert_eq!((sorted(&file, 3), sorted(&file, 7)), (vec![11, 35, 43], vec![7, 31]));
    }

    /// The notes' theorem: K mod 2M is K mod M or that and M; so a split parts a page between itself and its buddy alone.
    #[test]
    fn buddies() {
        for pages in 1..50 {
            assert!((0..1_000).all(|k| k % (2 * pages) == k % pages || k % (2 * pages) == k % pages + pages));
        }
    }
}
