//! Extendible hashing (the textbook's section 11.2): a directory of pages by the last bits of the hash value.

use super::{scrambled, Entered, Method, Sought};
use crate::procedures::Accesses;

/// A pointer of the directory.
const POINTER: usize = 4;

struct Bucket {
    local_depth: u32,
    stars: Vec<u32>,
}

pub struct Extendible {
    places: usize,
    global_depth: u32,
    directory: Vec<usize>,
    buckets: Vec<Bucket>,
    hash: fn(u32) -> u64,
}

impl Extendible {
    /// With 2^depth empty pages.
    pub fn new(places: usize, depth: u32) -> Extendible {
        let buckets = (0..1 << depth).map(|_| Bucket { local_depth: depth, stars: Vec::new() }).collect();
        let hash = |star| scrambled(1, star);
        Extendible { places, global_depth: depth, directory: (0..1 << depth).collect(), buckets, hash }
    }

    fn bucket(&self, star: u32) -> usize {
        self.directory[(self.hash)(star) as usize & (self.directory.len() - 1)]
    }

    /// Parts a page and its split image by one more bit; the directory is doubled where it has none to tell them apart.
    fn split(&mut self, old: usize) {
        if self.buckets[old].local_depth == self.global_depth {
            self.directory.extend_from_within(..);
            self.global_depth += 1;
        }
        let bit = 1 << self.buckets[old].local_depth;
        self.buckets[old].local_depth += 1;
        let stars = std::mem::take(&mut self.buckets[old].stars);
        let image = self.buckets.len();
        self.buckets.push(Bucket { local_depth: self.buckets[old].local_depth, stars: Vec::new() });
        for (element, bucket) in self.directory.iter_mut().enumerate() {
            if *bucket == old && element & bit != 0 {
                *bucket = image;
            }
        }
        for star in stars {
            let bucket = self.bucket(star);
            self.buckets[bucket].stars.push(star);
        }
    }
}

impl Method for Extendible {
    /// Reads the page, and writes it and each split image; the directory is in memory.
    fn enter(&mut self, star: u32) -> Option<Entered> {
        let before = self.buckets.len();
        while self.buckets[self.bucket(star)].stars.len() == self.places {
            self.split(self.bucket(star));
        }
        let bucket = self.bucket(star);
        self.buckets[bucket].stars.push(star);
        let growth = Accesses { read: 0, written: self.buckets.len() - before };
        Some(Entered { entry: Accesses { read: 1, written: 1 }, growth })
    }

    fn look_up(&mut self, star: u32) -> Sought {
        Sought { found: self.buckets[self.bucket(star)].stars.contains(&star), read: 1 }
    }

    fn pages(&self) -> usize {
        self.buckets.len()
    }

    fn places(&self) -> usize {
        self.pages() * self.places
    }

    fn directory(&self) -> usize {
        POINTER * self.directory.len()
    }
}

#[cfg(test)]
mod tests {
    use super::*;

    /// The stars of a directory element.
    fn under(file: &Extendible, element: usize) -> Vec<u32> {
        file.buckets[file.directory[element]].stars.clone()
    }

    /// Figures 11.2 to 11.6, hash values as they are. Our copy of the chapter has no figures: its text gives page B and the
    /// entries that come; those of A, C and D are chosen to fit what it says of them.
    #[test]
    fn worked_example() {
        let mut file = Extendible { hash: u64::from, ..Extendible::new(4, 2) };
        for star in [4, 12, 32, 16, 1, 5, 21, 10, 15, 7, 19] {
            file.enter(star);
        }
        assert_eq!(under(&file, 0b01), [1, 5, 21]);

        let entered = file.enter(13).unwrap();
        assert_eq!((under(&file, 0b01), entered.growth), (vec![1, 5, 21, 13], Accesses::default()));

        // A is full: it is split and the directory is doubled; its other elements point to their pages twice.
        let entered = file.enter(20).unwrap();
        assert_eq!((file.global_depth, file.directory.len(), file.pages()), (3, 8, 5));
        assert_eq!(entered.growth.written, 1, "the page that is split and its image are written");
        assert_eq!((under(&file, 0b000), under(&file, 0b100)), (vec![32, 16], vec![4, 12, 20]));
        assert!((1..4).all(|element| file.directory[element] == file.directory[element + 4]));
        let depths: Vec<u32> = (0..5).map(|element| file.buckets[file.directory[element]].local_depth).collect();
        assert_eq!(depths, [3, 2, 2, 2, 3]);

        // B has local depth 2: it is split without doubling the directory.
        file.enter(9);
        assert_eq!((file.global_depth, file.directory.len(), file.pages()), (3, 8, 6));
        assert_eq!((under(&file, 0b001), under(&file, 0b101)), (vec![1, 9], vec![5, 21, 13]));
    }
}
