//! Linear hashing with partial expansions in a single file, with several overflow chains a page (CS-83-28, sections 2 to 5). As
//! in its analysis every overflow star counts as a page of its own.

use super::{exceeds, scrambled, Entered, Method, Sought};
use crate::procedures::Accesses;
use model::hashing::MODULUS;

/// Partial expansions for each full one, n0.
pub const WIDTH: usize = 2;

/// The document's b, m, r = 1/f and α.
#[derive(Clone, Copy)]
pub struct Shape {
    pub places: usize,
    pub chains: usize,
    /// Every so many-th page is for overflow.
    pub every: usize,
    pub load: f64,
}

/// A primary page and the chains that begin on it.
struct Bucket {
    stars: Vec<u32>,
    chains: Vec<Vec<u32>>,
}

impl Bucket {
    fn empty(chains: usize) -> Bucket {
        Bucket { stars: Vec::new(), chains: vec![Vec::new(); chains] }
    }

    fn overflow(&self) -> usize {
        self.chains.iter().map(Vec::len).sum()
    }
}

pub struct Chains {
    shape: Shape,
    groups: usize,
    /// Partial expansions finished, and groups expanded in the present one.
    pub finished: usize,
    expanded: usize,
    buckets: Vec<Bucket>,
    stars: usize,
    overflow: usize,
}

impl Chains {
    pub fn new(shape: Shape, groups: usize) -> Chains {
        let buckets = (0..WIDTH * groups).map(|_| Bucket::empty(shape.chains)).collect();
        Chains { shape, groups, finished: 0, expanded: 0, buckets, stars: 0, overflow: 0 }
    }

    /// Group size and group count in a partial expansion.
    fn group(&self, expansion: usize) -> (usize, usize) {
        (WIDTH + expansion % WIDTH, self.groups << (expansion / WIDTH))
    }

    /// As by the separators' home, but groups are expanded in the order 0, 1, 2, ..
    fn home(&self, star: u32) -> usize {
        let mut address = scrambled(1, star) as usize % (WIDTH * self.groups);
        for i in 0..=self.finished {
            let (n, groups) = self.group(i);
            let chosen = scrambled(2 * (i as u64 + 1), star) * (n as u64 + 1) <= MODULUS;
            if chosen && (i < self.finished || address % groups < self.expanded) {
                address = n * groups + address % groups;
            }
        }
        address
    }

    fn chain(&self, star: u32) -> usize {
        scrambled(1_001, star) as usize % self.shape.chains
    }

    fn overflow_pages(&self) -> usize {
        self.buckets.len() / (self.shape.every - 1)
    }

    /// Puts a star on its page, or at the end of its chain.
    fn store(&mut self, star: u32) {
        let (home, chain) = (self.home(star), self.chain(star));
        if self.buckets[home].stars.len() < self.shape.places {
            self.buckets[home].stars.push(star);
        } else {
            self.buckets[home].chains[chain].push(star);
            self.overflow += 1;
        }
    }

    /// Section 5: the group's pages with their overflow are read and written again, and the new pages are written.
    fn expand(&mut self) -> Accesses {
        let (n, groups) = self.group(self.finished);
        let (mut stars, mut touched, before) = (Vec::new(), n, self.overflow_pages());
        for i in 0..n {
            let bucket =
                std::mem::replace(&mut self.buckets[self.expanded + i * groups], Bucket::empty(self.shape.chains));
            touched += bucket.overflow();
            self.overflow -= bucket.overflow();
            stars.extend(bucket.stars.into_iter().chain(bucket.chains.into_iter().flatten()));
        }
        self.buckets.push(Bucket::empty(self.shape.chains));
        self.expanded += 1;
        if self.expanded == groups {
            (self.finished, self.expanded) = (self.finished + 1, 0);
        }
        stars.into_iter().for_each(|star| self.store(star));
        Accesses { read: touched, written: touched + 1 + self.overflow_pages() - before }
    }

    fn needs_overflow(&self, star: u32) -> bool {
        self.buckets[self.home(star)].stars.len() == self.shape.places
    }

    /// Section 6: the least that a look-up can read, were each chain on one page.
    pub fn least_read(&mut self, star: u32) -> usize {
        self.look_up(star).read.min(2)
    }
}

impl Method for Chains {
    fn enter(&mut self, star: u32) -> Option<Entered> {
        let mut growth = Accesses::default();
        // Rule b) of section 3: the file is expanded early where overflow has no place left.
        while self.needs_overflow(star) && self.overflow == self.overflow_pages() * self.shape.places {
            growth += self.expand();
        }
        let read = self.look_up(star).read;
        let entry = match self.needs_overflow(star) {
            true => Accesses { read: read + 1, written: 2 },
            false => Accesses { read, written: 1 },
        };
        self.store(star);
        self.stars += 1;
        if exceeds(self.stars, self.shape.load, self.places()) {
            growth += self.expand();
        }
        Some(Entered { entry, growth })
    }

    fn look_up(&mut self, star: u32) -> Sought {
        let bucket = &self.buckets[self.home(star)];
        if bucket.stars.contains(&star) {
            return Sought { found: true, read: 1 };
        }
        let chain = &bucket.chains[self.chain(star)];
        match chain.iter().position(|&other| other == star) {
            Some(before) => Sought { found: true, read: 2 + before },
            None => Sought { found: false, read: 1 + chain.len() },
        }
    }

    fn pages(&self) -> usize {
        self.buckets.len() + self.overflow_pages()
    }

    fn places(&self) -> usize {
        self.pages() * self.shape.places
    }

    /// A bit for each overflow page, so that one with room is found without reading.
    fn directory(&self) -> usize {
        self.overflow_pages().div_ceil(8)
    }
}

/// Chains a page, and accesses for a star held, one not held, one entered: b = 10.
#[cfg(test)]
pub const TABLE_1: [(usize, [f64; 3]); 6] = [
    (1, [1.314, 2.165, 6.012]),
    (2, [1.214, 1.583, 5.429]),
    (3, [1.180, 1.388, 5.235]),
    (4, [1.164, 1.291, 5.138]),
    (5, [1.154, 1.233, 5.080]),
    (10, [1.133, 1.117, 4.963]),
];

/// b = 40; the document has 4.411 for 4.111.
#[cfg(test)]
pub const TABLE_2: [(usize, [f64; 3]); 6] = [
    (1, [1.229, 2.811, 5.318]),
    (2, [1.136, 1.906, 4.413]),
    (3, [1.105, 1.604, 4.111]),
    (4, [1.090, 1.453, 3.960]),
    (5, [1.080, 1.362, 3.869]),
    (10, [1.062, 1.181, 3.688]),
];

#[cfg(test)]
mod tests {
    use super::super::chains_expected::{means as expected, Rate};
    use super::*;
    use model::random::Random;

    /// Means over a full expansion: look-ups that find, those that do not, entries with growths, and both look-ups at their least.
    fn means(shape: Shape, groups: usize, random: &mut Random) -> [f64; 5] {
        let mut file = Chains::new(shape, groups);
        let (mut held, mut sums, mut counts) = (Vec::new(), [0; 5], [0; 5]);
        let mut add = |i: usize, value: usize| (sums[i], counts[i]) = (sums[i] + value, counts[i] + 1);
        let (mut expanding, every) = (false, groups * shape.places / 128);
        while file.finished < WIDTH {
            let star = random.star_number();
            let Entered { entry, growth } = file.enter(star).unwrap();
            held.push(star);
            expanding |= growth != Accesses::default();
            if !expanding {
                continue;
            }
            add(2, entry.total() + growth.total());
            if held.len() % every == 0 {
                for _ in 0..500 {
                    let (star, other) = (random.pick(&held), random.star_number());
                    add(0, file.look_up(star).read);
                    add(1, file.look_up(other).read);
                    add(3, file.least_read(star));
                    add(4, file.least_read(other));
                }
            }
        }
        std::array::from_fn(|i| sums[i] as f64 / counts[i] as f64)
    }

    /// Mean and standard error over some files.
    fn over_files(shape: Shape, groups: usize) -> [(f64, f64); 5] {
        const FILES: u64 = 6;
        let files: Vec<[f64; 5]> = (0..FILES).map(|seed| means(shape, groups, &mut Random(seed))).collect();
        std::array::from_fn(|i| {
            let mean = files.iter().map(|file| file[i]).sum::<f64>() / FILES as f64;
            let squares = files.iter().map(|file| (file[i] - mean).powi(2)).sum::<f64>();
            (mean, (squares / (FILES * (FILES - 1)) as f64).sqrt())
        })
    }

    /// Within three standard errors, and half a unit of the document's last digit.
    fn near((mean, error): (f64, f64), published: f64) {
        assert!((mean - published).abs() <= 3.0 * error + 0.000_5, "{mean} ({error}) for {published}");
    }

    /// Entries by the rate that the document's equation (1) gives: `chains_expected` has why its own figures are higher.
    fn table(places: usize, every: usize, groups: usize, rows: [(usize, [f64; 3]); 6]) {
        for (chains, [found, missed, _]) in rows {
            let shape = Shape { places, chains, every, load: 0.85 };
            let means = over_files(shape, groups);
            near(means[0], found);
            near(means[1], missed);
            near(means[2], expected(&shape, Rate::Differentiated).entry);
        }
    }

    #[test]
    fn table_1() {
        table(10, 10, 600, TABLE_1);
    }

    #[test]
    fn table_2() {
        table(40, 20, 400, TABLE_2);
    }

    /// Section 6: the same files, were each chain on one page.
    #[test]
    fn optimistic() {
        for (places, every, groups, found, missed) in [(10, 10, 600, 1.113, 1.168), (40, 20, 400, 1.043, 1.185)] {
            let means = over_files(Shape { places, chains: 5, every, load: 0.85 }, groups);
            near(means[3], found);
            near(means[4], missed);
        }
    }
}
