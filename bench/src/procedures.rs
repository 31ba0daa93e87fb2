//! The report's procedures `insert` and `expand` (CS-84-23, section 4), with the pages that they read and write counted. Plain
//! Rust, to compare with.

use model::hashing::{grown, highest_address, home, rank, shape, signature};
use model::{Growth, Parameters};

/// How many pages were read and written.
#[derive(Clone, Copy, Debug, Default, PartialEq, Eq)]
pub struct Accesses {
    pub read: usize,
    pub written: usize,
}

impl Accesses {
    pub fn total(&self) -> usize {
        self.read + self.written
    }
}

impl std::ops::AddAssign for Accesses {
    fn add_assign(&mut self, other: Accesses) {
        self.read += other.read;
        self.written += other.written;
    }
}

/// What a full page does.
#[derive(Clone, Copy, PartialEq, Eq)]
pub enum Cut {
    /// Its highest group goes, also where the newcomer is higher still and goes as well.
    AsPrinted,
    /// The highest of them all go, as in the report's section 2 and in documents 01 and 02.
    SectionTwo,
}

/// An entry of the record pool: the page that a star tries next, and its signature there.
#[derive(Clone, Copy)]
struct Waiting {
    page: usize,
    signature: u64,
    number: u32,
}

/// A file without a last page: those above the highest address are taken into use as stars come to them.
pub struct Procedures {
    parameters: Parameters,
    cut: Cut,
    pub growth: Growth,
    separators: Vec<u64>,
    pages: Vec<Vec<u32>>,
    pool: Vec<Waiting>,
    pub accesses: Accesses,
}

impl Procedures {
    pub fn new(parameters: Parameters, cut: Cut) -> Procedures {
        let (growth, accesses) = (Growth::default(), Accesses::default());
        let (separators, pages, pool) = (Vec::new(), Vec::new(), Vec::new());
        let mut file = Procedures { parameters, cut, growth, separators, pages, pool, accesses };
        file.take_into_use(highest_address(&parameters, &growth) as usize);
        file
    }

    fn take_into_use(&mut self, last: usize) {
        let pages = self.pages.len().max(last + 1);
        self.pages.resize(pages, Vec::new());
        self.separators.resize(pages, self.parameters.top());
    }

    fn home(&self, number: u32) -> usize {
        home(&self.parameters, &self.growth, number.into()) as usize
    }

    fn signature(&self, number: u32, page: usize) -> u64 {
        signature(&self.parameters, number.into(), (page - self.home(number) + 1) as u64)
    }

    fn wait_for(&mut self, page: usize, number: u32) {
        let signature = self.signature(number, page);
        self.pool.push(Waiting { page, signature, number });
    }

    /// Takes out of the pool the star with the lowest signature of those that try a page.
    fn next(&mut self, page: usize) -> Option<Waiting> {
        let trying = (0..self.pool.len()).filter(|&i| self.pool[i].page == page);
        let first = trying.min_by_key(|&i| self.pool[i].signature)?;
        Some(self.pool.swap_remove(first))
    }

    /// Works through the pool, a page at a time, until it is empty.
    fn empty_pool(&mut self) {
        while let Some(page) = self.pool.iter().map(|star| star.page).min() {
            self.take_into_use(page);
            self.accesses.read += 1;
            self.fill(page);
            self.accesses.written += 1;
        }
    }

    /// The inner loop, with `process_current_record`, for the page in the buffer.
    fn fill(&mut self, page: usize) {
        while let Some(Waiting { signature, number, .. }) = self.next(page) {
            if signature >= self.separators[page] {
                self.wait_for(page + 1, number);
            } else if self.pages[page].len() < self.parameters.places as usize {
                self.pages[page].push(number);
            } else {
                let mut stars = std::mem::take(&mut self.pages[page]);
                let highest = stars.iter().map(|&star| self.signature(star, page)).max().unwrap();
                let separator = if self.cut == Cut::SectionTwo { highest.max(signature) } else { highest };
                stars.push(number);
                let stays = |&star: &u32| self.signature(star, page) < separator;
                let (staying, going): (Vec<u32>, Vec<u32>) = stars.into_iter().partition(stays);
                (self.pages[page], self.separators[page]) = (staying, separator);
                going.into_iter().for_each(|star| self.wait_for(page + 1, star));
            }
        }
    }

    /// Whether the star was entered; a star that is held is not.
    pub fn insert(&mut self, number: u32) -> bool {
        let home = self.home(number);
        let stops = |&page: &usize| page == self.pages.len() || self.signature(number, page) < self.separators[page];
        let page = (home..).find(stops).unwrap();
        if self.pages.get(page).is_some_and(|stars| stars.contains(&number)) {
            return false;
        }
        self.wait_for(page, number);
        self.empty_pool();
        true
    }

    pub fn expand(&mut self) {
        let (n, groups) = shape(&self.parameters, self.growth.expansions);
        let turn = |&group: &u64| rank(self.parameters.step.into(), groups, group) == self.growth.expanded.into();
        let group = (0..groups).find(turn).unwrap();
        self.growth = grown(&self.parameters, &self.growth);
        for i in 0..n {
            self.reorganize((group + i * groups) as usize);
        }
        self.take_into_use(highest_address(&self.parameters, &self.growth) as usize);
        self.empty_pool();
    }

    /// Two scans of the pages from one of the group to the first that has not overflowed: stars that are not at home go to the
    /// pool, then those that still belong here come back.
    fn reorganize(&mut self, first: usize) {
        let top = self.parameters.top();
        let last = (first..).find(|&page| self.separators[page] == top).unwrap();
        let mut last_modified = None;
        for page in first..=last {
            self.accesses.read += 1;
            self.separators[page] = top;
            let stars = std::mem::take(&mut self.pages[page]);
            let (at_home, others): (Vec<u32>, Vec<u32>) = stars.into_iter().partition(|&star| self.home(star) == page);
            self.pages[page] = at_home;
            for star in others {
                last_modified = Some(page);
                self.wait_for(self.home(star).max(first), star);
            }
        }
        for page in first..last_modified.map_or(first, |page| page + 1) {
            // A single page is still in the buffer.
            self.accesses.read += usize::from(first != last);
            self.fill(page);
            self.accesses.written += 1;
        }
    }

    /// A page's separator and its stars in rising order.
    pub fn page(&self, page: usize) -> (u64, Vec<u32>) {
        let separator = self.separators.get(page).copied().unwrap_or(self.parameters.top());
        let mut stars = self.pages.get(page).cloned().unwrap_or_default();
        stars.sort();
        (separator, stars)
    }

    /// Whether so many stars are more than the load over the pages in use.
    pub fn due(&self, stars: usize) -> bool {
        100 * stars > (self.parameters.load * self.parameters.places) as usize * self.pages.len()
    }
}
