//! Other methods of dynamic hashing, each as its document describes it, with the pages that they read and write counted. Plain
//! Rust, to compare with; docs/NEIGHBOURS.md names the documents.

pub mod chains;
#[cfg(test)]
mod chains_expected;
pub mod extendible;
pub mod filter;
pub mod greatest_keys;
pub mod linear;
pub mod separators;
pub mod unified;

use crate::procedures::Accesses;
use model::hashing::{x, MULTIPLIERS};

/// What entering a star took: the entry itself, and the growth after it if there was one.
#[derive(Clone, Copy, Debug, Default, PartialEq, Eq)]
pub struct Entered {
    pub entry: Accesses,
    pub growth: Accesses,
}

/// Whether a look-up found its star, and the pages that it read.
#[derive(Clone, Copy, Debug, PartialEq, Eq)]
pub struct Sought {
    pub found: bool,
    pub read: usize,
}

pub trait Method {
    /// Enters a star that is not held; none if the file cannot take it.
    fn enter(&mut self, star: u32) -> Option<Entered>;
    fn look_up(&mut self, star: u32) -> Sought;
    /// All pages in use, those for overflow too.
    fn pages(&self) -> usize;
    /// The places for stars in all storage in use.
    fn places(&self) -> usize;
    /// Bytes held in memory that grow with the file.
    fn directory(&self) -> usize;
}

/// The generator's j-th number for a star, from 1 to 2^31 − 2: the hash functions of all methods.
pub fn scrambled(j: u64, star: u32) -> u64 {
    x(MULTIPLIERS[0], j, star.into())
}

/// Whether so many stars are more than a share of the places.
fn exceeds(stars: usize, load: f64, places: usize) -> bool {
    stars as f64 > load * places as f64
}

#[cfg(test)]
mod tests {
    use super::*;
    use model::random::Random;

    /// Every method finds what was entered, and nothing else.
    pub fn finds_its_stars(method: &mut dyn Method, stars: usize) {
        let mut random = Random(stars as u64);
        let mut held = std::collections::BTreeSet::new();
        while held.len() < stars {
            let star = random.star_number();
            if held.insert(star) {
                method.enter(star).expect("room for the star");
            }
        }
        assert!(held.iter().all(|&star| method.look_up(star).found));
        let others = (0..stars).map(|_| random.star_number()).filter(|star| !held.contains(star));
        assert!(others.into_iter().all(|star| !method.look_up(star).found));
        assert!(method.places() >= stars);
    }

    #[test]
    fn all_find_their_stars() {
        finds_its_stars(
            &mut chains::Chains::new(chains::Shape { places: 10, chains: 5, every: 10, load: 0.85 }, 20),
            3_000,
        );
        finds_its_stars(&mut extendible::Extendible::new(10, 2), 3_000);
        finds_its_stars(&mut linear::Linear::new(10, 10, linear::Trigger::OverflowPage, 4), 3_000);
        finds_its_stars(&mut linear::Linear::new(10, 1, linear::Trigger::FirstOverflow, 4), 3_000);
        finds_its_stars(&mut linear::Linear::new(10, 10, linear::Trigger::Load(0.8), 4), 3_000);
        finds_its_stars(&mut greatest_keys::GreatestKeys::new(10, 331), 3_000);
        finds_its_stars(&mut unified::Unified::spiral(10, unified::Monitored::Utilization(0.8), 5), 3_000);
        finds_its_stars(&mut unified::Unified::piecewise(10, unified::Monitored::Utilization(0.8), 64, 1.5), 3_000);
    }
}
