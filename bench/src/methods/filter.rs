//! The notes' Bloom filter: a bitmap that says "no" or "maybe" before a file is searched.

use model::random::Random;

pub struct Filter {
    bits: Vec<bool>,
    functions: usize,
}

impl Filter {
    pub fn new(bits: usize, functions: usize) -> Filter {
        Filter { bits: vec![false; bits], functions }
    }

    /// The hash functions' values, "as independently random as possible".
    fn values(&self, key: u32) -> impl Iterator<Item = usize> {
        let (mut random, bits) = (Random(key.into()), self.bits.len() as u64);
        (0..self.functions).map(move |_| random.below(bits) as usize)
    }

    pub fn add(&mut self, key: u32) {
        for bit in self.values(key) {
            self.bits[bit] = true;
        }
    }

    pub fn maybe(&self, key: u32) -> bool {
        self.values(key).all(|bit| self.bits[bit])
    }
}

#[cfg(test)]
mod tests {
    use super::*;

    const KEYS: u32 = 256;
    const TRIES: u32 = 20_000;
    const FILTERS: u32 = 40;

    /// The share of false alarms, over some filters of so many keys each.
    fn false_alarms(bits: usize, functions: usize) -> f64 {
        let mut alarms = 0;
        for first in (0..FILTERS).map(|i| i << 20) {
            let mut filter = Filter::new(bits, functions);
            (first..first + KEYS).for_each(|key| filter.add(key));
            assert!((first..first + KEYS).all(|key| filter.maybe(key)), "a key that was added is never a no");
            alarms += (first + KEYS..first + KEYS + TRIES).filter(|&key| filter.maybe(key)).count();
        }
        alarms as f64 / f64::from(FILTERS * TRIES)
    }

    /// A bit is still 0 after n keys with probability (1 − 1/M)^(tn), so a false alarm has (1 − (1 − 1/M)^(tn))^t. The notes name
    /// what it depends on, and leave the formula to the reader.
    fn expected(bits: usize, functions: usize) -> f64 {
        let clear = (1.0 - 1.0 / bits as f64).powi(functions as i32 * KEYS as i32);
        (1.0 - clear).powi(functions as i32)
    }

    #[test]
    fn false_alarms_by_the_formula() {
        for bits in [1_024, 2_048, 4_096] {
            for functions in [1, 2, 3, 5, 8, 16] {
                let (found, expected) = (false_alarms(bits, functions), expected(bits, functions));
                assert!(
                    (found - expected).abs() <= 0.1 * expected + 0.000_1,
                    "{bits}, {functions}: {found} for {expected}"
                );
            }
        }
    }

    /// "The larger M, the smaller the probability of error"; "too few or too many" functions, and it increases.
    #[test]
    fn what_it_depends_on() {
        assert!(false_alarms(1_024, 3) > false_alarms(2_048, 3) && false_alarms(2_048, 3) > false_alarms(4_096, 3));
        assert!(false_alarms(2_048, 1) > false_alarms(2_048, 5) && false_alarms(2_048, 16) > false_alarms(2_048, 5));
    }
}
