//! What no implementation can do without, measured beside the calls.

use crate::files::File;

const MODULUS: u64 = 2_147_483_647;

/// One expansion: the power of the generator, the greatest value that moves a star, G, G div s and G mod s,
/// the ranks that are open, and the address of rank 0.
struct Level {
    power: u64,
    limit: u64,
    groups: u32,
    quotient: u32,
    remainder: u32,
    open: u32,
    address: u32,
}

/// Home addresses under one growth state, with everything that does not depend on the star taken out.
pub struct Homes {
    multiplier: u64,
    first: u32,
    step: u32,
    levels: Vec<Level>,
}

impl Homes {
    pub fn new(file: &File) -> Homes {
        let [_, groups, width, step, ..] = file.parameters;
        let [expansions, expanded] = file.growth;
        let multiplier = u64::from(file.multiplier);
        let square = multiplier * multiplier % MODULUS;
        let mut power = 1;
        let level = |i: u32| {
            let (n, groups) = (width + i % width, groups << (i / width));
            power = power * square % MODULUS;
            let (limit, open) = (MODULUS / u64::from(n + 1), if i < expansions { groups } else { expanded });
            let (quotient, remainder, address) = (groups / step, groups % step, n * groups);
            Level { power, limit, groups, quotient, remainder, open, address }
        };
        let levels = (0..=expansions).map(level).collect();
        Homes { multiplier, first: width * groups, step, levels }
    }

    /// First which expansions choose the star, without a branch, then the few moves.
    pub fn home(&self, star: u32) -> u32 {
        let mut address = (reduce(self.multiplier * u64::from(star)) % u64::from(self.first)) as u32;
        let mut chosen = 0_u64;
        for (i, level) in self.levels.iter().enumerate() {
            chosen |= u64::from(reduce(level.power * u64::from(star)) <= level.limit) << i;
        }
        while chosen != 0 {
            let level = &self.levels[chosen.trailing_zeros() as usize];
            chosen &= chosen - 1;
            let t = level.groups - 1 - address % level.groups;
            let w = t % self.step;
            let rank = w * level.quotient + w.min(level.remainder) + t / self.step;
            if rank < level.open {
                address = level.address + rank;
            }
        }
        address
    }
}

/// The remainder by m = 2^31 − 1 of a product below 2^62.
fn reduce(product: u64) -> u64 {
    let sum = (product & MODULUS) + (product >> 31);
    if sum >= MODULUS {
        sum - MODULUS
    } else {
        sum
    }
}

/// Items in rising order of number, as keys of a number and its item: a radix sort with scratch memory of its own.
#[derive(Default)]
pub struct Order {
    keys: Vec<u64>,
    scratch: Vec<u64>,
}

impl Order {
    pub fn of(&mut self, numbers: &[u32]) -> &[u64] {
        let held = numbers.iter().zip(0_u64..).filter(|(&number, _)| number != 0);
        self.keys.clear();
        self.keys.extend(held.map(|(&number, item)| u64::from(number) << 16 | item));
        self.scratch.resize(self.keys.len(), 0);
        for shift in [16, 24, 32, 40] {
            let digit = |key: u64| (key >> shift & 255) as usize;
            let mut places = [0; 257];
            self.keys.iter().for_each(|&key| places[digit(key) + 1] += 1);
            (0..256).for_each(|i| places[i + 1] += places[i]);
            for &key in &self.keys {
                self.scratch[places[digit(key)]] = key;
                places[digit(key)] += 1;
            }
            std::mem::swap(&mut self.keys, &mut self.scratch);
        }
        &self.keys
    }
}
