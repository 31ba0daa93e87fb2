//! What CS-83-28 expects of `chains`: its formulas (sections 3 to 5), with the averages over a full expansion.

use super::chains::{Shape, WIDTH};

/// How fast groups are expanded while overflow decides, g_b'(z).
#[derive(Clone, Copy)]
pub enum Rate {
    /// Equation (1) differentiated.
    Differentiated,
    /// As the document has it: without the factor g_b(z) before t'(z/q).
    Printed,
}

/// Means over a full expansion; of entries also the part of growths, and the least and greatest cost on the way.
#[derive(Default)]
pub struct Means {
    pub found: f64,
    pub missed: f64,
    pub entry: f64,
    pub growths: f64,
    pub least: f64,
    pub greatest: f64,
    /// Sizes of the file, by its first, at which overflow begins or ends to decide.
    pub switches: Vec<f64>,
    /// Pages added for each star before and after the first of them.
    pub rates: (f64, f64),
}

/// P(k, z).
fn share(shape: &Shape, k: usize, z: f64) -> f64 {
    let stars = z * shape.places as f64;
    (1..=k).fold((-stars).exp(), |product, i| product * stars / i as f64)
}

/// t(z), the overflow stars of a page.
fn overflow(shape: &Shape, z: f64) -> f64 {
    let b = shape.places as f64;
    b * (z - 1.0) + (0..=shape.places).map(|k| (b - k as f64) * share(shape, k, z)).sum::<f64>()
}

/// P_b(z), the share of full pages; b times it is t'(z).
fn full(shape: &Shape, z: f64) -> f64 {
    1.0 - (0..shape.places).map(|k| share(shape, k, z)).sum::<f64>()
}

/// u(z), equation (3).
fn missed(shape: &Shape, z: f64) -> f64 {
    1.0 + overflow(shape, z) / shape.chains as f64
}

/// s(z), equation (4).
fn found(shape: &Shape, z: f64) -> f64 {
    let (b, m) = (shape.places as f64, shape.chains as f64);
    let free = |k: usize| {
        let left = b - k as f64;
        share(shape, k, z) * left * (1.0 - (left + 1.0) / (2.0 * m))
    };
    let sum = (0..shape.places).map(free).sum::<f64>();
    2.0 + sum / (z * b) - 1.0 / z + b * z / (2.0 * m) - b / m + (b + 1.0) / (2.0 * m * z)
}

/// a(z), an entry without growths.
fn entry(shape: &Shape, z: f64) -> f64 {
    1.0 + missed(shape, z) + 2.0 * full(shape, z)
}

/// A partial expansion by the factor q, with d and f of section 3.
struct Expansion<'a> {
    shape: &'a Shape,
    q: f64,
    d: f64,
    f: f64,
}

impl Expansion<'_> {
    fn by_load(&self, z: f64) -> f64 {
        (z * (1.0 - self.f) / self.shape.load - 1.0) / (self.q - 1.0)
    }

    /// Equation (1).
    fn by_overflow(&self, z: f64) -> f64 {
        let (whole, split) = (overflow(self.shape, z), overflow(self.shape, z / self.q));
        (self.d - whole) / (self.q * split - whole - (self.q - 1.0) * self.d)
    }

    fn rate_by_load(&self) -> f64 {
        (1.0 - self.f) / (self.shape.load * (self.q - 1.0))
    }

    fn rate_by_overflow(&self, z: f64, rate: Rate) -> f64 {
        let (b, expanded) = (self.shape.places as f64, self.by_overflow(z));
        let factor = match rate {
            Rate::Differentiated => expanded,
            Rate::Printed => 1.0,
        };
        let (whole, split) = (overflow(self.shape, z), overflow(self.shape, z / self.q));
        let rise = (1.0 - expanded) * full(self.shape, z) + factor * full(self.shape, z / self.q);
        b * rise / ((self.q - 1.0) * self.d + whole - self.q * split)
    }
}

/// The load at which the overflow of pages of one load just has room, g_b^-1(0).
fn filled(shape: &Shape, d: f64) -> f64 {
    let (mut low, mut high) = (0.0, 8.0);
    for _ in 0..60 {
        let middle = (low + high) / 2.0;
        match overflow(shape, middle) < d {
            true => low = middle,
            false => high = middle,
        }
    }
    low
}

/// The averages (5) and (6) and those of section 5, by sums over the middles of 1,000 parts of each partial expansion.
pub fn means(shape: &Shape, rate: Rate) -> Means {
    const PARTS: usize = 1_000;
    let (b, f) = (shape.places as f64, 1.0 / shape.every as f64);
    let d = b * f / (1.0 - f);
    let z0 = (shape.load / (1.0 - f)).min(filled(shape, d));
    let (mut means, mut before) = (Means { least: f64::INFINITY, ..Means::default() }, None);
    for n in WIDTH..2 * WIDTH {
        let q = (n + 1) as f64 / n as f64;
        let expansion = Expansion { shape, q, d, f };
        for part in 0..PARTS {
            let z = z0 * (1.0 + (q - 1.0) * (part as f64 + 0.5) / PARTS as f64);
            let loaded = expansion.by_load(z) > expansion.by_overflow(z);
            let (expanded, speed) = match loaded {
                true => (expansion.by_load(z), expansion.rate_by_load()),
                false => (expansion.by_overflow(z), expansion.rate_by_overflow(z, rate)),
            };
            let both = |of: fn(&Shape, f64) -> f64| expanded * of(shape, z / q) + (1.0 - expanded) * of(shape, z);
            let growths = speed / b * (2.0 + 2.0 * overflow(shape, z) + (q - 1.0) / (1.0 - f));
            let total = both(entry) + growths;
            let weight = 1.0 / (WIDTH * PARTS) as f64;
            means.found += weight * both(found);
            means.missed += weight * both(missed);
            means.entry += weight * total;
            means.growths += weight * growths;
            (means.least, means.greatest) = (means.least.min(total), means.greatest.max(total));
            let added = speed / (n as f64 * b);
            if let Some((was, last)) = before.filter(|&(was, _)| was != loaded) {
                if means.switches.is_empty() && was {
                    means.rates = (last, added);
                }
                means.switches.push((n as f64 + expanded) / WIDTH as f64);
            }
            before = Some((loaded, added));
        }
    }
    means
}

#[cfg(test)]
mod tests {
    use super::super::chains::{TABLE_1, TABLE_2};
    use super::*;

    const EXAMPLE: Shape = Shape { places: 10, chains: 5, every: 10, load: 0.85 };

    /// Within a unit of the document's last digit.
    fn rounds_to(value: f64, published: f64) {
        assert!((value - published).abs() <= 0.001, "{value} for {published}");
    }

    /// Tables 1 and 2 to a unit of the last digit, but that Table 2 has 4.411 for the 4.111 of three chains.
    #[test]
    fn tables_as_printed() {
        for (places, every, rows) in [(10, 10, TABLE_1), (40, 20, TABLE_2)] {
            for (chains, [found, missed, entry]) in rows {
                let means = means(&Shape { places, chains, every, load: 0.85 }, Rate::Printed);
                rounds_to(means.found, found);
                rounds_to(means.missed, missed);
                rounds_to(means.entry, entry);
            }
        }
    }

    /// Section 5's example, Figures 5 and 6: of 5.080 accesses growths have 1.880, where the differentiated rate gives 1.770 of 4.970.
    #[test]
    fn example_of_section_5() {
        let printed = means(&EXAMPLE, Rate::Printed);
        rounds_to(printed.entry, 5.080);
        rounds_to(printed.growths, 1.880);
        rounds_to(printed.least, 4.088);
        rounds_to(printed.greatest, 5.812);
        assert_eq!(printed.switches.iter().map(|size| (size * 100.0).round()).collect::<Vec<_>>(), [109.0, 140.0]);
        // Figure 5 counts overflow pages too.
        let all = 1.0 / (1.0 - 0.1);
        rounds_to(printed.rates.0 * all, 0.118);
        assert!((printed.rates.1 * all - 0.203).abs() < 0.003);
        let differentiated = means(&EXAMPLE, Rate::Differentiated);
        rounds_to(differentiated.entry, 4.970);
        rounds_to(differentiated.growths, 1.770);
    }

    /// The differentiated rate is the slope of equation (1), and the printed one is not.
    #[test]
    fn slope_of_equation_1() {
        let expansion = Expansion { shape: &EXAMPLE, q: 1.5, d: 10.0 / 9.0, f: 0.1 };
        for z in [1.05, 1.1, 1.2, 1.3] {
            let slope = (expansion.by_overflow(z + 1e-5) - expansion.by_overflow(z - 1e-5)) / 2e-5;
            let off = |rate| (expansion.rate_by_overflow(z, rate) / slope - 1.0).abs();
            assert!(off(Rate::Differentiated) < 1e-6 && off(Rate::Printed) > 0.1, "{z}: {slope}");
        }
    }

    /// The appendix's Tables 3 and 4 for two partial expansions, where load decides throughout: average and greatest.
    #[test]
    fn appendix() {
        let table_3 =
            [(0.70, 27, 3.847, 4.314), (0.80, 12, 4.578, 5.276), (0.85, 8, 5.161, 6.019), (0.95, 4, 6.893, 8.105)];
        let table_4 =
            [(0.70, 56, 3.002, 3.281), (0.80, 20, 3.753, 4.242), (0.85, 13, 4.361, 4.993), (0.95, 5, 6.644, 7.736)];
        for (places, rows) in [(10, table_3), (20, table_4)] {
            for (load, every, entry, greatest) in rows {
                let means = means(&Shape { places, chains: 5, every, load }, Rate::Differentiated);
                assert!(means.switches.is_empty());
                rounds_to(means.entry, entry);
                rounds_to(means.greatest, greatest);
            }
        }
    }
}
