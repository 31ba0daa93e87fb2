//! The pages that a growth may alter: document 02 (xiv).

use crate::calls::{growth_valid, parameters_valid};
use crate::hashing::{highest_address, rank, shape};
use crate::{Growth, Parameters};

/// Marks them with 1 and the others with 0, from the growth state before and the separators before and after; the refusal, if any.
pub fn mark_changed(p: &Parameters, growth: &Growth, before: &[u8], after: &[u8], marks: &mut [u8]) -> u32 {
    if !parameters_valid(p) || !growth_valid(p, growth) {
        return 1;
    }
    let pages = p.pages as usize;
    if [before.len(), after.len(), marks.len()] != [pages; 3] {
        return 2;
    }
    if highest_address(p, growth) == u64::from(p.pages) - 1 {
        return 8;
    }
    let top = |separators: &[u8], page: usize| u64::from(separators[page]) == p.top();
    marks.fill(0);
    let mut stretch = |from: u64, ends: &dyn Fn(usize) -> bool| {
        let from = from as usize;
        let to = (from..pages).find(|&page| ends(page)).unwrap_or(pages - 1);
        marks[from..=to].fill(1);
    };
    let (n, groups) = shape(p, growth.expansions);
    let expanded = u64::from(growth.expanded);
    let group = (0..groups).find(|&group| rank(p.step.into(), groups, group) == expanded).unwrap();
    for i in 0..n {
        stretch(group + i * groups, &|page| top(before, page));
    }
    stretch(n * groups + expanded, &|page| top(before, page) && top(after, page));
    0
}
