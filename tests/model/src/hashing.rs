//! The generator, signatures, ranks and homes.

use crate::{Growth, Parameters};
use std::sync::OnceLock;

pub const MODULUS: u64 = 2_147_483_647;
/// Park and Miller's of 1988, and the one that they recommended in 1993.
pub const MULTIPLIERS: [u32; 2] = [16_807, 48_271];

/// Xj(K) = multiplier^j·K mod m for j from 1 to 2,049.
pub fn x(multiplier: u32, j: u64, star: u64) -> u64 {
    static POWERS: [OnceLock<Vec<u64>>; 2] = [const { OnceLock::new() }; 2];
    let which = MULTIPLIERS.iter().position(|&other| other == multiplier).expect("one of the two multipliers");
    let powers = POWERS[which].get_or_init(|| {
        let next = |power: &u64| Some(power * u64::from(multiplier) % MODULUS);
        std::iter::successors(Some(1), next).take(2_050).collect()
    });
    powers[j as usize] * star % MODULUS
}

/// The signature on the probe-th page probed, 1 at home.
pub fn signature(parameters: &Parameters, star: u64, probe: u64) -> u64 {
    x(parameters.multiplier, 2 * probe + 1, star) % parameters.top()
}

/// Group size n and group count G while `finished` partial expansions are finished.
pub fn shape(parameters: &Parameters, finished: u32) -> (u64, u64) {
    let (n, doublings) = (parameters.width + finished % parameters.width, finished / parameters.width);
    (n.into(), u64::from(parameters.groups) << doublings)
}

pub fn highest_address(parameters: &Parameters, growth: &Growth) -> u64 {
    let (n, groups) = shape(parameters, growth.expansions);
    n * groups + u64::from(growth.expanded) - 1
}

/// (e, x) one growth later.
pub fn grown(parameters: &Parameters, growth: &Growth) -> Growth {
    let (_, groups) = shape(parameters, growth.expansions);
    if u64::from(growth.expanded) + 1 == groups {
        Growth { expansions: growth.expansions + 1, expanded: 0 }
    } else {
        Growth { expanded: growth.expanded + 1, ..*growth }
    }
}

/// (e, x) before the latest growth; none if there was none.
pub fn shrunk(parameters: &Parameters, growth: &Growth) -> Option<Growth> {
    match *growth {
        Growth { expansions: 0, expanded: 0 } => None,
        Growth { expansions, expanded: 0 } => {
            let (_, groups) = shape(parameters, expansions - 1);
            Some(Growth { expansions: expansions - 1, expanded: groups as u32 - 1 })
        }
        Growth { expansions, expanded } => Some(Growth { expansions, expanded: expanded - 1 }),
    }
}

/// The backward sweeps: when group g's turn comes among G groups.
pub fn rank(step: u64, groups: u64, group: u64) -> u64 {
    let t = groups - 1 - group;
    let w = t % step;
    w * (groups / step) + w.min(groups % step) + t / step
}

pub fn home(parameters: &Parameters, growth: &Growth, star: u64) -> u64 {
    let x = |j| x(parameters.multiplier, j, star);
    let mut address = x(1) % u64::from(parameters.width * parameters.groups);
    for i in 1..=growth.expansions + 1 {
        let (n, groups) = shape(parameters, i - 1);
        let rank = rank(parameters.step.into(), groups, address % groups);
        let chosen = x(2 * u64::from(i)) * (n + 1) <= MODULUS;
        if chosen && (i <= growth.expansions || rank < growth.expanded.into()) {
            address = n * groups + rank;
        }
    }
    address
}
