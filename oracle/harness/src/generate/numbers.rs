//! Numbers that are small, at the ends of their types, or anywhere.
use crate::rng::Rng;

const EDGES: [u64; 16] = [
    0,
    1,
    2,
    127,
    128,
    255,
    256,
    65_535,
    65_536,
    u32::MAX as u64,
    1 << 32,
    (1 << 63) - 1,
    1 << 63,
    u64::MAX - 2,
    u64::MAX - 1,
    u64::MAX,
];

pub fn any(rng: &mut Rng) -> u64 {
    match rng.below(4) {
        0 => rng.pick(&EDGES),
        1 => rng.next(),
        _ => rng.below(300),
    }
}

/// A number above 0.
pub fn id(rng: &mut Rng) -> u64 {
    any(rng).max(1)
}

pub fn slot(rng: &mut Rng) -> u32 {
    match rng.below(4) {
        0 => rng.pick(&[0, 1, 255, 256, u32::MAX - 1, u32::MAX]),
        1 => rng.next() as u32,
        _ => rng.below(8) as u32,
    }
}

/// A number up to a limit, often the limit itself.
pub fn within(rng: &mut Rng, limit: u64) -> u64 {
    match rng.below(4) {
        0 => limit,
        1 => limit.saturating_sub(1),
        2 => rng.between(0, limit),
        _ => rng.between(0, limit.min(500)),
    }
}

/// A number over a limit, often by one, if there is such a number.
pub fn over(rng: &mut Rng, limit: u64) -> Option<u64> {
    let least = limit.checked_add(1)?;
    Some(match rng.below(4) {
        0 => u64::MAX,
        1 => rng.between(least, u64::MAX),
        _ => least,
    })
}

/// A number that is not the given one, often its neighbour.
pub fn other(rng: &mut Rng, number: u64) -> u64 {
    let candidate = match rng.below(5) {
        0 => number.wrapping_add(1),
        1 => number.wrapping_sub(1),
        2 => number ^ (1 << rng.below(64)),
        _ => any(rng),
    };
    if candidate == number {
        number ^ 1
    } else {
        candidate
    }
}
