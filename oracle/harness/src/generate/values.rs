//! Values of all four kinds; texts in characters of one to four bytes.
use prom_ui::shell_bridge::BridgeValue;

use super::{numbers, Scale};
use crate::rng::Rng;
use crate::sets;

/// The last characters of one, two, three and four bytes stand among the edges.
const EDGES: [char; 12] = [
    '\t',
    '\n',
    '\u{1}',
    '\u{7f}',
    '\u{80}',
    '\u{7ff}',
    '\u{800}',
    '\u{d7ff}',
    '\u{e000}',
    '\u{ffff}',
    '\u{10000}',
    '\u{10ffff}',
];

fn character(rng: &mut Rng, alphabet: u64) -> char {
    let (first, last) = match alphabet {
        0 => (' ', '~'),
        1 => ('α', 'ω'),
        2 => ('ぁ', 'ん'),
        3 => ('\u{1f300}', '\u{1f5ff}'),
        4 => return rng.pick(&EDGES),
        _ => {
            let alphabet = rng.below(4);
            return character(rng, alphabet);
        }
    };
    char::from_u32(rng.between(first as u64, last as u64) as u32).unwrap()
}

fn length(rng: &mut Rng, scale: Scale) -> usize {
    let long = if scale == Scale::Full { 12 } else { 1 };
    if !rng.percent(long) {
        return rng.between(0, 12) as usize;
    }
    match rng.below(3) {
        0 => 160,
        1 => 159,
        _ => rng.between(13, 160) as usize,
    }
}

/// A text as near below a length as its characters allow.
pub fn text(rng: &mut Rng, scale: Scale) -> String {
    let (length, alphabet) = (length(rng, scale), rng.weighted(&[(6, 0), (4, 1), (4, 2), (3, 3), (1, 4), (4, 5)]));
    let mut text = String::with_capacity(length);
    loop {
        let next = character(rng, alphabet);
        if text.len() + next.len_utf8() > length {
            return text;
        }
        text.push(next);
    }
}

fn signed(rng: &mut Rng) -> i64 {
    match rng.below(3) {
        0 => rng.pick(&[i64::MIN, i64::MIN + 1, -1, 0, 1, i64::MAX - 1, i64::MAX]),
        1 => rng.next() as i64,
        _ => rng.below(2_000) as i64 - 1_000,
    }
}

pub fn value(rng: &mut Rng, scale: Scale) -> BridgeValue {
    match rng.below(4) {
        0 => BridgeValue::Quad(sets::quad(rng.below(4) as u8)),
        1 => BridgeValue::Signed(signed(rng)),
        2 => BridgeValue::Unsigned(numbers::any(rng)),
        _ => BridgeValue::Text(text(rng, scale)),
    }
}
