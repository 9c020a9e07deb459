//! A term list brought in by plain Rust with std, with the answers of 02's Job 1: what the proved call is timed beside.
use std::collections::HashSet;
use std::str;

use crate::sets::HEADING;

const SET_BYTES: usize = 32_768;
const LINES: usize = 128;
const TEXT_BYTES: usize = 240;
const TEXT_CHARACTERS: usize = 160;

/// The numbers of the patch, in the order in which they are written; the surface stands behind the first three.
#[derive(Clone, Copy)]
pub struct Numbers {
    pub id: u64,
    pub stream: u64,
    pub document: u64,
    pub surface: Option<u64>,
    pub previous: u64,
    pub revision: u64,
    pub epoch: u64,
    pub sequence: u64,
}

/// Key and text of a line, or 15.
fn term(line: &[u8]) -> Result<(u64, &str), u64> {
    let line = str::from_utf8(line).map_err(|_| 15u64)?;
    let (key, text) = line.split_once('\t').ok_or(15u64)?;
    let plain = key == "0" || !key.starts_with('0') && key.bytes().all(|b| b.is_ascii_digit());
    if !plain || text.contains('\t') {
        return Err(15);
    }
    Ok((key.parse().map_err(|_| 15u64)?, text))
}

/// Every newline ends a line; bytes behind the last one are a line too.
fn lines(list: &[u8]) -> impl Iterator<Item = &[u8]> {
    let ended = list.strip_suffix(b"\n").unwrap_or(list);
    ended.split(|b| *b == b'\n').filter(|_| !list.is_empty())
}

fn head(numbers: &Numbers, operations: usize) -> Vec<u8> {
    let mut set = Vec::with_capacity(256);
    set.extend((HEADING.len() as u32).to_le_bytes());
    set.extend(HEADING);
    set.extend(1u32.to_le_bytes());
    for x in [numbers.id, numbers.stream, numbers.document] {
        set.extend(x.to_le_bytes());
    }
    set.push(numbers.surface.is_some() as u8);
    numbers.surface.into_iter().for_each(|x| set.extend(x.to_le_bytes()));
    for x in [numbers.previous, numbers.revision, numbers.epoch, numbers.sequence] {
        set.extend(x.to_le_bytes());
    }
    set.extend((operations as u32).to_le_bytes());
    set
}

/// The set of one patch, or the number of the refusal; nothing is written then.
pub fn import(list: &[u8], collection: u64, numbers: &Numbers, out: &mut [u8]) -> Result<usize, u64> {
    let mut keys = HashSet::new();
    let mut operations = Vec::new();
    let mut count = 0;
    for line in lines(list) {
        let (key, text) = term(line)?;
        if text.len() > TEXT_BYTES || text.chars().count() > TEXT_CHARACTERS || count == LINES {
            return Err(12);
        }
        count += 1;
        keys.insert(key);
        operations.push(3);
        operations.extend(collection.to_le_bytes());
        operations.extend(key.to_le_bytes());
        operations.extend([0, 3]);
        operations.extend((text.len() as u32).to_le_bytes());
        operations.extend(text.as_bytes());
    }
    let mut set = head(numbers, count);
    set.extend(operations);
    if set.len() > SET_BYTES {
        return Err(12);
    }
    let ordered = numbers.id != 0 && numbers.stream != 0 && numbers.previous < numbers.revision;
    if count == 0 || keys.len() != count || !ordered {
        return Err(11);
    }
    out.get_mut(..set.len()).ok_or(14u64)?.copy_from_slice(&set);
    Ok(set.len())
}

#[cfg(test)]
mod tests {
    use super::{import, Numbers};

    const NUMBERS: Numbers =
        Numbers { id: 1, stream: 1, document: 1, surface: None, previous: 0, revision: 1, epoch: 1, sequence: 1 };

    #[test]
    fn brings_in_the_example() {
        let (list, set) =
            (include_bytes!("../../../examples/terms.txt"), include_bytes!("../../../examples/terms.set"));
        let mut out = [7; 700];
        assert_eq!(import(list, 9, &NUMBERS, &mut out), Ok(set.len()));
        assert_eq!((&out[..set.len()], &out[set.len()..]), (&set[..], &[7; 35][..]));
        assert_eq!(import(list, 9, &NUMBERS, &mut out[..set.len() - 1]), Err(14));
    }

    #[test]
    fn refuses_as_the_request_says() {
        let long = "x".repeat(161);
        for (list, number) in [
            ("", 11),
            ("\n", 15),
            ("1\ta\n\n", 15),
            ("01\ta", 15),
            ("+1\ta", 15),
            ("\ta", 15),
            ("1\ta\tb", 15),
            ("1", 15),
            ("18446744073709551616\ta", 15),
            ("1\ta\n1\tb", 11),
            (&format!("1\t{long}\nbad"), 12),
            (&format!("bad\n1\t{long}"), 15),
            ("1\ta\n1\tb\nbad", 15),
        ] {
            assert_eq!(import(list.as_bytes(), 9, &NUMBERS, &mut [0; 200]), Err(number), "{list:?}");
        }
        assert_eq!(import(b"1\ta", 9, &Numbers { id: 0, ..NUMBERS }, &mut [0; 200]), Err(11));
        assert_eq!(import(b"1\t\xff", 9, &NUMBERS, &mut [0; 200]), Err(15));
    }
}
