//! Sets as the replay script writes them: lower-case pairs, and `-` for no bytes at all.

const DIGITS: &[u8; 16] = b"0123456789abcdef";

pub fn write(bytes: &[u8], out: &mut Vec<u8>) {
    if bytes.is_empty() {
        out.push(b'-');
    }
    for byte in bytes {
        out.push(DIGITS[(byte >> 4) as usize]);
        out.push(DIGITS[(byte & 15) as usize]);
    }
}

fn digit(c: u8) -> Option<u8> {
    match c {
        b'0'..=b'9' => Some(c - b'0'),
        b'a'..=b'f' => Some(c - b'a' + 10),
        _ => None,
    }
}

pub fn read(field: &[u8]) -> Option<Vec<u8>> {
    if field == b"-" {
        return Some(Vec::new());
    }
    if field.is_empty() || field.len() % 2 == 1 {
        return None;
    }
    field.chunks(2).map(|pair| Some(digit(pair[0])? << 4 | digit(pair[1])?)).collect()
}

#[cfg(test)]
mod tests {
    use super::{read, write};

    #[test]
    fn reads_what_it_writes() {
        let bytes: Vec<u8> = (0..=255).collect();
        for bytes in [bytes.as_slice(), &[0], &[]] {
            let mut field = Vec::new();
            write(bytes, &mut field);
            assert_eq!(read(&field).as_deref(), Some(bytes));
        }
    }

    #[test]
    fn refuses_other_fields() {
        for field in ["", "0", "0A", "0g", "--", "00 ", "-0"] {
            assert_eq!(read(field.as_bytes()), None, "{field}");
        }
    }
}
