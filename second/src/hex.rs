//! Octets as lower-case hexadecimal text, `-` standing for no octets at all.

use std::fmt;

/// Shows octets as a script shows them.
pub struct Hex<'a>(pub &'a [u8]);

impl fmt::Display for Hex<'_> {
    fn fmt(&self, out: &mut fmt::Formatter<'_>) -> fmt::Result {
        if self.0.is_empty() {
            return out.write_str("-");
        }
        let text: Vec<u8> = self.0.iter().flat_map(|&octet| digits(octet)).collect();
        out.write_str(&String::from_utf8_lossy(&text))
    }
}

/// Reads octets from a word of a script: `-`, or an even number of digits in either case.
pub fn octets(word: &[u8]) -> Option<Vec<u8>> {
    if word == b"-" {
        return Some(Vec::new());
    }
    if word.is_empty() || word.len() % 2 != 0 {
        return None;
    }
    word.chunks(2)
        .map(|pair| match pair {
            [high, low] => Some(value(*high)? * 16 + value(*low)?),
            _ => None,
        })
        .collect()
}

fn digits(octet: u8) -> [u8; 2] {
    [digit(octet >> 4), digit(octet & 15)]
}

fn digit(value: u8) -> u8 {
    match value {
        0..=9 => b'0' + value,
        _ => b'a' + (value - 10),
    }
}

fn value(digit: u8) -> Option<u8> {
    match digit {
        b'0'..=b'9' => Some(digit - b'0'),
        b'a'..=b'f' => Some(digit - b'a' + 10),
        b'A'..=b'F' => Some(digit - b'A' + 10),
        _ => None,
    }
}

#[cfg(test)]
mod tests {
    use super::*;

    #[test]
    fn text_and_back() {
        assert_eq!(Hex(&[0x00, 0x9a, 0xff]).to_string(), "009aff");
        assert_eq!(Hex(&[]).to_string(), "-");
        assert_eq!(octets(b"009aFF"), Some(vec![0x00, 0x9a, 0xff]));
        assert_eq!(octets(b"-"), Some(vec![]));
        for bad in [&b""[..], b"0", b"0g", b"--", b"0x12", b"123"] {
            assert_eq!(octets(bad), None);
        }
    }
}
