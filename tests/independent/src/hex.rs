//! Bytes as pairs of hexadecimal digits.

const DIGITS: &[u8; 16] = b"0123456789abcdef";

/// Lower-case digits without blanks.
pub fn text(bytes: &[u8]) -> String {
    bytes.iter().flat_map(|byte| [digit(byte >> 4), digit(byte & 15)]).collect()
}

fn digit(half: u8) -> char {
    DIGITS[usize::from(half)].into()
}

/// Puts the first bytes of a line, at most so many, in place of what the list
/// held. Whatever is no digit is skipped; a lone last digit is dropped.
pub fn read(line: &[u8], most: usize, bytes: &mut Vec<u8>) {
    bytes.clear();
    let mut first_half = None;
    for half in line.iter().filter_map(|&digit| half(digit)) {
        match first_half.take() {
            None => first_half = Some(half),
            Some(_) if bytes.len() == most => return,
            Some(first) => bytes.push(first << 4 | half),
        }
    }
}

/// The bytes of a text that is nothing but pairs of digits.
pub fn pairs(text: &str) -> Option<Vec<u8>> {
    let halves: Option<Vec<u8>> = text.bytes().map(half).collect();
    let halves = halves.filter(|halves| halves.len() % 2 == 0)?;
    Some(halves.chunks(2).map(|pair| pair[0] << 4 | pair[1]).collect())
}

fn half(digit: u8) -> Option<u8> {
    match digit {
        b'0'..=b'9' => Some(digit - b'0'),
        b'a'..=b'f' => Some(digit - b'a' + 10),
        b'A'..=b'F' => Some(digit - b'A' + 10),
        _ => None,
    }
}

#[cfg(test)]
mod tests {
    use super::*;

    fn bytes_of(line: &str) -> Vec<u8> {
        let mut bytes = vec![9];
        read(line.as_bytes(), 4, &mut bytes);
        bytes
    }

    #[test]
    fn every_byte_comes_back() {
        let all: Vec<u8> = (0..=255).collect();
        let digits = text(&all);
        let mut bytes = Vec::new();
        for line in [&digits, &digits.to_uppercase()] {
            read(line.as_bytes(), 256, &mut bytes);
            assert_eq!(bytes, all);
        }
    }

    #[test]
    fn blanks_and_a_lone_last_digit_do_not_count() {
        assert_eq!(bytes_of(""), []);
        assert_eq!(bytes_of("f"), []);
        assert_eq!(bytes_of(" 0 30\t1-fF\r"), [3, 1, 0xFF]);
        assert_eq!(bytes_of("03 01 0"), [3, 1]);
    }

    #[test]
    fn pairs_are_digits_alone() {
        assert_eq!(pairs("0aF9"), Some(vec![0x0A, 0xF9]));
        assert_eq!(pairs("0aF"), None);
        assert_eq!(pairs("0a F9"), None);
    }

    #[test]
    fn only_the_first_bytes_are_taken() {
        assert_eq!(bytes_of("01020304"), [1, 2, 3, 4]);
        assert_eq!(bytes_of("0102030405"), [1, 2, 3, 4]);
    }
}
