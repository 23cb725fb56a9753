//! A number is cut into pieces of seven bits, the low ones in front. A byte
//! holds a piece, and its top bit is set unless the piece is the last.

use crate::refusal::Refusal;

const LONGEST: usize = 3;
const MORE: u8 = 0x80;

/// Takes one number from the front of the bytes; hands back its value and the rest.
pub fn read(bytes: &[u8]) -> Result<(u32, &[u8]), Refusal> {
    let mut value = 0;
    for group in 0..LONGEST {
        let byte = *bytes.get(group).ok_or(Refusal::Ends)?;
        value |= u32::from(byte & !MORE) << (7 * group);
        if byte & MORE == 0 {
            let shortest = byte != 0 || group == 0;
            return if shortest { Ok((value, &bytes[group + 1..])) } else { Err(Refusal::Form) };
        }
    }
    Err(Refusal::Form)
}

/// The shortest form of a number.
pub fn write(value: u32) -> Vec<u8> {
    let mut bytes = Vec::new();
    let mut left = value;
    while left >= u32::from(MORE) {
        bytes.push(MORE | (left % 128) as u8);
        left /= 128;
    }
    bytes.push(left as u8);
    bytes
}

#[cfg(test)]
mod tests {
    use super::*;

    #[test]
    fn p12_numbers() {
        let rows: [(u32, &[u8]); 4] = [
            (127, &[0x7F]),
            (128, &[0x80, 0x01]),
            (16_384, &[0x80, 0x80, 0x01]),
            (65_535, &[0xFF, 0xFF, 0x03]),
        ];
        for (value, bytes) in rows {
            assert_eq!(write(value), bytes);
            assert_eq!(read(bytes), Ok((value, &[][..])));
        }
    }

    #[test]
    fn every_number_of_three_bytes_reads_back() {
        for value in 0..1 << 21 {
            let mut bytes = write(value);
            bytes.push(9);
            assert_eq!(read(&bytes), Ok((value, &[9][..])));
        }
    }

    #[test]
    fn only_the_shortest_form_is_good() {
        assert_eq!(read(&[0x00]), Ok((0, &[][..])));
        assert_eq!(read(&[0x80, 0x00]), Err(Refusal::Form));
        assert_eq!(read(&[0xFF, 0xFF, 0x00]), Err(Refusal::Form));
    }

    #[test]
    fn a_third_byte_with_its_top_bit_set_is_too_long_even_at_the_end() {
        assert_eq!(read(&[0xFF, 0xFF, 0xFF]), Err(Refusal::Form));
        assert_eq!(read(&[0x80, 0x80, 0x80, 0x01]), Err(Refusal::Form));
    }

    #[test]
    fn a_missing_byte_ends_the_record() {
        assert_eq!(read(&[]), Err(Refusal::Ends));
        assert_eq!(read(&[0x80]), Err(Refusal::Ends));
        assert_eq!(read(&[0x80, 0x80]), Err(Refusal::Ends));
    }
}
