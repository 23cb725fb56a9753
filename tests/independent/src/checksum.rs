//! 32-bit FNV-1a over bytes.

const START: u32 = 0x811C_9DC5;
const PRIME: u32 = 0x0100_0193;

pub fn checksum(bytes: &[u8]) -> u32 {
    bytes.iter().fold(START, |sum, &byte| (sum ^ u32::from(byte)).wrapping_mul(PRIME))
}

#[cfg(test)]
mod tests {
    use super::*;

    /// The sums that the authors of FNV print for these texts.
    #[test]
    fn known_sums() {
        assert_eq!(checksum(b""), 0x811C_9DC5);
        assert_eq!(checksum(b"a"), 0xE40C_292C);
        assert_eq!(checksum(b"foobar"), 0xBF9C_F968);
    }
}
