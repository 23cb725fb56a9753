//! A height change as a number: even from 0 up, odd below, by its distance.

pub fn mapped(change: i32) -> u32 {
    if change >= 0 {
        2 * change as u32
    } else {
        (-2 * change - 1) as u32
    }
}

pub fn unmapped(number: u32) -> i32 {
    if number % 2 == 0 {
        (number / 2) as i32
    } else {
        -((number / 2) as i32) - 1
    }
}

#[cfg(test)]
mod tests {
    use super::*;

    #[test]
    fn edges_to_run() {
        assert_eq!(mapped(-1), 1);
        assert_eq!(mapped(1), 2);
        assert_eq!(mapped(-32_768), 65_535);
        assert_eq!(mapped(32_767), 65_534);
    }

    #[test]
    fn every_mapped_change_comes_back() {
        for number in 0..=65_535 {
            let change = unmapped(number);
            assert!((-32_768..=32_767).contains(&change));
            assert_eq!(mapped(change), number);
        }
    }
}
