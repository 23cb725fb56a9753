//! Damage done to the bytes of a record, as a poor wire would.

use super::good;
use crate::random::Random;

/// A kind of damage in plain words, and what does it.
type Damage = (&'static str, fn(&mut Random, &mut Vec<u8>));

const DAMAGES: [Damage; 9] = [
    ("cut short", cut),
    ("a byte changed", |random, bytes| change_byte(random, bytes)),
    ("bits flipped", |random, bytes| flip_bits(random, bytes)),
    ("bytes put in", insert),
    ("bytes taken out", delete),
    ("two bytes swapped", |random, bytes| swap(random, bytes)),
    ("bytes repeated", repeat),
    ("bytes put behind", append),
    ("another record put behind", join),
];

/// Damages a record in one way and says how; an empty one stays empty in most of them.
pub fn damage(random: &mut Random, bytes: &mut Vec<u8>) -> &'static str {
    let (name, work) = random.pick(&DAMAGES);
    work(random, bytes);
    name
}

/// Bytes that never were a record, some of which begin like one.
pub fn noise(random: &mut Random) -> Vec<u8> {
    let length = random.index(60);
    let highest = random.pick(&[0xFF, 0x83, 0x07, 0x02]);
    let mut bytes: Vec<u8> = (0..length).map(|_| random.between(0, highest) as u8).collect();
    if random.chance(600) {
        let seats = random.between(2, 7) as u8;
        let header = [seats, random.byte() % seats, random.byte() % 4, random.byte() % 4];
        bytes.splice(0..0, header);
    }
    bytes
}

fn cut(random: &mut Random, bytes: &mut Vec<u8>) {
    bytes.truncate(random.index(bytes.len() + 1));
}

fn change_byte(random: &mut Random, bytes: &mut [u8]) {
    if !bytes.is_empty() {
        let place = random.index(bytes.len());
        bytes[place] = random.byte();
    }
}

fn flip_bits(random: &mut Random, bytes: &mut [u8]) {
    if !bytes.is_empty() {
        for _ in 0..random.between(1, 3) {
            let place = random.index(bytes.len());
            bytes[place] ^= 1 << random.below(8);
        }
    }
}

fn insert(random: &mut Random, bytes: &mut Vec<u8>) {
    let place = random.index(bytes.len() + 1);
    let inserted = some_bytes(random);
    bytes.splice(place..place, inserted);
}

fn delete(random: &mut Random, bytes: &mut Vec<u8>) {
    let stretch = some_stretch(random, bytes);
    bytes.drain(stretch);
}

fn swap(random: &mut Random, bytes: &mut [u8]) {
    if !bytes.is_empty() {
        let first = random.index(bytes.len());
        let second = random.index(bytes.len());
        bytes.swap(first, second);
    }
}

fn repeat(random: &mut Random, bytes: &mut Vec<u8>) {
    let stretch = some_stretch(random, bytes);
    let repeated = bytes[stretch.clone()].to_vec();
    bytes.splice(stretch.end..stretch.end, repeated);
}

fn append(random: &mut Random, bytes: &mut Vec<u8>) {
    bytes.extend(some_bytes(random));
}

/// Two records joined.
fn join(random: &mut Random, bytes: &mut Vec<u8>) {
    bytes.extend(good::small_record(random).bytes());
}

fn some_bytes(random: &mut Random) -> Vec<u8> {
    let highest = random.pick(&[0, 3, 0x7F, 0xFF]);
    let count = random.between(1, 4);
    (0..count).map(|_| random.between(0, highest) as u8).collect()
}

fn some_stretch(random: &mut Random, bytes: &[u8]) -> std::ops::Range<usize> {
    let start = random.index(bytes.len() + 1);
    let end = bytes.len().min(start + random.between(1, 4) as usize);
    start..end
}
