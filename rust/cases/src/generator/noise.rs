//! Bytes that no generator of cases made.

use attachment_h::layout::HIGHEST_UNIT_NUMBER;

use super::any_case_in;
use crate::case::{Input, ROW_BYTES, Section, Version, file_in};
use crate::random::Random;

/// Bytes that no generator of cases made: noise, a good header with noise after it, a good file
/// cut short or longer, or a good file with some bytes or bits changed.
pub fn random_bytes(random: &mut Random) -> Input {
    random_bytes_in(Version::One, random)
}

/// The same of a version, where its number is left.
pub fn random_bytes_in(version: Version, random: &mut Random) -> Input {
    let mut input = any_case_in(version, random).input();
    if random.chance(1, 4) {
        input.rows_len = random.below(2 * ROW_BYTES * 200);
    }
    match random.below(6) {
        0 => {
            let length = random.below(400);
            input.file = noise(random, length);
        }
        1 => {
            input.file = noisy_records(version, random);
        }
        2 => {
            let length = random.below(input.file.len());
            input.file.truncate(length);
        }
        3 => {
            let length = random.below(40);
            input.file.extend(noise(random, length));
        }
        4 => {
            for _ in 0..1 + random.below(3) {
                let place = random.below(input.file.len());
                input.file[place] ^= 1 << random.below(8);
            }
        }
        _ => {
            for _ in 0..1 + random.below(3) {
                let place = random.below(input.file.len());
                input.file[place] = random.pick(&[0, 1, 2, 127, 128, 255]);
            }
        }
    }
    if random.chance(1, 6) {
        let length = random.below(40);
        input.correction = noise(random, length);
    }
    input
}

fn noise(random: &mut Random, length: usize) -> Vec<u8> {
    (0..length).map(|_| random.bits() as u8).collect()
}

/// Sections of whole records with noise in them; in version 2 often with numbers that a unit can have, which noise
/// seldom has.
fn noisy_records(version: Version, random: &mut Random) -> Vec<u8> {
    let sections = Section::ALL.map(|section| {
        let width = section.width(version);
        let length = width * random.below(3);
        let mut bytes = noise(random, length);
        if version == Version::Two && random.chance(3, 4) {
            for record in bytes.chunks_exact_mut(width) {
                let number = random.below(HIGHEST_UNIT_NUMBER as usize + 1);
                section.put_unit_number(version, record, number as u32);
            }
        }
        bytes
    });
    file_in(version, &sections)
}
