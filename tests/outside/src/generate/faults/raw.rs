//! Faults that know nothing of the format: damage, other lengths, and bytes without sense.

use crate::generate::random::Random;
use crate::reference::limits::{REGISTER_BYTES, STATE_BYTES};

/// Some bytes or bits are others.
pub fn damaged(mut image: Vec<u8>, random: &mut Random) -> Vec<u8> {
    for _ in 0..*random.pick(&[1, 1, 1, 2, 4, 16]) {
        let place = random.below(image.len());
        match random.below(3) {
            0 => image[place] ^= 1 << random.below(8),
            1 => image[place] = random.bits() as u8,
            _ => image[place] = image[place].wrapping_add(*random.pick(&[1, 255])),
        }
    }
    image
}

/// Cut short or made longer.
pub fn resized(mut image: Vec<u8>, random: &mut Random) -> Vec<u8> {
    let length = match random.below(6) {
        0 => image.len() - 1,
        1 => image.len() + 1,
        2 => random.below(image.len()),
        3 => random.below(24),
        4 => image.len() + random.between(2, 70_000),
        _ => image.len() - 8.min(image.len()),
    };
    image.resize(length, random.bits() as u8);
    image
}

/// Random bytes, half of them behind a directory that holds.
pub fn senseless(random: &mut Random) -> Vec<u8> {
    if random.percent(50) {
        let length = *random.pick(&[0, 1, 2, 19, 20, 21, 22, 56, 235, 1_000]);
        return bytes(random, length);
    }
    let counts = [
        random.between(1, 16) * 2,
        random.between(0, 64) * REGISTER_BYTES,
        random.between(1, 64) * STATE_BYTES,
        random.between(0, 30) * 8,
        random.between(0, 30) * 8,
    ];
    let mut image = Vec::new();
    let mut offset = 20;
    for length in counts {
        image.extend((offset as u16).to_le_bytes());
        image.extend((length as u16).to_le_bytes());
        offset += length;
    }
    let rest = bytes(random, offset - 20);
    image.extend(rest);
    image
}

fn bytes(random: &mut Random, length: usize) -> Vec<u8> {
    let narrow = random.percent(50);
    (0..length)
        .map(|_| {
            if narrow {
                random.below(4) as u8
            } else {
                random.bits() as u8
            }
        })
        .collect()
}
