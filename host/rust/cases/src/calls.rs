//! Lists of calls on one image.
use crate::block::Block;
use crate::blocks::{block, crisp};
use crate::images::damage_word;
use crate::random::Random;
use crate::{Held, Reading};

#[derive(Clone, Debug)]
pub struct Call {
    pub readings: [Reading; 8],
    pub count: usize,
    pub held: HeldFrom,
}

/// Which record a call gets.
#[derive(Clone, Copy, Debug)]
pub enum HeldFrom {
    /// What the call before returned or left, the fresh record at first.
    Before,
    Fresh,
    Given(Held),
}

pub fn calls(random: &mut Random) -> (Vec<u8>, Vec<Call>) {
    let subject = block(random);
    let mut image = subject.image();
    if random.once_in(20) {
        damage_word(random, &mut image);
    }
    let calls = (0..random.size(1, 8)).map(|_| call(random, &subject)).collect();
    (image, calls)
}

fn call(random: &mut Random, block: &Block) -> Call {
    let mut readings = [Reading::default(); 8];
    for (place, reading) in readings.iter_mut().enumerate() {
        *reading = match block.inputs.get(place) {
            Some(input) if random.once_in(40) => wrong(random, input.int),
            Some(input) if input.int => Reading::int(int(random, block, place)),
            Some(_) => Reading::real(real(random, block, place)),
            None => wrong(random, false),
        };
    }
    let inputs = block.inputs.len();
    let count = match random.below(30) {
        0 => random.below(10),
        1 => *random.pick(&[0, 8, 9, 255, usize::MAX, usize::MAX - 7]),
        // The right one in its lowest bits.
        2 => inputs + (1 << *random.pick(&[8, 16, usize::BITS / 2, usize::BITS - 1])),
        _ => inputs,
    };
    Call { readings, count, held: held(random, block) }
}

/// A reading that an input of this kind may not have, or may.
fn wrong(random: &mut Random, int: bool) -> Reading {
    match random.below(6) {
        0 => Reading::default(),
        1 => Reading::real(*random.pick(&[f32::NAN, -f32::NAN, f32::INFINITY, f32::NEG_INFINITY])),
        2 => Reading::real(f32::from_bits(0x7f80_0001 | (random.bits() as u32 & 0x803f_ffff))),
        3 => Reading { kind: *random.pick(&[3, 4, 128, 255]), real: random.bits() as u32, int: random.bits() as i16 },
        4 if int => Reading::real(1.0),
        _ => Reading::int(random.bits() as i16),
    }
}

/// A crisp value on, next to or between an input's points.
fn near_points(random: &mut Random, block: &Block, input: usize) -> i64 {
    let terms = &block.inputs[input].terms;
    let points = &random.pick(terms).points;
    let point = random.below(points.len());
    let next = points.get(point + 1).unwrap_or(&points[point]).0;
    match random.below(3) {
        0 => points[point].0,
        1 => points[point].0 + random.between(-1, 1),
        _ => random.between(points[point].0, next),
    }
}

fn int(random: &mut Random, block: &Block, input: usize) -> i16 {
    match random.below(4) {
        0 => random.bits() as i16,
        1 => *random.pick(&[0, 1, -1, i16::MIN, i16::MAX]),
        _ => (near_points(random, block, input) / 1000).clamp(-32_768, 32_767) as i16,
    }
}

fn real(random: &mut Random, block: &Block, input: usize) -> f32 {
    match random.below(16) {
        0 => {
            let bits = random.bits() as u32;
            let value = f32::from_bits(bits);
            if value.is_finite() {
                value
            } else {
                f32::from_bits(bits & 0xbfff_ffff)
            }
        }
        1 => {
            *random.pick(&[0.0, -0.0, 1.0, -1.0, f32::MAX, f32::MIN, f32::MIN_POSITIVE, 3e38, 1e6, -1e6, 1_000_000.06])
        }
        2 => f32::from_bits(random.bits() as u32 & 0x807f_ffff),
        // Exact halves of thousandths: odd multiples of 1/16 are half-way between two thousandths.
        3 | 4 => (2 * random.between(-200_000, 200_000) + 1) as f32 / 16.0,
        // Small ones, where a float is finer than a thousandth.
        5 => random.between(-100_000, 100_000) as f32 / 1024.0 / 1024.0,
        // Next to halves that no float hits, the smallest ones too.
        6 => {
            let most = *random.pick(&[1, 20, 20_000]);
            let half = (random.between(-most, most) as f32 + 0.5) / 1000.0;
            f32::from_bits(half.to_bits().wrapping_add_signed(random.between(-1, 1) as i32))
        }
        7 => crisp(random, -1_000_000_000, 1_000_000_000) as f32 / 1000.0,
        _ => {
            let near = (near_points(random, block, input) as f64 / 1000.0) as f32;
            match random.below(4) {
                0 => f32::from_bits(near.to_bits() + 1),
                1 => f32::from_bits(near.to_bits().saturating_sub(1)),
                _ => near,
            }
        }
    }
}

fn held(random: &mut Random, block: &Block) -> HeldFrom {
    match random.below(10) {
        0 => HeldFrom::Fresh,
        1 | 2 => {
            let mut held = [0; 6];
            for (place, output) in held.iter_mut().zip(&block.outputs) {
                let (min, max) = output.range.unwrap_or((-1_000_000_000, 1_000_000_000));
                *place = crisp(random, min, max) as i32;
            }
            let place = random.below(6);
            match random.below(6) {
                0 => held[place] = *random.pick(&[1_000_000_000, 1_000_000_001, -1_000_000_001, i32::MIN, i32::MAX, 1]),
                1 => {
                    if let Some((min, max)) = block.outputs.get(place).and_then(|output| output.range) {
                        held[place] = *random.pick(&[min - 1, min, max, max + 1]) as i32;
                    }
                }
                2 if block.outputs.len() < 6 => held[5] = *random.pick(&[1, -1, i32::MIN]),
                _ => {}
            }
            HeldFrom::Given(held)
        }
        _ => HeldFrom::Before,
    }
}
