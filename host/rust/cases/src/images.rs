//! Stored images: of blocks that keep or break a rule, and damaged ones.
use crate::block::{Block, WIDTHS};
use crate::blocks::{block, crowd, keyword, strain, KEYWORDS};
use crate::random::Random;
use crate::words::{any_case, same_low_bits};
use std::ops::Range;

pub fn image(random: &mut Random) -> Vec<u8> {
    let mut subject = block(random);
    let kind = random.below(16);
    if (4..=6).contains(&kind) {
        for _ in 0..random.size(1, 2) {
            strain(random, &mut subject);
        }
    }
    if kind == 12 {
        crowd(random, &mut subject);
    }
    let mut image = subject.image();
    match kind {
        0 | 4 | 5 | 12 => {}
        1..=3 | 6 => {
            for _ in 0..random.size(1, 2) {
                damage_word(random, &mut image);
            }
        }
        7 => damage_rows(random, &mut image),
        8 => resize(random, &mut image),
        9 => damage_condition(random, &mut image, &subject),
        10 | 11 => damage_name(random, &mut image),
        _ => rename(random, &mut image),
    }
    image
}

pub fn word(image: &[u8], at: usize) -> i32 {
    i32::from_le_bytes([image[4 * at], image[4 * at + 1], image[4 * at + 2], image[4 * at + 3]])
}

pub fn set_word(image: &mut [u8], at: usize, word: i32) {
    image[4 * at..4 * at + 4].copy_from_slice(&word.to_le_bytes());
}

/// The first word and the words of a row of a table, and how many rows it has, by its header.
fn table(image: &[u8], table: usize) -> (usize, usize, usize) {
    (word(image, 9 + table) as usize, WIDTHS[table], word(image, 2 + table) as usize)
}

/// A word of an image that may be damaged; past its end they are 0.
fn index(image: &[u8], at: usize) -> usize {
    if at < image.len() / 4 {
        word(image, at) as u32 as usize
    } else {
        0
    }
}

fn row(image: &[u8], table: usize, row: usize) -> usize {
    index(image, 9 + table) + row * WIDTHS[table]
}

/// The rows that a first and a count name, if not too many.
fn rows(image: &[u8], at: usize, most: usize) -> Range<usize> {
    let first = index(image, at);
    first..first + index(image, at + 1).min(most)
}

/// For each input term its input and the words of its positions, each with the degree behind it. The image may be
/// damaged; words past its end are left out.
pub fn positions(image: &[u8]) -> Vec<(usize, Vec<usize>)> {
    let mut positions = Vec::new();
    for input in 0..index(image, 2).min(8) {
        for term in rows(image, row(image, 0, input) + 5, 7) {
            let points = rows(image, row(image, 2, term) + 4, 4).map(|point| row(image, 3, point));
            positions.push((input, points.filter(|at| at + 1 < image.len() / 4).collect()));
        }
    }
    positions
}

/// Whose a stored name is; a term's has its variable.
#[derive(Clone, Copy, PartialEq, Debug)]
pub enum Owner {
    Block,
    RuleBlock,
    Input,
    Output,
    InputTerm(usize),
    OutputTerm(usize),
}

impl Owner {
    /// Whether their names must not be the same.
    pub fn excludes(self, other: Owner) -> bool {
        match self {
            Owner::Block | Owner::RuleBlock => false,
            Owner::Input | Owner::Output => matches!(other, Owner::Input | Owner::Output),
            Owner::InputTerm(_) | Owner::OutputTerm(_) => self == other,
        }
    }

    /// The same for the terms of all variables of a kind.
    pub fn kind(self) -> usize {
        match self {
            Owner::Block => 0,
            Owner::RuleBlock => 1,
            Owner::Input => 2,
            Owner::Output => 3,
            Owner::InputTerm(_) => 4,
            Owner::OutputTerm(_) => 5,
        }
    }
}

/// The first bytes of all names of an image. It may be damaged; names past its end are left out.
pub fn names(image: &[u8]) -> Vec<(Owner, usize)> {
    let mut names = vec![(Owner::Block, 20), (Owner::RuleBlock, 24)];
    for input in 0..index(image, 2).min(8) {
        let at = row(image, 0, input);
        names.push((Owner::Input, at));
        names.extend(rows(image, at + 5, 7).map(|term| (Owner::InputTerm(input), row(image, 2, term))));
    }
    for output in 0..index(image, 3).min(6) {
        let at = row(image, 1, output);
        names.push((Owner::Output, at));
        names.extend(rows(image, at + 4, 7).map(|term| (Owner::OutputTerm(output), row(image, 2, term))));
    }
    let inside = names.into_iter().filter(|(_, at)| at + 4 <= image.len() / 4);
    inside.map(|(owner, at)| (owner, 4 * at)).collect()
}

/// The bytes of a stored name.
pub fn name(image: &[u8], at: usize) -> &[u8] {
    let field = &image[at..at + 16];
    &field[..field.iter().position(|&byte| byte == 0).unwrap_or(16)]
}

pub fn set_name(image: &mut [u8], at: usize, name: &[u8]) {
    let length = name.len().min(16);
    image[at..at + 16].fill(0);
    image[at..at + length].copy_from_slice(&name[..length]);
}

pub fn damage_word(random: &mut Random, image: &mut [u8]) {
    let words = image.len() / 4;
    // The header and each table about as often, however long they are.
    let at = match random.below(3) {
        0 => random.below(28.min(words)),
        1 => random.below(words),
        _ => {
            let table = random.below(7);
            let (first, rows) = (word(image, 9 + table) as usize, word(image, 2 + table) as usize);
            let within = random.below(WIDTHS[table] * rows.clamp(1, 640));
            first.wrapping_add(within) % words
        }
    };
    let other = random.below(words);
    let old = word(image, at);
    let new = match random.below(10) {
        0 => old.wrapping_add(1),
        1 => old.wrapping_sub(1),
        2 => *random.pick(&[0, 1, 2, 3, 15, 16, -1, i32::MIN, i32::MAX]),
        3 => *random.pick(&[1_000_000_000, 1_000_000_001, -1_000_000_001, 1_000_000, 1_001_000, 65_535, 65_536, 500]),
        4 => word(image, other),
        5 => old ^ 1 << random.below(32),
        6 => old.wrapping_add(random.between(-20, 20) as i32),
        7 => random.bits() as i32,
        8 => old.wrapping_add(*random.pick(&[1000, -1000])),
        _ => (old as u32 & !(0xff << (8 * random.below(4)))) as i32,
    };
    set_word(image, at, new);
}

/// Some name, of each kind about as often.
fn any_name(random: &mut Random, image: &[u8]) -> (Owner, usize) {
    let kind = random.below(6);
    let names: Vec<(Owner, usize)> = names(image).into_iter().filter(|(owner, _)| owner.kind() == kind).collect();
    *random.pick(&names)
}

fn damage_name(random: &mut Random, image: &mut [u8]) {
    let (_, at) = any_name(random, image);
    let (_, other) = any_name(random, image);
    let length = name(image, at).len();
    let last = at + length.max(1) - 1;
    match random.below(8) {
        0 => image[at] = *random.pick(b"0a_Z\x00"),
        1 => image[last] = *random.pick(b"_09zZ\x00 \x80"),
        2 => image[at + random.below(16)] = *random.pick(b"_09az-.\x00 \xe4@`[{"),
        3 => image[at..at + 16].fill(0),
        4 => set_name(image, at, random.pick(&KEYWORDS).as_bytes()),
        5 => image[at + random.size(length.min(15), 15)] = *random.pick(b"_a0 "),
        6 => image[at + 8..at + 16].fill(b'x'),
        _ => image.copy_within(other..other + 16, at),
    }
}

/// A name becomes a keyword, another name or itself in any case, or nearly itself.
fn rename(random: &mut Random, image: &mut [u8]) {
    let (owner, at) = any_name(random, image);
    let excluded = names(image).into_iter().filter(|name| name.1 != at && owner.excludes(name.0));
    let excluded: Vec<usize> = excluded.map(|(_, other)| other).collect();
    let other = match excluded[..] {
        [_, ..] if !random.once_in(3) => *random.pick(&excluded),
        _ => any_name(random, image).1,
    };
    let new = match random.below(8) {
        0..=2 => keyword(random).into_bytes(),
        3..=5 => any_case(random, name(image, other)),
        6 => same_low_bits(random, name(image, at)),
        _ => any_case(random, name(image, at)),
    };
    set_name(image, at, &new);
}

/// Rows swapped, doubled or taken out, the header set right or not.
fn damage_rows(random: &mut Random, image: &mut Vec<u8>) {
    let table_number = random.below(7);
    let (first, width, rows) = table(image, table_number);
    if rows == 0 {
        return;
    }
    // A row more or less at the end leaves all before it sound.
    let (a, b) = if random.once_in(2) { (rows - 1, rows - 1) } else { (random.below(rows), random.below(rows)) };
    let bytes = |row: usize| 4 * (first + row * width)..4 * (first + (row + 1) * width);
    let change: i32 = match random.below(4) {
        0 | 1 => {
            let (row_a, row_b) = (image[bytes(a)].to_vec(), image[bytes(b)].to_vec());
            image[bytes(a)].copy_from_slice(&row_b);
            image[bytes(b)].copy_from_slice(&row_a);
            0
        }
        2 => {
            let row = image[bytes(a)].to_vec();
            image.splice(bytes(b).start..bytes(b).start, row);
            1
        }
        _ => {
            image.drain(bytes(a));
            -1
        }
    };
    if change == 0 {
        return;
    }
    let moved = change * width as i32;
    set_word(image, 2 + table_number, rows as i32 + change);
    for at in (10 + table_number..16).chain([1]) {
        let old = word(image, at);
        if !random.once_in(20) {
            set_word(image, at, old + moved);
        }
    }
}

fn resize(random: &mut Random, image: &mut Vec<u8>) {
    let length = image.len();
    match random.below(6) {
        0 => image.truncate(random.below(length + 1)),
        1 => image.truncate(length - 4),
        2 => image.extend(vec![random.bits() as u8; random.size(1, 9)]),
        3 => image.extend([0; 4]),
        4 => image.truncate(4 * random.size(0, 29)),
        // A gap before the tables, with offsets that skip it.
        _ => {
            let table = random.below(7);
            let at = 4 * word(image, 9 + table) as usize;
            image.splice(at..at, [0; 4]);
            for offset in 9 + table..16 {
                let old = word(image, offset);
                set_word(image, offset, old + 1);
            }
        }
    }
    if image.len() >= 8 && random.once_in(2) {
        let words = image.len() as i32 / 4;
        set_word(image, 1, words);
    }
}

/// Condition words replaced by others of the same kind or of any.
fn damage_condition(random: &mut Random, image: &mut [u8], subject: &Block) {
    let (first, _, words) = table(image, 5);
    let terms: usize = subject.inputs.iter().map(|input| input.terms.len()).sum();
    for _ in 0..random.size(1, 3) {
        let at = first + random.below(words);
        let other = first + random.below(words);
        let (old, swapped) = (word(image, at), word(image, other));
        let new = match random.below(5) {
            0 => random.below(4) as i32,
            1 => 16 + random.below(terms + 1) as i32,
            2 if old >= 16 => 16 + random.below(terms) as i32,
            2 => 1 + random.below(2) as i32,
            3 => {
                set_word(image, other, old);
                swapped
            }
            _ => *random.pick(&[-1, 3, 15, 16 + 56, i32::MIN, i32::MAX]),
        };
        set_word(image, at, new);
    }
}
