//! Parts of mandatory rows, good and damaged, and rows to write.

use crate::calls::Places;
use crate::gen_parts::EDGES;
use crate::gen_writing;
use crate::random::Random;
use crate::rows::{Form, MandatoryForm, MandatoryRow};

/// A length of a value behind a length field: mostly one that the least length takes.
fn length(random: &mut Random, field: usize, least: usize) -> usize {
    match random.below(8) {
        0 => random.below(4),
        1 if least < 300 => (least + random.below(3)).saturating_sub(field + 1),
        _ if least < 300 => least.saturating_sub(field) + random.below(3),
        _ => random.below(6),
    }
}

/// A first octet: mostly one that the value rule takes.
fn first(random: &mut Random, set: u32) -> u8 {
    let kinds: Vec<u8> = (0..8).filter(|kind| set >> kind & 1 == 1).collect();
    let kind = random.pick(&kinds);
    if random.once_in(6) { random.octet() } else { kind | random.octet() & 0xf8 }
}

/// A half: mostly one that the value rule takes.
fn half(random: &mut Random, set: u32) -> u8 {
    let halves: Vec<u8> = (0..16).filter(|half| set >> half & 1 == 1).collect();
    let half = random.pick(&halves);
    if random.once_in(6) { random.octet() & 0x0f } else { half }
}

/// A part of whole rows, and now and then octets behind them.
pub fn part(random: &mut Random, rows: &[MandatoryRow]) -> Vec<u8> {
    let mut part = Vec::new();
    let mut low = 0;
    for row in rows {
        let at = part.len();
        let field = match row.form {
            MandatoryForm::LowHalf => {
                low = half(random, row.set);
                continue;
            }
            MandatoryForm::HighHalf => {
                part.push(half(random, row.set) << 4 | low);
                continue;
            }
            MandatoryForm::Fixed(size) => {
                part.extend(random.octets(size));
                0
            }
            MandatoryForm::Lv => {
                let length = length(random, 1, row.least).min(255);
                part.push(length as u8);
                part.extend(random.octets(length));
                1
            }
            MandatoryForm::LvE => {
                let length = length(random, 2, row.least);
                part.extend((length as u16).to_be_bytes());
                part.extend(random.octets(length));
                2
            }
        };
        if let Some(octet) = part.get_mut(at + field) {
            *octet = first(random, row.set);
        }
    }
    if random.once_in(3) {
        let count = 1 + random.below(4);
        part.extend(random.octets(count));
    }
    part
}

/// A copy with octets changed, dropped, added, or its end cut off.
pub fn damaged(random: &mut Random, mut part: Vec<u8>) -> Vec<u8> {
    if part.is_empty() || random.once_in(4) {
        return part;
    }
    let at = random.below(part.len());
    match random.below(4) {
        0 => part.truncate(at),
        1 => part[at] = random.pick(&EDGES),
        2 => drop(part.remove(at)),
        _ => part.insert(at, random.octet()),
    }
    part
}

/// Rows whose values fit, mostly none absent.
pub fn places(random: &mut Random, rows: &[MandatoryRow]) -> Places {
    let forms: Vec<Form> = rows
        .iter()
        .map(|row| match row.form {
            MandatoryForm::LowHalf | MandatoryForm::HighHalf => Form::Half,
            MandatoryForm::Fixed(size) => Form::Fixed(size),
            MandatoryForm::Lv => Form::Tlv,
            MandatoryForm::LvE => Form::TlvE,
        })
        .collect();
    let absent = random.pick(&[0, 0, 0, 1]);
    gen_writing::places(random, &forms, absent)
}

/// A table of a short row or two, then a long form.
pub fn short_then_long(random: &mut Random) -> Vec<u32> {
    let mut table = match random.below(3) {
        0 => vec![],
        1 => vec![0, 0, 0, 65_535, 1, 0, 0, 65_535],
        _ => vec![2, 1, 0, 255],
    };
    let code = random.pick(&[3, 4, 4]);
    let least = random.pick(&[0, 0, 127, 256, 65_535, 65_536, 65_537]);
    table.extend([code, 0, least, random.pick(&[255, 1])]);
    table
}

/// A part whose last row has so many value octets, cut or padded to so many octets behind its length field.
pub fn with_long(random: &mut Random, rows: &[MandatoryRow], length: usize, end: usize) -> Vec<u8> {
    let front = if rows.len() > 1 { 1 } else { 0 };
    let mut part = vec![random.octet(); front];
    match rows[rows.len() - 1].form {
        MandatoryForm::Lv => part.push(length as u8),
        _ => part.extend((length as u16).to_be_bytes()),
    }
    part.extend(vec![random.octet(); end]);
    part
}
