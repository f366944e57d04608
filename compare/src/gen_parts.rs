//! Parts made of elements with and without a place, with lengths at and beside each limit, and spoiled copies of them.
//! Room for reading them: exact, one short, plenty.

use crate::judge::{Model, Reading, Room};
use crate::random::Random;
use crate::rows::{Form, PLACE, Row};

/// The octets at which some rule of document 01 changes.
pub const EDGES: [u8; 18] = [0, 1, 2, 3, 7, 8, 0x0f, 0x10, 0x6f, 0x70, 0x7d, 0x7e, 0x7f, 0x80, 0x8f, 0xc3, 0xf0, 0xff];

/// How long the values of a part are.
#[derive(Clone, Copy, PartialEq, Eq)]
pub enum Size {
    /// Some octets, now and then around 127 and 255.
    Short,
    /// Around 127, 255, 16,383 and 65,535.
    Long,
}

fn value_length(random: &mut Random, size: Size, least: usize, most: usize) -> usize {
    let around = |random: &mut Random, edge: usize| (edge + random.below(9)).saturating_sub(6);
    let length = match (size, random.below(16)) {
        (Size::Long, 0..4) => around(random, 16_384),
        (Size::Long, 4) => around(random, 65_535),
        (Size::Long, 5..8) => around(random, 256),
        (Size::Long, 8..10) => around(random, 128),
        (_, 10) => around(random, random_edge(least)),
        (Size::Short, 0) => around(random, 128),
        (Size::Short, 1) => around(random, 256),
        _ => random.below(6),
    };
    length.min(most)
}

/// The least length, unless it is too long for a short part.
fn random_edge(least: usize) -> usize {
    if least < 300 { least } else { 4 }
}

/// An element of a form under an IEI.
fn element(random: &mut Random, part: &mut Vec<u8>, iei: u8, form: Form, least: usize, size: Size) {
    match form {
        Form::Half => part.push(iei | random.octet() & 0x0f),
        Form::Fixed(count) => {
            part.push(iei);
            part.extend(random.octets(count));
        }
        Form::Tlv => {
            let count = value_length(random, size, least, 255);
            part.extend([iei, count as u8]);
            part.extend(random.octets(count));
        }
        Form::TlvE => {
            let count = value_length(random, size, least, 65_535);
            part.extend([iei, (count >> 8) as u8, count as u8]);
            part.extend(random.octets(count));
        }
    }
}

/// The form by which an unknown element is measured.
fn unknown_form(iei: u8, start: u8) -> Form {
    match iei {
        0x80.. => Form::Half,
        _ if iei >= start => Form::TlvE,
        _ => Form::Tlv,
    }
}

/// A part of whole elements: in the order of the table, in any order, or with unknown ones between them.
pub fn good(random: &mut Random, rows: &[Row], start: u8, size: Size, elements: usize) -> Vec<u8> {
    let mut part = Vec::new();
    let style = random.below(4);
    let mut place = 0;
    for _ in 0..elements {
        let unknown = rows.is_empty() || style == 3 || (style != 0 && random.once_in(4));
        if unknown {
            let iei = if random.once_in(2) { random.pick(&EDGES) } else { random.octet() };
            element(random, &mut part, iei, unknown_form(iei, start), 0, size);
            continue;
        }
        place = match style {
            0 | 1 => place + random.below(1 + rows.len() / 4),
            _ => random.below(rows.len()),
        };
        let Some(row) = rows.get(place) else {
            break;
        };
        let iei = if random.once_in(3) { random.pick(&row.ieis) } else { row.ieis[0] };
        element(random, &mut part, iei, row.form, row.least, size);
        place += usize::from(style < 2);
    }
    part
}

/// A copy with octets changed, dropped, added, or its end cut off.
pub fn damaged(random: &mut Random, mut part: Vec<u8>) -> Vec<u8> {
    for _ in 0..1 + random.below(3) {
        if part.is_empty() {
            break;
        }
        let at = random.below(part.len());
        match random.below(6) {
            0 => part.truncate(at),
            1 => part[at] ^= 1 << random.below(8),
            2 => part[at] = random.pick(&EDGES),
            3 => drop(part.remove(at)),
            4 => part.insert(at, random.octet()),
            _ => {
                let end = at + 1 + random.below((part.len() - at).min(12));
                part.extend_from_within(at..end);
            }
        }
    }
    part
}

/// A part for a table: good, damaged, or octets without plan.
pub fn any(random: &mut Random, rows: &[Row], start: u8, size: Size) -> Vec<u8> {
    let elements = match size {
        Size::Short => random.below(9),
        Size::Long => 1 + random.below(6),
    };
    match random.below(8) {
        0 => {
            let count = random.below(24);
            random.octets(count)
        }
        1..4 => good(random, rows, start, size, elements),
        _ => {
            let part = good(random, rows, start, size, elements);
            damaged(random, part)
        }
    }
}

/// A part of exactly so many octets: one long element, thousands of short ones, or all of one octet.
pub fn of_length(random: &mut Random, rows: &[Row], start: u8, length: usize) -> Vec<u8> {
    let mut part = match random.below(4) {
        0 => vec![random.pick(&EDGES); length],
        1 => {
            let count = length.saturating_sub(3).min(65_535);
            let iei = random.pick(&[0x70, 0x77, 0x7e, start.min(0x7f)]);
            [iei, (count >> 8) as u8, count as u8].to_vec()
        }
        2 => {
            let halves: Vec<u8> = (0..4).map(|_| 0x80 | random.octet()).collect();
            (0..length).map(|_| random.pick(&halves)).collect()
        }
        _ => {
            let mut part = Vec::new();
            while part.len() < length {
                part.extend(good(random, rows, start, Size::Long, 4));
            }
            part
        }
    };
    let fill = random.octet();
    part.resize(length, fill);
    part
}

/// The room that a reading needs; of one that is refused, none.
pub fn needed(model: &Model, reading: Option<&Reading>) -> Room {
    Room {
        rows: PLACE * model.rows().len(),
        kept: reading.map_or(0, |reading| reading.kept.len()),
        order: reading.map_or(0, |reading| reading.order.len()),
    }
}

/// Room around what is needed: mostly exact or plenty, else one short or none.
pub fn around(random: &mut Random, need: usize) -> usize {
    match random.below(12) {
        0 => need.saturating_sub(1),
        1 => random.below(need + 1),
        2..6 => need,
        _ => need + 1 + random.below(8),
    }
}

/// The same for rows and both logs.
pub fn room(random: &mut Random, need: Room) -> Room {
    let rows = around(random, need.rows);
    let kept = around(random, need.kept);
    Room { rows, kept, order: around(random, need.order) }
}
