//! Messages to write: as reading leaves them, made up, and spoiled; values for setting, and room for what is written.

use crate::calls::{Filled, Octets, Places};
use crate::gen_logs;
use crate::judge::{self, MOST_LOG, MOST_OCTETS, Model};
use crate::judge_writing;
use crate::random::Random;
use crate::rows::{Form, PLACE, Row, VALUE};

/// Used octets, and now and then others behind them.
fn lent(random: &mut Random, content: Vec<u8>) -> Octets {
    let used = content.len();
    let count = random.pick(&[0, 0, 1, 3]);
    let behind = random.octets(count);
    Octets { octets: [content, behind].concat(), used }
}

/// What reading leaves of a part; none where it is refused.
pub fn read(random: &mut Random, model: &Model, part: Vec<u8>, start: u8, option: bool) -> Option<Filled> {
    let reading = model.read(&part, start, option).ok()?;
    let places = Places { rows: reading.rows, received: part, set: Octets::default() };
    Some(Filled { places, kept: lent(random, reading.kept), order: lent(random, reading.order) })
}

/// A length that fits a form.
fn length(random: &mut Random, form: Form) -> usize {
    match (form, random.below(12)) {
        (Form::Half, _) => 1,
        (Form::Fixed(size), _) => size,
        (_, 0) => random.pick(&[127, 128, 254, 255]),
        (Form::TlvE, 1) => random.pick(&[256, 257, 511]),
        _ => random.below(6),
    }
}

/// A value that fits a form.
pub fn value(random: &mut Random, form: Form) -> Vec<u8> {
    let length = length(random, form);
    let mut value = random.octets(length);
    if form == Form::Half {
        value[0] &= 0x0f;
    }
    value
}

/// A value that a place is set to: mostly one that fits its form.
pub fn any_value(random: &mut Random, form: Form) -> Vec<u8> {
    let mut value = value(random, form);
    match random.below(16) {
        0 => drop(value.pop()),
        1 => value.push(random.octet()),
        2 => value = vec![random.octet(); random.pick(&[0, 1, 2, 255, 256, 257, 300])],
        _ => {}
    }
    value
}

/// Place rows whose values fit, from received octets, which may overlap, and from set ones; `absent` of eight are absent.
pub fn places(random: &mut Random, forms: &[Form], absent: usize) -> Places {
    let mut places = Places::default();
    let mut set = Vec::new();
    let count = random.below(24);
    places.received = random.octets(count);
    for &form in forms {
        let length = length(random, form);
        if random.below(8) < absent {
            places.rows.extend([0, 0, 0]);
        } else if random.once_in(2) {
            if places.received.len() < length {
                let missing = length - places.received.len() + random.below(3);
                places.received.extend(random.octets(missing));
            }
            let start = random.below(places.received.len() - length + 1);
            places.rows.extend([1, start as u32, length as u32]);
        } else {
            let value = value(random, form);
            places.rows.extend([2, set.len() as u32, value.len() as u32]);
            set.extend(value);
        }
    }
    let behind = random.pick(&[0, 0, 1, 2, 3, 4]);
    places.rows.extend((0..behind).map(|k| 0xdead_0000 + k));
    places.set = lent(random, set);
    places
}

/// Values as places: each row with the IEI that an order log gives its place.
fn with_ieis(values: Places, rows: &[Row], order: &[u8]) -> Places {
    let mut places = Places { rows: Vec::new(), ..values };
    let (own, behind) = values.rows.split_at(VALUE * rows.len());
    for row in own.chunks(VALUE) {
        places.rows.extend(row);
        places.rows.push(0);
    }
    judge::fill_ieis(rows, &judge::index_by(rows), order, &mut places.rows);
    places.rows.extend(behind);
    places
}

/// An entry of an order log: a place, an IEI that is that of none, or one of a kept element.
fn entry(random: &mut Random, rows: &[Row], log: &mut Vec<u8>) {
    match random.below(8) {
        0..4 if !rows.is_empty() => {
            let row = &rows[random.below(rows.len())];
            let iei = if random.once_in(3) { random.pick(&row.ieis) } else { row.ieis[0] };
            log.extend([0, iei]);
            // The same place once more, and a half octet's IEI with other low bits, which has no place.
            match random.below(12) {
                0 => log.extend([0, random.pick(&row.ieis)]),
                1 => log.extend([0, iei ^ random.octet() & 0x0f]),
                _ => {}
            }
        }
        4 => log.extend([0, random.octet()]),
        _ => log.push(1 + random.below(4) as u8),
    }
}

/// A message that no reading needs to have left: any well-formed logs, any well-formed rows that fit.
pub fn made_up(random: &mut Random, rows: &[Row]) -> Filled {
    let mut order = Vec::new();
    let entries = if random.once_in(6) { 0 } else { random.below(12) };
    for _ in 0..entries {
        entry(random, rows, &mut order);
    }
    // As many kept elements as entries for them, fewer, or more.
    let elements = judge::order_list(&order).unwrap_or_default().iter().filter(|entry| entry[0] != 0).count();
    let elements = (elements + random.pick(&[0, 0, 1, 2, 3])).saturating_sub(random.pick(&[0, 0, 1, 2]));
    let mut kept = Vec::new();
    for _ in 0..elements {
        let length = if random.once_in(24) { 120 + random.below(12) } else { random.below(5) };
        let data = random.octets(length);
        // Now and then a first octet that a place has.
        let first = match rows.is_empty() || random.once_in(2) {
            true => random.octet(),
            false => rows[random.below(rows.len())].ieis[0],
        };
        let first = if first < 0x80 { first } else { first | random.octet() & 0x0f };
        kept = judge::kept_push(&kept, first, &data);
    }
    let forms: Vec<Form> = rows.iter().map(|row| row.form).collect();
    let absent = random.pick(&[0, 1, 3, 7]);
    let places = with_ieis(places(random, &forms, absent), rows, &order);
    Filled { places, kept: lent(random, kept), order: lent(random, order) }
}

/// A used count that is another.
fn other_count(random: &mut Random, octets: &mut Octets, most: usize) {
    let length = octets.octets.len();
    octets.used = match random.below(3) {
        0 => octets.used.saturating_sub(1),
        1 => length + 1,
        _ => random.pick(&[0, length, most, most + 1, 1 << 32, usize::MAX]),
    };
}

fn spoil_log(random: &mut Random, log: &mut Octets) {
    let content = log.octets[..log.used.min(log.octets.len())].to_vec();
    *log = Octets::all(gen_logs::damaged(random, content));
}

/// A number of a place row that is another.
fn spoil_row(random: &mut Random, places: &mut Places) {
    if places.rows.is_empty() {
        return;
    }
    let at = random.below(places.rows.len());
    let (received, set) = (places.received.len() as u32, places.set.used as u32);
    places.rows[at] = match random.below(4) {
        0 => places.rows[at].wrapping_add(1),
        1 => places.rows[at].wrapping_sub(1),
        _ => random.pick(&[0, 1, 2, 3, 15, 0x2f, 0x31, 0xc0, 256, received, set, received + 1, u32::MAX, 1 << 31]),
    };
}

/// What is wrong with place rows or the octets of their values.
pub fn spoil_places(random: &mut Random, places: &mut Places) {
    match random.below(8) {
        0 => {
            let count = random.below(places.rows.len() + 1).max(places.rows.len().saturating_sub(PLACE));
            places.rows.truncate(count);
        }
        1 => drop(places.received.pop()),
        2 => other_count(random, &mut places.set, MOST_OCTETS),
        3 if !places.set.octets.is_empty() => {
            // A half octet that was set to more than four bits.
            let at = random.below(places.set.octets.len());
            places.set.octets[at] = random.pick(&[15, 16, 0x80, 255]);
        }
        _ => spoil_row(random, places),
    }
}

/// A message with one or two things wrong, mostly.
pub fn spoiled(random: &mut Random, mut filled: Filled) -> Filled {
    for _ in 0..1 + random.below(2) {
        match random.once_in(2) {
            true => filled = spoiled_logs(random, filled),
            false => spoil_places(random, &mut filled.places),
        }
    }
    filled
}

/// A message with one or two things wrong with its logs, mostly.
pub fn spoiled_logs(random: &mut Random, mut filled: Filled) -> Filled {
    for _ in 0..1 + random.below(2) {
        match random.below(4) {
            0 => spoil_log(random, &mut filled.order),
            1 => spoil_log(random, &mut filled.kept),
            2 => other_count(random, &mut filled.order, MOST_LOG),
            _ => other_count(random, &mut filled.kept, MOST_LOG),
        }
    }
    filled
}

/// Room around what is needed: mostly exact or plenty, else one short, less or none.
pub fn room(random: &mut Random, need: usize) -> usize {
    match random.below(12) {
        0 => need.saturating_sub(1),
        1 => random.below(need + 1),
        2..6 => need,
        _ => need + 1 + random.below(8),
    }
}

/// How many octets a message is written as; of one that is refused, some.
pub fn needed(model: &Model, filled: &Filled) -> usize {
    judge_writing::filled(model, filled.message()).map_or(4, |filled| model.needed(&filled) as usize)
}
