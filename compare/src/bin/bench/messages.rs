//! Parts and messages that are measured.

use compare::calls::{Filled, Octets, Places};
use compare::judge::Model;
use compare::rows::{Form, PLACE, Row, START};

pub const NAMES: [&str; 7] = [
    "P",
    "registration request",
    "registration accept",
    "registration reject",
    "service request",
    "PDU session establishment request",
    "PDU session establishment accept",
];

/// An unknown element of 16 octets.
pub const SIXTEEN: [u8; 16] = [0x20, 14, 1, 2, 3, 4, 5, 6, 7, 8, 9, 10, 11, 12, 13, 14];

/// An element as often as it goes into so many octets.
pub fn repeat(element: &[u8], octets: usize) -> Vec<u8> {
    element.repeat(octets / element.len())
}

/// An element of a row with a value of so many octets, or of as few as the row takes.
pub fn element(row: &Row, value: usize) -> Vec<u8> {
    let header = match row.form {
        Form::Half => 0,
        Form::Fixed(_) => 1,
        Form::Tlv => 2,
        Form::TlvE => 3,
    };
    let length = value.max(row.least.saturating_sub(header));
    // A first octet that the value rule takes.
    let kind = row.set.trailing_zeros() as u8;
    match row.form {
        Form::Half => vec![row.ieis[0] | kind],
        Form::Fixed(size) => [vec![row.ieis[0]], vec![kind; size]].concat(),
        Form::Tlv => [vec![row.ieis[0], length as u8], vec![kind; length]].concat(),
        Form::TlvE => [vec![row.ieis[0], (length >> 8) as u8, length as u8], vec![kind; length]].concat(),
    }
}

/// The value of an element of a row, as it is set.
pub fn value(row: &Row, length: usize) -> Vec<u8> {
    let element = element(row, length);
    match row.form {
        Form::Half => vec![element[0] & 0x0f],
        Form::Fixed(_) => element[1..].to_vec(),
        Form::Tlv => element[2..].to_vec(),
        Form::TlvE => element[3..].to_vec(),
    }
}

/// Every element of a table, with a value of an octet or of as few as its row takes.
pub fn every(rows: &[Row]) -> Vec<Vec<u8>> {
    rows.iter().map(|row| element(row, 1)).collect()
}

/// Elements with an unknown one before each.
pub fn unknown_between(elements: &[Vec<u8>]) -> Vec<u8> {
    elements.iter().flat_map(|element| [&[0x0f, 1, 7], &element[..]].concat()).collect()
}

/// A part as reading leaves it.
pub fn read(table: &[u32], part: Vec<u8>) -> Filled {
    read_with(table, part, false)
}

/// The same, with elements out of sequence accepted or set aside.
pub fn read_with(table: &[u32], part: Vec<u8>, out_of_sequence: bool) -> Filled {
    let reading = Model::new(table).read(&part, START, out_of_sequence).expect("the parts here are not cut short");
    let places = Places { rows: reading.rows, received: part, set: Octets::default() };
    Filled { places, kept: Octets::all(reading.kept), order: Octets::all(reading.order) }
}

/// The message with a place set to a value, one that its order log does not name.
pub fn set(rows: &[Row], mut filled: Filled, place: usize, value: Vec<u8>) -> Filled {
    let iei = u32::from(rows[place].ieis[0]);
    filled.places.rows[PLACE * place..][..PLACE].copy_from_slice(&[2, 0, value.len() as u32, iei]);
    filled.places.set = Octets::all(value);
    filled
}
