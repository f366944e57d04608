//! The model of document 01, "Mandatory rows": reading them row by row, strict and lenient, writing them one after the other,
//! and their refusals in their order.

use crate::interface::Used;
use crate::judge::{Answer, MOST_OCTETS, answer, first_bad_mandatory, receivable};
use crate::judge_writing::{contents, rows_well_formed};
use crate::rows::{MANDATORY_WIDTH, MandatoryForm, MandatoryRow, Place, VALUE, mandatory_rows_of, value_of, value_row};

/// What the rows find in a part: the fault that stops them, as its number and row; the octets read, the rows, the notes.
#[derive(Debug, Clone, Default, PartialEq, Eq)]
pub struct RowsRead {
    pub refused: Option<(u32, usize)>,
    pub read: usize,
    pub rows: Vec<u32>,
    pub notes: Vec<u32>,
}

/// Start of a value from the octets left on, its length, how many octets the row consumes, and the octets by which it is
/// judged; none where the octets left end before it does.
fn found(form: MandatoryForm, left: &[u8]) -> Option<(usize, usize, usize, Vec<u8>)> {
    let octet = |k: usize| left.get(k).map(|&octet| usize::from(octet));
    let (field, length) = match form {
        MandatoryForm::LowHalf => return left.first().map(|octet| (0, 1, 0, vec![octet % 16])),
        MandatoryForm::HighHalf => return left.first().map(|octet| (0, 1, 1, vec![octet / 16])),
        MandatoryForm::Fixed(size) => (0, size),
        MandatoryForm::Lv => (1, octet(0)?),
        MandatoryForm::LvE => (2, 256 * octet(0)? + octet(1)?),
    };
    let value = left.get(field..field + length)?;
    Some((field, length, field + length, value.to_vec()))
}

/// Rows that pass the check, one after the other.
pub fn read_rows(rows: &[MandatoryRow], part: &[u8], lenient: bool) -> RowsRead {
    let mut done = RowsRead::default();
    for (k, row) in rows.iter().enumerate() {
        let left = &part[done.read..];
        let Some((start, length, took, judged)) = found(row.form, left) else {
            return RowsRead { refused: Some((if left.is_empty() { 6 } else { 7 }, k)), ..done };
        };
        let half = matches!(row.form, MandatoryForm::LowHalf | MandatoryForm::HighHalf);
        let fault = match (took < row.least, receivable(half, row.set, &judged)) {
            (true, _) => Some(8),
            (false, false) => Some(9),
            (false, true) => None,
        };
        match fault {
            Some(fault) if lenient => done.notes.extend([k as u32, fault]),
            Some(fault) => return RowsRead { refused: Some((fault, k)), ..done },
            None => {}
        }
        done.rows.extend([1, (done.read + start) as u32, length as u32]);
        done.read += took;
    }
    done
}

/// The checks of reading, in their order: 4, 3, 2 (1). The rows.
pub fn reading(table: &[u32], part: &[u8], room: usize) -> Result<Vec<MandatoryRow>, Answer> {
    if let Some(row) = first_bad_mandatory(table) {
        return Err(answer(4, &[row]));
    }
    if part.len() > MOST_OCTETS {
        return Err(answer(3, &[]));
    }
    if room < VALUE * (table.len() / MANDATORY_WIDTH) {
        return Err(answer(2, &[1]));
    }
    Ok(mandatory_rows_of(table))
}

/// Rows that passed their checks.
pub struct FilledRows<'a> {
    pub table: Vec<MandatoryRow>,
    rows: &'a [u32],
    received: &'a [u8],
    set: &'a [u8],
}

impl<'a> FilledRows<'a> {
    /// A row and its octets.
    pub fn value(&self, row: usize) -> (Place, &'a [u8]) {
        let place = value_row(self.rows, row);
        (place, value_of(place, self.received, self.set).unwrap_or(&[]))
    }
}

/// What passed the checks of writing: 4, 3, 2 (1), 11 (3), also of an absent row, 10.
pub fn writing<'a>(
    table: &[u32],
    rows: &'a [u32],
    received: &'a [u8],
    set: Used<'a>,
) -> Result<FilledRows<'a>, Answer> {
    if let Some(row) = first_bad_mandatory(table) {
        return Err(answer(4, &[row]));
    }
    let (received, set) = contents(received, set)?;
    let table = mandatory_rows_of(table);
    rows_well_formed(rows, (table.len(), VALUE), received, set, || Ok(()))?;
    let filled = FilledRows { table, rows, received, set };
    let absent = |row: usize| filled.value(row).0.source == 0;
    if (0..filled.table.len()).any(absent) {
        return Err(answer(11, &[3]));
    }
    let unfit = |row: &usize| {
        let (place, value) = filled.value(*row);
        !fits(filled.table[*row].form, place.source == 1, value)
    };
    match (0..filled.table.len()).find(unfit) {
        Some(row) => Err(answer(10, &[row])),
        None => Ok(filled),
    }
}

/// Whether a value fits its form. Of a received half four bits count, so each fits.
fn fits(form: MandatoryForm, received: bool, value: &[u8]) -> bool {
    match form {
        MandatoryForm::LowHalf | MandatoryForm::HighHalf => value.len() == 1 && (received || value[0] <= 15),
        MandatoryForm::Fixed(size) => value.len() == size,
        MandatoryForm::Lv => value.len() <= 255,
        MandatoryForm::LvE => value.len() <= 65_535,
    }
}

/// The rows, written: a high half in the octet of its low half.
pub fn write_rows(filled: &FilledRows<'_>) -> Vec<u8> {
    let mut output = Vec::new();
    for (k, row) in filled.table.iter().enumerate() {
        let (place, value) = filled.value(k);
        match row.form {
            MandatoryForm::LowHalf => output.push(value[0] % 16),
            MandatoryForm::HighHalf => {
                let half = if place.source == 1 { value[0] / 16 } else { value[0] };
                let last = output.len() - 1;
                output[last] += 16 * half;
            }
            MandatoryForm::Fixed(_) => output.extend(value),
            MandatoryForm::Lv => {
                output.push(value.len() as u8);
                output.extend(value);
            }
            MandatoryForm::LvE => {
                output.extend([(value.len() / 256) as u8, value.len() as u8]);
                output.extend(value);
            }
        }
    }
    output
}
