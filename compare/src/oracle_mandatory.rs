//! The oracle's mandatory rows: the Rust's `decode_mandatory_ie`, row by row, with closures that carry out the rows of document
//! 01, and the macro's arms for half octets.

use crate::common::{self, IeFault, NasError, Reader, Reading, nas_message};
use crate::judge_mandatory::{FilledRows, RowsRead};
use crate::oracle::{half_set, receivable};
use crate::oracle_writing::{Framed, Half};
use crate::rows::{MandatoryForm, MandatoryRow, VALUE};

/// The field of each row. The Rust names a fault by its field.
const FIELDS: [&str; 32] = [
    "0", "1", "2", "3", "4", "5", "6", "7", "8", "9", "10", "11", "12", "13", "14", "15", "16", "17", "18", "19", "20",
    "21", "22", "23", "24", "25", "26", "27", "28", "29", "30", "31",
];

impl Half {
    fn new(value: u8) -> Self {
        Self { value }
    }
}

/// Where a value stands in its part, and the octet by which it is judged.
struct Value {
    start: usize,
    length: usize,
    first: Option<u8>,
}

fn decode(form: MandatoryForm, buffer: &mut &[u8], part: usize) -> common::Result<Value> {
    let at = |left: usize| part - left;
    let half = |start: usize, half: Half| Value { start, length: 1, first: Some(half.value) };
    let length = match form {
        MandatoryForm::LowHalf => {
            return Ok(half(at(buffer.len()), nas_message!(@decode_mand buffer, Half, low_half_first)));
        }
        MandatoryForm::HighHalf => {
            return Ok(half(at(buffer.len()), nas_message!(@decode_mand buffer, Half, high_half_last)));
        }
        MandatoryForm::Fixed(size) => size,
        MandatoryForm::Lv => usize::from(buffer.take(1)?[0]),
        MandatoryForm::LvE => usize::from(buffer.take(2)?.get_u16()),
    };
    let start = at(buffer.len());
    let value = buffer.take(length)?;
    Ok(Value { start, length, first: value.first().copied() })
}

/// The set by which a value is judged.
fn set_for(row: &MandatoryRow, value: &Value) -> u32 {
    match (row.form, value.first) {
        (MandatoryForm::LowHalf | MandatoryForm::HighHalf, Some(half)) => half_set(row.set, half),
        _ => row.set,
    }
}

/// Document 01's number of a fault, and its row.
fn number(error: &NasError) -> (u32, usize) {
    let NasError::InvalidMandatoryIe { ie, fault, .. } = error else {
        unreachable!("decode_mandatory_ie has no other error")
    };
    let number = match fault {
        IeFault::Missing => 6,
        IeFault::Truncated => 7,
        IeFault::TooShort => 8,
        IeFault::Syntax => 9,
    };
    (number, FIELDS.iter().position(|field| *field == ie.field()).unwrap_or(usize::MAX))
}

/// A fault, as the Rust has it.
pub struct Fault(NasError);

/// The faults that a lenient reading notes.
#[derive(Default)]
pub struct Noted(Vec<NasError>);

impl Noted {
    /// Empty them, and keep their room.
    pub fn clear(&mut self) {
        self.0.clear();
    }
}

/// `decode_mandatory_ie` over the rows of a table, each into its row of `places`, as far as none is refused: how many octets
/// were read, and the fault that refuses.
pub fn read_rows_into(
    rows: &[MandatoryRow],
    part: &[u8],
    lenient: bool,
    places: &mut [u32],
    noted: &mut Noted,
) -> (usize, Option<Fault>) {
    let mut reading = if lenient { Reading::keeping(&mut noted.0) } else { Reading::strict() };
    let mut read = 0;
    let mut left = part;
    for ((row, field), place) in rows.iter().zip(FIELDS).zip(places.chunks_exact_mut(VALUE)) {
        let decoded = common::decode_mandatory_ie(
            &mut left,
            field,
            row.least,
            |buffer| decode(row.form, buffer, part.len()),
            |value: &Value| receivable(set_for(row, value), value.first),
            |_| None,
            &mut reading,
        );
        match decoded {
            Ok(value) => place.copy_from_slice(&[1, value.start as u32, value.length as u32]),
            Err(error) => return (read, Some(Fault(error))),
        }
        read = part.len() - left.len();
    }
    (read, None)
}

/// The same with rows and notes of its own.
pub fn read_rows(rows: &[MandatoryRow], part: &[u8], lenient: bool) -> RowsRead {
    let mut places = vec![0; VALUE * rows.len()];
    let mut noted = Noted::default();
    let (read, fault) = read_rows_into(rows, part, lenient, &mut places, &mut noted);
    let refused = fault.map(|fault| number(&fault.0));
    if let Some((_, row)) = refused {
        places.truncate(VALUE * row);
    }
    let notes = noted.0.iter().map(number).flat_map(|(number, row)| [row as u32, number]).collect();
    RowsRead { refused, read, rows: places, notes }
}

/// A row's value, as the macro's arms name it.
struct Field<'a> {
    half: Half,
    framed: Framed<'a>,
}

fn encode(form: MandatoryForm, received: bool, octets: &[u8], buffer: &mut Vec<u8>) -> common::Result<()> {
    let field = |half: u8, width: usize| Field { half: Half::new(half), framed: Framed { width, octets } };
    match form {
        MandatoryForm::LowHalf => {
            let field = field(if received { octets[0] & 0x0f } else { octets[0] }, 0);
            nas_message!(@encode_mand buffer, field, half, low_half_first);
        }
        MandatoryForm::HighHalf => {
            let field = field(if received { octets[0] >> 4 } else { octets[0] }, 0);
            nas_message!(@encode_mand buffer, field, half, high_half_last);
        }
        MandatoryForm::Fixed(_) => {
            let field = field(0, 0);
            nas_message!(@encode_mand buffer, field, framed);
        }
        MandatoryForm::Lv => {
            let field = field(0, 1);
            nas_message!(@encode_mand buffer, field, framed);
        }
        MandatoryForm::LvE => {
            let field = field(0, 2);
            nas_message!(@encode_mand buffer, field, framed);
        }
    }
    Ok(())
}

/// The rows by the macro's arms, behind what is in `buffer`.
pub fn write_rows_into(filled: &FilledRows<'_>, buffer: &mut Vec<u8>) {
    for (k, row) in filled.table.iter().enumerate() {
        let (place, octets) = filled.value(k);
        let written = encode(row.form, place.source == 1, octets, buffer);
        assert!(written.is_ok(), "values that fit their forms are written");
    }
}

/// The same into octets of its own.
pub fn write_rows(filled: &FilledRows<'_>) -> Vec<u8> {
    let mut buffer = Vec::new();
    write_rows_into(filled, &mut buffer);
    buffer
}
