//! Tables as they are lent. Optional: ten numbers a row, namely how many IEIs, four IEIs, the code of the form, the size of a
//! fixed form, the least whole length, the greatest whole length and the set. Mandatory: four, namely code, size, least whole length
//! and set. The row of a place: source, start and length of its value, and its IEI; a mandatory row's the first three. Table P and the six real tables by their numbers.

use std::path::PathBuf;
use std::process::exit;
use std::rc::Rc;
use std::{env, fs};

/// How many numbers a row of an optional table has, a row of a mandatory one, the row of a place, and that of a mandatory value.
pub const WIDTH: usize = 10;
pub const MANDATORY_WIDTH: usize = 4;
pub const PLACE: usize = 4;
pub const VALUE: usize = 3;

/// The start number of the long form for P and the six real tables.
pub const START: u8 = 0x70;

#[derive(Debug, Clone, Copy, PartialEq, Eq)]
pub enum Form {
    Half,
    Fixed(usize),
    Tlv,
    TlvE,
}

/// A row of a table that passes the check.
#[derive(Debug, Clone)]
pub struct Row {
    pub ieis: Vec<u8>,
    pub form: Form,
    pub least: usize,
    pub greatest: usize,
    pub set: u32,
}

/// The rows of a table that passes the check.
pub fn rows_of(table: &[u32]) -> Vec<Row> {
    table
        .chunks_exact(WIDTH)
        .map(|row| Row {
            ieis: row[1..1 + row[0] as usize].iter().map(|&iei| iei as u8).collect(),
            form: match row[5] {
                0 => Form::Half,
                1 => Form::Fixed(row[6] as usize),
                2 => Form::Tlv,
                _ => Form::TlvE,
            },
            least: row[7] as usize,
            greatest: row[8] as usize,
            set: row[9],
        })
        .collect()
}

#[derive(Debug, Clone, Copy, PartialEq, Eq)]
pub enum MandatoryForm {
    LowHalf,
    HighHalf,
    Fixed(usize),
    Lv,
    LvE,
}

/// A row of a mandatory table that passes the check.
#[derive(Debug, Clone, Copy)]
pub struct MandatoryRow {
    pub form: MandatoryForm,
    pub least: usize,
    pub set: u32,
}

/// The rows of a mandatory table that passes the check.
pub fn mandatory_rows_of(table: &[u32]) -> Vec<MandatoryRow> {
    let rows = table.chunks_exact(MANDATORY_WIDTH);
    rows.map(|row| MandatoryRow {
        form: match row[0] {
            0 => MandatoryForm::LowHalf,
            1 => MandatoryForm::HighHalf,
            2 => MandatoryForm::Fixed(row[1] as usize),
            3 => MandatoryForm::Lv,
            _ => MandatoryForm::LvE,
        },
        least: row[2] as usize,
        set: row[3],
    })
    .collect()
}

/// A place row.
#[derive(Debug, Clone, Copy)]
pub struct Place {
    pub source: u32,
    pub start: u32,
    pub length: u32,
    pub iei: u32,
}

/// The row of a place.
pub fn place_row(rows: &[u32], place: usize) -> Place {
    let row = &rows[PLACE * place..];
    Place { source: row[0], start: row[1], length: row[2], iei: row[3] }
}

/// The row of a mandatory value, which has no IEI.
pub fn value_row(rows: &[u32], row: usize) -> Place {
    let row = &rows[VALUE * row..];
    Place { source: row[0], start: row[1], length: row[2], iei: 0 }
}

/// The octets of a value, by its well-formed row; none of an absent one.
pub fn value_of<'a>(place: Place, received: &'a [u8], set: &'a [u8]) -> Option<&'a [u8]> {
    let octets = match place.source {
        0 => return None,
        1 => received,
        _ => set,
    };
    Some(&octets[place.start as usize..][..place.length as usize])
}

/// The numbers of a row with these IEIs.
pub fn numbers(ieis: &[u32], code: u32, size: u32, [least, greatest]: [u32; 2], set: u32) -> [u32; WIDTH] {
    let iei = |k: usize| ieis.get(k).copied().unwrap_or(0);
    [ieis.len() as u32, iei(0), iei(1), iei(2), iei(3), code, size, least, greatest, set]
}

/// The most octets that an element of a form has.
pub fn most(code: u32, size: u32) -> u32 {
    match code {
        0 => 1,
        1 => 1 + size,
        2 => 257,
        _ => 65_538,
    }
}

/// Table P of document 01.
fn table_p() -> Vec<u32> {
    [
        numbers(&[0xc0], 0, 0, [0, 1], 7),
        numbers(&[0x10], 2, 0, [3, 257], 255),
        numbers(&[0x52], 1, 2, [0, 3], 255),
        numbers(&[0x2f, 0x31], 2, 0, [2, 257], 7),
        numbers(&[0x77], 3, 0, [3, 65_538], 255),
    ]
    .concat()
}

/// The tables by number: 0 is P, which has no mandatory rows; 1 to 6 are the real ones.
pub struct Tables {
    pub optional: Vec<Vec<u32>>,
    pub mandatory: Vec<Vec<u32>>,
}

/// The tables, the real ones read from the list of the edition 16.8.0.
fn numbered() -> Result<Tables, String> {
    let folder = match env::var("NAS_TABLES") {
        Ok(path) => PathBuf::from(path),
        Err(_) => PathBuf::from(env!("CARGO_MANIFEST_DIR")).join("../../shared/tables"),
    };
    let path = folder.join("5gs-16.8.tsv");
    let text = fs::read_to_string(&path).map_err(|error| {
        format!(
            "The rows of the six real tables are not at {}: {error}.\n\
             Put 5gs-16.8.tsv into ../shared/tables, seen from the repository, or name its folder in NAS_TABLES.",
            path.display()
        )
    })?;
    let mut tables = Tables { optional: vec![Vec::new(); 7], mandatory: vec![Vec::new(); 7] };
    tables.optional[0] = table_p();
    for line in text.lines().skip(1) {
        let column: Vec<&str> = line.split('\t').collect();
        let (rows, row) = match column[1] {
            "O" => (&mut tables.optional, optional(&column).map(|row| row.to_vec())),
            _ => (&mut tables.mandatory, mandatory(&column).map(|row| row.to_vec())),
        };
        let message: usize = column[0].parse().map_err(|_| format!("no message number: {line}"))?;
        let row = row.ok_or_else(|| format!("no row of a table: {line}"))?;
        rows.get_mut(message).ok_or_else(|| format!("no message 1 to 6: {line}"))?.extend(row);
    }
    Ok(tables)
}

/// The same for a program, shared; where they cannot be read the program ends with the reason.
pub fn numbered_or_exit() -> Rc<Tables> {
    match numbered() {
        Ok(tables) => Rc::new(tables),
        Err(message) => {
            eprintln!("{message}");
            exit(2);
        }
    }
}

/// The numbers of an optional row of the list: message, part, row, IEI, name, form, least, greatest, set of eight, and the
/// set that its form has, of sixteen for half octets.
fn optional(column: &[&str]) -> Option<[u32; WIDTH]> {
    let iei = u32::from_str_radix(column.get(3)?, 16).ok()?;
    let (code, size) = match *column.get(5)? {
        "half" => (0, 0),
        "tlv" => (2, 0),
        "tlv-e" => (3, 0),
        fixed => (1, fixed.strip_prefix("fixed-")?.parse().ok()?),
    };
    let lengths = [column.get(6)?.parse().ok()?, column.get(7)?.parse().ok()?];
    Some(numbers(&[iei], code, size, lengths, column.get(9)?.parse().ok()?))
}

/// The numbers of a mandatory row of the list.
fn mandatory(column: &[&str]) -> Option<[u32; MANDATORY_WIDTH]> {
    let (code, size) = match *column.get(5)? {
        "low-half" => (0, 0),
        "high-half" => (1, 0),
        "lv" => (3, 0),
        "lv-e" => (4, 0),
        fixed => (2, fixed.strip_prefix("fixed-")?.parse().ok()?),
    };
    Some([code, size, column.get(6)?.parse().ok()?, column.get(9)?.parse().ok()?])
}
