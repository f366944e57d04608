//! Mandatory rows, read and written. Ours checks a lent table in each call; the Rust has its rows in code and checks none.

use std::hint::black_box;

use compare::calls::{Call, Octets, Places};
use compare::interface::Mandatory;
use compare::judge_mandatory;
use compare::oracle_mandatory::{self, Noted};
use compare::rows::{MandatoryForm, MandatoryRow, PLACE, mandatory_rows_of};

use crate::Sides;
use crate::measure::{Lines, WAYS, Way, best};
use crate::messages::NAMES;

/// A part of mandatory rows, the number of its table, and whether it has a fault that only lenient reading takes.
struct Input {
    name: String,
    number: usize,
    part: Vec<u8>,
    faulty: bool,
}

/// The octets of a row with a value of so many octets, or of as few as the row takes; of a low half none.
fn octets(row: &MandatoryRow, value: usize) -> Vec<u8> {
    // A first octet that the value rule takes, in both its halves.
    let kind = 0x11 * row.set.trailing_zeros() as u8;
    let length = |field: usize| value.max(row.least.saturating_sub(field));
    match row.form {
        MandatoryForm::LowHalf => vec![],
        MandatoryForm::HighHalf => vec![kind],
        MandatoryForm::Fixed(size) => vec![kind; size],
        MandatoryForm::Lv => [vec![length(1).min(255) as u8], vec![kind; length(1).min(255)]].concat(),
        MandatoryForm::LvE => [(length(2) as u16).to_be_bytes().to_vec(), vec![kind; length(2)]].concat(),
    }
}

fn inputs(tables: &[Vec<u32>]) -> Vec<Input> {
    let mut inputs = Vec::new();
    for number in 1..=6 {
        let rows = mandatory_rows_of(&tables[number]);
        let mut add = |what: &str, part: Vec<u8>, faulty: bool| {
            inputs.push(Input { name: format!("{}, {what}", NAMES[number]), number, part, faulty });
        };
        let part = |value: usize| -> Vec<u8> { rows.iter().flat_map(|row| octets(row, value)).collect() };
        add("short", part(0), false);
        let empty: Vec<u8> = rows.iter().flat_map(|row| octets(&MandatoryRow { least: 0, ..*row }, 0)).collect();
        if empty != part(0) {
            add("too short", empty, true);
        }
        if rows.iter().any(|row| row.form == MandatoryForm::LvE) {
            add("long", part(20_000), false);
        }
    }
    inputs
}

/// All lines of mandatory rows; the name of an input to which the sides answer differently.
pub fn mandatory(sides: &Sides) -> Result<(), String> {
    let Some(ours) = sides.ours.mandatory() else {
        println!("libnas.a is linked without mandatory rows");
        return Ok(());
    };
    let inputs = inputs(&sides.tables.mandatory);
    let mut lines = Lines::new("mandatory rows read");
    for input in &inputs {
        let modes = if input.faulty { &[true][..] } else { &[false, true] };
        for &lenient in modes {
            let name = format!("{}, {}", input.name, if lenient { "lenient" } else { "strict" });
            for way in WAYS {
                lines.line(&name, input.part.len(), way.words(), reading(sides, ours, input, lenient, way)?);
            }
        }
    }
    lines.end();
    let mut lines = Lines::new("mandatory rows written");
    for input in &inputs {
        for way in WAYS {
            lines.line(&input.name, input.part.len(), way.words(), writing(sides, ours, input, way)?);
        }
    }
    lines.end();
    Ok(())
}

/// Seconds a reading, of ours and of the Rust.
fn reading(sides: &Sides, ours: &dyn Mandatory, input: &Input, lenient: bool, way: Way) -> Result<(f64, f64), String> {
    let Input { name, number, part, .. } = input;
    let (table, number, option) = (&sides.tables.mandatory[*number], *number as u32, u8::from(lenient));
    let rust_rows = mandatory_rows_of(table);
    let room = PLACE * rust_rows.len();
    sides.done(name, &Call::ReadMandatoryBy { number, part: part.clone(), lenient: option, rows: room })?;
    let mut rows = vec![0; room];
    let mut notes = [0; 64];
    let mut values = [0; 5];
    let mut ours = || {
        if way == Way::New {
            rows.fill(0);
            notes.fill(0);
        }
        let part = black_box(part);
        let said = match way {
            Way::Lent => ours.read_mandatory(part, table, option, &mut rows, &mut notes, &mut values),
            _ => ours.read_mandatory_by(number, part, option, &mut rows, &mut notes, &mut values),
        };
        black_box((said, &rows, &notes, &values));
    };
    let mut places = vec![0; room];
    let mut noted = Noted::default();
    let mut rust = || {
        match way {
            Way::New => noted = Noted::default(),
            _ => noted.clear(),
        }
        let (read, fault) =
            oracle_mandatory::read_rows_into(black_box(&rust_rows), black_box(part), lenient, &mut places, &mut noted);
        black_box((read, fault.is_none(), &places, &noted));
    };
    Ok(best(&mut ours, &mut rust))
}

/// Seconds a writing of what was read, of ours and of the Rust.
fn writing(sides: &Sides, ours: &dyn Mandatory, input: &Input, way: Way) -> Result<(f64, f64), String> {
    let Input { name, number, part, .. } = input;
    let (table, number) = (&sides.tables.mandatory[*number], *number as u32);
    let rows = judge_mandatory::read_rows(&mandatory_rows_of(table), part, true).rows;
    let places = Places { rows: rows.clone(), received: part.clone(), set: Octets::default() };
    sides.done(name, &Call::WriteMandatoryBy { number, places: places.clone(), output: part.len() })?;
    let mut output = vec![0; part.len()];
    let mut values = [0; 5];
    let set = places.set.lent();
    let mut ours = || {
        if way == Way::New {
            output.fill(0);
        }
        let received = black_box(part);
        let said = match way {
            Way::Lent => ours.write_mandatory(table, &rows, received, set, &mut output, &mut values),
            _ => ours.write_mandatory_by(number, &rows, received, set, &mut output, &mut values),
        };
        black_box((said, &output, &values));
    };
    let filled = judge_mandatory::writing(table, &rows, part, set).map_err(|_| name.clone())?;
    let mut buffer = Vec::new();
    let mut rust = || {
        match way {
            Way::New => buffer = Vec::new(),
            _ => buffer.clear(),
        }
        oracle_mandatory::write_rows_into(black_box(&filled), &mut buffer);
        black_box(&buffer);
    };
    Ok(best(&mut ours, &mut rust))
}
