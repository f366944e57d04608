//! Writing an optional part.

use std::hint::black_box;

use compare::calls::{Call, Filled};
use compare::interface::Writing;
use compare::judge::Model;
use compare::judge_writing;
use compare::oracle::Table;
use compare::oracle_writing;

use crate::Sides;
use crate::measure::{Lines, WAYS, Way, apart, at_places, best};
use crate::messages::{NAMES, SIXTEEN, element, every, read, read_with, repeat, set, unknown_between, value};

/// A message that is written, and the number of its table.
struct Written {
    name: String,
    number: usize,
    filled: Filled,
}

fn messages(tables: &[Vec<u32>]) -> Vec<Written> {
    let mut messages = Vec::new();
    let mut add = |name: String, number: usize, filled: Filled| messages.push(Written { name, number, filled });
    for number in 1..=6 {
        let table = &tables[number];
        let rows = Model::new(table).rows().to_vec();
        let all = every(&rows);
        let third: Vec<u8> = all.iter().step_by(3).flatten().copied().collect();
        // All elements but that of the middle place, which is set.
        let middle = rows.len() / 2;
        let most: Vec<Vec<u8>> = [&all[..middle], &all[middle + 1..]].concat();
        let new = value(&rows[middle], 1);
        add(format!("{}, every third", NAMES[number]), number, read(table, third));
        add(format!("{}, every element", NAMES[number]), number, read(table, all.concat()));
        add(format!("{}, unknown between", NAMES[number]), number, read(table, unknown_between(&all)));
        let edited = set(&rows, read(table, most.concat()), middle, new.clone());
        add(format!("{}, a place set", NAMES[number]), number, edited);
        let edited = set(&rows, read(table, unknown_between(&most)), middle, new);
        add(format!("{}, unknown, a place set", NAMES[number]), number, edited);
    }
    let rows = Model::new(&tables[1]).rows().to_vec();
    let at = |iei: u8| rows.iter().position(|row| row.ieis[0] == iei).expect("a row of the registration request");
    let long = |iei: u8| element(&rows[at(iei)], 20_000);
    add("long values".into(), 1, read(&tables[1], [long(0x70), long(0x7b), long(0x71)].concat()));
    let two = read(&tables[1], [long(0x70), long(0x71)].concat());
    add("long values, one of them set".into(), 1, set(&rows, two, at(0x7b), value(&rows[at(0x7b)], 20_000)));
    let repeated = [long(0x70), long(0x70), long(0x70)].concat();
    add("long values, repeated".into(), 1, read(&tables[1], repeated));
    add("one unknown value".into(), 1, read(&tables[1], [vec![0x7a, 0xff, 0xfc], vec![7; 65_532]].concat()));
    for (name, element) in [
        ("kept elements of one octet", &[0x90][..]),
        ("kept elements of two octets", &[0x6f, 0]),
        ("kept elements of 16 octets", &SIXTEEN),
    ] {
        add(name.into(), 0, read(&tables[0], repeat(element, 65_535)));
    }
    messages
}

/// Messages whose elements came out of sequence: set aside, so that they are kept, or accepted, so that the order log names a place
/// below one that it named before.
fn out_of_sequence(tables: &[Vec<u32>]) -> Vec<Written> {
    let mut messages = Vec::new();
    for number in 1..=6 {
        let table = &tables[number];
        let all = every(Model::new(table).rows());
        let mut last_first = all.clone();
        last_first.rotate_right(1);
        let backward: Vec<u8> = all.iter().rev().flatten().copied().collect();
        for (what, part) in [("last first", last_first.concat()), ("backward", backward)] {
            for (done, accepted) in [("set aside", false), ("accepted", true)] {
                let filled = read_with(table, part.clone(), accepted);
                messages.push(Written { name: format!("{}, {what}, {done}", NAMES[number]), number, filled });
            }
        }
    }
    messages
}

/// All lines of writing; the name of a message that the sides write differently.
pub fn writing(sides: &Sides) -> Result<(), String> {
    lines_of(sides, "writing", messages(&sides.tables.optional))
}

/// The same of messages that came out of sequence.
pub fn sequence(sides: &Sides) -> Result<(), String> {
    lines_of(sides, "sequence", out_of_sequence(&sides.tables.optional))
}

fn lines_of(sides: &Sides, family: &'static str, messages: Vec<Written>) -> Result<(), String> {
    let Some(ours) = sides.ours.writing() else {
        println!("libnas.a is linked without writing");
        return Ok(());
    };
    let mut lines = Lines::new(family);
    for written in messages {
        let bench = Bench::new(sides, ours, &written)?;
        for way in WAYS {
            lines.line(&written.name, bench.octets, way.words(), at_places(|place| bench.times(way, place)));
        }
    }
    lines.end();
    Ok(())
}

/// A message that both sides write alike.
struct Bench<'a> {
    ours: &'a dyn Writing,
    written: &'a Written,
    lent_table: &'a [u32],
    table: Table,
    octets: usize,
}

impl<'a> Bench<'a> {
    fn new(sides: &'a Sides, ours: &'a dyn Writing, written: &'a Written) -> Result<Self, String> {
        let lent_table = &sides.tables.optional[written.number];
        let filled = written.filled.clone();
        let call = Call::WriteBy { number: written.number as u32, filled, output: 131_070 };
        let octets = sides.done(&written.name, &call)?[0] as usize;
        Ok(Self { ours, written, lent_table, table: Table::new(lent_table), octets })
    }

    /// Seconds a call, of ours and of the Rust.
    fn times(&self, way: Way, place: usize) -> (f64, f64) {
        let number = self.written.number as u32;
        let mut output = vec![0; self.octets];
        let mut values = [0; 5];
        let mut ours = || {
            if way == Way::New {
                output.fill(0);
            }
            let message = black_box(self.written.filled.message());
            let said = match way {
                Way::Lent => self.ours.write(self.lent_table, message, &mut output, &mut values),
                _ => self.ours.write_by(number, message, &mut output, &mut values),
            };
            black_box((said, &output, &values));
        };
        let Filled { places, kept, order } = &self.written.filled;
        let filled = judge_writing::Filled {
            rows: &places.rows,
            received: &places.received,
            set: &places.set.octets,
            kept: &kept.octets,
            order: &order.octets,
        };
        let logs = oracle_writing::Logs::new(&filled);
        let _held = apart(place);
        let mut buffer = Vec::new();
        let mut rust = || {
            match way {
                Way::New => buffer = Vec::new(),
                Way::Reused => buffer.clear(),
                Way::Lent => {
                    buffer.clear();
                    black_box(self.table.index_again());
                }
            }
            oracle_writing::write_into(&self.table, black_box(&filled), &logs, &mut buffer);
            black_box(&buffer);
        };
        best(&mut ours, &mut rust)
    }
}
