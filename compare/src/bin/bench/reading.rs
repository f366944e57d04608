//! Reading an optional part, and octets a second by its length.

use std::hint::black_box;

use compare::calls::Call;
use compare::interface::{Lent, Side};
use compare::judge::{Model, Room};
use compare::oracle::{self, Logs, Table};
use compare::rows::{PLACE, START};

use crate::Sides;
use crate::measure::{Lines, WAYS, Way, at_places, best};
use crate::messages::{NAMES, SIXTEEN, element, every, repeat, unknown_between};

/// An input: a part and the number of the table that it is read by.
struct Input {
    name: String,
    number: usize,
    part: Vec<u8>,
}

fn inputs(tables: &[Vec<u32>]) -> Vec<Input> {
    let mut inputs = Vec::new();
    let mut add = |name: String, number: usize, part: Vec<u8>| inputs.push(Input { name, number, part });
    for number in 1..=6 {
        let all = every(Model::new(&tables[number]).rows());
        let third: Vec<u8> = all.iter().step_by(3).flatten().copied().collect();
        let backward: Vec<u8> = all.iter().rev().flatten().copied().collect();
        add(format!("{}, every third", NAMES[number]), number, third);
        add(format!("{}, every element", NAMES[number]), number, all.concat());
        add(format!("{}, unknown between", NAMES[number]), number, unknown_between(&all));
        add(format!("{}, backward", NAMES[number]), number, backward);
    }
    let rows = Model::new(&tables[1]).rows().to_vec();
    let long = |iei: u8, value: usize| {
        rows.iter().find(|row| row.ieis[0] == iei).map(|row| element(row, value)).unwrap_or_default()
    };
    add("long values, accepted".into(), 1, [long(0x70, 20_000), long(0x7b, 20_000), long(0x71, 20_000)].concat());
    add("long values, repeated".into(), 1, [long(0x70, 20_000), long(0x70, 20_000), long(0x70, 20_000)].concat());
    add("one unknown value".into(), 1, [vec![0x7a, 0xff, 0xfc], vec![7; 65_532]].concat());
    add("one cut short".into(), 1, [vec![0x70, 0xff, 0xff], vec![7; 65_532]].concat());
    for (name, element) in [
        ("hostile: all unknown, one octet each", &[0x90][..]),
        ("hostile: all repeated, one octet each", &[0xc1]),
        ("hostile: all repeated, two octets each", &[0x10, 0]),
        ("hostile: all unknown, two octets each", &[0x6f, 0]),
        ("hostile: repeated and unknown in turn", &[0xc1, 0x90]),
    ] {
        add(name.into(), 0, repeat(element, 65_535));
    }
    inputs
}

/// All lines of reading; the name of an input that the sides read differently.
pub fn reading(sides: &Sides) -> Result<(), String> {
    let mut lines = Lines::new("reading");
    for input in inputs(&sides.tables.optional) {
        let bench = Bench::new(sides, &input)?;
        for way in WAYS {
            lines.line(&input.name, input.part.len(), way.words(), at_places(|_| bench.times(way)));
        }
    }
    lines.end();
    Ok(())
}

/// Octets a second by the length of a part.
pub fn lengths(sides: &Sides) -> Result<(), String> {
    println!("{:56} {:>7} {:>12} {:>12}", "million octets a second, by number, reused", "KiB", "ours", "Rust");
    for (name, element) in [
        ("all unknown, one octet each", &[0x90][..]),
        ("all repeated, one octet each", &[0xc1]),
        ("all repeated, two octets each", &[0x10, 0]),
        ("all unknown, two octets each", &[0x6f, 0]),
        ("unknown of 16 octets each", &SIXTEEN),
    ] {
        for kib in [1, 4, 16, 64] {
            // A part has at most 65,535 octets, one less than 64 KiB.
            let octets = (1024 * kib).min(65_535);
            let input = Input { name: name.into(), number: 0, part: repeat(element, octets) };
            let (our_time, rust_time) = Bench::new(sides, &input)?.times(Way::Reused);
            let speed = |time: f64| input.part.len() as f64 / time / 1e6;
            println!("{name:56} {kib:>7} {:>12.1} {:>12.1}", speed(our_time), speed(rust_time));
        }
    }
    println!();
    Ok(())
}

/// An input that both sides read alike, and the room that it takes.
struct Bench<'a> {
    ours: &'a dyn Side,
    input: &'a Input,
    lent_table: &'a [u32],
    table: Table,
    room: Room,
}

impl<'a> Bench<'a> {
    fn new(sides: &'a Sides, input: &'a Input) -> Result<Self, String> {
        let lent_table = &sides.tables.optional[input.number];
        let table = Table::new(lent_table);
        let room = Room { rows: PLACE * table.places(), kept: 131_070, order: 131_070 };
        let call = Call::ReadBy { number: input.number as u32, part: input.part.clone(), option: 0, room };
        let right = sides.alike(&input.name, &call)?;
        let room = Room { rows: room.rows, kept: right.said()[0] as usize, order: right.said()[1] as usize };
        Ok(Self { ours: &*sides.ours, input, lent_table, table, room })
    }

    /// Seconds a call, of ours and of the Rust.
    fn times(&self, way: Way) -> (f64, f64) {
        let part = &self.input.part;
        let mut rows = vec![0; self.room.rows];
        // No log is lent empty: to clear one of no octets is slow on some machines.
        let mut kept = vec![0; self.room.kept.max(1)];
        let mut order = vec![0; self.room.order.max(1)];
        let mut values = [0; 5];
        let mut ours = || {
            if way == Way::New {
                rows.fill(0);
                kept.fill(0);
                order.fill(0);
            }
            let lent = Lent { rows: &mut rows, kept: &mut kept, order: &mut order };
            let part = black_box(part);
            let number = match way {
                Way::Lent => self.ours.read(part, self.lent_table, START, 0, lent, &mut values),
                _ => self.ours.read_by(self.input.number as u32, part, 0, lent, &mut values),
            };
            black_box((number, &rows, &kept, &order, &values));
        };
        let mut places = vec![0; self.room.rows];
        let mut logs = Logs::default();
        let mut rust = || {
            match way {
                Way::New => logs = Logs::default(),
                Way::Reused => logs.clear(),
                Way::Lent => {
                    logs.clear();
                    black_box(self.table.index_again());
                }
            }
            let read = oracle::read_into(&self.table, black_box(part), START, false, &mut places, &mut logs);
            black_box((read.is_ok(), &places, &logs));
        };
        best(&mut ours, &mut rust)
    }
}
