//! The findings of an order log. The Rust makes a text for each, ours two numbers.

use std::hint::black_box;

use compare::calls::{Call, Filled};
use compare::judge::Model;
use compare::judge_writing;
use compare::oracle::Table;
use compare::oracle_findings;
use compare::oracle_writing::Logs;

use crate::Sides;
use crate::measure::{Lines, Way, best, best_alone};
use crate::messages::{NAMES, every, read, repeat, unknown_between};

/// A message whose logs are looked at, the number of its table, and whether the Rust is measured.
struct Input {
    name: String,
    number: usize,
    filled: Filled,
    rust: bool,
}

fn inputs(tables: &[Vec<u32>]) -> Vec<Input> {
    let mut inputs = Vec::new();
    let mut add = |name: String, number: usize, part: Vec<u8>, rust: bool| {
        inputs.push(Input { name, number, filled: read(&tables[number], part), rust });
    };
    for number in 1..=6 {
        let all = every(Model::new(&tables[number]).rows());
        let backward: Vec<u8> = all.iter().rev().flatten().copied().collect();
        add(format!("{}, every element", NAMES[number]), number, all.concat(), true);
        add(format!("{}, unknown between", NAMES[number]), number, unknown_between(&all), true);
        add(format!("{}, backward", NAMES[number]), number, backward, true);
    }
    add("hostile: all unknown, one octet each".into(), 0, repeat(&[0x90], 65_535), true);
    add("hostile: all unknown, two octets each".into(), 0, repeat(&[0x6f, 0], 65_535), true);
    // The Rust's list of findings has a bound, which is not given, so no time of it is known here.
    add("hostile: all repeated, one octet each".into(), 0, repeat(&[0xc1], 65_535), false);
    inputs
}

/// All lines of findings; the name of an input in which the sides find different ones.
pub fn findings(sides: &Sides) -> Result<(), String> {
    let Some(ours) = sides.ours.findings() else {
        println!("libnas.a is linked without findings");
        return Ok(());
    };
    let mut lines = Lines::new("findings");
    for Input { name, number, filled, rust } in inputs(&sides.tables.optional) {
        let lent_table = &sides.tables.optional[number];
        let Filled { places, kept, order } = &filled;
        let room = 2 * order.used;
        let call =
            Call::Findings { table: lent_table.clone(), kept: kept.clone(), order: order.clone(), findings: room };
        // Where the Rust is not measured, the judge says how many there are: the Rust would be called for each of them.
        let found = match rust {
            true => sides.done(&name, &call)?[0] as usize,
            false => Model::new(lent_table).findings(&kept.octets, &order.octets).len(),
        };
        if call.on(&*sides.ours).said() != [found as u64] {
            return Err(name);
        }
        let mut found = vec![0; 2 * found];
        let mut values = [0; 5];
        let mut ours = || {
            let number = ours.findings(black_box(lent_table), kept.lent(), order.lent(), &mut found, &mut values);
            black_box((number, &found, &values));
        };
        let octets = kept.used + order.used;
        if !rust {
            lines.alone(&name, octets, Way::Lent.words(), best_alone(&mut ours));
            continue;
        }
        let table = Table::new(lent_table);
        let logs = Logs::new(&judge_writing::Filled {
            rows: &places.rows,
            received: &places.received,
            set: &[],
            kept: &kept.octets,
            order: &order.octets,
        });
        let mut rust = || {
            black_box(table.index_again());
            black_box(oracle_findings::count(&table, black_box(&logs)));
        };
        lines.line(&name, octets, Way::Lent.words(), best(&mut ours, &mut rust));
    }
    lines.end();
    Ok(())
}
