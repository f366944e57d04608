//! The small pieces: one element at a time, tables, and both logs.

use std::hint::black_box;

use compare::calls::Call;
use compare::judge::{self, Model};
use compare::oracle::{self, Table};
use compare::oracle_logs::{Kept, Order};
use compare::rows::START;

use crate::Sides;
use crate::measure::{Lines, Way, best, best_alone};
use crate::messages::{NAMES, SIXTEEN, every, unknown_between};

/// One element at a time: whole parts, nanoseconds a call. The Rust has no such call.
pub fn elements(sides: &Sides) -> Result<(), String> {
    let mut lines = Lines::new("one element at a time");
    for (number, message) in NAMES.iter().enumerate().skip(1) {
        let table = &sides.tables.optional[number];
        let all = every(Model::new(table).rows());
        for (what, part) in [("every element", all.concat()), ("unknown between", unknown_between(&all))] {
            let name = format!("{message}, {what}");
            let call =
                Call::Next { part: part.clone(), table: table.clone(), tlve_start: START, option: 0, state: [0; 4] };
            sides.done(&name, &call)?;
            let mut calls = 0;
            let whole = best_alone(&mut || {
                let (mut state, mut values) = ([0; 4], [1; 5]);
                calls = 0;
                // The end has no value.
                while values[0] != 0 {
                    sides.ours.next(black_box(&part), table, START, 0, &mut state, &mut values);
                    calls += 1;
                }
            });
            lines.alone(&name, part.len(), Way::Lent.words(), whole / f64::from(calls));
        }
    }
    lines.end();
    Ok(())
}

/// Both checks, which the Rust has not; the index of a table, the places of all IEIs by it, and the unknown lengths of elements.
pub fn tables(sides: &Sides) -> Result<(), String> {
    let ours = &*sides.ours;
    let mut lines = Lines::new("tables");
    let mut values = [0; 5];
    for (number, message) in NAMES.iter().enumerate().skip(1) {
        let (table, mandatory) = (&sides.tables.optional[number], &sides.tables.mandatory[number]);
        let octets = |table: &[u32]| size_of_val(table);
        sides.done(message, &Call::CheckTable { table: table.clone() })?;
        let time = best_alone(&mut || {
            black_box(ours.check_table(black_box(table), &mut values));
        });
        lines.alone(&format!("{message}, checked"), octets(table), "", time);
        sides.done(message, &Call::CheckMandatory { table: mandatory.clone() })?;
        let time = best_alone(&mut || {
            black_box(ours.check_mandatory_table(black_box(mandatory), &mut values));
        });
        lines.alone(&format!("{message}, mandatory checked"), octets(mandatory), "", time);
        sides.done(message, &Call::Index { table: table.clone() })?;
        let rust_table = Table::new(table);
        let mut index = [0; 256];
        let times = best(
            &mut || {
                black_box((ours.iei_index(black_box(table), &mut index), &index));
            },
            &mut || {
                black_box(black_box(&rust_table).index_again());
            },
        );
        lines.line(&format!("{message}, indexed"), octets(table), "", times);
    }
    let index = *Table::new(&sides.tables.optional[1]).index();
    let times = best(
        &mut || {
            for iei in 0..=255 {
                ours.place_of(black_box(&index), iei, &mut values);
                black_box(&values);
            }
        },
        &mut || {
            for iei in 0..=255 {
                black_box(oracle::place_of(black_box(&index), iei));
            }
        },
    );
    lines.line("the places of 256 IEIs", 256, "", times);
    let elements: Vec<[u8; 3]> = (0..=255).map(|first| [first, 0, 0]).collect();
    let times = best(
        &mut || {
            for element in &elements {
                ours.generic_ie_length(black_box(element), START, &mut values);
                black_box(&values);
            }
        },
        &mut || {
            for element in &elements {
                black_box(oracle::generic_ie_length(black_box(element), START));
            }
        },
    );
    lines.line("the unknown lengths of 256 elements", 256, "", times);
    lines.end();
    Ok(())
}

/// Both logs: filled push by push from none, counted, and their last element found. Ours checks the whole log in each call.
pub fn logs(sides: &Sides) -> Result<(), String> {
    let ours = &*sides.ours;
    let mut lines = Lines::new("logs");
    for count in [1, 16, 256] {
        let (iei, data) = (SIXTEEN[0], &SIXTEEN[1..]);
        let log = (0..count).fold(Vec::new(), |log, _| judge::kept_push(&log, iei, data));
        let used = log.len();
        sides.done("a kept log", &Call::KeptCount { log: log.clone(), used })?;
        let mut buffer = vec![0; used];
        let mut values = [0; 5];
        let mut rust = Kept::default();
        let times = best(
            &mut || {
                values[1] = 0;
                for _ in 0..count {
                    ours.kept_push(&mut buffer, values[1] as usize, iei, black_box(data), &mut values);
                }
                black_box(&buffer);
            },
            &mut || {
                rust.clear();
                for _ in 0..count {
                    rust.push(iei, black_box(data));
                }
                black_box(&rust);
            },
        );
        lines.line(&format!("a kept log of {count}, pushed"), used, "pushed", times);
        let times = best(
            &mut || {
                black_box((ours.kept_count(black_box(&log), used, &mut values), &values));
            },
            &mut || {
                black_box(black_box(&rust).count());
            },
        );
        lines.line(&format!("a kept log of {count}, counted"), used, "looked at", times);
        let times = best(
            &mut || {
                black_box((ours.kept_get(black_box(&log), used, count - 1, &mut values), &values));
            },
            &mut || {
                black_box(black_box(&rust).get(count - 1));
            },
        );
        lines.line(&format!("a kept log of {count}, its last"), used, "looked at", times);

        let log = [0, iei].repeat(count);
        let used = log.len();
        sides.done("an order log", &Call::OrderGet { log: log.clone(), used, k: count - 1 })?;
        let mut rust = Order::default();
        let times = best(
            &mut || {
                values[1] = 0;
                for _ in 0..count {
                    ours.order_push(&mut buffer, values[1] as usize, 0, iei, &mut values);
                }
                black_box(&buffer);
            },
            &mut || {
                rust.clear();
                for _ in 0..count {
                    rust.push(black_box(iei));
                }
                black_box(&rust);
            },
        );
        lines.line(&format!("an order log of {count}, pushed"), used, "pushed", times);
        let times = best(
            &mut || {
                black_box((ours.order_get(black_box(&log), used, count - 1, &mut values), &values));
            },
            &mut || {
                black_box(black_box(&rust).get(count - 1));
            },
        );
        lines.line(&format!("an order log of {count}, its last"), used, "looked at", times);
    }
    lines.end();
    Ok(())
}
