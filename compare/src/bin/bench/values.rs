//! The value of a place: setting, clearing and showing it. In the Rust a value is a field, which an assignment to it changes
//! and which nothing checks, so ours is measured alone.

use std::hint::black_box;

use compare::calls::{Call, Filled, Octets};
use compare::interface::Edited;
use compare::judge::Model;
use compare::rows::PLACE;

use crate::Sides;
use crate::measure::{Lines, Way, best_alone};
use crate::messages::{NAMES, element, every, read, value};

/// A message with every element of its table, a place of it, and the value that it is set to.
struct Input {
    name: String,
    number: usize,
    filled: Filled,
    place: usize,
    value: Vec<u8>,
}

fn inputs(tables: &[Vec<u32>]) -> Vec<Input> {
    let mut inputs = Vec::new();
    for number in 1..=6 {
        let rows = Model::new(&tables[number]).rows().to_vec();
        let filled = read(&tables[number], every(&rows).concat());
        let place = rows.len() / 2;
        inputs.push(Input { name: NAMES[number].into(), number, filled, place, value: value(&rows[place], 1) });
    }
    let rows = Model::new(&tables[1]).rows().to_vec();
    let place = rows.iter().position(|row| row.ieis[0] == 0x7b).expect("a row of the registration request");
    let filled = read(&tables[1], element(&rows[place], 20_000));
    inputs.push(Input { name: "a long value".into(), number: 1, filled, place, value: value(&rows[place], 20_000) });
    inputs
}

/// All lines of values; the name of an input to which the sides answer differently.
pub fn values(sides: &Sides) -> Result<(), String> {
    let Some(editing) = sides.ours.editing() else {
        println!("libnas.a is linked without setting and clearing");
        return Ok(());
    };
    let way = Way::Lent.words();
    let mut lines = Lines::new("values");
    for Input { name, number, filled, place, value } in inputs(&sides.tables.optional) {
        let table = &sides.tables.optional[number];
        let (mut places, order) = (filled.places, filled.order);
        places.set = Octets { octets: vec![0; value.len()], used: 0 };
        let (lent, log) = (places.clone(), order.clone());
        let call = Call::Set { table: table.clone(), places: lent, order: log, place, value: value.clone() };
        sides.done(&name, &call)?;
        sides.done(&name, &Call::Clear { table: table.clone(), places: places.clone(), place })?;
        sides.done(&name, &Call::Show { table: table.clone(), places: places.clone(), place })?;

        // Before each call the place is as it was read.
        let row: [u32; PLACE] = places.rows[PLACE * place..][..PLACE].try_into().expect("four numbers");
        let mut values = [0; 5];
        let (mut rows, mut set) = (places.rows.clone(), places.set.octets.clone());
        let setting = best_alone(&mut || {
            rows[PLACE * place..][..PLACE].copy_from_slice(&row);
            let (received, order) = (&places.received, order.lent());
            let edited = Edited { rows: &mut rows, received, set: &mut set, used: 0, order, place };
            black_box(editing.set(black_box(table), edited, black_box(&value), &mut values));
        });
        lines.alone(&format!("{name}, a place set"), value.len(), way, setting);
        let clearing = best_alone(&mut || {
            rows[PLACE * place..][..PLACE].copy_from_slice(&row);
            let set = places.set.lent();
            black_box(editing.clear(black_box(table), &mut rows, &places.received, set, place, &mut values));
        });
        lines.alone(&format!("{name}, a place cleared"), value.len(), way, clearing);
        let showing = best_alone(&mut || {
            let set = places.set.lent();
            let received = &places.received;
            black_box(sides.ours.show(black_box(table), &places.rows, received, set, place, &mut values));
        });
        lines.alone(&format!("{name}, a place shown"), value.len(), way, showing);
    }
    lines.end();
    Ok(())
}
