//! The cases of writing, by lent tables and by number, and of setting and clearing places before it.

use crate::calls::{Call, Filled, Octets, Places};
use crate::driver::{Driver, every};
use crate::examples;
use crate::gen_parts::{self, Size};
use crate::gen_tables;
use crate::gen_writing;
use crate::judge::{self, MOST_LOG, MOST_OCTETS, Model, kept_push};
use crate::rows::{Form, PLACE, START, WIDTH};

impl Driver {
    /// A writing by a lent table, in room around what it needs.
    fn write(&mut self, model: &Model, table: &[u32], filled: Filled) {
        let need = gen_writing::needed(model, &filled).min(1 << 20);
        let output = gen_writing::room(&mut self.random, need);
        self.check(Call::Write { table: table.to_vec(), filled, output });
    }

    /// The same by number.
    fn write_by(&mut self, model: &Model, number: u32, filled: Filled) {
        let need = gen_writing::needed(model, &filled).min(1 << 20);
        let output = gen_writing::room(&mut self.random, need);
        self.check(Call::WriteBy { number, filled, output });
    }

    /// Some edits of a message, each checked, in room around what it needs; the message after them.
    fn edited(&mut self, model: &Model, table: &[u32], mut filled: Filled) -> Filled {
        for _ in 0..1 + self.random.below(3) {
            let random = &mut self.random;
            let places = model.rows().len();
            let place = match random.below(24) {
                0 => random.pick(&[places, places + 1, 128, 1 << 32, usize::MAX]),
                _ => random.below(places.max(1)),
            };
            let form = model.rows().get(place).map_or(Form::Tlv, |row| row.form);
            if random.once_in(4) {
                let call = Call::Clear { table: table.to_vec(), places: filled.places.clone(), place };
                let right = self.check(call);
                filled.places.rows = right.rows;
                continue;
            }
            let value = gen_writing::any_value(random, form);
            let room = gen_writing::room(random, value.len());
            let mut lent = filled.places.clone();
            let mut order = filled.order.clone();
            if random.once_in(16) {
                gen_writing::spoil_places(random, &mut lent);
            }
            if random.once_in(16) {
                order = gen_writing::spoiled_logs(random, filled.clone()).order;
            }
            if lent.set.used == filled.places.set.used {
                lent.set.octets.resize(lent.set.used + room, 0xa5);
            }
            let right = self.check(Call::Set { table: table.to_vec(), places: lent, order, place, value });
            if right.number == 0 {
                let used = right.said()[0] as usize;
                let [set, _] = right.logs;
                filled.places = Places { rows: right.rows, set: Octets { octets: set, used }, ..filled.places };
            }
        }
        filled
    }

    /// A message of a table: as reading left it, edited, made up, or spoiled.
    fn message(&mut self, model: &Model, table: &[u32], start: u8) -> Filled {
        let made_up = self.random.once_in(3);
        let filled = match made_up {
            true => gen_writing::made_up(&mut self.random, model.rows()),
            false => {
                let part = gen_parts::any(&mut self.random, model.rows(), start, Size::Short);
                let option = self.random.once_in(3);
                let read = gen_writing::read(&mut self.random, model, part, start, option);
                read.unwrap_or_else(|| gen_writing::made_up(&mut self.random, model.rows()))
            }
        };
        match self.random.below(8) {
            0 | 1 => gen_writing::spoiled(&mut self.random, filled),
            2..6 => self.edited(model, table, filled),
            _ => filled,
        }
    }

    /// A place of a message, and now and then one that it has not, shown.
    fn shown(&mut self, model: &Model, table: &[u32], filled: &Filled) {
        let places = model.rows().len();
        let place = match self.random.below(24) {
            0 => self.random.pick(&[places, places + 1, 128, 1 << 32, usize::MAX]),
            _ => self.random.below(places.max(1)),
        };
        self.check(Call::Show { table: table.to_vec(), places: filled.places.clone(), place });
    }

    /// Document 01's examples of edits: of the Rust, and then of both sides.
    pub fn edit_examples(&mut self) {
        let table = self.tables.optional[0].clone();
        let model = Model::new(&table);
        for (part, place, value, written) in examples::EDITED {
            let Some(mut filled) = gen_writing::read(&mut self.random, &model, part.to_vec(), START, false) else {
                continue;
            };
            filled.places.set.octets = vec![0; 8];
            let (places, order) = (filled.places.clone(), filled.order.clone());
            let call = Call::Set { table: table.clone(), places, order, place, value: value.to_vec() };
            let right = self.check(call.clone());
            self.expect(right.number == 0 && *right.said() == [value.len() as u64], &call);
            let [set, _] = right.logs;
            filled.places.rows = right.rows;
            filled.places.set = Octets { octets: set, used: value.len() };
            let call = Call::WriteBy { number: 0, filled: filled.clone(), output: 16 };
            let right = self.check(call.clone());
            let as_written = right.number == 0 && right.logs[0].starts_with(written);
            self.expect(as_written && *right.said() == [written.len() as u64], &call);
            self.check(Call::Write { table: table.clone(), filled, output: 16 });
        }
    }

    /// Every order log up to some octets over an alphabet that meets every branch under table P, with no, one and two kept
    /// elements, and with all, some and no places present.
    pub fn every_order(&mut self) {
        let table = self.tables.optional[0].clone();
        let model = Model::new(&table);
        let all = [1, 0, 1, 0, 1, 1, 1, 0, 1, 0, 2, 0, 2, 0, 2, 0, 1, 0, 0, 0];
        let some = [1, 2, 1, 0, 0, 0, 0, 0, 2, 0, 2, 0, 0, 0, 0, 0, 1, 1, 3, 0];
        let received = vec![0xc2, 7, 8, 9];
        let kept = [vec![], vec![1, 0x90], vec![1, 0x90, 3, 0x10, 1, 0xaa]];
        let alphabet = [0, 1, 4, 5, 0x10, 0x2f, 0x31, 0x77, 0xc0, 0xc5];
        every(&alphabet, 5, &mut |order| {
            let rows = match order.len() % 3 {
                0 => all,
                1 => some,
                _ => [0; 20],
            };
            let mut rows = if self.random.once_in(2) { rows } else { all };
            // The IEI that the log gives each place, or now and then another.
            judge::fill_ieis(model.rows(), &model.index(), order, &mut rows);
            if self.random.once_in(8) {
                rows[PLACE * 3 + 3] = self.random.pick(&[0, 0x2f, 0x31, 0x30]);
            }
            let kept = kept[self.random.below(3)].clone();
            let set = Octets::all(vec![5, 6]);
            let filled = Filled {
                places: Places { rows: rows.to_vec(), received: received.clone(), set },
                kept: Octets::all(kept),
                order: Octets::all(order.to_vec()),
            };
            match self.random.once_in(2) {
                true => self.write(&model, &table, filled),
                false => self.write_by(&model, 0, filled),
            }
        });
    }

    /// Messages of tables that pass the check, and the same under a damaged table.
    pub fn writing_random_tables(&mut self) {
        for _ in 0..50_000 * self.times {
            let table = gen_tables::optional(&mut self.random);
            let model = Model::new(&table);
            let start = gen_tables::start(&mut self.random);
            for _ in 0..14 {
                let filled = self.message(&model, &table, start);
                self.shown(&model, &table, &filled);
                self.write(&model, &table, filled);
            }
            let filled = self.message(&model, &table, start);
            let bad = gen_tables::damaged(&mut self.random, table, WIDTH);
            if self.random.once_in(4) {
                let place = self.random.below(4);
                self.check(Call::Clear { table: bad.clone(), places: filled.places.clone(), place });
                self.check(Call::Show { table: bad.clone(), places: filled.places.clone(), place });
                let value = vec![1];
                let (places, order) = (filled.places.clone(), filled.order.clone());
                self.check(Call::Set { table: bad.clone(), places, order, place, value });
            }
            let output = self.random.below(60);
            self.check(Call::Write { table: bad, filled, output });
        }
    }

    /// Messages of P and the six real tables by number, by the same tables lent, and by numbers that no table has.
    pub fn writing_numbered_tables(&mut self) {
        let tables = self.tables.optional.clone();
        let models: Vec<Model> = tables.iter().map(|table| Model::new(table)).collect();
        for _ in 0..600_000 * self.times {
            let number = self.random.below(7);
            let filled = self.message(&models[number], &tables[number], START);
            if self.random.once_in(4) {
                self.shown(&models[number], &tables[number], &filled);
            }
            if self.random.once_in(20) {
                let number = self.random.pick(&[7, 8, 255, 256, 65_536, u32::MAX]);
                self.check(Call::WriteBy { number, filled: filled.clone(), output: 99 });
            }
            match self.random.once_in(8) {
                true => self.write(&models[number], &tables[number], filled),
                false => self.write_by(&models[number], number as u32, filled),
            }
        }
    }

    /// Long values, received and set octets and logs up to their limits and over them.
    pub fn long_writings(&mut self) {
        let tables = self.tables.optional.clone();
        for _ in 0..1_000 * self.times {
            let random = &mut self.random;
            let table = match random.below(3) {
                0 => gen_tables::optional(random),
                _ => random.pick(&tables.iter().collect::<Vec<_>>()).clone(),
            };
            let model = Model::new(&table);
            let start = if random.once_in(2) { START } else { gen_tables::start(random) };
            let part = match random.below(3) {
                0 => {
                    let length = random.pick(&[127, 128, 255, 256, 16_383, 16_384, 65_533, 65_534, 65_535]);
                    gen_parts::of_length(random, model.rows(), start, length)
                }
                _ => gen_parts::any(random, model.rows(), start, Size::Long),
            };
            let option = random.once_in(3);
            if let Some(filled) = gen_writing::read(random, &model, part, start, option) {
                let filled = match self.random.once_in(2) {
                    true => self.edited(&model, &table, filled),
                    false => filled,
                };
                self.write(&model, &table, filled);
            }
        }
        for _ in 0..20 * self.times {
            self.limits();
        }
    }

    /// Under P, one number at its limit or over it.
    fn limits(&mut self) {
        let table = self.tables.optional[0].clone();
        let model = Model::new(&table);
        for octets in [65_534, 65_535, 65_536, 131_070] {
            // Received and set octets; a longer lent buffer is fine.
            for (received, set, behind) in
                [(octets, 0, 0), (octets, 2, 0), (0, octets, 0), (0, octets, 9), (7, 0, octets)]
            {
                let mut filled = gen_writing::made_up(&mut self.random, model.rows());
                let length = received.min(octets).min(65_535) as u32;
                filled.places.rows = vec![0; PLACE * model.rows().len()];
                filled.places.received = vec![7; received];
                filled.places.set = Octets { octets: vec![9; set + behind], used: set };
                let source = if received >= set { 1 } else { 2 };
                let longest = if source == 1 { length } else { set.min(65_535) as u32 };
                filled.places.rows[PLACE * 4..].copy_from_slice(&[source, 0, longest, 0x77]);
                self.write(&model, &table, filled.clone());
                self.write_by(&model, 0, filled.clone());
                for length in [0, 1, 2, 255, octets - 1, octets, octets + 1] {
                    let mut places = filled.places.clone();
                    let room = self.random.pick(&[0, 1, length, length]);
                    places.set.octets.resize(places.set.used + room, 5);
                    let order = filled.order.clone();
                    self.check(Call::Set { table: table.clone(), places, order, place: 4, value: vec![3; length] });
                }
                self.check(Call::Show { table: table.clone(), places: filled.places.clone(), place: 4 });
                self.check(Call::Clear { table: table.clone(), places: filled.places, place: 4 });
            }
        }
        // Logs at their limit and over it.
        for used in [MOST_LOG - 1, MOST_LOG, MOST_LOG + 1] {
            let mut filled = gen_writing::made_up(&mut self.random, model.rows());
            filled.kept = Octets { octets: [1, 0x90].repeat(MOST_LOG / 2 + 4), used };
            self.write(&model, &table, filled.clone());
            filled.kept = Octets::all(kept_push(&kept_push(&[], 1, &vec![7; 65_534]), 2, &vec![8; 65_000]));
            self.write_by(&model, 0, filled.clone());
            filled.order = Octets { octets: vec![1; MOST_LOG + 4], used };
            self.write(&model, &table, filled.clone());
            // A place that is written at each entry: more octets than 32 bits count.
            filled.order = Octets { octets: [0, 0x77].repeat(MOST_LOG / 2 + 4), used: used - used % 2 };
            filled.places.received = vec![7; MOST_OCTETS];
            filled.places.rows[..PLACE * 5].copy_from_slice(&[[0; 16].as_slice(), &[1, 0, 65_535, 0x77]].concat());
            self.check(Call::Write { table: table.clone(), filled: filled.clone(), output: 100 });
            filled.order.used = 2 * self.random.below(10);
            self.write_by(&model, 0, filled);
        }
    }
}
