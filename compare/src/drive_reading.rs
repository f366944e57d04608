//! The cases of reading, by lent tables and by number.

use crate::calls::Call;
use crate::driver::{Driver, every};
use crate::gen_parts::{self, Size};
use crate::gen_tables;
use crate::judge::{Model, Room};
use crate::rows::{PLACE, START, WIDTH};

impl Driver {
    /// A reading by a lent table, in room around what it needs.
    fn read(&mut self, model: &Model, table: &[u32], part: Vec<u8>, start: u8, option: u8) {
        let need = gen_parts::needed(model, model.read(&part, start, option != 0).ok().as_ref());
        let room = gen_parts::room(&mut self.random, need);
        let block = gen_parts::around(&mut self.random, need.kept + need.order);
        let table = table.to_vec();
        let again = (part.clone(), table.clone());
        self.check(Call::Read { part, table, tlve_start: start, option, room });
        let (part, table) = again;
        self.check(Call::ReadBlock { part, table, tlve_start: start, option, rows: room.rows, block });
    }

    /// The same by number.
    fn read_by(&mut self, model: &Model, number: u32, part: Vec<u8>, option: u8) {
        let need = gen_parts::needed(model, model.read(&part, START, option != 0).ok().as_ref());
        let room = gen_parts::room(&mut self.random, need);
        let block = gen_parts::around(&mut self.random, need.kept + need.order);
        self.check(Call::ReadBy { number, part: part.clone(), option, room });
        self.check(Call::ReadBlockBy { number, part, option, rows: room.rows, block });
    }

    /// Every part up to some octets over alphabets that meet every branch under table P.
    pub fn every_part(&mut self) {
        let table = self.tables.optional[0].clone();
        let model = Model::new(&table);
        let all = [0, 1, 2, 5, 0x10, 0x2f, 0x31, 0x52, 0x6f, 0x70, 0x77, 0x7e, 0x90, 0xc1, 0xc3, 0xc9, 0xff];
        let most = [0, 1, 5, 0x10, 0x31, 0x52, 0x70, 0x77, 0x90, 0xc1];
        let some = [0, 1, 0x10, 0x2f, 0x52, 0x77, 0xc1];
        for (alphabet, length) in [(&all[..], 4), (&most[..], 5), (&some[..], 6)] {
            every(alphabet, length, &mut |part| {
                for option in [0, 1] {
                    self.read(&model, &table, part.to_vec(), START, option);
                    self.read_by(&model, 0, part.to_vec(), option);
                }
            });
        }
    }

    /// Tables that pass the check with all their parts, and the same parts under a damaged table.
    pub fn random_tables(&mut self) {
        for _ in 0..60_000 * self.times {
            let table = gen_tables::optional(&mut self.random);
            let model = Model::new(&table);
            let start = gen_tables::start(&mut self.random);
            for _ in 0..20 {
                let part = gen_parts::any(&mut self.random, model.rows(), start, Size::Short);
                let option = self.random.pick(&[0, 0, 1, 2, 255]);
                self.read(&model, &table, part, start, option);
            }
            let bad = gen_tables::damaged(&mut self.random, table, WIDTH);
            let part = match self.random.once_in(8) {
                true => vec![self.random.octet(); 65_534 + self.random.below(4)],
                false => gen_parts::any(&mut self.random, model.rows(), start, Size::Short),
            };
            let rows = self.random.below(PLACE * (1 + bad.len() / WIDTH));
            let room = Room { rows, kept: self.random.below(40), order: self.random.below(40) };
            let block = room.kept + room.order;
            self.check(Call::Read { part: part.clone(), table: bad.clone(), tlve_start: start, option: 0, room });
            self.check(Call::ReadBlock { part, table: bad, tlve_start: start, option: 0, rows, block });
        }
    }

    /// P and the six real tables by number, and numbers that no table has.
    pub fn numbered_tables(&mut self) {
        let tables = self.tables.optional.clone();
        let models: Vec<Model> = tables.iter().map(|table| Model::new(table)).collect();
        for _ in 0..1_000_000 * self.times {
            let number = self.random.below(7);
            let model = &models[number];
            let part = gen_parts::any(&mut self.random, model.rows(), START, Size::Short);
            let option = self.random.pick(&[0, 0, 1, 2, 255]);
            self.read_by(model, number as u32, part.clone(), option);
            if self.random.once_in(20) {
                let number = self.random.pick(&[7, 8, 255, 256, 65_536, u32::MAX]);
                let room = Room { rows: 160, kept: 400, order: 400 };
                self.check(Call::ReadBy { number, part: part.clone(), option, room });
                self.check(Call::ReadBlockBy { number, part, option, rows: 160, block: 800 });
            }
        }
    }

    /// Long values, and parts up to the limit and over it, in room around what they need.
    pub fn long_parts(&mut self) {
        let tables = self.tables.optional.clone();
        for _ in 0..3_000 * self.times {
            let table = match self.random.below(3) {
                0 => gen_tables::optional(&mut self.random),
                _ => self.random.pick(&tables.iter().collect::<Vec<_>>()).clone(),
            };
            let model = Model::new(&table);
            let start = if self.random.once_in(2) { START } else { gen_tables::start(&mut self.random) };
            for _ in 0..4 {
                let random = &mut self.random;
                let part = match random.below(3) {
                    0 => {
                        let length =
                            random.pick(&[126, 127, 128, 129, 254, 255, 256, 257, 16_382, 16_383, 16_384, 16_385]);
                        gen_parts::of_length(random, model.rows(), start, length)
                    }
                    1 if random.once_in(2) => {
                        let length = random.pick(&[65_533, 65_534, 65_535, 65_535, 65_536, 65_537, 131_072]);
                        gen_parts::of_length(random, model.rows(), start, length)
                    }
                    _ => gen_parts::any(random, model.rows(), start, Size::Long),
                };
                let option = random.pick(&[0, 1]);
                self.read(&model, &table, part.clone(), start, option);
                if let Some(number) = tables.iter().position(|numbered| *numbered == table) {
                    self.read_by(&model, number as u32, part, option);
                }
            }
        }
    }

    /// Parts gone through by one element at a time; states that no reading reaches; damaged tables.
    pub fn one_by_one(&mut self) {
        for _ in 0..30_000 * self.times {
            let table = match self.random.once_in(2) {
                true => gen_tables::optional(&mut self.random),
                false => self.tables.optional[self.random.below(7)].clone(),
            };
            let model = Model::new(&table);
            let tlve_start = gen_tables::start(&mut self.random);
            let option = self.random.pick(&[0, 0, 1, 255]);
            let part = gen_parts::any(&mut self.random, model.rows(), tlve_start, Size::Short);
            let mut state = [0; 4];
            loop {
                let call = Call::Next { part: part.clone(), table: table.clone(), tlve_start, option, state };
                let right = self.check(call);
                if right.number != 0 || right.said().is_empty() {
                    break;
                }
                state = right.state;
            }
            for _ in 0..4 {
                let random = &mut self.random;
                let at = random.below(part.len() + 3) as u64;
                let state = [
                    random.pick(&[at, at, at, 65_535, 65_536, 1 << 32, u64::MAX]),
                    random.number() & random.number(),
                    random.pick(&[0, 1, u64::MAX]),
                    random.pick(&[0, 1, 2, 5, 127, 128, 255, 256, 1 << 32, u64::MAX]),
                ];
                let damaged = random.once_in(4);
                let table = if damaged { gen_tables::damaged(random, table.clone(), WIDTH) } else { table.clone() };
                let part = if random.once_in(200) { vec![0x90; 65_534 + random.below(4)] } else { part.clone() };
                self.check(Call::Next { part, table, tlve_start, option, state });
            }
        }
    }
}
