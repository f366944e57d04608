//! The cases of mandatory rows, read and written, by lent tables and by number.

use crate::calls::{Call, Places};
use crate::driver::Driver;
use crate::gen_mandatory;
use crate::gen_tables;
use crate::gen_writing;
use crate::judge_mandatory;
use crate::rows::{MANDATORY_WIDTH, MandatoryRow, VALUE, mandatory_rows_of};

impl Driver {
    /// How a mandatory table is named in a call: by its number, or lent.
    fn read_rows(&mut self, number: Option<u32>, table: &[u32], part: Vec<u8>, lenient: u8) {
        let rows = gen_writing::room(&mut self.random, VALUE * (table.len() / MANDATORY_WIDTH));
        self.check(match number {
            Some(number) => Call::ReadMandatoryBy { number, part, lenient, rows },
            None => Call::ReadMandatory { part, table: table.to_vec(), lenient, rows },
        });
    }

    fn write_rows(&mut self, number: Option<u32>, table: &[u32], places: Places) {
        let used = places.set.lent();
        let filled = judge_mandatory::writing(table, &places.rows, &places.received, used);
        let need = filled.map_or(4, |filled| judge_mandatory::write_rows(&filled).len());
        let output = gen_writing::room(&mut self.random, need);
        self.check(match number {
            Some(number) => Call::WriteMandatoryBy { number, places, output },
            None => Call::WriteMandatory { table: table.to_vec(), places, output },
        });
    }

    /// A part of a table in both modes, cut at every octet and damaged; what reading leaves, written, and made-up rows.
    fn rows_of_table(&mut self, number: Option<u32>, table: &[u32], rows: &[MandatoryRow]) {
        let part = gen_mandatory::part(&mut self.random, rows);
        for end in 0..=part.len().min(120) {
            let lenient = self.random.pick(&[1, 1, 2, 255]);
            self.read_rows(number, table, part[..end].to_vec(), 0);
            self.read_rows(number, table, part[..end].to_vec(), lenient);
        }
        for _ in 0..8 {
            let damaged = gen_mandatory::damaged(&mut self.random, part.clone());
            let lenient = self.random.pick(&[0, 1, 2, 255]);
            self.read_rows(number, table, damaged.clone(), lenient);
            let read = judge_mandatory::read_rows(rows, &damaged, true);
            let mut places = match self.random.once_in(2) && read.refused.is_none() {
                true => Places { rows: read.rows, received: damaged, set: Default::default() },
                false => gen_mandatory::places(&mut self.random, rows),
            };
            if self.random.once_in(3) {
                gen_writing::spoil_places(&mut self.random, &mut places);
            }
            self.write_rows(number, table, places);
        }
    }

    /// Random tables that pass the check, and the same under a damaged table.
    pub fn mandatory_random_tables(&mut self) {
        for _ in 0..6_000 * self.times {
            let table = gen_tables::mandatory(&mut self.random);
            let rows = mandatory_rows_of(&table);
            self.rows_of_table(None, &table, &rows);
            let bad = gen_tables::damaged(&mut self.random, table, MANDATORY_WIDTH);
            let part = gen_mandatory::part(&mut self.random, &rows);
            let places = gen_mandatory::places(&mut self.random, &rows);
            self.read_rows(None, &bad, part, 1);
            self.write_rows(None, &bad, places);
        }
    }

    /// The six real tables, and number 0, which has no mandatory row, by number and lent, and numbers that no table has.
    pub fn mandatory_numbered_tables(&mut self) {
        let tables = self.tables.mandatory.clone();
        for _ in 0..8_000 * self.times {
            let number = self.random.below(7);
            let rows = mandatory_rows_of(&tables[number]);
            let by = if self.random.once_in(4) { None } else { Some(number as u32) };
            self.rows_of_table(by, &tables[number], &rows);
            if self.random.once_in(8) {
                let number = self.random.pick(&[7, 8, 255, 256, 65_537, u32::MAX]);
                let part = gen_mandatory::part(&mut self.random, &rows);
                self.read_rows(Some(number), &tables[1], part, 1);
                let places = gen_mandatory::places(&mut self.random, &rows);
                self.write_rows(Some(number), &tables[1], places);
            }
        }
    }

    /// Values and parts up to their limits and over them.
    pub fn long_mandatory(&mut self) {
        for _ in 0..20 * self.times {
            for length in [126, 127, 128, 254, 255, 256, 65_530, 65_531, 65_532, 65_533, 65_534, 65_535, 65_536] {
                let table = gen_mandatory::short_then_long(&mut self.random);
                let rows = mandatory_rows_of(&table);
                for end in [length - 1, length, length + 1, length + 2] {
                    let part = gen_mandatory::with_long(&mut self.random, &rows, length, end);
                    self.read_rows(None, &table, part.clone(), 0);
                    self.read_rows(None, &table, part.clone(), 1);
                    let read = judge_mandatory::read_rows(&rows, &part, true);
                    if read.refused.is_none() {
                        let places = Places { rows: read.rows, received: part, set: Default::default() };
                        self.write_rows(None, &table, places);
                    }
                }
            }
        }
    }
}
