//! The cases of why an element was set aside: each number of a part, and one too many.

use crate::calls::Call;
use crate::driver::{Driver, every};
use crate::gen_parts::{self, Size};
use crate::gen_tables;
use crate::judge::Model;
use crate::rows::{START, WIDTH};

impl Driver {
    /// Every part up to some octets over alphabets that meet every ground under table P, by the lent table and by number.
    pub fn why_every_part(&mut self) {
        let table = self.tables.optional[0].clone();
        let all = [0, 1, 2, 3, 5, 0x10, 0x2f, 0x31, 0x52, 0x77, 0x7e, 0x90, 0xc1, 0xc9];
        let some = [0, 1, 3, 0x10, 0x2f, 0x52, 0xc1, 0xc9];
        for (alphabet, length) in [(&all[..], 4), (&some[..], 5)] {
            every(alphabet, length, &mut |part| {
                for option in [0, 1] {
                    for element in 0..=part.len() {
                        let (part, table) = (part.to_vec(), table.clone());
                        self.check(Call::WhyBy { number: 0, part: part.clone(), option, element });
                        self.check(Call::Why { part, table, tlve_start: START, option, element });
                    }
                }
            });
        }
    }

    /// Random tables, damaged ones, P and the six real tables, numbers that no table has; numbers of elements up to the greatest.
    pub fn why_random(&mut self) {
        let tables = self.tables.optional.clone();
        for _ in 0..60_000 * self.times {
            let numbered = self.random.below(7);
            let lent = self.random.once_in(2);
            let table = if lent { gen_tables::optional(&mut self.random) } else { tables[numbered].clone() };
            let model = Model::new(&table);
            let tlve_start = if lent { gen_tables::start(&mut self.random) } else { START };
            let size = if self.random.once_in(500) { Size::Long } else { Size::Short };
            let part = gen_parts::any(&mut self.random, model.rows(), tlve_start, size);
            let option = self.random.pick(&[0, 0, 1, 2, 255]);
            let count = model.elements(&part, tlve_start, option != 0).map_or(1, |elements| elements.len());
            let numbers: Vec<usize> = match count {
                0..=12 => (0..=count).chain([usize::MAX]).collect(),
                _ => (0..12).map(|_| self.random.below(count + 2)).collect(),
            };
            for element in numbers {
                let part = part.clone();
                if lent {
                    self.check(Call::Why { part, table: table.clone(), tlve_start, option, element });
                } else {
                    self.check(Call::WhyBy { number: numbered as u32, part, option, element });
                }
            }
            if self.random.once_in(10) {
                let number = self.random.pick(&[7, 8, 255, 256, 65_536, u32::MAX]);
                self.check(Call::WhyBy { number, part: part.clone(), option, element: 0 });
                let table = gen_tables::damaged(&mut self.random, table, WIDTH);
                let long = self.random.once_in(8);
                let part = if long { vec![self.random.octet(); 65_534 + self.random.below(4)] } else { part };
                self.check(Call::Why { part, table, tlve_start, option, element: 0 });
            }
        }
    }
}
