//! The cases of findings.

use crate::calls::{Call, Octets};
use crate::driver::{Driver, every};
use crate::gen_logs;
use crate::gen_parts::{self, Size};
use crate::gen_tables;
use crate::gen_writing;
use crate::judge::{MOST_LOG, Model};
use crate::rows::{START, WIDTH};

impl Driver {
    /// Findings in room around what they need.
    fn find(&mut self, model: &Model, table: &[u32], kept: Octets, order: Octets) {
        let used = |octets: &Octets| octets.octets.get(..octets.used).unwrap_or(&[]).to_vec();
        let need = 2 * model.findings(&used(&kept), &used(&order)).len();
        let findings = gen_writing::room(&mut self.random, need);
        self.check(Call::Findings { table: table.to_vec(), kept, order, findings });
    }

    /// Every order log up to some octets over an alphabet that meets every branch under table P, with no to three kept
    /// elements, with a place and without.
    pub fn findings_every_order(&mut self) {
        let table = self.tables.optional[0].clone();
        let model = Model::new(&table);
        let kept = [vec![], vec![1, 0x90], vec![1, 0xc3], vec![2, 0x10, 0, 1, 0xc3, 1, 0x90]];
        let alphabet = [0, 1, 2, 3, 4, 5, 0x10, 0x31, 0xc0, 0xc5];
        every(&alphabet, 5, &mut |order| {
            let kept = Octets::all(kept[self.random.below(4)].clone());
            self.find(&model, &table, kept, Octets::all(order.to_vec()));
        });
    }

    /// Logs as reading leaves them, made up, and malformed, under random tables, damaged ones, and the numbered ones.
    pub fn findings_random(&mut self) {
        let tables = self.tables.optional.clone();
        for _ in 0..15_000 * self.times {
            let table = match self.random.once_in(2) {
                true => gen_tables::optional(&mut self.random),
                false => tables[self.random.below(7)].clone(),
            };
            let model = Model::new(&table);
            for _ in 0..16 {
                let random = &mut self.random;
                let read = match random.once_in(3) {
                    true => {
                        let part = gen_parts::any(random, model.rows(), START, Size::Short);
                        let option = random.once_in(2);
                        gen_writing::read(random, &model, part, START, option)
                    }
                    false => None,
                };
                let mut filled = read.unwrap_or_else(|| gen_writing::made_up(random, model.rows()));
                if random.once_in(6) {
                    filled = gen_writing::spoiled_logs(random, filled);
                }
                self.find(&model, &table, filled.kept, filled.order);
            }
            let bad = gen_tables::damaged(&mut self.random, table, WIDTH);
            let filled = gen_writing::made_up(&mut self.random, model.rows());
            let findings = self.random.below(12);
            self.check(Call::Findings { table: bad, kept: filled.kept, order: filled.order, findings });
        }
    }

    /// Long logs, up to their limit and over it.
    pub fn findings_long(&mut self) {
        let table = self.tables.optional[0].clone();
        let model = Model::new(&table);
        for _ in 0..4 * self.times {
            let used = 2_000 + self.random.below(8);
            let order = gen_logs::long_order(&mut self.random, used);
            let kept = [2, 0x10, 0, 1, 0xc3, 1, 0x90].repeat(self.random.pick(&[0, 1, 300]));
            self.find(&model, &table, Octets::all(kept), Octets::all(order));
            for used in [MOST_LOG - 1, MOST_LOG, MOST_LOG + 1] {
                let entry = self.random.pick(&[1, 2, 4]);
                let order = Octets { octets: vec![entry; MOST_LOG + 3], used };
                self.find(&model, &table, Octets::all(vec![1, 0xc3]), order);
                let order = [&[0, 0x77][..], &[0, 0x90].repeat(9), &[0, 0x77].repeat(MOST_LOG / 2)].concat();
                let order = Octets { octets: order, used: used - used % 2 };
                self.find(&model, &table, Octets::all(vec![1, 0xc3]), order);
                let kept = Octets { octets: [1, 0x90].repeat(MOST_LOG / 2 + 2), used };
                self.find(&model, &table, kept, Octets::all(vec![1, 3, 0, 0x77, 0, 0x10, 2]));
            }
        }
    }
}
