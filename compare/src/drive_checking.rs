//! The cases of checking a part, by lent tables and by number: the judge's answer alone, as the Rust has no such call.

use crate::calls::Call;
use crate::driver::{Driver, every};
use crate::gen_parts::{self, Size};
use crate::gen_tables;
use crate::judge::Model;
use crate::random::Random;
use crate::rows::{Form, Row, START, WIDTH};

/// A part of elements in table order under first IEIs, with values around the least and the greatest length of their rows.
fn orderly(random: &mut Random, rows: &[Row]) -> Vec<u8> {
    let mut part = Vec::new();
    for row in rows {
        if random.once_in(2) {
            continue;
        }
        let header = match row.form {
            Form::Half | Form::Fixed(_) => 1,
            Form::Tlv => 2,
            Form::TlvE => 3,
        };
        let most = if row.form == Form::Tlv { 255 } else { 65_535 };
        let near = random.pick(&[row.least, row.least, row.greatest, row.greatest, row.greatest + 1]);
        let length = near.saturating_sub(header).min(most).min(300);
        let value: Vec<u8> = (0..length).map(|_| random.octet()).collect();
        match row.form {
            Form::Half => part.push(row.ieis[0] | random.octet() % 16),
            Form::Fixed(size) => {
                part.push(row.ieis[0]);
                part.extend((0..size).map(|_| random.octet()));
            }
            Form::Tlv => {
                part.extend([row.ieis[0], length as u8]);
                part.extend(value);
            }
            Form::TlvE => {
                part.extend([row.ieis[0], (length / 256) as u8, (length % 256) as u8]);
                part.extend(value);
            }
        }
    }
    part
}

impl Driver {
    /// Every part up to some octets over alphabets that meet every branch under table P.
    pub fn checking_every_part(&mut self) {
        let table = self.tables.optional[0].clone();
        let mut narrow = table.clone();
        for (row, greatest) in narrow.chunks_exact_mut(WIDTH).zip([1, 3, 3, 2, 4]) {
            row[8] = greatest;
        }
        let all = [0, 1, 2, 5, 0x10, 0x2f, 0x31, 0x52, 0x6f, 0x70, 0x77, 0x7e, 0x90, 0xc1, 0xc3, 0xc9, 0xff];
        let some = [0, 1, 0x10, 0x2f, 0x52, 0x77, 0xc1];
        for (alphabet, length) in [(&all[..], 4), (&some[..], 6)] {
            every(alphabet, length, &mut |part| {
                self.check(Call::CheckPartBy { number: 0, part: part.to_vec() });
                for table in [&table, &narrow] {
                    self.check(Call::CheckPart { part: part.to_vec(), table: table.clone(), tlve_start: START });
                }
            });
        }
    }

    /// Random tables with greatest lengths of their own, the six real ones, and damaged ones.
    pub fn checking_random_tables(&mut self) {
        for _ in 0..60_000 * self.times {
            let number = self.random.below(7);
            let lent = self.random.once_in(2);
            let mut table = match lent {
                true => gen_tables::optional(&mut self.random),
                false => self.tables.optional[number].clone(),
            };
            if lent {
                gen_tables::greatest(&mut self.random, &mut table);
            }
            let model = Model::new(&table);
            let tlve_start = if lent { gen_tables::start(&mut self.random) } else { START };
            for _ in 0..12 {
                let mut part = match self.random.once_in(3) {
                    true => gen_parts::any(&mut self.random, model.rows(), tlve_start, Size::Short),
                    false => orderly(&mut self.random, model.rows()),
                };
                if self.random.once_in(6) {
                    part.push(self.random.octet());
                }
                if !lent {
                    self.check(Call::CheckPartBy { number: number as u32, part: part.clone() });
                }
                self.check(Call::CheckPart { part, table: table.clone(), tlve_start });
            }
            let random = &mut self.random;
            let part = match random.once_in(40) {
                true => vec![0x90; 65_534 + random.below(4)],
                false => orderly(random, model.rows()),
            };
            let number = random.pick(&[7, 8, 255, 256, 65_536, u32::MAX]);
            let bad = gen_tables::damaged(random, table, WIDTH);
            self.check(Call::CheckPartBy { number, part: part.clone() });
            self.check(Call::CheckPart { part, table: bad, tlve_start });
        }
    }
}
