//! The cases that are written down, and those of the small pieces: unknown length, table checks, index.

use crate::calls::Call;
use crate::driver::Driver;
use crate::examples;
use crate::gen_tables;
use crate::judge::{self, Room};
use crate::recorded;
use crate::replay;
use crate::rows::{MANDATORY_WIDTH, START, WIDTH};

/// All the room that an example needs, and more.
const PLENTY: Room = Room { rows: 4 * 40, kept: 400, order: 400 };

impl Driver {
    /// The examples, as the documents print them: of the Rust, and then of both sides.
    pub fn examples(&mut self) {
        let table = self.tables.optional[0].clone();
        for (part, option, order, kept) in examples::READ {
            let call = Call::ReadBy { number: 0, part: part.to_vec(), option: u8::from(option), room: PLENTY };
            let right = call.on(&self.right);
            let as_written = right.number == 0
                && *right.said() == [kept.len() as u64, order.len() as u64]
                && right.logs[0][..kept.len()] == *kept
                && right.logs[1][..order.len()] == *order;
            self.expect(as_written, &call);
            self.check(call);
            self.check(Call::Read {
                part: part.to_vec(),
                table: table.clone(),
                tlve_start: START,
                option: u8::from(option),
                room: PLENTY,
            });
        }
        for (part, values) in examples::CUT {
            let call = Call::ReadBy { number: 0, part: part.to_vec(), option: 0, room: PLENTY };
            let right = call.on(&self.right);
            self.expect(right.number == 1 && *right.said() == values, &call);
            self.check(call);
        }
        for (octets, missing) in examples::MISSING {
            let call = Call::Length { octets: octets.to_vec(), tlve_start: 0x78 };
            let right = call.on(&self.right);
            self.expect(right.number == 1 && *right.said() == [missing], &call);
            self.check(call);
        }
    }

    /// The list of the program replay: the Rust still gives each answer, and our side does.
    pub fn recorded(&mut self) {
        let path = concat!(env!("CARGO_MANIFEST_DIR"), "/../crates/replay/stdin");
        let Some(cases) = std::fs::read(path).ok().and_then(|list| replay::cases(&list)) else {
            println!("crates/replay/stdin is not there or not in its format: compare/record writes it");
            self.differences += 1;
            return;
        };
        for case in cases {
            self.expect(case.agrees(&case.call.on(&self.right)), &case.call);
            self.check(case.call);
        }
    }

    /// The list beside it, of writings, edits, mandatory rows and findings.
    pub fn recorded_writings(&mut self) {
        let path = concat!(env!("CARGO_MANIFEST_DIR"), "/recorded-writing.bin");
        let Some(cases) = std::fs::read(path).ok().and_then(|list| recorded::cases(&list)) else {
            println!("recorded-writing.bin is not there or not in its format: compare/record writes it");
            self.differences += 1;
            return;
        };
        for step in cases.into_iter().flatten() {
            self.expect(step.expected.agrees(&step.call.on(&self.right)), &step.call);
            self.check(step.call);
        }
    }

    /// All first octets, all start numbers, all short tails; then lengths around each boundary.
    pub fn lengths(&mut self) {
        let tails: [&[u8]; 15] = [
            &[],
            &[0],
            &[1],
            &[2],
            &[255],
            &[0, 0],
            &[0, 1],
            &[1, 0],
            &[2, 9],
            &[255, 255],
            &[0, 1, 9],
            &[0, 2, 9],
            &[2, 9, 9],
            &[1, 0, 9, 9],
            &[0, 2, 9, 9],
        ];
        self.check(Call::Length { octets: vec![], tlve_start: START });
        for first in 0..=255 {
            for start in 0..=255 {
                for tail in tails {
                    self.check(Call::Length { octets: [&[first], tail].concat(), tlve_start: start });
                }
            }
        }
        for _ in 0..80_000 * self.times {
            let random = &mut self.random;
            let length = random.pick(&[0usize, 1, 127, 128, 254, 255, 256, 16_383, 16_384, 65_534, 65_535]);
            let start = gen_tables::start(random);
            let first = random.octet();
            let field =
                [&[first], &(length as u16).to_be_bytes()[usize::from(length < 256 && random.once_in(2))..]].concat();
            let count = (length + random.below(5)).saturating_sub(2);
            let octets = [field, vec![random.octet(); count]].concat();
            self.check(Call::Length { octets, tlve_start: start });
        }
    }

    /// Both table checks, on tables that pass and on damaged ones.
    pub fn checks(&mut self) {
        for table in self.tables.optional.clone().iter() {
            self.check(Call::CheckTable { table: table.clone() });
        }
        for _ in 0..150_000 * self.times {
            let random = &mut self.random;
            let table = gen_tables::optional(random);
            let bad = gen_tables::damaged(random, table.clone(), WIDTH);
            let mandatory = gen_tables::mandatory(random);
            let bad_mandatory = gen_tables::damaged(random, mandatory.clone(), MANDATORY_WIDTH);
            let (many, many_mandatory) = gen_tables::too_many(random);
            self.check(Call::CheckTable { table });
            self.check(Call::CheckTable { table: bad });
            self.check(Call::CheckMandatory { table: mandatory });
            self.check(Call::CheckMandatory { table: bad_mandatory });
            if self.random.once_in(16) {
                self.check(Call::CheckTable { table: many });
                self.check(Call::CheckMandatory { table: many_mandatory });
            }
        }
    }

    /// The index of tables that pass the check, and each place by it; places by an index of any octets.
    pub fn indexes(&mut self) {
        for k in 0..1_000 * self.times {
            let table = match self.tables.optional.get(k) {
                Some(table) => table.clone(),
                None => gen_tables::optional(&mut self.random),
            };
            let made = judge::index_of(&table);
            let mut any = [0; 256];
            any.fill_with(|| self.random.octet());
            self.check(Call::Index { table });
            for iei in 0..=255 {
                self.check(Call::PlaceOf { index: made, iei });
                self.check(Call::PlaceOf { index: any, iei });
            }
        }
    }
}
