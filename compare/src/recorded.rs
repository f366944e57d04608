//! The recorded list of writings, edits, mandatory rows and findings, compare/recorded-writing.bin: written and read back.
//!
//! Octets without separators, as in crates/replay/README.md: numbers are big-endian; a *string* is u16 count and so many
//! octets, then u16 times and u8 octet, which follows so many times. Further:
//!
//! - *numbers*: u16 count, then so many u32.
//! - *table*: u8 number of the table where the call is by number, else 255; then the lent table as numbers, none by number.
//! - *used*: a string, all lent octets; then u32, how many of them are used.
//! - *places*: numbers, the lent rows; a string, the received octets; used, the set octets.
//! - *answer*: u8 document 01's number; u8 count, then so many values of u64.
//!
//! The list: u32 number of cases, then the cases. A case begins with u8, its kind:
//!
//! | Kind | Handed to the call | Recorded |
//! |---|---|---|
//! | 1 writing | table, places, used kept log, used order log, u32 lent octets of output | answer; string, the octets written |
//! | 2 setting, by the order log of the writing, then writing | table (always lent), places, u32 place, string value | answer; numbers, the rows after it; string, the set octets after it |
//! | 3 clearing, then writing | table (always lent), places, u32 place | answer; numbers, the rows after it |
//! | 4 mandatory reading | table, u8 lenient, u16 lent numbers of rows, string part | answer; numbers, the rows that were written; numbers, the notes |
//! | 5 mandatory writing | table, places, u32 lent octets of output | answer; string, the octets written |
//! | 6 findings | table (always lent), used kept log, used order log, u16 lent numbers of findings | answer; numbers, the findings |
//!
//! Behind 2 and 3 follow, in the same case: used kept log, used order log, u32 lent octets of output, answer and string of the
//! writing of what the edit left, by the same table; after a setting its first value says how many set octets are used, after
//! a refusal as many as before. On a refusal what was written is empty, but for the notes of 6 and 7. Lent memory beyond what
//! is recorded has not changed. Before a call, rows, notes, findings and output that are only written to hold anything.
//!
//! The programs of the gate have the same cases, a list for each kind but 3; the writing behind a setting is a case of kind 1 there,
//! and a setting has the order log that it goes by, used, behind its value.

use crate::calls::{Call, Filled, LEFT, Octets, Outcome, Places};

/// In place of a table number where the table is lent.
const LENT: u8 = 255;

/// What a call answered and left: the number, its values, and the beginnings of lent memory.
pub struct Expected {
    number: u32,
    values: Vec<u64>,
    rows: Vec<u32>,
    notes: Vec<u32>,
    octets: Vec<u8>,
}

impl Expected {
    pub fn agrees(&self, outcome: &Outcome) -> bool {
        outcome.number == self.number
            && outcome.values[0] == self.values.len() as u64
            && outcome.said() == self.values
            && outcome.values[1 + self.values.len()..].iter().all(|&value| value == LEFT)
            && outcome.rows.starts_with(&self.rows)
            && outcome.notes.starts_with(&self.notes)
            && outcome.logs[0].starts_with(&self.octets)
    }
}

/// A call and what it answered.
pub struct Step {
    pub call: Call,
    pub expected: Expected,
}

/// The list as it is written.
#[derive(Default)]
pub struct Writer {
    cases: u32,
    list: Vec<u8>,
}

impl Writer {
    pub fn cases(&self) -> u32 {
        self.cases
    }

    pub fn list(&self) -> Vec<u8> {
        [&self.cases.to_be_bytes(), &self.list[..]].concat()
    }

    /// A case: one call with its outcome, or an edit and the writing behind it.
    pub fn case(&mut self, steps: &[(&Call, &Outcome)]) {
        self.cases += 1;
        let (first, outcome) = steps[0];
        match first {
            Call::Write { .. } | Call::WriteBy { .. } => self.writing(first, outcome),
            Call::Set { table, places, place, value, .. } => {
                self.edit(2, table, places, *place);
                self.string(value);
                self.answer(outcome);
                self.numbers(&outcome.rows);
                self.string(&outcome.logs[0]);
                self.behind(steps[1]);
            }
            Call::Clear { table, places, place } => {
                self.edit(3, table, places, *place);
                self.answer(outcome);
                self.numbers(&outcome.rows);
                self.behind(steps[1]);
            }
            Call::ReadMandatory { part, table, lenient, rows } => {
                self.reading(None, table, *lenient, *rows, part, outcome);
            }
            Call::ReadMandatoryBy { number, part, lenient, rows } => {
                self.reading(Some(*number), &[], *lenient, *rows, part, outcome);
            }
            Call::WriteMandatory { table, places, output } => {
                self.writing_rows(None, table, places, *output, outcome);
            }
            Call::WriteMandatoryBy { number, places, output } => {
                self.writing_rows(Some(*number), &[], places, *output, outcome);
            }
            Call::Findings { table, kept, order, findings } => {
                self.list.push(6);
                self.table(None, table);
                self.used(kept);
                self.used(order);
                self.list.extend((*findings as u16).to_be_bytes());
                self.answer(outcome);
                let count = if outcome.number == 0 { 2 * outcome.said()[0] as usize } else { 0 };
                self.numbers(&outcome.notes[..count]);
            }
            _ => unreachable!("readings have a list of their own"),
        }
    }

    /// A case of settings alone: a setting with the order log that it goes by, and no writing behind it.
    pub fn setting(&mut self, call: &Call, outcome: &Outcome) {
        let Call::Set { table, places, order, place, value } = call else { unreachable!("a setting") };
        self.cases += 1;
        self.edit(2, table, places, *place);
        self.string(value);
        self.used(order);
        self.answer(outcome);
        self.numbers(&outcome.rows);
        self.string(&outcome.logs[0]);
    }

    fn writing(&mut self, call: &Call, outcome: &Outcome) {
        let (number, table, filled, output) = match call {
            Call::Write { table, filled, output } => (None, &table[..], filled, output),
            Call::WriteBy { number, filled, output } => (Some(*number), &[][..], filled, output),
            _ => unreachable!("a writing"),
        };
        self.list.push(1);
        self.table(number, table);
        self.places(&filled.places);
        self.logs(filled, *output, outcome);
    }

    /// The writing behind an edit: what the edit did not settle.
    fn behind(&mut self, (call, outcome): (&Call, &Outcome)) {
        let Call::Write { filled, output, .. } = call else { unreachable!("a writing by the lent table of the edit") };
        self.logs(filled, *output, outcome);
    }

    fn logs(&mut self, filled: &Filled, output: usize, outcome: &Outcome) {
        self.used(&filled.kept);
        self.used(&filled.order);
        self.count(output);
        self.written(outcome);
    }

    fn edit(&mut self, kind: u8, table: &[u32], places: &Places, place: usize) {
        self.list.push(kind);
        self.table(None, table);
        self.places(places);
        self.count(place);
    }

    fn reading(
        &mut self,
        number: Option<u32>,
        table: &[u32],
        lenient: u8,
        rows: usize,
        part: &[u8],
        outcome: &Outcome,
    ) {
        self.list.push(4);
        self.table(number, table);
        self.list.push(lenient);
        self.list.extend((rows as u16).to_be_bytes());
        self.string(part);
        self.answer(outcome);
        // The rows that were written begin with source 1; lent memory holds no such number before.
        let written = outcome.rows.chunks(3).take_while(|row| row[0] == 1).count();
        self.numbers(&outcome.rows[..3 * written]);
        let noted = outcome.said().get(1).map_or(0, |&notes| 2 * notes as usize);
        self.numbers(&outcome.notes[..noted]);
    }

    fn writing_rows(&mut self, number: Option<u32>, table: &[u32], places: &Places, output: usize, outcome: &Outcome) {
        self.list.push(5);
        self.table(number, table);
        self.places(places);
        self.count(output);
        self.written(outcome);
    }

    fn table(&mut self, number: Option<u32>, table: &[u32]) {
        self.list.push(number.map_or(LENT, |number| number as u8));
        self.numbers(table);
    }

    fn places(&mut self, places: &Places) {
        self.numbers(&places.rows);
        self.string(&places.received);
        self.used(&places.set);
    }

    fn written(&mut self, outcome: &Outcome) {
        self.answer(outcome);
        let count = if outcome.number == 0 { outcome.said()[0] as usize } else { 0 };
        self.string(&outcome.logs[0][..count]);
    }

    fn answer(&mut self, outcome: &Outcome) {
        self.list.extend([outcome.number as u8, outcome.said().len() as u8]);
        for value in outcome.said() {
            self.list.extend(value.to_be_bytes());
        }
    }

    fn used(&mut self, octets: &Octets) {
        self.string(&octets.octets);
        self.count(octets.used);
    }

    fn numbers(&mut self, numbers: &[u32]) {
        self.list.extend((numbers.len() as u16).to_be_bytes());
        for number in numbers {
            self.list.extend(number.to_be_bytes());
        }
    }

    fn count(&mut self, count: usize) {
        self.list.extend((count as u32).to_be_bytes());
    }

    fn string(&mut self, octets: &[u8]) {
        self.list.extend(string(octets));
    }
}

/// Octets: their head, then how often one more octet follows it, and that octet.
pub fn string(octets: &[u8]) -> Vec<u8> {
    let last = octets.last().copied().unwrap_or(0);
    let run = octets.iter().rev().take_while(|&&octet| octet == last).count();
    let pad = if run < 8 { 0 } else { run.min(65_535) };
    let head = &octets[..octets.len() - pad];
    let front = (head.len() as u16).to_be_bytes();
    let back = (pad as u16).to_be_bytes();
    [&front, head, &back, &[if pad > 0 { last } else { 0 }]].concat()
}

/// A list that is read back, from its front.
pub struct Reader<'a>(pub &'a [u8]);

impl Reader<'_> {
    pub fn number(&mut self, octets: usize) -> Option<u64> {
        let (number, rest) = self.0.split_at_checked(octets)?;
        self.0 = rest;
        Some(number.iter().fold(0, |number, &octet| 256 * number + u64::from(octet)))
    }

    pub fn count(&mut self, octets: usize) -> Option<usize> {
        self.number(octets).map(|number| number as usize)
    }

    pub fn string(&mut self) -> Option<Vec<u8>> {
        let count = self.count(2)?;
        let (head, rest) = self.0.split_at_checked(count)?;
        self.0 = rest;
        let (times, octet) = (self.count(2)?, self.number(1)? as u8);
        Some([head, &vec![octet; times]].concat())
    }

    pub fn numbers(&mut self) -> Option<Vec<u32>> {
        let count = self.count(2)?;
        (0..count).map(|_| self.number(4).map(|number| number as u32)).collect()
    }

    fn used(&mut self) -> Option<Octets> {
        Some(Octets { octets: self.string()?, used: self.count(4)? })
    }

    fn places(&mut self) -> Option<Places> {
        Some(Places { rows: self.numbers()?, received: self.string()?, set: self.used()? })
    }

    fn table(&mut self) -> Option<(Option<u32>, Vec<u32>)> {
        let number = self.number(1)? as u32;
        Some(((number != u32::from(LENT)).then_some(number), self.numbers()?))
    }

    fn answer(&mut self) -> Option<Expected> {
        let number = self.number(1)? as u32;
        let count = self.count(1)?;
        let values = (0..count).map(|_| self.number(8)).collect::<Option<Vec<_>>>()?;
        Some(Expected { number, values, rows: vec![], notes: vec![], octets: vec![] })
    }

    fn written(&mut self) -> Option<Expected> {
        let expected = self.answer()?;
        Some(Expected { octets: self.string()?, ..expected })
    }

    fn writing(&mut self, number: Option<u32>, table: Vec<u32>, places: Places) -> Option<Step> {
        let filled = Filled { places, kept: self.used()?, order: self.used()? };
        let output = self.count(4)?;
        let call = match number {
            Some(number) => Call::WriteBy { number, filled, output },
            None => Call::Write { table, filled, output },
        };
        Some(Step { call, expected: self.written()? })
    }

    fn edit(&mut self, kind: u64, table: Vec<u32>) -> Option<Vec<Step>> {
        let places = self.places()?;
        let place = self.count(4)?;
        let value = if kind == 2 { Some(self.string()?) } else { None };
        let answer = self.answer()?;
        let rows = self.numbers()?;
        let octets = if kind == 2 { self.string()? } else { vec![] };
        let expected = Expected { rows: rows.clone(), octets: octets.clone(), ..answer };
        let mut after = Places { rows, ..places.clone() };
        if kind == 2 {
            let used = if expected.number == 0 { *expected.values.first()? as usize } else { places.set.used };
            after.set = Octets { octets, used };
        }
        let behind = self.writing(None, table.clone(), after)?;
        let Call::Write { filled: Filled { order, .. }, .. } = &behind.call else { unreachable!("a writing by a lent table") };
        let call = match value {
            Some(value) => Call::Set { table: table.clone(), places, order: order.clone(), place, value },
            None => Call::Clear { table: table.clone(), places, place },
        };
        Some(vec![Step { call, expected }, behind])
    }

    fn case(&mut self) -> Option<Vec<Step>> {
        let kind = self.number(1)?;
        let (number, table) = self.table()?;
        let step = match kind {
            1 => {
                let places = self.places()?;
                self.writing(number, table, places)?
            }
            2 | 3 => return self.edit(kind, table),
            4 => {
                let (lenient, rows, part) = (self.number(1)? as u8, self.count(2)?, self.string()?);
                let call = match number {
                    Some(number) => Call::ReadMandatoryBy { number, part, lenient, rows },
                    None => Call::ReadMandatory { part, table, lenient, rows },
                };
                let answer = self.answer()?;
                Step { call, expected: Expected { rows: self.numbers()?, notes: self.numbers()?, ..answer } }
            }
            5 => {
                let (places, output) = (self.places()?, self.count(4)?);
                let call = match number {
                    Some(number) => Call::WriteMandatoryBy { number, places, output },
                    None => Call::WriteMandatory { table, places, output },
                };
                Step { call, expected: self.written()? }
            }
            6 => {
                let (kept, order, findings) = (self.used()?, self.used()?, self.count(2)?);
                let answer = self.answer()?;
                let call = Call::Findings { table, kept, order, findings };
                Step { call, expected: Expected { notes: self.numbers()?, ..answer } }
            }
            _ => return None,
        };
        Some(vec![step])
    }
}

/// The cases of a list; none where the list is not in its format.
pub fn cases(list: &[u8]) -> Option<Vec<Vec<Step>>> {
    let mut list = Reader(list);
    let count = list.number(4)?;
    let cases = (0..count).map(|_| list.case()).collect::<Option<Vec<_>>>()?;
    list.0.is_empty().then_some(cases)
}
