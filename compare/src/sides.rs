//! The two sides of a comparison: document 01's checks with a core behind them, and libnas.a.

use std::cell::RefCell;
use std::rc::Rc;

use crate::cores::{ByModel, Core};
use crate::interface::{
    Block, Edited, Editing, Findings, Lent, Mandatory, Message, Notes, Side, State, Used, Values, Writing,
};
use crate::judge::{self, Answer, Log, Model, Room, answer};
use crate::judge_findings;
use crate::judge_why;
use crate::judge_mandatory;
use crate::judge_writing::{self, Edit};
use crate::rows::{PLACE, START, Tables};

/// The numbers of a table that passes the check, what a core makes of them, and what the judge does.
struct Made<C: Core> {
    numbers: Vec<u32>,
    table: C::Table,
    model: Rc<Model>,
}

impl<C: Core> Made<C> {
    fn new(numbers: &[u32]) -> Self {
        Self { numbers: numbers.to_vec(), table: C::table(numbers), model: Rc::new(Model::new(numbers)) }
    }
}

/// A side that is made of document 01's checks and a core. The numbered tables are kept, and the last other one, as it is read
/// by many times.
pub struct Judged<C: Core> {
    numbered: Vec<Rc<Made<C>>>,
    mandatory: Vec<Vec<u32>>,
    last: RefCell<Option<Rc<Made<C>>>>,
}

impl<C: Core> Judged<C> {
    pub fn new(tables: &Tables) -> Self {
        Self {
            numbered: tables.optional.iter().map(|table| Rc::new(Made::new(table))).collect(),
            mandatory: tables.mandatory.clone(),
            last: RefCell::new(None),
        }
    }

    fn made(&self, table: &[u32]) -> Rc<Made<C>> {
        let mut last = self.last.borrow_mut();
        let kept = self.numbered.iter().chain(&*last).find(|made| made.numbers == table).cloned();
        kept.unwrap_or_else(|| last.insert(Rc::new(Made::new(table))).clone())
    }

    /// The numbers of a table that has a number, or refusal 5.
    fn numbers(&self, number: u32) -> Result<&[u32], Answer> {
        self.numbered.get(number as usize).map(|made| &made.numbers[..]).ok_or_else(|| answer(5, &[]))
    }
}

/// More octets than any output has that is lent here. More are not written, but counted by the judge.
const MOST_WRITTEN: u64 = 1 << 24;

fn give(said: Answer, values: &mut Values) -> u32 {
    values[0] = said.values.len() as u64;
    values[1..=said.values.len()].copy_from_slice(&said.values);
    said.number
}

/// A pushed log: the octets behind the used ones, and how many are used.
fn pushed(log: &mut [u8], after: Result<Vec<u8>, Answer>, values: &mut Values) -> u32 {
    let said = after.map_or_else(
        |refusal| refusal,
        |after| {
            log[..after.len()].copy_from_slice(&after);
            answer(0, &[after.len()])
        },
    );
    give(said, values)
}

fn asked(said: Result<Vec<usize>, Answer>, values: &mut Values) -> u32 {
    give(said.map_or_else(|refusal| refusal, |said| answer(0, &said)), values)
}

impl<C: Core> Side for Judged<C> {
    fn name(&self) -> &'static str {
        C::NAME
    }

    fn generic_ie_length(&self, octets: &[u8], tlve_start: u8, values: &mut Values) -> u32 {
        let cut = || answer(1, &[judge::missing(octets, tlve_start)]);
        give(C::length(octets, tlve_start).map_or_else(cut, |length| answer(0, &[length])), values)
    }

    fn check_table(&self, table: &[u32], values: &mut Values) -> u32 {
        give(judge::first_bad(table).map_or(answer(0, &[]), |row| answer(4, &[row])), values)
    }

    fn check_mandatory_table(&self, table: &[u32], values: &mut Values) -> u32 {
        give(judge::first_bad_mandatory(table).map_or(answer(0, &[]), |row| answer(4, &[row])), values)
    }

    fn iei_index(&self, table: &[u32], index: &mut [u8; 256]) -> u32 {
        *index = C::index(&self.made(table).table);
        0
    }

    fn place_of(&self, index: &[u8; 256], iei: u8, values: &mut Values) -> u32 {
        asked(Ok(C::place_of(index, iei).into_iter().collect()), values)
    }

    fn kept_push(&self, log: &mut [u8], used: usize, iei: u8, data: &[u8], values: &mut Values) -> u32 {
        let size = 1 + data.len();
        let after = judge::log_to_push(Log::Kept, log, used, size, Some(judge::kept_size(size)))
            .map(|content| C::kept_push(content, iei, data));
        pushed(log, after, values)
    }

    fn kept_count(&self, log: &[u8], used: usize, values: &mut Values) -> u32 {
        asked(judge::used_log(Log::Kept, log, used).map(|content| vec![C::kept_count(content)]), values)
    }

    fn kept_get(&self, log: &[u8], used: usize, k: usize, values: &mut Values) -> u32 {
        let said = judge::used_log(Log::Kept, log, used)
            .map(|content| C::kept_get(content, k).map_or(vec![], |(start, length)| vec![start, length]));
        asked(said, values)
    }

    fn kept_clear(&self, log: &[u8], used: usize, values: &mut Values) -> u32 {
        // Clearing checks nothing: a used count above its buffer is no refusal.
        asked(Ok(vec![C::kept_clear(&log[..used.min(log.len())])]), values)
    }

    fn order_push(&self, log: &mut [u8], used: usize, entry: u8, iei: u8, values: &mut Values) -> u32 {
        let size = match entry {
            0 => Some(2),
            1..=4 => Some(1),
            _ => None,
        };
        let after =
            judge::log_to_push(Log::Order, log, used, 0, size).map(|content| C::order_push(content, entry, iei));
        pushed(log, after, values)
    }

    fn order_get(&self, log: &[u8], used: usize, k: usize, values: &mut Values) -> u32 {
        let said = judge::used_log(Log::Order, log, used).map(|content| {
            let entry = C::order_get(content, k).unwrap_or_default();
            entry.into_iter().map(usize::from).collect()
        });
        asked(said, values)
    }

    fn read(&self, part: &[u8], table: &[u32], tlve_start: u8, option: u8, lent: Lent<'_>, values: &mut Values) -> u32 {
        let room = Room { rows: lent.rows.len(), kept: lent.kept.len(), order: lent.order.len() };
        let read =
            judge::reading(table, part, room, || C::read(&self.made(table).table, part, tlve_start, option != 0));
        let said = match read {
            Ok(reading) => {
                lent.rows[..reading.rows.len()].copy_from_slice(&reading.rows);
                lent.kept[..reading.kept.len()].copy_from_slice(&reading.kept);
                lent.order[..reading.order.len()].copy_from_slice(&reading.order);
                answer(0, &[reading.kept.len(), reading.order.len()])
            }
            Err(refusal) => refusal,
        };
        give(said, values)
    }

    fn read_by(&self, number: u32, part: &[u8], option: u8, lent: Lent<'_>, values: &mut Values) -> u32 {
        match self.numbers(number) {
            Ok(table) => self.read(part, table, START, option, lent, values),
            Err(refusal) => give(refusal, values),
        }
    }

    fn read_block(
        &self,
        part: &[u8],
        table: &[u32],
        tlve_start: u8,
        option: u8,
        lent: Block<'_>,
        values: &mut Values,
    ) -> u32 {
        let read = judge::reading_block(table, part, lent.rows.len(), lent.block.len(), || {
            C::read(&self.made(table).table, part, tlve_start, option != 0)
        });
        let said = match read {
            Ok(reading) => {
                let (kept, order) = (reading.kept.len(), reading.order.len());
                lent.rows[..reading.rows.len()].copy_from_slice(&reading.rows);
                lent.block[..kept].copy_from_slice(&reading.kept);
                lent.block[kept..kept + order].copy_from_slice(&reading.order);
                answer(0, &[kept, order])
            }
            Err(refusal) => refusal,
        };
        give(said, values)
    }

    fn read_block_by(&self, number: u32, part: &[u8], option: u8, lent: Block<'_>, values: &mut Values) -> u32 {
        match self.numbers(number) {
            Ok(table) => self.read_block(part, table, START, option, lent, values),
            Err(refusal) => give(refusal, values),
        }
    }

    fn check_part(&self, part: &[u8], table: &[u32], tlve_start: u8, values: &mut Values) -> u32 {
        asked(judge::checking(table, part, tlve_start).map(|()| vec![]), values)
    }

    fn check_part_by(&self, number: u32, part: &[u8], values: &mut Values) -> u32 {
        match self.numbers(number) {
            Ok(table) => self.check_part(part, table, START, values),
            Err(refusal) => give(refusal, values),
        }
    }

    fn next(
        &self,
        part: &[u8],
        table: &[u32],
        tlve_start: u8,
        option: u8,
        state: &mut State,
        values: &mut Values,
    ) -> u32 {
        let [at, low, high, highest] = *state;
        let met = u128::from(high) << 64 | u128::from(low);
        let bits = std::array::from_fn(|place| met >> place & 1 == 1);
        let mut after = judge::State { at: at as usize, met: bits, highest: highest as usize };
        let said = judge::next(table, part, || self.made(table).model.next(part, tlve_start, option != 0, &mut after));
        if said.is_ok() {
            let met = (0..128).filter(|&place| after.met[place]).fold(0u128, |met, place| met | 1 << place);
            *state = [after.at as u64, met as u64, (met >> 64) as u64, after.highest as u64];
        }
        asked(said, values)
    }

    fn why(
        &self,
        part: &[u8],
        table: &[u32],
        tlve_start: u8,
        option: u8,
        element: usize,
        values: &mut Values,
    ) -> u32 {
        asked(judge_why::why(table, part, tlve_start, option != 0, element), values)
    }

    fn why_by(&self, number: u32, part: &[u8], option: u8, element: usize, values: &mut Values) -> u32 {
        match self.numbers(number) {
            Ok(table) => self.why(part, table, START, option, element, values),
            Err(refusal) => give(refusal, values),
        }
    }

    fn show(
        &self,
        table: &[u32],
        rows: &[u32],
        received: &[u8],
        set: Used<'_>,
        place: usize,
        values: &mut Values,
    ) -> u32 {
        asked(judge_writing::showing(Edit { table, rows, received, set, place }), values)
    }

    fn editing(&self) -> Option<&dyn Editing> {
        Some(self)
    }

    fn writing(&self) -> Option<&dyn Writing> {
        Some(self)
    }

    fn mandatory(&self) -> Option<&dyn Mandatory> {
        Some(self)
    }

    fn findings(&self) -> Option<&dyn Findings> {
        Some(self)
    }
}

impl<C: Core> Writing for Judged<C> {
    fn write(&self, table: &[u32], message: Message<'_>, output: &mut [u8], values: &mut Values) -> u32 {
        let filled = judge_writing::writing(table, || self.made(table).model.clone(), message);
        let said = filled.and_then(|filled| {
            let made = self.made(table);
            let needed = made.model.needed(&filled);
            if needed > MOST_WRITTEN {
                return Err(answer(12, &[needed as usize]));
            }
            put(output, &C::write(&made.table, &filled))
        });
        asked(said, values)
    }

    fn write_by(&self, number: u32, message: Message<'_>, output: &mut [u8], values: &mut Values) -> u32 {
        match self.numbers(number) {
            Ok(table) => self.write(table, message, output, values),
            Err(refusal) => give(refusal, values),
        }
    }
}

impl<C: Core> Editing for Judged<C> {
    fn set(&self, table: &[u32], edited: Edited<'_>, value: &[u8], values: &mut Values) -> u32 {
        let Edited { rows, received, set, used, order, place } = edited;
        let edit = Edit { table, rows, received, set: Used { octets: set, used }, place };
        let said = judge_writing::setting(edit, order, value).map(|(after, iei)| {
            rows[PLACE * place..][..PLACE].copy_from_slice(&[2, used as u32, value.len() as u32, iei]);
            set[used..after].copy_from_slice(value);
            vec![after]
        });
        asked(said, values)
    }

    fn clear(
        &self,
        table: &[u32],
        rows: &mut [u32],
        received: &[u8],
        set: Used<'_>,
        place: usize,
        values: &mut Values,
    ) -> u32 {
        let said = judge_writing::clearing(Edit { table, rows, received, set, place }).map(|()| {
            rows[PLACE * place..][..PLACE].fill(0);
            vec![]
        });
        asked(said, values)
    }
}

impl<C: Core> Mandatory for Judged<C> {
    fn read_mandatory(
        &self,
        part: &[u8],
        table: &[u32],
        lenient: u8,
        rows: &mut [u32],
        notes: &mut Notes,
        values: &mut Values,
    ) -> u32 {
        let said = judge_mandatory::reading(table, part, rows.len()).map_or_else(
            |refusal| refusal,
            |table| {
                let read = C::read_rows(&table, part, lenient != 0);
                notes[..read.notes.len()].copy_from_slice(&read.notes);
                match read.refused {
                    Some((number, row)) => answer(number, &[row, read.notes.len() / 2]),
                    None => {
                        rows[..read.rows.len()].copy_from_slice(&read.rows);
                        answer(0, &[read.read, read.notes.len() / 2])
                    }
                }
            },
        );
        give(said, values)
    }

    fn read_mandatory_by(
        &self,
        number: u32,
        part: &[u8],
        lenient: u8,
        rows: &mut [u32],
        notes: &mut Notes,
        values: &mut Values,
    ) -> u32 {
        match self.mandatory.get(number as usize) {
            Some(table) => self.read_mandatory(part, table, lenient, rows, notes, values),
            None => give(answer(5, &[]), values),
        }
    }

    fn write_mandatory(
        &self,
        table: &[u32],
        rows: &[u32],
        received: &[u8],
        set: Used<'_>,
        output: &mut [u8],
        values: &mut Values,
    ) -> u32 {
        let filled = judge_mandatory::writing(table, rows, received, set);
        asked(filled.and_then(|filled| put(output, &C::write_rows(&filled))), values)
    }

    fn write_mandatory_by(
        &self,
        number: u32,
        rows: &[u32],
        received: &[u8],
        set: Used<'_>,
        output: &mut [u8],
        values: &mut Values,
    ) -> u32 {
        match self.mandatory.get(number as usize) {
            Some(table) => self.write_mandatory(table, rows, received, set, output, values),
            None => give(answer(5, &[]), values),
        }
    }
}

impl<C: Core> Findings for Judged<C> {
    fn findings(
        &self,
        table: &[u32],
        kept: Used<'_>,
        order: Used<'_>,
        findings: &mut [u32],
        values: &mut Values,
    ) -> u32 {
        let said = judge_findings::finding(table, kept, order).and_then(|(kept, order)| {
            let found = C::findings(&self.made(table).table, kept, order);
            let lent = findings.get_mut(..2 * found.len()).ok_or_else(|| answer(2, &[4]))?;
            lent.copy_from_slice(found.as_flattened());
            Ok(vec![found.len()])
        });
        asked(said, values)
    }
}

/// Octets into an output: how many they are, or 12.
fn put(output: &mut [u8], octets: &[u8]) -> Result<Vec<usize>, Answer> {
    match output.get_mut(..octets.len()) {
        Some(front) => {
            front.copy_from_slice(octets);
            Ok(vec![octets.len()])
        }
        None => Err(answer(12, &[octets.len()])),
    }
}

/// Our side: libnas.a where it is linked and the model is not asked for.
pub fn ours(tables: &Tables, model: bool) -> Box<dyn Side> {
    linked().filter(|_| !model).unwrap_or_else(|| Box::new(Judged::<ByModel>::new(tables)))
}

#[cfg(feature = "linked")]
fn linked() -> Option<Box<dyn Side>> {
    Some(Box::new(crate::linked::Linked))
}

#[cfg(not(feature = "linked"))]
fn linked() -> Option<Box<dyn Side>> {
    None
}
