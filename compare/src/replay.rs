//! The recorded list, read back as crates/replay/README.md describes it.

use crate::calls::{Call, LEFT, Outcome};
use crate::judge::Room;
use crate::recorded::Reader;
use crate::rows::PLACE;

/// A recorded case: the call, the number, the values, the places that are present, and the used octets of both logs.
pub struct Recorded {
    pub call: Call,
    number: u32,
    values: Vec<u64>,
    present: Vec<(usize, [u32; PLACE])>,
    logs: [Vec<u8>; 2],
}

impl Recorded {
    /// Whether an outcome is what was recorded; of lent memory, in the places and octets that the answer speaks of.
    pub fn agrees(&self, outcome: &Outcome) -> bool {
        let values = &self.values;
        let said = outcome.number == self.number
            && outcome.values[0] == values.len() as u64
            && outcome.said() == values
            && outcome.values[1 + values.len()..].iter().all(|&value| value == LEFT);
        let places = self.present.iter().all(|(place, row)| outcome.rows[PLACE * place..][..PLACE] == *row);
        let ones = outcome.rows.iter().step_by(PLACE).filter(|&&source| source == 1).count();
        let logs = self.logs.iter().zip(&outcome.logs).all(|(used, lent)| lent.starts_with(used));
        said && places && ones == self.present.len() && logs
    }
}

/// The cases of a list; none where the list is not in its format.
pub fn cases(list: &[u8]) -> Option<Vec<Recorded>> {
    let mut list = Reader(list);
    let count = list.number(4)?;
    let cases = (0..count).map(|_| case(&mut list)).collect::<Option<Vec<_>>>()?;
    list.0.is_empty().then_some(cases)
}

fn case(list: &mut Reader<'_>) -> Option<Recorded> {
    let [table_number, tlve_start, option] = [list.number(1)?, list.number(1)?, list.number(1)?];
    let (tlve_start, option) = (tlve_start as u8, option as u8);
    let table = list.numbers()?;
    let room = Room { rows: list.count(2)?, kept: list.count(4)?, order: list.count(4)? };
    let part = list.string()?;
    let call = match table_number {
        255 => Call::Read { part, table, tlve_start, option, room },
        number => Call::ReadBy { number: number as u32, part, option, room },
    };
    let number = list.number(1)? as u32;
    let count = list.number(1)?;
    let values = (0..count).map(|_| list.number(8)).collect::<Option<Vec<_>>>()?;
    let count = list.number(1)?;
    let mut present = Vec::new();
    for _ in 0..count {
        present.push((list.count(1)?, [1, list.number(2)? as u32, list.number(2)? as u32, list.number(1)? as u32]));
    }
    Some(Recorded { call, number, values, present, logs: [list.string()?, list.string()?] })
}
