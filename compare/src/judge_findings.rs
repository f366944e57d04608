//! The model of document 01's findings ("Pieces in port order", 6), and their refusals in their order.

use crate::interface::Used;
use crate::judge::{Answer, Model, answer, first_bad, iei_of, kept_list, order_list};
use crate::judge_writing::{logs, logs_well_formed};

/// Both logs, kept first, that passed the checks: 4, 3, 11 (1), 11 (2).
pub fn finding<'a>(table: &[u32], kept: Used<'a>, order: Used<'a>) -> Result<(&'a [u8], &'a [u8]), Answer> {
    if let Some(row) = first_bad(table) {
        return Err(answer(4, &[row]));
    }
    let (kept, order) = logs(kept, order)?;
    logs_well_formed(kept, order)?;
    Ok((kept, order))
}

impl Model {
    /// Entry number and kind of each finding.
    pub fn findings(&self, kept: &[u8], order: &[u8]) -> Vec<[u32; 2]> {
        let place_of = |iei: u8| Some(self.index()[usize::from(iei)]).filter(|&place| place != 255);
        let mut elements = kept_list(kept).unwrap_or_default().into_iter();
        let mut highest = 0;
        let mut findings = Vec::new();
        for (number, entry) in order_list(order).unwrap_or_default().into_iter().enumerate() {
            let kind = match entry {
                [0, iei] => {
                    let place = place_of(*iei).unwrap_or(0);
                    let below = place < highest;
                    highest = highest.max(place);
                    below.then_some(1)
                }
                _ => elements.next().and_then(|(start, _)| match entry {
                    [1] => place_of(iei_of(kept[start])).map(|_| 2),
                    [reason] => Some(u32::from(*reason) + 1),
                    _ => None,
                }),
            };
            findings.extend(kind.map(|kind| [number as u32, kind]));
        }
        findings
    }
}
