//! How a call is made smaller where two sides differ.

use std::time::{Duration, Instant};

use crate::calls::{Call, Filled, Places};
use crate::rows::{MANDATORY_WIDTH, PLACE, VALUE, WIDTH};

/// A list without `count` units from `at` on, each of `width`.
fn drop_units<T>(items: &mut Vec<T>, width: usize, at: usize, count: usize) {
    let end = (width * (at + count)).min(items.len());
    items.drain((width * at).min(end)..end);
}

/// The same of lent octets: where used ones go, fewer are used.
fn drop_used(octets: &mut Vec<u8>, used: &mut usize, at: usize, count: usize) {
    drop_units(octets, 1, at, count);
    if at + count <= *used {
        *used -= count;
    }
}

impl Places {
    fn lengths(&self) -> Vec<usize> {
        vec![self.set.octets.len(), self.received.len()]
    }

    /// Octets from `at` on go, and values behind them begin as much earlier, by rows of so many numbers.
    fn drop_at(&mut self, numbers: usize, list: usize, at: usize, count: usize) {
        match list {
            0 => drop_used(&mut self.set.octets, &mut self.set.used, at, count),
            _ => drop_units(&mut self.received, 1, at, count),
        }
        let source = if list == 0 { 2 } else { 1 };
        for row in self.rows.chunks_exact_mut(numbers) {
            if row[0] == source && row[1] as usize >= at + count {
                row[1] -= count as u32;
            }
        }
    }

    /// Rows of a table go with those of their places.
    fn drop_rows(&mut self, table: &mut Vec<u32>, width: usize, at: usize, count: usize) {
        let numbers = if width == WIDTH { PLACE } else { VALUE };
        drop_units(table, width, at, count);
        drop_units(&mut self.rows, numbers, at, count);
    }
}

impl Filled {
    fn lengths(&self) -> Vec<usize> {
        [self.places.lengths(), vec![self.kept.octets.len(), self.order.octets.len()]].concat()
    }

    fn drop_at(&mut self, list: usize, at: usize, count: usize) {
        match list {
            2 => drop_used(&mut self.kept.octets, &mut self.kept.used, at, count),
            3 => drop_used(&mut self.order.octets, &mut self.order.used, at, count),
            _ => self.places.drop_at(PLACE, list, at, count),
        }
    }
}

impl Call {
    /// The lists that can be made shorter: how many units each has.
    fn lengths(&self) -> Vec<usize> {
        match self {
            Call::Length { octets, .. } => vec![octets.len()],
            Call::CheckTable { table } | Call::Index { table } => vec![table.len().div_ceil(WIDTH)],
            Call::CheckMandatory { table } => vec![table.len().div_ceil(MANDATORY_WIDTH)],
            Call::PlaceOf { .. } => vec![],
            Call::KeptPush { log, data, .. } => vec![data.len(), log.len()],
            Call::KeptCount { log, .. } | Call::KeptGet { log, .. } | Call::KeptClear { log, .. } => vec![log.len()],
            Call::OrderPush { log, .. } | Call::OrderGet { log, .. } => vec![log.len()],
            Call::Read { part, table, .. }
            | Call::ReadBlock { part, table, .. }
            | Call::CheckPart { part, table, .. }
            | Call::Next { part, table, .. }
            | Call::Why { part, table, .. } => {
                vec![part.len(), table.len().div_ceil(WIDTH)]
            }
            Call::ReadBy { part, .. }
            | Call::ReadBlockBy { part, .. }
            | Call::CheckPartBy { part, .. }
            | Call::WhyBy { part, .. } => vec![part.len()],
            Call::Write { table, filled, .. } => [filled.lengths(), vec![table.len().div_ceil(WIDTH)]].concat(),
            Call::WriteBy { filled, .. } => filled.lengths(),
            Call::Set { table, places, order, value, .. } => {
                [places.lengths(), vec![table.len().div_ceil(WIDTH), value.len(), order.octets.len()]].concat()
            }
            Call::Clear { table, places, .. } | Call::Show { table, places, .. } => {
                [places.lengths(), vec![table.len().div_ceil(WIDTH)]].concat()
            }
            Call::ReadMandatory { part, table, .. } => vec![part.len(), table.len().div_ceil(MANDATORY_WIDTH)],
            Call::ReadMandatoryBy { part, .. } => vec![part.len()],
            Call::WriteMandatory { table, places, .. } => {
                [places.lengths(), vec![table.len().div_ceil(MANDATORY_WIDTH)]].concat()
            }
            Call::WriteMandatoryBy { places, .. } => places.lengths(),
            Call::Findings { table, kept, order, .. } => {
                vec![kept.octets.len(), order.octets.len(), table.len().div_ceil(WIDTH)]
            }
        }
    }

    /// The call without `count` units of a list, from `at` on.
    fn without(&self, list: usize, at: usize, count: usize) -> Call {
        let mut call = self.clone();
        match &mut call {
            Call::Length { octets, .. } => drop_units(octets, 1, at, count),
            Call::CheckTable { table } | Call::Index { table } => drop_units(table, WIDTH, at, count),
            Call::CheckMandatory { table } => drop_units(table, MANDATORY_WIDTH, at, count),
            Call::PlaceOf { .. } => {}
            Call::KeptPush { data, .. } if list == 0 => drop_units(data, 1, at, count),
            Call::KeptPush { log, used, .. }
            | Call::KeptCount { log, used }
            | Call::KeptGet { log, used, .. }
            | Call::KeptClear { log, used }
            | Call::OrderPush { log, used, .. }
            | Call::OrderGet { log, used, .. } => drop_used(log, used, at, count),
            Call::Read { table, .. }
            | Call::ReadBlock { table, .. }
            | Call::CheckPart { table, .. }
            | Call::Next { table, .. }
            | Call::Why { table, .. }
                if list == 1 =>
            {
                drop_units(table, WIDTH, at, count)
            }
            Call::Read { part, .. }
            | Call::ReadBy { part, .. }
            | Call::ReadBlock { part, .. }
            | Call::ReadBlockBy { part, .. }
            | Call::CheckPart { part, .. }
            | Call::CheckPartBy { part, .. }
            | Call::Next { part, .. }
            | Call::Why { part, .. }
            | Call::WhyBy { part, .. } => drop_units(part, 1, at, count),
            Call::Write { filled, .. } | Call::WriteBy { filled, .. } if list < 4 => filled.drop_at(list, at, count),
            Call::Set { places, .. } | Call::Clear { places, .. } | Call::Show { places, .. } if list < 2 => {
                places.drop_at(PLACE, list, at, count)
            }
            Call::WriteMandatory { places, .. } | Call::WriteMandatoryBy { places, .. } if list < 2 => {
                places.drop_at(VALUE, list, at, count)
            }
            Call::Write { table, filled: Filled { places, .. }, .. } => places.drop_rows(table, WIDTH, at, count),
            Call::WriteBy { .. } | Call::WriteMandatoryBy { .. } => {}
            Call::ReadMandatory { table, .. } if list == 1 => drop_units(table, MANDATORY_WIDTH, at, count),
            Call::ReadMandatory { part, .. } | Call::ReadMandatoryBy { part, .. } => drop_units(part, 1, at, count),
            Call::Findings { kept, .. } if list == 0 => drop_used(&mut kept.octets, &mut kept.used, at, count),
            Call::Findings { order, .. } if list == 1 => drop_used(&mut order.octets, &mut order.used, at, count),
            Call::Findings { table, .. } => drop_units(table, WIDTH, at, count),
            Call::WriteMandatory { table, places, .. } => places.drop_rows(table, MANDATORY_WIDTH, at, count),
            Call::Set { value, .. } if list == 3 => drop_units(value, 1, at, count),
            Call::Set { order, .. } if list == 4 => drop_used(&mut order.octets, &mut order.used, at, count),
            Call::Set { table, places, .. } | Call::Clear { table, places, .. } | Call::Show { table, places, .. } => {
                places.drop_rows(table, WIDTH, at, count)
            }
        }
        call
    }

    /// The smallest call found, in a few seconds, for which `differs` still holds: units are dropped as long as it does.
    pub fn smallest(&self, differs: &dyn Fn(&Call) -> bool) -> Call {
        let mut call = self.clone();
        let end = Instant::now() + Duration::from_secs(3);
        let mut smaller = true;
        while smaller {
            smaller = false;
            for list in 0..call.lengths().len() {
                let mut count = call.lengths()[list];
                while count > 0 {
                    let mut at = 0;
                    while at + count <= call.lengths()[list] && Instant::now() < end {
                        let without = call.without(list, at, count);
                        if differs(&without) {
                            call = without;
                            smaller = true;
                        } else {
                            at += count;
                        }
                    }
                    count /= 2;
                }
            }
        }
        call
    }
}
