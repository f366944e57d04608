//! The oracle: the Rust's own functions, with a `known` closure that carries out the rows of document 01.

use crate::common::{self, IeOrder, IeiIndex, IeiTable, IgnoredIeReason, NasError, Placed, Reader, UnknownIes};
use crate::judge::{self, Cut, Reading};
use crate::rows::{Form, PLACE, Row, rows_of};

/// A table that passes the check, as the Rust has it. The Rust's tables live as long as the program, so this one does too.
pub struct Table {
    ieis: IeiTable,
    index: IeiIndex,
    rows: Vec<Row>,
}

impl Table {
    pub fn new(table: &[u32]) -> Self {
        let rows = rows_of(table);
        let groups: Vec<&'static [u8]> = rows.iter().map(|row| &*row.ieis.clone().leak()).collect();
        let ieis: IeiTable = groups.leak();
        Self { ieis, index: common::iei_index(ieis), rows }
    }

    pub fn index(&self) -> &[u8; 256] {
        &self.index
    }

    /// The index once more, as the Rust makes it of a table.
    pub fn index_again(&self) -> [u8; 256] {
        common::iei_index(self.ieis)
    }

    pub fn places(&self) -> usize {
        self.rows.len()
    }

    pub(crate) fn ieis(&self) -> IeiTable {
        self.ieis
    }

    pub(crate) fn rows(&self) -> &[Row] {
        &self.rows
    }
}

/// The two logs of a reading, as the Rust has them.
#[derive(Default)]
pub struct Logs {
    kept: UnknownIes,
    order: IeOrder,
}

impl Logs {
    /// Empty them, and keep their room.
    pub fn clear(&mut self) {
        self.kept.clear();
        self.order.clear();
    }
}

/// The value rule: an empty value, or bit k of the set for the low three bits k of the first octet.
pub(crate) fn receivable(set: u32, first: Option<u8>) -> bool {
    first.is_none_or(|first| set >> (first & 7) & 1 == 1)
}

/// The set of a half octet's sixteen values for a rule of three bits: its eight that have the value's fourth bit.
pub(crate) fn half_set(set: u32, half: u8) -> u32 {
    if half & 8 == 0 { set & 0xff } else { set >> 8 }
}

/// `decode_optional_ies` over the rows of a table: place rows into `places`, the rest into `logs`.
pub fn read_into(
    table: &Table,
    part: &[u8],
    start: u8,
    option: bool,
    places: &mut [u32],
    logs: &mut Logs,
) -> Result<(), Cut> {
    places.fill(0);
    let mut known = |iei: u8, probe: &mut &[u8], repeated: bool, out_of_sequence: bool| -> common::Result<bool> {
        let at = usize::from(table.index[usize::from(iei)]);
        let row = &table.rows[at];
        let before = probe.len();
        let value = match row.form {
            Form::Half => probe.take(1)?,
            Form::Fixed(size) => {
                probe.advance(1);
                probe.take(size)?
            }
            Form::Tlv => {
                probe.advance(1);
                let size = probe.take(1)?[0];
                probe.take(usize::from(size))?
            }
            Form::TlvE => {
                probe.advance(1);
                let size = probe.take(2)?.get_u16();
                probe.take(usize::from(size))?
            }
        };
        let first = !repeated && (!out_of_sequence || option);
        let set = if row.form == Form::Half { half_set(row.set, value[0]) } else { row.set };
        let kept = first && receivable(set, value.first().copied()) && before - probe.len() >= row.least;
        if kept {
            let start = part.len() - probe.len() - value.len();
            places[PLACE * at..][..PLACE - 1].copy_from_slice(&[1, start as u32, value.len() as u32]);
        }
        Ok(kept)
    };
    let mut left = part;
    common::decode_optional_ies(&mut left, table.ieis, &table.index, start, &mut logs.kept, &mut logs.order, &mut known)
        .map_err(|error| match error {
            NasError::UnknownIeCutShort { iei, octets } => {
                let at = part.len() - octets;
                Cut { start: at, first: iei, octets, missing: judge::missing(&part[at..], start) }
            }
            _ => unreachable!("decode_optional_ies has no other error"),
        })
}

/// The same with logs of its own.
pub fn read(table: &Table, part: &[u8], start: u8, option: bool) -> Result<Reading, Cut> {
    let mut rows = vec![0; PLACE * table.places()];
    let mut logs = Logs::default();
    read_into(table, part, start, option, &mut rows, &mut logs)?;
    // The Rust has no IEI in its rows: the judge's, by the Rust's own order log.
    judge::fill_ieis(&table.rows, &table.index, logs.order.octets(), &mut rows);
    Ok(Reading { rows, kept: logs.kept.octets().to_vec(), order: logs.order.octets().to_vec() })
}

/// `generic_ie_length`; none where it is cut short.
pub fn generic_ie_length(octets: &[u8], start: u8) -> Option<usize> {
    common::generic_ie_length(octets, start).ok()
}

/// `place_of`.
pub fn place_of(index: &[u8; 256], iei: u8) -> Option<usize> {
    common::place(index, iei)
}

/// `UnknownIes::push` on a well-formed log: the log after it.
pub fn kept_push(log: &[u8], iei: u8, data: &[u8]) -> Vec<u8> {
    let mut ies = UnknownIes::from_octets(log.to_vec());
    ies.push(iei, data);
    ies.octets().to_vec()
}

/// `UnknownIes::len`.
pub fn kept_count(log: &[u8]) -> usize {
    UnknownIes::from_octets(log.to_vec()).len()
}

/// `UnknownIes::get`: where the element stands in the log, its IEI first, and its length.
pub fn kept_get(log: &[u8], k: usize) -> Option<(usize, usize)> {
    let ies = UnknownIes::from_octets(log.to_vec());
    let ie = ies.get(k)?;
    let data = ie.data.as_ptr() as usize - ies.octets().as_ptr() as usize;
    assert_eq!(ies.octets()[data - 1], ie.iei);
    Some((data - 1, 1 + ie.data.len()))
}

/// `UnknownIes::clear`: how many octets are used after it.
pub fn kept_clear(log: &[u8]) -> usize {
    let mut ies = UnknownIes::from_octets(log.to_vec());
    ies.clear();
    ies.octets().len()
}

/// `IeOrder::push` on a well-formed log: the log after it. The entry is 0 with an IEI, or 1 to 4.
pub fn order_push(log: &[u8], entry: u8, iei: u8) -> Vec<u8> {
    let mut order = IeOrder::from_octets(log.to_vec());
    order.push(match entry {
        0 => Placed::Known(iei),
        1 => Placed::Unknown,
        2 => Placed::Ignored(IgnoredIeReason::Malformed),
        3 => Placed::Ignored(IgnoredIeReason::Repeated),
        _ => Placed::Ignored(IgnoredIeReason::OutOfSequence),
    });
    order.octets().to_vec()
}

/// The entry at a number of `IeOrder::iter`, as its octets.
pub fn order_get(log: &[u8], k: usize) -> Option<Vec<u8>> {
    let order = IeOrder::from_octets(log.to_vec());
    let entry = order.iter().nth(k)?;
    Some(match entry {
        Placed::Known(iei) => vec![0, iei],
        Placed::Unknown => vec![1],
        Placed::Ignored(IgnoredIeReason::Malformed) => vec![2],
        Placed::Ignored(IgnoredIeReason::Repeated) => vec![3],
        Placed::Ignored(IgnoredIeReason::OutOfSequence) => vec![4],
    })
}
