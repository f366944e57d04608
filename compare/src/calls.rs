//! A call with its inputs, and what it leaves on a side.

use std::fmt::{self, Display, Formatter};

use crate::interface::{Block, Edited, Editing, Lent, Mandatory, Message, Side, State, Used, Values, Writing};
use crate::judge::Room;
use crate::rows::{MANDATORY_WIDTH, PLACE, WIDTH};

#[derive(Clone)]
pub enum Call {
    Length { octets: Vec<u8>, tlve_start: u8 },
    CheckTable { table: Vec<u32> },
    CheckMandatory { table: Vec<u32> },
    Index { table: Vec<u32> },
    PlaceOf { index: [u8; 256], iei: u8 },
    KeptPush { log: Vec<u8>, used: usize, iei: u8, data: Vec<u8> },
    KeptCount { log: Vec<u8>, used: usize },
    KeptGet { log: Vec<u8>, used: usize, k: usize },
    KeptClear { log: Vec<u8>, used: usize },
    OrderPush { log: Vec<u8>, used: usize, entry: u8, iei: u8 },
    OrderGet { log: Vec<u8>, used: usize, k: usize },
    Read { part: Vec<u8>, table: Vec<u32>, tlve_start: u8, option: u8, room: Room },
    ReadBy { number: u32, part: Vec<u8>, option: u8, room: Room },
    ReadBlock { part: Vec<u8>, table: Vec<u32>, tlve_start: u8, option: u8, rows: usize, block: usize },
    ReadBlockBy { number: u32, part: Vec<u8>, option: u8, rows: usize, block: usize },
    CheckPart { part: Vec<u8>, table: Vec<u32>, tlve_start: u8 },
    CheckPartBy { number: u32, part: Vec<u8> },
    Next { part: Vec<u8>, table: Vec<u32>, tlve_start: u8, option: u8, state: State },
    Show { table: Vec<u32>, places: Places, place: usize },
    Write { table: Vec<u32>, filled: Filled, output: usize },
    WriteBy { number: u32, filled: Filled, output: usize },
    Set { table: Vec<u32>, places: Places, order: Octets, place: usize, value: Vec<u8> },
    Clear { table: Vec<u32>, places: Places, place: usize },
    ReadMandatory { part: Vec<u8>, table: Vec<u32>, lenient: u8, rows: usize },
    ReadMandatoryBy { number: u32, part: Vec<u8>, lenient: u8, rows: usize },
    WriteMandatory { table: Vec<u32>, places: Places, output: usize },
    WriteMandatoryBy { number: u32, places: Places, output: usize },
    Findings { table: Vec<u32>, kept: Octets, order: Octets, findings: usize },
    Why { part: Vec<u8>, table: Vec<u32>, tlve_start: u8, option: u8, element: usize },
    WhyBy { number: u32, part: Vec<u8>, option: u8, element: usize },
}

/// Lent octets and how many of them are used.
#[derive(Clone, Default)]
pub struct Octets {
    pub octets: Vec<u8>,
    pub used: usize,
}

impl Octets {
    /// All of them are used.
    pub fn all(octets: Vec<u8>) -> Self {
        Self { used: octets.len(), octets }
    }

    pub fn lent(&self) -> Used<'_> {
        Used { octets: &self.octets, used: self.used }
    }
}

/// Place rows with the octets of their values.
#[derive(Clone, Default)]
pub struct Places {
    pub rows: Vec<u32>,
    pub received: Vec<u8>,
    pub set: Octets,
}

/// What is written.
#[derive(Clone, Default)]
pub struct Filled {
    pub places: Places,
    pub kept: Octets,
    pub order: Octets,
}

impl Filled {
    pub fn message(&self) -> Message<'_> {
        Message {
            rows: &self.places.rows,
            received: &self.places.received,
            set: self.places.set.lent(),
            kept: self.kept.lent(),
            order: self.order.lent(),
        }
    }
}

/// The families of calls that are counted apart.
#[derive(Clone, Copy, PartialEq, Eq, PartialOrd, Ord)]
pub enum Family {
    Pieces,
    Reading,
    Checking,
    Stepping,
    Showing,
    Writing,
    Editing,
    ReadingRows,
    WritingRows,
    Finding,
    Asking,
}

impl Family {
    pub fn name(self) -> &'static str {
        match self {
            Family::Pieces => "pieces",
            Family::Reading => "readings",
            Family::Checking => "checks of a part",
            Family::Stepping => "readings of one element",
            Family::Showing => "values shown",
            Family::Writing => "writings",
            Family::Editing => "edits",
            Family::ReadingRows => "readings of mandatory rows",
            Family::WritingRows => "writings of mandatory rows",
            Family::Finding => "lists of findings",
            Family::Asking => "verdicts with their ground",
        }
    }

    /// Whether a side has these calls.
    pub fn on(self, side: &dyn Side) -> bool {
        match self {
            Family::Pieces | Family::Reading | Family::Checking | Family::Stepping | Family::Showing | Family::Asking => true,
            Family::Writing => side.writing().is_some(),
            Family::Editing => side.editing().is_some(),
            Family::ReadingRows | Family::WritingRows => side.mandatory().is_some(),
            Family::Finding => side.findings().is_some(),
        }
    }
}

/// The number, how many values there are, the values with those places that were left, and all lent memory.
#[derive(Clone, PartialEq, Eq)]
pub struct Outcome {
    pub number: u32,
    pub values: Values,
    pub rows: Vec<u32>,
    pub notes: Vec<u32>,
    pub logs: [Vec<u8>; 2],
    pub state: State,
}

fn editing(side: &dyn Side) -> &dyn Editing {
    side.editing().expect("a call is made on sides that have it")
}

fn writing(side: &dyn Side) -> &dyn Writing {
    side.writing().expect("a call is made on sides that have it")
}

fn mandatory(side: &dyn Side) -> &dyn Mandatory {
    side.mandatory().expect("a call is made on sides that have it")
}

/// What stands in `values` before a call.
pub const LEFT: u64 = 0xa5a5_a5a5_a5a5_a5a5;

/// What stands in lent memory before a reading: another octet or number at each position.
fn lent_rows(count: usize) -> Vec<u32> {
    (0..count as u32).map(|k| 0xa5a5_0000 ^ k).collect()
}

fn lent_octets(count: usize) -> Vec<u8> {
    (0..count).map(|k| 0xa5 ^ k as u8).collect()
}

impl Call {
    pub fn family(&self) -> Family {
        match self {
            Call::Read { .. } | Call::ReadBy { .. } | Call::ReadBlock { .. } | Call::ReadBlockBy { .. } => {
                Family::Reading
            }
            Call::CheckPart { .. } | Call::CheckPartBy { .. } => Family::Checking,
            Call::Next { .. } => Family::Stepping,
            Call::Show { .. } => Family::Showing,
            Call::Write { .. } | Call::WriteBy { .. } => Family::Writing,
            Call::Set { .. } | Call::Clear { .. } => Family::Editing,
            Call::ReadMandatory { .. } | Call::ReadMandatoryBy { .. } => Family::ReadingRows,
            Call::WriteMandatory { .. } | Call::WriteMandatoryBy { .. } => Family::WritingRows,
            Call::Findings { .. } => Family::Finding,
            Call::Why { .. } | Call::WhyBy { .. } => Family::Asking,
            _ => Family::Pieces,
        }
    }

    pub fn on(&self, side: &dyn Side) -> Outcome {
        let mut values = [LEFT; 5];
        let mut rows = Vec::new();
        let mut notes = Vec::new();
        let mut after = [0; 4];
        let mut logs = [Vec::new(), Vec::new()];
        let number = match self {
            Call::Length { octets, tlve_start } => side.generic_ie_length(octets, *tlve_start, &mut values),
            Call::CheckTable { table } => side.check_table(table, &mut values),
            Call::CheckMandatory { table } => side.check_mandatory_table(table, &mut values),
            Call::Index { table } => {
                let mut index = [0xa5; 256];
                let number = side.iei_index(table, &mut index);
                logs[0] = index.to_vec();
                number
            }
            Call::PlaceOf { index, iei } => side.place_of(index, *iei, &mut values),
            Call::KeptPush { log, used, iei, data } => {
                logs[0] = log.clone();
                side.kept_push(&mut logs[0], *used, *iei, data, &mut values)
            }
            Call::KeptCount { log, used } => side.kept_count(log, *used, &mut values),
            Call::KeptGet { log, used, k } => side.kept_get(log, *used, *k, &mut values),
            Call::KeptClear { log, used } => side.kept_clear(log, *used, &mut values),
            Call::OrderPush { log, used, entry, iei } => {
                logs[0] = log.clone();
                side.order_push(&mut logs[0], *used, *entry, *iei, &mut values)
            }
            Call::OrderGet { log, used, k } => side.order_get(log, *used, *k, &mut values),
            Call::Read { room, .. } | Call::ReadBy { room, .. } => {
                rows = lent_rows(room.rows);
                logs = [lent_octets(room.kept), lent_octets(room.order)];
                let [kept, order] = &mut logs;
                let lent = Lent { rows: &mut rows, kept, order };
                match self {
                    Call::Read { part, table, tlve_start, option, .. } => {
                        side.read(part, table, *tlve_start, *option, lent, &mut values)
                    }
                    Call::ReadBy { number, part, option, .. } => {
                        side.read_by(*number, part, *option, lent, &mut values)
                    }
                    _ => unreachable!("only readings have room"),
                }
            }
            Call::ReadBlock { part, table, tlve_start, option, rows: places, block } => {
                rows = lent_rows(*places);
                logs[0] = lent_octets(*block);
                let lent = Block { rows: &mut rows, block: &mut logs[0] };
                side.read_block(part, table, *tlve_start, *option, lent, &mut values)
            }
            Call::ReadBlockBy { number, part, option, rows: places, block } => {
                rows = lent_rows(*places);
                logs[0] = lent_octets(*block);
                let lent = Block { rows: &mut rows, block: &mut logs[0] };
                side.read_block_by(*number, part, *option, lent, &mut values)
            }
            Call::CheckPart { part, table, tlve_start } => side.check_part(part, table, *tlve_start, &mut values),
            Call::CheckPartBy { number, part } => side.check_part_by(*number, part, &mut values),
            Call::Next { part, table, tlve_start, option, state } => {
                after = *state;
                side.next(part, table, *tlve_start, *option, &mut after, &mut values)
            }
            Call::Show { table, places, place } => {
                let Places { rows, received, set } = places;
                side.show(table, rows, received, set.lent(), *place, &mut values)
            }
            Call::Write { table, filled, output } => {
                logs[0] = lent_octets(*output);
                writing(side).write(table, filled.message(), &mut logs[0], &mut values)
            }
            Call::WriteBy { number, filled, output } => {
                logs[0] = lent_octets(*output);
                writing(side).write_by(*number, filled.message(), &mut logs[0], &mut values)
            }
            Call::Set { table, places, order, place, value } => {
                rows = places.rows.clone();
                logs[0] = places.set.octets.clone();
                let edited = Edited {
                    rows: &mut rows,
                    received: &places.received,
                    set: &mut logs[0],
                    used: places.set.used,
                    order: order.lent(),
                    place: *place,
                };
                editing(side).set(table, edited, value, &mut values)
            }
            Call::Clear { table, places, place } => {
                rows = places.rows.clone();
                editing(side).clear(table, &mut rows, &places.received, places.set.lent(), *place, &mut values)
            }
            Call::ReadMandatory { rows: room, .. } | Call::ReadMandatoryBy { rows: room, .. } => {
                rows = lent_rows(*room);
                let mut lent = [0xa5a5_a5a5; 64];
                let number = match self {
                    Call::ReadMandatory { part, table, lenient, .. } => {
                        mandatory(side).read_mandatory(part, table, *lenient, &mut rows, &mut lent, &mut values)
                    }
                    Call::ReadMandatoryBy { number, part, lenient, .. } => {
                        mandatory(side).read_mandatory_by(*number, part, *lenient, &mut rows, &mut lent, &mut values)
                    }
                    _ => unreachable!("only readings of mandatory rows have notes"),
                };
                notes = lent.to_vec();
                number
            }
            Call::WriteMandatory { table, places, output } => {
                logs[0] = lent_octets(*output);
                let Places { rows, received, set } = places;
                mandatory(side).write_mandatory(table, rows, received, set.lent(), &mut logs[0], &mut values)
            }
            Call::WriteMandatoryBy { number, places, output } => {
                logs[0] = lent_octets(*output);
                let Places { rows, received, set } = places;
                mandatory(side).write_mandatory_by(*number, rows, received, set.lent(), &mut logs[0], &mut values)
            }
            Call::Findings { table, kept, order, findings } => {
                notes = lent_rows(*findings);
                let side = side.findings().expect("a call is made on sides that have it");
                side.findings(table, kept.lent(), order.lent(), &mut notes, &mut values)
            }
            Call::Why { part, table, tlve_start, option, element } => {
                side.why(part, table, *tlve_start, *option, *element, &mut values)
            }
            Call::WhyBy { number, part, option, element } => {
                side.why_by(*number, part, *option, *element, &mut values)
            }
        };
        Outcome { number, values, rows, notes, logs, state: after }
    }
}

/// Octets in hex; of many, the first and how many there are.
fn hex(octets: &[u8]) -> String {
    let shown: Vec<String> = octets.iter().take(600).map(|octet| format!("{octet:02x}")).collect();
    match octets.len() {
        0..=600 => format!("[{}]", shown.join(" ")),
        count => format!("[{} ..] ({count} octets)", shown.join(" ")),
    }
}

/// The rows of a table, one after the other.
fn listed(table: &[u32], width: usize) -> String {
    table.chunks(width).map(|row| format!("{row:?}")).collect::<Vec<_>>().join(" ")
}

impl Display for Call {
    fn fmt(&self, f: &mut Formatter<'_>) -> fmt::Result {
        match self {
            Call::Length { octets, tlve_start } => {
                write!(f, "generic_ie_length {} start {tlve_start:02x}", hex(octets))
            }
            Call::CheckTable { table } => write!(f, "check_table {}", listed(table, WIDTH)),
            Call::CheckMandatory { table } => write!(f, "check_mandatory_table {}", listed(table, MANDATORY_WIDTH)),
            Call::Index { table } => write!(f, "iei_index {}", listed(table, WIDTH)),
            Call::PlaceOf { index, iei } => write!(f, "place_of {} iei {iei:02x}", hex(index)),
            Call::KeptPush { log, used, iei, data } => {
                write!(f, "kept_push {} used {used} iei {iei:02x} data {}", hex(log), hex(data))
            }
            Call::KeptCount { log, used } => write!(f, "kept_count {} used {used}", hex(log)),
            Call::KeptGet { log, used, k } => write!(f, "kept_get {} used {used} k {k}", hex(log)),
            Call::KeptClear { log, used } => write!(f, "kept_clear {} used {used}", hex(log)),
            Call::OrderPush { log, used, entry, iei } => {
                write!(f, "order_push {} used {used} entry {entry} iei {iei:02x}", hex(log))
            }
            Call::OrderGet { log, used, k } => write!(f, "order_get {} used {used} k {k}", hex(log)),
            Call::Read { part, table, tlve_start, option, room } => write!(
                f,
                "read {} start {tlve_start:02x} option {option} {room:?} table {}",
                hex(part),
                listed(table, WIDTH)
            ),
            Call::ReadBy { number, part, option, room } => {
                write!(f, "read_by {number} {} option {option} {room:?}", hex(part))
            }
            Call::ReadBlock { part, table, tlve_start, option, rows, block } => write!(
                f,
                "read_block {} start {tlve_start:02x} option {option} rows {rows} block {block} table {}",
                hex(part),
                listed(table, WIDTH)
            ),
            Call::ReadBlockBy { number, part, option, rows, block } => {
                write!(f, "read_block_by {number} {} option {option} rows {rows} block {block}", hex(part))
            }
            Call::CheckPart { part, table, tlve_start } => {
                write!(f, "check_part {} start {tlve_start:#04x} table {}", hex(part), listed(table, WIDTH))
            }
            Call::CheckPartBy { number, part } => write!(f, "check_part_by {number} {}", hex(part)),
            Call::Next { part, table, tlve_start, option, state } => write!(
                f,
                "next {} start {tlve_start:02x} option {option} state {state:x?} table {}",
                hex(part),
                listed(table, WIDTH)
            ),
            Call::Show { table, places, place } => {
                write!(f, "show place {place} of {places} table {}", listed(table, WIDTH))
            }
            Call::Write { table, filled, output } => {
                write!(f, "write {filled} output {output} table {}", listed(table, WIDTH))
            }
            Call::WriteBy { number, filled, output } => write!(f, "write_by {number} {filled} output {output}"),
            Call::Set { table, places, order, place, value } => {
                write!(f, "set place {place} to {} in {places} order {order} table {}", hex(value), listed(table, WIDTH))
            }
            Call::Clear { table, places, place } => {
                write!(f, "clear place {place} in {places} table {}", listed(table, WIDTH))
            }
            Call::ReadMandatory { part, table, lenient, rows } => write!(
                f,
                "read_mandatory {} lenient {lenient} rows {rows} table {}",
                hex(part),
                listed(table, MANDATORY_WIDTH)
            ),
            Call::ReadMandatoryBy { number, part, lenient, rows } => {
                write!(f, "read_mandatory_by {number} {} lenient {lenient} rows {rows}", hex(part))
            }
            Call::WriteMandatory { table, places, output } => {
                write!(f, "write_mandatory {places} output {output} table {}", listed(table, MANDATORY_WIDTH))
            }
            Call::WriteMandatoryBy { number, places, output } => {
                write!(f, "write_mandatory_by {number} {places} output {output}")
            }
            Call::Findings { table, kept, order, findings } => {
                write!(f, "findings kept {kept} order {order} findings {findings} table {}", listed(table, WIDTH))
            }
            Call::Why { part, table, tlve_start, option, element } => write!(
                f,
                "why {element} of {} start {tlve_start:02x} option {option} table {}",
                hex(part),
                listed(table, WIDTH)
            ),
            Call::WhyBy { number, part, option, element } => {
                write!(f, "why_by {number} {element} of {} option {option}", hex(part))
            }
        }
    }
}

impl Display for Octets {
    fn fmt(&self, f: &mut Formatter<'_>) -> fmt::Result {
        write!(f, "{} used {}", hex(&self.octets), self.used)
    }
}

impl Display for Places {
    fn fmt(&self, f: &mut Formatter<'_>) -> fmt::Result {
        write!(f, "rows {} received {} set {}", listed(&self.rows, PLACE), hex(&self.received), self.set)
    }
}

impl Display for Filled {
    fn fmt(&self, f: &mut Formatter<'_>) -> fmt::Result {
        write!(f, "{} kept {} order {}", self.places, self.kept, self.order)
    }
}

impl Outcome {
    /// The values that it was told to have.
    pub fn said(&self) -> &[u64] {
        self.values[1..].get(..self.values[0] as usize).unwrap_or(&[])
    }
}

impl Display for Outcome {
    fn fmt(&self, f: &mut Formatter<'_>) -> fmt::Result {
        write!(f, "{} (", self.number)?;
        for value in self.values {
            match value {
                LEFT => write!(f, " -")?,
                value => write!(f, " {value}")?,
            }
        }
        let last = self.notes.iter().rposition(|&note| note != 0xa5a5_a5a5).map_or(0, |last| last + 1);
        write!(f, " ) rows {:?} notes {:?} ", self.rows, &self.notes[..last])?;
        write!(f, "logs {} {} state {:x?}", hex(&self.logs[0]), hex(&self.logs[1]), self.state)
    }
}
