//! A model of documents 01 and 02, written from their text alone: the table checks, the unknown length, both logs, reading, and the
//! refusals in their order. It judges what the Rust does not have; for what the Rust has, the oracle's answer is handed in.

use crate::rows::{Form, MANDATORY_WIDTH, PLACE, Row, WIDTH, rows_of};

/// The limits of refusal 3.
pub const MOST_OCTETS: usize = 65_535;
pub const MOST_LOG: usize = 131_070;

/// A number of document 01 and its values.
#[derive(Debug, Clone, PartialEq, Eq)]
pub struct Answer {
    pub number: u32,
    pub values: Vec<u64>,
}

pub fn answer(number: u32, values: &[usize]) -> Answer {
    Answer { number, values: values.iter().map(|&value| value as u64).collect() }
}

// ---- the table checks ("Rows of a table")

/// The first bad row of an optional table.
pub fn first_bad(table: &[u32]) -> Option<usize> {
    let mut met = [false; 256];
    table.chunks(WIDTH).enumerate().position(|(k, row)| k >= 128 || !good_row(row, &mut met))
}

fn good_row(row: &[u32], met: &mut [bool; 256]) -> bool {
    let &[count, a, b, c, d, code, size, least, greatest, set] = row else {
        return false;
    };
    let ranges = (1..=4).contains(&count)
        && code <= 3
        && (code != 1 || size <= 255)
        && least <= greatest
        && greatest <= 65_538
        && (1..=greatest_set(code == 0)).contains(&set);
    ranges
        && [a, b, c, d][..count as usize].iter().all(|&iei| {
            let fits = match code {
                0 => (0x80..=0xff).contains(&iei) && iei & 0x0f == 0,
                _ => iei < 0x80,
            };
            fits && !std::mem::replace(&mut met[iei as usize], true)
        })
}

/// The greatest set, of a half octet or of another form (document 02, item 5).
fn greatest_set(half: bool) -> u32 {
    if half { 65_535 } else { 255 }
}

/// The first bad row of a mandatory table.
pub fn first_bad_mandatory(table: &[u32]) -> Option<usize> {
    let code = |k: usize| table.get(MANDATORY_WIDTH * k).copied();
    table.chunks(MANDATORY_WIDTH).enumerate().position(|(k, row)| {
        let &[form, size, least, set] = row else {
            return true;
        };
        let alone = match form {
            0 => code(k + 1) != Some(1),
            1 => k == 0 || code(k - 1) != Some(0),
            _ => false,
        };
        let range = match form {
            0 | 1 => least == 0,
            2 => (1..=255).contains(&size) && least <= 65_537,
            3 | 4 => least <= 65_537,
            _ => false,
        };
        k >= 32 || alone || !range || !(1..=greatest_set(form <= 1)).contains(&set)
    })
}

// ---- lengths ("Reading the optional part")

/// The whole length of an element of a form; none where it is cut short.
pub fn whole(form: Form, octets: &[u8]) -> Option<usize> {
    let octet = |k: usize| octets.get(k).map(|&octet| usize::from(octet));
    let length = match form {
        Form::Half => 1,
        Form::Fixed(size) => 1 + size,
        Form::Tlv => 2 + octet(1)?,
        Form::TlvE => 3 + 256 * octet(1)? + octet(2)?,
    };
    (length <= octets.len()).then_some(length)
}

/// The octets before the value; a half octet's value is its whole octet.
pub fn header(form: Form) -> usize {
    match form {
        Form::Half => 0,
        Form::Fixed(_) => 1,
        Form::Tlv => 2,
        Form::TlvE => 3,
    }
}

/// The value rule: an empty value is receivable, another when the kind that its first octet ends in is in the set. A kind
/// is three bits, and of a half octet four, which are the low ones of its whole octet.
pub fn receivable(half: bool, set: u32, value: &[u8]) -> bool {
    match value {
        [] => true,
        [first, ..] if half => set & (1 << (first % 16)) != 0,
        [first, ..] => set & (1 << (first % 8)) != 0,
    }
}

/// The length of an unknown element; none where it is cut short, as no octet is.
pub fn unknown_length(octets: &[u8], start: u8) -> Option<usize> {
    let form = match *octets.first()? {
        0x80.. => Form::Half,
        first if start <= first => Form::TlvE,
        _ => Form::Tlv,
    };
    whole(form, octets)
}

/// The octets missing of an unknown element that is cut short (document 02, item 2): up to the stated length, or, where the
/// length field is itself cut, up to the end of that field; 1 for no octet.
pub fn missing(octets: &[u8], start: u8) -> usize {
    let Some((&first, rest)) = octets.split_first() else {
        return 1;
    };
    let field = if start <= first { 2 } else { 1 };
    let stated =
        rest.get(..field).map(|field| field.iter().fold(0, |stated, &octet| 256 * stated + usize::from(octet)));
    field + stated.unwrap_or(0) - rest.len()
}

/// An unknown element that asks to be understood: cut short, it refuses the part.
fn required(first: u8) -> bool {
    matches!(first, 0..=0x0f | 0x7e | 0x7f)
}

/// The IEI of an element, by its first octet.
pub fn iei_of(first: u8) -> u8 {
    if first >= 0x80 { first & 0xf0 } else { first }
}

/// The index of a table that passes the check.
pub fn index_of(table: &[u32]) -> [u8; 256] {
    index_by(&rows_of(table))
}

pub fn index_by(rows: &[Row]) -> [u8; 256] {
    let mut index = [255; 256];
    for (place, row) in rows.iter().enumerate() {
        for &iei in &row.ieis {
            index[usize::from(iei)] = place as u8;
        }
    }
    index
}

// ---- reading

/// Why an element stands in the order log as it does: document 01's entries 00 to 04.
#[derive(Debug, Clone, Copy, PartialEq, Eq, PartialOrd, Ord)]
pub enum Verdict {
    Accepted,
    Unknown,
    Malformed,
    Repeated,
    OutOfSequence,
}

#[derive(Debug, Clone, Copy)]
pub struct Element {
    pub start: usize,
    pub length: usize,
    pub place: Option<usize>,
    pub verdict: Verdict,
}

/// An unknown element that is cut short and refuses its part: refusal 1.
#[derive(Debug, Clone, Copy, PartialEq, Eq)]
pub struct Cut {
    pub start: usize,
    pub first: u8,
    pub octets: usize,
    pub missing: usize,
}

impl Cut {
    pub fn refusal(self) -> Answer {
        answer(1, &[self.start, usize::from(self.first), self.octets, self.missing])
    }
}

/// Where a reading is: the position, the places met, and the highest of them.
pub struct State {
    pub at: usize,
    pub met: [bool; 128],
    pub highest: usize,
}

impl Default for State {
    fn default() -> Self {
        Self { at: 0, met: [false; 128], highest: 0 }
    }
}

/// What reading leaves: the place rows and the used octets of both logs.
#[derive(Debug, Clone, PartialEq, Eq)]
pub struct Reading {
    pub rows: Vec<u32>,
    pub kept: Vec<u8>,
    pub order: Vec<u8>,
}

/// A table that passes the check, to be read by.
pub struct Model {
    rows: Vec<Row>,
    index: [u8; 256],
}

impl Model {
    pub fn new(table: &[u32]) -> Self {
        Self { rows: rows_of(table), index: index_of(table) }
    }

    pub fn rows(&self) -> &[Row] {
        &self.rows
    }

    pub fn index(&self) -> [u8; 256] {
        self.index
    }

    /// The element at a state, and the state behind it; none at the end.
    pub fn next(&self, part: &[u8], start: u8, option: bool, state: &mut State) -> Option<Result<Element, Cut>> {
        let rest = part.get(state.at..).filter(|rest| !rest.is_empty())?;
        let element = match self.index[usize::from(iei_of(rest[0]))] {
            255 => match unknown_length(rest, start) {
                None if required(rest[0]) => {
                    let missing = missing(rest, start);
                    return Some(Err(Cut { start: state.at, first: rest[0], octets: rest.len(), missing }));
                }
                length => Element {
                    start: state.at,
                    length: length.unwrap_or(rest.len()),
                    place: None,
                    verdict: Verdict::Unknown,
                },
            },
            place => {
                let place = usize::from(place);
                let row = &self.rows[place];
                let length = whole(row.form, rest);
                let half = row.form == Form::Half;
                let good = length.is_some_and(|length| {
                    length >= row.least && receivable(half, row.set, &rest[header(row.form)..length])
                });
                let late = place < state.highest;
                let verdict = if state.met[place] {
                    Verdict::Repeated
                } else if good && (!late || option) {
                    Verdict::Accepted
                } else if late {
                    Verdict::OutOfSequence
                } else {
                    Verdict::Malformed
                };
                state.met[place] = true;
                state.highest = state.highest.max(place);
                Element { start: state.at, length: length.unwrap_or(rest.len()), place: Some(place), verdict }
            }
        };
        state.at += element.length;
        Some(Ok(element))
    }

    /// The elements of a part.
    pub fn elements(&self, part: &[u8], start: u8, option: bool) -> Result<Vec<Element>, Cut> {
        let mut state = State::default();
        std::iter::from_fn(|| self.next(part, start, option, &mut state)).collect()
    }

    /// What reading leaves of a part.
    pub fn read(&self, part: &[u8], start: u8, option: bool) -> Result<Reading, Cut> {
        let elements = self.elements(part, start, option)?;
        let mut reading = Reading { rows: vec![0; PLACE * self.rows.len()], kept: Vec::new(), order: Vec::new() };
        // The lowest place that may come next while the order log stays empty.
        let mut lowest = 0;
        let mut in_order = true;
        for element in &elements {
            let octets = &part[element.start..][..element.length];
            let iei = iei_of(octets[0]);
            match (element.verdict, element.place) {
                (Verdict::Accepted, Some(place)) => {
                    let row = &self.rows[place];
                    let header = header(row.form);
                    reading.rows[PLACE * place] = 1;
                    reading.rows[PLACE * place + 1] = (element.start + header) as u32;
                    reading.rows[PLACE * place + 2] = (element.length - header) as u32;
                    reading.order.extend([0, iei]);
                    in_order &= place >= lowest && iei == row.ieis[0];
                    lowest = place + 1;
                }
                (verdict, _) => {
                    reading.order.push(verdict as u8);
                    reading.kept.extend(kept_entry(octets));
                    in_order = false;
                }
            }
        }
        if in_order {
            reading.order.clear();
        }
        fill_ieis(&self.rows, &self.index, &reading.order, &mut reading.rows);
        Ok(reading)
    }
}

/// The IEI of a place (document 02, item 9): the earliest that a well-formed order log gives it, or its first.
pub fn iei_for(rows: &[Row], index: &[u8; 256], order: &[u8], place: usize) -> u32 {
    let gives = |entry: &&[u8]| matches!(entry, [0, iei] if usize::from(index[usize::from(*iei)]) == place);
    let logged = order_list(order).unwrap_or_default().into_iter().find(gives).map(|entry| entry[1]);
    u32::from(logged.unwrap_or(rows[place].ieis[0]))
}

/// That of every present place, into its row.
pub fn fill_ieis(rows: &[Row], index: &[u8; 256], order: &[u8], places: &mut [u32]) {
    for place in 0..rows.len() {
        if places[PLACE * place] != 0 {
            places[PLACE * place + 3] = iei_for(rows, index, order, place);
        }
    }
}

/// The element at a state: checks 4, 3, then 1. Its length, IEI, place or 255, and verdict; at the end none.
pub fn next(
    table: &[u32],
    part: &[u8],
    read: impl FnOnce() -> Option<Result<Element, Cut>>,
) -> Result<Vec<usize>, Answer> {
    if let Some(row) = first_bad(table) {
        return Err(answer(4, &[row]));
    }
    if part.len() > MOST_OCTETS {
        return Err(answer(3, &[]));
    }
    let element = read().transpose().map_err(Cut::refusal)?;
    let said = |element: Element| {
        let iei = usize::from(iei_of(part[element.start]));
        vec![element.length, iei, element.place.unwrap_or(255), element.verdict as usize]
    };
    Ok(element.map_or(vec![], said))
}

/// Checking a part that another program made (document 02, item 8), with its checks in their order: 4, 3, 1, 29. An element offends that
/// is not accepted, is not of a place above all before it, is not under its first IEI, or is longer than its row's greatest length.
pub fn checking(table: &[u32], part: &[u8], start: u8) -> Result<(), Answer> {
    if let Some(row) = first_bad(table) {
        return Err(answer(4, &[row]));
    }
    if part.len() > MOST_OCTETS {
        return Err(answer(3, &[]));
    }
    let model = Model::new(table);
    let elements = model.elements(part, start, true).map_err(Cut::refusal)?;
    let mut before = None;
    for element in elements {
        let good = element.place.is_some_and(|place| {
            let row = &model.rows[place];
            element.verdict == Verdict::Accepted
                && before.is_none_or(|before| before < place)
                && iei_of(part[element.start]) == row.ieis[0]
                && element.length <= row.greatest
        });
        if !good {
            return Err(answer(29, &[element.start]));
        }
        before = element.place;
    }
    Ok(())
}

/// How much was lent to reading: numbers of place rows, octets of both logs.
#[derive(Debug, Clone, Copy)]
pub struct Room {
    pub rows: usize,
    pub kept: usize,
    pub order: usize,
}

/// Reading with its checks in their order: 4, 3, 2 (1), 1, 2 (2), 2 (3). `read` is what the part is read by.
pub fn reading(
    table: &[u32],
    part: &[u8],
    room: Room,
    read: impl FnOnce() -> Result<Reading, Cut>,
) -> Result<Reading, Answer> {
    if let Some(row) = first_bad(table) {
        return Err(answer(4, &[row]));
    }
    if part.len() > MOST_OCTETS {
        return Err(answer(3, &[]));
    }
    if room.rows < PLACE * (table.len() / WIDTH) {
        return Err(answer(2, &[1]));
    }
    let reading = read().map_err(Cut::refusal)?;
    if room.kept < reading.kept.len() {
        return Err(answer(2, &[2]));
    }
    if room.order < reading.order.len() {
        return Err(answer(2, &[3]));
    }
    Ok(reading)
}

/// Reading into one block: 4, 3, 2 (1), 1, then 2 (2) where the two logs together do not fit.
pub fn reading_block(
    table: &[u32],
    part: &[u8],
    rows: usize,
    block: usize,
    read: impl FnOnce() -> Result<Reading, Cut>,
) -> Result<Reading, Answer> {
    let reading = reading(table, part, Room { rows, kept: usize::MAX, order: usize::MAX }, read)?;
    if block < reading.kept.len() + reading.order.len() {
        return Err(answer(2, &[2]));
    }
    Ok(reading)
}

// ---- the logs ("Results"; "Pieces in port order", 3 and 4)

/// An element in the kept log: its octet count in unsigned LEB128, then its octets.
fn kept_entry(element: &[u8]) -> Vec<u8> {
    let mut entry = Vec::with_capacity(3 + element.len());
    let mut count = element.len();
    while count > 127 {
        entry.push((count % 128 + 128) as u8);
        count /= 128;
    }
    entry.push(count as u8);
    entry.extend_from_slice(element);
    entry
}

/// Start and length of each element of a kept log; none where the log is malformed.
pub fn kept_list(log: &[u8]) -> Option<Vec<(usize, usize)>> {
    let mut list = Vec::new();
    let mut at = 0;
    while at < log.len() {
        // A count of at most 65,535 in its shortest form has at most three octets.
        let size = 1 + log[at..].iter().take(3).take_while(|&&octet| octet >= 128).count();
        let digits = log.get(at..at + size).filter(|digits| digits[size - 1] < 128)?;
        let count = digits.iter().rev().fold(0, |count, &digit| 128 * count + usize::from(digit % 128));
        let shortest = size == 1 || digits[size - 1] != 0;
        if !shortest || count == 0 || count > MOST_OCTETS || at + size + count > log.len() {
            return None;
        }
        list.push((at + size, count));
        at += size + count;
    }
    Some(list)
}

/// The entries of an order log, each as its octets; none where the log is malformed.
pub fn order_list(log: &[u8]) -> Option<Vec<&[u8]>> {
    let mut list = Vec::new();
    let mut at = 0;
    while at < log.len() {
        let size = match log[at] {
            0 => 2,
            1..=4 => 1,
            _ => return None,
        };
        list.push(log.get(at..at + size)?);
        at += size;
    }
    Some(list)
}

/// Which log: its number in refusals 11 and 2, and whether its octets are malformed.
#[derive(Clone, Copy)]
pub enum Log {
    Kept,
    Order,
}

impl Log {
    pub fn malformed(self, log: &[u8]) -> Option<Answer> {
        match self {
            Log::Kept => kept_list(log).is_none().then(|| answer(11, &[2])),
            Log::Order => order_list(log).is_none().then(|| answer(11, &[1])),
        }
    }

    fn no_room(self) -> Answer {
        match self {
            Log::Kept => answer(2, &[2]),
            Log::Order => answer(2, &[3]),
        }
    }
}

/// The used octets of a well-formed log, for a question: checks 3, 11.
pub fn used_log(which: Log, log: &[u8], used: usize) -> Result<&[u8], Answer> {
    let content = log.get(..used).filter(|_| used <= MOST_LOG).ok_or_else(|| answer(3, &[]))?;
    which.malformed(content).map_or(Ok(content), Err)
}

/// The used octets of a well-formed log, for a push of an element or entry of `size` octets that takes `entry` octets in the
/// log: checks 3, 11, 2. `entry` is none where what is pushed is no entry of the log: 11 in its place.
pub fn log_to_push(which: Log, log: &[u8], used: usize, size: usize, entry: Option<usize>) -> Result<&[u8], Answer> {
    let after = used.saturating_add(entry.unwrap_or(0));
    if used > log.len() || used > MOST_LOG || size > MOST_OCTETS || after > MOST_LOG {
        return Err(answer(3, &[]));
    }
    if entry.is_none() {
        return Err(answer(11, &[1]));
    }
    if let Some(malformed) = which.malformed(&log[..used]) {
        return Err(malformed);
    }
    if after > log.len() {
        return Err(which.no_room());
    }
    Ok(&log[..used])
}

/// How many octets an element of `size` octets takes in the kept log.
pub fn kept_size(size: usize) -> usize {
    size + match size {
        0..=0x7f => 1,
        0x80..=0x3fff => 2,
        _ => 3,
    }
}

/// The log after a push.
pub fn kept_push(log: &[u8], iei: u8, data: &[u8]) -> Vec<u8> {
    [log, &kept_entry(&[&[iei], data].concat())].concat()
}

pub fn order_push(log: &[u8], entry: u8, iei: u8) -> Vec<u8> {
    match entry {
        0 => [log, &[0, iei]].concat(),
        _ => [log, &[entry]].concat(),
    }
}
