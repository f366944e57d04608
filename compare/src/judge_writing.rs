//! The model of documents 01, "Writing", and 02, item 9: an optional part from its place rows and both logs, setting and clearing a place, and
//! their refusals in their order.

use std::rc::Rc;

use crate::interface::{Message, Used};
use crate::judge::{Answer, Log, MOST_LOG, MOST_OCTETS, Model, answer, first_bad, iei_for, index_of, kept_list, order_list};
use crate::rows::{Form, PLACE, Place, Row, WIDTH, place_row, rows_of, value_of, value_row};

/// A message that passed its checks: of logs and set octets, those that are used.
#[derive(Clone, Copy)]
pub struct Filled<'a> {
    pub rows: &'a [u32],
    pub received: &'a [u8],
    pub set: &'a [u8],
    pub kept: &'a [u8],
    pub order: &'a [u8],
}

/// The used octets of lent ones; none where more are used than there are, or than may be.
fn content(used: Used<'_>, most: usize) -> Option<&[u8]> {
    used.octets.get(..used.used).filter(|content| content.len() <= most)
}

/// Received octets, and the used set octets: refusal 3.
pub fn contents<'a>(received: &'a [u8], set: Used<'a>) -> Result<(&'a [u8], &'a [u8]), Answer> {
    let set = content(set, MOST_OCTETS).filter(|_| received.len() <= MOST_OCTETS);
    set.map(|set| (received, set)).ok_or_else(|| answer(3, &[]))
}

/// The used octets of both logs, kept first: refusal 3.
pub fn logs<'a>(kept: Used<'a>, order: Used<'a>) -> Result<(&'a [u8], &'a [u8]), Answer> {
    content(kept, MOST_LOG).zip(content(order, MOST_LOG)).ok_or_else(|| answer(3, &[]))
}

/// Both logs are well formed: refusals 11 (1), 11 (2).
pub fn logs_well_formed(kept: &[u8], order: &[u8]) -> Result<(), Answer> {
    match Log::Order.malformed(order).or(Log::Kept.malformed(kept)) {
        Some(refusal) => Err(refusal),
        None => Ok(()),
    }
}

/// Room for so many rows, each of so many numbers, all of them well formed: refusals 2 (1) and 11 (3), the one before `between`
/// and the other after it.
pub fn rows_well_formed(
    rows: &[u32],
    (count, width): (usize, usize),
    received: &[u8],
    set: &[u8],
    between: impl FnOnce() -> Result<(), Answer>,
) -> Result<(), Answer> {
    if rows.len() < width * count {
        return Err(answer(2, &[1]));
    }
    between()?;
    let row = |k: usize| if width == PLACE { place_row(rows, k) } else { value_row(rows, k) };
    match (0..count).any(|k| malformed(row(k), received, set)) {
        true => Err(answer(11, &[3])),
        false => Ok(()),
    }
}

fn malformed(place: Place, received: &[u8], set: &[u8]) -> bool {
    let ends_within = |octets: &[u8]| u64::from(place.start) + u64::from(place.length) <= octets.len() as u64;
    match place.source {
        0 => place.start != 0 || place.length != 0 || place.iei != 0,
        1 => !ends_within(received),
        2 => !ends_within(set),
        _ => true,
    }
}

/// A present row with another IEI than the order log gives its place: refusal 11 (3).
fn rows_agree(rows: &[u32], table: &[Row], index: &[u8; 256], order: &[u8]) -> Result<(), Answer> {
    let agrees = |place: usize| {
        let row = place_row(rows, place);
        row.source == 0 || row.iei == iei_for(table, index, order, place)
    };
    match (0..table.len()).all(agrees) {
        true => Ok(()),
        false => Err(answer(11, &[3])),
    }
}

/// Whether a value fits its form. Of a received half octet four bits count, so each fits.
fn fits(form: Form, received: bool, value: &[u8]) -> bool {
    match form {
        Form::Half => value.len() == 1 && (received || value[0] <= 15),
        Form::Fixed(size) => value.len() == size,
        Form::Tlv => value.len() <= 255,
        Form::TlvE => value.len() <= 65_535,
    }
}

/// What passed the checks of writing: 4, 3, 2 (1), 11 (1), 11 (2), 11 (3), 10.
pub fn writing<'a>(
    table: &[u32],
    model: impl FnOnce() -> Rc<Model>,
    message: Message<'a>,
) -> Result<Filled<'a>, Answer> {
    match first_bad(table) {
        Some(row) => Err(answer(4, &[row])),
        None => filled(&model(), message),
    }
}

/// The same of a table that passes the check.
pub fn filled<'a>(model: &Model, message: Message<'a>) -> Result<Filled<'a>, Answer> {
    let (received, set) = contents(message.received, message.set)?;
    let (kept, order) = logs(message.kept, message.order)?;
    let places = model.rows().len();
    rows_well_formed(message.rows, (places, PLACE), received, set, || logs_well_formed(kept, order))?;
    rows_agree(message.rows, model.rows(), &model.index(), order)?;
    let unfit = model.rows().iter().enumerate().position(|(place, row)| {
        let place = place_row(message.rows, place);
        value_of(place, received, set).is_some_and(|value| !fits(row.form, place.source == 1, value))
    });
    match unfit {
        Some(place) => Err(answer(10, &[place])),
        None => Ok(Filled { rows: message.rows, received, set, kept, order }),
    }
}

/// What is written next: a place under an IEI, or an element of the kept log.
enum Piece {
    Place(usize, u8),
    Kept(usize, usize),
}

impl Model {
    /// What is written, in its order.
    fn pieces(&self, filled: &Filled<'_>) -> Vec<Piece> {
        let entries = order_list(filled.order).unwrap_or_default();
        let place_of = |iei: u8| Some(usize::from(self.index()[usize::from(iei)])).filter(|&place| place != 255);
        let present = |place: usize| place_row(filled.rows, place).source != 0;
        let mut added: Vec<bool> = (0..self.rows().len()).map(present).collect();
        for entry in &entries {
            if let [0, iei] = entry
                && let Some(place) = place_of(*iei)
            {
                added[place] = false;
            }
        }
        let mut added = (0..self.rows().len()).filter(|&place| added[place]).peekable();
        let mut kept = kept_list(filled.kept).unwrap_or_default().into_iter();
        let mut pieces = Vec::new();
        for entry in entries {
            match entry {
                [0, iei] => {
                    if let Some(place) = place_of(*iei) {
                        while let Some(lower) = added.next_if(|&lower| lower < place) {
                            pieces.push(Piece::Place(lower, self.rows()[lower].ieis[0]));
                        }
                        if present(place) {
                            pieces.push(Piece::Place(place, *iei));
                        }
                    }
                }
                _ => pieces.extend(kept.next().map(|(start, length)| Piece::Kept(start, length))),
            }
        }
        pieces.extend(added.map(|place| Piece::Place(place, self.rows()[place].ieis[0])));
        pieces.extend(kept.map(|(start, length)| Piece::Kept(start, length)));
        pieces
    }

    /// How many octets are written.
    pub fn needed(&self, filled: &Filled<'_>) -> u64 {
        let length = |piece: Piece| match piece {
            Piece::Kept(_, length) => length,
            Piece::Place(place, _) => {
                let value = place_row(filled.rows, place).length as usize;
                match self.rows()[place].form {
                    Form::Half => 1,
                    Form::Fixed(_) => 1 + value,
                    Form::Tlv => 2 + value,
                    Form::TlvE => 3 + value,
                }
            }
        };
        self.pieces(filled).into_iter().map(|piece| length(piece) as u64).sum()
    }

    /// The octets that are written.
    pub fn write(&self, filled: &Filled<'_>) -> Vec<u8> {
        let mut output = Vec::new();
        for piece in self.pieces(filled) {
            match piece {
                Piece::Kept(start, length) => output.extend(&filled.kept[start..][..length]),
                Piece::Place(place, iei) => {
                    let value = value_of(place_row(filled.rows, place), filled.received, filled.set).unwrap_or(&[]);
                    match self.rows()[place].form {
                        Form::Half => output.push(iei + value[0] % 16),
                        Form::Fixed(_) => output.push(iei),
                        Form::Tlv => output.extend([iei, value.len() as u8]),
                        Form::TlvE => output.extend([iei, (value.len() / 256) as u8, value.len() as u8]),
                    }
                    if self.rows()[place].form != Form::Half {
                        output.extend(value);
                    }
                }
            }
        }
        output
    }
}

/// A place of a message that is to be edited.
#[derive(Clone, Copy)]
pub struct Edit<'a> {
    pub table: &'a [u32],
    pub rows: &'a [u32],
    pub received: &'a [u8],
    pub set: Used<'a>,
    pub place: usize,
}

/// The form of a place that passed the checks of an edit by which `more` octets are set: 4, 3, 2 (1), 11 (3), which is also for
/// a place not in the table. With an order log 3 is also for it, and 11 (1) and the agreement of every row with it stand before
/// and behind the other 11 (3).
fn editing(edit: Edit<'_>, more: usize, order: Option<Used<'_>>) -> Result<Form, Answer> {
    if let Some(row) = first_bad(edit.table) {
        return Err(answer(4, &[row]));
    }
    let (received, set) = contents(edit.received, edit.set)?;
    let order = match order {
        Some(order) => Some(content(order, MOST_LOG).ok_or_else(|| answer(3, &[]))?),
        None => None,
    };
    if set.len() + more > MOST_OCTETS {
        return Err(answer(3, &[]));
    }
    rows_well_formed(edit.rows, (edit.table.len() / WIDTH, PLACE), received, set, || {
        order.and_then(|order| Log::Order.malformed(order)).map_or(Ok(()), Err)
    })?;
    if let Some(order) = order {
        rows_agree(edit.rows, &rows_of(edit.table), &index_of(edit.table), order)?;
    }
    match edit.table.chunks(WIDTH).nth(edit.place) {
        Some(row) => Ok(rows_of(row)[0].form),
        None => Err(answer(11, &[3])),
    }
}

/// How many set octets are used after a place was set, and its IEI: the checks of an edit, then 10 for the new value, 12.
pub fn setting(edit: Edit<'_>, order: Used<'_>, value: &[u8]) -> Result<(usize, u32), Answer> {
    if !fits(editing(edit, value.len(), Some(order))?, false, value) {
        return Err(answer(10, &[edit.place]));
    }
    let after = edit.set.used + value.len();
    if edit.set.octets.len() < after {
        return Err(answer(12, &[after]));
    }
    let order = &order.octets[..order.used];
    Ok((after, iei_for(&rows_of(edit.table), &index_of(edit.table), order, edit.place)))
}

/// The checks of clearing.
pub fn clearing(edit: Edit<'_>) -> Result<(), Answer> {
    editing(edit, 0, None).map(|_| ())
}

/// What a place shows: the checks of an edit, then 10 for that place. Of a half octet its four bits, of another value its
/// source, start and length, then the IEI; of an absent place none.
pub fn showing(edit: Edit<'_>) -> Result<Vec<usize>, Answer> {
    let form = editing(edit, 0, None)?;
    let place = place_row(edit.rows, edit.place);
    let Some(value) = value_of(place, edit.received, edit.set.octets) else {
        return Ok(vec![]);
    };
    match (fits(form, place.source == 1, value), form) {
        (false, _) => Err(answer(10, &[edit.place])),
        (true, Form::Half) => Ok(vec![usize::from(value[0] % 16), place.iei as usize]),
        (true, _) => Ok([place.source, place.start, place.length, place.iei].map(|number| number as usize).to_vec()),
    }
}
