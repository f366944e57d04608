//! Why an element was set aside, from document 02, item 6: the verdict with its ground, by all elements of the part.

use crate::judge::{Answer, Element, MOST_OCTETS, Model, Verdict, answer, first_bad, header, receivable, whole};
use crate::rows::Form;

/// Checks 4, 3, 1, then 27: how the element came, and the ground of a reason.
pub fn why(table: &[u32], part: &[u8], start: u8, option: bool, number: usize) -> Result<Vec<usize>, Answer> {
    if let Some(row) = first_bad(table) {
        return Err(answer(4, &[row]));
    }
    if part.len() > MOST_OCTETS {
        return Err(answer(3, &[]));
    }
    let model = Model::new(table);
    let elements = model.elements(part, start, option).map_err(|cut| cut.refusal())?;
    let element = *elements.get(number).ok_or_else(|| answer(27, &[]))?;
    let first_of = |place: Option<usize>| {
        let ground = elements[..number].iter().find(|earlier| earlier.place.is_some() && earlier.place == place);
        ground.expect("an element of that place was met").start
    };
    let verdict = element.verdict as usize;
    Ok(match element.verdict {
        Verdict::Accepted | Verdict::Unknown => vec![verdict],
        Verdict::Malformed => vec![verdict, fault(&model, part, element)],
        Verdict::Repeated => vec![verdict, first_of(element.place)],
        Verdict::OutOfSequence => {
            vec![verdict, first_of(elements[..number].iter().filter_map(|earlier| earlier.place).max())]
        }
    })
}

/// The first that is true: 1 cut short, 2 under the least length, 3 kind not allowed.
fn fault(model: &Model, part: &[u8], element: Element) -> usize {
    let row = &model.rows()[element.place.expect("a malformed element has a place")];
    let octets = &part[element.start..][..element.length];
    let value = octets.get(header(row.form)..).unwrap_or(&[]);
    let faults = [
        whole(row.form, octets).is_none(),
        octets.len() < row.least,
        !receivable(row.form == Form::Half, row.set, value),
    ];
    1 + faults.iter().position(|&fault| fault).expect("a malformed element has a fault")
}
