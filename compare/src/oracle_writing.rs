//! The oracle's writing: the Rust's `encode_optional_ies`, with a `known` closure that carries out the rows of document 01.

use crate::common::{self, IeOrder, NasError, UnknownIes, nas_message};
use crate::judge_writing::Filled;
use crate::oracle::Table;
use crate::rows::{Form, place_row, value_of};

/// A half octet, as the Rust has it.
pub(crate) struct Half {
    pub(crate) value: u8,
}

/// A value, and how many octets its length field has, which the Rust's types know themselves.
pub(crate) struct Framed<'a> {
    pub(crate) width: usize,
    pub(crate) octets: &'a [u8],
}

impl Framed<'_> {
    /// The length field, then the value.
    pub(crate) fn encode_into(&self, buffer: &mut Vec<u8>) -> common::Result<()> {
        let length = (self.octets.len() as u16).to_be_bytes();
        buffer.extend_from_slice(&length[2 - self.width..]);
        buffer.extend_from_slice(self.octets);
        Ok(())
    }
}

/// Both logs of a message that is written, as the Rust has them.
pub struct Logs {
    pub(crate) kept: UnknownIes,
    pub(crate) order: IeOrder,
}

impl Logs {
    pub fn new(filled: &Filled<'_>) -> Self {
        Self { kept: UnknownIes::from_octets(filled.kept.to_vec()), order: IeOrder::from_octets(filled.order.to_vec()) }
    }
}

/// `encode_optional_ies` over the rows of a table, behind what is in `buffer`.
pub fn write_into(table: &Table, filled: &Filled<'_>, logs: &Logs, buffer: &mut Vec<u8>) {
    let present = |place: usize| u128::from(place_row(filled.rows, place).source != 0) << place;
    let present = (0..table.places()).map(present).sum();
    let known = |buffer: &mut Vec<u8>, iei: u8| -> common::Result<()> {
        let Some(at) = common::place(table.index(), iei) else {
            return Ok(());
        };
        let place = place_row(filled.rows, at);
        let Some(octets) = value_of(place, filled.received, filled.set) else {
            return Ok(());
        };
        match table.rows()[at].form {
            Form::Half => {
                let value = Half { value: if place.source == 1 { octets[0] & 0x0f } else { octets[0] } };
                nas_message!(@encode_opt buffer, value, iei, tv1);
            }
            form => {
                let width = match form {
                    Form::Tlv => 1,
                    Form::TlvE => 2,
                    Form::Half | Form::Fixed(_) => 0,
                };
                let value = Framed { width, octets };
                nas_message!(@encode_opt buffer, value, iei);
            }
        }
        Ok(())
    };
    let written =
        common::encode_optional_ies(buffer, table.ieis(), table.index(), present, &logs.kept, &logs.order, &known);
    assert!(written.is_ok(), "values that fit their forms are written");
}

/// The same into octets of its own.
pub fn write(table: &Table, filled: &Filled<'_>) -> Vec<u8> {
    let mut buffer = Vec::new();
    write_into(table, filled, &Logs::new(filled), &mut buffer);
    buffer
}
