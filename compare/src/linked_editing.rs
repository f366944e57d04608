//! Our side's edits: the C interface of libnas.a.

use crate::declared::{nas_clear, nas_set};
use crate::interface::{Edited, Editing, Used, Values};
use crate::linked::Linked;

impl Editing for Linked {
    fn set(&self, table: &[u32], edited: Edited<'_>, value: &[u8], values: &mut Values) -> u32 {
        let Edited { rows, received, set, used, order, place } = edited;
        unsafe {
            nas_set(
                table.as_ptr(),
                table.len(),
                rows.as_mut_ptr(),
                rows.len(),
                received.as_ptr(),
                received.len(),
                set.as_mut_ptr(),
                set.len(),
                used,
                order.octets.as_ptr(),
                order.octets.len(),
                order.used,
                place,
                value.as_ptr(),
                value.len(),
                values.as_mut_ptr(),
            )
        }
    }

    fn clear(
        &self,
        table: &[u32],
        rows: &mut [u32],
        received: &[u8],
        set: Used<'_>,
        place: usize,
        values: &mut Values,
    ) -> u32 {
        unsafe {
            nas_clear(
                table.as_ptr(),
                table.len(),
                rows.as_mut_ptr(),
                rows.len(),
                received.as_ptr(),
                received.len(),
                set.octets.as_ptr(),
                set.octets.len(),
                set.used,
                place,
                values.as_mut_ptr(),
            )
        }
    }
}
