//! Our side's writing: the C interface of libnas.a.

use crate::declared::{nas_write, nas_write_by};
use crate::interface::{Message, Values, Writing};
use crate::linked::Linked;

impl Writing for Linked {
    fn write(&self, table: &[u32], message: Message<'_>, output: &mut [u8], values: &mut Values) -> u32 {
        let Message { rows, received, set, kept, order } = message;
        unsafe {
            nas_write(
                table.as_ptr(),
                table.len(),
                rows.as_ptr(),
                rows.len(),
                received.as_ptr(),
                received.len(),
                set.octets.as_ptr(),
                set.octets.len(),
                set.used,
                kept.octets.as_ptr(),
                kept.octets.len(),
                kept.used,
                order.octets.as_ptr(),
                order.octets.len(),
                order.used,
                output.as_mut_ptr(),
                output.len(),
                values.as_mut_ptr(),
            )
        }
    }

    fn write_by(&self, number: u32, message: Message<'_>, output: &mut [u8], values: &mut Values) -> u32 {
        let Message { rows, received, set, kept, order } = message;
        unsafe {
            nas_write_by(
                number,
                rows.as_ptr(),
                rows.len(),
                received.as_ptr(),
                received.len(),
                set.octets.as_ptr(),
                set.octets.len(),
                set.used,
                kept.octets.as_ptr(),
                kept.octets.len(),
                kept.used,
                order.octets.as_ptr(),
                order.octets.len(),
                order.used,
                output.as_mut_ptr(),
                output.len(),
                values.as_mut_ptr(),
            )
        }
    }
}
