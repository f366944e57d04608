//! Our side's mandatory rows: the C interface of libnas.a.

use crate::declared::{nas_read_mandatory, nas_read_mandatory_by, nas_write_mandatory, nas_write_mandatory_by};
use crate::interface::{Mandatory, Notes, Used, Values};
use crate::linked::Linked;

impl Mandatory for Linked {
    fn read_mandatory(
        &self,
        part: &[u8],
        table: &[u32],
        lenient: u8,
        rows: &mut [u32],
        notes: &mut Notes,
        values: &mut Values,
    ) -> u32 {
        unsafe {
            nas_read_mandatory(
                part.as_ptr(),
                part.len(),
                table.as_ptr(),
                table.len(),
                lenient,
                rows.as_mut_ptr(),
                rows.len(),
                notes.as_mut_ptr(),
                values.as_mut_ptr(),
            )
        }
    }

    fn read_mandatory_by(
        &self,
        number: u32,
        part: &[u8],
        lenient: u8,
        rows: &mut [u32],
        notes: &mut Notes,
        values: &mut Values,
    ) -> u32 {
        unsafe {
            nas_read_mandatory_by(
                number,
                part.as_ptr(),
                part.len(),
                lenient,
                rows.as_mut_ptr(),
                rows.len(),
                notes.as_mut_ptr(),
                values.as_mut_ptr(),
            )
        }
    }

    fn write_mandatory(
        &self,
        table: &[u32],
        rows: &[u32],
        received: &[u8],
        set: Used<'_>,
        output: &mut [u8],
        values: &mut Values,
    ) -> u32 {
        unsafe {
            nas_write_mandatory(
                table.as_ptr(),
                table.len(),
                rows.as_ptr(),
                rows.len(),
                received.as_ptr(),
                received.len(),
                set.octets.as_ptr(),
                set.octets.len(),
                set.used,
                output.as_mut_ptr(),
                output.len(),
                values.as_mut_ptr(),
            )
        }
    }

    fn write_mandatory_by(
        &self,
        number: u32,
        rows: &[u32],
        received: &[u8],
        set: Used<'_>,
        output: &mut [u8],
        values: &mut Values,
    ) -> u32 {
        unsafe {
            nas_write_mandatory_by(
                number,
                rows.as_ptr(),
                rows.len(),
                received.as_ptr(),
                received.len(),
                set.octets.as_ptr(),
                set.octets.len(),
                set.used,
                output.as_mut_ptr(),
                output.len(),
                values.as_mut_ptr(),
            )
        }
    }
}
