//! Our side: the C interface of libnas.a.

use crate::declared::{
    nas_check_mandatory_table, nas_check_part, nas_check_part_by, nas_check_table, nas_generic_ie_length, nas_iei_index,
    nas_kept_clear, nas_kept_count, nas_kept_get, nas_kept_push, nas_next, nas_order_get, nas_order_push, nas_place_of,
    nas_read, nas_read_block, nas_read_block_by, nas_read_by, nas_show, nas_why, nas_why_by,
};
use crate::interface::{Block, Editing, Findings, Lent, Mandatory, Side, State, Used, Values, Writing};

/// The library. Each call hands on a slice as its pointer and its length, which is all that the interface asks for.
pub struct Linked;

impl Side for Linked {
    fn name(&self) -> &'static str {
        "libnas.a"
    }

    fn generic_ie_length(&self, octets: &[u8], tlve_start: u8, values: &mut Values) -> u32 {
        unsafe { nas_generic_ie_length(octets.as_ptr(), octets.len(), tlve_start, values.as_mut_ptr()) }
    }

    fn check_table(&self, table: &[u32], values: &mut Values) -> u32 {
        unsafe { nas_check_table(table.as_ptr(), table.len(), values.as_mut_ptr()) }
    }

    fn check_mandatory_table(&self, table: &[u32], values: &mut Values) -> u32 {
        unsafe { nas_check_mandatory_table(table.as_ptr(), table.len(), values.as_mut_ptr()) }
    }

    fn iei_index(&self, table: &[u32], index: &mut [u8; 256]) -> u32 {
        unsafe { nas_iei_index(table.as_ptr(), table.len(), index.as_mut_ptr()) }
    }

    fn place_of(&self, index: &[u8; 256], iei: u8, values: &mut Values) -> u32 {
        unsafe { nas_place_of(index.as_ptr(), index.len(), iei, values.as_mut_ptr()) }
    }

    fn kept_push(&self, log: &mut [u8], used: usize, iei: u8, data: &[u8], values: &mut Values) -> u32 {
        unsafe { nas_kept_push(log.as_mut_ptr(), log.len(), used, iei, data.as_ptr(), data.len(), values.as_mut_ptr()) }
    }

    fn kept_count(&self, log: &[u8], used: usize, values: &mut Values) -> u32 {
        unsafe { nas_kept_count(log.as_ptr(), log.len(), used, values.as_mut_ptr()) }
    }

    fn kept_get(&self, log: &[u8], used: usize, k: usize, values: &mut Values) -> u32 {
        unsafe { nas_kept_get(log.as_ptr(), log.len(), used, k, values.as_mut_ptr()) }
    }

    fn kept_clear(&self, log: &[u8], used: usize, values: &mut Values) -> u32 {
        unsafe { nas_kept_clear(log.as_ptr(), log.len(), used, values.as_mut_ptr()) }
    }

    fn order_push(&self, log: &mut [u8], used: usize, entry: u8, iei: u8, values: &mut Values) -> u32 {
        unsafe { nas_order_push(log.as_mut_ptr(), log.len(), used, entry, iei, values.as_mut_ptr()) }
    }

    fn order_get(&self, log: &[u8], used: usize, k: usize, values: &mut Values) -> u32 {
        unsafe { nas_order_get(log.as_ptr(), log.len(), used, k, values.as_mut_ptr()) }
    }

    fn read(&self, part: &[u8], table: &[u32], tlve_start: u8, option: u8, lent: Lent<'_>, values: &mut Values) -> u32 {
        unsafe {
            nas_read(
                part.as_ptr(),
                part.len(),
                table.as_ptr(),
                table.len(),
                tlve_start,
                option,
                lent.rows.as_mut_ptr(),
                lent.rows.len(),
                lent.kept.as_mut_ptr(),
                lent.kept.len(),
                lent.order.as_mut_ptr(),
                lent.order.len(),
                values.as_mut_ptr(),
            )
        }
    }

    fn read_by(&self, number: u32, part: &[u8], option: u8, lent: Lent<'_>, values: &mut Values) -> u32 {
        unsafe {
            nas_read_by(
                number,
                part.as_ptr(),
                part.len(),
                option,
                lent.rows.as_mut_ptr(),
                lent.rows.len(),
                lent.kept.as_mut_ptr(),
                lent.kept.len(),
                lent.order.as_mut_ptr(),
                lent.order.len(),
                values.as_mut_ptr(),
            )
        }
    }

    fn read_block(
        &self,
        part: &[u8],
        table: &[u32],
        tlve_start: u8,
        option: u8,
        lent: Block<'_>,
        values: &mut Values,
    ) -> u32 {
        unsafe {
            nas_read_block(
                part.as_ptr(),
                part.len(),
                table.as_ptr(),
                table.len(),
                tlve_start,
                option,
                lent.rows.as_mut_ptr(),
                lent.rows.len(),
                lent.block.as_mut_ptr(),
                lent.block.len(),
                values.as_mut_ptr(),
            )
        }
    }

    fn read_block_by(&self, number: u32, part: &[u8], option: u8, lent: Block<'_>, values: &mut Values) -> u32 {
        unsafe {
            nas_read_block_by(
                number,
                part.as_ptr(),
                part.len(),
                option,
                lent.rows.as_mut_ptr(),
                lent.rows.len(),
                lent.block.as_mut_ptr(),
                lent.block.len(),
                values.as_mut_ptr(),
            )
        }
    }

    fn check_part(&self, part: &[u8], table: &[u32], tlve_start: u8, values: &mut Values) -> u32 {
        let (part_len, table_len) = (part.len(), table.len());
        unsafe {
            nas_check_part(part.as_ptr(), part_len, table.as_ptr(), table_len, tlve_start, values.as_mut_ptr())
        }
    }

    fn check_part_by(&self, number: u32, part: &[u8], values: &mut Values) -> u32 {
        unsafe { nas_check_part_by(number, part.as_ptr(), part.len(), values.as_mut_ptr()) }
    }

    fn next(
        &self,
        part: &[u8],
        table: &[u32],
        tlve_start: u8,
        option: u8,
        state: &mut State,
        values: &mut Values,
    ) -> u32 {
        let (part_len, table_len) = (part.len(), table.len());
        unsafe {
            nas_next(
                part.as_ptr(),
                part_len,
                table.as_ptr(),
                table_len,
                tlve_start,
                option,
                state.as_mut_ptr(),
                values.as_mut_ptr(),
            )
        }
    }

    fn why(
        &self,
        part: &[u8],
        table: &[u32],
        tlve_start: u8,
        option: u8,
        element: usize,
        values: &mut Values,
    ) -> u32 {
        let (part_len, table_len) = (part.len(), table.len());
        unsafe {
            nas_why(
                part.as_ptr(),
                part_len,
                table.as_ptr(),
                table_len,
                tlve_start,
                option,
                element,
                values.as_mut_ptr(),
            )
        }
    }

    fn why_by(&self, number: u32, part: &[u8], option: u8, element: usize, values: &mut Values) -> u32 {
        unsafe { nas_why_by(number, part.as_ptr(), part.len(), option, element, values.as_mut_ptr()) }
    }

    fn show(
        &self,
        table: &[u32],
        rows: &[u32],
        received: &[u8],
        set: Used<'_>,
        place: usize,
        values: &mut Values,
    ) -> u32 {
        unsafe {
            nas_show(
                table.as_ptr(),
                table.len(),
                rows.as_ptr(),
                rows.len(),
                received.as_ptr(),
                received.len(),
                set.octets.as_ptr(),
                set.octets.len(),
                set.used,
                place,
                values.as_mut_ptr(),
            )
        }
    }

    fn editing(&self) -> Option<&dyn Editing> {
        #[cfg(feature = "linked-editing")]
        return Some(self);
        #[cfg(not(feature = "linked-editing"))]
        None
    }

    fn writing(&self) -> Option<&dyn Writing> {
        #[cfg(feature = "linked-writing")]
        return Some(self);
        #[cfg(not(feature = "linked-writing"))]
        None
    }

    fn mandatory(&self) -> Option<&dyn Mandatory> {
        #[cfg(feature = "linked-mandatory")]
        return Some(self);
        #[cfg(not(feature = "linked-mandatory"))]
        None
    }

    fn findings(&self) -> Option<&dyn Findings> {
        #[cfg(feature = "linked-findings")]
        return Some(self);
        #[cfg(not(feature = "linked-findings"))]
        None
    }
}
