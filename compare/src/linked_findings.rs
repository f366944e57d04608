//! Our side's findings: the C interface of libnas.a.

use crate::declared::nas_findings;
use crate::interface::{Findings, Used, Values};
use crate::linked::Linked;

impl Findings for Linked {
    fn findings(
        &self,
        table: &[u32],
        kept: Used<'_>,
        order: Used<'_>,
        findings: &mut [u32],
        values: &mut Values,
    ) -> u32 {
        unsafe {
            nas_findings(
                table.as_ptr(),
                table.len(),
                kept.octets.as_ptr(),
                kept.octets.len(),
                kept.used,
                order.octets.as_ptr(),
                order.octets.len(),
                order.used,
                findings.as_mut_ptr(),
                findings.len(),
                values.as_mut_ptr(),
            )
        }
    }
}
