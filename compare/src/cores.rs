//! What a call that passes document 01's checks is answered by: the Rust, or the judge.

use crate::judge::{self, Cut, Model, Reading};
use crate::judge_mandatory::{self, FilledRows, RowsRead};
use crate::judge_writing::Filled;
use crate::oracle;
use crate::oracle_findings;
use crate::oracle_mandatory;
use crate::oracle_writing;
use crate::rows::MandatoryRow;

/// What the core of each call is answered by, where no check refuses.
pub trait Core {
    const NAME: &'static str;
    fn length(octets: &[u8], tlve_start: u8) -> Option<usize>;
    fn place_of(index: &[u8; 256], iei: u8) -> Option<usize>;
    fn kept_push(log: &[u8], iei: u8, data: &[u8]) -> Vec<u8>;
    fn kept_count(log: &[u8]) -> usize;
    fn kept_get(log: &[u8], k: usize) -> Option<(usize, usize)>;
    fn kept_clear(log: &[u8]) -> usize;
    fn order_push(log: &[u8], entry: u8, iei: u8) -> Vec<u8>;
    fn order_get(log: &[u8], k: usize) -> Option<Vec<u8>>;

    /// A table that passes the check.
    type Table;
    fn table(table: &[u32]) -> Self::Table;
    fn index(table: &Self::Table) -> [u8; 256];
    fn read(table: &Self::Table, part: &[u8], tlve_start: u8, option: bool) -> Result<Reading, Cut>;
    fn write(table: &Self::Table, filled: &Filled<'_>) -> Vec<u8>;
    fn findings(table: &Self::Table, kept: &[u8], order: &[u8]) -> Vec<[u32; 2]>;
    fn read_rows(rows: &[MandatoryRow], part: &[u8], lenient: bool) -> RowsRead;
    fn write_rows(filled: &FilledRows<'_>) -> Vec<u8>;
}

/// Document 01's checks by the judge, the answer of a call that passes them by the Rust: what is right.
pub struct ByRust;

impl Core for ByRust {
    const NAME: &'static str = "the Rust";

    fn length(octets: &[u8], tlve_start: u8) -> Option<usize> {
        oracle::generic_ie_length(octets, tlve_start)
    }
    fn place_of(index: &[u8; 256], iei: u8) -> Option<usize> {
        oracle::place_of(index, iei)
    }
    fn kept_push(log: &[u8], iei: u8, data: &[u8]) -> Vec<u8> {
        oracle::kept_push(log, iei, data)
    }
    fn kept_count(log: &[u8]) -> usize {
        oracle::kept_count(log)
    }
    fn kept_get(log: &[u8], k: usize) -> Option<(usize, usize)> {
        oracle::kept_get(log, k)
    }
    fn kept_clear(log: &[u8]) -> usize {
        oracle::kept_clear(log)
    }
    fn order_push(log: &[u8], entry: u8, iei: u8) -> Vec<u8> {
        oracle::order_push(log, entry, iei)
    }
    fn order_get(log: &[u8], k: usize) -> Option<Vec<u8>> {
        oracle::order_get(log, k)
    }

    type Table = oracle::Table;
    fn table(table: &[u32]) -> Self::Table {
        oracle::Table::new(table)
    }
    fn index(table: &Self::Table) -> [u8; 256] {
        *table.index()
    }
    fn read(table: &Self::Table, part: &[u8], tlve_start: u8, option: bool) -> Result<Reading, Cut> {
        oracle::read(table, part, tlve_start, option)
    }
    fn write(table: &Self::Table, filled: &Filled<'_>) -> Vec<u8> {
        oracle_writing::write(table, filled)
    }
    fn findings(table: &Self::Table, kept: &[u8], order: &[u8]) -> Vec<[u32; 2]> {
        oracle_findings::findings(table, kept, order)
    }
    fn read_rows(rows: &[MandatoryRow], part: &[u8], lenient: bool) -> RowsRead {
        oracle_mandatory::read_rows(rows, part, lenient)
    }
    fn write_rows(filled: &FilledRows<'_>) -> Vec<u8> {
        oracle_mandatory::write_rows(filled)
    }
}

/// Everything by the judge: stands for our side where libnas.a is not linked.
pub struct ByModel;

impl Core for ByModel {
    const NAME: &'static str = "the model";

    fn length(octets: &[u8], tlve_start: u8) -> Option<usize> {
        judge::unknown_length(octets, tlve_start)
    }
    fn place_of(index: &[u8; 256], iei: u8) -> Option<usize> {
        Some(usize::from(index[usize::from(iei)])).filter(|&place| place != 255)
    }
    fn kept_push(log: &[u8], iei: u8, data: &[u8]) -> Vec<u8> {
        judge::kept_push(log, iei, data)
    }
    fn kept_count(log: &[u8]) -> usize {
        judge::kept_list(log).map_or(0, |list| list.len())
    }
    fn kept_get(log: &[u8], k: usize) -> Option<(usize, usize)> {
        judge::kept_list(log)?.get(k).copied()
    }
    fn kept_clear(_: &[u8]) -> usize {
        0
    }
    fn order_push(log: &[u8], entry: u8, iei: u8) -> Vec<u8> {
        judge::order_push(log, entry, iei)
    }
    fn order_get(log: &[u8], k: usize) -> Option<Vec<u8>> {
        judge::order_list(log)?.get(k).map(|entry| entry.to_vec())
    }

    type Table = Model;
    fn table(table: &[u32]) -> Self::Table {
        Model::new(table)
    }
    fn index(table: &Self::Table) -> [u8; 256] {
        table.index()
    }
    fn read(table: &Self::Table, part: &[u8], tlve_start: u8, option: bool) -> Result<Reading, Cut> {
        table.read(part, tlve_start, option)
    }
    fn write(table: &Self::Table, filled: &Filled<'_>) -> Vec<u8> {
        table.write(filled)
    }
    fn findings(table: &Self::Table, kept: &[u8], order: &[u8]) -> Vec<[u32; 2]> {
        table.findings(kept, order)
    }
    fn read_rows(rows: &[MandatoryRow], part: &[u8], lenient: bool) -> RowsRead {
        judge_mandatory::read_rows(rows, part, lenient)
    }
    fn write_rows(filled: &FilledRows<'_>) -> Vec<u8> {
        judge_mandatory::write_rows(filled)
    }
}
