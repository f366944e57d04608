//! Compares the library with the Rust that it was carried over from. README.md says how.

pub mod calls;
mod common;
pub mod cores;
#[cfg(feature = "linked")]
mod declared {
    //! The functions of libnas.a, as include/nas.h declares them.
    include!(concat!(env!("OUT_DIR"), "/declared.rs"));
}
mod drive_checking;
mod drive_findings;
mod drive_logs;
mod drive_mandatory;
mod drive_pieces;
mod drive_reading;
mod drive_why;
mod drive_writing;
pub mod driver;
pub mod examples;
pub mod gen_logs;
pub mod gen_mandatory;
pub mod gen_parts;
pub mod gen_tables;
pub mod gen_writing;
pub mod interface;
pub mod judge;
pub mod judge_findings;
pub mod judge_mandatory;
pub mod judge_why;
pub mod judge_writing;
#[cfg(feature = "linked")]
mod linked;
#[cfg(feature = "linked-editing")]
mod linked_editing;
#[cfg(feature = "linked-findings")]
mod linked_findings;
#[cfg(feature = "linked-mandatory")]
mod linked_mandatory;
#[cfg(feature = "linked-writing")]
mod linked_writing;
pub mod oracle;
pub mod oracle_findings;
pub mod oracle_logs;
pub mod oracle_mandatory;
pub mod oracle_writing;
pub mod random;
pub mod recorded;
pub mod replay;
pub mod rows;
pub mod sides;
mod smaller;
