//! The examples of document 01 under table P, and those of document 02: what the oracle itself has to say of them.

/// Part, option, order log, kept log.
pub type Example = (&'static [u8], bool, &'static [u8], &'static [u8]);

pub const READ: [Example; 15] = [
    (&[], false, &[], &[]),
    (&[0xc1, 0x10, 1, 0xaa], false, &[], &[]),
    (&[0x10, 0, 0x10, 1, 0xaa], false, &[2, 3], &[2, 0x10, 0, 3, 0x10, 1, 0xaa]),
    (&[0x31, 1, 2], false, &[0, 0x31], &[]),
    (&[0x52, 7, 8, 0xc1], false, &[0, 0x52, 4], &[1, 0xc1]),
    (&[0x52, 7, 8, 0xc1], true, &[0, 0x52, 0, 0xc0], &[]),
    (&[0x52, 7, 8, 0xc3], true, &[0, 0x52, 4], &[1, 0xc3]),
    (&[0xc1, 0x90, 0x10, 1, 0xaa], false, &[0, 0xc0, 1, 0, 0x10], &[1, 0x90]),
    (&[0x77, 0, 5, 0xaa, 0xc1], false, &[2], &[5, 0x77, 0, 5, 0xaa, 0xc1]),
    (&[0x6f, 0], false, &[1], &[2, 0x6f, 0]),
    (&[0x70, 0, 0], false, &[1], &[3, 0x70, 0, 0]),
    (&[5, 1, 0xaa], false, &[1], &[3, 5, 1, 0xaa]),
    (&[0xc2], false, &[], &[]),
    (&[0xc9], false, &[2], &[1, 0xc9]),
    (&[0x2f, 1, 0x0a], false, &[], &[]),
];

/// Part, and the four values of refusal 1, the last of them document 02's.
pub const CUT: [(&[u8], [u64; 4]); 2] = [(&[5, 2, 0xaa], [0, 5, 3, 1]), (&[0x7e, 0], [0, 0x7e, 2, 1])];

/// The octets from an unknown element's first octet on, and how many are missing, with the start number 0x78.
pub const MISSING: [(&[u8], u64); 9] = [
    (&[], 1),
    (&[5], 1),
    (&[5, 2, 0xaa], 1),
    (&[5, 0xff], 255),
    (&[0x7e], 2),
    (&[0x7e, 0], 1),
    (&[0x7e, 1], 1),
    (&[0x7e, 0xff, 0xff], 65_535),
    (&[0x7e, 0, 2, 0xaa], 1),
];

/// Part, the place that is set, its value, and what is written.
pub type Edited = (&'static [u8], usize, &'static [u8], &'static [u8]);

pub const EDITED: [Edited; 2] = [
    (&[0x10, 1, 0xaa, 0x77, 0, 0], 3, &[2], &[0x10, 1, 0xaa, 0x2f, 1, 2, 0x77, 0, 0]),
    (&[0x31, 1, 2], 3, &[1], &[0x31, 1, 1]),
];
