//! The C interface as traits: each call returns document 01's number and puts its values into `values`, in front of them how
//! many there are; the places behind them it leaves as they were.

pub type Values = [u64; 5];

/// A state of reading: position, places met from 0 to 63 and from 64 to 127, highest place met.
pub type State = [u64; 4];

/// Memory lent to reading.
pub struct Lent<'a> {
    pub rows: &'a mut [u32],
    pub kept: &'a mut [u8],
    pub order: &'a mut [u8],
}

/// What is lent to reading into one block.
pub struct Block<'a> {
    pub rows: &'a mut [u32],
    pub block: &'a mut [u8],
}

/// Lent octets and how many of them are used.
#[derive(Clone, Copy)]
pub struct Used<'a> {
    pub octets: &'a [u8],
    pub used: usize,
}

/// What is written: place rows with the octets of their values, and both logs.
#[derive(Clone, Copy)]
pub struct Message<'a> {
    pub rows: &'a [u32],
    pub received: &'a [u8],
    pub set: Used<'a>,
    pub kept: Used<'a>,
    pub order: Used<'a>,
}

/// The small pieces and reading, which every library has, and the families that came later.
pub trait Side {
    fn name(&self) -> &'static str;
    fn generic_ie_length(&self, octets: &[u8], tlve_start: u8, values: &mut Values) -> u32;
    fn check_table(&self, table: &[u32], values: &mut Values) -> u32;
    fn check_mandatory_table(&self, table: &[u32], values: &mut Values) -> u32;
    fn iei_index(&self, table: &[u32], index: &mut [u8; 256]) -> u32;
    fn place_of(&self, index: &[u8; 256], iei: u8, values: &mut Values) -> u32;
    fn kept_push(&self, log: &mut [u8], used: usize, iei: u8, data: &[u8], values: &mut Values) -> u32;
    fn kept_count(&self, log: &[u8], used: usize, values: &mut Values) -> u32;
    fn kept_get(&self, log: &[u8], used: usize, k: usize, values: &mut Values) -> u32;
    fn kept_clear(&self, log: &[u8], used: usize, values: &mut Values) -> u32;
    fn order_push(&self, log: &mut [u8], used: usize, entry: u8, iei: u8, values: &mut Values) -> u32;
    fn order_get(&self, log: &[u8], used: usize, k: usize, values: &mut Values) -> u32;
    fn read(&self, part: &[u8], table: &[u32], tlve_start: u8, option: u8, lent: Lent<'_>, values: &mut Values) -> u32;
    fn read_by(&self, number: u32, part: &[u8], option: u8, lent: Lent<'_>, values: &mut Values) -> u32;
    fn read_block(
        &self,
        part: &[u8],
        table: &[u32],
        tlve_start: u8,
        option: u8,
        lent: Block<'_>,
        values: &mut Values,
    ) -> u32;
    fn read_block_by(&self, number: u32, part: &[u8], option: u8, lent: Block<'_>, values: &mut Values) -> u32;
    fn check_part(&self, part: &[u8], table: &[u32], tlve_start: u8, values: &mut Values) -> u32;
    fn check_part_by(&self, number: u32, part: &[u8], values: &mut Values) -> u32;
    fn next(
        &self,
        part: &[u8],
        table: &[u32],
        tlve_start: u8,
        option: u8,
        state: &mut State,
        values: &mut Values,
    ) -> u32;
    fn why(
        &self,
        part: &[u8],
        table: &[u32],
        tlve_start: u8,
        option: u8,
        element: usize,
        values: &mut Values,
    ) -> u32;
    fn why_by(&self, number: u32, part: &[u8], option: u8, element: usize, values: &mut Values) -> u32;
    fn show(
        &self,
        table: &[u32],
        rows: &[u32],
        received: &[u8],
        set: Used<'_>,
        place: usize,
        values: &mut Values,
    ) -> u32;

    /// None where the library has no such calls yet.
    fn editing(&self) -> Option<&dyn Editing>;
    fn writing(&self) -> Option<&dyn Writing>;
    fn mandatory(&self) -> Option<&dyn Mandatory>;
    fn findings(&self) -> Option<&dyn Findings>;
}

/// Writing an optional part.
pub trait Writing {
    fn write(&self, table: &[u32], message: Message<'_>, output: &mut [u8], values: &mut Values) -> u32;
    fn write_by(&self, number: u32, message: Message<'_>, output: &mut [u8], values: &mut Values) -> u32;
}

/// Edits of the places of a message.
pub trait Editing {
    fn set(&self, table: &[u32], edited: Edited<'_>, value: &[u8], values: &mut Values) -> u32;
    fn clear(
        &self,
        table: &[u32],
        rows: &mut [u32],
        received: &[u8],
        set: Used<'_>,
        place: usize,
        values: &mut Values,
    ) -> u32;
}

/// Memory lent to setting, and the place that is set.
pub struct Edited<'a> {
    pub rows: &'a mut [u32],
    pub received: &'a [u8],
    pub set: &'a mut [u8],
    pub used: usize,
    pub order: Used<'a>,
    pub place: usize,
}

/// Row and number of each note.
pub type Notes = [u32; 64];

/// Mandatory rows, read and written.
pub trait Mandatory {
    fn read_mandatory(
        &self,
        part: &[u8],
        table: &[u32],
        lenient: u8,
        rows: &mut [u32],
        notes: &mut Notes,
        values: &mut Values,
    ) -> u32;
    fn read_mandatory_by(
        &self,
        number: u32,
        part: &[u8],
        lenient: u8,
        rows: &mut [u32],
        notes: &mut Notes,
        values: &mut Values,
    ) -> u32;
    fn write_mandatory(
        &self,
        table: &[u32],
        rows: &[u32],
        received: &[u8],
        set: Used<'_>,
        output: &mut [u8],
        values: &mut Values,
    ) -> u32;
    fn write_mandatory_by(
        &self,
        number: u32,
        rows: &[u32],
        received: &[u8],
        set: Used<'_>,
        output: &mut [u8],
        values: &mut Values,
    ) -> u32;
}

/// Findings: entry number and kind of each.
pub trait Findings {
    fn findings(
        &self,
        table: &[u32],
        kept: Used<'_>,
        order: Used<'_>,
        findings: &mut [u32],
        values: &mut Values,
    ) -> u32;
}
