//! Safe calls of the proved library. Every byte slice is accepted: the calls refuse what does not fit.
//! `docs/FORMATS.md` has every byte of what is lent.

use std::fmt;

/// The examples of the guide, as tests.
#[cfg(doctest)]
#[doc = include_str!("../../../docs/USING.md")]
struct Using;

/// The length of a map.
pub const MAP_BYTES: usize = 128;
/// The length of a state.
pub const STATE_BYTES: usize = 36;
/// The length of a trace's record of one step.
pub const TRACE_RECORD_BYTES: usize = 8;

/// The length of a listing page's line of one word, its line feed included.
pub const LINE_BYTES: usize = 32;

/// How many bytes the table of facts of an image has.
pub fn table_length(image: &[u8]) -> usize {
    image.len() / 2 * 144
}

/// How many bytes the trace of a recording has.
pub fn trace_length(recording: &[u8]) -> usize {
    recording.len() / 2 * TRACE_RECORD_BYTES
}

/// How many bytes the listing page of an image has.
pub fn page_length(image: &[u8]) -> usize {
    image.len() / 2 * LINE_BYTES
}

/// What a number says, in a few words: a refusal 11 to 18 or 41, a stop or finding 21 to 29, or what a check says of a cell,
/// 42 or 43.
pub fn text(number: u8) -> &'static str {
    match number {
        0 => "no refusal, stop or finding",
        11 => "the image is not 2 to 16,384 bytes, or of odd length",
        12 => "the map is not 128 bytes",
        13 => "the table is not 144 bytes for each word",
        14 => "the state is not 36 bytes or not well formed",
        15 => "the recording is of odd length",
        16 => "the trace is not four times as long as the recording",
        18 => "the bench's input is longer than 928 bytes",
        21 => "goes on, or would return, outside the code",
        22 => "an invalid word",
        23 => "reads at an address that is not readable",
        24 => "writes data at an address that is not writable",
        25 => "chooses an address that is not listed",
        26 => "a CALL with eight return addresses on the stack",
        27 => "a RET with an empty stack",
        28 => "an address or a CALL's page is not known",
        29 => "an XEC may execute an XEC",
        41 => "the page is not 32 bytes for each word",
        42 => "the cell's record in the table has not the layout",
        43 => "the table does not hold what reset or the cell passes on",
        _ => "unknown number",
    }
}

/// A call did not do what it was asked, and changed no byte.
#[derive(Clone, Copy, Debug, PartialEq, Eq)]
pub struct Refusal(u8);

impl Refusal {
    /// Which question got a no: 11 image, 12 map, 13 table, 14 state, 15 recording, 16 trace, 41 page; or 22, no valid word.
    pub fn number(self) -> u8 {
        self.0
    }
}

impl fmt::Display for Refusal {
    fn fmt(&self, f: &mut fmt::Formatter) -> fmt::Result {
        write!(f, "refused {}: {}", self.0, text(self.0))
    }
}

impl std::error::Error for Refusal {}

/// The answer's bits above its low byte, if that is 0; else what it refuses with.
fn unrefused(answer: u64) -> Result<u64, Refusal> {
    match answer as u8 {
        0 => Ok(answer >> 8),
        number => Err(Refusal(number)),
    }
}

mod raw {
    extern "C" {
        pub fn riptide_read_word(word: u16) -> u64;
        pub fn riptide_write_word(opcode: usize, field_1: usize, field_2: usize, field_3: usize) -> u64;
        pub fn riptide_count_sets(map: *const u8, map_len: usize) -> u64;
        pub fn riptide_reset(state: *mut u8, state_len: usize) -> u64;
        pub fn riptide_foretell(image: *const u8, image_len: usize) -> u64;
        pub fn riptide_admit(
            image: *const u8,
            image_len: usize,
            map: *const u8,
            map_len: usize,
            table: *mut u8,
            table_len: usize,
        ) -> u64;
        pub fn riptide_check(
            image: *const u8,
            image_len: usize,
            map: *const u8,
            map_len: usize,
            table: *const u8,
            table_len: usize,
        ) -> u64;
        pub fn riptide_run(
            image: *const u8,
            image_len: usize,
            map: *const u8,
            map_len: usize,
            state: *mut u8,
            state_len: usize,
            recording: *const u8,
            recording_len: usize,
            trace: *mut u8,
            trace_len: usize,
        ) -> u64;
        pub fn riptide_list(image: *const u8, image_len: usize, page: *mut u8, page_len: usize) -> u64;
    }
}

/// A word's opcode and its fields in the order of their bits; a field that the word does not have is 0. CALL has opcode 5,
/// 7 and its constant, RET opcode 5, 15 and its low byte.
#[derive(Clone, Copy, Debug, PartialEq, Eq)]
pub struct Fields {
    pub opcode: u8,
    pub fields: [u16; 3],
}

/// Reads a word; 22 if it is invalid.
pub fn read_word(word: u16) -> Result<Fields, Refusal> {
    let bits = unrefused(unsafe { raw::riptide_read_word(word) })?;
    Ok(Fields { opcode: bits as u8, fields: [8, 24, 40].map(|place| (bits >> place) as u16) })
}

/// Writes a word; 22 where a field is wider than its place or outside the paper's lists.
pub fn write_word(word: Fields) -> Result<u16, Refusal> {
    let [a, b, c] = word.fields.map(usize::from);
    let bits = unrefused(unsafe { raw::riptide_write_word(word.opcode.into(), a, b, c) })?;
    Ok(bits as u16)
}

/// How many addresses each set of a map has: left readable, left writable, right readable, right writable; 12 for a map
/// of another length.
pub fn count_sets(map: &[u8]) -> Result<[u16; 4], Refusal> {
    let bits = unrefused(unsafe { raw::riptide_count_sets(map.as_ptr(), map.len()) })?;
    Ok([0, 12, 24, 36].map(|place| (bits >> place & 0xfff) as u16))
}

/// What admission answers.
#[derive(Clone, Copy, Debug, PartialEq, Eq)]
pub enum AdmitAnswer {
    /// A door question got a no: 11 image, 12 map, 13 table.
    Refused(Refusal),
    /// No cell of the table has a finding.
    Admitted,
    /// Of all findings that stand in the table the one of lowest depth, and among those the one of lowest address.
    Found { number: u8, depth: u8, address: u16 },
}

impl fmt::Display for AdmitAnswer {
    fn fmt(&self, f: &mut fmt::Formatter) -> fmt::Result {
        match *self {
            AdmitAnswer::Refused(refusal) => refusal.fmt(f),
            AdmitAnswer::Admitted => f.write_str("admitted"),
            AdmitAnswer::Found { number, depth, address } => {
                write!(f, "refused {number} depth {depth} address {address}: {}", text(number))
            }
        }
    }
}

/// Admission's answer, and beside it the count of sweeps that changed the table: 0 where it is refused.
#[derive(Clone, Copy, Debug, PartialEq, Eq)]
pub struct Answered {
    pub answer: AdmitAnswer,
    pub sweeps: u32,
}

/// Reads an image under a map, and fills the table of facts.
pub fn admit(image: &[u8], map: &[u8], table: &mut [u8]) -> Answered {
    let number = unsafe {
        raw::riptide_admit(image.as_ptr(), image.len(), map.as_ptr(), map.len(), table.as_mut_ptr(), table.len())
    };
    let answer = match number as u8 {
        0 => AdmitAnswer::Admitted,
        refused @ 11..=18 => AdmitAnswer::Refused(Refusal(refused)),
        found => AdmitAnswer::Found { number: found, depth: (number >> 8) as u8, address: (number >> 16) as u16 },
    };
    Answered { answer, sweeps: (number >> 32) as u32 }
}

/// What the check of a table answers.
#[derive(Clone, Copy, Debug, PartialEq, Eq)]
pub enum CheckAnswer {
    /// A door question got a no: 11 image, 12 map, 13 table.
    Refused(Refusal),
    /// The program may be loaded: it runs within the facts of this table.
    Accepted,
    /// The first cell that fails: 42 its record has not the layout; 21 to 29 its finding; 43 it is the first cell and knows
    /// more than reset, or a next cell does not hold what it passes on.
    Failed { number: u8, depth: u8, address: u16 },
}

impl fmt::Display for CheckAnswer {
    fn fmt(&self, f: &mut fmt::Formatter) -> fmt::Result {
        match *self {
            CheckAnswer::Refused(refusal) => refusal.fmt(f),
            CheckAnswer::Accepted => f.write_str("accepted"),
            CheckAnswer::Failed { number, depth, address } => {
                write!(f, "failed {number} depth {depth} address {address}: {}", text(number))
            }
        }
    }
}

/// Checks a table that came along with an image and a map, whoever made it.
pub fn check(image: &[u8], map: &[u8], table: &[u8]) -> CheckAnswer {
    let number = unsafe {
        raw::riptide_check(image.as_ptr(), image.len(), map.as_ptr(), map.len(), table.as_ptr(), table.len())
    };
    match number as u8 {
        0 => CheckAnswer::Accepted,
        refused @ 11..=18 => CheckAnswer::Refused(Refusal(refused)),
        failed => CheckAnswer::Failed { number: failed, depth: (number >> 8) as u8, address: (number >> 16) as u16 },
    }
}

/// What an admission takes: the length of the table, and at most so many sweeps that change it.
#[derive(Clone, Copy, Debug, PartialEq, Eq)]
pub struct Foretold {
    pub table_length: usize,
    pub sweep_bound: u32,
}

/// Tells of an image alone what its admission takes, without doing the work; 11 for an image of another length.
pub fn foretell(image: &[u8]) -> Result<Foretold, Refusal> {
    let bits = unrefused(unsafe { raw::riptide_foretell(image.as_ptr(), image.len()) })?;
    Ok(Foretold { table_length: bits as usize & 0xff_ffff, sweep_bound: (bits >> 24) as u32 })
}

/// What a run answers.
#[derive(Clone, Copy, Debug, PartialEq, Eq)]
pub enum RunAnswer {
    /// A door question got a no: 11 image, 12 map, 14 state, 15 recording, 16 trace.
    Refused(Refusal),
    /// The count of trace records, and the stop number or 0.
    Ended { count: u64, stop: u8 },
}

/// Makes a state that of reset; 14 for a state of another length.
pub fn reset(state: &mut [u8]) -> Result<(), Refusal> {
    unrefused(unsafe { raw::riptide_reset(state.as_mut_ptr(), state.len()) })?;
    Ok(())
}

/// Runs an image under a map over the pairs of a recording. A program that is admitted, or accepted by [`check`], takes every
/// pair from reset on. To an admitted one the recording's bytes of a bank in which the map has nothing readable make no
/// difference.
pub fn run(image: &[u8], map: &[u8], state: &mut [u8], recording: &[u8], trace: &mut [u8]) -> RunAnswer {
    let answer = unsafe {
        raw::riptide_run(
            image.as_ptr(),
            image.len(),
            map.as_ptr(),
            map.len(),
            state.as_mut_ptr(),
            state.len(),
            recording.as_ptr(),
            recording.len(),
            trace.as_mut_ptr(),
            trace.len(),
        )
    };
    match (answer >> 8, answer as u8) {
        (0, number @ 11..=16) => RunAnswer::Refused(Refusal(number)),
        (count, stop) => RunAnswer::Ended { count, stop },
    }
}

/// A step's record in a trace.
#[derive(Clone, Copy, Debug, PartialEq, Eq)]
pub struct TraceRecord {
    /// 0 nothing on the bus, 1 and 2 left and right address chosen, 3 and 4 left and right data written, 5 stop.
    pub kind: u8,
    /// Kinds 1 to 4: the bank's address afterwards; else 0.
    pub address: u8,
    /// Kinds 3 and 4: the byte written; else 0.
    pub data: u8,
    /// Kind 5: the stop number; else 0.
    pub stop: u8,
    /// PC before the step.
    pub pc: u16,
    /// Where the step's word was fetched: another address than PC only if an XEC was pending.
    pub fetch: u16,
}

impl fmt::Display for TraceRecord {
    fn fmt(&self, f: &mut fmt::Formatter) -> fmt::Result {
        let TraceRecord { kind, address, data, stop, pc, fetch } = *self;
        write!(f, "PC {pc}")?;
        if fetch != pc {
            write!(f, ", word at {fetch}")?;
        }
        let bank = if kind % 2 == 1 { "left" } else { "right" };
        match kind {
            0 => f.write_str(": nothing"),
            1 | 2 => write!(f, ": {bank} address {address} chosen"),
            3 | 4 => write!(f, ": {data:02X} written at {bank} {address}"),
            5 => write!(f, ": stop {stop}, {}", text(stop)),
            _ => write!(f, ": no kind {kind}"),
        }
    }
}

/// The records of a trace, one for each step. A run has written as many as its answer counts; take no more.
pub fn records(trace: &[u8]) -> impl ExactSizeIterator<Item = TraceRecord> + '_ {
    trace.chunks_exact(TRACE_RECORD_BYTES).map(|record| TraceRecord {
        kind: record[0],
        address: record[1],
        data: record[2],
        stop: record[3],
        pc: u16::from_le_bytes([record[4], record[5]]),
        fetch: u16::from_le_bytes([record[6], record[7]]),
    })
}

/// Writes the listing of an image into a page: a line of 32 bytes of ASCII for each word; 11 for an image of another
/// length, 41 for a page of another length.
pub fn list(image: &[u8], page: &mut [u8]) -> Result<(), Refusal> {
    unrefused(unsafe { raw::riptide_list(image.as_ptr(), image.len(), page.as_mut_ptr(), page.len()) })?;
    Ok(())
}
