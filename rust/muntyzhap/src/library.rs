//! The library's calls, declared as its sources in `crates` have them, and the
//! same calls over slices. All the unsafe code that a caller needs is here.

#![allow(unsafe_code)]

extern "C" {
    fn muntyzhap_version() -> u32;

    fn muntyzhap_check_store(sheet: *const u8, sheet_length: usize) -> u32;

    fn muntyzhap_check_table(sheet: *const u8, sheet_length: usize) -> u32;

    fn muntyzhap_check_programme(
        sheet: *const u8,
        sheet_length: usize,
        n: usize,
        slots: usize,
        block: *mut usize,
        offset: *mut usize,
    ) -> u32;

    fn muntyzhap_run(
        store: *const u8,
        store_length: usize,
        programme: *const u8,
        programme_length: usize,
        rule: u32,
        budget: u32,
        out: *mut u8,
        out_length: usize,
        journal: *mut Entry,
        journal_length: usize,
    ) -> Answer;

    fn muntyzhap_start(
        store: *const u8,
        store_length: usize,
        programme: *const u8,
        programme_length: usize,
        rule: u32,
        budget: u32,
        out: *mut u8,
        out_length: usize,
        pause: *mut u8,
        pause_length: usize,
    ) -> Answer;

    fn muntyzhap_carry_on(
        store: *const u8,
        store_length: usize,
        programme: *const u8,
        programme_length: usize,
        rule: u32,
        budget: u32,
        old: *const u8,
        old_length: usize,
        sheet: *const u8,
        sheet_length: usize,
        out: *mut u8,
        out_length: usize,
        pause: *mut u8,
        pause_length: usize,
    ) -> Answer;
}

/// "Each answer is number, block, offset, steps."
#[repr(C)]
#[derive(Debug, Clone, Copy, PartialEq, Eq)]
pub struct Answer {
    /// 0 for finished, else the refusal.
    pub number: u32,
    /// A block's number, or how many there are in a programme that finished.
    pub block: usize,
    /// A place in that block.
    pub offset: usize,
    /// The steps done.
    pub steps: u32,
}

impl Answer {
    /// An answer with three zeros after its number.
    pub fn only(number: u32) -> Answer {
        Answer {
            number,
            block: 0,
            offset: 0,
            steps: 0,
        }
    }
}

/// A value as a journal has it.
#[repr(C)]
#[derive(Debug, Clone, Copy, PartialEq, Eq, Default)]
pub struct Value {
    /// Its kind byte.
    pub kind: u8,
    /// All bits of its payload: a negative integer is in two's complement.
    pub payload: u64,
}

/// An entry of a journal: an assignment that was made. The default one is all
/// zeros.
#[repr(C)]
#[derive(Debug, Clone, Copy, PartialEq, Eq, Default)]
pub struct Entry {
    /// The number of the block whose command it was.
    pub block: usize,
    /// The number of the command's first byte in the block's code.
    pub offset: usize,
    /// The slot that was written.
    pub slot: usize,
    /// What the slot held before.
    pub old_value: Value,
    /// What was written to it.
    pub new_value: Value,
}

// Each call below is sound: a slice is handed over as its own pointer and
// length, no buffer that is written overlaps another, the library writes nothing
// but `out`, `journal`, `pause` and the numbers of the answer, and it keeps no
// pointer. What comes back are plain integers, in the answer and in the entries
// too, so nothing that it could answer or write is undefined behaviour.

/// The library's version as one number: major × 1,000,000 + minor × 1,000 + patch.
pub fn version() -> u32 {
    unsafe { muntyzhap_version() }
}

/// The refusal of a store sheet, 1 to 5, or 0.
pub fn check_store(sheet: &[u8]) -> u32 {
    unsafe { muntyzhap_check_store(sheet.as_ptr(), sheet.len()) }
}

/// The refusal of a table sheet, 1 to 4, or 0.
pub fn check_table(sheet: &[u8]) -> u32 {
    unsafe { muntyzhap_check_table(sheet.as_ptr(), sheet.len()) }
}

/// The refusal of a programme sheet against `n` principals and `slots` slots,
/// 6 to 10, or 0; its block and its offset there. No steps are done.
pub fn check_programme(sheet: &[u8], n: usize, slots: usize) -> Answer {
    // The two that the call writes start as what it never answers, so that one
    // left unwritten would show.
    let mut answer = Answer {
        block: usize::MAX,
        offset: usize::MAX,
        ..Answer::only(0)
    };
    answer.number = unsafe {
        muntyzhap_check_programme(
            sheet.as_ptr(),
            sheet.len(),
            n,
            slots,
            &mut answer.block,
            &mut answer.offset,
        )
    };
    answer
}

/// One run: its answer and, if that is 0, its output, and an entry of the
/// journal for each assignment made, in order; entries past these keep what
/// they held. A refusal leaves every byte of both as it was. A rule number that
/// is not 0, 1, 2, 3 or 255 is refused by 11, an output that has not
/// [`Slot::BYTES`](crate::sheet::Slot::BYTES) for each slot by 12, and the first
/// assignment for which no entry is free by 18.
pub fn run(
    store: &[u8],
    programme: &[u8],
    rule: u32,
    budget: u32,
    out: &mut [u8],
    journal: &mut [Entry],
) -> Answer {
    unsafe {
        muntyzhap_run(
            store.as_ptr(),
            store.len(),
            programme.as_ptr(),
            programme.len(),
            rule,
            budget,
            out.as_mut_ptr(),
            out.len(),
            journal.as_mut_ptr(),
            journal.len(),
        )
    }
}

/// The first stretch of a run that can be paused, with no journal. If its answer
/// is 0, the output is written and the pause buffer left as it was; if it is 17,
/// the output holds values and counts so far, and the pause buffer the pause
/// sheet to carry on from. Every other refusal leaves every byte of both as it
/// was. An output that has not [`Slot::BYTES`](crate::sheet::Slot::BYTES) for
/// each slot, or a pause buffer that has not
/// [`Checkpoint::PAUSE_BYTES`](crate::Checkpoint::PAUSE_BYTES), is refused by 12.
pub fn start(
    store: &[u8],
    programme: &[u8],
    rule: u32,
    budget: u32,
    out: &mut [u8],
    pause: &mut [u8],
) -> Answer {
    unsafe {
        muntyzhap_start(
            store.as_ptr(),
            store.len(),
            programme.as_ptr(),
            programme.len(),
            rule,
            budget,
            out.as_mut_ptr(),
            out.len(),
            pause.as_mut_ptr(),
            pause.len(),
        )
    }
}

/// The next stretch of a run over the same store and programme, from the output
/// and the pause sheet of the stretch before. The budget includes the steps so
/// far; one at or below them is answered by 17 at once. What is answered and
/// written is as of [`start`]; the lengths of the old output and sheet are judged
/// too (12), and then what they hold (19).
#[allow(clippy::too_many_arguments)]
pub fn carry_on(
    store: &[u8],
    programme: &[u8],
    rule: u32,
    budget: u32,
    old_out: &[u8],
    old_pause: &[u8],
    out: &mut [u8],
    pause: &mut [u8],
) -> Answer {
    unsafe {
        muntyzhap_carry_on(
            store.as_ptr(),
            store.len(),
            programme.as_ptr(),
            programme.len(),
            rule,
            budget,
            old_out.as_ptr(),
            old_out.len(),
            old_pause.as_ptr(),
            old_pause.len(),
            out.as_mut_ptr(),
            out.len(),
            pause.as_mut_ptr(),
            pause.len(),
        )
    }
}

/// A journal of so many entries, all zeros. Its pages are taken from the system
/// as they are written, so that room which no entry takes costs nothing.
pub fn empty_journal(length: usize) -> Box<[Entry]> {
    let journal = Box::<[Entry]>::new_zeroed_slice(length);
    // Sound: an entry is integers, and zeros are good for each.
    unsafe { journal.assume_init() }
}
