//! What a reading of a sheet comes to: items, in the order of their bytes.

/// Some bytes of a sheet and what they are. The items of a sheet have each of
/// its bytes once, in order; one of length 0 is a line that no byte stands for,
/// such as a closing brace, or marks where bytes are missing.
#[derive(Debug, Clone, PartialEq, Eq)]
pub struct Item {
    /// The place of the first byte in the sheet.
    pub at: usize,
    pub length: usize,
    /// For code: the block, and the offset in it as answers count it.
    pub in_block: Option<(usize, usize)>,
    pub what: What,
}

/// What an item's line says.
#[derive(Debug, Clone, PartialEq, Eq, Default)]
pub struct What {
    /// How far in the text stands.
    pub depth: usize,
    /// A line of the notation, or a comment; nothing for bytes that were not
    /// read.
    pub text: String,
    /// What is wrong here.
    pub mark: Option<Mark>,
}

/// A fault at its item.
#[derive(Debug, Clone, PartialEq, Eq)]
pub struct Mark {
    pub number: u32,
    pub reason: String,
    /// Whether it is the sheet's first fault, by which the sheet is refused.
    pub is_answer: bool,
}

/// Why a sheet is refused.
#[derive(Debug, Clone, PartialEq, Eq)]
pub struct Refused {
    /// 1 to 5 of a store sheet, 6 to 10 of a programme sheet.
    pub number: u32,
    /// Block and offset as the library answers them: 0 but for 9 and 10.
    pub block: usize,
    pub offset: usize,
    /// The byte of the sheet that it is at; where bytes are missing, the place
    /// where the first of them should stand.
    pub at: usize,
    /// What was found and what was wanted.
    pub reason: String,
}
