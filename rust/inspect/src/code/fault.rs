//! What can be wrong with code: 9 and 10.

use muntyzhap::code::{CommandKind, EQUAL, LITERAL};

use crate::words::hex;

const ILL_FORMED: u32 = 9;
const TOO_DEEP: u32 = 10;

/// Why a block's code is refused, and the bytes that this is about.
pub(crate) struct CodeFault {
    pub number: u32,
    pub at: usize,
    pub length: usize,
    pub reason: String,
}

impl CodeFault {
    /// So many bytes are not what code has there.
    pub fn ill_formed(at: usize, length: usize, reason: String) -> CodeFault {
        CodeFault {
            number: ILL_FORMED,
            at,
            length,
            reason,
        }
    }

    /// This byte starts something that is nested too deep.
    pub fn too_deep(at: usize, reason: String) -> CodeFault {
        CodeFault {
            number: TOO_DEEP,
            at,
            length: 1,
            reason,
        }
    }

    pub fn unknown_command(at: usize, byte: u8) -> CodeFault {
        let (first, last) = (CommandKind::Skip, CommandKind::While);
        CodeFault::unknown(at, byte, "command", first.byte(), last.byte())
    }

    pub fn unknown_expression(at: usize, byte: u8) -> CodeFault {
        CodeFault::unknown(at, byte, "expression", LITERAL, EQUAL)
    }

    fn unknown(at: usize, byte: u8, of: &str, first: u8, last: u8) -> CodeFault {
        let (byte, first, last) = (hex(byte), hex(first), hex(last));
        let reason = format!("{byte} is no {of}'s first byte ({first} to {last})");
        CodeFault::ill_formed(at, 1, reason)
    }
}
