//! A small builder for sheets and code, for the tests of the second runner and
//! of the wrapper and for the list of cases in `vectors`. It knows the bytes of
//! documents 01 and 02 itself and takes nothing from a runner or from the
//! wrapper, so what it writes can be held against each of them. It writes what
//! it is told to: bad sheets too.

#![forbid(unsafe_code)]

mod call;
mod code;
mod output;
mod pause;
mod sheet;
mod value;

pub use crate::call::*;
pub use crate::code::*;
pub use crate::output::*;
pub use crate::pause::*;
pub use crate::sheet::*;
pub use crate::value::*;

/// Values, expressions, commands and sheets are their bytes.
pub type Bytes = Vec<u8>;

pub fn join(parts: &[&[u8]]) -> Bytes {
    parts.concat()
}

/// Bytes as the documents print them: hexadecimal, with spaces between.
pub fn hex(digits: &str) -> Bytes {
    let digits: Vec<char> = digits.chars().filter(|digit| *digit != ' ').collect();
    let byte = |pair: &[char]| {
        let pair: String = pair.iter().collect();
        u8::from_str_radix(&pair, 16).expect("two digits")
    };
    digits.chunks(2).map(byte).collect()
}
