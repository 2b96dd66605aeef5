//! The text notation: a text becomes sheets with names and places, and sheets
//! become a text. `docs/NOTATION.md` has its grammar.
//!
//! ```
//! let text = "
//!     principals nobody < digA, digB < lab
//!     slot place  : digA = write result
//!     slot result : digA = 0
//!     slot curve  : lab  = 50000
//!     block digA { place := write curve }
//!     block lab  { [place] := 42 }
//! ";
//! let assembled = notation::assemble(text).expect("a good text");
//! assert_eq!(assembled.names.slots, ["place", "result", "curve"]);
//! assert!(assembled.store.is_some() && assembled.programme.is_some());
//! ```
//!
//! A text that is not good gives all its errors, each with line and column:
//!
//! ```
//! let text = "principals digA < lab\nslot age : digB = 5\nblock digA { aeg = 6 }\n";
//! let errors = notation::assemble(text).expect_err("a bad text");
//! let told: Vec<String> = errors.iter().map(|error| error.to_string()).collect();
//! assert_eq!(told, [
//!     "2:12: there is no principal `digB`: did you mean `digA`?",
//!     "3:14: there is no slot `aeg`: did you mean `age`?",
//!     "3:18: an assignment is written with `:=`, not `=`",
//! ]);
//! ```

#![forbid(unsafe_code)]

mod blocks;
mod cursor;
mod emit;
mod error;
mod lexer;
mod limits;
mod misspelt;
mod parse;
mod place;
mod principals;
mod reading;
mod scope;
mod sign;
mod slots;
mod statement;
pub mod text;
mod token;
mod word;

use std::collections::BTreeMap;

use model::{Block, Code, Names};
use muntyzhap::BuildError;

pub use crate::emit::{emit, programme_bytes, store_bytes, Emitted};
pub use crate::error::Error;
pub use crate::place::{Place, Places};

use crate::error::Errors;
use crate::token::{place_at, Token};

/// The floor byte of a block that is not endorsed, where none is written.
const NO_FLOOR: u8 = 0;

/// What a text comes to.
#[derive(Debug, Clone, PartialEq, Eq)]
pub struct Assembled {
    /// The store sheet, if the text has a store: a `principals` line, and no slots
    /// without values.
    pub store: Option<Vec<u8>>,
    /// The programme sheet, if the text has a programme: a `block`, or `no
    /// blocks`.
    pub programme: Option<Vec<u8>>,
    /// What the text declares of principals and slots, if it does: those of its
    /// store, or those that a programme alone is for.
    pub tables: Option<Tables>,
    pub names: Names,
    pub places: Places,
}

/// An order table, a mask for each principal, and the owner of each slot.
#[derive(Debug, Clone, PartialEq, Eq)]
pub struct Tables {
    pub masks: Vec<u32>,
    pub owners: Vec<u8>,
}

/// The sheets of a text, of which it has at least one.
///
/// # Errors
/// All that are found, in order of place; of very many the first ones, and a last
/// one that says how many more there are.
pub fn assemble(text: &str) -> Result<Assembled, Vec<Error>> {
    let mut errors = Errors::default();
    let mut tokens = lexer::tokens(text, &mut errors);
    misspelt::mend(&mut tokens, &mut errors);
    let statements = statement::split(&tokens);
    let reading = reading::read(&tokens, &statements, &mut errors);
    errors.told()?;
    let store = reading.store.as_ref().map(store_bytes).transpose();
    let programme = reading.programme.as_ref().map(programme_bytes).transpose();
    let commands = reading
        .programme
        .iter()
        .flat_map(|programme| &programme.blocks);
    let commands = commands.map(|block| command_places(block, &tokens));
    let places = Places {
        commands: commands.collect(),
        principals: reading.principals,
        slots: reading.slots,
        blocks: reading.blocks,
    };
    Ok(Assembled {
        store: store.map_err(unwritten)?,
        programme: programme.map_err(unwritten)?,
        tables: reading.tables,
        names: reading.names,
        places,
    })
}

/// Where the commands of a block stand, by offset in its code.
fn command_places(block: &Block, tokens: &[Token]) -> BTreeMap<usize, Place> {
    let Code::Command(command) = &block.code else {
        return BTreeMap::new();
    };
    let commands = emit(command).commands.into_iter();
    commands
        .map(|(offset, at)| (offset, place_at(tokens, at)))
        .collect()
}

/// A limit that only the sheet's own builder found passed. Each is told with its
/// place before that, so this is for a limit that is new there.
fn unwritten(error: BuildError) -> Vec<Error> {
    vec![Error {
        line: Place::START.line,
        column: Place::START.column,
        message: error.to_string(),
        number: 1,
    }]
}
