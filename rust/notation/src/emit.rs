//! The bytes of code, stores and programmes.

use model::{Code, Command, Expression, Floor, Form, Programme, Store};
use muntyzhap::code::{self, LITERAL, READ};
use muntyzhap::{sheet, BuildError};

/// The code of a command.
#[derive(Debug, Clone, PartialEq, Eq, Default)]
pub struct Emitted {
    pub bytes: Vec<u8>,
    /// Of each command, in order of its bytes, the offset of the first one and
    /// its [`at`](Command::at).
    pub commands: Vec<(usize, usize)>,
}

/// The code of a command, with those inside. Its sequences have 2 to 255 commands:
/// of others the count byte is wrong, and the library refuses it (9).
pub fn emit(command: &Command) -> Emitted {
    let mut emitted = Emitted::default();
    emitted.command(command);
    emitted
}

impl Emitted {
    fn command(&mut self, command: &Command) {
        self.commands.push((self.bytes.len(), command.at));
        self.bytes.push(command.form.kind().byte());
        match &command.form {
            Form::Skip => {}
            Form::Assignment { target, value } => {
                self.expression(target);
                self.expression(value);
            }
            Form::Sequence(commands) => {
                let count = u8::try_from(commands.len());
                self.bytes.push(count.unwrap_or(u8::MAX));
            }
            Form::If { guard, .. } | Form::While { guard, .. } => self.expression(guard),
        }
        for part in command.form.parts() {
            self.command(part);
        }
    }

    fn expression(&mut self, expression: &Expression) {
        match expression {
            Expression::Literal(value) => {
                self.bytes.push(LITERAL);
                self.bytes.extend(value.to_bytes());
            }
            Expression::Read(view) => {
                self.bytes.push(READ);
                self.expression(view);
            }
            Expression::Operation(operator, left, right) => {
                self.bytes.push(operator.byte());
                self.expression(left);
                self.expression(right);
            }
        }
    }
}

/// The store sheet of a store.
///
/// # Errors
/// For what no store sheet can hold. Whether its order table is good, the library
/// judges.
pub fn store_bytes(store: &Store) -> Result<Vec<u8>, BuildError> {
    let slots = store.slots.iter();
    let slots = slots.map(|slot| sheet::Slot::new(slot.owner, slot.value));
    sheet::store_sheet(&store.masks, &slots.collect::<Result<Vec<_>, _>>()?)
}

/// The programme sheet of a programme.
///
/// # Errors
/// For what no programme sheet can hold. Whether its code is well-formed, the
/// library judges.
pub fn programme_bytes(programme: &Programme) -> Result<Vec<u8>, BuildError> {
    let blocks = programme.blocks.iter().map(sheet_block);
    let blocks = blocks.collect::<Result<Vec<_>, _>>()?;
    let mut sheet = sheet::programme_sheet(&blocks)?;
    // The floors stand right before the code, a byte each.
    let code: usize = blocks.iter().map(|block| block.code().len()).sum();
    let floors = sheet.len() - code - blocks.len();
    for (block, byte) in programme.blocks.iter().zip(&mut sheet[floors..]) {
        if let Floor::Ignored(ignored) = block.floor {
            *byte = ignored;
        }
    }
    Ok(sheet)
}

fn sheet_block(block: &model::Block) -> Result<sheet::Block, BuildError> {
    let code = code::Code::unjudged(match &block.code {
        Code::Command(command) => emit(command).bytes,
        Code::Raw(bytes) => bytes.clone(),
    });
    match block.floor {
        Floor::DownTo(floor) => sheet::Block::endorsed(block.region, floor, code),
        Floor::Ignored(_) => sheet::Block::new(block.region, code),
    }
}
