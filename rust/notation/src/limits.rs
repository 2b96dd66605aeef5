//! Limits of code that only whole commands can pass.

use model::{Block, Code, Command};
use muntyzhap::code::MOST_DEPTH;
use muntyzhap::sheet::MOST_CODE;

use crate::emit::emit;
use crate::error::Errors;
use crate::token::{place_at, Token};

/// Tells of the first command that is too deep, in order of bytes. Braces around
/// one command do not count.
pub fn judge_depth(command: &Command, tokens: &[Token], errors: &mut Errors) {
    if let Some(deep) = too_deep(command, 1) {
        let depth = MOST_DEPTH + 1;
        let message =
            format!("commands nest at most {MOST_DEPTH} deep, and this one is at depth {depth}");
        errors.add(place_at(tokens, deep.at), message);
    }
}

fn too_deep(command: &Command, depth: usize) -> Option<&Command> {
    if depth > MOST_DEPTH {
        return Some(command);
    }
    let mut parts = command.form.parts().into_iter();
    parts.find_map(|part| too_deep(part, depth + 1))
}

/// Tells of the command with the first byte of code that is too much.
pub fn judge_code(blocks: &[Block], tokens: &[Token], errors: &mut Errors) {
    let mut before = 0;
    for block in blocks {
        let Code::Command(command) = &block.code else {
            continue;
        };
        let emitted = emit(command);
        let after = before + emitted.bytes.len();
        if before <= MOST_CODE && after > MOST_CODE {
            let most = MOST_CODE - before;
            let mut commands = emitted.commands.iter().rev();
            let passing = commands.find(|(offset, _)| *offset <= most);
            let at = passing.map_or(command.at, |(_, at)| *at);
            let message = format!(
                "a programme has at most {MOST_CODE} bytes of code, and this command passes that"
            );
            errors.add(place_at(tokens, at), message);
        }
        before = after;
    }
}
