//! The way to a command inside its block (document 02, N8): "the child taken (from
//! 0; then-part 0, else-part 1, body 0) and the branch label inside it, from the
//! block's command to the command whose step is next".

use crate::code::{Block, Command, Form};
use crate::order::{Order, Principal};

/// A part that was taken, and the branch label inside it.
#[derive(Debug, Clone, Copy)]
pub(crate) struct Taken {
    pub child: u8,
    pub label: Principal,
}

/// A block's number, and the parts taken in it from its command inwards.
#[derive(Debug, Clone)]
pub(crate) struct Way {
    pub block: usize,
    pub parts: Vec<Taken>,
}

impl Way {
    /// To the first block's command.
    pub fn opening() -> Way {
        Way {
            block: 0,
            parts: Vec::new(),
        }
    }

    /// Whether a run can be taken up there. The branch label "is top at a block's
    /// start".
    pub fn leads_to_a_step(&self, blocks: &[Block], order: &Order) -> bool {
        let block = blocks.get(self.block);
        block.is_some_and(|block| leads(order, &block.command, order.top(), &self.parts))
    }
}

/// 19 is "when the path doesn't lead to an assignment, if or while, a label isn't
/// at or below the one outside it (equal in a sequence)". A guard's own label is
/// not looked at.
fn leads(order: &Order, command: &Command, outside: Principal, parts: &[Taken]) -> bool {
    let Some((taken, further)) = parts.split_first() else {
        return command.has_step();
    };
    let follows = match command.form {
        Form::Sequence(_) => taken.label == outside,
        _ => order.at_or_below(taken.label, outside),
    };
    let part = command.part(taken.child);
    follows && part.is_some_and(|part| leads(order, part, taken.label, further))
}
