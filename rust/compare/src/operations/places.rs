//! Where code is refused by 9 and 10 inside expressions.

use crate::answers::Answer;
use crate::calls::Call;
use crate::decode::{operands_around, Side};
use crate::expressions::{Expression, Operator};
use crate::layout::Layout;
use crate::tally::Checklist;

const ILL_FORMED: u32 = 9;
const TOO_DEEP: u32 = 10;

#[derive(Debug, Clone)]
pub struct Places {
    /// The bytes at which an expression was too deep.
    ninths: Checklist,
    /// In which operand code was refused.
    operands: Checklist,
}

impl Default for Places {
    fn default() -> Places {
        let operations = Operator::ALL.map(Operator::byte);
        let bytes = [Expression::READ].into_iter().chain(operations);
        let numbers = [ILL_FORMED, TOO_DEEP];
        let sides = [Side::Left, Side::Right];
        let operands = numbers.map(|number| sides.map(|side| operand(number, side)));
        Places {
            ninths: Checklist::new("10 at a ninth", bytes.map(byte)),
            operands: Checklist::new("refused in an operand", operands.concat()),
        }
    }
}

impl Places {
    /// Counts a call if its code is refused.
    pub fn count(&mut self, call: &Call, answer: Answer) {
        if !matches!(answer.number, ILL_FORMED | TOO_DEEP) {
            return;
        }
        let Some(sheet) = call.programme() else {
            return;
        };
        if let (TOO_DEEP, Some(found)) = (answer.number, byte_at(sheet, answer)) {
            self.ninths.count(byte(found));
        }
        let around = operands_around(sheet, answer.block, answer.offset);
        if let Some(side) = around.and_then(|around| around.last().copied()) {
            self.operands.count(operand(answer.number, side));
        }
    }

    pub fn lines(&self) -> Vec<String> {
        [&self.ninths, &self.operands]
            .map(Checklist::to_string)
            .into()
    }

    pub fn complaints(&self) -> Vec<String> {
        [&self.ninths, &self.operands]
            .map(Checklist::complaints)
            .concat()
    }
}

fn byte(byte: u8) -> String {
    format!("{byte:02X}")
}

fn operand(number: u32, side: Side) -> String {
    format!("{number} {side:?}")
}

/// The byte at which the code is refused.
fn byte_at(sheet: &[u8], answer: Answer) -> Option<u8> {
    let code = Layout::of(sheet)?.code_of(sheet, answer.block)?;
    code.get(answer.offset).copied()
}
