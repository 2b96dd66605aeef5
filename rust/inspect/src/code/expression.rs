//! Expressions in code.

use model::{Expression, Operator, Value};
use muntyzhap::code::{LITERAL, MOST_NESTED, READ};

use super::{CodeFault, Reader};
use crate::layout::number;
use crate::words;

impl Reader<'_> {
    /// One expression with so many reads and operations around it: "the ninth is
    /// refused by 10" (document 02, N5), unless its byte is unknown. A literal is
    /// of no depth. The depth bounds the recursion.
    pub fn expression(&mut self, around: usize) -> Result<Expression, CodeFault> {
        let at = self.at;
        let byte = self.byte("an expression should start")?;
        if byte == LITERAL {
            return self.literal().map(Expression::Literal);
        }
        let operator = Operator::from_byte(byte);
        if byte != READ && operator.is_none() {
            return Err(CodeFault::unknown_expression(at, byte));
        }
        let depth = around + 1;
        if depth > MOST_NESTED {
            let what = "a read or an operation";
            let limit = format!("in an expression they nest at most {MOST_NESTED} deep");
            let reason = format!("{what} {depth} deep; {limit}");
            return Err(CodeFault::too_deep(at, reason));
        }
        let first = Box::new(self.expression(depth)?);
        match operator {
            None => Ok(Expression::Read(first)),
            Some(operator) => {
                let right = Box::new(self.expression(depth)?);
                Ok(Expression::Operation(operator, first, right))
            }
        }
    }

    /// "a bad literal at its kind byte, and the kind is judged before the
    /// payload's bytes are counted" (document 01)
    fn literal(&mut self) -> Result<Value, CodeFault> {
        let at = self.at;
        let kind = self.byte("a value's kind should stand")?;
        if !words::is_kind(kind) {
            return Err(CodeFault::ill_formed(at, 1, words::unknown_kind(kind)));
        }
        let payload = number(self.payload()?);
        words::value(kind, payload, self.slots)
            .map_err(|reason| CodeFault::ill_formed(at, Value::BYTES, reason))
    }

    fn payload(&mut self) -> Result<&[u8], CodeFault> {
        let left = self.code.get(self.at..).unwrap_or_default();
        let payload = left.get(..Value::PAYLOAD_BYTES).ok_or_else(|| {
            let here = format!("{} of {} bytes", left.len(), Value::PAYLOAD_BYTES);
            self.ends(&format!("a value's payload should go on: {here}"))
        })?;
        self.at += Value::PAYLOAD_BYTES;
        Ok(payload)
    }

    pub fn byte(&mut self, wanted: &str) -> Result<u8, CodeFault> {
        let byte = self.code.get(self.at).copied();
        let byte = byte.ok_or_else(|| self.ends(wanted))?;
        self.at += 1;
        Ok(byte)
    }

    /// "code that ends early (offset: the block's length)" (document 01)
    fn ends(&self, wanted: &str) -> CodeFault {
        let reason = match self.code.is_empty() {
            true => "the block has no code, and a block is exactly one command".to_string(),
            false => format!("the code ends where {wanted}"),
        };
        CodeFault::ill_formed(self.code.len(), 0, reason)
    }
}
