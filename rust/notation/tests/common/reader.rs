//! A small reader of good sheets.

use model::{Block, Code, Command, Expression, Floor, Form, Operator, Programme, Slot, Store};
use muntyzhap::code::{CommandKind, LITERAL, READ};
use muntyzhap::Value;

struct Bytes<'a>(&'a [u8]);

impl<'a> Bytes<'a> {
    fn take(&mut self, count: usize) -> &'a [u8] {
        let (taken, rest) = self.0.split_at(count);
        self.0 = rest;
        taken
    }

    fn byte(&mut self) -> u8 {
        self.take(1)[0]
    }

    /// A number of so many bytes, the lowest first.
    fn number(&mut self, bytes: usize) -> usize {
        let bytes = self.take(bytes).iter().rev();
        bytes.fold(0, |higher, byte| higher << 8 | usize::from(*byte))
    }

    fn value(&mut self) -> Value {
        Value::from_bytes(self.take(Value::BYTES)).expect("a value")
    }

    fn expression(&mut self) -> Expression {
        match self.byte() {
            LITERAL => Expression::Literal(self.value()),
            READ => Expression::Read(Box::new(self.expression())),
            byte => {
                let operator = Operator::from_byte(byte).expect("an operation");
                let left = Box::new(self.expression());
                Expression::Operation(operator, left, Box::new(self.expression()))
            }
        }
    }

    fn command(&mut self, all: usize) -> Command {
        let at = all - self.0.len();
        let kind = CommandKind::from_byte(self.byte()).expect("a command");
        let form = match kind {
            CommandKind::Skip => Form::Skip,
            CommandKind::Assignment => Form::Assignment {
                target: self.expression(),
                value: self.expression(),
            },
            CommandKind::Sequence => {
                let count = self.byte();
                Form::Sequence((0..count).map(|_| self.command(all)).collect())
            }
            CommandKind::If => Form::If {
                guard: self.expression(),
                then_part: Box::new(self.command(all)),
                else_part: Box::new(self.command(all)),
            },
            CommandKind::While => Form::While {
                guard: self.expression(),
                body: Box::new(self.command(all)),
            },
        };
        Command { at, form }
    }
}

/// What a good store sheet says.
pub fn store(sheet: &[u8]) -> Store {
    let mut bytes = Bytes(sheet);
    let (principals, slots) = (bytes.number(1), bytes.number(2));
    let masks = (0..principals).map(|_| bytes.number(4) as u32).collect();
    let owners = bytes.take(slots).iter();
    let slots = owners.map(|owner| Slot {
        owner: *owner,
        value: bytes.value(),
    });
    let slots = slots.collect();
    assert!(bytes.0.is_empty());
    Store { masks, slots }
}

/// What a good programme sheet says. Commands have their offsets.
pub fn programme(sheet: &[u8]) -> Programme {
    let mut bytes = Bytes(sheet);
    let (count, _) = (bytes.number(1), bytes.number(2));
    let regions = bytes.take(count);
    let lengths: Vec<usize> = (0..count).map(|_| bytes.number(2)).collect();
    let floors = bytes.take(count);
    let mut blocks = vec![];
    for ((region, floor), length) in regions.iter().zip(floors).zip(lengths) {
        let mut code = Bytes(bytes.take(length));
        let command = code.command(length);
        assert!(code.0.is_empty());
        let endorsed = region & 0x80 != 0;
        blocks.push(Block {
            region: region & 0x7F,
            floor: match endorsed {
                true => Floor::DownTo(*floor),
                false => Floor::Ignored(*floor),
            },
            code: Code::Command(command),
        });
    }
    assert!(bytes.0.is_empty());
    Programme { blocks }
}
