//! Good sheets read back into stores and commands, to tell what a run does with
//! them. Whether a sheet is good is for the runners to judge.

use crate::code::{Block, Command, Endorsement};
use crate::expressions::{Expression, Operator};
use crate::lattices::Lattice;
use crate::layout::Layout;
use crate::sheets::{Store, Table};
use crate::values::Value;

/// The store of a good store sheet.
pub fn store_in(sheet: &[u8]) -> Option<Store> {
    const MASK: usize = 4;
    let (principals, rest) = sheet.split_first()?;
    let (slots, rest) = rest.split_first_chunk()?;
    let slots = usize::from(u16::from_le_bytes(*slots));
    let (masks, rest) = rest.split_at_checked(MASK * usize::from(*principals))?;
    let (owners, values) = rest.split_at_checked(slots)?;
    let mask = |bytes: &[u8]| bytes.try_into().map(u32::from_le_bytes).ok();
    let masks = masks.chunks_exact(MASK).map(mask);
    let values = values.chunks_exact(Value::WIDTH).map(Value::in_bytes);
    Some(Store {
        table: Table {
            lattice: Lattice::of_good_table(masks.collect::<Option<_>>()?),
            owners: owners.to_vec(),
        },
        values: values.collect::<Option<_>>()?,
    })
}

/// The blocks of a good programme sheet.
pub fn blocks_in(sheet: &[u8]) -> Option<Vec<Block>> {
    let layout = Layout::of(sheet)?;
    let block = |number| {
        let (region, floor) = layout.header(sheet, number);
        Some(Block {
            region: region % Endorsement::MARK,
            endorsement: Endorsement::in_bytes(region, floor),
            command: command_at(sheet, number, 0)?,
        })
    };
    (0..layout.blocks).map(block).collect()
}

/// The command that starts at this offset of a block.
pub fn command_at(sheet: &[u8], block: usize, offset: usize) -> Option<Command> {
    let code = Layout::of(sheet)?.code_of(sheet, block)?;
    Reader::new(code.get(offset..)?).command()
}

/// Which operand of an operation.
#[derive(Debug, Clone, Copy, PartialEq, Eq)]
pub enum Side {
    Left,
    Right,
}

/// The operands in which this offset of a block stands, from outside in, all
/// before it being well-formed.
pub fn operands_around(sheet: &[u8], block: usize, offset: usize) -> Option<Vec<Side>> {
    let code = Layout::of(sheet)?.code_of(sheet, block)?;
    let mut reader = Reader::new(code.get(..offset)?);
    let whole = reader.command();
    whole.is_none().then_some(reader.around)
}

/// What a command is a part of.
#[derive(Debug, Clone, Copy, PartialEq, Eq)]
pub enum Part {
    Sequence,
    Then,
    Else,
    Body,
}

/// The parts in which the command at this offset of a block stands, from outside
/// in, all before it being well-formed.
pub fn parts_around(sheet: &[u8], block: usize, offset: usize) -> Option<Vec<Part>> {
    let code = Layout::of(sheet)?.code_of(sheet, block)?;
    let mut reader = Reader::new(code.get(..offset)?);
    let whole = reader.command();
    whole.is_none().then_some(reader.parts)
}

/// Reads code until it is done, or the code ends.
struct Reader<'a> {
    rest: &'a [u8],
    around: Vec<Side>,
    parts: Vec<Part>,
}

impl<'a> Reader<'a> {
    fn new(code: &'a [u8]) -> Reader<'a> {
        Reader {
            rest: code,
            around: Vec::new(),
            parts: Vec::new(),
        }
    }

    fn byte(&mut self) -> Option<u8> {
        let (byte, rest) = self.rest.split_first()?;
        self.rest = rest;
        Some(*byte)
    }

    fn value(&mut self) -> Option<Value> {
        let (value, rest) = self.rest.split_at_checked(Value::WIDTH)?;
        self.rest = rest;
        Value::in_bytes(value)
    }

    fn expression(&mut self) -> Option<Expression> {
        match self.byte()? {
            Expression::LITERAL => self.value().map(Expression::literal),
            Expression::READ => self.expression().map(Expression::read),
            byte => {
                let operator = Operator::from_byte(byte)?;
                let left = self.operand(Side::Left)?;
                let right = self.operand(Side::Right)?;
                Some(Expression::operation(operator, left, right))
            }
        }
    }

    /// Where the code ends in an operand, its side stays behind.
    fn operand(&mut self, side: Side) -> Option<Expression> {
        self.around.push(side);
        let operand = self.expression()?;
        self.around.pop();
        Some(operand)
    }

    fn command(&mut self) -> Option<Command> {
        match self.byte()? {
            Command::SKIP => Some(Command::Skip),
            Command::ASSIGN => Some(Command::Assign {
                target: self.expression()?,
                value: self.expression()?,
            }),
            Command::SEQUENCE => {
                let commands = (0..self.byte()?).map(|_| self.part(Part::Sequence));
                commands.collect::<Option<_>>().map(Command::Sequence)
            }
            Command::IF => {
                let guard = self.expression()?;
                let then_part = self.part(Part::Then)?;
                Some(Command::if_else(guard, then_part, self.part(Part::Else)?))
            }
            Command::WHILE => {
                let guard = self.expression()?;
                Some(Command::while_do(guard, self.part(Part::Body)?))
            }
            _ => None,
        }
    }

    /// Where the code ends in a part, it stays behind.
    fn part(&mut self, part: Part) -> Option<Command> {
        self.parts.push(part);
        let command = self.command()?;
        self.parts.pop();
        Some(command)
    }
}

#[cfg(test)]
mod tests {
    use super::*;
    use crate::author::{Author, Care};
    use crate::code::programme_sheet;
    use crate::random::Random;

    #[test]
    fn what_was_written_is_read_back() {
        for case in 0..500 {
            let mut random = Random::of_case(26, case);
            let store = Store::random(&mut random);
            let care = Care::random(&mut random);
            let blocks = Author::new(&mut random, &store, care).programme();
            let sheet = programme_sheet(&blocks).bytes;
            assert_eq!(blocks_in(&sheet), Some(blocks));
            let read = store_in(&store.bytes()).expect("a good store");
            assert_eq!(read.bytes(), store.bytes());
        }
    }

    #[test]
    fn operands_are_told_by_where_code_ends() {
        let one = || Expression::literal(Value::Integer(1));
        let inner = Expression::operation(Operator::Equal, one(), Expression::read(one()));
        let outer = Expression::operation(Operator::Sum, one(), inner);
        let block = Block::plain(0, Command::set(0, outer));
        let sheet = programme_sheet(&[block]).bytes;
        let around = |offset| operands_around(&sheet, 0, offset).expect("cut code");
        // After 21 and a target: the sum, its left operand, and the equal.
        let literal = 1 + Value::WIDTH;
        let sum = 1 + literal;
        assert_eq!(around(sum), []);
        assert_eq!(around(sum + 1), [Side::Left]);
        assert_eq!(around(sum + literal), [Side::Left]);
        let equal = sum + 1 + literal;
        assert_eq!(around(equal), [Side::Right]);
        assert_eq!(around(equal + 1), [Side::Right, Side::Left]);
        assert_eq!(around(equal + 1 + literal), [Side::Right, Side::Right]);
        assert_eq!(around(equal + 2 + literal), [Side::Right, Side::Right]);
        let behind = equal + 2 + 2 * literal;
        assert_eq!(operands_around(&sheet, 0, behind), None);
    }

    #[test]
    fn parts_are_told_by_where_code_ends() {
        let guard = || Expression::literal(Value::Truth(true));
        let inner = Command::if_else(guard(), Command::Skip, Command::Skip);
        let body = Command::Sequence(vec![Command::Skip, inner]);
        let block = Block::plain(0, Command::while_do(guard(), body));
        let sheet = programme_sheet(&[block]).bytes;
        let around = |offset| parts_around(&sheet, 0, offset).expect("cut code");
        assert_eq!(around(0), []);
        // After 24 and its guard: the sequence, its skip, the if and its parts.
        let sequence = 2 + Value::WIDTH;
        assert_eq!(around(sequence), [Part::Body]);
        let skip = sequence + 2;
        assert_eq!(around(skip), [Part::Body, Part::Sequence]);
        assert_eq!(around(skip + 1), [Part::Body, Part::Sequence]);
        let then_part = skip + 1 + 2 + Value::WIDTH;
        let inside = |part| [Part::Body, Part::Sequence, part];
        assert_eq!(around(then_part), inside(Part::Then));
        assert_eq!(around(then_part + 1), inside(Part::Else));
        assert_eq!(parts_around(&sheet, 0, then_part + 2), None);
    }
}
