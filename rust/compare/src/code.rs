//! Programme sheets: commands as trees, and their bytes.

use crate::expressions::Expression;
use crate::sheets::{Part, Sheet};
use crate::values::Value;

#[derive(Debug, Clone, PartialEq, Eq)]
pub enum Command {
    Skip,
    Assign {
        target: Expression,
        value: Expression,
    },
    Sequence(Vec<Command>),
    If {
        guard: Expression,
        then_part: Box<Command>,
        else_part: Box<Command>,
    },
    While {
        guard: Expression,
        body: Box<Command>,
    },
}

impl Command {
    pub const MOST_DEPTH: usize = 32;
    pub const MOST_IN_SEQUENCE: usize = 255;
    pub const SKIP: u8 = 0x20;
    pub const ASSIGN: u8 = 0x21;
    pub const SEQUENCE: u8 = 0x22;
    pub const IF: u8 = 0x23;
    pub const WHILE: u8 = 0x24;

    /// An assignment to a slot through a literal write view.
    pub fn set(slot: u8, value: Expression) -> Command {
        Command::Assign {
            target: Expression::literal(Value::WriteView(slot)),
            value,
        }
    }

    /// These commands in order, as one.
    pub fn all(mut commands: Vec<Command>) -> Command {
        match commands.len() {
            0 => Command::Skip,
            1 => commands.remove(0),
            _ => Command::Sequence(commands),
        }
    }

    pub fn if_else(guard: Expression, then_part: Command, else_part: Command) -> Command {
        Command::If {
            guard,
            then_part: Box::new(then_part),
            else_part: Box::new(else_part),
        }
    }

    pub fn while_do(guard: Expression, body: Command) -> Command {
        Command::While {
            guard,
            body: Box::new(body),
        }
    }

    pub fn write_to(&self, sheet: &mut Sheet) {
        match self {
            Command::Skip => sheet.push(Part::Command, &[Command::SKIP]),
            Command::Assign { target, value } => {
                sheet.push(Part::Command, &[Command::ASSIGN]);
                target.write_to(sheet);
                value.write_to(sheet);
            }
            Command::Sequence(commands) => {
                let count = u8::try_from(commands.len()).expect("at most 255 commands");
                sheet.push(Part::Command, &[Command::SEQUENCE]);
                sheet.push(Part::Count, &[count]);
                commands.iter().for_each(|inner| inner.write_to(sheet));
            }
            Command::If {
                guard,
                then_part,
                else_part,
            } => {
                sheet.push(Part::Command, &[Command::IF]);
                guard.write_to(sheet);
                then_part.write_to(sheet);
                else_part.write_to(sheet);
            }
            Command::While { guard, body } => {
                sheet.push(Part::Command, &[Command::WHILE]);
                guard.write_to(sheet);
                body.write_to(sheet);
            }
        }
    }

    /// The number of its bytes.
    pub fn length(&self) -> usize {
        let mut sheet = Sheet::default();
        self.write_to(&mut sheet);
        sheet.bytes.len()
    }
}

/// Whether a block is endorsed. "Every block gets a floor principal [...] ignored
/// unless the block is endorsed." (document 02, N6)
#[derive(Debug, Clone, Copy, PartialEq, Eq)]
pub enum Endorsement {
    /// Endorsed, with this floor.
    DownTo(u8),
    /// Not endorsed, with this byte where a floor would stand. It means nothing.
    Absent { ignored: u8 },
}

impl Endorsement {
    /// What is added to the region of an endorsed block.
    pub const MARK: u8 = 0x80;

    /// What these bytes of a block say.
    pub fn in_bytes(region: u8, floor: u8) -> Endorsement {
        match region >= Endorsement::MARK {
            true => Endorsement::DownTo(floor),
            false => Endorsement::Absent { ignored: floor },
        }
    }

    /// The floor, if the block is endorsed.
    pub fn floor(self) -> Option<u8> {
        match self {
            Endorsement::DownTo(floor) => Some(floor),
            Endorsement::Absent { .. } => None,
        }
    }

    /// The byte among the floors.
    pub fn floor_byte(self) -> u8 {
        match self {
            Endorsement::DownTo(floor) => floor,
            Endorsement::Absent { ignored } => ignored,
        }
    }
}

#[derive(Debug, Clone, PartialEq, Eq)]
pub struct Block {
    pub region: u8,
    pub endorsement: Endorsement,
    pub command: Command,
}

impl Block {
    pub const MOST: usize = 64;
    pub const MOST_CODE: usize = 16_384;

    /// A block that is not endorsed.
    #[cfg(test)]
    pub fn plain(region: u8, command: Command) -> Block {
        Block {
            region,
            endorsement: Endorsement::Absent { ignored: 0xFF },
            command,
        }
    }

    fn region_byte(&self) -> u8 {
        match self.endorsement {
            Endorsement::DownTo(_) => self.region | Endorsement::MARK,
            Endorsement::Absent { .. } => self.region,
        }
    }
}

/// The sheet of these blocks, of which there are at most 255.
pub fn programme_sheet(blocks: &[Block]) -> Sheet {
    let regions: Vec<u8> = blocks.iter().map(Block::region_byte).collect();
    let floors = blocks.iter().map(|block| block.endorsement.floor_byte());
    let floors: Vec<u8> = floors.collect();
    let codes: Vec<Sheet> = blocks
        .iter()
        .map(|block| {
            let mut code = Sheet::default();
            block.command.write_to(&mut code);
            code
        })
        .collect();
    sheet_of_codes(&regions, &floors, &codes)
}

/// The sheet of blocks with any code.
pub fn sheet_of_codes(regions: &[u8], floors: &[u8], codes: &[Sheet]) -> Sheet {
    let mut sheet = Sheet::default();
    sheet.push(Part::Size, &[regions.len() as u8]);
    let total = codes.iter().map(|code| code.bytes.len()).sum();
    sheet.push_size(Part::Size, total);
    sheet.push(Part::Region, regions);
    for code in codes {
        sheet.push_size(Part::Length, code.bytes.len());
    }
    sheet.push(Part::Floor, floors);
    codes.iter().for_each(|code| sheet.append(code));
    sheet
}

#[cfg(test)]
mod tests {
    use super::*;

    /// "a third array of one byte each after the lengths" (document 02, N6)
    #[test]
    fn floors_stand_between_lengths_and_code() {
        let endorsed = Block {
            region: 1,
            endorsement: Endorsement::DownTo(3),
            command: Command::Sequence(vec![Command::Skip, Command::Skip]),
        };
        let blocks = [endorsed, Block::plain(2, Command::Skip)];
        let known = [
            vec![2, 5, 0],
            vec![0x81, 2],
            vec![4, 0, 1, 0],
            vec![3, 0xFF],
            vec![Command::SEQUENCE, 2, Command::SKIP, Command::SKIP],
            vec![Command::SKIP],
        ];
        assert_eq!(programme_sheet(&blocks).bytes, known.concat());
    }
}
