//! Damage to sheets.

use super::{Pair, Random};

/// Bytes that code is made of, and some beside them.
const CODE: [u8; 20] = [
    0x10, 0x10, 0x11, 0x12, 0x13, 0x14, 0x15, 0x16, 0x0F, 0x20, 0x21, 0x22, 0x23, 0x24, 0x25, 0x1F,
    0x00, 0x01, 0x02, 0x03,
];

impl Random {
    /// The sheet, or what is left of it after some damage.
    pub fn damaged(&mut self, sheet: &[u8]) -> Vec<u8> {
        let mut sheet = sheet.to_vec();
        match self.below(9) {
            0 => {}
            1 => sheet = self.bytes(60),
            2 => sheet.truncate(self.below(sheet.len() + 1)),
            3 => sheet.extend(self.bytes(20)),
            4 => self.change_sizes(&mut sheet),
            5 => self.change_early(&mut sheet),
            _ => {
                for _ in 0..=self.below(3) {
                    self.change_byte(&mut sheet);
                }
            }
        }
        sheet
    }

    fn change_byte(&mut self, sheet: &mut [u8]) {
        if !sheet.is_empty() {
            let place = self.below(sheet.len());
            sheet[place] = match self.below(4) {
                0 => sheet[place].wrapping_add(1),
                1 => *self.pick(&CODE),
                2 => sheet[place] ^ 1 << self.below(8),
                _ => self.byte(),
            };
        }
    }

    /// Among the first bytes stand sizes and tables.
    fn change_early(&mut self, sheet: &mut [u8]) {
        let early = sheet.len().min(24);
        self.change_byte(&mut sheet[..early]);
    }

    /// Other sizes, often at their limits and past them.
    fn change_sizes(&mut self, sheet: &mut [u8]) {
        const FIRST: [u8; 8] = [0, 1, 2, 32, 33, 64, 65, 255];
        const SECOND: [u16; 8] = [0, 1, 2, 256, 257, 16_384, 16_385, 65_535];
        if self.one_in(2) {
            sheet[0] = *self.pick(&FIRST);
        } else {
            let second = self.pick(&SECOND).to_le_bytes();
            sheet[1..3].copy_from_slice(&second);
        }
    }

    /// A programme sheet with good tables and code of no order, or too deep.
    pub fn soup(&mut self, pair: &Pair) -> Vec<u8> {
        let blocks: Vec<Vec<u8>> = (0..1 + self.below(3))
            .map(|_| self.soup_block(pair))
            .collect();
        let code: Vec<u8> = blocks.concat();
        let mut sheet = vec![blocks.len() as u8];
        sheet.extend((code.len() as u16).to_le_bytes());
        sheet.extend(blocks.iter().map(|_| self.below(pair.principals) as u8));
        sheet.extend(
            blocks
                .iter()
                .flat_map(|block| (block.len() as u16).to_le_bytes()),
        );
        sheet.extend(blocks.iter().map(|_| 0));
        sheet.extend(code);
        sheet
    }

    fn soup_block(&mut self, pair: &Pair) -> Vec<u8> {
        match self.below(5) {
            0 => (0..self.below(30)).map(|_| *self.pick(&CODE)).collect(),
            1 => self.deep_commands(),
            2 => self.deep_reads(pair),
            3 => {
                let mut block = self.whole(pair);
                block.truncate(self.below(block.len() + 1));
                block
            }
            _ => {
                let mut block = self.whole(pair);
                if self.one_in(2) {
                    self.change_byte(&mut block);
                } else {
                    block.extend(self.bytes(4));
                }
                block
            }
        }
    }

    /// `skip` in up to 34 whiles or sequences; a byte more or less now and then.
    fn deep_commands(&mut self) -> Vec<u8> {
        let mut code = vec![];
        let depth = 28 + self.below(7);
        let sequences = self.one_in(2);
        for _ in 0..depth {
            match sequences {
                true => code.extend([0x22, 2]),
                false => code.extend([0x24, 0x10, 1, 1, 0, 0, 0, 0, 0, 0, 0]),
            }
        }
        code.push(if self.one_in(3) {
            *self.pick(&CODE)
        } else {
            0x20
        });
        if sequences {
            code.extend(vec![0x20; depth]);
        }
        if self.one_in(4) {
            code.pop();
        }
        code
    }

    /// An assignment of up to ten reads and operations, one in the other.
    fn deep_reads(&mut self, pair: &Pair) -> Vec<u8> {
        let literal = |random: &mut Random| {
            let value = random.value(pair.slots).to_bytes();
            [&[0x10], value.as_slice()].concat()
        };
        let mut code = vec![0x21];
        code.extend(literal(self));
        let mut operands = 1;
        for _ in 0..6 + self.below(5) {
            let first = 0x11 + self.below(5) as u8;
            code.push(first);
            operands += usize::from(first > 0x11);
        }
        if self.one_in(6) {
            code.push(*self.pick(&CODE));
        }
        for _ in 0..operands {
            code.extend(literal(self));
        }
        code
    }

    /// The code of a block that is good, without its sheet.
    fn whole(&mut self, pair: &Pair) -> Vec<u8> {
        self.block(pair.principals, pair.slots, 4).code().to_vec()
    }
}
