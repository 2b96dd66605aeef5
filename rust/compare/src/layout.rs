//! Where the parts of a programme sheet stand.

/// Where a programme sheet has what, if it is one with a block.
#[derive(Debug, Clone, Copy)]
pub struct Layout {
    pub blocks: usize,
}

impl Layout {
    const SIZES: usize = 3;
    const CODE_SIZE: usize = 1;
    /// Region, length and floor.
    const HEADER: usize = 4;

    /// The layout of a sheet whose length is what its sizes and block lengths
    /// say.
    pub fn of(sheet: &[u8]) -> Option<Layout> {
        let layout = Layout::with_headers(sheet)?;
        let code = sheet.len() - layout.code();
        let lengths = (0..layout.blocks).map(|block| layout.length(sheet, block));
        (lengths.sum::<usize>() == code).then_some(layout)
    }

    /// The layout of a sheet that can hold all that stands ahead of its code.
    pub fn with_headers(sheet: &[u8]) -> Option<Layout> {
        let layout = Layout {
            blocks: usize::from(*sheet.first()?),
        };
        (sheet.len() >= layout.code()).then_some(layout)
    }

    /// The length that the sizes say.
    pub fn wanted_length(&self, sheet: &[u8]) -> usize {
        self.code() + two_bytes(sheet, Layout::CODE_SIZE)
    }

    /// Where the code starts.
    fn code(&self) -> usize {
        Layout::SIZES + Layout::HEADER * self.blocks
    }

    pub fn region_place(&self, block: usize) -> usize {
        Layout::SIZES + block
    }

    fn length_place(&self, block: usize) -> usize {
        Layout::SIZES + self.blocks + 2 * block
    }

    pub fn floor_place(&self, block: usize) -> usize {
        Layout::SIZES + 3 * self.blocks + block
    }

    pub fn length(&self, sheet: &[u8], block: usize) -> usize {
        two_bytes(sheet, self.length_place(block))
    }

    /// The block's region and its floor, both as bytes.
    pub fn header(&self, sheet: &[u8], block: usize) -> (u8, u8) {
        let (region, floor) = (self.region_place(block), self.floor_place(block));
        (sheet[region], sheet[floor])
    }

    /// Those of all blocks.
    pub fn headers(self, sheet: &[u8]) -> impl Iterator<Item = (u8, u8)> + '_ {
        (0..self.blocks).map(move |block| self.header(sheet, block))
    }

    /// The block's code, if there is such a block.
    pub fn code_of<'a>(&self, sheet: &'a [u8], block: usize) -> Option<&'a [u8]> {
        let is_there = block < self.blocks;
        is_there.then(|| &sheet[self.start(sheet, block)..][..self.length(sheet, block)])
    }

    /// Where the block's code starts.
    pub fn start(&self, sheet: &[u8], block: usize) -> usize {
        let before = (0..block).map(|earlier| self.length(sheet, earlier));
        self.code() + before.sum::<usize>()
    }

    /// Sets a block's length, and c by as much.
    pub fn set_length(&self, sheet: &mut [u8], block: usize, length: usize) {
        let total = two_bytes(sheet, Layout::CODE_SIZE)
            .wrapping_add(length)
            .wrapping_sub(self.length(sheet, block));
        put_two_bytes(sheet, Layout::CODE_SIZE, total);
        put_two_bytes(sheet, self.length_place(block), length);
    }

    /// The same sheet without one of its blocks.
    pub fn without(&self, sheet: &[u8], block: usize) -> Vec<u8> {
        let mut less = sheet.to_vec();
        let (start, length) = (self.start(sheet, block), self.length(sheet, block));
        less.drain(start..start + length);
        self.set_length(&mut less, block, 0);
        less.remove(self.floor_place(block));
        let place = self.length_place(block);
        less.drain(place..place + 2);
        less.remove(self.region_place(block));
        less[0] -= 1;
        less
    }
}

fn two_bytes(sheet: &[u8], place: usize) -> usize {
    usize::from(u16::from_le_bytes([sheet[place], sheet[place + 1]]))
}

fn put_two_bytes(sheet: &mut [u8], place: usize, size: usize) {
    sheet[place..place + 2].copy_from_slice(&(size as u16).to_le_bytes());
}

#[cfg(test)]
mod tests {
    use super::*;
    use crate::author::{Author, Care};
    use crate::code::programme_sheet;
    use crate::random::Random;
    use crate::sheets::Store;

    #[test]
    fn a_block_taken_out_leaves_the_others() {
        for case in 0..200 {
            let mut random = Random::of_case(10, case);
            let store = Store::random(&mut random);
            let mut blocks = Author::new(&mut random, &store, Care::FULL).programme();
            if blocks.is_empty() {
                continue;
            }
            let block = random.below(blocks.len());
            let sheet = programme_sheet(&blocks).bytes;
            let layout = Layout::of(&sheet).expect("a good sheet");
            blocks.remove(block);
            let expected = programme_sheet(&blocks).bytes;
            assert_eq!(layout.without(&sheet, block), expected);
        }
    }
}
