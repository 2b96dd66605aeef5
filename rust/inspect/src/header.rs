//! What a programme sheet says of its blocks ahead of their code: refusal 8, and 6
//! for lengths that add up to more than the code.

use model::{Floor, Names};
use muntyzhap::sheet::Block;

use crate::layout::{self, number};
use crate::programme::wrong_sum;
use crate::walk::{Fault, Half, Line, Stage, Walk};
use crate::words::{self, count, there_are};

/// The refusal of a region or a floor, as document 01 numbers it.
const REGION: u32 = 8;

/// What the sheet says of one block.
pub(crate) struct Header {
    pub region: u8,
    pub floor: Floor,
    pub length: usize,
}

/// Reads the three arrays, each as far as it is there: regions, lengths and
/// floors.
pub(crate) struct HeaderReader<'a, 'walk> {
    pub walk: &'walk mut Walk<'a>,
    pub principals: usize,
    pub names: &'a Names,
}

impl HeaderReader<'_, '_> {
    /// The headers of so many blocks before so many bytes of code, if all are
    /// there.
    pub fn headers(mut self, blocks: usize, code: usize) -> Option<Vec<Header>> {
        let regions = self.regions(blocks);
        let lengths = self.lengths(blocks, code);
        let floors = self.floors(&regions);
        let headers = regions.iter().zip(lengths).zip(floors);
        let headers = headers.map(|((region, length), floor)| Header {
            region: principal(*region),
            floor,
            length,
        });
        let headers: Vec<Header> = headers.collect();
        (headers.len() == blocks).then_some(headers)
    }

    /// The region bytes.
    fn regions(&mut self, blocks: usize) -> Vec<u8> {
        let rest = self.walk.rest().iter();
        let regions: Vec<u8> = rest.copied().take(blocks * layout::REGION).collect();
        for (block, region) in regions.iter().enumerate() {
            let number = principal(*region);
            let name = self.names.principal(number.into());
            let endorsed = match is_endorsed(*region) {
                true => ", endorsed",
                false => "",
            };
            let fault = self.no_principal(number).map(|there_are| Fault {
                stage: Stage::Entry(block, Half::First),
                number: REGION,
                reason: format!(
                    "{} has principal {number} as its region, and {there_are}",
                    words::block(block, self.names)
                ),
            });
            let words = format!("region {name}{endorsed}");
            self.item(layout::REGION, block, words, fault);
        }
        regions
    }

    /// The lengths. Where they add up to more than the code, the fault is at the
    /// first that goes past it.
    fn lengths(&mut self, blocks: usize, code: usize) -> Vec<usize> {
        let bytes = self.walk.rest().chunks_exact(layout::LENGTH).take(blocks);
        let lengths: Vec<usize> = bytes.map(|bytes| number(bytes) as usize).collect();
        let sum: usize = lengths.iter().sum();
        let whole = lengths.len() == blocks;
        let mut end = 0;
        for (block, length) in lengths.iter().enumerate() {
            let was_within = end <= code;
            end += length;
            let goes_past = whole && was_within && end > code;
            let fault = goes_past.then(|| wrong_sum(sum, code));
            self.item(layout::LENGTH, block, count(*length, "byte"), fault);
        }
        lengths
    }

    /// The floors of blocks with these region bytes.
    fn floors(&mut self, regions: &[u8]) -> Vec<Floor> {
        let bytes = self.walk.rest().iter().zip(regions).enumerate();
        let floors = bytes.map(|(block, (byte, region))| match is_endorsed(*region) {
            true => self.floor(block, *byte),
            false => self.ignored(block, *byte),
        });
        floors.collect()
    }

    fn floor(&mut self, block: usize, floor: u8) -> Floor {
        let fault = self.no_principal(floor).map(|there_are| Fault {
            stage: Stage::Entry(block, Half::Second),
            number: REGION,
            reason: format!(
                "{} is endorsed down to principal {floor}, and {there_are}",
                words::block(block, self.names)
            ),
        });
        let words = format!("endorsed down to {}", self.names.principal(floor.into()));
        self.item(layout::FLOOR, block, words, fault);
        Floor::DownTo(floor)
    }

    /// "ignored unless the block is endorsed" (document 02, N6)
    fn ignored(&mut self, block: usize, byte: u8) -> Floor {
        let words = "not endorsed, so its floor byte means nothing".to_string();
        self.item(layout::FLOOR, block, words, None);
        Floor::Ignored(byte)
    }

    fn item(&mut self, length: usize, block: usize, words: String, fault: Option<Fault>) {
        let block = words::block(block, self.names);
        let line = Line::note(format!("{block}: {words}"));
        self.walk.item(length, line.with(fault));
    }

    /// Which principals there are, where this is none of them.
    fn no_principal(&self, number: u8) -> Option<String> {
        let is_principal = usize::from(number) < self.principals;
        (!is_principal).then(|| there_are(self.principals, "principal"))
    }
}

/// "principal, plus 80 when endorsed"
fn is_endorsed(region: u8) -> bool {
    region & Block::ENDORSED != 0
}

fn principal(region: u8) -> u8 {
    region & !Block::ENDORSED
}
