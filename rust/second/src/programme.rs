//! The programme sheet up to its code: refusals 6 to 8.

use crate::answer::Refusal;
use crate::bytes::{number, take};
use crate::order::{Order, Principal};

/// For whom a block runs.
#[derive(Debug, Clone, Copy)]
pub(crate) struct Region {
    pub principal: Principal,
    /// An endorsed block's floor. One that is not endorsed has none here: its
    /// floor is "ignored unless the block is endorsed" (document 02, N6).
    pub endorsed_down_to: Option<Principal>,
}

impl Region {
    const BYTES: usize = 1;
    const FLOOR_BYTES: usize = 1;
    /// "principal, plus 80 when endorsed"
    const ENDORSED: u8 = 0x80;

    /// The region that these two bytes say, judged by 8: "An endorsed block's
    /// floor must be below n, else 8, right after its region." (document 02, N6)
    fn from_bytes(region: u8, floor: u8, order: &Order) -> Result<Region, Refusal> {
        let below_n = |number| order.principal(number).ok_or(Refusal::RegionOrFloor);
        match region.checked_sub(Region::ENDORSED) {
            Some(number) => Ok(Region {
                principal: below_n(number)?,
                endorsed_down_to: Some(below_n(floor)?),
            }),
            None => Ok(Region {
                principal: below_n(region)?,
                endorsed_down_to: None,
            }),
        }
    }
}

/// What the sheet says of a block ahead of the code.
#[derive(Debug, Clone, Copy)]
pub(crate) struct BlockHeader {
    pub region: Region,
    pub length: usize,
}

impl BlockHeader {
    const LENGTH_BYTES: usize = 2;
    const BYTES: usize = Region::BYTES + BlockHeader::LENGTH_BYTES + Region::FLOOR_BYTES;
}

/// A programme sheet whose code is not yet read; the lengths of its blocks add
/// up to the code.
#[derive(Debug, Clone)]
pub(crate) struct ProgrammeSheet<'a> {
    pub headers: Vec<BlockHeader>,
    pub code: &'a [u8],
}

impl<'a> ProgrammeSheet<'a> {
    pub const MOST_BLOCKS: usize = 64;
    pub const MOST_CODE_BYTES: usize = 16_384;
    const BLOCKS_BYTES: usize = 1;
    const CODE_SIZE_BYTES: usize = 2;

    /// "programme sizes (6, 7), length (6); 8 in block order; length sum (6)"
    pub fn from_bytes(sheet: &'a [u8], order: &Order) -> Result<ProgrammeSheet<'a>, Refusal> {
        let mut rest = sheet;
        let mut read = |count| take(&mut rest, count).ok_or(Refusal::ProgrammeLength);
        let blocks = number(read(Self::BLOCKS_BYTES)?) as usize;
        let code_size = number(read(Self::CODE_SIZE_BYTES)?) as usize;
        if blocks > Self::MOST_BLOCKS || code_size > Self::MOST_CODE_BYTES {
            return Err(Refusal::ProgrammeLimits);
        }
        if sheet.len() != Self::sheet_bytes(blocks, code_size) {
            return Err(Refusal::ProgrammeLength);
        }
        let arrays = HeaderArrays {
            regions: read(blocks * Region::BYTES)?,
            lengths: read(blocks * BlockHeader::LENGTH_BYTES)?,
            floors: read(blocks * Region::FLOOR_BYTES)?,
        };
        let code = read(code_size)?;
        let headers = arrays.headers(order)?;
        let length_sum: usize = headers.iter().map(|header| header.length).sum();
        if length_sum != code_size {
            return Err(Refusal::ProgrammeLength);
        }
        Ok(ProgrammeSheet { headers, code })
    }

    fn sheet_bytes(blocks: usize, code_size: usize) -> usize {
        Self::BLOCKS_BYTES + Self::CODE_SIZE_BYTES + blocks * BlockHeader::BYTES + code_size
    }
}

/// The parallel arrays of a programme sheet: regions, lengths and floors, "in a
/// third array of one byte each after the lengths" (document 02, N6).
struct HeaderArrays<'a> {
    regions: &'a [u8],
    lengths: &'a [u8],
    floors: &'a [u8],
}

impl HeaderArrays<'_> {
    /// The headers, each block's region and floor judged by 8 before the next
    /// block's.
    fn headers(&self, order: &Order) -> Result<Vec<BlockHeader>, Refusal> {
        let regions = self.regions.iter().zip(self.floors);
        let lengths = self.lengths.chunks_exact(BlockHeader::LENGTH_BYTES);
        let headers = regions.zip(lengths).map(|((region, floor), length)| {
            Ok(BlockHeader {
                region: Region::from_bytes(*region, *floor, order)?,
                length: number(length) as usize,
            })
        });
        headers.collect()
    }
}
