//! Floors of endorsed blocks: which sorts of them there are, what is refused for
//! one, and what passes by one.

mod headers;
mod judged;
mod labels;

pub use self::headers::Headers;
pub use self::judged::Judged;
pub use self::labels::Labels;

use std::fmt::{self, Display, Formatter};

use crate::lattices::Lattice;

/// How a floor stands to the order and to its block's region. One may be of
/// several sorts.
#[derive(Debug, Clone, Copy, PartialEq, Eq)]
pub enum Sort {
    Bottom,
    Below,
    Region,
    Above,
    Unrelated,
    Top,
}

impl Sort {
    pub const ALL: [Sort; 6] = [
        Sort::Bottom,
        Sort::Below,
        Sort::Region,
        Sort::Above,
        Sort::Unrelated,
        Sort::Top,
    ];

    fn is_of(self, lattice: &Lattice, region: u8, floor: u8) -> bool {
        let under = lattice.at_or_below(floor, region);
        let over = lattice.at_or_below(region, floor);
        match self {
            Sort::Bottom => floor == lattice.bottom(),
            Sort::Below => under && !over,
            Sort::Region => under && over,
            Sort::Above => over && !under,
            Sort::Unrelated => lattice.are_unrelated(floor, region),
            Sort::Top => floor == lattice.top(),
        }
    }

    /// All the sorts that a floor is of.
    fn all_of(lattice: &Lattice, region: u8, floor: u8) -> Vec<Sort> {
        let sorts = Sort::ALL.into_iter();
        sorts
            .filter(|sort| sort.is_of(lattice, region, floor))
            .collect()
    }

    /// Its place among the sorts without the first, which is the bottom.
    fn place_but_bottom(self) -> Option<usize> {
        (self as usize).checked_sub(1)
    }

    /// The floors of this sort for a block of this region.
    pub fn floors(self, lattice: &Lattice, region: u8) -> Vec<u8> {
        lattice.principals_where(|floor| self.is_of(lattice, region, floor))
    }
}

impl Display for Sort {
    fn fmt(&self, out: &mut Formatter) -> fmt::Result {
        out.write_str(match self {
            Sort::Bottom => "the bottom",
            Sort::Below => "below the region",
            Sort::Region => "the region",
            Sort::Above => "above the region",
            Sort::Unrelated => "unrelated to it",
            Sort::Top => "the top",
        })
    }
}

#[cfg(test)]
mod tests {
    use super::*;

    /// A bottom, 1 and 2 beside each other, and a top.
    #[test]
    fn floors_are_sorted() {
        let lattice = Lattice::of_good_table(vec![0b0001, 0b0011, 0b0101, 0b1111]);
        let sorted = |region| Sort::ALL.map(|sort| sort.floors(&lattice, region));
        let known: [[&[u8]; 6]; 4] = [
            [&[0], &[], &[0], &[1, 2, 3], &[], &[3]],
            [&[0], &[0], &[1], &[3], &[2], &[3]],
            [&[0], &[0], &[2], &[3], &[1], &[3]],
            [&[0], &[0, 1, 2], &[3], &[], &[], &[3]],
        ];
        for (region, floors) in known.into_iter().enumerate() {
            assert_eq!(sorted(region as u8), floors);
        }
    }
}
