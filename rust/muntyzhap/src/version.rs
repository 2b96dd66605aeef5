//! Versions of the library.

use std::fmt::{self, Display, Formatter};

/// A version of the library. A later one is greater.
#[derive(Debug, Clone, Copy, PartialEq, Eq, PartialOrd, Ord)]
pub struct Version {
    /// Another one may have other calls, or other answers.
    pub major: u32,
    /// At most 999.
    pub minor: u32,
    /// At most 999.
    pub patch: u32,
}

impl Version {
    const MAJOR: u32 = 1_000_000;
    const MINOR: u32 = 1_000;

    /// The version that the library numbers so.
    pub fn from_number(number: u32) -> Version {
        Version {
            major: number / Version::MAJOR,
            minor: number % Version::MAJOR / Version::MINOR,
            patch: number % Version::MINOR,
        }
    }
}

/// Its three numbers, such as `0.1.0`.
impl Display for Version {
    fn fmt(&self, out: &mut Formatter) -> fmt::Result {
        write!(out, "{}.{}.{}", self.major, self.minor, self.patch)
    }
}

#[cfg(test)]
mod tests {
    use super::*;

    #[test]
    fn each_part_has_three_digits_of_the_number() {
        let versions = [
            (0, "0.0.0"),
            (1_000, "0.1.0"),
            (999_999, "0.999.999"),
            (12_345_678, "12.345.678"),
            (u32::MAX, "4294.967.295"),
        ];
        for (number, text) in versions {
            assert_eq!(Version::from_number(number).to_string(), text);
        }
        let numbers = versions.map(|(number, _)| Version::from_number(number));
        assert!(numbers.is_sorted(), "{numbers:?}");
    }
}
