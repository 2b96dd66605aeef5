//! What an order table lacks to be good.
//!
//! "The table is good when no bit n or higher is set, each i stands below itself,
//! no two different principals stand below each other, what stands below j stands
//! below everything above j, any two have a greatest common lower principal (their
//! meet), and one principal, the top, is above all." (document 01)

use crate::names::Names;

/// Why an order table is not good: the first of these, in the document's order.
#[derive(Debug, Clone, PartialEq, Eq)]
pub enum Fault {
    /// A mask has a bit for a principal that there is not.
    BitBeyond {
        principal: usize,
        bit: usize,
    },
    NotBelowItself(usize),
    /// Each stands below the other.
    Cycle(usize, usize),
    /// The first stands below the second and that below the third, but the first
    /// is not below the third.
    NotTransitive(usize, usize, usize),
    /// Two principals have no meet: below both stand these and what is below
    /// them, and none of them is above the others.
    NoMeet {
        first: usize,
        second: usize,
        lower: Vec<usize>,
    },
    /// Nobody stands above all of these.
    NoTop(Vec<usize>),
}

/// The first fault of a table with a mask for each principal, if it has one.
pub fn fault(masks: &[u32]) -> Option<Fault> {
    let table = Table { masks };
    table
        .bit_beyond()
        .or_else(|| table.not_below_itself())
        .or_else(|| table.cycle())
        .or_else(|| table.not_transitive())
        .or_else(|| table.no_meet())
        .or_else(|| table.no_top())
}

/// Whether the lower one stands at or below the upper one.
pub fn at_or_below(masks: &[u32], lower: usize, upper: usize) -> bool {
    let table = Table { masks };
    table.at_or_below(lower, upper)
}

/// The principals that stand right below this one: below it, and not below
/// another that is. Of a good table.
pub fn covered(masks: &[u32], upper: usize) -> Vec<usize> {
    let table = Table { masks };
    let below = table.principals();
    table.greatest(
        below
            .filter(|lower| *lower != upper && table.at_or_below(*lower, upper))
            .collect(),
    )
}

struct Table<'a> {
    masks: &'a [u32],
}

impl Table<'_> {
    fn principals(&self) -> impl Iterator<Item = usize> + Clone + use<> {
        0..self.masks.len()
    }

    fn at_or_below(&self, lower: usize, upper: usize) -> bool {
        self.masks[upper] >> lower & 1 == 1
    }

    /// Every two principals, each pair in both orders, different ones alone.
    fn pairs(&self) -> impl Iterator<Item = (usize, usize)> + use<> {
        let all = self.principals();
        let with = all.clone();
        all.flat_map(move |one| with.clone().map(move |other| (one, other)))
            .filter(|(one, other)| one != other)
    }

    fn bit_beyond(&self) -> Option<Fault> {
        self.principals().find_map(|principal| {
            let bit = self.masks[principal].checked_ilog2()? as usize;
            (bit >= self.masks.len()).then_some(Fault::BitBeyond { principal, bit })
        })
    }

    fn not_below_itself(&self) -> Option<Fault> {
        let mut all = self.principals();
        all.find(|one| !self.at_or_below(*one, *one))
            .map(Fault::NotBelowItself)
    }

    fn cycle(&self) -> Option<Fault> {
        let mut pairs = self.pairs();
        pairs
            .find(|(one, other)| self.at_or_below(*one, *other) && self.at_or_below(*other, *one))
            .map(|(one, other)| Fault::Cycle(one, other))
    }

    fn not_transitive(&self) -> Option<Fault> {
        self.pairs()
            .filter(|(lower, middle)| self.at_or_below(*lower, *middle))
            .find_map(|(lower, middle)| {
                let mut upper = self.principals();
                upper
                    .find(|upper| {
                        self.at_or_below(middle, *upper) && !self.at_or_below(lower, *upper)
                    })
                    .map(|upper| Fault::NotTransitive(lower, middle, upper))
            })
    }

    fn no_meet(&self) -> Option<Fault> {
        self.pairs().find_map(|(first, second)| {
            let common = self.principals().filter(|lower| {
                self.at_or_below(*lower, first) && self.at_or_below(*lower, second)
            });
            let lower = self.greatest(common.collect());
            (lower.len() != 1).then_some(Fault::NoMeet {
                first,
                second,
                lower,
            })
        })
    }

    fn no_top(&self) -> Option<Fault> {
        let highest = self.greatest(self.principals().collect());
        (highest.len() != 1).then_some(Fault::NoTop(highest))
    }

    /// Those of them that stand below no other of them.
    fn greatest(&self, among: Vec<usize>) -> Vec<usize> {
        let is_greatest = |one: &usize| {
            !among
                .iter()
                .any(|other| other != one && self.at_or_below(*one, *other))
        };
        among.iter().copied().filter(is_greatest).collect()
    }
}

impl Fault {
    /// What is wrong, and what to add to the notation's `principals` lines.
    pub fn tell(&self, names: &Names) -> String {
        let name = |principal: &usize| names.principal(*principal);
        let list = |principals: &[usize]| principals.iter().map(name).collect::<Vec<_>>();
        match self {
            Fault::BitBeyond { principal, bit } => format!(
                "the mask of principal {} has bit {bit}, and there is no principal {bit}",
                name(principal)
            ),
            Fault::NotBelowItself(principal) => format!(
                "principal {} does not stand at or below itself: bit {principal} of its mask is not set",
                name(principal)
            ),
            Fault::Cycle(one, other) => format!(
                "{} and {} stand below each other: take a `<` out of the `principals` lines",
                name(one),
                name(other)
            ),
            Fault::NotTransitive(lower, middle, upper) => format!(
                "{} stands below {1}, and {1} below {2}, but {0} is not below {2}",
                name(lower),
                name(middle),
                name(upper)
            ),
            Fault::NoMeet { first, second, lower } if lower.is_empty() => format!(
                "{0} and {1} have no common lower principal, so they have no meet: add one below both, \
                 as in `principals {2} < {0}, {1}`",
                name(first),
                name(second),
                unused("nobody", names)
            ),
            Fault::NoMeet { first, second, lower } => format!(
                "{0} and {1} have no meet: {2} stand below both, and none of these is above the others: add one \
                 between, as in `principals {3} < {4} < {0}, {1}`",
                name(first),
                name(second),
                list(lower).join(" and "),
                list(lower).join(", "),
                unused("shared", names)
            ),
            Fault::NoTop(highest) => format!(
                "no principal is above all: {} stand below no other: add one above them, as in \
                 `principals {} < {}`",
                list(highest).join(" and "),
                list(highest).join(", "),
                unused("top", names)
            ),
        }
    }
}

/// A name that no principal has yet: this one, or with underscores after it.
fn unused(name: &str, names: &Names) -> String {
    let mut name = name.to_string();
    while names.principals.contains(&name) {
        name.push('_');
    }
    name
}

#[cfg(test)]
mod tests {
    use super::*;

    fn names(names: &[&str]) -> Names {
        Names {
            principals: names.iter().map(|name| name.to_string()).collect(),
            ..Names::default()
        }
    }

    #[test]
    fn a_good_table_has_no_fault() {
        assert_eq!(fault(&[1]), None);
        assert_eq!(fault(&[0b1001, 0b1010, 0b1111, 0b1000]), None);
    }

    #[test]
    fn each_fault_is_told_with_what_to_add() {
        let digs = names(&["digA", "digB", "lab"]);
        let cases = [
            (
                vec![0b001, 0b010, 0b111],
                "digA and digB have no common lower principal",
            ),
            (
                vec![0b001, 0b010, 0b111],
                "`principals nobody < digA, digB`",
            ),
            (
                vec![0b001, 0b011, 0b101],
                "add one above them, as in `principals digB, lab < top`",
            ),
            (
                vec![0b1001, 0b010, 0b111],
                "has bit 3, and there is no principal 3",
            ),
            (
                vec![0b000, 0b011, 0b111],
                "digA does not stand at or below itself",
            ),
            (
                vec![0b011, 0b011, 0b111],
                "digA and digB stand below each other",
            ),
            (
                vec![0b001, 0b011, 0b110],
                "digA stands below digB, and digB below lab",
            ),
        ];
        for (masks, expected) in cases {
            let told = fault(&masks).expect("a fault").tell(&digs);
            assert!(told.contains(expected), "{told}");
        }
    }

    /// Two lower ones, neither above the other, are no meet.
    #[test]
    fn two_that_have_two_greatest_lower_ones_get_one_between() {
        let table = [0b00001, 0b00011, 0b00101, 0b01111, 0b10111];
        let five = names(&["none", "a", "b", "x", "y"]);
        let told = fault(&table).expect("a fault").tell(&five);
        assert!(told.contains("`principals a, b < shared < x, y`"), "{told}");
    }

    #[test]
    fn covered_are_those_right_below() {
        let diamond = [0b1001, 0b1010, 0b1111, 0b1000];
        assert_eq!(covered(&diamond, 2), [0, 1]);
        assert_eq!(covered(&diamond, 3), []);
    }
}
