//! The principals and their order.
//!
//! Everything is worked out by search over the principals, in the words of
//! document 01. The masks are used only to say which principal stands at or
//! below which; no number of a principal says anything about its rank.

/// A principal of an order table; labels are principals too. Only made for a
/// number below n, by the table it belongs to.
#[derive(Debug, Clone, Copy, PartialEq, Eq)]
pub(crate) struct Principal(u8);

impl Principal {
    pub fn number(self) -> u8 {
        self.0
    }

    fn index(self) -> usize {
        usize::from(self.0)
    }
}

/// A good order table: a partial order with a meet for any two principals and
/// a top above all.
#[derive(Debug, Clone)]
pub(crate) struct Order {
    relation: Relation,
    /// At `[a][b]` the meet of a and b.
    meets: Vec<Vec<Principal>>,
    top: Principal,
}

impl Order {
    pub const FEWEST_PRINCIPALS: usize = 1;
    pub const MOST_PRINCIPALS: usize = 32;
    pub const MASK_BYTES: usize = 4;

    /// The order these masks give, one for each principal, if it is good.
    pub fn from_masks(masks: &[u32]) -> Option<Order> {
        let relation = Relation::from_masks(masks)?;
        let is_order =
            relation.is_reflexive() && relation.is_antisymmetric() && relation.is_transitive();
        if !is_order {
            return None;
        }
        let meets = relation.all_meets()?;
        let top = relation.find_top()?;
        Some(Order {
            relation,
            meets,
            top,
        })
    }

    /// The principal with this number, if it is below n.
    pub fn principal(&self, number: u8) -> Option<Principal> {
        self.relation
            .principals()
            .find(|principal| principal.number() == number)
    }

    pub fn at_or_below(&self, lower: Principal, upper: Principal) -> bool {
        self.relation.at_or_below(lower, upper)
    }

    /// How many principals stand at or above this one, itself among them.
    pub fn principals_at_or_above(&self, lower: Principal) -> usize {
        let principals = self.relation.principals();
        principals
            .filter(|upper| self.at_or_below(lower, *upper))
            .count()
    }

    /// The greatest common lower principal of the two.
    pub fn meet(&self, a: Principal, b: Principal) -> Principal {
        self.meets[a.index()][b.index()]
    }

    pub fn top(&self) -> Principal {
        self.top
    }
}

/// Who stands at or below whom, not yet known to be good.
#[derive(Debug, Clone)]
struct Relation {
    /// At `[i][j]` whether principal j stands at or below principal i.
    below: Vec<Vec<bool>>,
}

impl Relation {
    /// None if a bit n or higher is set.
    fn from_masks(masks: &[u32]) -> Option<Relation> {
        let below = masks.iter().map(|mask| {
            let bits = mask_bits(*mask);
            let (known, beyond) = bits.split_at_checked(masks.len())?;
            (!beyond.contains(&true)).then(|| known.to_vec())
        });
        Some(Relation {
            below: below.collect::<Option<_>>()?,
        })
    }

    /// Every principal; a table has at most 32, so each number fits.
    fn principals(&self) -> impl Iterator<Item = Principal> + Clone {
        (0..self.below.len()).map(|number| Principal(number as u8))
    }

    fn at_or_below(&self, lower: Principal, upper: Principal) -> bool {
        self.below[upper.index()][lower.index()]
    }

    /// "each i stands below itself"
    fn is_reflexive(&self) -> bool {
        self.principals().all(|i| self.at_or_below(i, i))
    }

    /// "no two different principals stand below each other"
    fn is_antisymmetric(&self) -> bool {
        self.principals().all(|i| {
            self.principals()
                .filter(|j| *j != i)
                .all(|j| !(self.at_or_below(i, j) && self.at_or_below(j, i)))
        })
    }

    /// "what stands below j stands below everything above j"
    fn is_transitive(&self) -> bool {
        self.principals().all(|j| {
            let mut lower = self.principals().filter(|i| self.at_or_below(*i, j));
            let upper = self.principals().filter(|k| self.at_or_below(j, *k));
            lower.all(|i| upper.clone().all(|k| self.at_or_below(i, k)))
        })
    }

    /// The principal at or below both that every other such one is below.
    fn find_meet(&self, a: Principal, b: Principal) -> Option<Principal> {
        let common = self
            .principals()
            .filter(|lower| self.at_or_below(*lower, a) && self.at_or_below(*lower, b));
        common
            .clone()
            .find(|greatest| common.clone().all(|c| self.at_or_below(c, *greatest)))
    }

    /// The meets of any two, or None if two have none.
    fn all_meets(&self) -> Option<Vec<Vec<Principal>>> {
        self.principals()
            .map(|a| self.principals().map(|b| self.find_meet(a, b)).collect())
            .collect()
    }

    /// "one principal, the top, is above all"
    fn find_top(&self) -> Option<Principal> {
        self.principals()
            .find(|top| self.principals().all(|i| self.at_or_below(i, *top)))
    }
}

/// The bits of a mask, bit 0 first.
fn mask_bits(mask: u32) -> [bool; Order::MOST_PRINCIPALS] {
    std::array::from_fn(|j| (mask >> j) & 1 == 1)
}

#[cfg(test)]
mod tests {
    use super::*;

    fn order(masks: &[u32]) -> Order {
        Order::from_masks(masks).expect("a good table")
    }

    /// Numbers of the meets, row by row.
    fn meets(order: &Order) -> Vec<Vec<u8>> {
        let row = |a| order.relation.principals().map(move |b| order.meet(a, b));
        let numbers = |a| row(a).map(Principal::number).collect();
        order.relation.principals().map(numbers).collect()
    }

    #[test]
    fn meets_in_a_diamond_with_its_bottom_numbered_last() {
        // 0 and 1 unrelated, 2 the top, 3 the bottom.
        let diamond = order(&[0b1001, 0b1010, 0b1111, 0b1000]);
        let expected = [[0, 3, 0, 3], [3, 1, 1, 3], [0, 1, 2, 3], [3, 3, 3, 3]];
        assert_eq!(meets(&diamond), expected);
        assert_eq!(diamond.top().number(), 2);
    }

    #[test]
    fn meets_of_divisors_are_common_divisors() {
        // Principal i stands for the divisor of 60 at that place.
        let divisors: [u32; 12] = [60, 1, 30, 2, 20, 3, 15, 4, 12, 5, 10, 6];
        let mask = |a: u32| {
            (0..12)
                .filter(|j| a.is_multiple_of(divisors[*j]))
                .fold(0, |mask, j| mask | 1 << j)
        };
        let masks: Vec<u32> = divisors.iter().map(|a| mask(*a)).collect();
        let found = order(&masks);
        assert_eq!(found.top().number(), 0);
        for (a, row) in meets(&found).iter().enumerate() {
            for (b, meet) in row.iter().enumerate() {
                let greatest = greatest_common_divisor(divisors[a], divisors[b]);
                assert_eq!(divisors[usize::from(*meet)], greatest, "{a} and {b}");
            }
        }
    }

    fn greatest_common_divisor(a: u32, b: u32) -> u32 {
        if b == 0 {
            a
        } else {
            greatest_common_divisor(b, a % b)
        }
    }

    #[test]
    fn at_or_below_is_what_the_masks_say() {
        let masks = [0b1001, 0b1010, 0b1111, 0b1000];
        let found = order(&masks);
        for upper in found.relation.principals() {
            for lower in found.relation.principals() {
                let bit = masks[upper.index()] >> lower.number() & 1 == 1;
                assert_eq!(found.at_or_below(lower, upper), bit);
            }
        }
    }

    #[test]
    fn only_numbers_below_n_are_principals() {
        let chain = order(&[0b001, 0b011, 0b111]);
        let known: Vec<u8> = (0..=255)
            .filter(|number| chain.principal(*number).is_some())
            .collect();
        assert_eq!(known, [0, 1, 2]);
    }
}
