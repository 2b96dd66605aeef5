//! The caller's arguments: rule and budget (11), and the output's length (12).

use crate::case::{case, Case, Draft};
use sheets::*;

pub fn cases() -> Vec<Case> {
    let mut cases = rules();
    cases.extend(first_of_all());
    cases.extend(default_rule());
    cases.extend(budgets());
    cases.extend(outputs());
    cases
}

const KNOWN: &str = "11 rule not 0, 1, 2, 3 or 255, or budget above 1,000,000";

/// Every known rule number runs; others are refused ahead of all else.
fn rules() -> Vec<Case> {
    let own_slot = |rule: u32| {
        case(format!("rule {rule}"), KNOWN)
            .block(0, set_integer(0, 42))
            .rule(rule)
    };
    let end = [once(integer(42)), kept(integer(7))];
    let known = RULES.map(|rule| own_slot(rule).finishes(1, &end));
    let unknown = [4, 5, 127, 128, 253, 254].map(|rule| own_slot(rule).refused_early(11));
    // The lowest byte of each is the number of a rule.
    let wide = [256, 257, 258, 259, 511, 1 << 16, 3 << 24 | 3, u32::MAX];
    let wide = wide.map(|rule| own_slot(rule).refused_early(11));
    known.into_iter().chain(unknown).chain(wide).collect()
}

/// With sheets of no bytes, and an output that is too long for them.
fn first_of_all() -> Vec<Case> {
    let order = |name| {
        case(name, "Order: 11; store sizes present (1)")
            .store(vec![])
            .programme(vec![])
            .output(1)
    };
    vec![
        order("rule before sheets").rule(4).refused_early(11),
        order("budget before sheets")
            .budget(1_000_001)
            .refused_early(11),
        order("sheets before output").refused_early(1),
    ]
}

/// "Rule 255 is to mean rule 3": what sets rule 3 apart from 0, 1 and 2, under
/// 255.
fn default_rule() -> Vec<Case> {
    let default = |name| case(name, "Rule 255 is to mean rule 3.").rule(255);
    let flag = store(&PAIR, &[(0, truth(true)), (1, integer(7))]);
    vec![
        default("rule 255, a write view is held")
            .block(0, set(0, literal(write_view(1))))
            .finishes(1, &[once(write_view(1)), kept(integer(7))]),
        default("rule 255, a low value goes up")
            .programme(example_programme([0, 1]))
            .refused(16, 1, 0, 1),
        default("rule 255, a low value goes up, endorsed")
            .programme(example_programme([0, 0x81]))
            .finishes(2, &[integer(42), integer(42)].map(once)),
        default("rule 255, the region is judged")
            .block(0, set_integer(1, 9))
            .refused(14, 0, 0, 0),
        default("rule 255, the branch is judged")
            .store(flag)
            .block(1, if_else(slot(0), set_integer(1, 41), skip()))
            .refused(16, 0, 1 + slot(0).len(), 1),
    ]
}

fn budgets() -> Vec<Case> {
    let spent = "Before each step, if steps done equal the budget, the run is spent.";
    let endless = |name, budget| {
        case(name, "The budget is 0 to 1,000,000.")
            .block(0, while_do(literal(truth(true)), skip()))
            .rule(3)
            .budget(budget)
    };
    let example = |budget: u32| {
        case(format!("two steps, budget {budget}"), spent)
            .programme(example_programme([0, 1]))
            .budget(budget)
    };
    vec![
        endless("budget 1000000", 1_000_000).refused(17, 0, 0, 1_000_000),
        endless("budget 1000001", 1_000_001).refused_early(11),
        endless("budget of four full bytes", u32::MAX).refused_early(11),
        example(0).refused(17, 0, 0, 0),
        example(1).refused(17, 1, 0, 1),
        example(2).finishes(2, &[integer(42), integer(42)].map(once)),
        case(
            "skips are no steps",
            "A step is one guard judged or one assignment made; nothing else counts.",
        )
        .blocks(&[(0, skip()), (1, sequence(&vec![skip(); 255]))])
        .budget(0)
        .finishes(0, &[integer(5), integer(7)].map(kept)),
    ]
}

/// Two slots ask for two slots' bytes, no fewer and no more.
fn outputs() -> Vec<Case> {
    let lent = |name, length| case(name, "so a slot takes 13 bytes").output(length);
    let full = 2 * OUTPUT_SLOT;
    let empty = |draft: Draft| draft.store(store(&[1], &[]));
    let bad_code = "9 or 10 in byte order; 12; run";
    vec![
        lent("output just so", full).finishes(0, &[integer(5), integer(7)].map(kept)),
        lent("output one byte short", full - 1).refused_early(12),
        lent("output one byte long", full + 1).refused_early(12),
        lent("output of no bytes", 0).refused_early(12),
        lent("output of one byte", 1).refused_early(12),
        lent("output of one slot", OUTPUT_SLOT).refused_early(12),
        lent("output of 256 slots", 256 * OUTPUT_SLOT).refused_early(12),
        empty(lent("output for no slots", 0)).finishes(0, &[]),
        empty(lent("output of a byte for no slots", 1)).refused_early(12),
        case("code before output", bad_code)
            .block(0, vec![0x25])
            .output(0)
            .refused(9, 0, 0, 0),
        case("output before the run", bad_code)
            .block(0, set_integer(1, 9))
            .output(0)
            .refused_early(12),
        case("output before the budget is spent", bad_code)
            .programme(example_programme([0, 1]))
            .budget(0)
            .output(1)
            .refused_early(12),
    ]
}
