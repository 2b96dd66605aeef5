//! Document 01's worked examples, its "finds": those that are not marked P, then
//! P1 to P12, whose theorem is about the definitions and which are played here as
//! well. "01's finds are worked again" (document 02, N3): values have nine bytes.

use crate::case::{case, Case};
use crate::depth::{in_while, nested};
use sheets::*;

pub fn cases() -> Vec<Case> {
    let mut cases = limits();
    cases.extend(examples());
    cases.extend(single_blocks());
    cases.extend(budgets());
    cases
}

fn opening() -> [EndSlot; 2] {
    [integer(5), integer(7)].map(kept)
}

/// Slot 0 shows itself, so any number of reads through it gives its view.
fn mirror_store() -> Bytes {
    store(&[1], &[(0, read_view(0)), (0, integer(7))])
}

fn limits() -> Vec<Case> {
    vec![
        case("masks 1 and 2", "Masks 1 and 2 with n = 2: refusal 3.")
            .store(store(&[1, 2], &[]))
            .refused_early(3),
        case("n 1", "n = 1, mask 1: good.")
            .store(store(&[1], &[(0, integer(5))]))
            .finishes(0, &[kept(integer(5))]),
        case("depth 32", "Depth 32 and 8 reads pass")
            .block(0, nested(32, skip(), in_while))
            .finishes(1, &opening()),
        // 32 whiles, each a byte and a guard, stand before the 33rd command.
        case("depth 33", "33 and 9 give 10")
            .block(0, nested(33, skip(), in_while))
            .refused(10, 0, 32 * (1 + LITERAL), 0),
        case("reads 8", "Depth 32 and 8 reads pass")
            .store(mirror_store())
            .block(0, set(1, reads(8, 0)))
            .finishes(1, &[kept(read_view(0)), once(read_view(0))]),
        // The ninth read follows the assignment's byte, its target and eight.
        case("reads 9", "33 and 9 give 10")
            .store(mirror_store())
            .block(0, set(1, reads(9, 0)))
            .refused(10, 0, 1 + LITERAL + 8, 0),
        case("m 0", "m = 0 passes, 257 gives 2.")
            .store(store(&[1], &[]))
            .block(0, skip())
            .finishes(0, &[]),
        case("m 257", "m = 0 passes, 257 gives 2.")
            .store(store(&[1], &vec![(0, integer(0)); 257]))
            .refused_early(2),
    ]
}

/// P1 to P5: document 01's store and programme.
fn examples() -> Vec<Case> {
    let example = |name, says, regions, rule| {
        case(name, says)
            .programme(example_programme(regions))
            .rule(rule)
    };
    let end = [integer(42), integer(42)].map(once);
    vec![
        example("P1", "rules 0 and 1 finish, steps 2", [0, 1], 0).finishes(2, &end),
        example("P2", "rules 0 and 1 finish, steps 2", [0, 1], 1).finishes(2, &end),
        example("P3", "rules 2 and 3 give 16, block 1", [0, 1], 2).refused(16, 1, 0, 1),
        example("P4", "rules 2 and 3 give 16, block 1", [0, 1], 3).refused(16, 1, 0, 1),
        example("P5", "second region 81, rule 3 finishes", [0, 0x81], 3).finishes(2, &end),
    ]
}

/// P6 to P9: one block.
fn single_blocks() -> Vec<Case> {
    let high = |name| case(name, "slot 1 := 9: rule 0 gives 14, rule 1 gives 15");
    let view = |name| case(name, "P8: region 00, slot 0 := write view of slot 1");
    let branch = |name, says| {
        case(name, says)
            .store(store(&PAIR, &[(0, truth(true)), (1, integer(7))]))
            .block(1, if_else(slot(0), set_integer(1, 41), set_integer(1, 42)))
    };
    let choice = "if read of slot 0 then slot 1 := 41 else slot 1 := 42";
    let offset = "the branch of P9 then stands at offset 12";
    let put_view = set(0, literal(write_view(1)));
    vec![
        high("P6").block(0, set_integer(1, 9)).refused(14, 0, 0, 0),
        high("P7")
            .block(0, set_integer(1, 9))
            .rule(1)
            .refused(15, 0, 0, 0),
        view("P8 rule 0")
            .block(0, put_view.clone())
            .finishes(1, &[once(write_view(1)), kept(integer(7))]),
        view("P8 rule 1")
            .block(0, put_view)
            .rule(1)
            .refused(15, 0, 0, 0),
        branch("P9 rule 2", choice)
            .rule(2)
            .finishes(2, &[kept(truth(true)), once(integer(41))]),
        branch("P9 rule 3", offset).rule(3).refused(16, 0, 12, 1),
    ]
}

/// P10 to P12, under each rule.
fn budgets() -> Vec<Case> {
    let never = || while_do(literal(truth(false)), skip());
    let ever = || while_do(literal(truth(true)), skip());
    let once = |name: String| {
        case(
            name,
            "while false do skip: budget 1 finishes, budget 0 gives 17",
        )
    };
    let none = |name: String| case(name, "k = 0, budget 0: finishes").budget(0);
    let spent = |name: String| case(name, "while true do skip, budget 3: 17, steps 3").budget(3);
    let cases = RULES.into_iter().flat_map(|rule| {
        let name = |example: &str| format!("{example} rule {rule}");
        [
            none(name("P10")).rule(rule).finishes(0, &opening()),
            once(name("P11 budget 1"))
                .block(0, never())
                .rule(rule)
                .budget(1)
                .finishes(1, &opening()),
            once(name("P11 budget 0"))
                .block(0, never())
                .rule(rule)
                .budget(0)
                .refused(17, 0, 0, 0),
            spent(name("P12"))
                .block(0, ever())
                .rule(rule)
                .refused(17, 0, 0, 3),
        ]
    });
    cases.collect()
}
