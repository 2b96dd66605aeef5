//! Examples 1 to 10 of the paper that the calculus is from (source 003),
//! under the four rule sets, with the table at the end of its section IV.
//!
//! The paper's ⊥ is principal 0 here and its ⊤ is principal 1, above it; a
//! region ρ of the paper that is the adversary's own and may write high
//! references is principal 1 too. A hole is filled with the attack that the
//! example describes. `compile` and `billing` are left out, since document 01
//! has no arithmetic and no procedures: what they would work on is copied as it
//! is, which keeps its label. Nothing else had to change; the paper has no
//! exceptions, and its endorsed regions are document 01's endorsed blocks, with
//! ⊥ as their floor (document 02, N6).
//!
//! Every row of the table comes out. Where the table says NP (the example is
//! outside of what the rule set is shown to protect) it promises nothing; the
//! answer here is the rule set's own by document 01.

use crate::case::{case, finished, refused, Case, Expected};
use sheets::*;

/// The paper's ⊥ and ⊤, and ⊤ endorsed: every floor is 0, which is ⊥.
const LOW: u8 = 0;
const HIGH: u8 = 1;
const HIGH_ENDORSED: u8 = 0x81;

/// What the table says of an example under a rule set.
#[derive(Debug, Clone, Copy, PartialEq, Eq)]
pub enum Verdict {
    Accepted,
    Rejected,
    NotProtected,
}

use Verdict::{Accepted as A, NotProtected as NP, Rejected as R};

/// The table at the end of section IV: for each example the columns ACs, Cs,
/// EPs and FPs, which are rules 0 to 3.
pub const TABLE: [[Verdict; 4]; 10] = [
    [A, R, R, R],
    [A, NP, R, R],
    [A, NP, NP, R],
    [A, NP, R, R],
    [A, R, R, R],
    [A, NP, NP, A],
    [A, NP, A, A],
    [A, A, R, R],
    [A, NP, NP, A],
    [A, A, A, R],
];

/// An example's sheets, and how it ends under rules 0 to 3.
struct Example {
    says: &'static str,
    slots: Vec<(u8, Bytes)>,
    blocks: Vec<(u8, Bytes)>,
    ends: [Expected; 4],
}

fn examples() -> [Example; 10] {
    [
        compiler_service(),
        value_attack(),
        implicit_influence(),
        initial_heap_attack(),
        compiler_service_with_billing(),
        constant(),
        low_copy(),
        copy_up(),
        high_copy(),
        branch(),
    ]
}

pub fn cases() -> Vec<Case> {
    let numbered = examples().into_iter().zip(1..);
    let mut cases: Vec<Case> = numbered
        .flat_map(|(example, number)| under_each_rule(example, number))
        .collect();
    cases.extend(further());
    cases
}

pub fn name(example: usize, rule: usize) -> String {
    format!("paper-{example:02} rule {rule}")
}

fn under_each_rule(example: Example, number: usize) -> Vec<Case> {
    let sheet = store(&PAIR, &example.slots);
    let draft = |rule: usize| {
        case(name(number, rule), example.says)
            .store(sheet.clone())
            .blocks(&example.blocks)
            .rule(u32::try_from(rule).expect("a rule number"))
    };
    let ends = example.ends.into_iter().enumerate();
    ends.map(|(rule, end)| draft(rule).ends(end)).collect()
}

/// An assignment through the view that a slot holds.
fn set_through(slot_of_view: i64, value: Bytes) -> Bytes {
    assign(slot(slot_of_view), value)
}

/// The adversary of examples 1 and 5: W rO := W r; W rS := 42.
fn name_a_high_output() -> Bytes {
    sequence(&[set(1, literal(write_view(2))), set_integer(0, 42)])
}

/// ⊥{•} ∘ ⊤{!R rO := compile(!R rS)}. Slots: rS, rO, r.
fn compiler_service() -> Example {
    let end = [integer(42), write_view(2), integer(42)].map(once);
    Example {
        says: "Example 1 (Compiler service, simplified)",
        slots: vec![(LOW, integer(1)), (LOW, integer(0)), (HIGH, integer(7))],
        blocks: vec![(LOW, name_a_high_output()), (HIGH, set_through(1, slot(0)))],
        ends: [
            finished(2, 3, &end),
            refused(15, 0, 2, 0),
            refused(16, 1, 0, 2),
            refused(16, 1, 0, 2),
        ],
    }
}

/// ⊥{•} ∘ ⊤{W r := !R r'}, the adversary W r' := 42. Slots: r', r.
fn value_attack() -> Example {
    let end = [integer(42), integer(42)].map(once);
    Example {
        says: "Example 2 (Value attack)",
        slots: vec![(LOW, integer(5)), (HIGH, integer(7))],
        blocks: vec![(LOW, set_integer(0, 42)), (HIGH, set(1, slot(0)))],
        ends: [
            finished(2, 2, &end),
            finished(2, 2, &end),
            refused(16, 1, 0, 1),
            refused(16, 1, 0, 1),
        ],
    }
}

/// if !R rA then W rH := 41 else W rH := 42, over slots rA and rH.
fn choose() -> Bytes {
    if_else(slot(0), set_integer(1, 41), set_integer(1, 42))
}

/// Where the then-part of that command starts.
const THEN_PART: usize = 1 + 1 + LITERAL;

/// ⊥{•} ∘ ⊤{if !R rA then ..}, the adversary W rA := tt. Slots: rA, rH.
fn implicit_influence() -> Example {
    let end = [truth(true), integer(41)].map(once);
    Example {
        says: "Example 3 (Implicit influence)",
        slots: vec![(LOW, truth(false)), (HIGH, integer(7))],
        blocks: vec![(LOW, set(0, literal(truth(true)))), (HIGH, choose())],
        ends: [
            finished(2, 3, &end),
            finished(2, 3, &end),
            finished(2, 3, &end),
            refused(16, 1, THEN_PART, 2),
        ],
    }
}

/// ⊥{•} ∘ ⊤{!R rA := !R r'A}, the adversary W r'A := 42, and rA holding W rH
/// from the start. Slots: rA, r'A, rH.
fn initial_heap_attack() -> Example {
    let end = [kept(write_view(2)), once(integer(42)), once(integer(42))];
    Example {
        says: "Example 4 (Initial heap attack)",
        slots: vec![(LOW, write_view(2)), (LOW, integer(5)), (HIGH, integer(7))],
        blocks: vec![(LOW, set_integer(1, 42)), (HIGH, set_through(0, slot(1)))],
        ends: [
            finished(2, 2, &end),
            finished(2, 2, &end),
            refused(16, 1, 0, 1),
            refused(16, 1, 0, 1),
        ],
    }
}

/// Slots: rS, rO, r, rB.
fn service_slots() -> Vec<(u8, Bytes)> {
    vec![
        (LOW, integer(1)),
        (LOW, integer(0)),
        (HIGH, integer(7)),
        (HIGH, integer(0)),
    ]
}

/// This adversary, and example 1's compiler with its endorsed billing: ⊤
/// endorsed {W rB := billing(!R rS)}.
fn service_blocks(adversary: Bytes) -> Vec<(u8, Bytes)> {
    vec![
        (LOW, adversary),
        (HIGH, set_through(1, slot(0))),
        (HIGH_ENDORSED, set(3, slot(0))),
    ]
}

/// Rejected by the compiler's block, not by the endorsed one.
fn compiler_service_with_billing() -> Example {
    let end = [integer(42), write_view(2), integer(42), integer(42)].map(once);
    Example {
        says: "Example 5 (Compiler service)",
        slots: service_slots(),
        blocks: service_blocks(name_a_high_output()),
        ends: [
            finished(3, 4, &end),
            refused(15, 0, 2, 0),
            refused(16, 1, 0, 2),
            refused(16, 1, 0, 2),
        ],
    }
}

/// ⊥{•} ∘ ⊤{W r := 1}, with an adversary that works out a high reference.
/// Slots: one of the adversary's, r.
fn constant() -> Example {
    let end = [write_view(1), integer(1)].map(once);
    Example {
        says: "Example 6: simply writes 1 to the reference r",
        slots: vec![(LOW, integer(5)), (HIGH, integer(7))],
        blocks: vec![
            (LOW, set(0, literal(write_view(1)))),
            (HIGH, set_integer(1, 1)),
        ],
        ends: [
            finished(2, 2, &end),
            refused(15, 0, 0, 0),
            finished(2, 2, &end),
            finished(2, 2, &end),
        ],
    }
}

/// ⊤{W r := !R rL}, rL holding W rH. Slots: r, rL, rH.
fn copy_of_view(says: &'static str, owner: u8) -> Example {
    let end = [once(write_view(2)), kept(write_view(2)), kept(integer(7))];
    Example {
        says,
        slots: vec![
            (owner, integer(5)),
            (owner, write_view(2)),
            (HIGH, integer(7)),
        ],
        blocks: vec![(HIGH, set(0, slot(1)))],
        ends: [(); 4].map(|()| finished(1, 1, &end)),
    }
}

/// r and rL are low.
fn low_copy() -> Example {
    copy_of_view(
        "Example 7: the copy of a low reference's contents to a low one",
        LOW,
    )
}

/// ρ{W rH := !R rL}, ρ at or above rH's owner, which is above rL's. Slots:
/// rL, rH.
fn copy_up() -> Example {
    let end = [kept(integer(5)), once(integer(5))];
    Example {
        says: "Example 8: EPs will stop this context, Cs will allow it",
        slots: vec![(LOW, integer(5)), (HIGH, integer(7))],
        blocks: vec![(HIGH, set(1, slot(0)))],
        ends: [
            finished(1, 1, &end),
            finished(1, 1, &end),
            refused(16, 0, 0, 0),
            refused(16, 0, 0, 0),
        ],
    }
}

/// Example 7 with rL, and so r, high. (The copy of the paper at hand has "⊥ ≥
/// O(rL)" here, as in example 7. But it says that this heap violates nihrHH, so
/// that a high reference holds a high one: a stroke through the ≥ is lost.)
fn high_copy() -> Example {
    copy_of_view(
        "Example 9: outside the fragment of EPs, completes in FPs",
        HIGH,
    )
}

/// ρ{if !R rA then W rH := 41 else W rH := 42}. Slots: rA, rH.
fn branch() -> Example {
    let end = [kept(truth(true)), once(integer(41))];
    Example {
        says: "Example 10: FPs will stop this program, EPs will allow it",
        slots: vec![(LOW, truth(true)), (HIGH, integer(7))],
        blocks: vec![(HIGH, choose())],
        ends: [
            finished(1, 2, &end),
            finished(1, 2, &end),
            finished(1, 2, &end),
            refused(16, 0, THEN_PART, 1),
        ],
    }
}

/// What the paper says of the same contexts besides the table.
fn further() -> Vec<Case> {
    let honest = sequence(&[set(1, literal(write_view(1))), set_integer(0, 42)]);
    // The caller's slot 1 gets the view of itself, and then the result.
    let end = [
        once(integer(42)),
        written(2, integer(42)),
        kept(integer(7)),
        once(integer(42)),
    ];
    let service = |rule: u32| {
        case(
            format!("paper-05 with an honest caller, rule {rule}"),
            "the adversary can legitimately influence the billing file",
        )
        .store(store(&PAIR, &service_slots()))
        .blocks(&service_blocks(honest.clone()))
        .rule(rule)
        .finishes(4, &end)
    };
    let mut cases: Vec<Case> = [0, 1, 2, 3].map(service).into();
    cases.push(
        case(
            "paper-06 with an idle adversary, rule 1",
            "any adversarial command that computes a high reference .. will be stopped by Cs",
        )
        .blocks(&[(LOW, skip()), (HIGH, set_integer(1, 1))])
        .rule(1)
        .finishes(1, &[kept(integer(5)), once(integer(1))]),
    );
    cases.extend(theorem_5());
    cases
}

/// ⊥{•} ∘ ⊤endorsed{W rV := W rH} ∘ ⊤{if !R rA then !R rV := 41 else !R rV := 42},
/// the adversary W rA := true or W rA := false. Slots: rA, rH, rV. The last
/// region is not endorsed and contains no write view, but the view that the
/// endorsed one stored is there: EPs let the adversary choose what rH gets.
fn theorem_5() -> [Case; 3] {
    let run = |sent: bool, rule: u32| {
        let through = |payload| set_through(2, literal(integer(payload)));
        case(
            format!("paper theorem 5 with an endorsed block, {sent}, rule {rule}"),
            "Theorem 5 (EPs prevents some more CDAs), read of a whole run",
        )
        .store(store(
            &PAIR,
            &[(LOW, truth(true)), (HIGH, integer(7)), (HIGH, integer(7))],
        ))
        .blocks(&[
            (LOW, set(0, literal(truth(sent)))),
            (HIGH_ENDORSED, set(2, literal(write_view(1)))),
            (HIGH, if_else(slot(0), through(41), through(42))),
        ])
        .rule(rule)
    };
    [
        run(true, 2).finishes(4, &[truth(true), integer(41), write_view(1)].map(once)),
        run(false, 2).finishes(4, &[truth(false), integer(42), write_view(1)].map(once)),
        run(true, 3).refused(16, 2, THEN_PART, 3),
    ]
}
