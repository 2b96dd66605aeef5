//! 13, 14, 15, 17 and 18, with their whole texts.

mod told;

use muntyzhap::{Rule, MOST_BUDGET};
use told::text;

/// A store with a slot of each, and a block.
fn with_block(block: &str) -> told::Text {
    text(&format!(
        "principals nobody < digA, digB < lab
slot place : digA = write curve
slot view  : digA = read place
slot curve : lab  = 50000
{block}
"
    ))
}

/// Under every rule, as these come before labels and rights are judged.
#[track_caller]
fn assert_wrong_kind(block: &str, at: &str, reason: &str, mend: &str) {
    for rule in Rule::ALL {
        let expected = format!(
            "refused by 13: wrong kind\n  at deputy.mz:5:13, block 0 (region lab), offset 0, after 0 steps: \
             {at}\n  {reason}\n  What to do: {mend}."
        );
        assert_eq!(with_block(block).refusal(rule), expected);
    }
}

#[test]
fn guards_are_truth_values() {
    assert_wrong_kind(
        "block lab { if curve { skip } }",
        "if curve",
        "A guard has to be a truth value, true or false. This one is the integer 50000, read from curve, which lab owns.",
        "let curve hold true or false before, or compare what it holds by `<` or `==`",
    );
    assert_wrong_kind(
        "block lab { while 1 { skip } }",
        "while 1",
        "A guard has to be a truth value, true or false. This one is the integer 1, a literal.",
        "make the guard true, false, a slot that holds one of them, or a comparison by `<` or `==`",
    );
}

#[test]
fn targets_are_write_views() {
    assert_wrong_kind(
        "block lab { [view] := 5 }",
        "[view] := 5",
        "A target has to be a write view. This one is the read view `read place`, read from view, which digA owns.",
        "to write view itself, use its name without brackets; to write the slot that it names, let it hold a write view \
         before (`write ..`)",
    );
    assert_wrong_kind(
        "block lab { [1 + 2] := 5 }",
        "[1 + 2] := 5",
        "A target has to be a write view. This one is the integer 3, the result of `+`.",
        "write a slot by its name, or put in the brackets a slot that holds a write view",
    );
}

/// The slot that the value is from is named, and those on the way to it.
#[test]
fn reads_need_read_views() {
    assert_wrong_kind(
        "block lab { curve := [[view]] }",
        "curve := [[view]]",
        "In the value, a read needs a read view. It was given the write view `write curve`, read from place, which digA \
         owns. Read on the way: view.",
        "to read place itself, use its name without brackets; to read the slot that it names, let it hold a read view \
         before (`read ..`)",
    );
    assert_wrong_kind(
        "block lab { [[true]] := 1 }",
        "[[true]] := 1",
        "In the target, a read needs a read view. It was given the truth value true, a literal.",
        "read a slot by its name, or put in the brackets a slot that holds a read view",
    );
}

#[test]
fn operations_need_integers() {
    assert_wrong_kind(
        "block lab { if curve < (curve == 5) { skip } }",
        "if curve < (curve == 5)",
        "In the guard, `<` needs two integers. On its left stands the integer 50000, read from curve, which lab owns; on \
         its right the truth value false, the result of `==`.",
        "let both be integers; only `==` takes values of other kinds",
    );
}

/// Rule 1 asks otherwise.
#[test]
fn a_region_needs_authority() {
    let by_view = with_block("block send : digA { place := write curve; [place] := 5 }");
    for rule in [
        Rule::AccessControl,
        Rule::ExplicitProvenance,
        Rule::FullProvenance,
        Rule::Default,
    ] {
        assert_eq!(
            by_view.refusal(rule),
            "\
refused by 14: no authority
  at deputy.mz:5:43, block 0 (send, region digA), offset 23, after 1 step: [place] := 5
  It would write curve, which lab owns. The target, `write curve`, was read from place, which digA owns.
  The block's region has to stand at or above lab, and digA does not. Those that do: lab.
  What to do: write a slot that digA may write (place and view), or have a block of region lab write curve."
        );
    }
    let by_name = with_block("block digB { place := 5 }");
    assert_eq!(
        by_name.refusal(Rule::FullProvenance),
        "\
refused by 14: no authority
  at deputy.mz:5:14, block 0 (region digB), offset 0, after 0 steps: place := 5
  It would write place, which digA owns.
  The block's region has to stand at or above digA, and digB does not. Those that do: digA and lab.
  What to do: give digB a slot of its own to write, or have a block of region digA or lab write place."
    );
}

#[test]
fn capability_judges_write_views() {
    let literal = with_block("block digA { place := write curve }");
    assert_eq!(
        literal.refusal(Rule::Capability),
        "\
refused by 15: write view not allowed
  at deputy.mz:5:14, block 0 (region digA), offset 0, after 0 steps: place := write curve
  It would meet `write curve`, a write view of curve, which lab owns: as a literal in its value.
  Under capability a block of region digA may meet write views of slots owned at or below digA alone: place and view.
  What to do: leave `write curve` out, or have a block of region lab do this."
    );
    let read = with_block("block digB { if place == 5 { skip } }");
    assert_eq!(
        read.refusal(Rule::Capability),
        "\
refused by 15: write view not allowed
  at deputy.mz:5:14, block 0 (region digB), offset 0, after 0 steps: if place == 5
  It would meet `write curve`, a write view of curve, which lab owns: in its guard, read from place, which digA owns.
  Under capability a block of region digB may meet write views of slots owned at or below digB alone: there is none.
  What to do: keep `write curve` out of place, or have a block of region lab do this."
    );
    let target = with_block("block digA { [place] := 5 }").refusal(Rule::Capability);
    assert!(
        target.contains(": in its target, read from place, which digA owns."),
        "{target}"
    );
}

#[test]
fn a_spent_budget_says_what_there_is_to_do() {
    let counting = with_block("block lab { curve := 1; while true { curve := curve + 1 } }");
    for rule in Rule::ALL {
        assert_eq!(
            counting.refusal_within(rule, 1, 1),
            "\
refused by 17: budget spent
  at deputy.mz:5:25, block 0 (region lab), offset 23, after 1 step: while true
  The budget is 1 step; 1 step is done, and this command needs one more.
  It is in a while: if that never ends, no budget is enough.
  What to do: give a larger budget, up to 1000000 steps, or run in slices and carry on from the checkpoint."
        );
    }
    assert_eq!(
        counting.refusal_within(Rule::FullProvenance, MOST_BUDGET, MOST_BUDGET as usize),
        "\
refused by 17: budget spent
  at deputy.mz:5:38, block 0 (region lab), offset 34, after 1000000 steps: curve := curve + 1
  The budget is 1000000 steps; 1000000 steps are done, and this command needs one more.
  It is in a while: if that never ends, no budget is enough.
  What to do: no run does more than 1000000 steps, in slices or not: let the blocks do less, or split the work into \
runs of their own."
    );
    let first = counting.refusal_within(Rule::Default, 0, 0);
    assert!(!first.contains("in a while"), "{first}");
    assert!(
        first.contains("The budget is 0 steps; 0 steps are done,"),
        "{first}"
    );
}

/// What to do then is said by whoever keeps the checkpoint, unless no budget is enough.
#[test]
fn a_spent_budget_that_is_a_pause_is_told_as_one() {
    let counting = with_block("block lab { while true { curve := curve + 1 } }").paused();
    assert_eq!(
        counting.refusal_within(Rule::FullProvenance, 1, 1),
        "\
paused by 17: budget spent
  at deputy.mz:5:26, block 0 (region lab), offset 11, after 1 step: curve := curve + 1
  The budget is 1 step; 1 step is done, and this command needs one more.
  It is in a while: if that never ends, no budget is enough."
    );
    let most = MOST_BUDGET as usize;
    let spent = counting.refusal_within(Rule::FullProvenance, MOST_BUDGET, most);
    assert!(spent.starts_with("paused by 17: "), "{spent}");
    assert!(spent.contains("What to do: no run does more"), "{spent}");
    let full = counting.refusal_within(Rule::FullProvenance, 9, 0);
    assert!(full.starts_with("refused by 18: "), "{full}");
}

/// A run that is carried on with a budget that it has passed.
#[test]
fn a_budget_includes_the_steps_so_far() {
    let counting = with_block("block lab { while true { curve := curve + 1 } }");
    let words = |at, budget| counting.refusal_carried_on(Rule::FullProvenance, at, budget);
    assert_eq!(
        words(200, 5),
        "\
refused by 17: budget spent
  at deputy.mz:5:13, block 0 (region lab), offset 0, after 200 steps: while true
  The budget is 5 steps, and 200 steps are done already: a budget includes the steps so far.
  It is in a while: if that never ends, no budget is enough.
  What to do: give a budget above 200, up to 1000000 steps, or run in slices and carry on from the checkpoint."
    );
    let same = words(200, 200);
    assert!(
        same.contains("The budget is 200 steps; 200 steps are done, and"),
        "{same}"
    );
    let all = words(MOST_BUDGET, 5);
    assert!(all.contains("1000000 steps are done already"), "{all}");
    assert!(all.contains("no run does more than 1000000 steps"), "{all}");
}

/// A name that a sentence would take for a word of its own is said to be a name.
#[test]
fn a_principal_called_nobody_is_not_misread() {
    let none = with_block("block nobody { place := 5 }").refusal(Rule::FullProvenance);
    assert!(
        none.ends_with(
            "\
  The block's region has to stand at or above digA, and the principal nobody does not. Those that do: digA and lab.
  What to do: give the principal nobody a slot of its own to write, or have a block of region digA or lab write place."
        ),
        "{none}"
    );
    let view = with_block("block nobody { if place == 5 { skip } }").refusal(Rule::Capability);
    let slots = "a block of region nobody may meet write views of slots owned at or below the principal nobody alone";
    assert!(view.contains(slots), "{view}");
    let owned =
        text("principals nobody < lab slot x : nobody = 5 slot y : lab = 1 block lab { y := x }");
    let owned = owned.refusal(Rule::FullProvenance);
    assert!(
        owned.contains("too low: read from x, which the principal nobody owns\n"),
        "{owned}"
    );
    let highest = text("principals lab < nobody slot x : nobody = 5 block lab { x := 1 }");
    let highest = highest.refusal(Rule::FullProvenance);
    for words in [
        "It would write x, which the principal nobody owns.",
        "has to stand at or above the principal nobody, and lab does not. Those that do: the principal nobody.",
        "or have a block of region nobody write x.",
    ] {
        assert!(highest.contains(words), "{highest}");
    }
    let kind = text("principals nobody slot x : nobody = 5 block nobody { if x { skip } }");
    let kind = kind.refusal(Rule::FullProvenance);
    assert!(
        kind.contains("read from x, which the principal nobody owns."),
        "{kind}"
    );
}

#[test]
fn a_full_journal_says_how_long_it_is() {
    let counting = with_block("block lab { while true { curve := curve + 1 } }");
    let journals = [
        (0, 1, "has no entry"),
        (1, 3, "has 1 entry, which is filled"),
        (300, 601, "has 300 entries, all of them filled"),
    ];
    for (entries, steps, filled) in journals {
        let words = if steps == 1 { "step" } else { "steps" };
        let expected = format!(
            "refused by 18: journal full\n  at deputy.mz:5:26, block 0 (region lab), offset 11, after {steps} {words}: \
             curve := curve + 1\n  The journal {filled}, and an assignment needs a free one.\n  What to do: lend a longer \
             journal. One with an entry for each step of the budget is never too short."
        );
        for rule in Rule::ALL {
            assert_eq!(counting.refusal_within(rule, 1_000, entries), expected);
        }
    }
}

/// What is no refusal of a step is told in the wrapper's words.
#[test]
fn other_answers_have_the_wrapper_s_words() {
    let one = with_block("block lab { curve := 1 }");
    assert_eq!(one.refusal(Rule::Default), "not refused: the run finished");
    let refused = one.refusal_within(Rule::Default, MOST_BUDGET + 1, 0);
    assert_eq!(refused, muntyzhap::Refusal::Arguments.to_string());
}
