//! 16, with its whole text.

mod told;

use muntyzhap::Rule;
use told::text;

/// The rules that judge the branch.
const FULL: [Rule; 2] = [Rule::FullProvenance, Rule::Default];

const DEPUTY: &str = "\
principals nobody < digA, digB < lab
slot place  : digA = write result
slot result : digA = 0
slot curve  : lab  = 50000
block digA { place := write curve }
block lab  { [place] := 42 }
";

/// A store with a slot of each, and a block.
fn with_block(block: &str) -> told::Text {
    text(&format!(
        "principals nobody < digA, digB < lab
slot ready  : digA = true
slot offset : digB = 5
slot place  : lab  = read offset
slot curve  : lab  = 50000
{block}
"
    ))
}

#[test]
fn a_target_from_below_is_named() {
    for rule in FULL {
        assert_eq!(
            text(DEPUTY).refusal(rule),
            "\
refused by 16: provenance too low
  at deputy.mz:6:14, block 1 (region lab), offset 0, after 1 step: [place] := 42
  It would write curve, which lab owns. Every label judged has to stand at or above lab.
    target  digA  too low: read from place, which digA owns
    value   lab   enough: no slot was read
    branch  lab   enough: no guard is open around it
  What to do: write the slot that is meant by its name, so that the target comes from no slot.
  Or, if block 1 may rely on what comes from digA, endorse it down to digA: `block lab endorsed down to digA { .. }`. \
digA and whoever stands above it then have a say in what this block writes."
        );
    }
}

/// Under rule 2 there is one label less.
#[test]
fn explicit_provenance_judges_no_branch() {
    let guarded = with_block("block lab { if ready { curve := offset + curve } }");
    assert_eq!(
        guarded.refusal(Rule::ExplicitProvenance),
        "\
refused by 16: provenance too low
  at deputy.mz:6:24, block 0 (region lab), offset 12, after 1 step: curve := offset + curve
  It would write curve, which lab owns. Every label judged has to stand at or above lab.
    target  lab   enough: no slot was read
    value   digB  too low: read from offset, which digB owns
    branch  digA  not judged under explicit provenance
  What to do: take the value from literals and from slots owned at or above lab; or write a slot owned at or below digB in place of curve.
  Or, if block 0 may rely on what comes from digB, endorse it down to digB: `block lab endorsed down to digB { .. }`. \
digB and whoever stands above it then have a say in what this block writes."
    );
}

/// Each guard that pulls the label down stands on a line of its own; one that does
/// not is left out.
#[test]
fn guards_are_named_with_their_places() {
    let nested = with_block(
        "block mend : lab {
  if ready { if curve == 0 { skip } else { while offset == 5 { curve := curve + 1 } } }
}",
    );
    let expected = "\
refused by 16: provenance too low
  at deputy.mz:7:64, block 0 (mend, region lab), offset 59, after 3 steps: curve := curve + 1
  It would write curve, which lab owns. Every label judged has to stand at or above lab.
    target  lab     enough: no slot was read
    value   lab     enough: read from curve, which lab owns
    branch  nobody  too low:
                      in the then-part of `if ready` at deputy.mz:7:3, read from ready, which digA owns
                      in the body of `while offset == 5` at deputy.mz:7:44, read from offset, which digB owns
  What to do: move the assignment to where no such guard is around it, or let the guard come from slots owned at or above lab.
  Or take each into a slot of its own that lab owns, by a block endorsed down to its owner: \
`block lab endorsed down to digA { .. := ready }` and \
`block lab endorsed down to digB { .. := offset }`. \
Then use those slots in place of ready and offset, in a block that is not endorsed.
  Or, as a last resort, if block 0 may rely on what anybody sends, endorse it down to the principal nobody, which stands below all: \
`block mend : lab endorsed down to nobody { .. }`. Everybody then has a say in what this block writes.";
    assert_eq!(nested.refusal(Rule::FullProvenance), expected);
    // The outer guard was judged before the pause; that of the while after it.
    let earlier = expected.replace(
        "at deputy.mz:7:3, read from ready, which digA owns",
        "at deputy.mz:7:3, judged in an earlier stretch",
    );
    assert_eq!(nested.refusal_after_pause(Rule::FullProvenance, 2), earlier);
}

/// A guard that is high enough is no reason, nor is a view's slot that is.
#[test]
fn a_slot_that_is_read_twice_is_named_once() {
    let chained = with_block("block lab { if curve == 50000 { curve := [place] + offset } }");
    assert_eq!(
        chained.refusal(Rule::FullProvenance),
        "\
refused by 16: provenance too low
  at deputy.mz:6:33, block 0 (region lab), offset 23, after 1 step: curve := [place] + offset
  It would write curve, which lab owns. Every label judged has to stand at or above lab.
    target  lab   enough: no slot was read
    value   digB  too low: read from offset, which digB owns
    branch  lab   enough: no guard around it pulls it down
  What to do: take the value from literals and from slots owned at or above lab; or write a slot owned at or below digB in place of curve.
  Or, if block 0 may rely on what comes from digB, endorse it down to digB: `block lab endorsed down to digB { .. }`. \
digB and whoever stands above it then have a say in what this block writes."
    );
}

#[test]
fn with_a_floor_the_meet_is_told_and_each_label_for_both() {
    let endorsed = with_block("block lab endorsed down to digA { if ready { curve := offset } }");
    assert_eq!(
        endorsed.refusal(Rule::FullProvenance),
        "\
refused by 16: provenance too low
  at deputy.mz:6:46, block 0 (region lab, endorsed down to digA), offset 12, after 1 step: curve := offset
  It would write curve, which lab owns. The block is endorsed down to digA, so the meet of all labels judged has to \
stand at or above lab, or at or above digA. It is the principal nobody, which does neither.
    target  lab   enough for either: no slot was read
    value   digB  too low for lab and for the floor digA: read from offset, which digB owns
    branch  digA  too low for lab: in the then-part of `if ready` at deputy.mz:6:35, read from ready, which digA owns
                  enough for the floor digA
  What to do: take the value from literals and from slots owned at or above digA; or write a slot that the principal nobody owns in place of curve.
  Or take each into a slot of its own that lab owns, by a block endorsed down to its owner: \
`block lab endorsed down to digB { .. := offset }` and \
`block lab endorsed down to digA { .. := ready }`. \
Then use those slots in place of offset and ready, in a block that is not endorsed.
  Or, as a last resort, if block 0 may rely on what anybody sends, endorse it down to the principal nobody, which stands below all: \
`block lab endorsed down to nobody { .. }`. Everybody then has a say in what this block writes."
    );
}

#[test]
fn a_floor_at_the_owner_lifts_nothing() {
    let endorsed = with_block("block lab endorsed down to lab { curve := offset }");
    assert_eq!(
        endorsed.refusal(Rule::ExplicitProvenance),
        "\
refused by 16: provenance too low
  at deputy.mz:6:34, block 0 (region lab, endorsed down to lab), offset 0, after 0 steps: curve := offset
  It would write curve, which lab owns. The block is endorsed down to lab, the owner itself, which lifts nothing here: \
every label judged has to stand at or above lab.
    target  lab   enough: no slot was read
    value   digB  too low: read from offset, which digB owns
    branch  lab   not judged under explicit provenance
  What to do: take the value from literals and from slots owned at or above lab; or write a slot owned at or below digB in place of curve.
  Or, if block 0 may rely on what comes from digB, endorse it down to digB: `block lab endorsed down to digB { .. }`. \
digB and whoever stands above it then have a say in what this block writes."
    );
}

/// "It is one meet": each label stands at or above the owner or the floor.
#[test]
fn labels_that_pass_one_by_one_may_have_a_meet_that_does_not() {
    let both = with_block("block lab endorsed down to digB { if ready { ready := offset == 5 } }");
    assert_eq!(
        both.refusal(Rule::FullProvenance),
        "\
refused by 16: provenance too low
  at deputy.mz:6:46, block 0 (region lab, endorsed down to digB), offset 12, after 1 step: ready := offset == 5
  It would write ready, which digA owns. The block is endorsed down to digB, so the meet of all labels judged has to \
stand at or above digA, or at or above digB. It is the principal nobody, which does neither.
    target  lab   enough for either: no slot was read
    value   digB  too low for digA: read from offset, which digB owns
                  enough for the floor digB
    branch  digA  enough for digA
                  too low for the floor digB: in the then-part of `if ready` at deputy.mz:6:35, read from ready, which digA owns
  What to do: move the assignment to where no such guard is around it, or let the guard come from slots owned at or above digB.
  Or take offset into a slot that lab owns, by a block endorsed down to its owner: \
`block lab endorsed down to digB { .. := offset }`. \
Then use that slot in place of offset, in a block that is not endorsed.
  Or, as a last resort, if block 0 may rely on what anybody sends, endorse it down to the principal nobody, which stands below all: \
`block lab endorsed down to nobody { .. }`. Everybody then has a say in what this block writes."
    );
}

/// A lower floor has to let pass what the present one does.
#[test]
fn an_endorsed_block_is_to_be_endorsed_further_down() {
    let block =
        "block lab endorsed down to digA { curve := 0; if ready { curve := 1 }; curve := offset }";
    let words = with_block(block).refusal(Rule::FullProvenance);
    let advice = "Or, as a last resort, if block 0 may rely on what anybody sends, endorse it down to the principal nobody, which stands below all:";
    assert!(words.contains(advice), "{words}");
    let taken = "Or take offset into a slot that lab owns, by a block endorsed down to its owner: \
                 `block lab endorsed down to digB { .. := offset }`.";
    assert!(words.contains(taken), "{words}");
    let mended = with_block(&block.replace("down to digA", "down to nobody"));
    assert!(mended.refusal(Rule::FullProvenance).contains("finished"));
    // Down to the label alone, the assignment before would be refused.
    let other = with_block(&block.replace("down to digA", "down to digB"));
    assert!(other.refusal(Rule::FullProvenance).contains("curve := 1"));
}

/// A store in which two stand beside each other below the laboratory, and blocks.
fn beside(blocks: &str) -> told::Text {
    text(&format!(
        "principals nobody < north, south < lab
slot a   : north  = 3
slot c   : south  = 4
slot v   : north  = read c
slot t   : south  = write x
slot la  : lab    = 0
slot lc  : lab    = 0
slot x   : lab    = 0
slot low : nobody = 0
{blocks}
"
    ))
}

const TAKEN: &str = "block lab endorsed down to north { la := a }
block lab endorsed down to south { lc := c }
";

/// Down to both at once there is only the bottom, so each is taken over by itself.
#[test]
fn what_comes_from_several_is_taken_over_one_by_one() {
    let sum = "block lab { x := a + c }";
    assert_eq!(
        beside(sum).refusal(Rule::FullProvenance),
        "\
refused by 16: provenance too low
  at deputy.mz:10:13, block 0 (region lab), offset 0, after 0 steps: x := a + c
  It would write x, which lab owns. Every label judged has to stand at or above lab.
    target  lab     enough: no slot was read
    value   nobody  too low: read from a, which north owns, and from c, which south owns
    branch  lab     enough: no guard is open around it
  What to do: take the value from literals and from slots owned at or above lab; or write a slot that the principal nobody \
owns in place of x.
  Or take each into a slot of its own that lab owns, by a block endorsed down to its owner: \
`block lab endorsed down to north { .. := a }` and `block lab endorsed down to south { .. := c }`. \
Then use those slots in place of a and c, in a block that is not endorsed.
  Or, as a last resort, if block 0 may rely on what anybody sends, endorse it down to the principal nobody, which stands \
below all: `block lab endorsed down to nobody { .. }`. Everybody then has a say in what this block writes."
    );
    let mends = [
        (sum, "x := la + lc"),
        (sum, "low := a + c"),
        (
            "block lab { if a == 3 { x := c } }",
            "if la == 3 { x := lc }",
        ),
        ("block lab endorsed down to north { x := c }", "x := lc"),
        (
            "block lab endorsed down to north { if a == 3 { x := c } }",
            "if la == 3 { x := lc }",
        ),
        ("block lab { x := [v] }", "x := lc"),
    ];
    for (block, mended) in mends {
        for rule in FULL {
            let refused = beside(block).refusal(rule);
            let floor = "by a block endorsed down to its owner: `block lab endorsed down to ";
            assert!(refused.contains(floor), "{refused}");
            let mended = beside(&format!("{TAKEN}block lab {{ {mended} }}"));
            assert_eq!(mended.refusal(rule), "not refused: the run finished");
        }
    }
}

/// A target and a value from two, with the slots of each in its block.
#[test]
fn slots_of_one_owner_are_taken_over_together() {
    let words = beside("block lab { [t] := a + a + [v] }").refusal(Rule::ExplicitProvenance);
    let blocks = "`block lab endorsed down to south { .. := t; .. := c }` and \
                  `block lab endorsed down to north { .. := a; .. := v }`. Then use those slots in place of t, c, a and v,";
    assert!(words.contains(blocks), "{words}");
}

/// One that all stand above can be relied on as a whole: nothing is gained by more
/// blocks.
#[test]
fn what_the_meet_is_among_is_not_taken_over() {
    for block in ["block lab { x := a }", "block lab { x := a + low }"] {
        let words = beside(block).refusal(Rule::FullProvenance);
        assert!(
            !words.contains("into a slot") && !words.contains("resort"),
            "{words}"
        );
    }
}

/// A lower slot is offered where the owner stands above the value, and passes then.
#[test]
fn a_lower_slot_may_be_written() {
    let value = beside("block lab { x := a }").refusal(Rule::FullProvenance);
    let offer = "; or write a slot owned at or below north in place of x.";
    assert!(value.contains(offer), "{value}");
    for slot in ["v", "low"] {
        let mended = beside(&format!("block lab {{ {slot} := a }}"));
        assert!(mended.refusal(Rule::FullProvenance).contains("finished"));
    }
    for block in ["block lab { c := a }", "block lab { if a == 3 { x := 1 } }"] {
        let words = beside(block).refusal(Rule::FullProvenance);
        assert!(!words.contains("or write a slot"), "{words}");
    }
}

/// What the explanation says to do mends the example, either way.
#[test]
fn the_example_is_mended_as_the_text_says() {
    let finished = "not refused: the run finished";
    let mends = [
        ("[place] := 42", "result := 42"),
        ("block lab ", "block lab endorsed down to digA "),
    ];
    for rule in FULL {
        for (before, after) in mends {
            let mended = text(&DEPUTY.replace(before, after));
            assert_eq!(mended.refusal(rule), finished);
        }
    }
}
