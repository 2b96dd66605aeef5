//! Trace lines, whole.

mod told;

use muntyzhap::Rule;
use told::text;

#[test]
fn a_write_is_told_with_both_values_and_three_labels() {
    let deputy = text(
        "principals nobody < digA, digB < lab
slot place  : digA = write result
slot result : digA = 0
slot curve  : lab  = 50000
block digA { place := write curve }
block calibrate : lab  { [place] := 42 }",
    );
    let [first, second] = [
        "step 1  deputy.mz:5:14  block 0 (digA)  place := write curve  |  place: write result -> write curve  |  \
         target lab, value lab, branch lab",
        "step 2  deputy.mz:6:26  block 1 (calibrate, lab)  [place] := 42  |  curve: 50000 -> 42  |  target digA, value \
         lab, branch lab",
    ];
    assert_eq!(deputy.trace(Rule::AccessControl), [first, second]);
    // The refused step is not made.
    assert_eq!(deputy.trace(Rule::FullProvenance), [first]);
    assert!(deputy.trace(Rule::Capability).is_empty());
}

#[test]
fn a_guard_is_told_with_the_label_inside() {
    let counting = text(
        "principals digA < lab
slot ready : digA = false
slot count : lab = -1
block lab endorsed down to digA {
  if ready { skip } else { while count < 0 { count := 0 } }
}",
    );
    assert_eq!(
        counting.trace(Rule::FullProvenance),
        [
            "step 1  deputy.mz:5:3  block 0 (lab)  if ready  |  false  |  guard digA, branch lab, inside digA",
            "step 2  deputy.mz:5:28  block 0 (lab)  while count < 0  |  true  |  guard lab, branch digA, inside digA",
            "step 3  deputy.mz:5:46  block 0 (lab)  count := 0  |  count: -1 -> 0  |  target lab, value lab, branch digA",
            "step 4  deputy.mz:5:28  block 0 (lab)  while count < 0  |  false  |  guard lab, branch digA, inside digA",
        ]
    );
}
