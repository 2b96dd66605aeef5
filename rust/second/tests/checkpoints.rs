//! Runs in stretches (document 02, N8): what is said of checkpoints, an output and
//! a pause sheet together, by example.

mod stretch;

use sheets::*;
use stretch::*;

/// P9: slot 0 is principal 0's, slot 1 is above it, and a block of region 1 writes
/// 41 to slot 1 where slot 0 is true, and 42 where it is false.
fn p9(flag: bool) -> Call {
    let slots = [(0, truth(flag)), (1, integer(7))];
    let choice = if_else(slot(0), set_integer(1, 41), set_integer(1, 42));
    call_block(&store(&PAIR, &slots), 1, choice, 3)
}

/// Under rule 3 the branch is too low, in one stretch or in two.
#[test]
fn an_unbroken_chain_is_refused_as_one_run_is() {
    for flag in [true, false] {
        let call = p9(flag);
        let paused = first(&call.budget(1));
        let child = if flag { THEN_PART } else { ELSE_PART };
        assert_eq!(paused.pause, pause(1, 0, &[(child, 0)]));
        let again = next(&call.budget(1), paused.checkpoint());
        assert_eq!(again, paused);
        let refused = next(&call, again.checkpoint());
        refused.assert_number(16);
        refused.assert_untouched();
        assert_eq!(refused, first(&call));
    }
}

/// "each sheet and output came back as written" has to be said of a chain from a
/// start. Were it enough that some call wrote the bytes, a label could be forged to
/// the top and written by a call that has no steps left: then both runs below, every
/// stretch under rule 3, finish and tell slot 0 in slot 1, which is protected from
/// principal 0.
#[test]
fn that_some_call_wrote_a_sheet_is_not_enough() {
    let ends = [true, false].map(|flag| {
        let call = p9(flag);
        let paused = first(&call.budget(1));
        let (output, written) = paused.checkpoint();
        let mut forged = written.to_vec();
        forged[PAUSE_HEAD + 1] = 1;
        let laundered = next(&call.budget(1), (output, &forged));
        laundered.assert_number(17);
        assert_eq!(laundered.checkpoint(), (output, &forged[..]));
        let finished = next(&call, laundered.checkpoint());
        finished.assert_number(0);
        finished.assert_pause_untouched();
        end_slots(&finished.output)[1].clone()
    });
    assert_eq!(ends, [integer(41), integer(42)].map(once));
}

/// A pause in a block of 32 commands around each other: 31 entries, the most there
/// are.
#[test]
fn the_longest_path_has_31_entries() {
    let inner = set(0, literal(truth(false)));
    let code = (1..32).fold(inner, |inner, _| while_do(slot(0), inner));
    let sheet = store(&PAIR, &[(0, truth(true))]);
    let call = call_block(&sheet, 1, code, 3);
    let paused = first(&call.budget(31));
    assert_eq!(paused.pause, pause(31, 0, &[(BODY, 0); 31]));
    // 31 guards, the assignment, and each guard again.
    let finished = next(&call, paused.checkpoint());
    finished.assert_number(0);
    assert_eq!(finished.answer.steps, 31 + 1 + 31);
    assert_eq!(finished.output, output(&[once(truth(false))]));
}

/// The opening values of the store sheet are judged by 5 and then not used.
#[test]
fn the_old_output_takes_the_place_of_the_opening_values() {
    let code = set(1, slot(0));
    let with = |opening: Bytes| {
        let sheet = store(&[1], &[(0, opening), (0, integer(0))]);
        call_block(&sheet, 0, code.clone(), 3)
    };
    let old = output(&[written(2, integer(9)), kept(truth(true))]);
    let place = pause(5, 0, &[]);
    for opening in [integer(3), read_view(1)] {
        let finished = next(&with(opening), (&old, &place));
        finished.assert_number(0);
        let end = [written(2, integer(9)), once(integer(9))];
        assert_eq!(finished.output, output(&end));
        assert_eq!(finished.answer.steps, 6);
    }
    next(&with(value(4, 0)), (&old, &place)).assert_number(5);
}

/// "steps so far" may be any number of four bytes: above every budget it is 17.
#[test]
fn steps_past_every_budget_are_spent() {
    let call = call_block(&store(&[1], &[(0, integer(0))]), 0, set_integer(0, 1), 3);
    let old = output(&[written(u32::MAX, integer(5))]);
    for steps in [1_000_000, 1_000_001, u32::MAX] {
        let place = pause(steps, 0, &[]);
        let opening = output(&[kept(integer(5))]);
        let spent = next(&call.budget(1_000_000), (&opening, &place));
        spent.assert_number(17);
        assert_eq!(spent.answer.steps, steps);
        assert_eq!(spent.checkpoint(), (&opening[..], &place[..]));
        let counted = next(&call, (&old, &place));
        counted.assert_number(if steps == u32::MAX { 17 } else { 19 });
    }
}

/// The parts of a sequence up to the last that there can be.
#[test]
fn a_path_leads_to_the_255th_command() {
    let commands: Vec<Bytes> = (0..255).map(|each| set_integer(0, each)).collect();
    let call = call_block(&store(&[1], &[(0, integer(0))]), 0, sequence(&commands), 3);
    for steps in [0, 1, 253, 254] {
        let paused = first(&call.budget(steps));
        assert_eq!(paused.pause, pause(steps, 0, &[(steps as u8, 0)]));
        let finished = next(&call, paused.checkpoint());
        assert_eq!(finished, first(&call));
        assert_eq!(finished.output, output(&[written(255, integer(254))]));
    }
    let (old, past) = (output(&[kept(integer(0))]), pause(9, 0, &[(255, 0)]));
    next(&call, (&old, &past)).assert_number(19);
}

/// The misreading "leaving a while body's label behind", on carrying on: the guard reads
/// what slot 1 shows, the low slot 0 and after a round the high slot 2. From inside the
/// first round on, the label in the second is the high one, and a rule that judges it
/// lets the write pass.
#[test]
fn a_body_s_label_is_not_left_behind_on_carrying_on() {
    let slots = [(0, truth(true)), (1, read_view(0)), (1, truth(true))];
    let show_high = set(1, literal(read_view(2)));
    let off = set(2, equal(slot(1), literal(read_view(0))));
    let body = sequence(&[off, show_high]);
    let sheet = store(&PAIR, &slots);
    let call = call_block(&sheet, 1, while_do(reads(2, 1), body), 0);
    let inside = |label, child| [(BODY, label), (child, label)];
    for from in [1, 2] {
        let paused = first(&call.budget(from));
        assert_eq!(paused.pause, pause(from, 0, &inside(0, from as u8 - 1)));
        // Three steps a round.
        let later = next(&call.budget(4), paused.checkpoint());
        assert_eq!(later.pause, pause(4, 0, &inside(1, 0)));
        let judged = next(&call.budget(6).rule(3), later.checkpoint());
        judged.assert_number(17);
        assert_eq!(judged, first(&call.budget(6)));
        next(&call.rule(3), paused.checkpoint()).assert_number(16);
    }
}
