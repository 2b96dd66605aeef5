//! Floors of endorsed blocks: how they are built, and how the library judges
//! them, by what document 02 says of them (N6).

mod parts;

use muntyzhap::code::{assign, assignment, if_command, literal, read, skip, sum, Code, Expression};
use muntyzhap::sheet::{Block, Slot, MOST_CODE, MOST_PRINCIPALS};
use muntyzhap::{check_programme, run, BuildError, Finished, Refusal, Rule, Value, MOST_BUDGET};
use parts::*;
use sheets::{hex, BOTTOM, DIAMOND, LEFT, RIGHT, TOP};

/// The rules that judge labels. The default rule judges as rule 3.
const OF_PROVENANCE: [Rule; 3] = [
    Rule::ExplicitProvenance,
    Rule::FullProvenance,
    Rule::Default,
];

fn store() -> Vec<u8> {
    store_of(&MASKS, &slots())
}

/// What a run answers and leaves.
fn played(store: &[u8], programme: &[u8], rule: Rule) -> Result<Finished, Refusal> {
    run(store, programme, rule, MOST_BUDGET)
}

/// The steps of a run that finished.
fn steps(store: &[u8], programme: &[u8], rule: Rule) -> Result<u32, Refusal> {
    played(store, programme, rule).map(|finished| finished.steps)
}

/// Document 01's two blocks, the second one endorsed down to this floor.
fn lifted_down_to(floor: u8) -> Vec<u8> {
    programme_of(&[
        block(LOW, assign(0, integer(42))),
        endorsed(HIGH, floor, assign(1, read(0))),
    ])
}

/// "in a third array of one byte each after the lengths"
#[test]
fn floors_stand_after_the_lengths() {
    for (floor, byte) in [(LOW, "00"), (HIGH, "01")] {
        let sheet = format!(
            "02 2B00 00 81 1500 1600 00 {byte} \
             21 10 030000000000000000 10 002A00000000000000 \
             21 10 030100000000000000 11 10 020000000000000000"
        );
        assert_eq!(lifted_down_to(floor), hex(&sheet));
    }
    let sheet = programme_of(&[
        endorsed(1, 3, skip()),
        block(2, skip()),
        endorsed(31, 30, skip()),
    ]);
    assert_eq!(
        sheet,
        hex("03 0300 81 02 9F 0100 0100 0100 03 00 1E 20 20 20")
    );
}

#[test]
fn a_floor_is_a_principal_s_number() {
    for floor in 0..=u8::MAX {
        let made = Block::endorsed(HIGH, floor, skip()).map(|block| block.floor());
        let expected = match usize::from(floor) < MOST_PRINCIPALS {
            true => Ok(Some(floor)),
            false => Err(BuildError::Floor(floor)),
        };
        assert_eq!(made, expected);
    }
    assert_eq!(endorsed(HIGH, 31, skip()).floor(), Some(31));
    for floor in [32, 0x81] {
        assert_eq!(
            Block::endorsed(HIGH, floor, skip()),
            Err(BuildError::Floor(floor))
        );
        let words = format!("floor {floor} is no principal's number, which is 0 to 31");
        assert_told(BuildError::Floor(floor), &words);
    }
}

#[test]
fn a_block_that_is_not_endorsed_has_no_floor() {
    let plain = block(HIGH, skip());
    assert_eq!(plain.floor(), None);
    assert_eq!(programme_of(&[plain]), hex("01 0100 01 0100 00 20"));
}

/// The floor "right after its region", and the code last.
#[test]
fn the_region_is_judged_before_the_floor() {
    let long = || Code::unjudged(vec![0x20; MOST_CODE + 1]);
    let made = |region, floor| Block::endorsed(region, floor, long());
    assert_eq!(made(32, 33), Err(BuildError::Region(32)));
    assert_eq!(made(31, 33), Err(BuildError::Floor(33)));
    assert_eq!(made(31, 31), Err(BuildError::CodeBytes(MOST_CODE + 1)));
}

/// What the library says of a sheet, the same by the check and by a run under
/// every rule.
#[track_caller]
fn assert_judged(sheet: &[u8], expected: Result<(), Refusal>) {
    assert_eq!(check_programme(sheet, 2, 2), expected, "{sheet:?}");
    for rule in Rule::ALL {
        let answer = played(&store(), sheet, rule).map(|_| ());
        assert_eq!(answer, expected, "{sheet:?}");
    }
}

/// "An endorsed block's floor must be below n, else 8", all of its byte.
#[test]
fn the_library_judges_an_endorsed_block_s_floor() {
    assert_judged(&programme_of(&[endorsed(HIGH, 1, skip())]), Ok(()));
    assert_judged(
        &programme_of(&[endorsed(HIGH, 2, skip())]),
        Err(Refusal::Region),
    );
    let second = [block(LOW, skip()), endorsed(LOW, 31, skip())];
    assert_judged(&programme_of(&second), Err(Refusal::Region));
    for byte in ["02", "80", "81", "FF"] {
        let sheet = hex(&format!("01 0100 81 0100 {byte} 20"));
        assert_judged(&sheet, Err(Refusal::Region));
    }
    let last = programme_of(&[endorsed(31, 31, skip())]);
    assert_eq!(check_programme(&last, MOST_PRINCIPALS, 0), Ok(()));
    let words = "refused by 8: the region of a block, or the floor of an endorsed one, \
                 is not one of the principals";
    assert_eq!(Refusal::Region.to_string(), words);
}

/// "length (6); 8 in block order; length sum (6)": a floor is judged with the
/// regions.
#[test]
fn a_floor_is_judged_after_the_length_and_before_the_length_sum() {
    let bad_sum = |floor| hex(&format!("01 0100 81 0200 {floor} 20"));
    assert_judged(&bad_sum("01"), Err(Refusal::ProgrammeLength));
    assert_judged(&bad_sum("02"), Err(Refusal::Region));
    let without_floors = hex("01 0100 82 0100 20");
    assert_judged(&without_floors, Err(Refusal::ProgrammeLength));
    let too_long = hex("01 0100 81 0100 02 20 20");
    assert_judged(&too_long, Err(Refusal::ProgrammeLength));
}

/// "ignored unless the block is endorsed"
#[test]
fn any_floor_byte_will_do_where_a_block_is_not_endorsed() {
    let mut sheet = programme_of(&[
        block(LOW, assign(0, integer(42))),
        block(HIGH, assign(1, read(0))),
    ]);
    let second_floor = 3 + 2 + 2 * 2 + 1;
    for rule in Rule::ALL {
        sheet[second_floor] = 0;
        let expected = played(&store(), &sheet, rule);
        for floor in 1..=u8::MAX {
            sheet[second_floor] = floor;
            assert_eq!(played(&store(), &sheet, rule), expected, "{rule}: {floor}");
        }
    }
}

/// "For P5, floor 0 still finishes and floor 1 gives 16."
#[test]
fn an_endorsed_block_lifts_what_comes_from_its_floor() {
    let refused = Err(Refusal::ProvenanceTooLow(stop(1, 0, 1)));
    for rule in OF_PROVENANCE {
        assert_eq!(steps(&store(), &lifted_down_to(LOW), rule), Ok(2));
        assert_eq!(steps(&store(), &lifted_down_to(HIGH), rule), refused);
    }
    for rule in [Rule::AccessControl, Rule::Capability] {
        assert_eq!(steps(&store(), &lifted_down_to(HIGH), rule), Ok(2));
    }
}

/// Whether one principal of the diamond stands at or above another.
fn above(one: u8, other: u8) -> bool {
    DIAMOND[usize::from(one)] & 1 << other != 0
}

const ALL: [u8; 4] = [LEFT, RIGHT, BOTTOM, TOP];
/// A slot of the left principal that holds a write view of its other slot.
const POINTER: u8 = 4;

/// A slot of each principal, numbered like its owner, and the pointer.
fn diamond() -> Vec<u8> {
    let own = |owner| slot(owner, Value::Integer(owner.into()));
    let pointer = slot(LEFT, Value::WriteView(LEFT));
    let slots: Vec<Slot> = ALL.map(own).into_iter().chain([pointer]).collect();
    store_of(&DIAMOND, &slots)
}

/// What a run under each rule of provenance answers: a block of the top
/// principal's, endorsed down to a floor, writes a value to a target.
#[track_caller]
fn assert_written(floor: u8, target: Expression, value: Expression, passes: bool) {
    let programme = programme_of(&[endorsed(TOP, floor, assignment(target, value))]);
    let expected = match passes {
        true => Ok(1),
        false => Err(Refusal::ProvenanceTooLow(stop(0, 0, 0))),
    };
    for rule in OF_PROVENANCE {
        assert_eq!(steps(&diamond(), &programme, rule), expected, "{floor}");
    }
}

fn view_of(slot: u8) -> Expression {
    literal(Value::WriteView(slot))
}

/// What comes from below or beside the floor passes only by the owner.
#[test]
fn a_label_stands_at_or_above_the_owner_or_the_floor() {
    for floor in ALL {
        for (from, to) in ALL.into_iter().flat_map(|from| ALL.map(|to| (from, to))) {
            let passes = above(from, to) || above(from, floor);
            assert_written(floor, view_of(to), read(from), passes);
        }
    }
}

/// "the meet of all labels judged stands at or above the slot's owner, or at or
/// above the floor": not one label by the owner and the other by the floor.
#[test]
fn the_meet_of_all_labels_is_judged() {
    for floor in ALL {
        let both = built(sum(read(LEFT), read(RIGHT)));
        assert_written(floor, view_of(TOP), both, floor == BOTTOM);
        assert_written(floor, read(POINTER), read(RIGHT), floor == BOTTOM);
        assert_written(floor, read(POINTER), integer(1), true);
    }
}

/// The branch is a label judged under rule 3, and not under rule 2.
#[test]
fn the_branch_is_judged_by_the_floor_too() {
    let store = store_of(&MASKS, &[slot(LOW, Value::Truth(true)), slots()[1]]);
    let chosen = |integer_of| assign(1, integer(integer_of));
    let choice = || built(if_command(read(0), chosen(41), chosen(42)));
    // After 23 and the guard.
    let then_place = 1 + read(0).bytes().len();
    let refused = Err(Refusal::ProvenanceTooLow(stop(0, then_place, 1)));
    let by_high = programme_of(&[endorsed(HIGH, HIGH, choice())]);
    assert_eq!(steps(&store, &by_high, Rule::ExplicitProvenance), Ok(2));
    assert_eq!(steps(&store, &by_high, Rule::FullProvenance), refused);
    let by_low = programme_of(&[endorsed(HIGH, LOW, choice())]);
    assert_eq!(steps(&store, &by_low, Rule::FullProvenance), Ok(2));
}

/// "Where rule 0 allows it": a floor lends no authority.
#[test]
fn a_floor_does_not_lift_the_region() {
    let programme = programme_of(&[endorsed(LOW, LOW, assign(1, integer(9)))]);
    let refused = Err(Refusal::NoAuthority(stop(0, 0, 0)));
    for rule in OF_PROVENANCE {
        assert_eq!(steps(&store(), &programme, rule), refused);
    }
}
