//! What is at a limit is built, and the library takes it; what is past it is an
//! error where it is made, in words that have the number and the limit.

mod parts;

use muntyzhap::code::{
    assign, if_command, sequence, skip, while_command, Code, Command, MOST_COMMANDS, MOST_DEPTH,
};
use muntyzhap::sheet::{
    programme_sheet, store_sheet, Block, Slot, MOST_BLOCKS, MOST_CODE, MOST_PRINCIPALS, MOST_SLOTS,
};
use muntyzhap::{check_programme, check_store, BuildError, Refusal, Value};
use parts::*;
use sheets::chain;

/// The number by which the library refuses bytes as code.
fn refusal_of(bytes: &[u8]) -> Option<u32> {
    let judged = check_code(Code::unjudged(bytes));
    judged.err().map(|refusal| refusal.number())
}

/// 81 would be principal 1 endorsed.
#[test]
fn a_region_is_a_principal_s_number() {
    for region in 0..=u8::MAX {
        let good = usize::from(region) < MOST_PRINCIPALS;
        for made in [
            Block::new(region, skip()),
            Block::endorsed(region, LOW, skip()),
        ] {
            match made {
                Ok(block) => assert!(good && block.region() == region),
                Err(error) => assert!(!good && error == BuildError::Region(region)),
            }
        }
    }
    for region in [32, 0x7F] {
        let words = format!("region {region} is no principal's number, which is 0 to 31");
        assert_told(BuildError::Region(region), &words);
    }
    for region in [0x80, 0x81, 0xFF] {
        let words = format!(
            "region {region} is no principal's number, which is 0 to 31; \
             an endorsed block is made by `Block::endorsed`"
        );
        assert_told(BuildError::Region(region), &words);
    }
}

/// Whatever the region, its byte says whether the block is endorsed as the block
/// does.
#[test]
fn a_block_runs_endorsed_only_if_it_was_made_so() {
    for region in 0..MOST_PRINCIPALS as u8 {
        let (plain, endorsed) = (block(region, skip()), endorsed(region, LOW, skip()));
        assert!(!plain.is_endorsed() && endorsed.is_endorsed());
        let byte = |block| programme_of(&[block])[3];
        assert_eq!(byte(plain), region);
        assert_eq!(byte(endorsed), region + 0x80);
    }
}

#[test]
fn an_owner_is_a_principal_s_number() {
    let made = |owner| Slot::new(owner, Value::Integer(0));
    assert_eq!(made(31).map(|slot| slot.owner()), Ok(31));
    for owner in [32, 0x80, 0xFF] {
        assert_eq!(made(owner), Err(BuildError::Owner(owner)));
    }
    let words = "owner 32 is no principal's number, which is 0 to 31";
    assert_told(BuildError::Owner(32), words);
}

#[test]
fn an_order_table_has_1_to_32_principals() {
    assert_eq!(check_store(&store_of(&chain(1), &[])), Ok(()));
    assert_eq!(check_store(&store_of(&chain(MOST_PRINCIPALS), &[])), Ok(()));
    for count in [0, MOST_PRINCIPALS + 1, 256, 257] {
        let made = store_sheet(&vec![1; count], &[]);
        assert_eq!(made, Err(BuildError::Principals(count)));
    }
    let words = "33 principals: an order table has 1 to 32";
    assert_told(BuildError::Principals(33), words);
}

#[test]
fn a_mask_has_bits_for_its_principals_only() {
    let cases = [([0b01, 0b111], 1, 2), ([0x8000_0001, 0b11], 0, 31)];
    for (masks, principal, bit) in cases {
        let error = BuildError::Mask {
            principal,
            bit,
            principals: 2,
        };
        assert_eq!(store_sheet(&masks, &[]), Err(error));
    }
    let error = BuildError::Mask {
        principal: 1,
        bit: 2,
        principals: 2,
    };
    let words = "the mask of principal 1 has bit 2, and there are only 2 principals";
    assert_told(error, words);
}

/// Two unrelated principals under a third have no meet: only the library knows.
#[test]
fn whether_a_table_is_good_the_library_judges() {
    let sheet = store_of(&[0b001, 0b010, 0b111], &[]);
    assert_eq!(check_store(&sheet), Err(Refusal::OrderTable));
}

#[test]
fn a_store_has_at_most_256_slots() {
    let slots = |count| vec![slot(LOW, Value::Integer(0)); count];
    assert_eq!(check_store(&store_of(&MASKS, &slots(MOST_SLOTS))), Ok(()));
    for count in [MOST_SLOTS + 1, 1 << 16] {
        let made = store_sheet(&MASKS, &slots(count));
        assert_eq!(made, Err(BuildError::Slots(count)));
    }
    let words = "257 slots: a store has at most 256";
    assert_told(BuildError::Slots(257), words);
}

#[test]
fn a_slot_s_owner_is_in_its_table() {
    let value = Value::Integer(0);
    let made = store_sheet(&MASKS, &[slot(HIGH, value), slot(2, value)]);
    let error = BuildError::OwnerNotInTable {
        slot: 1,
        owner: 2,
        principals: 2,
    };
    assert_eq!(made, Err(error));
    let words = "slot 1 is owned by principal 2, and there are only 2 principals";
    assert_told(error, words);
}

#[test]
fn a_slot_s_view_is_of_a_slot_that_there_is() {
    for view in [Value::ReadView, Value::WriteView] {
        let store = |viewed| store_sheet(&MASKS, &[slot(LOW, view(viewed)), slots()[1]]);
        assert_eq!(check_store(&built(store(1))), Ok(()));
        let error = BuildError::View {
            slot: 0,
            viewed: 2,
            slots: 2,
        };
        assert_eq!(store(2), Err(error));
        let words = "slot 0 holds a view of slot 2, and there are only 2 slots";
        assert_told(error, words);
    }
}

/// Only the library knows which slots there are.
#[test]
fn a_literal_s_view_is_judged_with_the_store() {
    let sheet = programme_by(LOW, assign(2, integer(1)));
    assert_eq!(check_programme(&sheet, 2, 3), Ok(()));
    let judged = check_programme(&sheet, 2, 2).map_err(|refusal| refusal.number());
    assert_eq!(judged, Err(9));
}

#[test]
fn a_sequence_has_2_to_255_commands() {
    for count in [2, MOST_COMMANDS] {
        assert_eq!(check_code(built(sequence(&vec![skip(); count]))), Ok(()));
    }
    for count in [0, 1, MOST_COMMANDS + 1, 1 << 16] {
        let made = sequence(&vec![skip(); count]);
        assert_eq!(made, Err(BuildError::Commands(count)));
    }
    assert_eq!(refusal_of(&[0x22, 1, 0x20]), Some(9));
    let words = "a sequence of 1: it has 2 to 255 commands";
    assert_told(BuildError::Commands(1), words);
}

/// `depth` commands in all.
fn nested(depth: usize) -> Command {
    let body = |inner, _| while_command(truth(false), inner);
    built((1..depth).try_fold(skip(), body))
}

#[test]
fn commands_nest_32_deep() {
    let deepest = nested(MOST_DEPTH);
    assert_eq!(check_code(deepest.clone()), Ok(()));
    let error = BuildError::Depth(MOST_DEPTH + 1);
    let around = [
        while_command(truth(false), deepest.clone()),
        if_command(truth(true), deepest.clone(), skip()),
        if_command(truth(true), skip(), deepest.clone()),
        sequence(&[skip(), deepest.clone()]),
    ];
    for made in around {
        assert_eq!(made, Err(error));
    }
    let too_deep = [&[0x24], truth(false).bytes(), deepest.bytes()].concat();
    assert_eq!(refusal_of(&too_deep), Some(10));
    assert_told(error, "commands 33 deep: they nest at most 32 deep");
}

/// Depth is not summed over neighbours.
#[test]
fn deep_commands_stand_beside_each_other() {
    let parts = vec![nested(MOST_DEPTH - 1); 3];
    assert_eq!(check_code(built(sequence(&parts))), Ok(()));
}

#[test]
fn a_programme_has_at_most_64_blocks() {
    let blocks = |count| vec![block(LOW, skip()); count];
    let most = programme_of(&blocks(MOST_BLOCKS));
    assert_eq!(check_programme(&most, 2, 2), Ok(()));
    for count in [MOST_BLOCKS + 1, 256] {
        let made = programme_sheet(&blocks(count));
        assert_eq!(made, Err(BuildError::Blocks(count)));
    }
    let words = "65 blocks: a programme has at most 64";
    assert_told(BuildError::Blocks(65), words);
}

#[test]
fn a_programme_has_at_most_16384_bytes_of_code() {
    let skips = built(sequence(&vec![skip(); 254]));
    assert_eq!(skips.bytes().len(), MOST_CODE / MOST_BLOCKS);
    let mut blocks = vec![block(LOW, skips); MOST_BLOCKS];
    assert_eq!(check_programme(&programme_of(&blocks), 2, 2), Ok(()));
    let longer = built(sequence(&vec![skip(); 255]));
    blocks[0] = block(LOW, longer);
    let error = BuildError::CodeBytes(MOST_CODE + 1);
    assert_eq!(programme_sheet(&blocks), Err(error));
    let words = "16385 bytes of code: a programme has at most 16384";
    assert_told(error, words);
}

#[test]
fn a_block_has_at_most_a_programme_s_code() {
    for count in [MOST_CODE + 1, 1 << 16] {
        let made = Block::new(LOW, Code::unjudged(vec![0x20; count]));
        assert_eq!(made, Err(BuildError::CodeBytes(count)));
    }
    assert!(Block::new(LOW, Code::unjudged(vec![0x20; MOST_CODE])).is_ok());
}

/// Bytes from elsewhere stand in the sheet as they are.
#[test]
fn unjudged_bytes_are_kept() {
    let bytes = [0xFF, 0x00, 0x22];
    let block = block(LOW, Code::unjudged(bytes));
    assert_eq!(block.code(), bytes);
    assert!(programme_of(&[block]).ends_with(&bytes));
}

/// A user's function can answer with it.
#[test]
fn it_is_an_error_like_others() {
    fn fails() -> Result<(), Box<dyn std::error::Error>> {
        sequence(&[])?;
        Ok(())
    }
    let words = fails().expect_err("no commands").to_string();
    assert_eq!(words, "a sequence of 0: it has 2 to 255 commands");
}
