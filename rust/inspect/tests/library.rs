//! Refusals held to the library's: number, block and offset, on random and damaged
//! sheets; and what else holds of every reading.

mod random;

use inspect::{programme, programme_model, store, store_model, Item, Refused};
use model::Names;
use muntyzhap::raw::{check_programme, check_store, Answer};
use random::Random;

/// Good sheets of each kind, and how often each is damaged anew: 200,000 sheets in
/// all.
const PAIRS: u64 = 25_000;
const DAMAGES: usize = 4;

/// How often each number came up.
type Tally = [usize; 11];

#[test]
fn store_sheets_are_refused_as_the_library_refuses_them() {
    let mut tally = Tally::default();
    let names = Names::default();
    for number in 0..PAIRS {
        let mut random = Random::stream(number);
        let pair = random.pair();
        for _ in 0..DAMAGES {
            let sheet = random.damaged(&pair.store);
            let read = store(&sheet, &names);
            let answer = Answer::only(check_store(&sheet));
            hold(&sheet, answer, read.refused.as_ref(), &read.items);
            assert_eq!(read.model.is_some(), answer.number == 0, "{sheet:02X?}");
            tally[answer.number as usize] += 1;
        }
        assert_eq!(store_model(&pair.store), store(&pair.store, &names).model);
    }
    println!("store sheets, by answer: {tally:?}");
    let all = [0, 1, 2, 3, 4, 5];
    assert!(all.iter().all(|number| tally[*number] > 100), "{tally:?}");
}

#[test]
fn programme_sheets_are_refused_as_the_library_refuses_them() {
    let mut tally = Tally::default();
    let names = Names::default();
    for number in 0..PAIRS {
        let mut random = Random::stream(number);
        let pair = random.pair();
        let (principals, slots) = (pair.principals, pair.slots);
        for _ in 0..DAMAGES {
            let sheet = match random.one_in(3) {
                true => random.soup(&pair),
                false => pair.programme.clone(),
            };
            let sheet = random.damaged(&sheet);
            let read = programme(&sheet, principals, slots, &names);
            let answer = check_programme(&sheet, principals, slots);
            hold(&sheet, answer, read.refused.as_ref(), &read.items);
            assert_eq!(read.model.is_some(), answer.number == 0, "{sheet:02X?}");
            tally[answer.number as usize] += 1;
        }
        let read = programme(&pair.programme, principals, slots, &names);
        let model = programme_model(&pair.programme, principals, slots);
        assert_eq!(model, read.model);
    }
    println!("programme sheets, by answer: {tally:?}");
    let all = [0, 6, 7, 8, 9, 10];
    assert!(all.iter().all(|number| tally[*number] > 100), "{tally:?}");
}

/// The refusal is the library's; it has a reason, and its item is the one that is
/// marked as the answer. The items have every byte once, in order.
fn hold(sheet: &[u8], answer: Answer, refused: Option<&Refused>, items: &[Item]) {
    let found = refused.map_or(Answer::only(0), |refused| Answer {
        number: refused.number,
        block: refused.block,
        offset: refused.offset,
        steps: 0,
    });
    assert_eq!(found, answer, "{sheet:02X?}");
    let mut next = 0;
    for item in items {
        assert_eq!(item.at, next, "{sheet:02X?}: {item:?}");
        next += item.length;
    }
    assert_eq!(next, sheet.len(), "{sheet:02X?}");
    let is_answer = |item: &&Item| item.what.mark.as_ref().is_some_and(|mark| mark.is_answer);
    let answers: Vec<&Item> = items.iter().filter(is_answer).collect();
    match (refused, answers.as_slice()) {
        (None, []) => {}
        (Some(refused), [item]) => {
            assert_eq!(item.at, refused.at, "{sheet:02X?}");
            assert!(!refused.reason.is_empty(), "{sheet:02X?}");
            let place = Some((refused.block, refused.offset));
            let placed = refused.number >= 9;
            assert_eq!(item.in_block, place.filter(|_| placed), "{sheet:02X?}");
        }
        other => panic!("{sheet:02X?}: {other:?}"),
    }
}
