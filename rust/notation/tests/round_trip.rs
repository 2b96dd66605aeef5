//! Random models to text and back, and in texts of any layout.

mod common;

use common::{models, odd::Odd, reader, Random};
use model::{Names, Programme, Store};
use muntyzhap::{check_programme, check_store};
use notation::{assemble, programme_bytes, store_bytes, text, Assembled};

const CASES: u64 = 1_000;

fn assembled(text: &str) -> Assembled {
    match assemble(text) {
        Ok(assembled) => assembled,
        Err(errors) => panic!("{errors:?}\n{text}"),
    }
}

fn models(random: &mut Random) -> (Store, Programme) {
    let store = models::store(random);
    let programme = models::programme(random, store.masks.len(), store.slots.len());
    (store, programme)
}

/// Names of any letters; some are a slot's and a principal's at once.
fn names(random: &mut Random, store: &Store, programme: &Programme) -> Names {
    let starts = ["a", "_", "Größe", "s", "p", "x1_", "ifs", "читать"];
    let mut named = |sort: &str, count: usize| -> Vec<String> {
        let mut name = |number| format!("{}{sort}{number}", random.pick(&starts));
        (0..count).map(&mut name).collect()
    };
    let (principals, slots) = (named("", store.masks.len()), named("", store.slots.len()));
    let blocks = named("block", programme.blocks.len()).into_iter();
    let blocks = blocks.map(|name| Some(name).filter(|_| random.one_in(2)));
    Names {
        blocks: blocks.collect(),
        principals,
        slots,
    }
}

#[test]
fn the_text_of_a_model_assembles_to_its_sheets_and_comes_again() {
    for case in 0..CASES {
        let mut random = Random::of(case);
        let (store, programme) = models(&mut random);
        let mut names = names(&mut random, &store, &programme);
        if random.one_in(2) {
            names = Names::default();
        }
        let text = text::store(&store, &names) + &text::programme(&programme, &names);
        let both = assembled(&text);
        let (store_sheet, sheet) = (both.store.expect("a store"), both.programme.expect("one"));
        assert_eq!(store_sheet, store_bytes(&store).unwrap(), "{case}\n{text}");
        assert_eq!(
            sheet,
            programme_bytes(&programme).unwrap(),
            "{case}\n{text}"
        );
        check_store(&store_sheet).expect("a good store");
        check_programme(&sheet, store.masks.len(), store.slots.len()).expect("a good programme");
        let (store, programme) = (reader::store(&store_sheet), reader::programme(&sheet));
        let again = text::store(&store, &both.names) + &text::programme(&programme, &both.names);
        assert_eq!(again, text, "{case}");
    }
}

/// A store alone, and a programme alone, in which numbers stand for names.
#[test]
fn either_alone_comes_again() {
    for case in 0..CASES {
        let mut random = Random::of(case);
        let store = models::store(&mut random);
        let text = text::store(&store, &Names::default());
        let alone = assembled(&text);
        assert_eq!(alone.store, store_bytes(&store).ok(), "{case}\n{text}");
        assert_eq!(alone.programme, None);

        let programme = models::programme(&mut random, 32, 256);
        let text = text::programme(&programme, &Names::default());
        let alone = assembled(&text);
        assert_eq!(
            alone.programme,
            programme_bytes(&programme).ok(),
            "{case}\n{text}"
        );
        assert_eq!(alone.store, None);
        let read = reader::programme(&alone.programme.unwrap());
        assert_eq!(text::programme(&read, &alone.names), text, "{case}");
    }
}

#[test]
fn a_text_of_any_layout_comes_to_the_same_sheets() {
    for case in 0..CASES {
        let mut random = Random::of(case);
        let (store, programme) = models(&mut random);
        let names = names(&mut random, &store, &programme);
        let text = odd_text(&mut random, &store, &programme, &names, true);
        let both = assembled(&text);
        assert_eq!(both.store, store_bytes(&store).ok(), "{case}\n{text}");
        assert_eq!(
            both.programme,
            programme_bytes(&programme).ok(),
            "{case}\n{text}"
        );
        assert_eq!(both.names, names, "{case}\n{text}");
    }
}

/// Slots without values: names and owners for a programme alone.
#[test]
fn slots_without_values_give_names_to_a_programme_alone() {
    for case in 0..CASES / 4 {
        let mut random = Random::of(case);
        let (store, programme) = models(&mut random);
        if store.slots.is_empty() {
            continue;
        }
        let names = names(&mut random, &store, &programme);
        let text = odd_text(&mut random, &store, &programme, &names, false);
        let alone = assembled(&text);
        assert_eq!(alone.store, None, "{case}\n{text}");
        assert_eq!(
            alone.programme,
            programme_bytes(&programme).ok(),
            "{case}\n{text}"
        );
        assert_eq!(alone.names, names);
    }
}

/// The statements in any order that keeps the numbers.
fn odd_text(
    random: &mut Random,
    store: &Store,
    programme: &Programme,
    names: &Names,
    with_values: bool,
) -> String {
    let (mut slot, mut block, mut has_principals) = (0, 0, false);
    let mut order = vec!['p'];
    order.extend(vec!['s'; store.slots.len()]);
    order.extend(vec!['b'; programme.blocks.len()]);
    random.shuffle(&mut order);
    let mut odd = Odd::new(random, names);
    for statement in order {
        match statement {
            'p' => {
                odd.principals(store);
                has_principals = true;
            }
            's' => {
                odd.slot(store, slot, with_values);
                slot += 1;
            }
            _ => {
                odd.block(programme, block);
                block += 1;
            }
        }
    }
    assert!(has_principals);
    let mut text = odd.text();
    if programme.blocks.is_empty() {
        text += "\nno blocks";
    }
    text
}

/// Every command of a text has its place, and the offsets are those of the sheet.
#[test]
fn every_command_has_a_place() {
    for case in 0..CASES / 4 {
        let mut random = Random::of(case);
        let (store, programme) = models(&mut random);
        let names = Names::default();
        let text = text::store(&store, &names) + &text::programme(&programme, &names);
        let both = assembled(&text);
        let lines: Vec<&str> = text.lines().collect();
        let read = reader::programme(&both.programme.unwrap());
        for (number, block) in read.blocks.iter().enumerate() {
            let model::Code::Command(command) = &block.code else {
                panic!("a command");
            };
            let place = both.places.block(number).expect("a place");
            assert!(lines[place.line - 1].starts_with("block "), "{text}");
            for (offset, _) in notation::emit(command).commands {
                let found = command.find(offset).expect("a command");
                let place = both.places.command(number, offset).expect("a place");
                let line: String = lines[place.line - 1]
                    .chars()
                    .skip(place.column - 1)
                    .collect();
                let expected = match found.form {
                    // A left-out else-part stands where its `if` does.
                    model::Form::Skip if line.starts_with("if ") => "if ".to_string(),
                    model::Form::Sequence(_) => "{".to_string(),
                    _ => text::command_line(found, &names),
                };
                assert!(line.starts_with(&expected), "{line} for {expected}\n{text}");
            }
        }
        assert_eq!(both.places.block(read.blocks.len()), None);
    }
}
