//! Listings of random files: every byte of the file once, in order; and the text of
//! a good sheet assembles to the sheet again.

mod listed;
mod random;

use inspect::{listing, programme, split, store, Sheet, Sizes};
use listed::{bytes_of, file, marks, text_of};
use model::Names;
use random::Random;

const FILES: u64 = 10_000;

#[test]
fn every_byte_of_a_file_stands_in_its_listing_once() {
    let names = Names::default();
    let (mut good, mut refused) = (0, 0);
    for number in 0..FILES {
        let mut random = Random::stream(number);
        let mut pair = random.pair();
        if random.one_in(3) {
            pair.programme = random.soup(&pair);
        }
        let whole = [pair.store, pair.programme].concat();
        let bytes = random.damaged(&whole);
        let at = random.below(3) * 0x8000;
        let listed = file(&bytes, at, &names);
        assert_eq!(bytes_of(&listed, at), bytes, "file {number}:\n{listed}");
        let (store_sheet, programme_sheet) = split(&bytes);
        let read = store(store_sheet, &names);
        let sizes = read
            .sizes
            .map_or((32, 256), |sizes| (sizes.principals, sizes.slots));
        let programme = programme(programme_sheet, sizes.0, sizes.1, &names);
        let is_refused = read.refused.is_some() || programme.refused.is_some();
        let told = marks(&listed, "<-- refused by");
        assert_eq!(told, usize::from(is_refused), "file {number}:\n{listed}");
        good += usize::from(!is_refused);
        refused += usize::from(is_refused);
    }
    assert!(good > 100 && refused > 100, "{good} {refused}");
}

#[test]
fn the_text_of_good_sheets_assembles_to_them() {
    let names = Names::default();
    for number in 0..FILES / 10 {
        let pair = Random::stream(number).pair();
        let bytes = [pair.store.as_slice(), &pair.programme].concat();
        let listed = file(&bytes, 0, &names);
        let text = text_of(&listed);
        let assembled =
            notation::assemble(&text).unwrap_or_else(|error| panic!("{error:?}\n{text}"));
        assert_eq!(assembled.store, Some(pair.store), "{text}");
        assert_eq!(assembled.programme, Some(pair.programme), "{text}");
    }
}

#[test]
fn the_text_of_a_good_programme_alone_assembles_to_it() {
    let names = Names::default();
    for number in 0..FILES / 10 {
        let pair = Random::stream(number).pair();
        let sizes = Sizes {
            principals: pair.principals,
            slots: pair.slots,
        };
        let bytes = pair.programme.as_slice();
        let known = listing(None, Some(Sheet { bytes, at: 0 }), Some(sizes), &names);
        let unknown = listing(None, Some(Sheet { bytes, at: 0 }), None, &names);
        let most = "# the store is not known: taken as one of 32 principals and 256 slots";
        assert_eq!((marks(&known, most), marks(&unknown, most)), (0, 1));
        for listed in [known, unknown] {
            let text = text_of(&listed);
            let assembled =
                notation::assemble(&text).unwrap_or_else(|error| panic!("{error:?}\n{text}"));
            assert_eq!(assembled.store, None);
            assert_eq!(assembled.programme.as_deref(), Some(bytes), "{text}");
        }
    }
}

/// What a good sheet says, as bytes, is the sheet.
#[test]
fn models_of_good_sheets_come_to_the_same_bytes() {
    for number in 0..FILES {
        let pair = Random::stream(number).pair();
        let store = inspect::store_model(&pair.store).expect("a good store");
        assert_eq!(notation::store_bytes(&store), Ok(pair.store));
        let programme = inspect::programme_model(&pair.programme, pair.principals, pair.slots);
        let programme = programme.expect("a good programme");
        assert_eq!(notation::programme_bytes(&programme), Ok(pair.programme));
    }
}

/// An empty mask has no name that could be a principal's.
#[test]
fn an_empty_mask_is_listed_as_none() {
    let sheet = Sheet {
        bytes: &[1, 0, 0, 0, 0, 0, 0],
        at: 0,
    };
    let page = listing(Some(sheet), None, None, &Names::default());
    assert!(
        page.contains("# at or below p0: none  <-- refused by 3: "),
        "{page}"
    );
}
