//! Where a file's store sheet ends: "as long as its sizes say, or all the bytes left
//! where these are fewer or hold no sizes; the rest is programme" (document 01).

use inspect::split;

#[test]
fn the_store_sheet_is_as_long_as_its_sizes_say() {
    let sizes = [1, 2, 0];
    let length = 3 + 4 + 2 * 10;
    for file in 0..40 {
        let mut bytes = vec![9; file];
        let known = file.min(sizes.len());
        bytes[..known].copy_from_slice(&sizes[..known]);
        let (store, programme) = split(&bytes);
        assert_eq!(store.len(), file.min(length), "{file}");
        assert_eq!([store, programme].concat(), bytes, "{file}");
    }
}

/// Sizes past their limits are gone by all the same.
#[test]
fn sizes_are_not_judged() {
    let mut bytes = vec![0; 700_000];
    bytes[..3].copy_from_slice(&[255, 0xFF, 0xFF]);
    let (store, _) = split(&bytes);
    assert_eq!(store.len(), 3 + 4 * 255 + 10 * 65_535);
}
