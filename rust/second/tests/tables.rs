//! Table sheets: "A table sheet is a store sheet that ends after its owners; it
//! is judged by the same numbers in the same order."

use second_runner::{check_store, check_table};
use sheets::*;

#[test]
fn a_table_sheet_ends_after_its_owners() {
    assert_eq!(check_table(&table(&PAIR, &[0, 1, 1])), 0);
    assert_eq!(check_table(&table(&PAIR, &[])), 0);
    assert_eq!(check_table(&example_store()), 1);
    assert_eq!(check_store(&table(&PAIR, &[0, 1])), 1);
    // Without slots both sheets are the same bytes.
    assert_eq!(check_store(&table(&PAIR, &[])), 0);
}

#[test]
fn a_table_sheet_is_judged_by_the_same_numbers_in_the_same_order() {
    assert_eq!(check_table(&[]), 1);
    assert_eq!(check_table(&[33, 0]), 1);
    assert_eq!(check_table(&[33, 0, 0]), 2);
    assert_eq!(check_table(&[1, 1, 1]), 2);
    let good = table(&PAIR, &[0, 1]);
    assert_eq!(check_table(&good[..good.len() - 1]), 1);
    assert_eq!(check_table(&join(&[&good, &[0]])), 1);
    assert_eq!(check_table(&join(&[&table(&[1, 2], &[9]), &[0]])), 1);
    assert_eq!(check_table(&table(&[1, 2], &[9])), 3);
    assert_eq!(check_table(&table(&PAIR, &[0, 2])), 4);
    assert_eq!(check_table(&table(&PAIR, &vec![0; 256])), 0);
    assert_eq!(check_table(&table(&PAIR, &vec![0; 257])), 2);
}
