//! A store and a programme in two files, each text or sheet.

use crate::desk::{Desk, DEPUTY};

const FINISHED: &str = "finished: 2 blocks, 2 steps, 2 writes\n";

/// The example in parts, as texts and as sheets.
fn desk() -> Desk {
    let desk = Desk::with("deputy.mz", DEPUTY);
    let line = |line: &str| format!("{line}\n");
    let store: String = DEPUTY.lines().take(4).map(line).collect();
    let blocks: String = DEPUTY.lines().skip(4).map(line).collect();
    let tables = "principals nobody < digA, digB < lab\nslot place : digA\nslot result : digA # mine\nslot curve : lab\n";
    desk.put("store.mz", store);
    desk.put("tables.mz", format!("{tables}{blocks}"));
    desk.put(
        "numbers.mz",
        "block p1 { s0 := write s2 }\nblock p3 { [s0] := 42 }\n",
    );
    for part in ["store", "programme"] {
        let out = format!("{part}.bin");
        desk.run(&["asm", "deputy.mz", "--only", part, "-o", &out])
            .is(0, "", "");
    }
    desk
}

/// Two files, and the last line of their end store.
const TOGETHER: [([&str; 2], &str); 9] = [
    (
        ["store.mz", "tables.mz"],
        "curve   lab    42                1\n",
    ),
    (
        ["store.mz", "numbers.mz"],
        "curve   lab    42                1\n",
    ),
    (
        ["store.mz", "programme.bin"],
        "curve   lab    42                1\n",
    ),
    (
        ["store.bin", "tables.mz"],
        "curve   lab    42                1\n",
    ),
    (
        ["store.bin", "numbers.mz"],
        "s2    p3     42             1\n",
    ),
    (
        ["store.bin", "programme.bin"],
        "s2    p3     42             1\n",
    ),
    (
        ["tables.mz", "store.mz"],
        "curve   lab    42                1\n",
    ),
    (
        ["programme.bin", "store.mz"],
        "curve   lab    42                1\n",
    ),
    (
        ["numbers.mz", "store.bin"],
        "s2    p3     42             1\n",
    ),
];

#[test]
fn stores_and_programmes_go_together_as_texts_and_sheets() {
    let desk = desk();
    for (files, last) in TOGETHER {
        let ran = desk.run(&["run", files[0], files[1], "--rule=0"]);
        ran.says(0, FINISHED);
        ran.says(0, last);
    }
}

#[test]
fn places_are_those_of_the_programmes_file() {
    let desk = desk();
    desk.run(&["run", "store.mz", "tables.mz"])
        .says(1, "\n  at tables.mz:6:14, block 1 (region lab), ");
    desk.run(&["run", "store.mz", "programme.bin"])
        .says(1, "\n  at programme.bin: byte 32, block 1 (region lab), ");
    desk.run(&["run", "store.bin", "numbers.mz"])
        .says(1, "\n  at numbers.mz:2:12, block 1 (region p3), ");
}

#[test]
fn sheets_that_stand_the_wrong_way_round_are_refused() {
    let ran = desk().run(&["run", "programme.bin", "store.bin"]);
    ran.says(1, "refused by ");
    ran.says(
        1,
        "\n  store.bin is a good store sheet, and programme.bin a good programme sheet for it: give the store first\n",
    );
}

#[test]
fn what_is_missing_or_double_is_told() {
    let desk = desk();
    desk.put("other.mz", "principals lab");
    let cases = [
        (
            &["store.mz"][..],
            "store.mz has no programme, only a store: give the file with the programme too",
        ),
        (
            &["store.bin"],
            "store.bin ends after its store sheet, and has no programme: give the file with the programme too",
        ),
        (
            &["numbers.mz"],
            "numbers.mz has no store, only a programme: give the file with the store too",
        ),
        (
            &["tables.mz"],
            "tables.mz has no store, only a programme: give the file with the store too",
        ),
        (
            &["store.mz", "other.mz"],
            "store.mz and other.mz both have a store, and neither has a programme",
        ),
        (
            &["numbers.mz", "tables.mz"],
            "numbers.mz and tables.mz both have a programme, and neither has a store",
        ),
        (
            &["deputy.mz", "store.mz"],
            "deputy.mz has a store and a programme, so there is nothing to take from store.mz",
        ),
        (
            &["store.bin", "deputy.mz"],
            "deputy.mz has a store and a programme, so there is nothing to take from store.bin",
        ),
    ];
    for (files, words) in cases {
        desk.run(&[&["run"], files].concat()).fails(words);
    }
}

#[test]
fn tables_of_a_programme_have_to_be_the_stores() {
    let desk = desk();
    let good = String::from_utf8(desk.read("tables.mz")).expect("text");
    let cases = [
        ("< lab\n", "< lab < top\n", "5 principals, and there 4"),
        (
            "slot result : digA # mine\n",
            "slot result : digA slot more : lab\n",
            "4 slots, and there 3",
        ),
        (
            "slot result : digA",
            "slot result : digB",
            "digB owns result, and there digA",
        ),
        (
            "nobody < digA, digB < lab",
            "nobody, digA, digB < lab principals nobody < digA < digB",
            "others stand below digB there",
        ),
    ];
    for (from, to, words) in cases {
        desk.put("changed.mz", good.replace(from, to));
        for store in ["store.mz", "store.bin"] {
            let ran = desk.run(&["run", store, "changed.mz"]);
            let head = format!("changed.mz declares principals and slots of its own, which are not those of {store}");
            ran.fails(&format!("{head}: {words}"));
        }
    }
}

/// The names of two texts stand for the same numbers, or it is told.
#[test]
fn names_of_a_programme_have_to_be_the_stores() {
    let desk = desk();
    let good = String::from_utf8(desk.read("tables.mz")).expect("text");
    let swapped = good.replace(
        "slot place : digA\nslot result : digA",
        "slot result : digA\nslot place : digA",
    );
    desk.put("swapped.mz", swapped);
    let ran = desk.run(&["run", "store.mz", "swapped.mz"]);
    ran.fails(
        "swapped.mz declares principals and slots of its own, which are not those of store.mz: \
         slot 0 is result, and there place",
    );
}

/// What is said to list a sheet does list it.
#[test]
fn damaged_sheets_of_two_files_are_told_with_how_to_list_them() {
    let desk = desk();
    let cut = |mut sheet: Vec<u8>| {
        sheet.pop();
        sheet
    };
    // The first block's region is one that the store has not.
    let region = |mut sheet: Vec<u8>| {
        sheet[3] = 9;
        sheet
    };
    type Damage = fn(Vec<u8>) -> Vec<u8>;
    let cases: [(&str, Damage, [&str; 2], &str); 3] = [
        (
            "store.bin",
            cut,
            ["damaged.bin", "programme.bin"],
            "damaged.bin",
        ),
        (
            "programme.bin",
            cut,
            ["store.bin", "damaged.bin"],
            "damaged.bin --store store.bin",
        ),
        (
            "programme.bin",
            region,
            ["store.bin", "damaged.bin"],
            "damaged.bin --store store.bin",
        ),
    ];
    for (sheet, damaged, [store, programme], listed) in cases {
        desk.put("damaged.bin", damaged(desk.read(sheet)));
        let ran = desk.run(&["run", store, programme]);
        let hint = format!("\n  `muntyzhap dis {listed}` lists the sheets\n");
        ran.says(1, &hint);
        let arguments: Vec<&str> = ["dis"].into_iter().chain(listed.split(' ')).collect();
        let number = ran.out().split(':').next().unwrap_or_default();
        desk.run(&arguments).says(1, &format!("<-- {number}: "));
    }
}

/// Else a block of p1 would run as whoever has that number in the store.
#[test]
fn numbers_of_a_programme_have_to_be_the_stores() {
    let desk = Desk::with("store.mz", "principals p1 < p0\nslot s0 : p0 = 2\n");
    desk.put("numbers.mz", "block p1 { s0 := 99 }\n");
    let told = "muntyzhap: numbers.mz declares no principals and slots, so p1 is principal 1 there, and in store.mz it is \
                principal 0: declare them in numbers.mz as well, without values\n";
    desk.run(&["run", "store.mz", "numbers.mz"]).is(2, "", told);
    desk.put("store.mz", "principals p0 < p1\nslot s1 : p1 = 2\n");
    let told = told.replace("p1 is principal 1", "s1 is slot 1");
    let told = told.replace("it is principal 0", "it is slot 0");
    desk.run(&["run", "store.mz", "numbers.mz"])
        .is(2, "", &told);
}
