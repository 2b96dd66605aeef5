//! The library's calls, and the structs that they take and give, are declared
//! for Rust and for C as they are defined.

mod declarations;

use std::fs;
use std::path::{Path, PathBuf};

use declarations::{of_c, of_rattle, of_rust, seen_by_c, Named};
use muntyzhap::raw;

/// The folder of the crates that the library is made of.
const CRATES: &str = concat!(env!("CARGO_MANIFEST_DIR"), "/../../crates");
const RUST: &str = include_str!("../src/library.rs");
const HEADER: &str = include_str!("../../../include/muntyzhap.h");

/// What C sees of every source in the crates, whichever it is in.
fn source() -> String {
    let folders = within(CRATES.as_ref());
    let files = folders
        .iter()
        .flat_map(|folder| within(&folder.join("src")));
    let text = |file: PathBuf| fs::read_to_string(file).expect("a source");
    files.map(|file| seen_by_c(&text(file))).collect()
}

/// What a folder has, by name.
fn within(folder: &Path) -> Vec<PathBuf> {
    let paths = fs::read_dir(folder)
        .expect("a folder")
        .map(|file| file.map(|file| file.path()));
    let mut paths: Vec<PathBuf> = paths.collect::<Result<_, _>>().expect("its files");
    paths.sort();
    paths
}

#[test]
fn rust_declares_what_the_library_has() {
    assert_eq!(of_rust(RUST), of_rattle(&source()));
}

#[test]
fn the_header_declares_what_the_library_has() {
    assert_eq!(of_c(HEADER), of_rattle(&source()));
}

/// What is read from the sources, so that the two tests above compare something.
#[test]
fn the_calls_are_read_whole() {
    let functions = of_rattle(&source()).functions;
    let names: Vec<&str> = functions.iter().map(|one| one.name.as_str()).collect();
    let expected = [
        "muntyzhap_carry_on",
        "muntyzhap_check_programme",
        "muntyzhap_check_store",
        "muntyzhap_check_table",
        "muntyzhap_run",
        "muntyzhap_start",
        "muntyzhap_version",
    ];
    assert_eq!(names, expected);
    let carry_on = "store *const u8, store_length usize, programme *const u8, \
                    programme_length usize, rule u32, budget u32, old *const u8, \
                    old_length usize, sheet *const u8, sheet_length usize, \
                    out *mut u8, out_length usize, pause *mut u8, pause_length usize";
    assert_eq!(listed(&functions[0].parameters), carry_on);
    let check = "sheet *const u8, sheet_length usize, n usize, slots usize, block *mut usize, \
                 offset *mut usize";
    assert_eq!(listed(&functions[1].parameters), check);
    let run = "store *const u8, store_length usize, programme *const u8, programme_length usize, \
               rule u32, budget u32, out *mut u8, out_length usize, journal *mut Entry, \
               journal_length usize";
    assert_eq!(listed(&functions[4].parameters), run);
    let start = "store *const u8, store_length usize, programme *const u8, \
                 programme_length usize, rule u32, budget u32, out *mut u8, out_length usize, \
                 pause *mut u8, pause_length usize";
    assert_eq!(listed(&functions[5].parameters), start);
    assert_eq!(listed(&functions[6].parameters), "");
    let results: Vec<&str> = functions.iter().map(|one| one.result.as_str()).collect();
    let answer = "Answer";
    let (check, version) = ("u32", "u32");
    let expected = [answer, check, check, check, answer, answer, version];
    assert_eq!(results, expected);
}

#[test]
fn the_structs_are_read_whole() {
    let structs = of_rattle(&source()).structs;
    let fields = structs
        .iter()
        .map(|one| (one.name.as_str(), listed(&one.fields)));
    let expected = [
        ("Answer", "number u32, block usize, offset usize, steps u32"),
        (
            "Entry",
            "block usize, offset usize, slot usize, old Value, new Value",
        ),
        ("Value", "kind u8, payload u64"),
    ];
    let expected = expected.map(|(name, fields)| (name, fields.to_string()));
    assert_eq!(fields.collect::<Vec<_>>(), expected);
}

fn listed(all: &[Named]) -> String {
    let all = all.iter().map(|(name, kind)| format!("{name} {kind}"));
    all.collect::<Vec<_>>().join(", ")
}

/// The header doesn't compile in C where a struct has another size.
#[test]
fn the_header_asserts_the_sizes_of_the_structs() {
    let sizes = [
        ("value", size_of::<raw::Value>()),
        ("entry", size_of::<raw::Entry>()),
        ("answer", size_of::<raw::Answer>()),
    ];
    for (name, bytes) in sizes {
        let asserted = format!(
            "typedef char muntyzhap_{name}_has_{bytes}_bytes\n    \
             [sizeof(struct muntyzhap_{name}) == {bytes} ? 1 : -1];"
        );
        assert!(HEADER.contains(&asserted), "{asserted}");
    }
}

/// A text with one place changed.
fn changed(text: &str, from: &str, to: &str) -> String {
    assert!(text.contains(from), "{from}");
    text.replacen(from, to, 1)
}

#[test]
fn a_changed_definition_is_seen() {
    let changes = [
        ("budget: u32", "budget: u64"),
        ("store: &[u8]", "store: &mut [u8]"),
        ("block: &mut usize", "block: usize"),
        (
            "rule: u32,\n    budget: u32,",
            "budget: u32,\n    rule: u32,",
        ),
        ("n: usize", "principals: usize"),
        ("[Entry]", "[Value]"),
        ("    out: &mut [u8],\n", ""),
        ("    old: &[u8],\n", ""),
        ("old: &[u8]", "old: &mut [u8]"),
        ("pause: &mut [u8]", "pause: &[u8]"),
        (") -> u32", ") -> u64"),
        ("muntyzhap_version()", "muntyzhap_version(part: u32)"),
        ("muntyzhap_check_table", "muntyzhap_check_tables"),
        ("extern \"C\" fn muntyzhap_run", "fn muntyzhap_run"),
        ("pub payload: u64", "pub payload: u32"),
        (
            "pub kind: u8,\n    pub payload: u64,",
            "pub payload: u64,\n    pub kind: u8,",
        ),
        ("    pub slot: usize,\n", ""),
        ("pub steps: u32", "pub count: u32"),
        ("struct Answer", "struct Outcome"),
    ];
    for (from, to) in changes {
        let source = of_rattle(&changed(&source(), from, to));
        assert_ne!(of_rust(RUST), source, "{to}");
        assert_ne!(of_c(HEADER), source, "{to}");
    }
}

#[test]
fn a_changed_declaration_is_seen() {
    let of_rust_changes = [
        ("budget: u32,\n        out", "budget: u64,\n        out"),
        ("sheet: *const u8", "sheet: *mut u8"),
        ("n: usize,\n        slots", "slots: usize,\n        n"),
        ("journal: *mut Entry", "journal: *mut Value"),
        ("journal_length: usize,\n    ) ->", ") ->"),
        ("pause: *mut u8", "pause: *const u8"),
        ("old: *const u8", "old_output: *const u8"),
        ("        old_length: usize,\n", ""),
        ("-> u32;", "-> u8;"),
        ("muntyzhap_version()", "muntyzhap_version(part: u32)"),
        ("pub slot: usize", "pub slot: u8"),
        ("pub old_value: Value", "pub held: Value"),
        ("#[repr(C)]", ""),
    ];
    for (from, to) in of_rust_changes {
        let declared = of_rust(&changed(RUST, from, to));
        assert_ne!(declared, of_rattle(&source()), "{to}");
    }
    let of_c_changes = [
        ("uint32_t budget", "uint64_t budget"),
        ("const uint8_t *sheet", "uint8_t *sheet"),
        ("size_t n, size_t slots", "size_t slots, size_t n"),
        (", size_t journal_length", ""),
        ("uint8_t *pause", "const uint8_t *pause"),
        ("const uint8_t *old", "uint8_t *old"),
        ("muntyzhap_carry_on(", "muntyzhap_carry("),
        (
            "muntyzhap_version(void)",
            "muntyzhap_version(uint32_t part)",
        ),
        ("uint32_t muntyzhap_version", "uint64_t muntyzhap_version"),
        (
            "struct muntyzhap_entry *journal",
            "struct muntyzhap_value *journal",
        ),
        (
            "struct muntyzhap_answer\nmuntyzhap_run",
            "uint32_t\nmuntyzhap_run",
        ),
        ("uint8_t *out", "uint8_t *output"),
        ("uint64_t payload;", "uint32_t payload;"),
        ("    size_t slot;\n", ""),
        (
            "struct muntyzhap_value old_value",
            "struct muntyzhap_value held",
        ),
    ];
    for (from, to) in of_c_changes {
        let declared = of_c(&changed(HEADER, from, to));
        assert_ne!(declared, of_rattle(&source()), "{to}");
    }
}
