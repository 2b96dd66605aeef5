//! The header's constants are those of the crate, which the tests of the calls
//! hold to the library; its version is the library's and this crate's.

use std::collections::BTreeMap;

use muntyzhap::code::{
    CommandKind, DIFFERENCE, EQUAL, LESS_THAN, LITERAL, MOST_DEPTH, MOST_NESTED, READ, SUM,
};
use muntyzhap::sheet::{Block, Slot, MOST_BLOCKS, MOST_CODE, MOST_PRINCIPALS, MOST_SLOTS};
use muntyzhap::{raw, version, Checkpoint, Place, Refusal, Rule, Stop, Value, MOST_BUDGET};

const HEADER: &str = include_str!("../../../include/muntyzhap.h");

const PREFIX: &str = "MUNTYZHAP_";

/// Each name that the header defines, without its prefix, and what it stands for.
fn definitions() -> Vec<(String, String)> {
    let whole_lines = HEADER.replace("\\\n", "");
    let lines = whole_lines.lines();
    let definitions = lines.filter_map(|line| line.strip_prefix("#define ")?.split_once(' '));
    let named = definitions.map(|(name, meaning)| {
        let name = name.strip_prefix(PREFIX).expect("the prefix");
        let words: Vec<&str> = meaning.split_whitespace().collect();
        (name.to_string(), words.join(" "))
    });
    named.collect()
}

/// The numbers that the header defines, by name. Its one text is its version.
fn defined() -> BTreeMap<String, u64> {
    let mut all = BTreeMap::new();
    for (name, meaning) in definitions() {
        if name != "VERSION" {
            all.insert(name, value(&meaning, &all));
        }
    }
    all
}

/// The value of a number, or of a sum of numbers, constants known by now, and
/// products of these.
fn value(meaning: &str, known: &BTreeMap<String, u64>) -> u64 {
    let sum = meaning
        .strip_prefix('(')
        .and_then(|sum| sum.strip_suffix(')'));
    if let Some(sum) = sum {
        return sum.split(" + ").map(|part| value(part, known)).sum();
    }
    if let Some((left, right)) = meaning.split_once(" * ") {
        return value(left, known) * value(right, known);
    }
    if let Some(name) = meaning.strip_prefix(PREFIX) {
        return known[name];
    }
    let number = match meaning.strip_prefix("0x") {
        Some(digits) => u64::from_str_radix(digits, 16),
        None => meaning.parse(),
    };
    number.expect("a number")
}

fn refusals() -> Vec<(&'static str, u64)> {
    let place = Place {
        block: 0,
        offset: 0,
    };
    let stop = Stop { place, steps: 0 };
    let named = [
        ("STORE_LENGTH", Refusal::StoreLength),
        ("STORE_LIMITS", Refusal::StoreLimits),
        ("ORDER_TABLE", Refusal::OrderTable),
        ("OWNER", Refusal::Owner),
        ("VALUE", Refusal::Value),
        ("PROGRAMME_LENGTH", Refusal::ProgrammeLength),
        ("PROGRAMME_LIMITS", Refusal::ProgrammeLimits),
        ("REGION", Refusal::Region),
        ("ILL_FORMED_CODE", Refusal::IllFormedCode(place)),
        ("NESTED_TOO_DEEP", Refusal::NestedTooDeep(place)),
        ("ARGUMENTS", Refusal::Arguments),
        ("OUTPUT_LENGTH", Refusal::OutputLength),
        ("WRONG_KIND", Refusal::WrongKind(stop)),
        ("NO_AUTHORITY", Refusal::NoAuthority(stop)),
        ("WRITE_VIEW_NOT_ALLOWED", Refusal::WriteViewNotAllowed(stop)),
        ("PROVENANCE_TOO_LOW", Refusal::ProvenanceTooLow(stop)),
        ("BUDGET_SPENT", Refusal::BudgetSpent(stop)),
        ("JOURNAL_FULL", Refusal::JournalFull(stop)),
        ("CHECKPOINT", Refusal::Checkpoint),
    ];
    let numbered = named.map(|(name, refusal)| (name, refusal.number().into()));
    [&[("FINISHED", 0)], numbered.as_slice()].concat()
}

fn rules_and_limits() -> Vec<(&'static str, u64)> {
    let rules = [
        ("ACCESS_CONTROL", Rule::AccessControl),
        ("CAPABILITY", Rule::Capability),
        ("EXPLICIT_PROVENANCE", Rule::ExplicitProvenance),
        ("FULL_PROVENANCE", Rule::FullProvenance),
        ("DEFAULT", Rule::Default),
    ];
    let limits = [
        ("MOST_PRINCIPALS", MOST_PRINCIPALS),
        ("MOST_SLOTS", MOST_SLOTS),
        ("MOST_BLOCKS", MOST_BLOCKS),
        ("MOST_CODE", MOST_CODE),
        ("MOST_DEPTH", MOST_DEPTH),
        ("MOST_NESTED", MOST_NESTED),
        ("MOST_BUDGET", MOST_BUDGET as usize),
        ("VALUE_BYTES", Value::BYTES),
        ("PAYLOAD_BYTES", Value::PAYLOAD_BYTES),
        ("COUNT_BYTES", Slot::COUNT_BYTES),
        ("SLOT_BYTES", Slot::BYTES),
        ("PAUSE_BYTES", Checkpoint::PAUSE_BYTES),
        ("STEPS_BYTES", Checkpoint::STEPS_BYTES),
    ];
    let rules = rules.map(|(name, rule)| (name, rule.number().into()));
    let limits = limits.map(|(name, limit)| (name, limit as u64));
    [rules.as_slice(), &limits].concat()
}

fn bytes() -> Vec<(&'static str, u64)> {
    let bytes = [
        ("KIND_INTEGER", Value::INTEGER),
        ("KIND_TRUTH", Value::TRUTH),
        ("KIND_READ_VIEW", Value::READ_VIEW),
        ("KIND_WRITE_VIEW", Value::WRITE_VIEW),
        ("ENDORSED", Block::ENDORSED),
        ("LITERAL", LITERAL),
        ("READ", READ),
        ("SUM", SUM),
        ("DIFFERENCE", DIFFERENCE),
        ("LESS_THAN", LESS_THAN),
        ("EQUAL", EQUAL),
        ("SKIP", CommandKind::Skip.byte()),
        ("ASSIGNMENT", CommandKind::Assignment.byte()),
        ("SEQUENCE", CommandKind::Sequence.byte()),
        ("IF", CommandKind::If.byte()),
        ("WHILE", CommandKind::While.byte()),
    ];
    bytes.map(|(name, byte)| (name, byte.into())).to_vec()
}

fn versions() -> Vec<(&'static str, u64)> {
    let numbers = [
        ("VERSION_MAJOR", version().major),
        ("VERSION_MINOR", version().minor),
        ("VERSION_PATCH", version().patch),
        ("VERSION_NUMBER", raw::version()),
    ];
    numbers.map(|(name, number)| (name, number.into())).to_vec()
}

/// The library's, the header's and this crate's, which is the whole workspace's.
#[test]
fn there_is_one_version() {
    let own = env!("CARGO_PKG_VERSION");
    assert_eq!(version().to_string(), own);
    let texts = definitions();
    let texts = texts.iter().filter(|(name, _)| name == "VERSION");
    let texts: Vec<&str> = texts.map(|(_, text)| text.as_str()).collect();
    assert_eq!(texts, [format!("\"{own}\"")]);
}

#[test]
fn the_header_has_the_crate_s_constants_and_no_others() {
    let all = [versions(), refusals(), rules_and_limits(), bytes()].concat();
    let all = all
        .into_iter()
        .map(|(name, number)| (name.to_string(), number));
    assert_eq!(defined(), all.collect());
}
