//! 13: a value of the wrong kind.

use model::Operator;
use second_runner::{Found, Origin, ReadSeen, Role, Value, Wanted};

use crate::scene::Scene;
use crate::words;

/// 13
pub fn wrong_kind(
    scene: &Scene,
    role: Role,
    wanted: Wanted,
    found: &[Found],
    reads: &[ReadSeen],
) -> Vec<String> {
    let needed = needed(wanted, role);
    let values = found_words(scene, wanted, found);
    let way = on_the_way(scene, found, reads);
    vec![
        format!("  {needed} {values}{way}"),
        format!("  What to do: {}.", to_do(scene, wanted, found)),
    ]
}

/// What is needed, and by what.
fn needed(wanted: Wanted, role: Role) -> String {
    let role = match role {
        Role::Guard => "the guard",
        Role::Target => "the target",
        Role::Value => "the value",
    };
    match wanted {
        Wanted::Truth => "A guard has to be a truth value, true or false.".to_string(),
        Wanted::WriteView => "A target has to be a write view.".to_string(),
        Wanted::ReadView => format!("In {role}, a read needs a read view."),
        Wanted::Integers(byte) => format!("In {role}, {} needs two integers.", sign(byte)),
    }
}

fn found_words(scene: &Scene, wanted: Wanted, found: &[Found]) -> String {
    let values: Vec<String> = found.iter().map(|found| one(scene, found)).collect();
    match (wanted, values.as_slice()) {
        (_, [left, right]) => format!("On its left stands {left}; on its right {right}."),
        (Wanted::ReadView, values) => format!("It was given {}.", words::clauses(values)),
        (_, values) => format!("This one is {}.", words::clauses(values)),
    }
}

/// "the integer 5, read from place, which digA owns"
fn one(scene: &Scene, found: &Found) -> String {
    let value = scene.value(found.value);
    let kind = kind(found.value);
    let from = match found.from {
        Origin::Literal => "a literal".to_string(),
        Origin::Slot(slot) => format!("read from {}", scene.slot_with_owner(slot)),
        Origin::Operation(byte) => format!("the result of {}", sign(byte)),
    };
    match kind {
        "read view" | "write view" => format!("the {kind} `{value}`, {from}"),
        _ => format!("the {kind} {value}, {from}"),
    }
}

fn kind(value: Value) -> &'static str {
    match value.kind {
        muntyzhap::Value::INTEGER => "integer",
        muntyzhap::Value::TRUTH => "truth value",
        muntyzhap::Value::READ_VIEW => "read view",
        muntyzhap::Value::WRITE_VIEW => "write view",
        _ => "value",
    }
}

/// The slots that were read to come to those that the values are from.
fn on_the_way(scene: &Scene, found: &[Found], reads: &[ReadSeen]) -> String {
    let told = |slot| found.iter().any(|found| found.from == Origin::Slot(slot));
    let mut slots: Vec<usize> = Vec::new();
    for read in reads {
        if !told(read.slot) && !slots.contains(&read.slot) {
            slots.push(read.slot);
        }
    }
    let slots: Vec<String> = slots.into_iter().map(|slot| scene.slot(slot)).collect();
    match slots.is_empty() {
        true => String::new(),
        false => format!(" Read on the way: {}.", words::list(&slots)),
    }
}

fn to_do(scene: &Scene, wanted: Wanted, found: &[Found]) -> String {
    let slot = found.first().and_then(|found| match found.from {
        Origin::Slot(slot) => Some(scene.slot(slot)),
        _ => None,
    });
    match (wanted, slot) {
        (Wanted::Truth, Some(slot)) => {
            format!("let {slot} hold true or false before, or compare what it holds by `<` or `==`")
        }
        (Wanted::Truth, None) => {
            "make the guard true, false, a slot that holds one of them, or a comparison by `<` or `==`"
                .to_string()
        }
        (Wanted::WriteView, slot) => view_to_do(slot, "write"),
        (Wanted::ReadView, slot) => view_to_do(slot, "read"),
        (Wanted::Integers(_), _) => {
            "let both be integers; only `==` takes values of other kinds".to_string()
        }
    }
}

/// Brackets go by the view that something holds; a name alone is a slot itself.
fn view_to_do(slot: Option<String>, verb: &str) -> String {
    match slot {
        Some(slot) => format!(
            "to {verb} {slot} itself, use its name without brackets; to {verb} the slot that it names, let it hold a \
             {verb} view before (`{verb} ..`)"
        ),
        None => format!("{verb} a slot by its name, or put in the brackets a slot that holds a {verb} view"),
    }
}

/// An operation as the notation writes it.
fn sign(byte: u8) -> String {
    match Operator::from_byte(byte) {
        Some(operator) => format!("`{}`", operator.sign()),
        None => format!("the operation {byte:02X}"),
    }
}
