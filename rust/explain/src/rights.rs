//! 14 and 15: what a region may write, and which write views it may have.

use second_runner::{Role, Seen};

use crate::scene::Scene;
use crate::words;

/// 14, at a slot and its owner.
pub fn no_authority(
    scene: &Scene,
    region: u8,
    (slot, owner): (usize, u8),
    target: &Seen,
) -> Vec<String> {
    let (name, owner_name) = (scene.slot(slot), scene.called(owner));
    let chosen = match scene.read_from(target, |_| true) {
        Some(read) => format!(" The target, `write {name}`, was {read}."),
        None => String::new(),
    };
    vec![
        format!("  It would write {name}, which {owner_name} owns.{chosen}"),
        format!(
            "  The block's region has to stand at or above {owner_name}, and {} does not. Those that do: {}.",
            scene.called(region),
            scene.those_above(owner)
        ),
        format!(
            "  What to do: {}, or have a block of {} write {name}.",
            instead(scene, region),
            scene.regions_above(owner)
        ),
    ]
}

/// 15, of a write view of a slot and its owner.
pub fn write_view_not_allowed(
    scene: &Scene,
    region: u8,
    role: Role,
    (slot, owner): (usize, u8),
    read_from: Option<usize>,
) -> Vec<String> {
    let view = format!("`write {}`", scene.slot(slot));
    let slot = scene.slot_with_owner(slot);
    let role = role_word(role);
    let (came, mend) = match read_from {
        Some(from) => (
            format!("in its {role}, read from {}", scene.slot_with_owner(from)),
            format!("keep {view} out of {}", scene.slot(from)),
        ),
        None => (
            format!("as a literal in its {role}"),
            format!("leave {view} out"),
        ),
    };
    let (region_name, region_called) = (scene.principal(region), scene.called(region));
    vec![
        format!("  It would meet {view}, a write view of {slot}: {came}."),
        format!(
            "  Under {} a block of region {region_name} may meet write views of slots owned at or below {region_called} \
             alone: {}.",
            scene.rule,
            or_none(&scene.slots_at_or_below(region))
        ),
        format!(
            "  What to do: {mend}, or have a block of {} do this.",
            scene.regions_above(owner)
        ),
    ]
}

fn role_word(role: Role) -> &'static str {
    match role {
        Role::Guard => "guard",
        Role::Target => "target",
        Role::Value => "value",
    }
}

/// What a region may write in place of another's slot.
fn instead(scene: &Scene, region: u8) -> String {
    let slots = scene.slots_at_or_below(region);
    let region = scene.called(region);
    match slots.is_empty() {
        true => format!("give {region} a slot of its own to write"),
        false => format!(
            "write a slot that {region} may write ({})",
            words::list(&slots)
        ),
    }
}

fn or_none(names: &[String]) -> String {
    match names.is_empty() {
        true => "there is none".to_string(),
        false => words::list(names),
    }
}
