//! Random calls: each refusal and each step is told, whatever the sheets, and what
//! is said to mend a label does.

#[path = "../../second/tests/random/mod.rs"]
mod random;

use explain::Scene;
use model::{Block, Names};
use muntyzhap::Rule;
use random::flows::flowing_parts;
use random::views::views_go_round;
use random::{good_parts, region, region_byte, Parts};
use second_runner::{run_told, Entry, Step, Stopped, Told};
use sheets::{Call, RULES};

/// How many programmes of each kind are played.
const PROGRAMMES: u64 = 4_000;
/// Some runs have no end.
const MOST_STEPS: u32 = 40;

/// Programmes of every kind, under every rule.
fn all_parts() -> impl Iterator<Item = Parts> {
    let kinds = [good_parts, flowing_parts, views_go_round];
    let all = (0..PROGRAMMES).flat_map(move |seed| kinds.map(|parts| parts(seed)));
    all.zip(RULES.into_iter().cycle()).map(|(mut parts, rule)| {
        parts.rule = rule;
        parts.budget = parts.budget.min(MOST_STEPS);
        parts
    })
}

fn tell(call: &Call) -> (Told, Vec<Step>) {
    let mut output = vec![0; call.output_bytes()];
    let mut journal = vec![Entry::default(); call.journal];
    let mut steps = Vec::new();
    let told = run_told(
        &call.store,
        &call.programme,
        call.rule,
        call.budget,
        &mut output,
        &mut journal,
        &mut |step| steps.push(step.clone()),
    );
    (told, steps)
}

fn owners(parts: &Parts) -> Vec<u8> {
    parts.slots.iter().map(|(owner, _)| *owner).collect()
}

fn blocks(parts: &Parts, call: &Call) -> Vec<Block> {
    let (principals, slots) = (parts.masks.len(), parts.slots.len());
    let model = inspect::programme_model(&call.programme, principals, slots);
    model.expect("a good programme").blocks
}

fn place(block: usize, offset: usize) -> String {
    format!("{block}/{offset}")
}

fn scene<'a>(parts: &Parts, names: &'a Names, owners: &'a [u8], blocks: &'a [Block]) -> Scene<'a> {
    Scene {
        names,
        masks: parts.masks,
        owners,
        blocks,
        place: &place,
        rule: Rule::from_number(parts.rule).expect("a rule"),
        paused: false,
    }
}

#[test]
fn every_refusal_and_every_step_has_its_words() {
    let mut counts = [0; 19];
    for parts in all_parts() {
        let (call, owners, names) = (parts.call(), owners(&parts), Names::default());
        let blocks = blocks(&parts, &call);
        let scene = scene(&parts, &names, &owners, &blocks);
        let (told, steps) = tell(&call);
        for step in &steps {
            let line = explain::step(&scene, step);
            assert!(line.starts_with(&format!("step {}  ", step.number)));
            assert_eq!(
                (line.lines().count(), line.matches("  |  ").count()),
                (1, 2)
            );
        }
        let words = explain::refusal(&scene, &told);
        counts[told.answer.number as usize] += 1;
        if let Some(stopped) = &told.stopped {
            assert_told(&words, told.answer.number, stopped);
        }
    }
    let came = [0, 13, 14, 15, 16, 17, 18].map(|number| counts[number]);
    assert!(came.iter().all(|count| *count > 100), "{counts:?}");
}

/// The number, the place, and something to do; no line is empty or ends in spaces.
fn assert_told(words: &str, number: u32, stopped: &Stopped) {
    let mut lines = words.lines();
    let title = lines.next().expect("a title");
    assert!(title.starts_with(&format!("refused by {number}: ")));
    let at = lines.next().expect("a place");
    let start = format!(
        "  at {}, block {} (",
        place(stopped.block, stopped.offset as usize),
        stopped.block
    );
    assert!(at.starts_with(&start), "{words}");
    assert_eq!(words.matches("  What to do: ").count(), 1, "{words}");
    let whole = |line: &str| !line.is_empty() && line.trim_end() == line;
    assert!(words.lines().all(whole), "{words}");
    assert!(!words.contains("What to do: ."), "{words}");
    if number == 16 {
        assert!(
            words.contains("too low: ")
                || words.contains("too low for ")
                || words.contains("too low:\n")
        );
    }
}

/// A scene that knows nothing still tells what there is.
#[test]
fn nothing_is_needed_of_a_scene() {
    let (names, none) = (
        Names::default(),
        Parts {
            masks: &[],
            slots: vec![],
            blocks: vec![],
            ..good_parts(0)
        },
    );
    let scene = scene(&none, &names, &[], &[]);
    for parts in all_parts() {
        let (told, steps) = tell(&parts.call());
        assert!(!explain::refusal(&scene, &told).is_empty());
        assert!(steps
            .iter()
            .all(|step| !explain::step(&scene, step).is_empty()));
    }
}

/// The floor that the last line gives lets the assignment pass, and all before it.
#[test]
fn endorsed_as_it_is_said_a_block_passes() {
    let mut mended = 0;
    for mut parts in all_parts() {
        let (call, owners, names) = (parts.call(), owners(&parts), Names::default());
        let blocks = blocks(&parts, &call);
        let (told, _) = tell(&call);
        let Some(stopped) = told.stopped.clone().filter(|_| told.answer.number == 16) else {
            continue;
        };
        let words = explain::refusal(&scene(&parts, &names, &owners, &blocks), &told);
        let floor = said_floor(&words);
        let block = &mut parts.blocks[stopped.block];
        (block.0, block.1) = (region_byte(region(block), true), floor);
        let (after, _) = tell(&parts.call());
        let further = after.answer.steps > told.answer.steps || after.answer.number == 0;
        assert!(further, "{words}\n{after:?}");
        mended += 1;
    }
    assert!(mended > 200, "{mended}");
}

/// As in "`block p3 endorsed down to p2 { .. }`".
fn said_floor(words: &str) -> u8 {
    let (_, floor) = words.rsplit_once(" endorsed down to p").expect("a floor");
    let digits: String = floor.chars().take_while(char::is_ascii_digit).collect();
    digits.parse().expect("a number")
}
