//! Runs a text of the notation, and tells it.

// Each test file uses its own share of this.
#![allow(dead_code)]

use explain::Scene;
use model::{Names, Programme, Store};
use muntyzhap::{Checkpoint, Rule};
use second_runner::{carry_on_told, run_told, start_told, Entry, Step, Told};

/// The file that the texts are said to be in.
const FILE: &str = "deputy.mz";
/// Enough steps and entries for any run here that isn't about them.
const AMPLE: u32 = 1_000;

/// A text with its sheets.
pub struct Text {
    store: Vec<u8>,
    programme: Vec<u8>,
    names: Names,
    places: notation::Places,
    models: (Store, Programme),
    /// Whether a spent budget is told as a pause.
    paused: bool,
}

pub fn text(text: &str) -> Text {
    let assembled = notation::assemble(text).unwrap_or_else(|errors| panic!("{errors:?}"));
    let store = assembled.store.expect("a store");
    let programme = assembled.programme.expect("a programme");
    let model = inspect::store_model(&store).expect("a good store");
    let (principals, slots) = (model.masks.len(), model.slots.len());
    let blocks = inspect::programme_model(&programme, principals, slots);
    Text {
        models: (model, blocks.expect("a good programme")),
        store,
        programme,
        names: assembled.names,
        places: assembled.places,
        paused: false,
    }
}

impl Text {
    /// The same, in which a spent budget is a pause.
    pub fn paused(self) -> Text {
        Text {
            paused: true,
            ..self
        }
    }

    fn output(&self) -> Vec<u8> {
        vec![0; muntyzhap::sheet::output_bytes(&self.store)]
    }

    fn tell(&self, rule: Rule, budget: u32, entries: usize, each: &mut dyn FnMut(&Step)) -> Told {
        let mut journal = vec![Entry::default(); entries];
        run_told(
            &self.store,
            &self.programme,
            rule.number(),
            budget,
            &mut self.output(),
            &mut journal,
            each,
        )
    }

    /// Why a run is refused.
    pub fn refusal(&self, rule: Rule) -> String {
        self.refusal_within(rule, AMPLE, AMPLE as usize)
    }

    pub fn refusal_within(&self, rule: Rule, budget: u32, entries: usize) -> String {
        let told = self.tell(rule, budget, entries, &mut |_| ());
        self.on_scene(rule, |scene| explain::refusal(scene, &told))
    }

    /// The same of a run that is paused after so many steps and carried on.
    pub fn refusal_after_pause(&self, rule: Rule, at: u32) -> String {
        self.refusal_carried_on(rule, at, AMPLE)
    }

    /// The same with another budget from then on.
    pub fn refusal_carried_on(&self, rule: Rule, at: u32, budget: u32) -> String {
        let (store, programme, number) = (&self.store, &self.programme, rule.number());
        let lend = || (self.output(), vec![0; Checkpoint::PAUSE_BYTES]);
        let ((mut old, mut from), (mut output, mut pause)) = (lend(), lend());
        let each = &mut |_: &Step| ();
        let paused = start_told(store, programme, number, at, &mut old, &mut from, each);
        assert_eq!((paused.answer.number, paused.answer.steps), (17, at));
        let (output, pause) = (&mut output, &mut pause);
        let told = carry_on_told(
            store, programme, number, budget, &old, &from, output, pause, each,
        );
        self.on_scene(rule, |scene| explain::refusal(scene, &told))
    }

    /// A line for each step.
    pub fn trace(&self, rule: Rule) -> Vec<String> {
        let mut steps = Vec::new();
        self.tell(rule, AMPLE, AMPLE as usize, &mut |step| {
            steps.push(step.clone())
        });
        let line = |scene: &Scene, step: &Step| explain::step(scene, step);
        self.on_scene(rule, |scene| {
            steps.iter().map(|step| line(scene, step)).collect()
        })
    }

    fn on_scene<T>(&self, rule: Rule, tell: impl Fn(&Scene) -> T) -> T {
        let (store, programme) = &self.models;
        let owners: Vec<u8> = store.slots.iter().map(|slot| slot.owner).collect();
        let place = |block, offset| match self.places.command(block, offset) {
            Some(place) => format!("{FILE}:{}:{}", place.line, place.column),
            None => format!("{FILE}: nowhere"),
        };
        tell(&Scene {
            names: &self.names,
            masks: &store.masks,
            owners: &owners,
            blocks: &programme.blocks,
            place: &place,
            rule,
            paused: self.paused,
        })
    }
}
