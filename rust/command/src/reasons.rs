//! The text under a refused run: for 13 to 18 by what the second runner saw, for
//! 1 to 10 by what the sheets hold, for 11, 12 and 19 by what the call was given.

use explain::Scene;
use inspect::Item;
use model::{count, Code};
use muntyzhap::sheet::{command_at, output_bytes, MOST_PRINCIPALS, MOST_SLOTS};
use muntyzhap::{Checkpoint, Place, Refusal, Rule, MOST_BUDGET};
use second_runner::{Step, Told};

use crate::call::{Call, Came, Way};
use crate::carried;
use crate::checkpoint::Paused;
use crate::ending::Failure;
use crate::job::Job;
use crate::settings::RULES;
use crate::setup::Resumed;
use crate::sources::Bytes;

/// What texts about steps need to know of a run's sheets.
pub struct Known<'a> {
    job: &'a Job,
    masks: Vec<u32>,
    owners: Vec<u8>,
    blocks: Vec<model::Block>,
    rule: Rule,
}

impl Known<'_> {
    /// Of sheets that are not good, or a rule that there is not, nothing is known
    /// and no step is made.
    pub fn of(job: &Job, rule: u32) -> Known<'_> {
        let store = job.store_model().unwrap_or_default();
        let (principals, slots) = (store.masks.len(), store.slots.len());
        let programme = inspect::programme_model(&job.programme, principals, slots);
        Known {
            job,
            owners: store.slots.iter().map(|slot| slot.owner).collect(),
            masks: store.masks,
            blocks: programme.unwrap_or_default().blocks,
            rule: Rule::from_number(rule).unwrap_or(Rule::Default),
        }
    }

    pub fn step(&self, step: &Step) -> String {
        self.with_scene(false, |scene| explain::step(scene, step))
    }

    fn refusal(&self, told: &Told, paused: bool) -> String {
        self.with_scene(paused, |scene| explain::refusal(scene, told))
    }

    fn with_scene(&self, paused: bool, tell: impl FnOnce(&Scene) -> String) -> String {
        let place = |block, offset| self.job.place(block, offset);
        tell(&Scene {
            names: &self.job.names,
            masks: &self.masks,
            owners: &self.owners,
            blocks: &self.blocks,
            place: &place,
            rule: self.rule,
            paused,
        })
    }

    /// A block by its number and region, and its own name if it has one.
    pub fn block(&self, number: usize) -> String {
        let names = &self.job.names;
        let block = self.blocks.get(number);
        let region = block.map(|block| names.principal(block.region.into()));
        match (names.block(number), region) {
            (Some(own), Some(region)) => format!("block {number} ({own}, {region})"),
            (None, Some(region)) => format!("block {number} ({region})"),
            _ => format!("block {number}"),
        }
    }

    /// How many blocks have code that could be read.
    pub fn blocks(&self) -> usize {
        let read = |block: &&model::Block| matches!(block.code, Code::Command(_));
        self.blocks.iter().filter(read).count()
    }
}

/// What a call has around it: the checkpoint file that it is carried on from, and
/// whether a spent budget is a pause, which is kept.
#[derive(Clone, Copy, Default)]
pub struct Around<'a> {
    pub resumed: Option<&'a Resumed>,
    pub paused: bool,
}

/// Why a call was refused, in lines, the last one ended too.
pub fn refusal(
    job: &Job,
    call: &Call,
    came: &Came,
    told: &Told,
    around: Around,
) -> Result<String, Failure> {
    let Some(refusal) = Refusal::from_answer(came.answer) else {
        return Ok(String::new());
    };
    let lines = match refusal {
        Refusal::StoreLength
        | Refusal::StoreLimits
        | Refusal::OrderTable
        | Refusal::Owner
        | Refusal::Value => store_reason(job, came)?,
        Refusal::ProgrammeLength | Refusal::ProgrammeLimits | Refusal::Region => {
            programme_reason(job, came, None)?
        }
        Refusal::IllFormedCode(place) | Refusal::NestedTooDeep(place) => {
            programme_reason(job, came, Some(place))?
        }
        Refusal::Arguments => arguments(call, around.resumed),
        Refusal::OutputLength | Refusal::Checkpoint => {
            checkpoint_reason(job, call, &refusal, around.resumed)
        }
        Refusal::JournalFull(_) => {
            let text = Known::of(job, call.rule).refusal(told, around.paused);
            return Ok(text + "\n  Without --entries the journal is long enough.\n");
        }
        _ => {
            let text = Known::of(job, call.rule).refusal(told, around.paused);
            return Ok(text + "\n");
        }
    };
    let head = format!("refused by {}: {}\n", refusal.number(), refusal.meaning());
    let lines = lines.iter().map(|line| format!("  {line}\n"));
    Ok(head + &lines.collect::<String>())
}

fn store_reason(job: &Job, came: &Came) -> Result<Vec<String>, Failure> {
    let (source, refused) = (job.sources.store.as_ref(), job.store_read().refused);
    let mut lines = sheet_reason("store", source, refused, came)?;
    lines.extend(job.hint.clone());
    lines.extend(job.sources.store_listed().map(listed));
    Ok(lines)
}

/// With the place of a byte in its code, where that is what was refused.
fn programme_reason(job: &Job, came: &Came, place: Option<Place>) -> Result<Vec<String>, Failure> {
    let sizes = job.store_read().sizes;
    let (principals, slots) = sizes.map_or((MOST_PRINCIPALS, MOST_SLOTS), |sizes| {
        (sizes.principals, sizes.slots)
    });
    let read = inspect::programme(&job.programme, principals, slots, &job.names);
    let source = job.sources.programme.as_ref();
    let mut lines = sheet_reason("programme", source, read.refused, came)?;
    if let Some(place) = place {
        let Place { block, offset } = place;
        let (at, region) = (job.place(block, offset), region(job, block));
        lines[0] =
            format!("at {at}, in the programme sheet: block {block}{region}, offset {offset}");
        lines.extend(last_command(job, &read.items, place));
    }
    lines.extend(job.sources.programme_listed().map(listed));
    Ok(lines)
}

/// The last command that was begun before some place in code that is not good.
fn last_command(job: &Job, items: &[Item], place: Place) -> Option<String> {
    let mut items = items.iter().rev();
    items.find_map(|item| {
        let (block, offset) = item.in_block?;
        let before = block == place.block && offset < place.offset && !item.what.text.is_empty();
        let kind = command_at(&job.programme, Place { block, offset }).filter(|_| before)?;
        let place = job.place(block, offset);
        Some(format!(
            "the last command that starts before it is the {kind} at {place}, offset {offset}"
        ))
    })
}

/// A block's region, from the sheet's own bytes, as its code is not good.
fn region(job: &Job, block: usize) -> String {
    let programme = crate::blocks::as_bytes(&job.programme).unwrap_or_default();
    match programme.blocks.get(block) {
        Some(block) => format!(" (region {})", job.names.principal(block.region.into())),
        None => String::new(),
    }
}

/// Where and why a sheet is refused. What is read here is held to the library's
/// answer, as the second runner is.
fn sheet_reason(
    sheet: &str,
    source: Option<&Bytes>,
    refused: Option<inspect::Refused>,
    came: &Came,
) -> Result<Vec<String>, Failure> {
    let answer = came.answer;
    let same = |refused: &inspect::Refused| {
        (refused.number, refused.block, refused.offset)
            == (answer.number, answer.block, answer.offset)
    };
    let Some(refused) = refused.filter(same) else {
        let number = answer.number;
        return Err(Failure::told(format!(
            "the library refuses the {sheet} sheet by {number}, and the reason was not found in the sheet"
        )));
    };
    let at = refused.at;
    let mut lines = vec![];
    lines.push(match source {
        Some(source) => format!("at {} (byte {at} of the {sheet} sheet)", source.place(at)),
        None => format!("at byte {at} of the {sheet} sheet"),
    });
    lines.extend(refused.reason.lines().map(str::to_string));
    Ok(lines)
}

fn listed(arguments: String) -> String {
    format!("`muntyzhap dis {arguments}` lists the sheets")
}

/// "rule not 0, 1, 2, 3 or 255, or budget above 1,000,000"
fn arguments(call: &Call, resumed: Option<&Resumed>) -> Vec<String> {
    let gives = |gives: fn(&Resumed) -> bool| resumed.filter(|resumed| gives(resumed));
    let from = |resumed: &Resumed, what: &str| {
        let file = &resumed.file;
        format!("the {what} comes from the checkpoint {file}: give another with --{what}")
    };
    let mut lines = vec![];
    if Rule::from_number(call.rule).is_none() {
        let rules = RULES.map(|(name, rule)| format!("{} ({name})", rule.number()));
        lines.push(format!(
            "the rule is {}, and the rules are {}",
            call.rule,
            rules.join(", ")
        ));
        let own = gives(|resumed| resumed.gives_rule);
        lines.extend(own.map(|resumed| from(resumed, "rule")));
    }
    if call.budget > MOST_BUDGET {
        lines.push(format!(
            "the budget is {}, and the largest is {MOST_BUDGET}",
            call.budget
        ));
        let own = gives(|resumed| resumed.gives_budget);
        lines.extend(own.map(|resumed| from(resumed, "budget")));
    }
    lines
}

/// What is wrong with a checkpoint: its lengths (12) or what it holds (19).
fn checkpoint_reason(
    job: &Job,
    call: &Call,
    refusal: &Refusal,
    resumed: Option<&Resumed>,
) -> Vec<String> {
    let Way::Stretch(Some(paused)) = call.way else {
        return vec![];
    };
    let at = resumed.map(|resumed| format!("at {}, the checkpoint to carry on from", resumed.file));
    let mut lines: Vec<String> = at.into_iter().collect();
    lines.extend(match refusal {
        Refusal::OutputLength => lengths(job, paused),
        _ => carried::faults(job, paused),
    });
    lines.push("What to do: take an older checkpoint, or start anew.".to_string());
    lines
}

fn lengths(job: &Job, paused: &Paused) -> Vec<String> {
    let cases = [
        ("output", paused.out.len(), output_bytes(&job.store)),
        ("pause sheet", paused.pause.len(), Checkpoint::PAUSE_BYTES),
    ];
    let wrong = cases.iter().filter(|(_, found, wanted)| found != wanted);
    let lines = wrong.map(|(what, found, wanted)| {
        let found = count(*found, "byte");
        format!("the checkpoint's {what} has {found}, and the store asks for {wanted}")
    });
    lines.collect()
}
