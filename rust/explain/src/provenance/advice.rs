//! What to do about labels that stand too low.

use super::{guards, Bar, Labelled, TooLow};
use crate::words;

impl TooLow<'_> {
    /// At most three lines, the endorsement of this block last.
    pub fn advice(&self) -> Vec<String> {
        let mut lines = vec![format!("  What to do: {}.", self.mends())];
        let sources = self.sources();
        let down_to = self.floor_to_pass();
        let is_one_of_them = sources.iter().any(|(owner, _)| *owner == down_to);
        let apart = !sources.is_empty() && !is_one_of_them;
        if apart {
            lines.push(self.take_over(&sources));
        }
        lines.push(self.endorse(down_to, apart));
        lines
    }

    /// What would let each label that is too low pass: for the bar that the fewest
    /// are too low for. Or another slot, which needs less.
    fn mends(&self) -> String {
        let low = |bar: &Bar| {
            let labels = Labelled::ALL.into_iter();
            let low = labels.filter(|of| !self.blamed(*of, bar.principal).is_empty());
            low.collect::<Vec<_>>()
        };
        let bars = self.bars().into_iter().rev();
        let bar = bars.min_by_key(|bar| low(bar).len());
        let mends = bar.into_iter().flat_map(|bar| {
            let above = self.scene.called(bar.principal);
            let low = low(&bar).into_iter();
            low.map(move |of| mend(of, &above))
        });
        let mends = mends.collect::<Vec<_>>().join("; and ");
        match self.lower_slot() {
            Some(slot) => format!(
                "{mends}; or write {slot} in place of {}",
                self.scene.slot(self.slot)
            ),
            None => mends,
        }
    }

    /// A slot that could be written by its name instead: where the value is too low
    /// and the owner stands above it. The region stands above that owner, so it has
    /// the authority.
    fn lower_slot(&self) -> Option<String> {
        let (scene, value) = (self.scene, self.value.label);
        let label = match self.branch_judged {
            true => scene.meet(value, self.stopped.branch)?,
            false => value,
        };
        let below = |upper, lower| scene.is_at_or_above(upper, lower) && upper != lower;
        let is_open = below(self.owner, value) && scene.is_at_or_above(self.stopped.region, label);
        is_open.then(|| match scene.is_bottom(label) {
            true => format!("a slot that {} owns", scene.called(label)),
            false => format!("a slot owned at or below {}", scene.called(label)),
        })
    }

    /// The slots read whose owners do not stand at or above the owner, by their
    /// owners. Empty where not all are known.
    fn sources(&self) -> Vec<(u8, Vec<usize>)> {
        let mut reads: Vec<(u8, usize)> = vec![];
        for seen in [self.target, self.value] {
            reads.extend(seen.reads.iter().map(|read| (read.owner, read.slot)));
        }
        if self.branch_judged {
            let Some(guards) = guards::reads(self.scene, self.stopped) else {
                return vec![];
            };
            reads.extend(guards);
        }
        let mut sources: Vec<(u8, Vec<usize>)> = vec![];
        for (owner, slot) in reads {
            if self.scene.is_at_or_above(owner, self.owner) {
                continue;
            }
            match sources.iter_mut().find(|(known, _)| *known == owner) {
                Some((_, slots)) if slots.contains(&slot) => {}
                Some((_, slots)) => slots.push(slot),
                None => sources.push((owner, vec![slot])),
            }
        }
        sources
    }

    /// One block for each owner relies on that owner alone, and what it wrote counts
    /// as the region's.
    fn take_over(&self, sources: &[(u8, Vec<usize>)]) -> String {
        let scene = self.scene;
        let region = scene.principal(self.stopped.region);
        let blocks = sources.iter().map(|(owner, slots)| {
            let commands = slots
                .iter()
                .map(|slot| format!(".. := {}", scene.slot(*slot)));
            let commands = commands.collect::<Vec<_>>().join("; ");
            let floor = scene.principal(*owner);
            format!("`block {region} endorsed down to {floor} {{ {commands} }}`")
        });
        let blocks: Vec<String> = blocks.collect();
        let slots = sources.iter().flat_map(|(_, slots)| slots);
        let slots: Vec<String> = slots.map(|slot| scene.slot(*slot)).collect();
        let (each, those) = match slots.len() {
            1 => (format!("take {} into a slot", slots[0]), "that slot"),
            _ => (
                "take each into a slot of its own".to_string(),
                "those slots",
            ),
        };
        format!(
            "  Or {each} that {} owns, by a block endorsed down to its owner: {}. Then use {those} in place of {}, in a \
             block that is not endorsed.",
            scene.called(self.stopped.region),
            words::list(&blocks),
            words::list(&slots)
        )
    }

    /// Down to which principal the block can be endorsed for the assignment to pass,
    /// and all that its present floor lets pass.
    fn floor_to_pass(&self) -> u8 {
        let floor = self.stopped.floor;
        let lower = floor.and_then(|floor| self.scene.meet(floor, self.meet));
        lower.unwrap_or(self.meet)
    }

    /// To endorse a block is somebody's decision, so it is said what that gives
    /// away.
    fn endorse(&self, down_to: u8, is_last: bool) -> String {
        let (scene, block) = (self.scene, self.stopped.block);
        let name = scene.names.block(block);
        let name = name.map_or(String::new(), |name| format!("{name} : "));
        let region = scene.principal(self.stopped.region);
        let (floor, called) = (scene.principal(down_to), scene.called(down_to));
        let head = format!("`block {name}{region} endorsed down to {floor} {{ .. }}`");
        let or = if is_last {
            "Or, as a last resort,"
        } else {
            "Or,"
        };
        match scene.is_bottom(down_to) {
            true => format!(
                "  {or} if block {block} may rely on what anybody sends, endorse it down to {called}, which stands below \
                 all: {head}. Everybody then has a say in what this block writes."
            ),
            false => format!(
                "  {or} if block {block} may rely on what comes from {called}, endorse it down to {called}: {head}. \
                 {} and whoever stands above it then have a say in what this block writes.",
                words::at_start(&called)
            ),
        }
    }
}

/// What would let a label stand at or above this principal.
fn mend(of: Labelled, above: &str) -> String {
    match of {
        Labelled::Target => {
            "write the slot that is meant by its name, so that the target comes from no slot"
                .to_string()
        }
        Labelled::Value => {
            format!("take the value from literals and from slots owned at or above {above}")
        }
        Labelled::Branch => format!(
            "move the assignment to where no such guard is around it, or let the guard come from slots owned at or \
             above {above}"
        ),
    }
}
