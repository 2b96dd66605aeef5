//! Counts of writes, by how many bytes they take.

use crate::ample::plain_run;
use crate::author::adding_up;
use crate::budgets::MOST_BUDGET;
use crate::calls::Run;
use crate::code::{programme_sheet, Block, Endorsement};
use crate::outputs::{slots_of, Record};
use crate::play_runs::RULES;
use crate::random::Random;
use crate::sheets::plain_store;
use crate::tally::Checklist;

/// The least count of three bytes. One of four takes more steps than there are.
const THREE_BYTES: usize = 1 << 16;

/// The counts in the outputs of finished runs.
#[derive(Debug, Clone)]
pub struct Counts {
    bytes: Checklist,
}

impl Default for Counts {
    fn default() -> Counts {
        Counts {
            bytes: Checklist::new("counts of writes, by bytes", 0..=3),
        }
    }
}

impl Counts {
    /// Counts what a finished run left.
    pub fn count(&mut self, output: &[u8]) {
        for record in slots_of(output).filter_map(Record::in_bytes) {
            let bits = u32::BITS - record.count.leading_zeros();
            self.bytes.add(bits.div_ceil(8) as usize, 1);
        }
    }

    pub fn line(&self) -> String {
        self.bytes.to_string()
    }

    pub fn complaints(&self) -> Vec<String> {
        self.bytes.complaints()
    }
}

/// A few runs beside so many others, each with three journals, that write a slot
/// so often that its count takes three bytes.
pub fn long_runs(seed: u64, count: u64) -> Vec<Run> {
    const ONE_IN: u64 = 30_000;
    let cases = (0..=count / ONE_IN).map(|case| Random::of_case(!seed, case));
    cases.flat_map(|mut random| long_run(&mut random)).collect()
}

/// The same run with as many entries as it fills, one less and some more.
fn long_run(random: &mut Random) -> [Run; 3] {
    let mut store = plain_store(1, 2);
    random.shuffle(&mut store.values);
    let rounds = THREE_BYTES + random.below(1_000);
    let block = Block {
        region: 0,
        endorsement: Endorsement::Absent { ignored: 0 },
        command: adding_up(&[random.below(2) as u8], rounds),
    };
    let programme = programme_sheet(&[block]).bytes;
    let (rule, _, _) = random.pick(&RULES);
    let writes = rounds + 1;
    [writes, writes - 1, writes + 1 + random.below(9)].map(|journal_length| Run {
        budget: MOST_BUDGET,
        journal_length,
        ..plain_run(&store.bytes(), &programme, rule)
    })
}

#[cfg(test)]
mod tests {
    use super::*;
    use crate::values::Value;

    #[test]
    fn counts_are_told_by_their_bytes() {
        let mut counts = Counts::default();
        assert_eq!(counts.complaints().len(), 4);
        let known = [0, 1, 255, 256, 65_535, 65_536, 1_000_000];
        let record = |count| Record {
            value: Value::Truth(false),
            count,
        };
        let slots = known.into_iter().map(record);
        counts.count(&slots.flat_map(Record::bytes).collect::<Vec<u8>>());
        assert!(counts.complaints().is_empty());
        assert!(counts.line().ends_with("0: 1, 1: 2, 2: 2, 3: 2"));
    }

    #[test]
    fn long_runs_finish_where_entries_are_enough() {
        let runs = long_runs(1, 0);
        let numbers: Vec<u32> = runs.iter().map(|run| run.second().answer.number).collect();
        assert_eq!(numbers, [0, 18, 0]);
        let exact = runs[0].second();
        assert_eq!(exact.journal.filled.len(), runs[0].journal_length);
    }
}
