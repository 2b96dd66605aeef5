//! Random standard input for the printing program.

use std::fmt::{self, Display, Formatter};

use crate::ample::plain_run;
use crate::author::{adding_up, Author, Care};
use crate::budgets::random_budget;
use crate::calls::Run;
use crate::code::{programme_sheet, Block, Command, Endorsement};
use crate::expressions::Expression;
use crate::play_runs::{endorsed_sheets, random_sheets, RULES};
use crate::play_sheets::{good_programme, random_programme, random_store};
use crate::random::Random;
use crate::rule_numbers::other_byte;
use crate::sheets::{store_sheet_at_limit, Store};
use crate::values::{random_integer, Value};

/// The most bytes that the program reads.
const MOST: usize = second_runner::Input::MOST_BYTES;
/// "The printing program lends 512 entries." (document 02, N7)
pub const LENT: usize = 512;
/// More than it reads and a pipe holds.
const FAR_TOO_LONG: usize = 200_000;
/// The rule byte and the budget.
const HEAD: usize = 5;
/// n and m of the store sheet.
const SIZES: usize = 3;

/// Where an input ends.
#[derive(Debug, Clone, Copy, PartialEq, Eq)]
pub enum End {
    /// Where the programme sheet does. The sheets are good, damaged or flawed;
    /// with every other end they are good.
    Right,
    InHead,
    InSizes,
    InStore,
    InProgramme,
    After,
    TooLong,
    FarTooLong,
}

impl End {
    pub const ALL: [End; 8] = [
        End::Right,
        End::InHead,
        End::InSizes,
        End::InStore,
        End::InProgramme,
        End::After,
        End::TooLong,
        End::FarTooLong,
    ];

    fn random(random: &mut Random) -> End {
        match random.below(40) {
            0 | 1 => End::InHead,
            2 => End::InSizes,
            3 => End::InStore,
            4 => End::InProgramme,
            5 => End::After,
            6 if random.one_in(4) => End::FarTooLong,
            6 => End::TooLong,
            _ => End::Right,
        }
    }

    /// How long an input with this end is, whose store sheet and programme
    /// sheet end at these places.
    fn length(self, random: &mut Random, store: usize, programme: usize) -> usize {
        match self {
            End::Right => programme,
            End::InHead => random.below(HEAD),
            End::InSizes => HEAD + random.below(SIZES),
            End::InStore => random.between(HEAD + SIZES, store - 1),
            End::InProgramme => random.between(store, programme - 1),
            End::After => random.pick(&[programme + 1, programme + 8, MOST]),
            End::TooLong => MOST + random.pick(&[1, 2, 5_000]),
            End::FarTooLong => FAR_TOO_LONG,
        }
    }
}

impl Display for End {
    fn fmt(&self, out: &mut Formatter) -> fmt::Result {
        out.write_str(match self {
            End::Right => "right",
            End::InHead => "before byte 5",
            End::InSizes => "in the store's sizes",
            End::InStore => "in the store sheet",
            End::InProgramme => "in the programme sheet",
            End::After => "after the sheets",
            End::TooLong => "past what is read",
            End::FarTooLong => "far past it",
        })
    }
}

/// A standard input, and the run that it was made of.
#[derive(Debug, Clone)]
pub struct Input {
    pub end: End,
    pub bytes: Vec<u8>,
    pub run: Run,
}

impl Input {
    /// The run that the program is asked for, where the input ends with it.
    pub fn asked(&self) -> Option<&Run> {
        (self.end == End::Right).then_some(&self.run)
    }
}

impl Input {
    pub fn random(random: &mut Random) -> Input {
        let end = End::random(random);
        let run = random_run(random, end);
        let mut bytes = vec![u8::try_from(run.rule).expect("a rule byte")];
        bytes.extend(run.budget.to_le_bytes());
        bytes.extend(&run.store);
        let store = bytes.len();
        bytes.extend(&run.programme);
        let length = end.length(random, store, bytes.len());
        bytes.resize_with(length, || random.byte());
        Input { end, bytes, run }
    }
}

/// Any rule, with enough budget or one around the steps that the run needs.
fn random_run(random: &mut Random, end: End) -> Run {
    let (store, programme) = match end {
        End::Right => any_sheets(random),
        _ => good_sheets(random),
    };
    let (rule, _, _) = random.pick(&RULES);
    let mut run = plain_run(&store, &programme, rule);
    if random.one_in(2) {
        run.budget = random_budget(random, run.second().answer);
    }
    if random.one_in(30) {
        run.rule = u32::from(other_byte(random));
    }
    run.journal_length = LENT;
    run
}

fn good_sheets(random: &mut Random) -> (Vec<u8>, Vec<u8>) {
    let store = Store::random(random);
    (store.bytes(), good_programme(random, &store).bytes)
}

/// Sheets whose run mostly finishes, under every rule.
fn careful_sheets(random: &mut Random) -> (Vec<u8>, Vec<u8>) {
    let store = Store::random(random);
    let blocks = Author::new(random, &store, Care::FULL).programme();
    (store.bytes(), programme_sheet(&blocks).bytes)
}

fn any_sheets(random: &mut Random) -> (Vec<u8>, Vec<u8>) {
    match random.below(20) {
        0 => (store_sheet_at_limit(random).bytes, no_blocks()),
        1 | 2 => (random_store(random), no_blocks()),
        3..=5 => {
            let store = Store::random(random);
            (store.bytes(), random_programme(random, &store))
        }
        6..=8 => careful_sheets(random),
        9 | 10 => endorsed_sheets(random),
        11 => sheets_of_writes(random),
        _ => random_sheets(random),
    }
}

/// Good sheets whose run makes as many writes as there are entries, or one more or
/// one less.
fn sheets_of_writes(random: &mut Random) -> (Vec<u8>, Vec<u8>) {
    let writes = random.between(LENT - 1, LENT + 1);
    let store = loop {
        let store = Store::random(random);
        if store.table.slots() > 0 {
            break store;
        }
    };
    let blocks = blocks_of_writes(random, &store, writes);
    (store.bytes(), programme_sheet(&blocks).bytes)
}

/// Blocks of the top region: a counter that is set and then goes up, or one
/// assignment after the other.
fn blocks_of_writes(random: &mut Random, store: &Store, writes: usize) -> Vec<Block> {
    let slots = store.table.slots();
    let slot = random.below(slots) as u8;
    let commands = match random.one_in(2) {
        true => vec![adding_up(&[slot], writes - 1)],
        false => {
            let mut set = || {
                let value = Value::Integer(random_integer(random));
                Command::set(random.below(slots) as u8, Expression::literal(value))
            };
            let sets: Vec<Command> = (0..writes).map(|_| set()).collect();
            let parts = sets.chunks(Command::MOST_IN_SEQUENCE);
            parts.map(|part| Command::all(part.to_vec())).collect()
        }
    };
    let block = |command| Block {
        region: store.table.lattice.top(),
        endorsement: Endorsement::Absent { ignored: 0 },
        command,
    };
    commands.into_iter().map(block).collect()
}

fn no_blocks() -> Vec<u8> {
    programme_sheet(&[]).bytes
}

#[cfg(test)]
mod tests {
    use super::*;
    use std::collections::BTreeSet;

    /// The lengths of inputs with this end, and the first words of what is
    /// printed of them.
    fn inputs(end: End) -> (BTreeSet<usize>, BTreeSet<String>) {
        let cases = (0..4_000).map(|case| Input::random(&mut Random::of_case(21, case)));
        let words = |input: &Input| {
            let printed = second_runner::print(&input.bytes);
            let text = String::from_utf8(printed).expect("text");
            text.split(" block").take(1).collect()
        };
        cases
            .filter(|input| input.end == end)
            .map(|input| (input.bytes.len(), words(&input)))
            .unzip()
    }

    /// The inputs with this end are refused so, or by 11 where that is judged.
    fn assert_refused(end: End, refused: &str) -> BTreeSet<usize> {
        let (lengths, words) = inputs(end);
        let expected = [refused, "end 11"];
        let known = |word: &String| expected.contains(&word.as_str());
        assert!(words.contains(refused), "{end:?}: {words:?}");
        assert!(words.iter().all(known), "{end:?}: {words:?}");
        lengths
    }

    #[test]
    fn what_is_cut_is_refused() {
        let (lengths, words) = inputs(End::InHead);
        assert!(lengths.into_iter().eq(0..HEAD));
        assert!(words.into_iter().eq(["end 1"]));
        let lengths = assert_refused(End::InSizes, "end 1");
        assert!(lengths.into_iter().eq(HEAD..HEAD + SIZES));
        assert_refused(End::InStore, "end 1");
        assert_refused(End::InProgramme, "end 6");
    }

    /// So what stands past the bytes that are read changes no answer.
    #[test]
    fn what_is_too_long_is_refused() {
        let lengths = assert_refused(End::After, "end 6");
        assert_eq!(lengths.last(), Some(&MOST));
        for end in [End::TooLong, End::FarTooLong] {
            let lengths = assert_refused(end, "end 6");
            assert!(lengths.first() > Some(&MOST));
        }
    }

    #[test]
    fn writes_are_around_the_entries() {
        let mut seen = BTreeSet::new();
        for case in 0..60 {
            let random = &mut Random::of_case(32, case);
            let (store, programme) = sheets_of_writes(random);
            let (rule, _, _) = random.pick(&RULES);
            let run = plain_run(&store, &programme, rule);
            let writes = run.second().journal.filled.len();
            let lent = Run {
                journal_length: LENT,
                ..run
            };
            let fits = lent.second().answer.number == 0;
            assert_eq!(fits, writes <= LENT);
            seen.insert(writes);
        }
        assert!(seen.into_iter().eq(LENT - 1..=LENT + 1));
    }

    #[test]
    fn many_inputs_finish() {
        let cases = (0..2_000).map(|case| Input::random(&mut Random::of_case(22, case)));
        let printed = cases.map(|input| second_runner::print(&input.bytes));
        let finished = printed.filter(|text| text.starts_with(b"end 0"));
        assert!(finished.count() > 800);
    }
}
