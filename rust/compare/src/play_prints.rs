//! Random standard input to the printing program, which has to print what the
//! second runner prints of it.

use std::fmt::{self, Display, Formatter};
use std::io;

use crate::blockrun::{Printed, Program};
use crate::calls::hex;
use crate::decode::store_in;
use crate::inputs::{End, Input, LENT};
use crate::lattices::MOST_PRINCIPALS;
use crate::lines::{Lines, SlotLine};
use crate::random::Random;
use crate::sheets::MOST_SLOTS;
use crate::steps::{Followed, Steps};
use crate::tally::{Checklist, Tally, NUMBERS};
use crate::values::{Integer, Kind, ENDS};

/// The program lends an output of the length that the store sheet asks for.
const IMPOSSIBLE: [u32; 2] = [12, 19];

/// How many principals stand at or above some owners: one at the top, and all
/// where there are as many as there may be.
const ABOVE: [usize; 5] = [1, 2, 3, 4, MOST_PRINCIPALS];

/// Counts of the inputs and of what was printed.
#[derive(Debug, Clone)]
pub struct Played {
    pub answers: Tally,
    ends: Checklist,
    /// How many slots finished runs print.
    slots: Checklist,
    kinds: Checklist,
    /// Integers, by how many digits they have.
    without_minus: Checklist,
    with_minus: Checklist,
    extremes: Checklist,
    /// Finished runs by their total of writes, as none or as many as fit.
    totals: Checklist,
    /// Counts of slots, by how many digits they have.
    counts: Checklist,
    /// Owners, by how many principals stand at or above them.
    above: Checklist,
    steps: Steps,
    /// Inputs that the program did not read to their end.
    unread: u64,
    /// Outputs that are not lines as the documents have them, for both alike.
    formless: u64,
    /// Outputs that don't fit the input's table, or whose total is wrong.
    unfit: u64,
}

impl Played {
    fn new() -> Played {
        let numbers = 0..NUMBERS as u32;
        let due: Vec<u32> = numbers
            .filter(|number| !IMPOSSIBLE.contains(number))
            .collect();
        let kinds = Kind::ALL.map(|kind| kind as u8);
        let digits = 1..=digits(Integer::MAX);
        Played {
            answers: Tally::new("printed", &due, &IMPOSSIBLE),
            ends: Checklist::new("inputs, by where they end", End::ALL),
            slots: Checklist::new("finished runs, by slots", [0, MOST_SLOTS]),
            kinds: Checklist::new("slots, by kind", kinds),
            without_minus: Checklist::new("integers without a minus, by digits", digits.clone()),
            with_minus: Checklist::new("integers with a minus, by digits", digits),
            extremes: Checklist::new("integers at an end", ENDS),
            totals: Checklist::new("finished runs, by writes", [0, LENT - 1, LENT]),
            counts: Checklist::new("slots, by digits of their count", 1..=3),
            above: Checklist::new("owners, by principals at or above", ABOVE),
            steps: Steps::default(),
            unread: 0,
            formless: 0,
            unfit: 0,
        }
    }

    /// Counts what was printed of an input with this end. Where it is known, the
    /// store is the input's.
    fn count(&mut self, end: End, store: Option<&[u8]>, printed: &Printed) {
        self.ends.count(end);
        self.unread += u64::from(printed.left_unread);
        let Some(lines) = Lines::read(&printed.bytes) else {
            self.formless += 1;
            return;
        };
        self.count_lines(&lines);
        if let (0, Some(store)) = (lines.number, store) {
            let fits = store_in(store).is_some_and(|store| lines.agree_with(&store.table));
            self.unfit += u64::from(!fits);
        }
    }

    fn count_lines(&mut self, lines: &Lines) {
        self.answers.count(lines.number);
        if let Some(total) = lines.total {
            self.slots.count(lines.slots.len());
            self.totals.count(total);
        }
        for slot in &lines.slots {
            self.count_slot(slot);
        }
    }

    fn count_slot(&mut self, slot: &SlotLine) {
        self.kinds.count(slot.kind);
        if slot.kind == Kind::Integer as u8 {
            self.count_integer(slot.payload);
        }
        self.counts.count(digits(Integer::from(slot.count)));
        self.above.count(slot.above);
    }

    fn count_integer(&mut self, integer: Integer) {
        let by_digits = match integer < 0 {
            true => &mut self.with_minus,
            false => &mut self.without_minus,
        };
        by_digits.count(digits(integer));
        self.extremes.count(integer);
    }

    fn lists(&self) -> [&Checklist; 9] {
        [
            &self.ends,
            &self.slots,
            &self.kinds,
            &self.without_minus,
            &self.with_minus,
            &self.extremes,
            &self.totals,
            &self.counts,
            &self.above,
        ]
    }

    /// The counts, line by line.
    pub fn lines(&self) -> Vec<String> {
        let lists = self.lists().map(Checklist::to_string);
        let unread = format!("inputs not read to their end: {}", self.unread);
        let steps = self.steps.lines();
        lists.into_iter().chain(steps).chain([unread]).collect()
    }

    /// What is wrong with these counts, in words.
    pub fn complaints(&self) -> Vec<String> {
        let lists = self.lists().map(Checklist::complaints);
        let unread = (self.unread == 0).then(|| "every input was read to its end".to_string());
        let formless = (self.formless > 0)
            .then(|| format!("{} outputs are not lines as they should be", self.formless));
        let unfit = (self.unfit > 0)
            .then(|| format!("{} outputs don't fit their table or total", self.unfit));
        let answers = self.answers.complaints().into_iter();
        answers
            .chain(lists.concat())
            .chain(self.steps.complaints_of_steps_done())
            .chain(unread)
            .chain(formless)
            .chain(unfit)
            .collect()
    }
}

fn digits(integer: Integer) -> usize {
    integer.unsigned_abs().to_string().len()
}

/// Why there are no counts.
#[derive(Debug)]
pub enum Stopped {
    NoProgram(io::Error),
    /// So many inputs are printed differently, and this is the shortest.
    Differs(u64, Box<Difference>),
}

impl From<io::Error> for Stopped {
    fn from(error: io::Error) -> Stopped {
        Stopped::NoProgram(error)
    }
}

impl Display for Stopped {
    fn fmt(&self, out: &mut Formatter) -> fmt::Result {
        match self {
            Stopped::NoProgram(error) => write!(out, "{error}"),
            Stopped::Differs(count, shortest) => {
                writeln!(out, "{count} inputs are printed differently, the shortest:")?;
                write!(out, "{shortest}")
            }
        }
    }
}

/// An input of which the program doesn't print what the second runner does, or
/// with which it fails.
#[derive(Debug, Clone)]
pub struct Difference {
    input: Vec<u8>,
    printed: Printed,
    second: Vec<u8>,
}

impl Display for Difference {
    fn fmt(&self, out: &mut Formatter) -> fmt::Result {
        let Printed { bytes, status, .. } = &self.printed;
        writeln!(out, "input {}", hex(&self.input))?;
        writeln!(
            out,
            "blockrun prints \"{}\", {status}",
            bytes.escape_ascii()
        )?;
        write!(
            out,
            "second runner prints \"{}\"",
            self.second.escape_ascii()
        )
    }
}

/// Plays so many inputs.
pub fn play(seed: u64, count: u64) -> Result<Played, Stopped> {
    let program = Program::find()?;
    play_by(|input| program.print(input), seed, count)
}

/// Plays so many inputs to whatever prints like this.
fn play_by(
    print: impl Fn(&[u8]) -> io::Result<Printed>,
    seed: u64,
    count: u64,
) -> Result<Played, Stopped> {
    let mut played = Played::new();
    let mut differing = 0;
    let mut shortest: Option<Difference> = None;
    for case in 0..count {
        let made = Input::random(&mut Random::of_case(seed, case));
        let (printed, second) = (print(&made.bytes)?, second_runner::print(&made.bytes));
        if printed.bytes == second && printed.status.success() {
            let asked = made.asked();
            let store = asked.map(|run| run.store.as_slice());
            played.count(made.end, store, &printed);
            let followed = asked.and_then(|run| Followed::of(run, run.second().answer));
            if let Some(followed) = followed {
                played.steps.count(&followed);
            }
            continue;
        }
        differing += 1;
        let input = made.bytes;
        let shorter = |other: &Difference| input.len() < other.input.len();
        if shortest.as_ref().is_none_or(shorter) {
            shortest = Some(Difference {
                input,
                printed,
                second,
            });
        }
    }
    match shortest {
        Some(shortest) => Err(Stopped::Differs(differing, Box::new(shortest))),
        None => Ok(played),
    }
}

#[cfg(test)]
mod tests;
