//! Random sheets, arguments and checkpoints: the library, the second runner and
//! what is told of a refusal agree on each.

use crate::call::{held, Call, Came, Way, FINISHED};
use crate::carried;
use crate::checkpoint::{Kept, Paused, SheetStarts};
use crate::job::Job;
use crate::reasons::{self, Around};

const TEXTS: [&str; 4] = [
    "principals nobody < digA, digB < lab slot place : digA = write result slot result : digA = 0\n\
     slot curve : lab = 50000 block digA { place := write curve } block lab { [place] := 42 }",
    "principals lab slot i : lab = 0 block lab { while i < 9 { i := i + 1 } }",
    "principals low < a, b < top slot x : a = true slot y : top = false slot z : low = 0\n\
     block top endorsed down to a { if x { if x == y { z := 1; z := 2 } else { y := x; z := z + 1 } } }\n\
     block b { z := read x; while true { z := 5; skip; { z := 6; z := 7 } } }",
    "principals low < top slot v : low = read w slot w : top = write v block top { [w] := [v]; w := 0 - v }",
];

/// Numbers that differ from run to run of the loop, and not from day to day.
struct Random(u64);

impl Random {
    fn below(&mut self, end: usize) -> usize {
        self.0 ^= self.0 << 13;
        self.0 ^= self.0 >> 7;
        self.0 ^= self.0 << 17;
        (self.0 >> 16) as usize % end
    }

    fn among<T: Copy>(&mut self, items: &[T]) -> T {
        items[self.below(items.len())]
    }

    /// Changes a byte, or a few, or none.
    fn damage(&mut self, bytes: &mut Vec<u8>) {
        let changes = self.among(&[0, 0, 1, 1, 2]);
        for _ in 0..changes.min(bytes.len()) {
            let at = self.below(bytes.len());
            bytes[at] = match self.below(3) {
                0 => self.below(256) as u8,
                1 => bytes[at].wrapping_add(1),
                _ => self.below(4) as u8,
            };
        }
        if self.below(40) == 0 {
            bytes.truncate(self.below(bytes.len() + 1));
        }
    }
}

/// A run of one of the texts, perhaps with damage.
fn job(random: &mut Random) -> Job {
    let text = notation::assemble(random.among(&TEXTS)).expect("a good text");
    let (mut store, mut programme) = (
        text.store.expect("a store"),
        text.programme.expect("a programme"),
    );
    match random.below(4) {
        0 => random.damage(&mut store),
        1 => random.damage(&mut programme),
        _ => (),
    }
    let kept = Kept {
        rule: 0,
        budget: 0,
        store,
        programme,
        paused: Paused::default(),
    };
    Job::of_checkpoint("kept", &kept, SheetStarts::default())
}

fn call<'a>(job: &'a Job, random: &mut Random, way: Way<'a>) -> Call<'a> {
    Call {
        store: &job.store,
        programme: &job.programme,
        rule: random.among(&[0, 1, 2, 3, 255, 3, 3, 2, 7]),
        budget: random.among(&[0, 1, 2, 3, 5, 9, 50, 1_000_001]),
        way,
    }
}

/// What the call came to. Where it was refused, a reason is told that is more than
/// its meaning.
fn judged(job: &Job, call: &Call) -> Came {
    let came = call.by_library();
    let (second, told) = call.by_second(&mut |_| ());
    assert_eq!(held(&came, &second), Ok(()));
    if came.answer.number != FINISHED {
        let text = reasons::refusal(job, call, &came, &told, Around::default()).expect("a reason");
        let head = format!("refused by {}: ", came.answer.number);
        assert!(text.starts_with(&head) && text.ends_with('\n'), "{text}");
        assert!(text.lines().count() > 1, "{text}");
    }
    came
}

#[test]
fn every_answer_has_its_reason() {
    let mut random = Random(20_261_117);
    let mut seen = [0; 20];
    for _ in 0..30_000 {
        let job = job(&mut random);
        let way = match random.below(3) {
            0 => Way::Journalled(random.below(4)),
            _ => Way::Stretch(None),
        };
        let call = call(&job, &mut random, way);
        let came = judged(&job, &call);
        seen[came.answer.number as usize] += 1;
        if !came.spent() || matches!(way, Way::Journalled(_)) {
            continue;
        }
        let mut paused = came.left;
        random.damage(&mut paused.out);
        random.damage(&mut paused.pause);
        let further = Call {
            way: Way::Stretch(Some(&paused)),
            ..call
        };
        let number = judged(&job, &further).answer.number;
        let faults = carried::faults(&job, &paused);
        let lengths = number == 12;
        assert!(
            lengths || faults.is_empty() == (number != 19),
            "{number} {faults:?}"
        );
        seen[number as usize] += 1;
    }
    let unseen: Vec<usize> = (0..20).filter(|number| seen[*number] == 0).collect();
    // Code of full size, or nested too deep, is not come by in this way.
    assert_eq!(unseen, [10], "{seen:?}");
}
