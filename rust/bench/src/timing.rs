//! Times of both runners on one workload.

use std::hint::black_box;
use std::time::{Duration, Instant};

use second_runner::Answer;

use crate::runners::{Call, Lent, Runner, RUNNERS};
use crate::workloads::{Unit, Workload};

/// How long one repetition takes at least: short runs are played many times.
const LEAST: Duration = Duration::from_millis(20);

/// A workload under a rule, and the best times so far.
pub struct Case<'a> {
    pub workload: &'a Workload,
    pub rule: u32,
    /// The steps of one run, by each runner.
    steps: [u32; 2],
    /// The time of one run, by each runner.
    best: [Best; 2],
}

/// The best time of a call so far.
#[derive(Clone, Copy)]
pub struct Best {
    /// The calls of a repetition.
    calls: u32,
    nanoseconds: f64,
}

impl Best {
    /// None so far.
    const NEVER: Best = Best {
        calls: 1,
        nanoseconds: f64::INFINITY,
    };

    /// With as many calls as make a repetition long enough.
    pub fn of<T>(mut call: impl FnMut() -> T) -> Best {
        let mut best = Best::NEVER;
        while best.time_of(&mut call) < LEAST {
            best.calls *= 2;
        }
        best
    }

    /// Times one repetition.
    pub fn repeat<T>(&mut self, call: impl FnMut() -> T) {
        let time = self.time_of(call).as_secs_f64() * 1e9;
        self.nanoseconds = self.nanoseconds.min(time / f64::from(self.calls));
    }

    fn time_of<T>(self, mut call: impl FnMut() -> T) -> Duration {
        let start = Instant::now();
        for _ in 0..self.calls {
            black_box(call());
        }
        start.elapsed()
    }

    pub fn nanoseconds(self) -> f64 {
        self.nanoseconds
    }
}

impl<'a> Case<'a> {
    /// A case that both runners agree on.
    pub fn new(workload: &'a Workload, rule: u32, lent: &mut Lent) -> Case<'a> {
        let mut case = Case {
            workload,
            rule,
            steps: [0; 2],
            best: [Best::NEVER; 2],
        };
        let budgets = case.budgets();
        let second = case.agreed_steps(budgets[1], lent);
        let proved = case.play(RUNNERS[0], budgets[0], lent);
        case.judge(proved);
        case.steps = [proved.steps, second];
        case.best =
            [0, 1].map(|place| Best::of(|| case.play(RUNNERS[place], budgets[place], lent)));
        case
    }

    fn budgets(&self) -> [u32; 2] {
        [self.workload.budget, self.workload.second_budget]
    }

    /// The steps of a run, when both runners give the same answer, output and
    /// journal.
    fn agreed_steps(&self, budget: u32, lent: &mut Lent) -> u32 {
        let name = &self.workload.name;
        lent.clear();
        let answer = self.play(RUNNERS[0], budget, lent);
        let output = lent.output(self.call(budget)).to_vec();
        let expected = self.play(RUNNERS[1], budget, lent);
        assert_eq!(answer, expected, "{name}: the answers differ");
        let end = lent.output(self.call(budget));
        assert_eq!(output, end, "{name}: the outputs differ");
        assert!(lent.same_journals(), "{name}: the journals differ");
        self.judge(answer);
        answer.steps
    }

    /// A run finishes, or comes to the end of its budget or of its journal.
    fn judge(&self, answer: Answer) {
        let played = matches!(answer.number, 0 | 17 | 18);
        let (name, number) = (&self.workload.name, answer.number);
        assert!(played, "{name}: refused by {number}");
    }

    /// Times one repetition of each runner, in turn.
    pub fn repeat(&mut self, lent: &mut Lent) {
        for (place, runner) in RUNNERS.into_iter().enumerate() {
            let (mut best, budget) = (self.best[place], self.budgets()[place]);
            best.repeat(|| self.play(runner, budget, lent));
            self.best[place] = best;
        }
    }

    fn play(&self, runner: Runner, budget: u32, lent: &mut Lent) -> Answer {
        runner(black_box(self.call(budget)), lent)
    }

    fn call(&self, budget: u32) -> Call<'a> {
        let workload = self.workload;
        Call {
            store: &workload.store,
            programme: &workload.programme,
            rule: self.rule,
            budget,
            output: workload.output,
            journal: workload.journal,
        }
    }

    /// The best time of a step or a run by the proved runner, in nanoseconds.
    pub fn proved(&self) -> f64 {
        self.best[0].nanoseconds() / self.units(0)
    }

    /// The same by the second runner.
    pub fn second(&self) -> f64 {
        self.best[1].nanoseconds() / self.units(1)
    }

    pub fn ratio(&self) -> f64 {
        self.proved() / self.second()
    }

    fn units(&self, place: usize) -> f64 {
        match self.workload.unit {
            Unit::Step => f64::from(self.steps[place]),
            Unit::Run => 1.0,
        }
    }

    /// The proved runner's time of a whole call, in nanoseconds.
    pub fn whole(&self) -> f64 {
        self.best[0].nanoseconds()
    }

    /// Whole runs a second, by each runner.
    pub fn runs_a_second(&self) -> [f64; 2] {
        self.best.map(|best| 1e9 / best.nanoseconds())
    }
}
