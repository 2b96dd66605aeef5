//! What the times come to, in lines of text.

use crate::cases::{Cases, Ended};
use crate::python::Python;
use crate::stretches::SLICE;
use crate::timing::Case;
use crate::workloads::Unit;

/// The most that the proved runner's time may be of the second one's.
const MOST_RATIO: f64 = 0.5;
/// The most that a long part may cost where it isn't taken, as a quotient.
const MOST_SKIPPING: f64 = 1.5;
/// The most that a step with a body of skips may cost of one with a skip.
const MOST_SKIPS: f64 = 3.0;
/// The most that the proved runner's time may be of CPython's.
const MOST_OF_PYTHON: f64 = 0.6;
/// The longest that an expression may take, in microseconds.
const MOST_EVALUATION: f64 = 1.0;
/// The most that the proved runner's time of a finished run may be of the second
/// one's, each with its journal. Half is aimed at.
const MOST_WITH_JOURNAL: f64 = 0.6;
/// The longest that it may take to take a run up and to write its checkpoint, in
/// microseconds.
const MOST_PAUSING: f64 = 1000.0;

const HEADING: &str = "time in ns                     rule       proved       second  ratio  for";

/// The table, then how the times stand to the demands, and the worst.
pub fn lines(cases: &Cases, python: Option<&Python>) -> Vec<String> {
    let mut lines = vec![HEADING.to_string()];
    lines.extend(cases.steps().chain(&cases.full).map(row));
    lines.push(String::new());
    lines.extend(of_both_runners(cases));
    lines.extend(of_python(cases, python));
    lines.extend(of_expressions(cases));
    lines.extend(of_floors(cases));
    lines.extend(of_journals(cases));
    lines.extend(of_pauses(cases));
    lines.extend(of_slices(cases));
    let step = worst(cases, Case::proved).map(time_of);
    lines.extend(step.map(|step| format!("worst step found: {step}")));
    let call = worst(cases, Case::whole).map(call_of);
    lines.extend(call.map(|call| format!("worst call found: {call}")));
    lines
}

/// (a) to (g).
fn of_both_runners(cases: &Cases) -> Vec<String> {
    let mut lines = vec![];
    lines.push("a to d: a step's time by the proved runner to the second's".to_string());
    let speed = cases.speed.iter();
    lines.extend(speed.map(|case| verdict(case, case.ratio(), MOST_RATIO)));
    lines.push("e: a step's time with a long part not taken to that with a short one".to_string());
    let skipping = cases.short.iter().zip(&cases.long);
    lines.extend(skipping.map(|(short, long)| {
        let value = long.proved() / short.proved();
        verdict(long, value, MOST_SKIPPING)
    }));
    lines.push("f: the check of full-size sheets, by the proved runner".to_string());
    let full = cases.full.iter();
    lines.extend(full.map(|case| format!("   {}", time_of(case))));
    lines.push("g: a step's time with many skips to that with one".to_string());
    lines.extend(cases.skips.iter().map(|case| {
        let one = cases.skip.iter().find(|one| one.rule == case.rule);
        let value = one.map_or(f64::NAN, |one| case.proved() / one.proved());
        verdict(case, value, MOST_SKIPS)
    }));
    lines
}

/// (i). CPython keeps no journal, so the bound is for one pass, which is what
/// the run takes that is refused at its last step.
fn of_python(cases: &Cases, python: Option<&Python>) -> Vec<String> {
    let Some(python) = python else {
        return vec!["i: not compared, as there is no python3 that answers".to_string()];
    };
    let (name, step) = (python.name(), python.step());
    let mut lines = vec![format!(
        "i: a step's time by the proved runner to {name}'s, {step:.2} ns"
    )];
    for Ended {
        finished, spent, ..
    } in &cases.counting
    {
        lines.push(verdict(spent, spent.proved() / step, MOST_OF_PYTHON));
        let (value, rule) = (finished.proved() / step, finished.rule);
        lines.push(format!(
            "   finished, with its journal, rule {rule}: {value:.2}"
        ));
    }
    lines
}

/// (j).
fn of_expressions(cases: &Cases) -> Vec<String> {
    let heading = "j: one evaluation of an expression in µs, by the proved runner".to_string();
    let expressions = cases.expressions.iter();
    let verdicts = expressions.map(|case| verdict(case, case.proved() / 1e3, MOST_EVALUATION));
    [heading].into_iter().chain(verdicts).collect()
}

/// (k). No bound is set.
fn of_floors(cases: &Cases) -> Vec<String> {
    let heading = "k: a step's time by the floor to that by the owner".to_string();
    let pairs = cases.owner.iter().zip(&cases.floor);
    let quotients = pairs.map(|(owner, floor)| {
        let value = floor.proved() / owner.proved();
        let (name, rule) = (&floor.workload.name, floor.rule);
        format!("   {name}, rule {rule}: {value:.2}")
    });
    [heading].into_iter().chain(quotients).collect()
}

/// (i) and (l). What is refused costs one pass: where nothing is written, a
/// finished run costs the same, and elsewhere the second pass besides.
fn of_journals(cases: &Cases) -> Vec<String> {
    let mut lines = vec![];
    let heading = "l: a finished run's time with its journal, by the proved runner to the second's";
    lines.push(heading.to_string());
    let finished = cases.ended().map(|ended| &ended.finished);
    lines.extend(finished.map(|case| verdict(case, case.ratio(), MOST_WITH_JOURNAL)));
    lines.push("l: a finished run's time to that of the same run refused at its end".to_string());
    lines.extend(cases.ended().map(second_pass));
    lines
}

/// (m). A call that is carried on with no steps left takes a run up and writes its
/// checkpoint.
fn of_pauses(cases: &Cases) -> Vec<String> {
    let heading = "m: to write a checkpoint, and to take a run up and write one, in µs".to_string();
    let times = cases.paused.iter().map(|paused| {
        let (name, reading) = (&paused.workload.name, paused.reading() / 1e3);
        let times = [paused.writing(), paused.both()];
        let [writing, both] = times.map(|time| judged(time / 1e3, MOST_PAUSING));
        format!("   {name}: {writing}; {both}; beside {reading:.2} to read the sheets")
    });
    [heading].into_iter().chain(times).collect()
}

/// (n). No bound is set.
fn of_slices(cases: &Cases) -> Vec<String> {
    let heading = format!("n: the time of a run in slices of {SLICE} steps to that in one go");
    let times = cases.sliced.iter().map(|sliced| {
        let (name, more) = (&sliced.workload.name, sliced.more_a_slice() / 1e3);
        format!(
            "   {name}: {:.2}, {more:.2} µs more a slice",
            sliced.quotient()
        )
    });
    [heading].into_iter().chain(times).collect()
}

/// What a finished run takes beside the same run refused, and what of it each
/// write costs.
fn second_pass(ended: &Ended) -> String {
    let finished = ended.finished.whole();
    let beside = |case: &Case| format!("{:.2}", finished / case.whole());
    let spent = beside(&ended.spent);
    let full = ended.full.as_ref().map_or("-".to_string(), beside);
    let added = match ended.writes {
        0 => "nothing is written".to_string(),
        writes => {
            let each = (finished - ended.spent.whole()) / writes as f64;
            format!("{each:.2} ns more a write")
        }
    };
    let (name, rule) = (&ended.finished.workload.name, ended.finished.rule);
    format!("   {name}, rule {rule}: {spent} by 17, {full} by 18, {added}")
}

fn row(case: &Case) -> String {
    let unit = match case.workload.unit {
        Unit::Step => "a step",
        Unit::Run => "a run",
    };
    format!(
        "{:<30} {:>4} {:>12.2} {:>12.2} {:>6.2}  {unit}{}",
        case.workload.name,
        case.rule,
        case.proved(),
        case.second(),
        case.ratio(),
        whole_runs(case)
    )
}

/// The proved runner's time of a step or a run, and of what.
fn time_of(case: &Case) -> String {
    told(case, case.proved() / 1e3, "µs")
}

/// The proved runner's time of a whole call, and of what.
fn call_of(case: &Case) -> String {
    told(case, case.whole() / 1e6, "ms")
}

fn told(case: &Case, time: f64, unit: &str) -> String {
    let (name, rule) = (&case.workload.name, case.rule);
    format!("{time:.2} {unit} ({name}, rule {rule})")
}

/// The case of steps of which this time of the proved runner's is longest.
fn worst<'a, 'b>(cases: &'a Cases<'b>, time: impl Fn(&Case<'b>) -> f64) -> Option<&'a Case<'b>> {
    let cases = cases.steps();
    cases.max_by(|one, other| time(one).total_cmp(&time(other)))
}

/// Whole runs a second, where a run is short.
fn whole_runs(case: &Case) -> String {
    const MANY: f64 = 1000.0;
    let [proved, second] = case.runs_a_second();
    if second < MANY {
        return String::new();
    }
    format!(" (runs a second: {proved:.0} and {second:.0})")
}

fn verdict(case: &Case, value: f64, most: f64) -> String {
    let (name, rule) = (&case.workload.name, case.rule);
    format!("   {name}, rule {rule}: {}", judged(value, most))
}

fn judged(value: f64, most: f64) -> String {
    let standing = if value <= most {
        "at or below"
    } else {
        "ABOVE"
    };
    format!("{value:.2}, {standing} {most}")
}
