//! Operations that runs work out, and steps that are refused for one.

use super::working::{Cause, Fault, Working};
use crate::code::Command;
use crate::decode::Side;
use crate::expressions::{Expression, Operator};
use crate::rehearsal::{Rehearsal, Watch};
use crate::steps::Followed;
use crate::tally::Checklist;
use crate::values::{Kind, Value};

/// The rule that judges write views.
const CAPABILITY: u32 = 1;

/// Results that tell one reading of an operation from another.
const TELLING: [&str; 12] = [
    "sum past the greatest",
    "sum past the least",
    "difference past the greatest",
    "difference past the least",
    "less-than across the sign: false",
    "less-than across the sign: true",
    "equal integers",
    "equal truth values",
    "equal read views",
    "equal write views",
    "integers unlike by high bytes alone",
    "two kinds with one payload",
];

fn telling(operator: Operator, left: Value, right: Value) -> Option<usize> {
    match (operator, left, right) {
        (Operator::Sum, Value::Integer(left), Value::Integer(right)) => {
            let past = left.checked_add(right).is_none();
            past.then_some(usize::from(left < 0))
        }
        (Operator::Difference, Value::Integer(left), Value::Integer(right)) => {
            let past = left.checked_sub(right).is_none();
            past.then_some(2 + usize::from(left < 0))
        }
        (Operator::LessThan, Value::Integer(left), Value::Integer(right)) => {
            let across = (left < 0) != (right < 0);
            across.then_some(4 + usize::from(left < 0))
        }
        (Operator::Equal, _, _) if left == right => Some(6 + left.kind() as usize),
        (Operator::Equal, Value::Integer(left), Value::Integer(right)) => {
            (left as u32 == right as u32).then_some(10)
        }
        (Operator::Equal, _, _) => (left.payload() == right.payload()).then_some(11),
        _ => None,
    }
}

/// How a step is refused for an operation, each sort by its words.
const REFUSALS: [&str; 9] = [
    "13 in a left operand",
    "13 in a right operand",
    "15 in a left operand",
    "15 in a right operand",
    "15 for which a left operand's kind waits",
    "13 by the left kind",
    "13 by the right kind",
    "13 by both kinds",
    "13 by a read of a result",
];

/// The sorts that this fault is of.
fn sorts(fault: &Fault) -> Vec<usize> {
    let number = fault.number();
    let side = fault.side.map(|side| match (number, side) {
        (13, Side::Left) => 0,
        (13, Side::Right) => 1,
        (_, Side::Left) => 2,
        (_, Side::Right) => 3,
    });
    let waits = (number == 15 && fault.waited_for).then_some(4);
    let cause = match fault.cause {
        Cause::Kinds { left, right } => match (left, right) {
            (true, false) => Some(5),
            (false, true) => Some(6),
            _ => Some(7),
        },
        Cause::Read { of_operation: true } => Some(8),
        _ => None,
    };
    [side, waits, cause].into_iter().flatten().collect()
}

#[derive(Debug, Clone)]
pub struct Worked {
    operators: Checklist,
    results: Checklist,
    /// How deep expressions with an operation are.
    depths: Checklist,
    refusals: Checklist,
}

impl Default for Worked {
    fn default() -> Worked {
        let bytes = Operator::ALL.map(|operator| format!("{:02X}", operator.byte()));
        Worked {
            operators: Checklist::new("operations", bytes),
            results: Checklist::new("operands", TELLING),
            depths: Checklist::new("operations, by depth", 1..=Expression::MOST_DEPTH),
            refusals: Checklist::new("steps refused", REFUSALS),
        }
    }
}

impl Worked {
    /// Counts the step by which a run is refused, at this stage.
    pub fn count_refused(&mut self, followed: &Followed, stage: &Rehearsal) {
        let Followed {
            run,
            answer,
            blocks,
            ..
        } = followed;
        if !followed.is_whole() || !matches!(answer.number, 13 | 15) {
            return;
        }
        let refused = followed.refused();
        let region = blocks[answer.block].region;
        let capability = (run.rule == CAPABILITY).then_some(region);
        let fault = refused.and_then(|command| fault_of(stage, capability, &command));
        if let Some(fault) = fault.filter(|fault| fault.number() == answer.number) {
            sorts(&fault)
                .into_iter()
                .for_each(|sort| self.refusals.add(sort, 1));
        }
    }

    fn done(&self) -> [&Checklist; 3] {
        [&self.operators, &self.results, &self.depths]
    }

    pub fn lines(&self) -> Vec<String> {
        let done = self.done().into_iter();
        let lists = done.chain([&self.refusals]);
        lists.map(Checklist::to_string).collect()
    }

    /// What never came up in steps that were done, in words.
    pub fn complaints_of_steps_done(&self) -> Vec<String> {
        self.done().map(Checklist::complaints).concat()
    }

    /// What never came up, in words.
    pub fn complaints(&self) -> Vec<String> {
        [self.complaints_of_steps_done(), self.refusals.complaints()].concat()
    }
}

/// Operations of steps that were done.
impl Watch for Worked {
    fn sees(&mut self, stage: &Rehearsal, expression: &Expression) {
        if !expression.has_operation() {
            return;
        }
        if let Some(place) = expression.depth().checked_sub(1) {
            self.depths.add(place, 1);
        }
        let mut operated = |operator: Operator, left, right| {
            let all = Operator::ALL.into_iter();
            let place = all.take_while(|other| *other != operator).count();
            self.operators.add(place, 1);
            if let Some(place) = telling(operator, left, right) {
                self.results.add(place, 1);
            }
        };
        let _ = Working {
            stage,
            capability: None,
            operated: &mut operated,
        }
        .work(expression);
    }
}

/// What a command's next step is refused for inside its expressions.
fn fault_of(stage: &Rehearsal, capability: Option<u8>, command: &Command) -> Option<Fault> {
    let expressions = match command {
        Command::Assign { target, value } => vec![target, value],
        Command::If { guard, .. } | Command::While { guard, .. } => vec![guard],
        Command::Skip | Command::Sequence(_) => vec![],
    };
    let mut working = Working {
        stage,
        capability,
        operated: &mut |_, _, _| (),
    };
    for (place, expression) in expressions.iter().enumerate() {
        let value = match working.work(expression) {
            Ok(value) => value,
            Err(fault) => return Some(fault),
        };
        // A target that is no write view is refused before the value.
        if expressions.len() == 2 && place == 0 && value.kind() != Kind::WriteView {
            return None;
        }
    }
    None
}

#[cfg(test)]
mod tests {
    use super::*;
    use crate::ample::plain_run;
    use crate::code::{programme_sheet, Block};
    use crate::sheets::plain_store;

    fn integer(integer: i64) -> Expression {
        Expression::literal(Value::Integer(integer))
    }

    /// What is counted of a block of region 0 that puts this into slot 0, which
    /// is its own as slot 1 is not.
    fn counted(expression: Expression, rule: u32) -> Worked {
        let mut store = plain_store(2, 2);
        store.table.owners[1] = 1;
        let block = Block::plain(0, Command::set(0, expression));
        let sheet = programme_sheet(&[block]).bytes;
        let run = plain_run(&store.bytes(), &sheet, rule);
        let followed = Followed::of(&run, run.second().answer).expect("it takes place");
        let mut worked = Worked::default();
        let stage = followed.play(&mut worked);
        worked.count_refused(&followed, &stage);
        worked
    }

    /// What of these came up.
    fn came(list: &Checklist, things: &[&'static str]) -> Vec<&'static str> {
        let complaints = list.complaints().join("\n");
        let missing = |thing: &str| complaints.contains(&format!(": {thing} never came up"));
        let things = things.iter().copied();
        things.filter(|thing| !missing(thing)).collect()
    }

    #[test]
    fn telling_results_are_counted() {
        let known = [
            (Operator::Sum, i64::MAX, 1, Some(TELLING[0])),
            (Operator::Sum, -1, i64::MIN, Some(TELLING[1])),
            (Operator::Difference, 0, i64::MIN, Some(TELLING[2])),
            (Operator::Difference, i64::MIN, 1, Some(TELLING[3])),
            (Operator::LessThan, 0, -1, Some(TELLING[4])),
            (Operator::LessThan, -1, 0, Some(TELLING[5])),
            (Operator::Equal, 7, 7, Some(TELLING[6])),
            (Operator::Equal, 7, 7 + (1 << 32), Some(TELLING[10])),
            (Operator::Sum, 1, 2, None),
            (Operator::LessThan, 1, 2, None),
        ];
        for (operator, left, right, expected) in known {
            let expression = Expression::operation(operator, integer(left), integer(right));
            let worked = counted(expression, 3);
            let results = came(&worked.results, &TELLING);
            assert_eq!(results, Vec::from_iter(expected), "{operator:?}");
        }
    }

    #[test]
    fn refused_steps_are_counted() {
        let truth = || Expression::literal(Value::Truth(true));
        let view = || Expression::literal(Value::WriteView(1));
        let misread = || Expression::read(integer(0));
        let sum = |left, right| Expression::operation(Operator::Sum, left, right);
        let known: [(Expression, &[usize]); 9] = [
            (sum(misread(), view()), &[0]),
            (sum(integer(1), misread()), &[1]),
            (sum(view(), misread()), &[2]),
            (sum(integer(1), view()), &[3]),
            (sum(truth(), view()), &[3, 4]),
            (sum(truth(), integer(1)), &[5]),
            (sum(integer(1), truth()), &[6]),
            (sum(truth(), truth()), &[7]),
            (Expression::read(sum(integer(1), integer(1))), &[8]),
        ];
        for (expression, sorts) in known {
            let worked = counted(expression, CAPABILITY);
            let expected: Vec<&str> = sorts.iter().map(|sort| REFUSALS[*sort]).collect();
            assert_eq!(came(&worked.refusals, &REFUSALS), expected);
        }
        let inside = sum(sum(truth(), integer(1)), view());
        let worked = counted(inside, CAPABILITY);
        let expected = [REFUSALS[0], REFUSALS[5]];
        assert_eq!(came(&worked.refusals, &REFUSALS), expected);
    }
}
