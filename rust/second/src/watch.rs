//! What may watch a run. The steps are generic over it, so that a run which nothing
//! watches does no more than run.

use crate::code::Command;
use crate::evaluate::Labelled;
use crate::operation::Operator;
use crate::order::Principal;
use crate::programme::Region;
use crate::step::{Assignment, Cause};
use crate::value::{SlotNumber, Value};
use crate::way::Taken;

/// How a value came about, as far as it is kept: it goes along with the value while
/// an expression is evaluated.
pub(crate) trait Trail {
    fn literal() -> Self;
    /// Of what a slot held, read through a view with this trail.
    fn read(view: Self, slot: SlotNumber, owner: Principal, value: Value) -> Self;
    /// Of what an operation gave, its left operand evaluated first.
    fn computed(operator: Operator, left: Self, right: Self) -> Self;
}

/// Nothing is kept.
impl Trail for () {
    fn literal() {}

    fn read(_view: (), _slot: SlotNumber, _owner: Principal, _value: Value) {}

    fn computed(_operator: Operator, _left: (), _right: ()) {}
}

/// A command that is to make a step: where it stands, for whom it runs, and under
/// which branch label.
#[derive(Clone, Copy)]
pub(crate) struct Here {
    pub block: usize,
    pub offset: u32,
    pub region: Region,
    pub branch: Principal,
}

/// A guard that was judged.
pub(crate) struct Guard<T> {
    pub guard: Labelled<T>,
    pub holds: bool,
    /// The branch label inside the part that it leads to.
    pub inside: Principal,
}

/// What a run tells as it goes on.
pub(crate) trait Watch {
    type Trail: Trail;

    /// A step was made, and with it there are so many: a guard was judged.
    fn judged(&mut self, here: Here, steps: u32, guard: Guard<Self::Trail>);

    /// The same of an assignment, over this old value.
    fn wrote(&mut self, here: Here, steps: u32, old: Value, made: Assignment<Self::Trail>);

    /// A part of a command is run next, or what is left of it.
    fn entered(&mut self, command: &Command, taken: Taken);

    /// It was run to its end.
    fn left(&mut self, command: &Command);

    /// The run is refused here, after so many steps.
    fn stopped(&mut self, here: Here, steps: u32, cause: Cause<Self::Trail>);
}

/// Nothing watches.
pub(crate) struct Unwatched;

impl Watch for Unwatched {
    type Trail = ();

    fn judged(&mut self, _here: Here, _steps: u32, _guard: Guard<()>) {}

    fn wrote(&mut self, _here: Here, _steps: u32, _old: Value, _made: Assignment<()>) {}

    fn entered(&mut self, _command: &Command, _taken: Taken) {}

    fn left(&mut self, _command: &Command) {}

    fn stopped(&mut self, _here: Here, _steps: u32, _cause: Cause<()>) {}
}
