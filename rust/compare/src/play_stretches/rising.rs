//! Loops whose guard's label is low in one round and higher in the next.

use crate::code::{programme_sheet, Block, Command, Endorsement};
use crate::expressions::Expression;
use crate::lattices::Lattice;
use crate::random::Random;
use crate::sheets::{Store, Table};
use crate::values::Value;

/// The slots of a loop: the guard reads what `VIEW` shows, `LOW` and after a round
/// `HIGH`, which is then turned off by `SPARE`.
const LOW: u8 = 0;
const VIEW: u8 = 1;
const HIGH: u8 = 2;
const SPARE: u8 = 3;

/// Good sheets with such a loop. Where rule 3 judges its branches, they stop it in the
/// first round, unless the block is endorsed.
pub fn rising_sheets(random: &mut Random) -> (Vec<u8>, Vec<u8>) {
    let lattice = loop {
        let lattice = Lattice::random(random);
        if lattice.principals() > 1 {
            break lattice;
        }
    };
    let top = lattice.top();
    let low = random.pick(&lattice.principals_where(|principal| principal != top));
    let high = random.pick(&lattice.principals_where(|high| !lattice.at_or_below(high, low)));
    let endorsement = match random.one_in(2) {
        true => Endorsement::DownTo(lattice.bottom()),
        false => Endorsement::Absent { ignored: 0 },
    };
    let store = Store {
        table: Table {
            lattice,
            owners: vec![low, top, high, top],
        },
        values: vec![
            Value::Truth(true),
            Value::ReadView(LOW),
            Value::Truth(true),
            Value::Truth(true),
        ],
    };
    let command = rising_loop(random);
    let block = Block {
        region: top,
        endorsement,
        command: placed(random, command),
    };
    (store.bytes(), programme_sheet(&[block]).bytes)
}

fn rising_loop(random: &mut Random) -> Command {
    let literal = Expression::literal;
    let mut body = vec![
        Command::set(HIGH, Expression::read_of(SPARE)),
        Command::set(SPARE, literal(Value::Truth(false))),
        Command::set(VIEW, literal(Value::ReadView(HIGH))),
    ];
    for _ in 0..random.below(3) {
        let place = random.below(body.len() + 1);
        body.insert(place, Command::Skip);
    }
    let guard = Expression::reads(2, Value::ReadView(VIEW));
    Command::while_do(guard, Command::all(body))
}

/// As the block's own command, or inside others.
fn placed(random: &mut Random, command: Command) -> Command {
    let yes = || Expression::literal(Value::Truth(true));
    match random.below(4) {
        0 => Command::Sequence(vec![Command::Skip, command, Command::Skip]),
        1 => Command::if_else(yes(), command, Command::Skip),
        2 => Command::Sequence(vec![
            Command::if_else(yes(), command, Command::Skip),
            Command::Skip,
        ]),
        _ => command,
    }
}
